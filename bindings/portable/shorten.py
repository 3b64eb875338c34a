"""Shortens what wasm2c writes of bindings/awari.wasm, without a change of its meaning.

    python3 shorten.py MODULE C_FILE

prints the functions and the data of the module. What wasm2c puts before them, its runtime, is left out: machine.h
stands in its place. Names become shorter, numbers decimal, and blanks go.
"""
import hashlib
import re
import sys

BEGIN, END = "static void init_globals(", "/* export: 'memory' */"
# what goes, and what stands in its place
SHORTER = [
    (r"\bZ_awari_instance_t ?\* ?", "M *"),
    (r"&instance->w2c_memory, &instance->w2c_memory, ", "m, "),
    (r"\binstance->w2c_memory\.", "m->"),
    (r"&?instance->w2c_memory\b", "m"),
    (r"instance->w2c_g0", "m->g0"),
    (r"\binstance\b", "m"),
    (r"\bw2c_Bfunc\b", "end"),
    # an address of 32 bits, and what is added to it; the sum has more
    (r"\(u64\)\((w2c_\w+)\)(?: \+ (\d+)u?)?(?=[,)])", lambda found: f"{found[1]}, {found[2] or 0}"),
    (r"\bw2c_(?=[a-zA-Z]\d)", ""),
    (r"\bdata_segment_data_", "data_"),
    (r"\b0x([0-9a-f]{2}),", lambda found: f"{int(found[1], 16)},"),
    (r"FUNC_(PROLOGUE|EPILOGUE);\n", ""),
    (r" *(==|!=|<=|>=|<<=|>>=|[-+*&|^]=|=|<|>|,|\?|\{|:(?!;)) *", r"\1"),
    (r"\bif \(", "if("),
    (r"\bwasm_rt_grow_memory\b", "grow_memory"),
    (r"\bLOAD_DATA\b", "lay_data"),
]


# the greatest width of a line
WIDTH = 118


def joined(lines):
    """The same in fewer lines; a function, and an array, begins one."""
    held = ""
    for line in lines:
        if held and (line.startswith("static") or len(held) + len(line) > WIDTH):
            yield held
            held = ""
        held += line
    yield held


def shortened(text):
    prototypes, rest = re.findall(r"^static \w+ w2c_\w+\([^{]*?\);\n", text, re.MULTILINE), text[text.index(BEGIN) : text.index(END)]
    rest = re.sub(r"^static void init_data_instances.*\n}\n", "", rest, flags=re.MULTILINE)
    # whoever starts an instance takes its first pages before
    (pages,) = re.findall(r"wasm_rt_allocate_memory\(&instance->w2c_memory, (\d+), \d+\);\n", rest)
    rest = re.sub(r" *wasm_rt_allocate_memory\(.*\n", "", rest)
    rest = f"enum {{ FIRST_PAGES = {pages} }};\n" + "".join(prototypes) + rest
    rest = re.sub(r"^[ \t]+|[ \t]+$", "", rest, flags=re.MULTILINE)
    for what, other in SHORTER:
        rest = re.sub(what, other, rest)
    return "\n".join(joined(rest.split("\n")))


def main(module, made):
    with open(module, "rb") as file:
        digest = hashlib.sha256(file.read()).hexdigest()
    print(f"/* Made by bindings/portable/make, by wasm2c and shorten.py, of the module {digest}. */")
    with open(made, encoding="ascii") as file:
        print(shortened(file.read()))


if __name__ == "__main__":
    main(*sys.argv[1:])
