"""How the page takes files: chosen or dropped, large, wrong, or missing."""
import hashlib
import math
import re
import shutil
import struct
import time

from driven import FIRST, check, end_section, random_board, run, until

ENTRIES, ENTRY, DIGEST = 52, 6, 32


def other_ways_in(page, folder):
    """The folder dropped on the page, files dropped and files chosen."""
    few = sorted(folder.glob("level_0[0-4].awdb"))
    for what, paths, levels in [("a folder", [folder], 11), ("files", few, 5)]:
        page.begin()
        data = {"items": [], "files": [str(path) for path in paths], "dragOperationsMask": 1}
        for kind in ["dragEnter", "dragOver", "drop"]:
            page.driver.execute_cdp_cmd("Input.dispatchDragEvent", {"type": kind, "x": 300, "y": 300, "data": data})
        wanted = f"{levels} levels, up to {levels - 1} stones"
        check(f"{what} dropped", until(lambda: wanted in page.text("#folder-name")))
    page.begin(FIRST)
    page.open(*few, by="#pick-files")
    check("files chosen", page.text("#folder-name"), "5 levels, up to 4 stones")
    check("the board of the address", page.word(), FIRST)
    page.begin()
    page.open(folder)
    end_section("a folder dropped, files dropped and chosen")


def reads_little(page, folder, made):
    there = made / "damaged"
    copy_levels(folder, there, 10)
    damage(there / "level_05.awdb")
    page.open(there)
    check("levels above a damaged one are not verified", len(page.all(".levels .unverified")), 5)
    page.show(random_board(10))
    check("which is said", page.text("#worth-standing"), "not verified")
    until(lambda: page.text("#level-won"))
    page.js("""window.lengths = []; const slice = Blob.prototype.slice;
      Blob.prototype.slice = function (from, to) {
        window.lengths.push((to ?? this.size) - from);
        return slice.apply(this, arguments);
      }""")
    page.show("0,1,0,2,0,1/0,3,0,0,2,1")
    check("only entries are read", set(page.js("return window.lengths")), {ENTRY})
    page.open(folder)
    page.show("0,1,0,2,0,1/0,3,0,0,2,0")
    until(lambda: page.text("#level-won"))
    page.js("window.lengths = []")
    page.show("0,1,0,2,0,1/0,3,0,0,2,0")
    page.show("1,1,0,2,0,1/0,3,0,0,1,0")
    check("of verified levels nothing is read", page.js("return window.lengths"), [])
    check("which is said too", page.text("#worth-standing"), "by the proved code")
    end_section("lazy reading")


def make_sparse_level(folder, number):
    """A file with the size and the header of this level. All of its boards are even at once."""
    count = math.comb(number + 11, 11)
    header = struct.pack(">4sHBBQI32s", b"AWDB", 2, number, 0, count, 0, bytes(DIGEST))
    folder.mkdir()
    with (folder / f"level_{number:02}.awdb").open("wb") as file:
        file.write(header)
        file.truncate(len(header) + ENTRY * count + DIGEST)


def large_level(page, made):
    make_sparse_level(made / "large", 24)
    page.show("2,2,2,2,2,2/2,2,2,2,2,2")
    began = time.time()
    page.open(made / "large")
    seconds = time.time() - began
    check(f"a level of 2.5 GB opens at once, and not in {seconds:.1f} s", seconds < 3)
    check("its board is shown", page.text("#value"), "0")
    check("it is not counted unasked", page.all("#picture-values"), [])
    check("it says how much there is to read", page.text("#count"), "Count the boards (2.50 GB)")
    page.click("#count")
    is_going = until(lambda: 0 < float(page.js("return document.querySelector('progress')?.value ?? 0")) < 1)
    check("counting says how far it is", is_going)
    began = time.time()
    page.show("2,2,2,2,2,2/2,2,2,2,2,1")
    page.show("2,2,2,2,2,2/2,2,2,2,2,2")
    check(f"the page answers meanwhile, and not in {time.time() - began:.1f} s", time.time() - began < 5)
    page.click("#stop-counting")
    check("it can be stopped", until(lambda: not page.all("progress") and page.all("#count")))
    check("which is said", page.said().endswith("level_24.awdb: stopped"))
    end_section("a large level: opened at once, counted with a way to stop")


def wrong_files(page, awari, folder, made):
    """Each is told by the number for which the program refuses it."""
    for name, (level, change) in WRONG_FILES.items():
        there = made / name.replace(" ", "_")
        copy_levels(folder, there, 5)
        path = there / f"level_{level:02}.awdb"
        path.write_bytes(change(path.read_bytes(), folder))
        refused = run(awari, "verify", there).splitlines()[-1]
        number, fault = re.findall(r"(\d+) (\w+)", refused.removeprefix("refused 81 File"))[-1 if ":" in refused else 0]
        page.open(there)
        check(f"{name}: {refused}", f"({number} {fault})" in page.text("#notice"))
        page.click(f"#level-{level}")
        check(f"{name}: the summary tells it too", f"({number} {fault})" in page.text("#summary"))
        page.show("1,1,0,0,0,0/0,0,0,0,1,1" if level == 4 else "1,1,1,0,0,0/0,0,0,0,1,1")
        check(f"{name}: the board tells it too", f"({number} {fault})" in page.text("#worth"))
    end_section("files that are wrong, beside `awari verify`")


def copy_levels(folder, there, top):
    there.mkdir()
    for level in range(top + 1):
        shutil.copy(folder / f"level_{level:02}.awdb", there)


def patched(place, new):
    return lambda content, _: content[:place] + new + content[place + len(new) :]


def damage(path):
    """Changes one entry of a file, and not its digest."""
    path.write_bytes(patched(ENTRIES + ENTRY * 40 + 5, b"\x7f")(path.read_bytes(), None))


def rehashed(content):
    return content[:-DIGEST] + hashlib.sha256(content[:-DIGEST]).digest()


WRONG_FILES = {
    "another magic": (5, patched(0, b"GIF8")),
    "another version": (5, patched(4, b"\0\3")),
    "an old version": (5, lambda content, folder: rehashed(patched(4, b"\0\1")(content, folder))),
    "a level too high": (4, patched(6, b"\x40")),
    "another count": (4, patched(14, b"\1\1")),
    "a file that is cut off": (5, lambda content, _: content[:20000]),
    "an empty file": (5, lambda *_: b""),
    "a byte too many": (5, lambda content, _: content + b"x"),
    "another level": (5, lambda _, folder: (folder / "level_04.awdb").read_bytes()),
    "another level below": (5, lambda content, folder: rehashed(patched(30, b"below")(content, folder))),
    "a changed entry": (5, patched(ENTRIES + ENTRY * 4000, b"\x03")),
    "a changed digest": (5, lambda content, _: content[:-1] + bytes([content[-1] ^ 1])),
}


def lies(page, awari, folder, made):
    """Files with right digests that say something wrong: the proved code names the board and the rule."""
    there = made / "lies"
    copy_levels(folder, there, 5)
    path = there / "level_05.awdb"
    path.write_bytes(rehashed(patched(ENTRIES + ENTRY * 4000, b"\x02")(path.read_bytes(), folder)))
    rank, rule = re.search(r"rank (\d+) rule (V\d)", run(awari, "verify", there)).groups()
    page.open(there)
    check("it is told unasked", f"the board of rank {rank} breaks rule {rule} (83 Verify)" in page.text("#notice"))
    damage(there / "level_03.awdb")
    page.open(there)
    page.show(run(awari, "board", 5, rank))
    check("the page looks at what is not verified", f"breaks rule {rule}" in page.text("#worth"))
    check("which is said", page.text("#worth-standing"), "not verified")
    path = there / "level_04.awdb"
    path.write_bytes(rehashed(patched(16, b"\0\0\0\x63")(path.read_bytes(), folder)))
    page.open(there)
    page.click("#level-4")
    until(lambda: page.text("#level-won"))
    check("a limit that no board has", "(rule V7)" in page.text("#summary"))
    path.write_bytes(rehashed(patched(ENTRIES, b"\x05")(path.read_bytes(), folder)))
    page.open(there)
    page.show(run(awari, "board", 4, 0))
    check("a value that no board of the level can have", "breaks rule V1" in page.text("#worth"))
    end_section("files that are whole and say something wrong")


def missing_files(page, folder, made):
    there = made / "missing"
    copy_levels(folder, there, 9)
    (there / "level_08.awdb").unlink()
    (there / "level_03.awdb").unlink()
    page.begin()
    page.open(there)
    check("a gap is told", "Missing: level_08.awdb." in page.text("#notice"))
    check("what the page has built fills one", "built" in page.at("#level-3").get_attribute("class"))
    page.show("2,2,2,0,0,0/1,1,0,0,0,0")
    missing = "level_08.awdb, the level of the boards with 8 stones, is not there"
    check("the board tells it too", missing in page.text("#worth"))
    check("the summary says how to make it", "awari build 8" in page.text("#summary"))
    (there / "level_09.awdb").write_bytes(b"another")
    page.show("2,2,2,0,0,0/1,1,0,0,0,1")
    check("a file that changed while the page is open", "(68 Read)" in page.text("#worth"))
    others = made / "others"
    others.mkdir()
    (others / "notes.txt").write_text("no level")
    page.open(others)
    check("a folder without levels", "No levels were opened" in page.text("#notice"))
    page.click("#close")
    check("closed", page.text("#folder-name"), "Levels 0 to 7, by the proved code")
    page.open(folder)
    check("all is well again", page.js("return document.getElementById('notice').hidden"))
    end_section("files that are missing or go away")
