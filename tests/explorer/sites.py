"""Folders that explorer/site makes, and what it refuses."""
import json
import shutil
import subprocess
import sys
from pathlib import Path

from driven import check, end_section
from files import ENTRIES, ENTRY, copy_levels, patched, rehashed

TOP = Path(__file__).resolve().parents[2]
PAGE = ["awari_module.js", "explorer.js", "icon.png", "icon.svg", "index.html", "manifest.webmanifest", "service_worker.js", "style.css"]


def make(*words):
    """What explorer/site says, with its status."""
    done = subprocess.run([sys.executable, TOP / "explorer/site", *map(str, words)], capture_output=True, text=True, check=False)
    return done.returncode, done.stdout, done.stderr


def made_folder(folder, made):
    there = made / "made"
    status, told, faults = make(folder, there, "--levels", 8)
    check("it is made", [status, faults], [0, ""])
    check("it is said", told.startswith(f"{there}: the page and levels 0 to 8, 0.8 MB\nThe digest "))
    digests = [(folder / f"level_{number:02}.awdb").read_bytes()[-32:].hex() for number in range(9)]
    check("its digest is that of docs/levels.csv", f"The digest {digests[8]} is that of docs/levels.csv" in told)
    for word in ["python3 -m http.server", "nginx", "caddy", "object store", "Range", "Caching", "Compression"]:
        check(f"how to serve it: {word}", word in told)
    for name in PAGE:
        check(f"{name} is there", (there / name).read_bytes() == (TOP / "explorer" / name).read_bytes())
    levels = json.loads((there / "levels/index.json").read_text())["levels"]
    check("the index", [level["digest"] for level in levels], digests)
    for level in levels:
        path = there / f"levels/level_{level['number']:02}.awdb"
        check(f"level {level['number']}", [path.stat().st_size, path.read_bytes()[-32:].hex()], [level["bytes"], level["digest"]])
    (there / "levels/level_05.awdb").unlink()
    (there / "mine").write_text("mine")
    check("it is made anew", make(folder, there)[0], 0)
    check("with more levels", len(json.loads((there / "levels/index.json").read_text())["levels"]), 11)
    check("what else is there stays", (there / "mine").read_text(), "mine")
    check("what it was made of stays", sorted(path.name for path in folder.iterdir())[-1], "level_10.awdb")


def refused(folder, made):
    there = made / "refused"
    there.mkdir()
    check("no level", make(there, made / "none"), (1, "", f"explorer/site: {there} has no level_00.awdb\n"))
    check("nothing is made then", (made / "none").exists(), False)
    shutil.rmtree(there)
    copy_levels(folder, there, 5)
    path, right = there / "level_04.awdb", (there / "level_04.awdb").read_bytes()
    wrong = {
        "cut": (right[:-1], "has 8273 bytes, and level 4 has 8274"),
        "another header": (patched(4, b"\0\3")(right, None), "is no file of level 4"),
        "another below": (rehashed(patched(30, b"below")(right, None)), "was built over another level 3"),
    }
    for what, (content, said) in wrong.items():
        path.write_bytes(content)
        status, _, faults = make(there, made / "none")
        check(f"{what} is refused", [status, said in faults], [1, True])
    path.write_bytes(rehashed(patched(ENTRIES + ENTRY * 40, b"\1")(right, None)))
    (there / "level_05.awdb").unlink()
    status, _, faults = make(there, made / "wrong")
    check("another digest is told", [status, faults], [0, "The digest of level 4 is not that of docs/levels.csv, so that file is wrong\n"])
    (made / "site_of_itself").mkdir()
    copy_levels(folder, made / "site_of_itself/levels", 2)
    check("the folder itself is refused", make(made / "site_of_itself/levels", made / "site_of_itself")[0], 1)
    check("a level that there is not", make(folder, made / "none", "--levels", 25)[0], 2)


def sites(folder, made):
    made_folder(folder, made)
    refused(folder, made)
    end_section("folders that explorer/site makes")
