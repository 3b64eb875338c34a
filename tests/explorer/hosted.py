"""The page and levels on a server: one that knows Range, and one that does not."""
import math
import re
import struct
import subprocess
import sys
from contextlib import contextmanager
from pathlib import Path

from driven import Page, check, end_section, run, until
from sites import PAGE, make

TOP = Path(__file__).resolve().parents[2]
SCRIPTS = PAGE
# A server that gives whole files alone.
PLAIN = """import http.server, functools, sys
handler = functools.partial(http.server.SimpleHTTPRequestHandler, directory=sys.argv[1])
server = http.server.ThreadingHTTPServer(("127.0.0.1", 0), handler)
print(f"http://127.0.0.1:{server.server_port}/", flush=True)
server.serve_forever()"""
# What browsers say of a file that a server does not have: so does a folder of levels end that has no index.
ENDS = r"(level_\d\d\.awdb|index\.json) - Failed to load resource.*404"
HIGHEST = 20


@contextmanager
def serving(*words):
    server = subprocess.Popen([sys.executable, *map(str, words)], stdout=subprocess.PIPE, stderr=subprocess.DEVNULL, text=True)
    try:
        yield server.stdout.readline().strip()
    finally:
        server.terminate()
        server.wait()


def make_site(folder, made):
    """The page beside levels 0 to 10, and beside sparse stand-ins of 11 to 20, of which each board is even."""
    site = made / "site"
    (site / "levels").mkdir(parents=True)
    for name in SCRIPTS:
        (site / name).symlink_to(TOP / "explorer" / name)
    for path in folder.glob("level_0*.awdb"):
        (site / "levels" / path.name).symlink_to(path)
    (site / "levels/level_10.awdb").symlink_to(folder / "level_10.awdb")
    below = (folder / "level_10.awdb").read_bytes()[-32:]
    for number in range(11, HIGHEST + 1):
        count = math.comb(number + 11, 11)
        with (site / f"levels/level_{number}.awdb").open("wb") as file:
            file.write(struct.pack(">4sHBBQI32s", b"AWDB", 2, number, 0, count, 0, below))
            file.truncate(84 + 6 * count)
        below = bytes(32)
    return site


def hosted_levels(awari, folder, made):
    site = make_site(folder, made)
    check("a site is made of it", make(site / "levels", site / "made")[0], 0)
    with serving(TOP / "examples/serve_levels.py", site, 0) as address:
        with Page(page=f"{address}index.html", told=ENDS) as page:
            by_parts(page, awari, folder)
        with Page(page=f"{address}made/index.html") as page:
            by_index(page, awari, folder)
        with Page(page=f"{address}index.html?levels=http://localhost:1/levels/") as page:
            check("another server is refused", until(lambda: "this server alone" in page.text("#notice")))
            check("the page has its own levels", page.value(), 4)
    with serving("-c", PLAIN, site) as address, Page(page=f"{address}index.html?levels=levels", told=ENDS) as page:
        check("a server that ignores Range is told", until(lambda: "ignores Range" in page.text("#notice")))
        until(lambda: len(page.all(".levels .verified")) >= 4)
        check("small levels are fetched and verified", [len(page.all(f".levels .{it}")) for it in ["built", "verified"]], [7, 4])
        page.show("0,1,0,2,0,1/0,3,0,0,2,1")
        check("a board of one", page.moves(), run(awari, "moves", folder, page.word()))
    end_section("levels of a server, by Range and whole")


def by_index(page, awari, folder):
    """The page finds its levels by itself, and reads the header of one before an entry is asked for."""
    check("the levels of the index", until(lambda: f"Levels to {HIGHEST} of this server" in page.text("#folder-name")))
    parts = sent_parts(page)
    check("one header is read", parts, {"level_07.awdb": [(0, 51)]})
    page.show("0,1,0,2,0,1/0,3,0,0,2,1")
    check("a board", page.moves(), run(awari, "moves", folder, page.word()))
    sent_parts(page)
    page.show("0,1,0,2,0,1/0,3,0,0,1,2")
    check("each level is looked at once", {last + 1 - first for found in sent_parts(page).values() for first, last in found}, {6})
    page.click("#level-9")
    check("the digest is compared", page.text("#level-known"), "that of docs/levels.csv")
    page.click("#level-15")
    check("so is a wrong one", "the file is wrong" in page.text("#level-known"))


def sent_parts(page):
    """Which bytes of which levels were asked for since the last time."""
    found = {}
    for message in [entry["message"] for entry in page.driver.get_log("performance")]:
        part = re.search(r'"Range":"bytes=(\d+)-(\d+)".*"url":"[^"]*(level_\d\d\.awdb)"', message)
        if part and '"Network.requestWillBeSent"' in message:
            found.setdefault(part[3], []).append((int(part[1]), int(part[2])))
    return found


def by_parts(page, awari, folder):
    check("the levels of the server", until(lambda: f"Levels to {HIGHEST} of this server" in page.text("#folder-name")))
    page.driver.get_log("performance")
    page.show("0,1,0,2,0,1/0,3,0,0,2,1")
    check("a board", page.moves(), run(awari, "moves", folder, page.word()))
    check("by whom it is said", page.text("#worth-standing"), "not verified")
    sent = [entry["message"] for entry in page.driver.get_log("performance")]
    parts = [re.findall(r'"Range":"bytes=(\d+)-(\d+)"', it) for it in sent if '"Network.requestWillBeSent"' in it]
    lengths = {int(last) + 1 - int(first) for found in parts for first, last in found}
    check("entries are asked for, and no more", lengths, {6})
    page.show("2,2,2,2,2,2/2,2,2,1,1,0")
    check("a board of level 20", page.text("#value"), "0")
    page.show("1,0,0,0,0,1/1,0,1,0,0,0")
    check("a small one", [page.value(), page.text("#worth-standing")], [4, "by the proved code"])
