"""Servers that are slow or that lie: worths and lines over a network, and what is said of files that are not right."""
from driven import FIRST, Page, check, end_section, run, until
from hosted import ENDS, TOP, serving
from sites import make

MILLISECONDS_A_REQUEST = 80
# Answers each request after so long, by parts.
SLOW = f"""import sys, time
sys.path.insert(0, {str(TOP / "examples")!r})
import serve_levels
from functools import partial
from http.server import ThreadingHTTPServer
class Slow(serve_levels.Parts):
    def do_GET(self):
        time.sleep({MILLISECONDS_A_REQUEST} / 1000)
        super().do_GET()
server = ThreadingHTTPServer(("127.0.0.1", 0), partial(Slow, directory=sys.argv[1]))
print(f"http://127.0.0.1:{{server.server_port}}/", flush=True)
server.serve_forever()"""
# Gives the entries of level 8 for those of level 9, ends too soon with level 10, and has a page for what it has not.
LYING = f"""import sys
sys.path.insert(0, {str(TOP / "examples")!r})
import serve_levels
from functools import partial
from http.server import ThreadingHTTPServer
class Lying(serve_levels.Parts):
    def do_GET(self):
        if "level_09" in self.path:
            self.path = self.path.replace("level_09", "level_08")
        if "level_10" in self.path and "Range" in self.headers and not self.headers["Range"].startswith("bytes=0-"):
            self.headers.replace_header("Range", "bytes=0-2")
        super().do_GET()
    def send_error(self, *words):
        self.send_response(200)
        self.end_headers()
        self.wfile.write(b"<!doctype html><title>Not here</title>")
server = ThreadingHTTPServer(("127.0.0.1", 0), partial(Lying, directory=sys.argv[1]))
print(f"http://127.0.0.1:{{server.server_port}}/", flush=True)
server.serve_forever()"""
# When something was first so, in milliseconds after the page was asked for or a pit was played.
WATCH = """window.began = performance.now();
window.seen = {};
window.told = new Set();
new MutationObserver(() => {
  const now = performance.now() - window.began;
  const worth = document.getElementById('worth'), line = document.getElementById('line');
  const value = document.getElementById('value')?.textContent ?? '?';
  if (worth?.getAttribute('aria-busy') === 'false' && value !== '?') window.seen.worth ??= now;
  const plies = line?.querySelectorAll('li').length ?? 0;
  if (plies > 0 && !line.classList.contains('waiting')) window.seen.first ??= now;
  if (plies >= 40) window.seen.forty ??= now;
  for (const box of [worth, line]) if (box?.textContent.includes('is not there')) window.told.add(box.id);
}).observe(document, { childList: true, subtree: true, attributes: true });"""


def slow_server(awari, more, made):
    """The levels to 12 are the program's, and the line is longer than forty plies."""
    site = made / "slow"
    check("a site", make(more, site)[0], 0)
    board = run(awari, "boards", more, 12, "--distance", "70..", "--most", 1).split()[0]
    with serving("-c", SLOW, site) as address, Page(page=f"{address}index.html") as page:
        page.driver.execute_cdp_cmd("Page.addScriptToEvaluateOnNewDocument", {"source": WATCH})
        page.driver.get("about:blank")
        page.driver.get(f"{page.page}#{board}")
        check("forty plies come", until(lambda: page.js("return window.seen.forty")))
        seen, told = page.js("return [window.seen, [...window.told]]")
        print(f"at {MILLISECONDS_A_REQUEST} ms a request: worths after {seen['worth']:.0f} ms, forty plies {seen['forty'] - seen['worth']:.0f} ms later")
        check(f"within five seconds, and not in {seen['forty'] - seen['worth']:.0f} ms", seen["forty"] - seen["worth"] < 5000)
        check("the line grows", seen["first"] < seen["forty"] - 1000)
        check("nothing was said to be missing that came", told, [])
        page.settle()
        line = run(awari, "line", more, board).splitlines()[1].split()[1:]
        check("the line", page.plies("#line")[:40], line[:40])
        check("the worths", page.moves(), run(awari, "moves", more, board))
        after_a_click(page, awari, more)
    end_section(f"a server with {MILLISECONDS_A_REQUEST} ms a request")


def after_a_click(page, awari, more):
    times = []
    for _ in range(5):
        pit = run(awari, "ask", more, page.word()).split()[1]
        page.js("""window.seen = {}; window.began = performance.now();
          document.querySelector(`.pit[data-pit="${arguments[0]}"]`).click()""", pit)
        until(lambda: page.js("return window.seen.worth"))
        times.append(page.js("return window.seen.worth"))
        page.settle()
    print(f"worths {sorted(times)[2]:.0f} ms after a click")
    check(f"worths 300 ms after a click, and not {times}", sorted(times)[2] < 300)
    check("they are right", page.moves(), run(awari, "moves", more, page.word()))


def lying_server(awari, folder, made):
    site = made / "lying"
    check("a site", make(folder, site)[0], 0)
    with serving("-c", LYING, site) as address, Page(page=f"{address}index.html", told="index.json|level_") as page:
        check("its levels", until(lambda: "Levels to 10 of this server" in page.text("#folder-name")))
        page.show("0,1,0,2,0,1/0,2,0,0,1,1")
        check("a right one", page.moves(), run(awari, "moves", folder, page.word()))
        page.show("0,1,0,2,0,1/0,3,0,0,1,1")
        said = "level_09.awdb is too long: it has 1,007,844 bytes, and level 8 has 453,576 (67 Trailing)"
        check("another level is told", until(lambda: said in page.text("#worth")))
        check("and not shown", page.text("#value"), "?")
        page.show("0,1,0,2,0,1/0,3,0,0,2,1")
        check("other parts are told", until(lambda: "another part of level_10.awdb" in page.text("#worth")))
        page.show(FIRST)
        check("what the page built is right", [page.value(), page.text("#worth-standing")], [4, "by the proved code"])
    (site / "levels/index.json").unlink()
    (site / "levels/level_10.awdb").unlink()
    with serving("-c", LYING, site) as address, Page(page=f"{address}index.html", told="index.json|level_") as page:
        until(lambda: page.text("#notice"))
        check("a page for what is not there is no level", "level_10" in page.text("#notice"), False)
        check("another level under a name is told", "level_09.awdb" in page.text("#notice"))
    end_section("a server that lies")
