"""The page as an app: kept by the browser if it came from a server, and used with no network. Nothing of this from the disk."""
import hashlib
import shutil

from driven import FIRST, PAGE, Page, check, end_section, run, until
from hosted import serving
from sites import make

# No network, and what browsers say of that.
GONE = r"net::ERR_CONNECTION_REFUSED|ERR_FAILED|An unknown error occurred when fetching the script|level_\d\d\.awdb|index\.json"
IS_KEPT = """return navigator.serviceWorker.getRegistration().then(it => Boolean(it?.active) && Boolean(navigator.serviceWorker.controller))"""
KEPT_FILES = """return caches.keys().then(names => Promise.all(names.map(name => caches.open(name).then(it => it.keys()))))
  .then(all => all.map(them => them.map(({ url }) => url.split('/').at(-1)).sort()))"""
NAMES = ["awari_module.js", "explorer.js", "icon.png", "icon.svg", "index.html", "manifest.webmanifest", "style.css"]


def is_kept(page):
    return until(lambda: page.js(IS_KEPT))


def works_offline(awari, folder, made):
    site = made / "app"
    check("a site", make(folder, site, "--levels", 6)[0], 0)
    server = serving("-c", PLAIN_BY_PORT, site)
    address = server.__enter__()
    try:
        page = Page(page=f"{address}index.html", told=GONE)
        check("the browser keeps the page", is_kept(page))
        check("its files", page.js(KEPT_FILES), [NAMES])
        check("it may be installed", installability(page), [])
        page.at("#build-top").clear()
        page.at("#build-top").send_keys("9")
        page.click("#build")
        until(lambda: page.text("#folder-name").startswith("Levels 0 to 9"))
        size = sum((folder / f"level_{number:02}.awdb").stat().st_size for number in [7, 8, 9]) / 1e6
        check("how much it keeps", page.text("#kept-told"), f"This browser keeps levels to 9, {size:.1f} MB, until you clear it.")
    finally:
        server.__exit__(None, None, None)
    with page:
        page.begin(FIRST)
        check("it opens with no server", [page.text("h1"), page.value()], ["Awari explorer", 4])
        until(lambda: page.js("return document.querySelectorAll('.levels .verified').length") == 3)
        page.show("0,1,0,2,0,1/0,2,0,0,2,1")
        check("with the levels that it built", page.moves(), run(awari, "moves", folder, page.word()))
        check("by the proved code", page.text("#worth-standing"), "by the proved code")
        page.begin("puzzle=34,9,11")
        check("with puzzles", until(lambda: "by one move alone" in page.text("#puzzle-told")))
        page.driver.get(address)
        check("by the address of its folder", until(lambda: page.text("h1") == "Awari explorer"))
    end_section("the page with no network")


# A server that a later one can take the place of.
PLAIN_BY_PORT = """import http.server, functools, sys
class Server(http.server.ThreadingHTTPServer):
    allow_reuse_address = True
handler = functools.partial(http.server.SimpleHTTPRequestHandler, directory=sys.argv[1])
server = Server(("127.0.0.1", 0), handler)
print(f"http://127.0.0.1:{server.server_port}/", flush=True)
server.serve_forever()"""


def installability(page):
    found = page.driver.execute_cdp_cmd("Page.getInstallabilityErrors", {})["installabilityErrors"]
    # a browser that nobody looks at installs nothing
    return [error["errorId"] for error in found if error["errorId"] not in ["in-incognito", "not-in-main-frame"]]


def takes_a_new_version(folder, made):
    site = made / "newer"
    check("a site", make(folder, site, "--levels", 6)[0], 0)
    with serving("-c", PLAIN_BY_PORT, site) as address, Page(page=f"{address}index.html", told=GONE) as page:
        is_kept(page)
        script = (site / "service_worker.js").read_text()
        index = (site / "index.html").read_text().replace("<h1>Awari explorer</h1>", "<h1>A newer explorer</h1>")
        (site / "index.html").write_text(index)
        page.begin()
        check("without a new version the old one is shown", page.text("h1"), "Awari explorer")
        version = script.split('VERSION = "')[1][:16]
        (site / "service_worker.js").write_text(script.replace(version, hashlib.sha256(index.encode()).hexdigest()[:16]))
        page.begin()
        until(lambda: page.js("return caches.keys()").count(f"awari-explorer {version}") == 0)
        page.begin()
        check("then the new one", page.text("h1"), "A newer explorer")
        check("of the old nothing is left", len(page.js("return caches.keys()")), 1)
        shutil.rmtree(site / "levels")
    end_section("a newer page")


def nothing_from_the_disk(page):
    page.begin()
    check("no manifest from the disk", page.all("link[rel=manifest]"), [])
    check("which is the page of the disk", page.js("return location.href.split('#')[0]"), PAGE)


def apps(awari, folder, made):
    works_offline(awari, folder, made)
    takes_a_new_version(folder, made)
