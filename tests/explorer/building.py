"""How the page opens and builds: first worths, levels built in slices, kept, saved and cleared."""
import time

from driven import FIRST, check, end_section, run, unsigned, until
from selenium.webdriver.common.keys import Keys

# When the first worth was on the screen, in milliseconds after the page was asked for.
FIRST_WORTH = """new MutationObserver(() => {
  const value = document.getElementById('value')?.textContent;
  if (value && value !== '?') window.firstWorth ??= performance.now();
}).observe(document, { childList: true, subtree: true, characterData: true });"""
# How long the page builds.
BUILD_TOOK = """const work = document.getElementById('work');
window.observer = new MutationObserver(() => {
  if (work.hidden) window.buildTook = performance.now() - window.buildBegan;
  else window.buildBegan ??= performance.now();
});
window.observer.observe(work, { attributes: true });"""
TRIES = 3
TOP = 10


def opens_alive(page):
    page.driver.execute_cdp_cmd("Page.addScriptToEvaluateOnNewDocument", {"source": FIRST_WORTH})
    times = []
    for _ in range(TRIES):
        page.begin()
        times.append(page.js("return window.firstWorth"))
    check(f"first worths within a second, and not in {min(times):.0f} ms", min(times) < 1000)
    check("levels 0 to 6 are there", len(page.all(".levels .built")), 7)
    check("the first board", [page.word(), page.value()], [FIRST, 4])
    check("by whom it is said", page.text("#worth-standing"), "by the proved code")
    print(f"first worths after {min(times):.0f} ms")
    end_section("the page opens with worths")


def build_to(page, top):
    """Builds by keys alone, and does not wait for it."""
    page.at("#build-top").send_keys(Keys.CONTROL, "a", Keys.NULL, str(top), Keys.ENTER)


def wait_for_build(page):
    until(lambda: not page.text("#work"))
    page.settle()


def builds(page, awari, folder, made):
    began = time.time()
    run(awari, "build", TOP, "--threads", 1)
    native = time.time() - began
    page.js(BUILD_TOOK)
    build_to(page, TOP)
    wait_for_build(page)
    took = page.js("return window.buildTook") / 1000
    print(f"building to {TOP}: {took:.2f} s in the page, {native:.2f} s by the program with one thread")
    check("built", page.text("#folder-name"), f"Levels 0 to {TOP}, by the proved code")
    for level in range(TOP + 1):
        page.click(f"#level-{level}")
        digest = (folder / f"level_{level:02}.awdb").read_bytes()[-32:].hex()
        check(f"level {level} has the digest of the program's", page.text("#level-digest"), digest)
    answers_meanwhile(page)
    saves(page, folder, made)
    keeps(page)
    end_section("levels built in the page, saved, kept and cleared")


def answers_meanwhile(page):
    build_to(page, 16)
    check("it says what it builds", until(lambda: "Building level" in page.text("#work")))
    shares = set()
    until(lambda: shares.add(page.js("return document.querySelector('#work progress')?.value ?? 1")) or len(shares) > 3)
    page.show("0,1,0,2,0,1/0,3,0,0,2,1")
    check("a board is answered meanwhile", page.text("#worth-standing"), "by the proved code")
    check("the bar goes on", len(shares) > 3)
    check("it is still at work", page.text("#build"), "Stop")
    page.focus("#build")
    page.press(Keys.ENTER)
    check("it can be stopped", until(lambda: page.text("#build") == "Build"))
    check("not all are built", page.all("#level-16.missing") != [])


def saves(page, folder, made):
    there = made / "saved"
    there.mkdir()
    page.driver.execute_cdp_cmd("Browser.setDownloadBehavior", {"behavior": "allow", "downloadPath": str(there)})
    page.click("#save")
    names = [f"level_{level:02}.awdb" for level in range(TOP + 1)]
    until(lambda: all((there / name).exists() for name in names))
    for name in names:
        until(lambda name=name: (there / name).stat().st_size == (folder / name).stat().st_size)
        check(f"{name} is saved as the program has it", (there / name).read_bytes() == (folder / name).read_bytes())


def keeps(page):
    top = page.text("#folder-name")
    page.begin("0,1,0,2,0,1/0,3,0,0,2,1")
    check("what was built is there again", until(lambda: page.text("#folder-name") == top))
    class_of = "return document.getElementById(arguments[0]).className"
    check("it was verified again", "verified" in page.js(class_of, f"level-{TOP}"))
    page.settle()
    check("its boards are worth something", -TOP <= unsigned(page.text("#value")) <= TOP)
    page.click("#clear-kept")
    until(lambda: "keeps no levels" in page.said())
    page.begin()
    time.sleep(0.5)
    check("cleared", page.text("#folder-name"), "Levels 0 to 6, by the proved code")
