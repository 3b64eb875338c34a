"""What is seen of the page, and what a voice reads out: contrast, names, the tabulator, widths, pictures."""
import itertools
import re
import shutil
import time

from driven import FIRST, Page, check, end_section, until
from files import copy_levels
from selenium.webdriver.common.keys import Keys

WIDTHS = [320, 360, 390, 560, 768, 1024, 1240]
# The buttons that choose a folder and files.
SHOWN = ["label[for='pick']", "label[for='pick-files']"]
# Width, height, whether it is dark, and how many points a pixel has.
LOOKS = {
    "light": (1240, 900, False, 1),
    "dark": (1240, 900, True, 1),
    "phone": (390, 844, False, 2),
    "phone_dark": (360, 740, True, 2),
}


# The contrast of each text with the colours behind it: those of a gradient, too, as the wood has.
CONTRAST = """
const parse = text => [...text.match(/[\\d.]+/g).map(Number), 1].slice(0, 4);
const channel = part => (part /= 255) <= .03928 ? part / 12.92 : ((part + .055) / 1.055) ** 2.4;
const light = ([red, green, blue]) => .2126 * channel(red) + .7152 * channel(green) + .0722 * channel(blue);
const opaque = text => (text.match(/rgba?\\([^)]*\\)/g) ?? []).map(parse).filter(color => color[3] === 1);
const behind = element => {
  for (let at = element; at; at = at.parentElement) {
    const style = getComputedStyle(at), found = [...opaque(style.backgroundImage), ...opaque(style.backgroundColor)];
    if (found.length) return found;
  }
  return [];
};
const ratio = (one, other) => (Math.max(one, other) + .05) / (Math.min(one, other) + .05);
const isText = element => [...element.childNodes].some(node => node.nodeType === 3 && node.textContent.trim());
const isSeen = element => element.offsetParent && !element.closest('.unseen, [hidden], :disabled, .button[aria-disabled=true], noscript');
const low = [];
for (const element of document.querySelectorAll('body *')) {
  if (!isText(element) || !isSeen(element)) continue;
  let faint = 1;
  for (let at = element; at; at = at.parentElement) faint *= getComputedStyle(at).opacity;
  const ink = light(parse(getComputedStyle(element).color));
  const least = Math.min(...behind(element).map(color => ratio(ink, light(color))));
  const name = `${element.className} ${element.textContent.trim().slice(0, 20)}`;
  if (least < 4.5 || faint < .99) low.push(`${name} ${least.toFixed(2)} ${faint}`);
}
return [...new Set(low)];
"""


def contrast(page, folder, made):
    wrong = made / "contrast"
    copy_levels(folder, wrong, 9)
    (wrong / "level_03.awdb").write_bytes(b"GIF8")
    open_texts(page)
    page.click("#table-north")
    for dark, there in itertools.product([False, True], [folder, wrong]):
        page.look(1240, 900, dark)
        page.open(there)
        page.show("1,0,2,0,1,1/1,2,1,0,0,1")
        page.click(".pit.open")
        until(lambda: len(page.all("#played li")) == 2)
        page.settle()
        page.click(".pit.open")
        page.click("#letters")
        page.click("#undo")
        until(lambda: page.all("#picture-values") or page.all("#summary .status"))
        check(f"contrast, {'dark' if dark else 'light'}, {there.name}", page.js(CONTRAST), [])
    page.click("#table-north")
    page.look(1240, 900)
    page.open(folder)
    end_section("contrast of every text, light and dark")


def open_texts(page, are_open=True):
    """Opens the help and the rules, or shuts them."""
    page.js("for (const name of ['help', 'rules']) document.getElementById(name).open = arguments[0]", are_open)


def names(page):
    open_texts(page)
    page.click("#edit")
    for element in page.all("button, input, [role]"):
        if not page.js("return arguments[0].closest('[hidden]')", element) and element.get_attribute("role") != "alert":
            check(f"name of {element.get_attribute('outerHTML')[:80]}", bool(element.accessible_name.strip()))
    page.click("#edit")
    open_texts(page, False)
    ids = page.js("return [...document.querySelectorAll('[id]')].map(element => element.id)")
    check("no name is given twice", len(ids), len(set(ids)))
    end_section("names for a voice")


def tabulator(page):
    """The board and each picture are one stop, and nothing holds the focus."""
    page.begin(FIRST)
    until(lambda: page.all("#picture-values"))
    page.js("document.getElementById('help').open = true")
    stops = []
    while len(stops) < 200 and "keep-low" not in stops:
        page.press(Keys.TAB)
        stops.append(page.js("const at = document.activeElement; return at.id || at.className.split(' ')[0]"))
    check("the board is one stop", stops.count("pit"), 1)
    check("the pictures are two", stops.count("plot"), 2)
    check("each level is one", sum(stop.startswith("level-") for stop in stops), 25)
    page.js("document.getElementById('help').open = false")
    end_section("the tabulator")


SMALL = """return [...document.querySelectorAll('button, .plot')].filter(it => it.offsetParent)
  .filter(it => it.offsetHeight < 32 || it.offsetWidth < 28).map(it => it.outerHTML.slice(0, 60))"""


WIDE = """return [...document.querySelectorAll('.card *')].filter(it => it.offsetParent && !it.closest('.unseen, .plot'))
  .filter(it => it.getBoundingClientRect().right > it.closest('.card').getBoundingClientRect().right)
  .map(it => it.outerHTML.slice(0, 60))"""


def widths(page):
    open_texts(page)
    page.click("#letters")
    for width in WIDTHS:
        page.look(width, 800)
        many = "12,3,0,1,0,1/0,3,0,0,2,1" if width % 20 else "0,2,1,1,3,1/1,0,1,0,0,0"
        for board in ["0,0,0,3,0,2/1,0,2,2,0,0", many]:
            page.show(board)
            until(lambda: page.all("#picture-values") or page.all("#summary .status"))
            # a phone widens its window for what doesn't fit in
            check(f"{board} fits into {width}", page.js("return document.documentElement.scrollWidth") <= width)
            check(f"it fits into its cards, {width}", page.js(WIDE), [])
            check(f"large enough for fingers, {width}", page.js(SMALL), [])
    page.click("#letters")
    open_texts(page, False)
    page.look(1240, 900)
    end_section(f"widths of {WIDTHS[0]} to {WIDTHS[-1]}")


def touch(page):
    """On a phone files are chosen, and no folders. Nothing speaks of dropping one."""
    page.driver.execute_cdp_cmd("Emulation.setTouchEmulationEnabled", {"enabled": True})
    page.look(390, 844)
    check("a phone chooses files", [page.at(it).is_displayed() for it in SHOWN], [False, True])
    check("a phone drops nothing", re.findall("drop", page.text("main")), [])
    page.driver.execute_cdp_cmd("Emulation.setTouchEmulationEnabled", {"enabled": False})
    page.look(1240, 900)
    check("a desk chooses folders too", [page.at(it).is_displayed() for it in SHOWN], [True, True])
    check("a desk may drop one", "drop their folder on this page" in page.text("main"))
    end_section("files chosen on phones")


# ---- pictures of the page ----


def make_wrong_folder(folder, made):
    there = made / "levels_that_are_wrong"
    shutil.copytree(folder, there)
    (there / "level_03.awdb").unlink()
    for level, change in [(5, lambda was: was[:20000]), (6, lambda was: b"GIF8" + was[4:])]:
        path = there / f"level_{level:02}.awdb"
        path.write_bytes(change(path.read_bytes()))
    return there


def take_pictures(folder, pictures, made):
    for name, look in LOOKS.items():
        with Page(*look) as page:
            if name == "light":
                page.picture(pictures / "start.png")
            page.open(folder)
            board = "0,3,0,0,0,2/1,2,1,0,0,1" if "dark" in name else "0,2,1,1,3,1/1,0,1,0,0,0"
            take_board(page, pictures / f"{name}.png", board)
            if name == "dark":
                take_played(page, pictures)
            if name in ["light", "phone"]:
                take_play(page, pictures / f"{name}_play.png")
            if name == "phone":
                page.click("#edit")
                page.picture(pictures / "phone_setup.png")
            if name == "light":
                take_board(page, pictures / "light_many.png", "13,1,0,2,0,1/0,7,0,0,0,0")
                page.open(make_wrong_folder(folder, made))
                take_board(page, pictures / "light_wrong.png", "1,1,1,0,0,0/0,0,1,0,0,1")
    end_section(f"pictures in {pictures}")


def take_board(page, path, board):
    page.show(board)
    page.js("document.activeElement.blur()")
    until(lambda: page.all("#picture-values") or page.all("#summary .status"))
    time.sleep(0.3)
    page.picture(path)


def take_play(page, path):
    """A game against the table, with letters, and the rules below it."""
    page.click("#table-north")
    page.click("#letters")
    for plies in [2, 4, 6]:
        page.click(".pit.open:not(.plan)" if page.all(".pit.open:not(.plan)") else ".pit.open")
        until(lambda plies=plies: len(page.all("#played li")) == plies)
        page.settle()
    open_texts(page)
    time.sleep(0.3)
    page.picture(path)
    open_texts(page, False)
    page.click("#letters")
    page.click("#table-north")


def take_played(page, pictures):
    for _ in range(9):
        page.click("#best")
    page.focus(".pit.plan")
    page.js("document.getElementById('help').open = true")
    time.sleep(0.3)
    page.picture(pictures / "dark_played.png")
