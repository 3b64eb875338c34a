"""The page for everyone: by a voice, by keys alone, at any width, and with no motion.

The rules are a list of its own, by the names that axe-core has for them; Debian has no axe-core.
"""
import json

from driven import FIRST, check, end_section, run, until
from looks import CONTRAST, SMALL, WIDE, open_texts
from selenium.webdriver.common.keys import Keys

# Each rule gives what breaks it.
RULES = """
const all = (selector, from = document) => [...from.querySelectorAll(selector)];
const isSeen = it => it.checkVisibility({ checkOpacity: false, checkVisibilityCSS: true });
const show = it => it.outerHTML.slice(0, 90);
const seen = selector => all(selector).filter(isSeen);
const FOCUSABLE = 'button, input, select, textarea, summary, a[href], [tabindex]';
const ROLES = ['group', 'img', 'alert', 'slider', 'status', 'list'];
const ARIA = ['label', 'labelledby', 'describedby', 'hidden', 'live', 'busy', 'pressed', 'disabled', 'controls', 'current',
  'invalid', 'valuemin', 'valuemax', 'valuenow', 'valuetext'];
const LANDMARKS = 'main, header, footer, nav, aside, section[aria-labelledby], section[aria-label]';
const levels = seen('h1, h2, h3, h4').map(it => Number(it.tagName[1]));
const rules = {
  'html-has-lang': [document.documentElement].filter(it => !/^en/.test(it.lang)),
  'document-title': document.title.trim() ? [] : [document.head],
  'meta-viewport': all('meta[name=viewport]').filter(it => /user-scalable=no|maximum-scale/.test(it.content)),
  'landmark-one-main': all('main').length === 1 ? [] : all('main'),
  'page-has-heading-one': all('h1').length === 1 ? [] : all('h1'),
  'heading-order': seen('h1, h2, h3, h4').filter((_, at) => at > 0 && levels[at] > levels[at - 1] + 1),
  'empty-heading': seen('h1, h2, h3, h4').filter(it => !it.textContent.trim()),
  'region': seen('p, button, input, table, ol, ul, dl').filter(it => !it.closest(LANDMARKS + ', [role=alert], [aria-live], [aria-hidden=true]')),
  'landmark-unique': seen('section[aria-labelledby]').filter((it, at, them) =>
    them.findIndex(other => other.getAttribute('aria-labelledby') === it.getAttribute('aria-labelledby')) !== at),
  'duplicate-id': all('[id]').filter((it, at, them) => them.findIndex(other => other.id === it.id) !== at),
  'aria-valid-attr': all('*').filter(it => it.getAttributeNames().some(name => name.startsWith('aria-') && !ARIA.includes(name.slice(5)))),
  'aria-valid-attr-value': all('*').filter(it => ['aria-pressed', 'aria-disabled', 'aria-busy', 'aria-hidden', 'aria-invalid']
    .some(name => it.hasAttribute(name) && !['true', 'false'].includes(it.getAttribute(name)))),
  'aria-reference': all('[aria-labelledby], [aria-describedby], [aria-controls]').filter(it => ['labelledby', 'describedby', 'controls']
    .some(name => (it.getAttribute(`aria-${name}`) ?? '').split(' ').some(id => id && !document.getElementById(id)))),
  'aria-roles': all('[role]').filter(it => !ROLES.includes(it.getAttribute('role'))),
  'aria-required-attr': all('[role=slider]').filter(it => ['valuemin', 'valuemax', 'valuenow', 'valuetext'].some(name => !it.hasAttribute(`aria-${name}`))),
  'aria-hidden-focus': all('[aria-hidden=true]').filter(it => seen(FOCUSABLE).some(each => it.contains(each))),
  'group-name': seen('[role=group], [role=img], [role=slider]').filter(it => !it.getAttribute('aria-label') && !it.getAttribute('aria-labelledby')),
  'svg-img-alt': seen('svg').filter(it => it.getAttribute('aria-hidden') !== 'true' && !it.closest('[aria-hidden=true]') && it.getAttribute('role') !== 'img'),
  'tabindex': all('[tabindex]').filter(it => Number(it.getAttribute('tabindex')) > 0),
  'nested-interactive': all(FOCUSABLE).filter(it => it.matches('button, [role=slider]') && it.querySelector(FOCUSABLE)),
  'list': seen('ol, ul').filter(it => [...it.children].some(child => child.tagName !== 'LI')),
  'listitem': seen('li').filter(it => !it.parentElement.matches('ol, ul')),
  'definition-list': seen('dl').filter(it => [...it.children].some(child => !/^D[TD]$/.test(child.tagName))),
  'empty-term': seen('dt, dd, th').filter(it => !it.textContent.trim()),
  'table': seen('table').filter(it => !it.caption?.textContent || all('th', it).some(head => !head.scope)),
  'label': seen('input, select').filter(it => !it.labels?.length && !it.getAttribute('aria-label')),
  'label-title-only': seen('button').filter(it => !it.textContent.trim() && !it.getAttribute('aria-label')),
  'label-content-name-mismatch': seen('button[aria-label]').filter(it => !it.closest('.board, .plies, .levels, table, figure') && !it.getAttribute('aria-label').includes(it.textContent.trim())),
  'target-size': seen('button, select, summary, .plot').filter(it => it.offsetWidth < 24 || it.offsetHeight < 24),
  'meta-refresh': all('meta[http-equiv=refresh]'), 'autoplay': all('audio, video'),
};
return Object.fromEntries(Object.entries(rules).filter(([, broken]) => broken.length).map(([name, broken]) => [name, broken.slice(0, 3).map(show)]));
"""
# The borders of fields beside what is behind them.
BORDERS = """
const parse = text => text.match(/[\\d.]+/g).map(Number);
const channel = part => (part /= 255) <= .03928 ? part / 12.92 : ((part + .055) / 1.055) ** 2.4;
const light = text => { const [red, green, blue] = parse(text); return .2126 * channel(red) + .7152 * channel(green) + .0722 * channel(blue); };
const ratio = (one, other) => (Math.max(one, other) + .05) / (Math.min(one, other) + .05);
const ground = it => { for (; it; it = it.parentElement) { const { backgroundColor } = getComputedStyle(it); if (parse(backgroundColor)[3] !== 0) return backgroundColor; } };
return [...document.querySelectorAll('input[type=text], input[type=number], select')].filter(it => it.offsetParent)
  .map(it => [it.id, ratio(light(getComputedStyle(it).borderTopColor), light(ground(it.parentElement)))]).filter(([, found]) => found < 3);
"""
MOVING = """return [...document.querySelectorAll('*')].filter(it => {
  const { animationName, animationDuration, transitionDuration, scrollBehavior } = getComputedStyle(it);
  return (animationName !== 'none' && animationDuration !== '0s') || transitionDuration.split(', ').some(each => each !== '0s') || scrollBehavior === 'smooth';
}).map(it => it.className)"""
# What has the keyboard, and whether that is seen.
FOCUSED = """const it = document.activeElement, shown = it.matches('input[type=file]') ? it.nextElementSibling : it, style = getComputedStyle(shown);
return [it === document.body ? 'body' : it.id || it.className, style.outlineStyle !== 'none' || style.boxShadow !== 'none']"""
REACHABLE = """window.due = [...document.querySelectorAll('button, input, select, summary, [tabindex="0"]')]
  .filter(it => it.checkVisibility() && it.tabIndex >= 0 && !it.disabled);
return window.due.length"""


def states(page):
    """What the page may show, each with its name."""
    page.begin(FIRST)
    until(lambda: page.all("#picture-values"))
    yield "at first"
    open_texts(page)
    page.click("#edit")
    yield "with all texts open"
    page.click("#edit")
    open_texts(page, False)
    page.click(".pit.open")
    page.click("#letters")
    yield "with letters and a move"
    page.click("#letters")
    page.begin("puzzle=34,9,11")
    until(lambda: "by one move alone" in page.text("#puzzle-told"))
    yield "with a puzzle"
    page.click("#solution")
    until(lambda: page.plies("#puzzle-line"))
    yield "with its solution"
    page.begin("sheet=7,9,11")
    until(lambda: page.text("#sheet-title"))
    yield "with a sheet"


def rules(page):
    for dark in [False, True]:
        page.look(1240, 900, dark)
        for state in states(page):
            check(f"rules {state}", page.js(RULES), {})
            check(f"contrast {state}, {'dark' if dark else 'light'}", page.js(CONTRAST), [])
            check(f"borders of fields {state}, {'dark' if dark else 'light'}", page.js(BORDERS), [])
    page.look(1240, 900)
    end_section("rules as of axe-core, and contrast, in each state and both themes")


def narrow(page):
    page.look(320, 640)
    for state in states(page):
        check(f"it fits into 320 {state}", page.js("return document.documentElement.scrollWidth") <= 320)
        check(f"it fits into its cards {state}", page.js(WIDE), [])
        check(f"large enough for fingers {state}", page.js(SMALL), [])
    page.look(1240, 900)
    end_section("320 wide")


def voice(page, awari, folder):
    """What the browser tells a screen reader."""
    page.begin(FIRST)
    page.open(folder)
    pits = [node for node in tree(page) if node["role"] == "button" and node["name"].startswith(("South, pit", "North, pit"))]
    check("twelve pits", len(pits), 12)
    moves = {line.split()[1]: line.split()[5] for line in run(awari, "moves", folder, FIRST).splitlines()}
    for side, number, stones in [("South", 0, 1), ("South", 5, 1), ("South", 3, 0), ("North", 8, 1), ("North", 11, 0)]:
        name = f"{side}, pit {number}, {stones} stone{'' if stones == 1 else 's'}"
        found = [node["name"] for node in pits if node["name"].startswith(name)]
        check(f"{name} is told", len(found), 1)
        if str(number) in moves and side == "South":
            worth = moves[str(number)].replace("-", "minus ") if moves[str(number)].startswith("-") else f"plus {moves[str(number)]}"
            check(f"with its worth: {found}", f"worth {worth}" in found[0])
    check("the board is a group", any(node["role"] == "group" and node["name"].startswith("Board") for node in tree(page)))
    for name in ["What moves are worth", "Best line from here", "Puzzles", "More levels", "Levels", "What is proved"]:
        check(f"a region {name}", any(node["role"] == "region" and node["name"].casefold() == name.casefold() for node in tree(page)))
    page.focus("#undo")
    page.press("5")
    check("a move and its worth are told", "South played pit 5, captured 2. North to move: loses 2." in page.said())
    check("politely", page.js("return document.getElementById('say').getAttribute('aria-live')"), "polite")
    check("and nothing hides that", page.js("return document.getElementById('say').checkVisibility()"))
    end_section("what a voice reads out")


def tree(page):
    nodes = page.driver.execute_cdp_cmd("Accessibility.getFullAXTree", {})["nodes"]
    told = [{part: node.get(part, {}).get("value") or "" for part in ["role", "name"]} for node in nodes if not node.get("ignored")]
    return json.loads(json.dumps(told))


def keys_alone(page):
    """Each control is come to by Tab, its focus is seen, and a puzzle is played and printed without a mouse."""
    page.begin(FIRST)
    until(lambda: page.all("#picture-values"))
    unseen, due = [], page.js(REACHABLE)
    for _ in range(due + 5):
        page.press(Keys.TAB)
        name, is_seen = page.js(FOCUSED)
        unseen += [] if is_seen or name == "body" else [name]
        page.js("document.activeElement.dataset.stop = ''")
    missed = page.js("return window.due.filter(it => it.isConnected && !('stop' in it.dataset)).map(it => it.outerHTML)")
    check("each control is a stop", missed, [])
    check("each is seen", unseen, [])
    page.focus("#puzzle")
    page.press(Keys.ENTER)
    until(lambda: "by one move alone" in page.text("#puzzle-told"))
    check("the keyboard stays", page.js("return document.activeElement.id"), "puzzle")
    for name, other in [("solution", "again"), ("again", "solution")]:
        page.focus(f"#{name}")
        page.press(Keys.ENTER)
        until(lambda name=name: not page.at(f"#{name}").is_displayed())
        check(f"from {name} it goes on", page.js("return document.activeElement.id"), other)
    page.focus("#sheet-button")
    page.press(Keys.ENTER)
    until(lambda: page.at("#sheet").is_displayed())
    check("to the sheet", page.js("return document.activeElement.id"), "print-sheet")
    page.press(Keys.TAB, Keys.ENTER)
    until(lambda: page.at("#page-grid").is_displayed())
    check("and back", page.js("return document.activeElement.id"), "sheet-button")
    end_section("the whole page by keys alone")


def motion(page):
    def prefers(motion):
        features = [{"name": "prefers-reduced-motion", "value": motion}]
        page.driver.execute_cdp_cmd("Emulation.setEmulatedMedia", {"features": features})

    page.begin(FIRST)
    page.click(".pit.open")
    check("nothing moves for those who want that", page.js(MOVING), [])
    prefers("no-preference")
    check("it moves for others", len(page.js(MOVING)) > 0)
    page.look(1240, 900)
    end_section("reduced motion")


def everyone(page, awari, folder):
    rules(page)
    narrow(page)
    voice(page, awari, folder)
    keys_alone(page)
    motion(page)
    page.click("#clear-kept")
    until(lambda: "keeps no levels" in page.said())
