"""The explorer's page in a headless Chromium, the program beside it, and the count of what was checked."""
import base64
import itertools
import os
import random
import re
import shutil
import subprocess
import time
from pathlib import Path

from selenium import webdriver
from selenium.webdriver.chrome.options import Options
from selenium.webdriver.chrome.service import Service
from selenium.webdriver.common.action_chains import ActionChains
from selenium.webdriver.common.by import By
from selenium.webdriver.common.keys import Keys

PAGE = (Path(__file__).resolve().parents[2] / "explorer/index.html").as_uri()
# How many seconds a page may take to answer on a machine with other work.
PATIENCE = 30
# The board that the page shows at first.
FIRST = "1,0,0,0,0,1/1,0,1,0,0,0"


class Tally:
    """How many checks passed and failed."""

    def __init__(self):
        self.passed = self.failed = 0
        self.section_began = (0, 0)

    def check(self, what, found, wanted=True):
        if found == wanted:
            self.passed += 1
        else:
            self.failed += 1
            print(f"FAILED {what}:\n  {found!r}\n  and not {wanted!r}")

    def end_section(self, name):
        passed, failed = self.section_began
        print(f"{name}: {self.passed - passed} passed, {self.failed - failed} failed", flush=True)
        self.section_began = (self.passed, self.failed)


TALLY = Tally()
check, end_section = TALLY.check, TALLY.end_section


# ---- boards and the program ----


def random_board(stones):
    """Any board of so many stones, each as likely: eleven bars among the stones part the pits."""
    bars = sorted(random.sample(range(stones + 11), 11))
    pits = [after - before - 1 for before, after in itertools.pairwise([-1, *bars, stones + 11])]
    return ",".join(map(str, pits[:6])) + "/" + ",".join(map(str, pits[6:]))


def pits_of(board):
    return list(map(int, re.split("[,/]", board)))


def signed(value):
    return f"+{value}" if value > 0 else f"−{-value}" if value < 0 else "0"


def unsigned(text):
    """The number that the page writes with its own minus."""
    return int(text.replace("−", "-").replace("+", "").replace(",", ""))


def run(*words, **more):
    """What the program prints, whatever its status."""
    done = subprocess.run(list(map(str, words)), capture_output=True, text=True, check=False, **more)
    return done.stdout.rstrip("\n")


def until(is_so, patience=PATIENCE):
    """Waits until something is so, and says whether it came to that."""
    end = time.time() + patience
    while time.time() < end:
        if is_so():
            return True
        time.sleep(0.02)
    return False


# ---- the page ----


class Page:
    """The page in a browser of its own."""

    def __init__(self, width=1240, height=900, dark=False, scale=1, page=PAGE, told=None):
        """The page at this address. `told` is what the console may tell, as a regular expression."""
        self.page, self.told = page, told
        options = Options()
        options.binary_location = shutil.which("chromium")
        for word in ["--headless=new", "--disable-gpu", "--hide-scrollbars"]:
            options.add_argument(word)
        if os.geteuid() == 0:
            options.add_argument("--no-sandbox")
        options.set_capability("goog:loggingPrefs", {"browser": "ALL", "performance": "ALL"})
        self.driver = webdriver.Chrome(service=Service(shutil.which("chromedriver")), options=options)
        self.look(width, height, dark, scale)
        self.begin()

    def __enter__(self):
        return self

    def __exit__(self, *_):
        for entry in self.driver.get_log("browser"):
            if not (self.told and re.search(self.told, entry["message"])):
                check("the console", entry["message"], "")
        self.check_requests()
        self.driver.quit()

    def check_requests(self):
        sent = [entry["message"] for entry in self.driver.get_log("performance")]
        sent = [message for message in sent if '"Network.requestWillBeSent"' in message]
        addresses = {re.search(r'"url":"([^"]*)"', message)[1][:60] for message in sent}
        own = ("file:", "data:", "blob:", self.page.split("?")[0].rsplit("/", 1)[0])
        foreign = [it for it in sorted(addresses) if not it.startswith(own)]
        check("what was asked of the network", foreign, [])

    def begin(self, board=""):
        """The page as it is when it is opened."""
        self.driver.get("about:blank")
        self.driver.get(self.page + (f"#{board}" if board else ""))
        until(lambda: self.text("#folder-name"))
        self.settle()

    def look(self, width, height, dark=False, scale=1):
        features = [
            {"name": "prefers-color-scheme", "value": "dark" if dark else "light"},
            {"name": "prefers-reduced-motion", "value": "reduce"},
        ]
        size = {"width": width, "height": height, "deviceScaleFactor": scale, "mobile": width < 600}
        self.driver.execute_cdp_cmd("Emulation.setEmulatedMedia", {"features": features})
        self.driver.execute_cdp_cmd("Emulation.setDeviceMetricsOverride", size)

    def js(self, script, *words):
        return self.driver.execute_script(script, *words)

    def at(self, selector):
        return self.driver.find_element(By.CSS_SELECTOR, selector)

    def all(self, selector):
        return self.driver.find_elements(By.CSS_SELECTOR, selector)

    def text(self, selector):
        """The text of an element, empty if it is not there or was exchanged just now."""
        return self.js("return document.querySelector(arguments[0])?.innerText ?? ''", selector)

    def click(self, selector):
        self.js("arguments[0].scrollIntoView({block: 'center'})", self.at(selector))
        self.at(selector).click()
        self.settle()

    def press(self, *keys):
        ActionChains(self.driver).send_keys(*keys).perform()
        self.settle()

    def focus(self, selector):
        self.js("document.querySelector(arguments[0]).focus()", selector)

    def settle(self):
        until(lambda: not self.all("[aria-busy=true]"))

    def open(self, *paths, by="#pick"):
        before = self.js("return document.body.dataset.opened ?? 0")
        self.at(by).send_keys("\n".join(map(str, paths)))
        until(lambda: self.js("return document.body.dataset.opened ?? 0") != before)
        self.settle()

    def show(self, board):
        box = self.at("#word")
        box.clear()
        box.send_keys(board, Keys.ENTER)
        self.settle()

    def word(self):
        return self.at("#word").get_property("value")

    def said(self):
        return self.js("return document.getElementById('say').textContent")

    def value(self):
        return unsigned(self.text("#value"))

    def moves(self):
        """What the table of moves shows, as `awari moves` prints it."""
        rows = self.js("""const parts = ['.captures', '.value', '.within', '.plan-mark'];
          return [...document.querySelectorAll('#moves tbody tr')].map(row =>
            [row.dataset.pit, ...parts.map(part => row.querySelector(part).textContent.trim())])""")
        if not rows:
            return f"ended {self.value()}"
        lines = []
        for pit, captures, value, within, plan in sorted(rows):
            distance = 0 if within == "–" else unsigned(within.split()[0])
            mark = " plan" if plan else ""
            lines.append(f"pit {pit} captures {captures.split()[0]} value {unsigned(value)} distance {distance}{mark}")
        return "\n".join(lines)

    def values(self):
        """The values of the table of moves, from the top down."""
        return [unsigned(text) for text in self.js(
            "return [...document.querySelectorAll('#moves td .value')].map(value => value.textContent)")]

    def tags(self):
        """What stands on the board at the mover's pits: the pit, the value, and whether it has the gold rim."""
        return self.js("""return [...document.querySelectorAll('.pit')].filter(pit => pit.querySelector('.tag > span'))
          .map(pit => [pit, pit.querySelector('.tag > span')])
          .map(([pit, tag]) => [+pit.dataset.pit, tag.querySelector('b').textContent, tag.classList.contains('plan')])
          .sort((one, other) => one[0] - other[0])""")

    def labels(self):
        return self.js("""return Object.fromEntries([...document.querySelectorAll('.pit')]
          .map(pit => [pit.dataset.pit, pit.getAttribute('aria-label')]))""")

    def stones(self):
        """The stones of the pits, each by its number and by what is drawn; -1 if the two differ."""
        return self.js("""return [...document.querySelectorAll('.pit')]
          .sort((one, other) => one.dataset.pit - other.dataset.pit)
          .map(pit => [+pit.querySelector('.count').textContent, pit.querySelectorAll('circle').length])
          .map(([number, drawn]) => number === drawn ? number : -1)""")

    def places(self):
        return self.js("return [...document.querySelectorAll('.pit')].map(pit => pit.dataset.pit).join()")

    def plies(self, selector):
        return self.js("""return [...document.querySelectorAll(arguments[0] + ' button')]
          .map(button => button.firstChild.textContent)""", selector)

    def picture(self, path):
        width, height = self.js("return [innerWidth, document.documentElement.scrollHeight]")
        clip = {"x": 0, "y": 0, "width": width, "height": height, "scale": 1}
        taken = self.driver.execute_cdp_cmd("Page.captureScreenshot", {"captureBeyondViewport": True, "clip": clip})
        path.write_bytes(base64.b64decode(taken["data"]))
