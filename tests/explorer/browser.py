#!/usr/bin/env python3
"""Tests explorer/index.html in a headless Chromium, beside the program.

    tests/explorer/browser.py AWARI FOLDER MORE [--boards 200] [--lines 12] [--pictures FOLDER]

AWARI is the program. It built levels 0 to 10 in the first FOLDER, and 0 to 12 in MORE. It wants Chromium, its driver
and selenium. It prints a line for each fault and for each section, and ends with 1 if there is a fault.
"""
import argparse
import random
import re
import sys
import tempfile
import time
from pathlib import Path

import building
import everyone
import files
import hosted
import looks
import offline
import playing
import puzzling
import sites
import slow
from driven import FIRST, TALLY, Page, check, end_section, pits_of, random_board, run, signed, unsigned, until
from selenium.webdriver.common.action_chains import ActionChains
from selenium.webdriver.common.keys import Keys

# ---- beside the program ----

# Even boards whose line never ends: the first goes on for more plies than a level up to its own has as its
# limit before a board comes again, and the second comes back to a board before that.
ENDS_BY_LIMIT = "1,0,0,0,0,0/0,1,0,0,0,0"
REPEATS = "2,0,1,0,1,1/1,2,1,0,0,1"


def boards_agree(page, awari, folder, count):
    boards = [random_board(random.randint(0, 10)) for _ in range(count - 3)]
    boards += [FIRST, "0,0,0,0,0,1/1,0,0,0,0,0", "0,0,0,1,0,1/0,0,0,0,0,0"]
    asked = "".join(f"moves {board}\n" for board in boards)
    answers = run(awari, "serve", folder, 0, 0, input=asked).split("\n\n")
    for board, answer in zip(boards, answers, strict=True):
        page.show(board)
        answer = answer.rstrip("\n")
        check(f"moves {board}", page.moves(), answer)
        check(f"stones {board}", page.stones(), pits_of(board))
        values = page.values()
        check(f"the best first {board}", values, sorted(values, reverse=True))
        board_agrees(page, board, [line.split() for line in answer.splitlines() if line.startswith("pit")])
    end_section(f"{count} random boards beside `awari moves`")


def board_agrees(page, board, moves):
    """The tags on the board, and the labels that a voice reads out."""
    tags = [[int(move[1]), signed(int(move[5])), move[-1] == "plan"] for move in moves]
    check(f"tags {board}", page.tags(), tags)
    labels = page.labels()
    for move in moves:
        captures = f"captures {move[3]}" if move[3] != "0" else "captures nothing"
        worth = signed(int(move[5])).replace("+", "plus ").replace("−", "minus ")
        wanted = ["Play", f"pit {move[1]},", captures, f"worth {worth}"] + (["the plan"] if move[-1] == "plan" else [])
        label = labels[move[1]]
        check(f"label {board} {move[1]}", [part for part in wanted if part not in label], [])


def lines_agree(page, awari, folder, count):
    boards = [FIRST, "1,0,0,0,0,0/0,0,1,0,0,0", ENDS_BY_LIMIT, REPEATS]
    boards += [random_board(random.randint(1, 9)) for _ in range(count - len(boards))]
    for board in boards:
        value, moves, outcome = run(awari, "line", folder, board).splitlines()
        line_agrees(page, board, int(value.split()[1]), moves.split()[1:], int(outcome.split()[1]))
    end_section(f"{count} best lines beside `awari line`, followed step by step")


def line_agrees(page, board, value, moves, outcome):
    """The best line as it stands there, and as it is played by clicks on `Best move`."""
    page.show(board)
    until(lambda: page.text("#line .outcome"))
    told = page.text("#line .outcome")
    has_ended = "ended" in told or "ends" in told
    shown = page.plies("#line")
    check(f"line {board}", shown, moves[: len(shown)] if "for ever" in told else moves)
    gains = re.search(r"(South|North|neither side) gains ?(\d*)", told)
    check(f"outcome {board}", {"South": 1, "North": -1}.get(gains[1], 0) * int(gains[2] or 0), outcome)
    check(f"value {board}", page.value(), value)
    for move in moves[:40]:
        check(f"plan of {board}", page.js("return document.querySelector('.pit.plan')?.dataset.pit"), move)
        page.click("#best")
    if has_ended and len(moves) <= 40:
        check(f"end of {board}", gained(page, len(moves)), outcome)
        check(f"ended {board}", "Play has ended" in page.text("#worth"))


def gained(page, plies):
    """What South, who began, has gained once play has ended."""
    south, north = map(int, re.findall(r"\d+", page.text("#score"))) if plies else (0, 0)
    left = pits_of(page.word())
    kept = sum(left) if sum(left[:6]) else -sum(left)
    return south - north + (kept if plies % 2 == 0 else -kept)


def levels_agree(page, awari):
    lines = run(awari, "build", 8).splitlines()
    for level, line in enumerate(lines):
        page.click(f"#level-{level}")
        until(lambda: page.text("#level-won"))
        parts = ["boards", "won", "even", "lost", "limit"]
        number = {part: unsigned(page.text(f"#level-{part}").split()[0]) for part in parts}
        words = " ".join(f"{part} {number[part]}" for part in parts)
        check(f"level {level}", f"level {level} {words}", line)
    end_section("summaries of levels beside `awari build`")


def levels_are_verified(page, awari, folder):
    check("each level of the folder is verified", len(page.all(".levels .verified")), 11)
    page.click("#level-10")
    check("which is said", "Verified here" in page.text("#standing"))
    check("the digest of all levels", page.text("#level-digest"), run(awari, "verify", folder).split()[-1])
    end_section("levels that are verified")


# ---- numbers as pictures ----


def pictures_agree(page, awari, folder):
    page.click("#level-8")
    until(lambda: page.all("#picture-values"))
    text = run(awari, "text", folder, 8).splitlines()[1:]
    entries = [(int(value), int(distance)) for value, _, distance in map(str.split, text)]
    for value in range(-8, 9):
        boards = sum(entry[0] == value for entry in entries)
        column_agrees(page, "values", value + 8, f"Value {signed(value)}", boards, len(entries))
    greatest = max(distance for _, distance in entries)
    for distance in [0, 1, 2, greatest - 1, greatest]:
        boards = sum(entry[1] == distance for entry in entries)
        column_agrees(page, "distances", distance, f"Distance {distance}", boards, len(entries))
    end_section("pictures of a level beside `awari text`")


def column_agrees(page, picture, column, name, boards, total):
    """A column is chosen by a click, and its height goes by its number."""
    plot = page.at(f"#picture-{picture} .plot")
    columns = int(plot.get_attribute("aria-valuemax")) + 1
    page.js("arguments[0].scrollIntoView({block: 'center'})", plot)
    across = round(plot.size["width"] * ((column + 0.5) / columns - 0.5))
    ActionChains(page.driver).move_to_element_with_offset(plot, across, 0).click().perform()
    told = f"{name}: {boards:,} {'board' if boards == 1 else 'boards'} ({100 * boards / total:.1f}%)"
    check(f"{name} chosen", page.text(f"#picture-{picture} .readout-text"), told)
    check(f"{name} said", plot.get_attribute("aria-valuetext"), told)
    height = page.js("return arguments[0].querySelectorAll('rect')[arguments[1]].height.baseVal.value", plot, column)
    check(f"{name} drawn", height > 0, boards > 0)


def pictures_lead_to_boards(page, awari, folder):
    page.click("#level-9")
    until(lambda: page.all("#picture-values"))
    page.focus("#picture-values .plot")
    page.press(Keys.HOME)
    check("the least value", "Value −9:" in page.text("#picture-values .readout-text"))
    page.press(Keys.END, Keys.ARROW_LEFT, Keys.ARROW_LEFT)
    check("two columns back", "Value +7:" in page.text("#picture-values .readout-text"))
    before = page.word()
    page.press(Keys.ENTER)
    until(lambda: page.word() != before)
    check("Enter shows such a board", run(awari, "ask", folder, page.word()).split()[0], "7")
    page.focus("#picture-distances .plot")
    page.press(Keys.END)
    page.click("#picture-distances .readout .button")
    greatest = unsigned(page.text("#level-limit").split()[0])
    check("so does the button", run(awari, "ask", folder, page.word()).split()[2], str(greatest))
    page.show(random_board(9))
    page.click("#farthest")
    check("a board of the greatest distance", f"within {greatest} plies" in page.text("#worth"))
    page.show("0,0,0,0,0,0/0,0,0,0,0,0")
    until(lambda: page.all("#picture-values"))
    check("a level of one board", page.text("#picture-values .readout-text"), "Value 0: 1 board (100.0%)")
    end_section("columns that lead to boards")


# ---- hands, keys, words ----


def hands(page, awari, folder):
    page.show(FIRST)
    page.click(".pit[data-pit='0']")
    check("a click plays", page.word(), run(awari, "move", FIRST, 0).split()[0])
    page.click("#undo")
    check("undo", page.word(), FIRST)
    page.click("#redo")
    check("redo", page.word(), "1,0,1,0,0,0/0,1,0,0,0,1")
    page.click("#start")
    check("to the start", page.word(), FIRST)
    page.click("#moves tr[data-pit='5'] button")
    check("a row plays", page.word(), run(awari, "move", FIRST, 5).split()[0])
    check("what was captured", page.text("#player-lower .captured"), "captured 2")
    page.click("#undo")
    until(lambda: page.all("#line li"))
    page.click("#line li:nth-child(3) button")
    check("three plies of the line are played", page.plies("#played"), run(awari, "line", folder, FIRST).split()[3:6])
    page.click("#played li:nth-child(1) button")
    check("back to the first of them", page.text("#player-lower .captured"), "captured 2")
    check("the others stay", len(page.all("#played .later")), 2)
    page.click("#undo")
    check("opponent above", page.places(), "11,10,9,8,7,6,0,1,2,3,4,5")
    page.click("#turn")
    check("turned", page.places(), "5,4,3,2,1,0,6,7,8,9,10,11")
    check("South is above now", page.text("#player-upper .name"), "South")
    page.click("#turn")
    page.click("#swap")
    check("the other side moves", page.word(), "1,0,1,0,0,0/1,0,0,0,0,1")
    check("North is to move", page.text("#player-upper .turn"), "to move")
    check("the stones stay", page.places(), "5,4,3,2,1,0,6,7,8,9,10,11")
    check("its moves", page.moves(), run(awari, "moves", folder, page.word()))
    page.click("#undo")
    end_section("hands")


def keys(page, awari):
    page.show(FIRST)
    page.focus(".pit[data-pit='0']")
    page.press(*[Keys.ARROW_RIGHT] * 5, Keys.ENTER)
    check("arrows and Enter play pit 5", page.text("#player-lower .captured"), "captured 2")
    check("it is said", "South played pit 5, captured 2" in page.said())
    page.press("u")
    check("u takes back", page.word(), FIRST)
    page.press("5")
    check("5 plays", page.text("#player-lower .captured"), "captured 2")
    page.press("u", "r")
    check("r plays again", page.text("#player-lower .captured"), "captured 2")
    page.press("u")
    page.press("b")
    check("b plays the plan", page.word(), run(awari, "move", FIRST, 5).split()[0])
    page.press("u", "3")
    check("an empty pit is refused", page.said(), "Pit 3 is empty (5 EmptyPit)")
    page.press("t")
    check("t turns", page.text("#player-upper .name"), "South")
    page.press("t", "s")
    check("s swaps", page.word(), "1,0,1,0,0,0/1,0,0,0,0,1")
    page.press("u")
    page.show("0,0,0,1,0,1/0,0,0,0,0,0")
    page.js("document.querySelector(\".pit[data-pit='3']\").click()")
    check("who must feed is told", "6 MustFeed" in page.said())
    page.show("0,0,0,0,0,1/1,0,0,0,0,0")
    check("a grand slam is told", "slam" in page.text("#moves tr[data-pit='5']"))
    page.focus("#auto")
    page.js("document.getElementById('help').open = true")
    page.click("#keys-on")
    page.press("5")
    check("keys that are turned off", page.word(), "0,0,0,0,0,1/1,0,0,0,0,0")
    page.click("#keys-on")
    page.click("#keep-low")
    page.focus("#auto")
    page.press("5")
    check("the mover is below", page.text("#player-lower .name"), "North")
    page.click("#keep-low")
    page.js("document.getElementById('help').open = false")
    end_section("keys")


def focus_stays(page, folder):
    """A button that can do nothing for a while, or any more, keeps the keyboard."""
    def stays(name, *keys):
        page.focus(f"#{name}")
        page.press(*(keys or [Keys.ENTER]))
        check(f"the keyboard stays on {name}", page.js("return document.activeElement.id"), name)

    page.show("1,0,0,0,0,0/0,0,1,0,0,0")
    for _ in range(9):
        stays("best")
    check("the best moves to the end", " ".join(page.plies("#played")), "0 2 1 3 2 4 3 5")
    check("it can do no more", page.at("#best").get_attribute("aria-disabled"), "true")
    stays("undo")
    stays("redo")
    check("and redo neither", page.at("#redo").get_attribute("aria-disabled"), "true")
    stays("start")
    stays("start")
    check("nor to the start", page.at("#start").get_attribute("aria-disabled"), "true")
    stays("auto")
    until(lambda: "Play line" in page.text("#auto") and "Play has ended" in page.text("#worth"))
    check("the keyboard stays on auto to the end", page.js("return document.activeElement.id"), "auto")
    stays("close")
    check("the folder is closed", page.text("#folder-name"), "Levels 0 to 10, by the proved code")
    page.press(Keys.TAB)
    check("then the button goes", page.at("#close").is_displayed(), False)
    page.open(folder)
    end_section("the keyboard stays where it is")


def writing(page):
    """What is being written stays while the line plays."""
    page.show("1,0,0,0,0,0/0,0,1,0,0,0")
    box, wanted = page.at("#word"), "0,1,0,2,0,1/0,2,0,0,2,0"
    box.send_keys(Keys.CONTROL + "a", Keys.NULL, wanted[0])
    page.js("document.getElementById('auto').click()")
    for character in wanted[1:]:
        box.send_keys(character)
        time.sleep(0.1)
    until(lambda: len(page.plies("#played")) > 1)
    check("the line has played", len(page.plies("#played")) > 1)
    check("what is written", page.word(), wanted)
    box.send_keys(Keys.ENTER)
    page.settle()
    check("it is shown", page.stones(), pits_of(wanted))
    page.click("#best")
    check("the field follows again", page.word() != wanted)
    page.show("1,0")
    check("what is refused stays", [page.word(), "1 Shape" in page.text("#word-fault")], ["1,0", True])
    end_section("what is written while the line plays")


def setting_up(page, awari, folder):
    page.show(FIRST)
    page.click("#edit")
    page.click("#clear")
    for pit in [0, 5, 5, 6, 8]:
        page.click(f".pit[data-pit='{pit}']")
    page.click("#takes")
    page.click(".pit[data-pit='5']")
    check("set by hand", page.word(), FIRST)
    page.focus(".pit[data-pit='2']")
    page.press("+", "+", "-")
    check("set by keys", page.word(), "1,0,1,0,0,1/1,0,1,0,0,0")
    page.press("7")
    check("a digit sets", page.word(), "1,0,7,0,0,1/1,0,1,0,0,0")
    ActionChains(page.driver).context_click(page.at(".pit[data-pit='2']")).perform()
    page.settle()
    check("a right click takes", page.word(), "1,0,6,0,0,1/1,0,1,0,0,0")
    page.show("40,0,8,0,0,0/0,0,0,0,0,0")
    page.focus(".pit[data-pit='0']")
    page.press("+")
    check("a stone too many is refused", page.said(), "A board has at most 48 stones")
    page.click("#adds")
    page.click("#random")
    check("a random board", sum(pits_of(page.word())), 8)
    page.press(Keys.ESCAPE)
    check("its moves", page.moves(), run(awari, "moves", folder, page.word()))
    end_section("positions set up by hand")


def words(page):
    refused = [("1,0", "1 Shape"), ("01,0,0,0,0,0/0,0,0,0,0,0", "2 Number"), ("48,1,0,0,0,0/0,0,0,0,0,0", "3 TooMany")]
    for word, fault in refused:
        page.show(word)
        check(f"refused {word}", fault in page.text("#word-fault"))
        check(f"marked {word}", page.at("#word").get_attribute("aria-invalid"), "true")
    page.show("4,4,4,4,4,4/4,4,4,4,4,4")
    check("more stones than there are levels", "There are levels up to 24 stones" in page.text("#worth"))
    check("its moves are there", len(page.all("#moves tbody tr")), 6)
    page.js("""const data = new DataTransfer(); data.setData('text', ' 2,0,0,0,0,1/1,0,1,0,0,0\\n');
      document.body.dispatchEvent(new ClipboardEvent('paste', { clipboardData: data, bubbles: true }))""")
    page.settle()
    check("a board that is pasted", page.word(), "2,0,0,0,0,1/1,0,1,0,0,0")
    page.js("location.hash = '#0,0,0,0,0,2/1,2,0,1,0,0'")
    until(lambda: page.word().startswith("0,0,0,0,0,2"))
    check("a board in the address", page.word(), "0,0,0,0,0,2/1,2,0,1,0,0")
    end_section("words")


def line_plays_itself(page):
    page.show("1,0,0,0,0,0/0,0,1,0,0,0")
    page.click("#auto")
    until(lambda: "Play has ended" in page.text("#worth"))
    check("the line played itself", " ".join(page.plies("#played")), "0 2 1 3 2 4 3 5")
    until(lambda: "Play line" in page.text("#auto"))
    check("it has stopped", "Play line" in page.text("#auto"))
    end_section("a line that plays itself")


def parsed_words():
    parser = argparse.ArgumentParser(description=__doc__, formatter_class=argparse.RawTextHelpFormatter)
    parser.add_argument("awari", type=Path)
    parser.add_argument("folder", type=Path)
    parser.add_argument("more", type=Path)
    parser.add_argument("--boards", type=int, default=200)
    parser.add_argument("--lines", type=int, default=12)
    parser.add_argument("--pictures", type=Path)
    return parser.parse_args()


def test_page(given, made):
    awari, folder = given.awari.resolve(), given.folder.resolve()
    with Page() as page:
        building.opens_alive(page)
        building.builds(page, awari, folder, made)
        page.open(folder)
        boards_agree(page, awari, folder, given.boards)
        lines_agree(page, awari, folder, given.lines)
        page.begin()
        page.open(folder)
        hands(page, awari, folder)
        keys(page, awari)
        focus_stays(page, folder)
        writing(page)
        setting_up(page, awari, folder)
        words(page)
        line_plays_itself(page)
        playing.play(page, awari, folder)
        puzzling.puzzles(page, awari, folder)
        page.begin()
        page.open(folder)
        levels_agree(page, awari)
        levels_are_verified(page, awari, folder)
        pictures_agree(page, awari, folder)
        pictures_lead_to_boards(page, awari, folder)
        files.other_ways_in(page, folder)
        files.reads_little(page, folder, made)
        files.large_level(page, made)
        files.wrong_files(page, awari, folder, made)
        files.lies(page, awari, folder, made)
        files.missing_files(page, folder, made)
        looks.contrast(page, folder, made)
        looks.names(page)
        looks.tabulator(page)
        looks.widths(page)
        looks.touch(page)
        everyone.everyone(page, awari, folder)
        offline.nothing_from_the_disk(page)
    end_section("no error in the console, nothing asked of the network")
    sites.sites(folder, made)
    hosted.hosted_levels(awari, folder, made)
    slow.slow_server(awari, given.more.resolve(), made)
    slow.lying_server(awari, folder, made)
    offline.apps(awari, folder, made)


def main():
    given = parsed_words()
    with tempfile.TemporaryDirectory() as made:
        test_page(given, Path(made))
        if given.pictures:
            given.pictures.mkdir(parents=True, exist_ok=True)
            looks.take_pictures(given.folder.resolve(), given.pictures, Path(made))
    print(f"explorer in Chromium: {TALLY.passed} passed, {TALLY.failed} failed")
    sys.exit(TALLY.failed > 0)


if __name__ == "__main__":
    main()
