"""Puzzles: drawn, solved and lost by hands and keys, kept in a row, linked, and printed ten on a sheet."""
import base64
import re

from driven import check, end_section, run, until
from playing import hash_of

# Nine stones, a gain within five plies, and any loss by the second best: a puzzle of two kinds of links.
ASKED = "7,9,11"
KINDS = "--value 1.. --distance 1..5 --keep 1 --trap 1.."


def moves_of(awari, folder, board):
    """What the program says of each pit: what the move captures, and what it is worth."""
    lines = [line.split() for line in run(awari, "moves", folder, board).splitlines()]
    return {int(move[1]): (int(move[3]), int(move[5])) for move in lines}


def told(page):
    return page.text("#puzzle-told")


def begin(page, asked=ASKED):
    page.begin(f"puzzle={asked}")
    check(f"the puzzle of the link {asked}", until(lambda: "by one move alone" in told(page)))
    page.settle()


def reply(page, plies):
    until(lambda: len(page.all("#played li")) >= plies or "Solved" in told(page))
    page.settle()


def drawn_and_hidden(page, awari, folder):
    page.js("localStorage.clear()")
    begin(page)
    wanted = run(awari, "boards", folder, 9, *KINDS.split(), "--random", 1, "--seed", 7).split()
    check("the board is the program's", page.word(), wanted[0])
    check("what there is to gain", f"South gains {wanted[1]} by one move alone" in told(page))
    check("the address is the link", hash_of(page), f"puzzle={ASKED}")
    check("no worth is shown", [page.values(), page.tags(), page.plies("#line")], [[], [], []])
    for name in ["best", "auto"]:
        check(f"{name} tells nothing", page.at(f"#{name}").get_attribute("aria-disabled"), "true")
    page.focus("#undo")
    page.press("b", "p")
    check("nor do its keys", page.plies("#played"), [])
    check("a voice hears nothing either", [label for label in page.labels().values() if "worth" in label], [])
    page.press("o")
    check("the table plays North until it is over", page.said(), "The table plays North until the puzzle is over")
    end_section("a puzzle that is drawn, beside `awari boards --random`")


def solved_by_keys(page, awari, folder):
    begin(page, "34,9,11")
    page.focus("#undo")
    plies = 0
    while "Solved" not in told(page) and plies < 60:
        page.press(run(awari, "ask", folder, page.word()).split()[1])
        plies += 2
        reply(page, plies)
    check("solved", "Solved: South has gained" in told(page))
    check("it is said", "Solved" in page.said() or page.said().startswith("North"))
    check("the streak", page.text("#streak"), "Solved in a row: 1, at best 1")
    check("worths are shown again", page.at("#hints").is_selected())
    check("the line of the puzzle", len(page.plies("#puzzle-line")) > 0)
    begin(page, "8,9,11")
    check("the streak is kept", page.text("#streak"), "Solved in a row: 1, at best 1")
    end_section("a puzzle that is solved by keys against the table")


def lost_by_a_hand(page, awari, folder):
    begin(page)
    before = page.word()
    moves = moves_of(awari, folder, before)
    best = max(value for _, value in moves.values())
    greedy = max(moves, key=lambda pit: moves[pit])
    page.click(f".pit[data-pit='{greedy}']")
    stones = best - moves[greedy][1]
    until(lambda: "threw away" in told(page))
    check("what was thrown away", f"Pit {greedy} threw away {stones} stone" in told(page))
    right = [pit for pit, (_, value) in moves.items() if value == best]
    check("what was right", f"Right is pit {right[0]}." in told(page))
    until(lambda: page.plies("#puzzle-line"))
    line = run(awari, "line", folder, before).splitlines()[1].split()[1:]
    check("the line", page.plies("#puzzle-line"), line[: len(page.plies("#puzzle-line"))])
    check("the streak ends", page.text("#streak"), "Solved in a row: 0, at best 1")
    page.click("#puzzle-line li:nth-child(3) button")
    check("the line is followed", page.plies("#played"), line[:3])
    page.click("#again")
    check("again", [page.word(), page.at("#solution").is_displayed()], [before, True])
    page.click("#solution")
    check("the solution", told(page), f"Not solved. Right is pit {right[0]}.")
    end_section("a puzzle that is lost, beside `awari moves` and `awari line`")


def new_ones(page):
    page.begin()
    page.focus("#undo")
    page.press("n")
    check("n draws one", until(lambda: "by one move alone" in told(page)))
    link = hash_of(page)
    check("it has a link", bool(re.fullmatch(r"puzzle=\d+,9,11", link)))
    board = page.word()
    page.js("document.getElementById('puzzle-margin').value = '4'")
    page.click("#puzzle")
    until(lambda: hash_of(page) != link)
    check("and another", [hash_of(page).endswith(",9,14"), page.word() != board], [True, True])
    page.driver.back()
    until(lambda: hash_of(page) == link and page.word() == board)
    check("Back leads to the one before", [hash_of(page), page.word()], [link, board])
    page.show("1,0,0,0,0,1/1,0,1,0,0,0")
    check("another board leads out", [page.text("#puzzle-told"), page.value(), page.at("#table-north").is_selected()], ["", 4, False])
    page.begin("puzzle=7,9")
    check("a wrong link", "named by three numbers" in page.text("#toast"))
    page.begin("puzzle=1,3,11")
    check("a puzzle that there is not", until(lambda: "Level 3 has no board" in told(page)))
    end_section("new puzzles, and links of them")


def printed(page, awari, folder):
    page.begin(f"sheet={ASKED}")
    until(lambda: page.text("#sheet-title"))
    check("its title", page.text("#sheet-title"), "10 puzzles of 9 stones, sheet 7")
    boards = page.js("return [...document.querySelectorAll('#sheet-solutions code')].map(it => it.textContent)")
    wanted = run(awari, "boards", folder, 9, *KINDS.split(), "--random", 10, "--seed", 7).splitlines()
    check("its boards", boards, [line.split()[0] for line in wanted])
    solutions = page.js("return [...document.querySelectorAll('#sheet-solutions b')].map(it => it.textContent)")
    check("its solutions", solutions, [f"Pit {line.split()[2]}" for line in wanted])
    check("the page is hidden", page.at("#page-grid").is_displayed(), False)
    pdf = page.driver.execute_cdp_cmd("Page.printToPDF", {"preferCSSPageSize": True})
    check("boards on a page, solutions behind", len(re.findall(rb"/Type\s*/Page\b", base64.b64decode(pdf["data"]))), 2)
    page.click("#close-sheet")
    check("back to the page", [page.at("#page-grid").is_displayed(), page.at("#sheet").is_displayed()], [True, False])
    end_section("a sheet of ten, beside `awari boards --random`")


def puzzles(page, awari, folder):
    drawn_and_hidden(page, awari, folder)
    solved_by_keys(page, awari, folder)
    lost_by_a_hand(page, awari, folder)
    new_ones(page)
    printed(page, awari, folder)
    page.js("localStorage.clear()")
    page.click("#clear-kept")
    until(lambda: "keeps no levels" in page.said())
