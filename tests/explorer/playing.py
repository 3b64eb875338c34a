"""Play against the table, games that are copied and pasted, links, letters, hints, and the rules."""
from driven import FIRST, check, end_section, pits_of, run, until
from selenium.webdriver.common.keys import Keys

# South is lost by 5 here, and has a pit that holds out longer than its plan.
LOST = "0,0,0,0,1,1/6,0,0,0,0,0"


def first_row(awari, folder, board):
    """The pit that the table plays: of the greatest worth, soon for a winner, late for a loser."""
    moves = [line.split() for line in run(awari, "moves", folder, board).splitlines()]
    values = [(int(move[5]), int(move[7]), move[-1] == "plan", -int(move[1])) for move in moves]
    return -max(values, key=lambda it: (it[0], -it[1] if it[0] > 0 else it[1], it[2], it[3]))[3]


def hash_of(page):
    return page.js("return location.hash.slice(1)")


def paste(page, text):
    page.js("""const data = new DataTransfer(); data.setData('text', arguments[0]);
      document.body.dispatchEvent(new ClipboardEvent('paste', { clipboardData: data, bubbles: true }))""", text)
    page.settle()


def reply(page, plies):
    """Waits until so many plies were played, and their worths are there."""
    until(lambda: len(page.all("#played li")) == plies)
    page.settle()


def whole_game(page, awari, folder):
    """From a link to the end, by keys alone: South by hand, North by the table."""
    page.begin(FIRST)
    page.focus("#undo")
    page.press("o")
    boxes = [page.at(f"#table-{side}").is_selected() for side in ["south", "north"]]
    check("the table plays North", boxes, [False, True])
    check("it is said", page.said(), "The table plays North")
    check("it is in the address", hash_of(page), f"{FIRST}&table=north")
    played = []
    while "ended" not in page.text("#worth") and len(played) < 60:
        board = page.word()
        pit = first_row(awari, folder, board)
        if len(played) % 2 == 0:
            page.press(str(pit))
        played.append(str(pit))
        reply(page, len(played))
    check("moves of both", page.plies("#played"), played)
    check("North's moves are told", "played pit" in page.said())
    told = run(awari, "judge", FIRST, 9, "".join(played)).splitlines()
    check("the board at the end", f"board {page.word()}", told[0])
    check("the outcome is the worth", told[3], f"outcome {run(awari, 'ask', folder, FIRST).split()[0]}")
    check("nothing was thrown away", "threw away" in page.text("#thrown"), False)
    check("the game in the address", hash_of(page), f"{FIRST}&moves={''.join(played)}&table=north")
    page.press("o", "o", "o")
    check("o goes round", hash_of(page), f"{FIRST}&moves={''.join(played)}")
    end_section("a whole game against the table, by keys, from a link to its end")


def lost_side(page, awari, folder):
    page.begin(f"{LOST}&table=south")
    page.open(folder)
    reply(page, 1)
    check("the table holds out", page.plies("#played"), [str(first_row(awari, folder, LOST))])
    check("it is not the plan", page.plies("#played") != [run(awari, "ask", folder, LOST).split()[1]])
    page.click(".pit.open")
    reply(page, 3)
    page.press("u")
    check("undo takes back both moves", len(page.all("#played .later")), 2)
    check("North is to move again", page.text("#player-upper .turn"), "to move")
    page.press("u")
    check("the table waits at its own move", page.text("#player-lower .turn"), "the table waits")
    page.press("r", "r")
    check("redo goes to the end", len(page.all("#played .later")), 0)
    end_section("a lost side by the table, undone and done again")


def table_with_itself(page, awari, folder):
    page.begin(f"{FIRST}&table=both")
    until(lambda: "Play has ended" in page.text("#worth"))
    played = "".join(page.plies("#played"))
    told = run(awari, "judge", FIRST, 9, played).splitlines()
    check("to the end", told[3], f"outcome {run(awari, 'ask', folder, FIRST).split()[0]}")
    end_section("the table with itself")


def table_without_levels(page):
    page.begin("4,4,4,4,4,4/4,4,4,4,4,4&table=both")
    until(lambda: "can’t tell" in page.text("#player-lower .turn"))
    check("the table can't tell", page.text("#player-lower .turn"), "the table can’t tell")
    page.press("2")
    check("so a hand plays for it", page.plies("#played"), ["2"])
    check("nothing is known to be thrown away", page.text("#thrown"), "")
    page.press("o")
    end_section("the table without levels")


def back_and_forward(page):
    page.begin(FIRST)
    boards = [page.word()]
    for pit in "021":
        page.press(pit)
        boards.append(page.word())
    for step, move in [(2, "back"), (1, "back"), (2, "forward"), (3, "forward"), (2, "back"), (1, "back"), (0, "back")]:
        getattr(page.driver, move)()
        until(lambda step=step: page.word() == boards[step])
        page.settle()
        check(f"{move} to {step}", [page.word(), page.plies("#played")], [boards[step], ["0", "2", "1"]])
        check(f"address of {step}", hash_of(page), f"{FIRST}&moves=021" + (f"&at={step}" if step < 3 else ""))
    page.press("5")
    check("another move takes the place of what was behind", page.plies("#played"), ["5"])
    page.driver.back()
    until(lambda: page.word() == FIRST)
    check("and Back leads before it", page.word(), FIRST)
    page.press("o", "0")
    reply(page, 2)
    page.driver.back()
    until(lambda: page.all("#played .later"))
    page.settle()
    before = len(page.all("#played .later"))
    until(lambda: len(page.all("#played .later")) != before, 1.5)
    check("the table does not play again what is taken back", len(page.all("#played .later")), before)
    end_section("Back and Forward")


def links(page):
    page.begin(f"{FIRST}&mover=north&moves=0213&at=2&below=north")
    until(lambda: page.all("#line li"))
    shown = [page.word(), page.moves(), page.plies("#played"), page.places(), page.text("#player-lower .name")]
    check("North began, and two of four moves are shown", [len(page.all("#played .later")), shown[-1]], [2, "North"])
    check("North is to move", page.text("#player-lower .turn"), "to move")
    address = page.js("return location.href")
    page.driver.get("about:blank")
    page.driver.get(address)
    until(lambda: page.all("#line li"))
    again = [page.word(), page.moves(), page.plies("#played"), page.places(), page.text("#player-lower .name")]
    check("a link opened elsewhere shows the same", again, shown)
    page.click("#turn")
    check("the turn of the board is in it", hash_of(page), f"{FIRST}&mover=north&moves=0213&at=2")
    page.js("location.hash = '#0,0,0,0,0,2/1,2,0,1,0,0'")
    until(lambda: page.word().startswith("0,0,0,0,0,2"))
    check("a link with a board alone", [page.word(), hash_of(page)], ["0,0,0,0,0,2/1,2,0,1,0,0"] * 2)
    wrong = {"&moves=54": "Move 2: Pit 4 is empty", "&movr=north": "a part “movr”", "&at=x": "a number of moves"}
    for link, told in wrong.items():
        page.js("location.hash = arguments[0]", f"#{FIRST}{link}")
        until(lambda told=told: told in page.text("#toast"))
        check(f"wrong: {link}", told in page.text("#toast"))
    page.begin("nonsense")
    check("a wrong link at the start", ["1 Shape" in page.text("#toast"), page.word()], [True, FIRST])
    end_section("links")


def pasted_games(page, awari, folder):
    page.begin(FIRST)
    page.js("navigator.clipboard.writeText = async text => { window.copied = text; }")
    copied = lambda: page.js("return window.copied")
    for text in [f"{FIRST} 9 0213", f"$ ./awari judge {FIRST} 9 0 2 1 3"]:
        paste(page, text)
        check(f"pasted: {text}", [page.plies("#played")[-4:], f"board {page.word()}"],
              [list("0213"), run(awari, "judge", FIRST, 9, "0213").splitlines()[0]])
    until(lambda: page.text("#thrown"))
    value = lambda board: int(run(awari, "ask", folder, board).split()[0])
    after, captured = run(awari, "move", FIRST, 0).split()
    label = page.at("#played li:first-child button").get_attribute("aria-label")
    thrown = value(FIRST) - int(captured) + value(after)
    check("what the first move threw away", f"threw away {thrown} stones: worth +{value(FIRST)} before" in label)
    check("it is seen", page.text("#played li:first-child .thrown"), f"−{thrown}")
    check("both sides", "In all South threw away" in page.text("#thrown"))
    page.click("#copy-game")
    game = copied()
    check("copied", [game.split()[0], "".join(game.split()[2:])], [FIRST, "0213"])
    check("as `judge` takes it", run(awari, "judge", *game.split()).splitlines()[0], f"board {page.word()}")
    page.click("#copy-link")
    check("the link", copied(), page.js("return location.href"))
    page.click("#copy")
    check("the board", copied(), page.word())
    link = page.js("return location.href")
    page.show(f"{FIRST} 9 0 2")
    check("a game in the field", page.plies("#played"), ["0", "2"])
    page.show(link)
    check("a link in the field", page.plies("#played"), list("0213"))
    wrong = {f"{FIRST} 9 0 2 0": "Move 3: Pit 0 is empty (5 EmptyPit).", "0 2 1": "(1 Shape)."}
    wrong[f"{FIRST} no 0"] = "and then the moves."
    for text, told in wrong.items():
        page.show(text)
        check(f"refused: {text}", page.text("#word-fault").endswith(told))
    paste(page, f"{FIRST} 9 0 2 7")
    check("a wrong game that is pasted is told", "Move 3: The mover has no pit 7" in page.text("#toast"))
    end_section("games that are copied and pasted")


def letters_and_hints(page):
    page.begin(FIRST)
    numbers = lambda: " ".join(page.js(
        "return [...document.querySelectorAll('.pit .number')].map(number => number.textContent)"))
    page.press("l")
    check("letters", numbers(), "f e d c b a A0 B1 C2 D3 E4 F5")
    check("their labels", page.labels()["5"].startswith("South, pit F, 1 stone. Play: captures 2"))
    check("in the table", page.text("#moves tr[data-pit='5'] button"), "Pit F")
    page.press("0")
    check("it is said", page.said().startswith("South played pit A."))
    check("North's numbers", numbers(), "f5 e4 d3 c2 b1 a0 A B C D E F")
    page.press("2")
    check("the moves by letters", page.plies("#played"), ["A", "c"])
    page.press("h")
    check("no hints", [page.tags(), page.all("#moves .value"), page.text("#value")], [[], [], "?"])
    check("none for a voice", [it for it in page.labels().values() if "worth" in it or "plan" in it], [])
    check("none in what is said", "loses" in page.said() or "gains" in page.said(), False)
    check("no best move", page.at("#best").get_attribute("aria-disabled"), "true")
    check("nothing of what was thrown away", [page.all("#played .thrown"), page.text("#thrown")], [[], ""])
    page.driver.refresh()
    page.settle()
    check("the browser keeps both", [page.at("#hints").is_selected(), page.at("#letters").is_selected()], [False, True])
    check("the game is there still", page.plies("#played"), ["A", "c"])
    page.press("h", "l")
    page.settle()
    check("hints again", len(page.tags()) > 0)
    check("numbers again", page.plies("#played"), ["0", "2"])
    end_section("letters and hints")


def keys_stay(page):
    """Keys are not sent back to the top by what is drawn anew."""
    page.begin(f"{FIRST}&moves=0213")
    until(lambda: page.all("#moves button"))
    page.focus("#moves button")
    focused = lambda: page.js("return document.activeElement.closest('[id]').id")
    page.press(Keys.ENTER)
    check("in the table of moves", [len(page.plies("#played")), focused()], [5, "moves"])
    page.focus("#played li:nth-child(2) button")
    page.press(Keys.ENTER)
    current = page.js("return document.activeElement.getAttribute('aria-current')")
    check("at the ply that is shown", [len(page.all("#played .later")), current], [3, "step"])
    end_section("keys that stay where they are")


def long_games(page):
    """Of many plies the one that is shown is in sight."""
    page.look(390, 844)
    page.begin(f"1,0,0,0,0,0/0,1,0,0,0,0&moves={'011223344550' * 6}")
    until(lambda: page.all("#line .outcome"))
    in_sight = """const list = document.getElementById('played'), ply = list.querySelector('[aria-current]');
      const box = list.getBoundingClientRect(), at = ply.getBoundingClientRect();
      return at.top >= box.top && at.bottom <= box.bottom"""
    check("the last ply", page.js(in_sight))
    page.press("u")
    check("the one before it", page.js(in_sight))
    page.look(1240, 900)
    end_section("long games")


def rules(page, awari):
    page.begin(FIRST)
    page.js("document.getElementById('rules').open = true")
    check("ten sentences", len(page.all("#rules li")), 10)
    check("four pictures of two boards", [len(page.all(".example")), len(page.all(".small-board"))], [4, 8])
    for figure in page.all(".example"):
        board = figure.get_attribute("data-board")
        drawn = page.js("""return [...arguments[0].querySelectorAll('.small-board')].map(board =>
          [...board.querySelectorAll('g > svg')].map(bowl => bowl.querySelectorAll('circle').length))""", figure)
        check(f"stones of {board}", drawn[0], pits_of(board))
        check(f"no stone is lost in {board}", sum(drawn[1]), sum(pits_of(board)))
        captured = int(run(awari, "move", board, figure.get_attribute("data-pit")).split()[1])
        taken = page.js("""return [...arguments[0].querySelectorAll('.taken-ring')]
          .map(ring => ring.parentElement.querySelectorAll('circle').length - 1)""", figure)
        check(f"what is taken of {board}", [sum(taken), len(taken)], [captured, 2 if captured else 0])
    feeding = page.at(".example:has(.refused-ring)").get_attribute("data-board")
    check("a pit that must not be played", run(awari, "move", feeding, 3), "refused 6 MustFeed")
    page.click(".example[data-pit='3'] .button")
    check("an example on the board", page.word(), page.at(".example[data-pit='3']").get_attribute("data-board"))
    page.js("document.getElementById('rules').open = false")
    end_section("the rules and their pictures")


def phones(page):
    page.begin(FIRST)
    page.look(320, 640)
    names = ["#copy", "#copy-game", "#copy-link", "#hints", "#table-north"]
    check("copies and choices are there", [name for name in names if not page.at(name).is_displayed()], [])
    page.click("#table-north")
    page.click(".pit[data-pit='0']")
    reply(page, 2)
    check("a move and a reply", len(page.plies("#played")), 2)
    page.js("document.getElementById('rules').open = true")
    check("the rules fit in", page.js("return document.documentElement.scrollWidth") <= 320)
    page.js("document.getElementById('rules').open = false")
    page.look(1240, 900)
    end_section("play on a phone")


def play(page, awari, folder):
    whole_game(page, awari, folder)
    lost_side(page, awari, folder)
    table_with_itself(page, awari, folder)
    table_without_levels(page)
    back_and_forward(page)
    links(page)
    pasted_games(page, awari, folder)
    letters_and_hints(page)
    keys_stay(page)
    long_games(page)
    rules(page, awari)
    phones(page)
