//! The rows of `tests/library/cases.rows`, asked in Rust. `AWARI_CASES` names the folder that `folders.py` made; without
//! it, only the rows are asked that want the levels of the examples or none. A board of levels is asked verified and
//! mapped, by each call that tells of it.

use awari::{Board, Entry, Levels, Mapped, Move, Refusal, HIGHEST_LEVEL};
use std::path::{Path, PathBuf};
use std::{env, fs};

fn examples() -> PathBuf {
    Path::new(env!("CARGO_MANIFEST_DIR")).join("../../examples/levels")
}

/// A row: where it is asked, the call, its words and the answer.
struct Row<'a> {
    place: &'a str,
    call: &'a str,
    words: Vec<&'a str>,
    answer: String,
}

/// The levels of a folder, as far as they open.
struct Place {
    name: String,
    verified: Option<Levels>,
    mapped: Option<Mapped>,
}

/// The names of refusals, which Rust has as variants and the table behind their numbers, taken out.
fn without_names(answer: &str) -> String {
    if !answer.starts_with(|first: char| first.is_ascii_digit()) {
        return answer.to_string();
    }
    let is_name = |word: &&str| {
        word.starts_with(|first: char| first.is_ascii_uppercase()) && word[1..].starts_with(|next: char| next.is_ascii_lowercase())
    };
    answer.split(' ').filter(|word| !is_name(word)).collect::<Vec<_>>().join(" ")
}

impl<'a> Row<'a> {
    fn of(line: &'a str) -> Option<Row<'a>> {
        if line.starts_with('#') {
            return None;
        }
        let (asked, answer) = line.split_once(" = ")?;
        let mut words = asked.split(' ');
        Some(Row { place: words.next()?, call: words.next()?, words: words.collect(), answer: without_names(answer) })
    }

    fn number(&self, index: usize) -> u32 {
        self.words[index].parse().unwrap()
    }

    fn board(&self) -> Result<Board, Refusal> {
        self.words.first().unwrap_or(&"").trim_matches('\'').parse()
    }
}

// ---- what is told, as the table has it

fn joined<T: ToString>(numbers: impl IntoIterator<Item = T>) -> String {
    let told: Vec<String> = numbers.into_iter().map(|number| number.to_string()).collect();
    if told.is_empty() {
        return "none".to_string();
    }
    told.join(" ")
}

fn shown(entry: Entry) -> String {
    let plan = entry.plan.map_or("-".to_string(), |pit| pit.to_string());
    format!("{} {plan} {}", entry.value, entry.distance)
}

fn weighed(moves: Vec<Move>) -> String {
    let each = |found: &Move| format!("{} {} {} {}", found.pit, found.captures, found.value, found.distance);
    let told: Vec<String> = moves.iter().map(each).collect();
    if told.is_empty() {
        return "none".to_string();
    }
    told.join("; ")
}

/// The numbers of a refusal, as the table has them without the names.
fn refused(refusal: Refusal) -> String {
    let number = refusal.number();
    match refusal {
        Refusal::File { level, inner } => format!("{number} level {level}: {inner}"),
        Refusal::Verify { level, inner: 22, rule, rank } => format!("{number} level {level}: 22 rank {rank} rule V{rule}"),
        Refusal::Verify { level, inner, .. } => format!("{number} level {level}: {inner}"),
        Refusal::Below { level } | Refusal::Open { level } | Refusal::Old { level } => format!("{number} level {level}"),
        _ => number.to_string(),
    }
}

fn told(found: Result<String, Refusal>) -> String {
    found.unwrap_or_else(refused)
}

// ---- the calls

/// The entry, if the value alone and one of many boards are the same.
fn agreed(entry: Entry, value: i8, many: &[Entry]) -> String {
    assert_eq!((value, many), (entry.value, &[entry][..]));
    shown(entry)
}

fn entry_of_levels(levels: &Levels, board: &Board) -> Result<String, Refusal> {
    Ok(agreed(levels.entry(board)?, levels.value(board)?, &levels.many(&[*board])?))
}

fn entry_of_files(files: &Mapped, board: &Board) -> Result<String, Refusal> {
    Ok(agreed(files.entry(board)?, files.value(board)?, &files.many(&[*board])?))
}

fn line_of(levels: &Levels, board: &Board) -> Result<String, Refusal> {
    Ok(format!("{} outcome {}", joined(levels.line(board)?), levels.value(board)?))
}

fn counted(levels: &Levels, level: u8) -> Result<String, Refusal> {
    let counts = levels.counts(level)?;
    Ok(joined([counts.won, counts.even, counts.lost, counts.limit]))
}

/// The level that is built over these, which stay as they are, and the digest in which its file ends.
fn built(levels: &Levels) -> Result<String, Refusal> {
    let (mut own, level) = (levels.share()?, levels.len());
    let file = own.build()?;
    assert_eq!((own.len(), levels.len()), (level + 1, level));
    let digest: String = file[file.len() - 32..].iter().map(|byte| format!("{byte:02x}")).collect();
    Ok(format!("{level} {digest}"))
}

/// Whether the files end in their digest, and in no other.
fn checked(files: &Mapped, folder: &Path) -> Result<String, Refusal> {
    let last = fs::read(folder.join(format!("level_{:02}.awdb", files.len().max(1) - 1))).unwrap_or_default();
    let digest: String = last[last.len().max(32) - 32..].iter().map(|byte| format!("{byte:02x}")).collect();
    let found = (files.check(&digest)?, files.check(&"0".repeat(64))?);
    assert_eq!(found, (true, false));
    Ok("right".to_string())
}

/// What a row is told that asks levels: of each kind that is open and has the call.
fn of_levels(row: &Row, place: &Place, folder: &Path) -> Vec<String> {
    let (verified, mapped) = (place.verified.iter(), place.mapped.iter());
    let board = row.board();
    match (row.call, board) {
        ("counts", _) => verified.map(|levels| told(counted(levels, row.number(0) as u8))).collect(),
        ("build", _) => verified.map(|levels| told(built(levels))).collect(),
        ("check", _) => mapped.map(|files| told(checked(files, folder))).collect(),
        ("entry" | "moves" | "line" | "longest", Err(refusal)) => vec![refused(refusal)],
        ("entry", Ok(board)) => {
            let files = mapped.map(|files| told(entry_of_files(files, &board)));
            verified.map(|levels| told(entry_of_levels(levels, &board))).chain(files).collect()
        }
        ("moves", Ok(board)) => {
            let files = mapped.map(|files| told(files.moves(&board).map(weighed)));
            verified.map(|levels| told(levels.moves(&board).map(weighed))).chain(files).collect()
        }
        ("line", Ok(board)) => verified.map(|levels| told(line_of(levels, &board))).collect(),
        ("longest", Ok(board)) => verified.map(|levels| told(levels.longest_line(&board).map(joined))).collect(),
        _ => Vec::new(),
    }
}

fn played(row: &Row) -> Result<String, Refusal> {
    let after = row.board()?.play(row.number(1) as u8)?;
    Ok(format!("{} {}", after.board, after.captures))
}

fn ranked(board: Board) -> Result<String, Refusal> {
    let (level, rank) = board.rank()?;
    Ok(format!("{level} {rank}"))
}

/// What a row is told that asks no levels, if Rust has the call.
fn of_rules(row: &Row) -> Option<String> {
    Some(match row.call {
        "play" => told(played(row)),
        "legal" => told(row.board().map(|board| joined(board.legal()))),
        "rank" => told(row.board().and_then(ranked)),
        "board" => told(Board::of_rank(row.number(0) as u8, row.number(1)).map(|board| board.to_string())),
        "size" => Board::count(row.number(0) as u8).to_string(),
        _ => return None,
    })
}

// ---- folders

/// What is told of a folder that is opened, of the most stones that are named or of all.
fn opened(row: &Row, folder: &Path) -> String {
    let most = row.words.first().map_or(HIGHEST_LEVEL, |most| most.parse().unwrap());
    // SAFETY: nobody writes into these files.
    let mapped = || unsafe { Mapped::open_to(folder, most) }.map(|files| files.len().to_string());
    told(match row.call {
        "open" => Levels::open_to(folder, most).map(|levels| levels.len().to_string()),
        _ => mapped(),
    })
}

impl Place {
    /// The levels of a folder. `shared` shares those of `levels`, and `closed` has none.
    fn open(name: &str, folder: &Path) -> Place {
        let closed = name == "closed";
        let levels = Levels::open(folder).ok();
        let verified = match name {
            "shared" => levels.map(|levels| levels.share().unwrap()),
            "closed" => Some(Levels::start()),
            _ => levels,
        };
        // SAFETY: nobody writes into these files.
        let mapped = unsafe { Mapped::open(folder) }.ok().filter(|_| !closed);
        Place { name: name.to_string(), verified, mapped }
    }
}

/// Where a row is asked. The levels of `levels`, `shared` and `closed` are those of the examples.
fn folder_of(place: &str, room: Option<&PathBuf>) -> Option<PathBuf> {
    match (place, room) {
        ("levels" | "shared" | "closed", _) => Some(examples()),
        (_, Some(room)) => Some(room.join(place)),
        (_, None) => None,
    }
}

/// What each call tells that answers a row; none if Rust has no such call or type.
fn answers(row: &Row, room: Option<&PathBuf>, place: &mut Option<Place>) -> Vec<String> {
    if row.answer == "TypeError" {
        return Vec::new();
    }
    if row.place == "-" {
        return of_rules(row).into_iter().collect();
    }
    let Some(folder) = folder_of(row.place, room) else {
        return Vec::new();
    };
    if matches!(row.call, "open" | "map") {
        return vec![opened(row, &folder)];
    }
    if place.as_ref().map(|place| place.name.as_str()) != Some(row.place) {
        *place = Some(Place::open(row.place, &folder));
    }
    place.as_ref().map_or(Vec::new(), |place| of_levels(row, place, &folder))
}

#[test]
fn each_row_has_its_answer() {
    let table = Path::new(env!("CARGO_MANIFEST_DIR")).join("../../tests/library/cases.rows");
    let (rows, room) = (fs::read_to_string(table).unwrap(), env::var_os("AWARI_CASES").map(PathBuf::from));
    let (mut place, mut asked) = (None, 0);
    for row in rows.lines().filter_map(Row::of) {
        for answer in answers(&row, room.as_ref(), &mut place) {
            assert_eq!(answer, row.answer, "{} {} {:?}", row.place, row.call, row.words);
            asked += 1;
        }
    }
    println!("{asked} answers of cases.rows in Rust");
    assert!(asked > 200);
}
