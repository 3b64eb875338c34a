//! The levels of `examples/levels` in mapped files, beside those that were verified; and files that are wrong.

mod common;

use awari::{Board, Entry, Levels, Map, Mapped, Refusal};
use common::{bytes_of, examples, expect_files_alone, folder_below, name_of};
use std::collections::HashSet;
use std::os::unix::fs::symlink;
use std::path::Path;
use std::sync::Arc;
use std::{fs, thread};

const TOP: u8 = 6;
/// In a file a level's entries stand behind so many bytes. Each has six, of which the first is the value.
const HEADER_BYTES: usize = 52;
const ENTRY_BYTES: usize = 6;

fn open(folder: &Path) -> Result<Mapped, Refusal> {
    // SAFETY: no test writes into a file that it has mapped.
    unsafe { Mapped::open(folder) }
}

fn open_to(folder: &Path, most: u8) -> Result<Mapped, Refusal> {
    // SAFETY: the same.
    unsafe { Mapped::open_to(folder, most) }
}

fn board(word: &str) -> Board {
    word.parse().unwrap()
}

/// The files of levels 0 to 3, with this one in the place of level 2.
fn with_level_2(file: &[u8]) -> Mapped<Vec<u8>> {
    Mapped::of_files([bytes_of(0), bytes_of(1), file.to_vec(), bytes_of(3)])
}

/// The file of level 2 with another byte.
fn with_byte(at: usize, change: impl Fn(u8) -> u8) -> Vec<u8> {
    let mut file = bytes_of(2);
    file[at] = change(file[at]);
    file
}

/// The file of level 2 as one of version 1, with the digest that `sha256sum` finds of that.
fn of_version_1() -> Vec<u8> {
    let digest = "57ed88d0c490d7aa3388dbaf0e09934e3ec56b538279303365ce296bcdcdc03a";
    let mut file = with_byte(5, |_| 1);
    file.truncate(file.len() - 32);
    file.extend((0..64).step_by(2).map(|at| u8::from_str_radix(&digest[at..at + 2], 16).unwrap()));
    file
}

/// The digests of all levels, as the table of what was found has them.
fn digests() -> Vec<String> {
    let table = Path::new(env!("CARGO_MANIFEST_DIR")).join("../../docs/levels.csv");
    let table = fs::read_to_string(table).unwrap();
    table.lines().skip(1).map(|row| row.split(',').nth(6).unwrap().to_owned()).collect()
}

/// The digest that all of these files end in.
fn last_digest() -> String {
    digests().swap_remove(usize::from(TOP))
}

#[test]
fn files_say_what_verified_levels_say() {
    let (files, levels) = (open(&examples()).unwrap(), Levels::open(examples()).unwrap());
    assert_eq!((files.len(), levels.len()), (usize::from(TOP) + 1, files.len()));
    for level in 0..=TOP {
        let boards: Vec<_> = Board::of_level(level).collect();
        let wanted = levels.many(&boards).unwrap();
        assert_eq!(files.many(&boards).as_ref(), Ok(&wanted));
        assert!(boards.iter().map(|board| files.entry(board).unwrap()).eq(wanted.iter().copied()));
        assert!(boards.iter().map(|board| files.value(board).unwrap()).eq(wanted.iter().map(|entry| entry.value)));
        assert!(boards.iter().all(|board| files.moves(board) == levels.moves(board)));
        let wanted: Vec<(Board, Entry)> = boards.into_iter().zip(wanted).collect();
        assert_eq!(files.entries(level).unwrap().len(), wanted.len());
        assert!(files.entries(level).unwrap().rev().eq(wanted.iter().rev().copied()));
        assert!(files.entries(level).unwrap().eq(wanted));
    }
}

/// Compiles only if threads may have and share it.
fn may_be_shared<T: Send + Sync>() {}

#[test]
fn eight_threads_ask_at_once() {
    may_be_shared::<Mapped>();
    may_be_shared::<Map>();
    may_be_shared::<Mapped<Vec<u8>>>();
    let files = open(&examples()).unwrap();
    let wanted: Vec<_> = Levels::open(examples()).unwrap().entries(TOP).unwrap().collect();
    let ask = |first: usize| {
        for (board, entry) in wanted.iter().cycle().skip(first).take(wanted.len()) {
            assert_eq!(files.entry(board), Ok(*entry));
            let best = files.moves(board).unwrap().iter().map(|found| found.value).max();
            assert!(best.unwrap_or(i16::from(entry.value)) == i16::from(entry.value), "{board}");
        }
    };
    thread::scope(|scope| {
        for thread in 0..8 {
            scope.spawn(move || ask(thread * 1000));
        }
    });
}

#[test]
fn any_bytes_are_files() {
    let (first, second) = (bytes_of(0), bytes_of(1));
    let one = board("0,0,0,0,0,1/0,0,0,0,0,0");
    assert_eq!(Mapped::of_files([first.as_slice(), &second]).value(&one), Ok(-1));
    assert_eq!(Mapped::of_files([Arc::<[u8]>::from(first), second.into()]).value(&one), Ok(-1));
    assert_eq!(Mapped::of_files(vec![[0; 8]; 30]).len(), 25);
}

#[test]
fn boards_without_a_level_are_refused() {
    let files = open_to(&examples(), 2).unwrap();
    assert_eq!(files.len(), 3);
    let two = board("1,0,0,0,0,0/0,0,1,0,0,0");
    for above in ["1,0,0,0,0,0/0,0,1,0,0,1", "25,0,0,0,0,0/0,0,0,0,0,0", "0,0,0,0,0,0/0,0,0,0,0,48"] {
        assert_eq!(files.entry(&board(above)), Err(Refusal::NotYet), "{above}");
        assert_eq!(files.value(&board(above)), Err(Refusal::NotYet), "{above}");
        assert_eq!(files.moves(&board(above)), Err(Refusal::NotYet), "{above}");
        assert_eq!(files.many(&[two, board(above), two]), Err(Refusal::NotYet), "{above}");
    }
    assert_eq!(files.many(&[]), Ok(Vec::new()));
    assert!(files.entries(2).is_ok());
    assert!([3, 24, 25, 255]
        .map(|level| files.entries(level).err())
        .iter()
        .all(|found| *found == Some(Refusal::NotYet)));
    let none = Mapped::of_files([[0; 0]; 0]);
    assert!(none.is_empty() && !files.is_empty());
    assert_eq!(none.entry(&two), Err(Refusal::NotYet));
    assert_eq!(none.moves(&two), Err(Refusal::NotYet));
    assert_eq!(none.check(&"0".repeat(64)), Err(Refusal::NotYet));
    let full = Mapped::of_files(vec![bytes_of(0); 26]);
    assert_eq!(full.entry(&board("25,0,0,0,0,0/0,0,0,0,0,0")), Err(Refusal::NotYet));
    assert_eq!(full.moves(&board("25,0,0,0,0,0/0,0,0,0,0,0")), Err(Refusal::NotYet));
}

#[test]
fn files_of_another_length_are_refused() {
    let right = bytes_of(2);
    let longer = [right.as_slice(), b"x"].concat();
    for (file, refusal, number) in [
        (&right[..right.len() - 1], Refusal::Truncated, 60),
        (&[], Refusal::Truncated, 60),
        (&longer, Refusal::Trailing, 67),
        (&bytes_of(3), Refusal::WrongLevel, 20),
        (&bytes_of(1), Refusal::WrongLevel, 20),
    ] {
        assert_eq!(refusal.number(), number);
        assert_eq!(refusal.to_string(), refusal.sentence());
        let files = with_level_2(file);
        for two in Board::of_level(2) {
            assert_eq!(files.entry(&two), Err(refusal));
            assert_eq!(files.moves(&two), Err(refusal));
        }
        assert_eq!(files.entries(2).err(), Some(refusal));
        // A file above the board's level does not matter, and neither does one below to its entry.
        let (one, three) = (board("0,0,0,0,0,1/0,0,0,0,0,0"), board("1,0,0,0,0,1/0,0,1,0,0,0"));
        assert_eq!(files.moves(&one).unwrap().len(), 1);
        assert!(files.entry(&three).is_ok() && files.entries(3).is_ok());
        assert_eq!(files.moves(&three), Err(refusal));
        assert_eq!(files.many(&[one, three, Board::of_rank(2, 0).unwrap()]), Err(refusal));
    }
}

#[test]
fn an_entry_is_that_of_its_board() {
    let right = open(&examples()).unwrap();
    for rank in 0..Board::count(2) {
        let files = with_level_2(&with_byte(HEADER_BYTES + ENTRY_BYTES * rank as usize, |value| value ^ 0x55));
        let differ = files.entries(2).unwrap().zip(right.entries(2).unwrap()).filter(|(found, other)| found != other);
        let ranks: Vec<_> = differ.map(|((board, _), _)| board.rank().unwrap()).collect();
        assert_eq!(ranks, [(2, rank)]);
        let changed = Board::of_rank(2, rank).unwrap();
        assert_eq!(files.value(&changed).unwrap(), right.value(&changed).unwrap() ^ 0x55);
    }
}

#[test]
fn a_digest_stands_for_all_files() {
    for (level, digest) in (0..=TOP).zip(digests()) {
        let files = open_to(&examples(), level).unwrap();
        assert_eq!(files.check(&digest), Ok(true));
        assert_eq!(files.check(&digest.to_uppercase()), Ok(true));
        for other in [&last_digest(), &"0".repeat(64), "", &digest[1..], &format!("{digest}0"), &format!("0x{digest}")]
        {
            assert_eq!(files.check(other), Ok(other == digest), "{other}");
        }
    }
}

#[test]
fn files_at_fault_have_no_digest() {
    let right = bytes_of(2);
    let file = |inner| Refusal::File { level: 2, inner };
    for (content, refusal) in [
        (right[..right.len() - 1].to_vec(), file(60)),
        (with_byte(0, |_| b'X'), file(61)),
        (with_byte(5, |_| 3), file(62)),
        (with_byte(HEADER_BYTES + 1, |_| 6), file(65)),
        (with_byte(HEADER_BYTES, |value| value ^ 1), file(66)),
        (with_byte(right.len() - 1, |byte| byte ^ 1), file(66)),
        ([right.as_slice(), b"x"].concat(), file(67)),
        (bytes_of(3), Refusal::Below { level: 2 }),
        (of_version_1(), Refusal::Old { level: 2 }),
    ] {
        assert_eq!(with_level_2(&content).check(&digests()[3]), Err(refusal));
    }
    assert_eq!(with_level_2(&right).check(&digests()[3]), Ok(true));
    assert_eq!(Mapped::of_files([bytes_of(1)]).check(&digests()[1]), Err(Refusal::Below { level: 0 }));
    let twice = Mapped::of_files([bytes_of(0), bytes_of(1), bytes_of(1)]);
    assert_eq!(twice.check(&digests()[1]), Err(Refusal::Below { level: 2 }));
}

#[test]
fn wrong_folders_are_refused() {
    expect_files_alone("mapped", |folder| open(folder).err());
}

#[test]
fn a_folder_ends_at_the_first_level_that_is_not_there() {
    let folder = folder_below("gap", 2);
    fs::write(folder.join(name_of(3)), bytes_of(3)).unwrap();
    assert_eq!(open(&folder).unwrap().len(), 2);
    fs::write(folder.join(name_of(2)), b"").unwrap();
    let files = open(&folder).unwrap();
    assert_eq!(files.len(), 4);
    assert_eq!(files.entry(&Board::of_rank(2, 0).unwrap()), Err(Refusal::Truncated));
    fs::remove_dir_all(folder).unwrap();
}

#[test]
fn a_folder_ends_at_level_24() {
    let folder = folder_below("full", 0);
    for level in 0..=25 {
        fs::write(folder.join(name_of(level)), b"").unwrap();
    }
    assert_eq!(open(&folder).unwrap().len(), 25);
    assert_eq!(open_to(&folder, u8::MAX).unwrap().len(), 25);
    assert_eq!(open_to(&folder, 0).unwrap().len(), 1);
    fs::remove_dir_all(folder).unwrap();
}

#[test]
fn a_file_that_is_not_mapped_is_refused() {
    let folder = folder_below("system", 2);
    // The system shows this as a file, and maps it for nobody.
    symlink("/sys/devices/system/cpu/online", folder.join(name_of(2))).unwrap();
    assert_eq!(open(&folder).err(), Some(Refusal::File { level: 2, inner: 68 }));
    assert_eq!(mapped_of(&folder), HashSet::new());
    fs::remove_dir_all(folder).unwrap();
}

/// The levels of a folder whose files are mapped here, as the system says.
fn mapped_of(folder: &Path) -> HashSet<String> {
    let maps = fs::read_to_string("/proc/self/maps").unwrap();
    let within = format!("{}/", folder.display());
    maps.lines().filter_map(|line| Some(line.split_once(&within)?.1.to_owned())).collect()
}

/// How many files of a folder are open here.
fn open_in(folder: &Path) -> usize {
    let places = fs::read_dir("/proc/self/fd").unwrap().filter_map(|place| fs::read_link(place.unwrap().path()).ok());
    places.filter(|place| place.starts_with(folder)).count()
}

#[test]
fn files_are_given_back() {
    let folder = folder_below("kept", 7);
    let files = open(&folder).unwrap();
    assert_eq!(mapped_of(&folder), (0..7).map(name_of).collect());
    assert_eq!(open_in(&folder), 0);
    drop(files);
    assert_eq!(mapped_of(&folder), HashSet::new());
    symlink(name_of(7), folder.join(name_of(7))).unwrap();
    assert_eq!(open(&folder).err(), Some(Refusal::Open { level: 7 }));
    assert_eq!((mapped_of(&folder), open_in(&folder)), (HashSet::new(), 0));
    fs::remove_dir_all(folder).unwrap();
}

#[test]
fn a_file_in_the_place_of_another_changes_nothing() {
    let folder = folder_below("place", 3);
    let files = open(&folder).unwrap();
    fs::write(folder.join("level_02.awdb.new"), b"").unwrap();
    fs::rename(folder.join("level_02.awdb.new"), folder.join(name_of(2))).unwrap();
    assert_eq!(files.check(&digests()[2]), Ok(true));
    fs::remove_dir_all(folder).unwrap();
    assert_eq!(files.check(&digests()[2]), Ok(true));
}
