//! The levels of `examples/levels`, and folders that are wrong.

mod common;

use awari::{Board, Levels, Refusal};
use common::{bytes_of, examples, expect_files_alone, folder_below, name_of};
use std::os::unix::fs::symlink;
use std::{fs, thread};

#[test]
fn each_board_is_worth_its_best_move() {
    let levels = Levels::open(examples()).unwrap();
    for level in 0..levels.len() as u8 {
        let boards: Vec<_> = (0..Board::count(level)).map(|rank| Board::of_rank(level, rank).unwrap()).collect();
        let entries = levels.many(&boards).unwrap();
        for (board, entry) in boards.iter().zip(entries) {
            assert_eq!(levels.entry(board), Ok(entry));
            assert_eq!(levels.value(board), Ok(entry.value));
            assert_eq!(levels.longest_line(board).unwrap().len(), entry.distance as usize);
            let moves = levels.moves(board).unwrap();
            assert!(moves.iter().map(|found| found.pit).eq(board.legal().filter(|_| entry.plan.is_some())));
            let best = moves.iter().map(|found| found.value).max();
            assert!(best.unwrap_or(i16::from(entry.value)) == i16::from(entry.value), "{board}");
        }
    }
}

#[test]
fn boards_and_entries_of_a_level_come_by_rank() {
    let levels = Levels::open(examples()).unwrap();
    for level in 0..levels.len() as u8 {
        let boards: Vec<_> = Board::of_level(level).collect();
        let ranks: Vec<_> = boards.iter().map(|board| board.rank().unwrap()).collect();
        assert!((0..Board::count(level)).map(|rank| (level, rank)).eq(ranks));
        assert!(Board::of_level(level).rev().eq(boards.iter().rev().copied()));
        let entries = levels.many(&boards).unwrap();
        assert_eq!(levels.entries(level).unwrap().len(), boards.len());
        assert!(levels.entries(level).unwrap().eq(boards.into_iter().zip(entries)));
    }
    assert_eq!(Board::of_level(24).len(), 417_225_900);
    assert_eq!(Board::of_level(25).len(), 0);
    assert_eq!(levels.entries(7).err(), Some(Refusal::NotYet));
}

#[test]
fn threads_share_levels() {
    let levels = Levels::open(examples()).unwrap();
    let board: Board = "1,0,0,0,0,1/1,0,1,0,0,0".parse().unwrap();
    thread::scope(|scope| {
        for _ in 0..8 {
            let shared = levels.share().unwrap();
            scope.spawn(move || (0..10_000).for_each(|_| assert_eq!(shared.value(&board), Ok(4))));
        }
    });
}

#[test]
fn any_number_of_threads_verifies_the_same() {
    let folder = folder_below("by_threads", 6);
    let mut file = bytes_of(6).to_vec();
    let last = file.len() - 1;
    file[last] ^= 1;
    fs::write(folder.join(name_of(6)), &file).unwrap();
    let board: Board = "1,0,0,0,0,1/1,0,1,0,0,0".parse().unwrap();
    for threads in [0, 1, 2, 4, 9] {
        let levels = Levels::open_by(examples(), 24, threads).unwrap();
        assert_eq!((levels.len(), levels.value(&board)), (7, Ok(4)));
        assert_eq!(Levels::open_by(examples(), 5, threads).unwrap().len(), 6);
        assert_eq!(Levels::open_by(&folder, 24, threads).err(), Some(Refusal::File { level: 6, inner: 66 }));
        assert_eq!(Levels::open_by(&folder, 5, threads).unwrap().len(), 6);
    }
    fs::remove_dir_all(folder).unwrap();
}

#[test]
fn wrong_files_are_refused() {
    let folder = folder_below("cut", 2);
    fs::write(folder.join(name_of(2)), &bytes_of(2)[..100]).unwrap();
    let refusal = Levels::open(&folder).err();
    assert_eq!(refusal, Some(Refusal::File { level: 2, inner: 60 }));
    assert_eq!(Levels::open_to(&folder, 1).unwrap().len(), 2);
    assert_eq!(refusal.unwrap().to_string(), format!("level 2: {}", Refusal::Truncated.sentence()));
    fs::remove_dir_all(folder).unwrap();
}

#[test]
fn a_file_that_is_not_read_is_refused() {
    let folder = folder_below("unread", 2);
    // The system shows this as a file, and has nothing to read at its beginning.
    symlink("/proc/self/mem", folder.join(name_of(2))).unwrap();
    assert_eq!(Levels::open(&folder).err(), Some(Refusal::File { level: 2, inner: 68 }));
    fs::remove_dir_all(folder).unwrap();
}

#[test]
fn wrong_folders_are_refused() {
    expect_files_alone("levels", |folder| Levels::open(folder).err());
}

#[test]
fn boards_without_a_level_are_refused() {
    let levels = Levels::open_to(examples(), 2).unwrap();
    assert_eq!(levels.len(), 3);
    let board = Board::new([1; 12]).unwrap();
    assert_eq!(levels.entry(&board), Err(Refusal::NotYet));
    assert_eq!(levels.line(&board), Err(Refusal::NotYet));
    assert_eq!(levels.longest_line(&board), Err(Refusal::NotYet));
    assert_eq!((levels.counts(3), levels.counts(255)), (Err(Refusal::NotYet), Err(Refusal::NotYet)));
    assert_eq!(Board::new([5; 12]), Err(Refusal::TooMany));
    assert_eq!(board.play(6), Err(Refusal::NoPit));
}
