//! A search that asks the levels at its leaves, as `examples/engine.c` is in C: engine FOLDER BOARD PLIES.
//!
//!     cargo run --release --example engine -- levels 4,4,4,4,4,4/4,4,4,4,4,4 8
//!
//! It prints what the mover gains if both sides play as well as this search sees, and the pit to play. Eight
//! threads search. The levels are in mapped files, in which all threads look up at once. A board that has a level
//! is not searched further, since its value is known.

use awari::{Board, Mapped, Played, Refusal};
use std::ffi::OsString;
use std::process::ExitCode;
use std::sync::atomic::{AtomicUsize, Ordering};
use std::{env, iter, thread};

const THREADS: usize = 8;
/// No gain is greater, since a board has no more stones.
const GREATEST: i32 = 48;

/// What is known of a board without playing on: its value if it has a level, or what an end brings.
fn known(levels: &Mapped, board: &Board) -> Option<i32> {
    levels.value(board).ok().map(i32::from).or_else(|| gain_of_end(board))
}

/// What the mover gains if the play has ended: each side keeps the stones of its own pits.
fn gain_of_end(board: &Board) -> Option<i32> {
    let own: i32 = board.pits()[..6].iter().copied().map(i32::from).sum();
    board.legal().next().is_none().then(|| 2 * own - i32::from(board.stones()))
}

/// What the mover gains within this many plies, if that is more than `least` and less than `most`; stones that
/// are still in play then count for nobody.
fn search(levels: &Mapped, board: &Board, plies: i32, mut least: i32, most: i32) -> i32 {
    if let Some(gain) = known(levels, board) {
        return gain;
    }
    if plies == 0 {
        return 0;
    }
    for Played { board, captures } in board.legal().filter_map(|pit| board.play(pit).ok()) {
        let captures = i32::from(captures);
        least = least.max(captures - search(levels, &board, plies - 1, captures - most, captures - least));
        if least >= most {
            break;
        }
    }
    least
}

/// A board that is one or two plies away. `before` is what the first mover has gained on the way there.
struct Task {
    board: Board,
    first_pit: u8,
    before: i32,
    side: i32,
    plies: i32,
}

impl Task {
    fn gain(&self, levels: &Mapped) -> i32 {
        self.before + self.side * search(levels, &self.board, self.plies, -GREATEST, GREATEST)
    }
}

/// A task for each reply to this pit, or for the pit itself if the play ends there or is known.
fn divide(levels: &Mapped, board: &Board, first_pit: u8, plies: i32) -> Result<Vec<Task>, Refusal> {
    let Played { board, captures } = board.play(first_pit)?;
    let captures = i32::from(captures);
    if plies < 2 || known(levels, &board).is_some() {
        return Ok(vec![Task { board, first_pit, before: captures, side: -1, plies: plies - 1 }]);
    }
    let replies = board.legal().filter_map(|reply| board.play(reply).ok());
    let task = |Played { board, captures: taken }| {
        let before = captures - i32::from(taken);
        Task { board, first_pit, before, side: 1, plies: plies - 2 }
    };
    Ok(replies.map(task).collect())
}

/// Searches one task after the other, until none is left: the pit that each began with, and the gain.
fn work(levels: &Mapped, tasks: &[Task], next: &AtomicUsize) -> Vec<(u8, i32)> {
    let own = iter::from_fn(|| tasks.get(next.fetch_add(1, Ordering::Relaxed)));
    own.map(|task| (task.first_pit, task.gain(levels))).collect()
}

/// Searches all tasks by eight threads.
fn work_together(levels: &Mapped, tasks: &[Task]) -> Vec<(u8, i32)> {
    let next = AtomicUsize::new(0);
    thread::scope(|scope| {
        let threads = [(); THREADS].map(|()| scope.spawn(|| work(levels, tasks, &next)));
        threads.into_iter().flat_map(|thread| thread.join().expect("no search panics")).collect()
    })
}

/// The gain and the pit if the opponent plays the best reply to each pit, and the mover the best pit: the lowest,
/// if some are as good.
fn best(gains: &[(u8, i32)]) -> Option<(i32, u8)> {
    let gain_of = |pit| gains.iter().filter(|(first_pit, _)| *first_pit == pit).map(|(_, gain)| *gain).min();
    let pits = (0..6).rev().filter_map(|pit| Some((gain_of(pit)?, pit)));
    pits.max_by_key(|(gain, _)| *gain)
}

/// The line to print.
fn found(folder: &OsString, board: &Board, plies: i32) -> Result<String, Refusal> {
    // SAFETY: nobody writes into these files or cuts one off; `awari build` puts a new one in the place of the old.
    let levels = unsafe { Mapped::open(folder) }?;
    if plies < 1 || known(&levels, board).is_some() {
        return Ok(format!("gain {}", search(&levels, board, 0, -GREATEST, GREATEST)));
    }
    let mut tasks = Vec::new();
    for pit in board.legal() {
        tasks.extend(divide(&levels, board, pit, plies)?);
    }
    let (gain, pit) = best(&work_together(&levels, &tasks)).expect("a board that is not known has a legal pit");
    Ok(format!("gain {gain} pit {pit}"))
}

fn main() -> ExitCode {
    let words: Vec<_> = env::args_os().skip(1).collect();
    let [folder, board, plies] = words.as_slice() else {
        return ExitCode::from(2);
    };
    let plies = plies.to_string_lossy().parse().unwrap_or(0);
    match board.to_string_lossy().parse().and_then(|board| found(folder, &board, plies)) {
        Ok(line) => println!("{line}"),
        Err(refusal) => {
            eprintln!("refused {}: {}", refusal.number(), refusal.sentence());
            return ExitCode::FAILURE;
        }
    }
    ExitCode::SUCCESS
}
