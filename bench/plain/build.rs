//! Levels built backward from the ends of play and the captures.

use crate::board::{Board, Game, boards};
use crate::folder::save;
use crate::level::{Entry, Finished, Level, NO_PLAN, refusal};
use std::path::Path;

/// The best capture of a board that has none.
const NONE: i8 = i8::MIN;

/// A level in work. A board is settled where its value isn't 0.
struct Work {
    boards: Vec<Board>,
    /// Quiet moves of each board that lead to no board known to be won.
    left: Vec<u8>,
    /// What the best capture gains.
    best: Vec<i8>,
    /// The greatest distance of a won board that a quiet move leads to. No distance to level 24 takes
    /// more than 16 bits.
    farthest: Vec<u16>,
    values: Vec<i8>,
    dists: Vec<u16>,
    /// The boards with no move.
    ended: Vec<u32>,
    /// By what it gains either way, the boards with a capture.
    capturing: Vec<Vec<u32>>,
    /// By distance, the boards whose predecessors have still to be told.
    fresh: Vec<Vec<u32>>,
}

/// How many quiet moves a board has, what its best capture gains, and whether it has no move.
#[inline(always)]
fn scanned(game: &Game, below: &Finished, board: Board) -> (u8, i8, bool) {
    let mut left = 0;
    let mut best = NONE;
    for (next, captured) in (0..6).filter_map(|pit| game.play(board, pit)) {
        if captured == 0 {
            left += 1;
        } else {
            best = best.max(below.gain(game, next, captured));
        }
    }
    (left, best, left == 0 && best == NONE)
}

/// Gives the boards whose quiet move leads to this one.
#[inline(always)]
fn unmoves(board: Board, mut give: impl FnMut(Board)) {
    let back = board.turned();
    for origin in (0..6).filter(|&pit| back.pit(pit) == 0) {
        let mut held = back;
        let mut stones = 0;
        let mut last = origin;
        loop {
            last = if last == 11 { 0 } else { last + 1 };
            if last == origin {
                last += 1;
            }
            if held.pit(last) == 0 {
                break;
            }
            held = held.less_one(last);
            stones += 1;
            let source = held.with(origin, stones);
            let feeds = source.has_food() || origin + stones >= 6;
            if feeds && back.captured(last) == 0 {
                give(source);
            }
        }
    }
}

impl Work {
    fn new(game: &Game, below: &Finished) -> Self {
        let stones = below.levels();
        let size = game.size(stones);
        let mut work = Work {
            boards: Vec::with_capacity(size),
            left: Vec::with_capacity(size),
            best: Vec::with_capacity(size),
            farthest: vec![0; size],
            values: vec![0; size],
            dists: vec![0; size],
            ended: Vec::new(),
            capturing: vec![Vec::new(); stones + 1],
            fresh: Vec::new(),
        };
        for (rank, board) in boards(stones).enumerate() {
            let (left, best, is_ended) = scanned(game, below, board);
            work.boards.push(board);
            work.left.push(left);
            work.best.push(best);
            if is_ended {
                work.ended.push(rank as u32);
            } else if best != NONE {
                work.capturing[usize::from(best.unsigned_abs())].push(rank as u32);
            }
        }
        work
    }

    #[inline(always)]
    fn settle(&mut self, rank: usize, value: i8, dist: u16) {
        self.values[rank] = value;
        self.dists[rank] = dist;
        if self.fresh.len() <= usize::from(dist) {
            self.fresh.resize_with(usize::from(dist) + 1, Vec::new);
        }
        self.fresh[usize::from(dist)].push(rank as u32);
    }

    /// Settles the boards that this gain settles by their captures or their end alone.
    fn open(&mut self, gain: i8, is_highest: bool) {
        if is_highest {
            for rank in std::mem::take(&mut self.ended) {
                let rank = rank as usize;
                self.settle(rank, self.boards[rank].gain_at_end(), 0);
            }
        }
        for rank in std::mem::take(&mut self.capturing[usize::from(gain.unsigned_abs())]) {
            let rank = rank as usize;
            if self.values[rank] != 0 {
                continue;
            }
            if self.best[rank] == gain {
                self.settle(rank, gain, 1);
            } else if self.left[rank] == 0 {
                self.settle(rank, -gain, self.farthest[rank] + 1);
            }
        }
    }

    /// Tells a board that a quiet move of it leads to a board of this distance that is lost.
    #[inline(always)]
    fn tell_lost(&mut self, rank: usize, gain: i8, dist: u16) {
        if self.values[rank] == 0 {
            self.settle(rank, gain, dist + 1);
        }
    }

    /// Tells a board that a quiet move of it leads to a board of this distance that is won.
    #[inline(always)]
    fn tell_won(&mut self, rank: usize, gain: i8, dist: u16) {
        self.left[rank] -= 1;
        self.farthest[rank] = self.farthest[rank].max(dist);
        if self.values[rank] == 0 && self.left[rank] == 0 && self.best[rank] <= -gain {
            self.settle(rank, -gain, self.farthest[rank] + 1);
        }
    }

    /// Tells the predecessors of all fresh boards, the nearest ones first.
    fn spread(&mut self, game: &Game, stones: usize, gain: i8) {
        let mut dist = 0;
        while dist < self.fresh.len() {
            for rank in std::mem::take(&mut self.fresh[dist]) {
                let rank = rank as usize;
                let is_won = self.values[rank] > 0;
                unmoves(self.boards[rank], |source| {
                    let source = game.rank(stones, source);
                    if is_won {
                        self.tell_won(source, gain, dist as u16);
                    } else {
                        self.tell_lost(source, gain, dist as u16);
                    }
                });
            }
            dist += 1;
        }
    }

    /// The lowest pit that gains the value, and for a won board captures or comes nearer.
    #[inline(always)]
    fn plan(&self, game: &Game, below: &Finished, rank: usize) -> u8 {
        let value = self.values[rank];
        let plan = (0..6).find(|&pit| match game.play(self.boards[rank], pit) {
            Some((next, 0)) => {
                let next = game.rank(below.levels(), next);
                -self.values[next] == value && (value <= 0 || self.dists[next] < self.dists[rank])
            }
            Some((next, captured)) => below.gain(game, next, captured) == value,
            None => false,
        });
        plan.map_or(NO_PLAN, |pit| pit as u8)
    }
}

/// The next level above these.
fn built(game: &Game, below: &Finished) -> Level {
    let stones = below.levels();
    let mut work = Work::new(game, below);
    for gain in (1..=stones as i8).rev() {
        work.open(gain, usize::from(gain.unsigned_abs()) == stones);
        work.spread(game, stones, gain);
    }
    let entry = |rank| Entry {
        value: work.values[rank],
        plan: work.plan(game, below, rank),
        dist: u32::from(work.dists[rank]),
    };
    Level {
        limit: work.dists.iter().copied().max().map_or(0, u32::from),
        entries: (0..work.boards.len()).map(entry).collect(),
    }
}

fn line(stones: usize, level: &Level) -> String {
    let count = |sign| {
        let entries = level.entries.iter();
        entries.filter(|entry| entry.value.signum() == sign).count()
    };
    format!(
        "level {stones} boards {} won {} even {} lost {} limit {}",
        level.entries.len(),
        count(1),
        count(0),
        count(-1),
        level.limit
    )
}

/// Builds the levels from 0 to this one, and prints a line for each. If it is wanted, each is
/// verified, and saved into a folder.
pub fn build(game: &Game, top: usize, verifies: bool, folder: Option<&Path>) -> Result<(), String> {
    let mut below = Finished::default();
    let mut digest = [0; 32];
    for stones in 0..=top {
        let level = built(game, &below);
        if verifies && let Some((rank, rule)) = refusal(game, &below, &level) {
            return Err(format!("refused 54 Refused rank {rank} rule V{rule}"));
        }
        if let Some(folder) = folder {
            digest = save(folder, stones, &level, &digest)
                .map_err(|fault| format!("level {stones} is not saved: {fault}"))?;
        }
        println!("{}", line(stones, &level));
        below.push(&level);
    }
    Ok(())
}
