//! Levels, and whether they keep the rules of a table.

use crate::board::{Board, Game, boards};

/// What is said of a board, in eight bytes as in the proved program.
#[derive(Clone, Copy)]
pub struct Entry {
    pub dist: u32,
    pub value: i8,
    pub plan: u8,
}

const _: () = assert!(size_of::<Entry>() == 8);

/// The plan of a board with no move.
pub const NO_PLAN: u8 = 255;

/// The entries of all boards of so many stones, in order of rank.
pub struct Level {
    pub limit: u32,
    pub entries: Vec<Entry>,
}

/// What is kept of finished levels: their values, and the greatest of their limits.
#[derive(Default)]
pub struct Finished {
    pub limit: u32,
    pub values: Vec<Vec<i8>>,
}

impl Finished {
    /// How many there are, which is how many stones the boards of the next one have.
    pub fn levels(&self) -> usize {
        self.values.len()
    }

    pub fn push(&mut self, level: &Level) {
        self.limit = self.limit.max(level.limit);
        let values = level.entries.iter().map(|entry| entry.value);
        self.values.push(values.collect());
    }

    /// What a capture gains that leaves this board.
    #[inline(always)]
    pub fn gain(&self, game: &Game, next: Board, captured: usize) -> i8 {
        let stones = self.levels() - captured;
        captured as i8 - self.values[stones][game.rank(stones, next)]
    }
}

/// What the legal moves of a board come to: the most that one gains, the fewest plies of those that
/// gain the board's value, the most plies of all, what the plan's move gains, and whether it captures
/// or comes nearer.
struct Seen {
    most: i8,
    soonest: u64,
    latest: u64,
    planned: i8,
    nearer: bool,
}

/// No move gains so little.
const NONE: i8 = i8::MIN;

#[inline(always)]
fn seen(game: &Game, below: &Finished, entries: &[Entry], own: Entry, board: Board) -> Seen {
    let stones = below.levels();
    let mut seen = Seen {
        most: NONE,
        soonest: u64::MAX,
        latest: 0,
        planned: NONE,
        nearer: false,
    };
    for pit in 0..6 {
        let Some((next, captured)) = game.play(board, pit) else {
            continue;
        };
        let (gain, plies, nearer) = if captured == 0 {
            let next = entries[game.rank(stones, next)];
            let plies = u64::from(next.dist) + 1;
            (next.value.saturating_neg(), plies, next.dist < own.dist)
        } else {
            (below.gain(game, next, captured), 1, true)
        };
        seen.most = seen.most.max(gain);
        seen.latest = seen.latest.max(plies);
        if gain == own.value {
            seen.soonest = seen.soonest.min(plies);
        }
        if usize::from(own.plan) == pit {
            seen.planned = gain;
            seen.nearer = nearer;
        }
    }
    seen
}

/// The first rule from V1 to V6 that a board breaks.
#[inline(always)]
fn broken(
    game: &Game,
    below: &Finished,
    entries: &[Entry],
    own: Entry,
    board: Board,
) -> Option<u8> {
    let Entry { value, plan, dist } = own;
    if usize::from(value.unsigned_abs()) > below.levels() || (plan > 5 && plan != NO_PLAN) {
        return Some(1);
    }
    let seen = seen(game, below, entries, own, board);
    if seen.most == NONE {
        let right = value == board.gain_at_end() && plan == NO_PLAN && dist == 0;
        return (!right).then_some(2);
    }
    if seen.planned == NONE {
        return Some(3);
    }
    if seen.most > value {
        return Some(4);
    }
    if seen.planned != value {
        return Some(5);
    }
    let least = match value {
        0 => dist == 0,
        1.. => seen.soonest == u64::from(dist) && seen.nearer,
        _ => seen.latest == u64::from(dist),
    };
    (!least).then_some(6)
}

/// The first rank and rule by which a level is refused above those below it.
pub fn refusal(game: &Game, below: &Finished, level: &Level) -> Option<(usize, u8)> {
    let Level { limit, entries } = level;
    let mut greatest = 0;
    for ((rank, own), board) in entries.iter().enumerate().zip(boards(below.levels())) {
        if let Some(rule) = broken(game, below, entries, *own, board) {
            return Some((rank, rule));
        }
        greatest = greatest.max(own.dist);
    }
    (greatest != *limit).then_some((0, 7))
}
