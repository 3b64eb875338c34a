//! Tables: found by a plain analysis, written and read as text, and checked.

use crate::board::{Board, Game, MOST, boards};
use crate::level::{Entry, Finished, Level, NO_PLAN, refusal};
use std::fmt::Write;

/// A legal move: the stones captured, and the rank of the board that it leaves.
type Move = Option<(usize, usize)>;

fn moves_of(game: &Game, stones: usize, board: Board) -> [Move; 6] {
    std::array::from_fn(|pit| {
        let (next, captured) = game.play(board, pit)?;
        Some((captured, game.rank(stones - captured, next)))
    })
}

/// A level in work: what its moves are, and the values and distances that are settled.
struct Work<'a> {
    below: &'a Finished,
    moves: Vec<[Move; 6]>,
    settled: Vec<Option<(i8, u32)>>,
}

impl Work<'_> {
    /// What a capture gains, by the finished levels.
    fn captures(&self, captured: usize, rank: usize) -> i8 {
        captured as i8 - self.below.values[self.below.levels() - captured][rank]
    }

    /// The value and distance by which a board can be settled at this gain, if it can be yet.
    fn due(&self, rank: usize, gain: i8) -> Option<(i8, u32)> {
        let mut won = None;
        let mut lost = Some(1);
        for &(captured, next) in self.moves[rank].iter().flatten() {
            let (reached, dist) = if captured > 0 {
                (Some(self.captures(captured, next)), 0)
            } else {
                let next = self.settled[next];
                (
                    next.map(|(value, _)| -value),
                    next.map_or(0, |(_, dist)| dist),
                )
            };
            match reached {
                Some(reached) if reached == gain => {
                    won = Some(won.map_or(dist + 1, |least: u32| least.min(dist + 1)))
                }
                Some(reached) if reached <= -gain => lost = lost.map(|most| most.max(dist + 1)),
                _ => lost = None,
            }
        }
        won.map(|dist| (gain, dist))
            .or(lost.map(|dist| (-gain, dist)))
    }

    /// Settles the boards of this gain, those of the least distance first.
    fn settle(&mut self, gain: i8) {
        for wave in 1.. {
            let due: Vec<_> = (0..self.moves.len())
                .filter(|&rank| {
                    self.settled[rank].is_none() && self.moves[rank].iter().any(Option::is_some)
                })
                .filter_map(|rank| Some((rank, self.due(rank, gain)?)))
                .collect();
            if due.is_empty() {
                return;
            }
            for (rank, (value, dist)) in due {
                if dist <= wave {
                    self.settled[rank] = Some((value, dist));
                }
            }
        }
    }

    /// The lowest pit that gains the value, and for a won board captures or comes nearer.
    fn plan(&self, rank: usize, value: i8, dist: u32) -> Option<u8> {
        (0..6).find(|&pit| match self.moves[rank][usize::from(pit)] {
            Some((0, next)) => {
                let (reached, nearer) = self.settled[next].unwrap_or((0, 0));
                -reached == value && (value <= 0 || nearer < dist)
            }
            Some((captured, next)) => self.captures(captured, next) == value,
            None => false,
        })
    }
}

/// The next level above these.
pub fn solve(game: &Game, below: &Finished) -> Level {
    let stones = below.levels();
    let moves: Vec<_> = boards(stones)
        .map(|board| moves_of(game, stones, board))
        .collect();
    let settled = boards(stones)
        .zip(&moves)
        .map(|(board, moves)| {
            moves
                .iter()
                .all(Option::is_none)
                .then(|| (board.gain_at_end(), 0))
        })
        .collect();
    let mut work = Work {
        below,
        moves,
        settled,
    };
    for gain in (1..=stones as i8).rev() {
        work.settle(gain);
    }
    let entry = |rank: usize| {
        let (value, dist) = work.settled[rank].unwrap_or((0, 0));
        Entry {
            value,
            plan: work.plan(rank, value, dist).unwrap_or(NO_PLAN),
            dist,
        }
    };
    let entries: Vec<_> = (0..work.moves.len()).map(entry).collect();
    Level {
        limit: entries.iter().map(|entry| entry.dist).max().unwrap_or(0),
        entries,
    }
}

/// The text of the levels from 0 to this one.
pub fn text(game: &Game, top: usize) -> String {
    let mut below = Finished::default();
    let mut text = String::new();
    for stones in 0..=top {
        let level = solve(game, &below);
        writeln!(text, "level {stones} limit {}", level.limit).unwrap();
        for Entry { value, plan, dist } in &level.entries {
            match *plan {
                NO_PLAN => writeln!(text, "{value} - {dist}").unwrap(),
                _ => writeln!(text, "{value} {plan} {dist}").unwrap(),
            }
        }
        below.push(&level);
    }
    text
}

/// A number at the beginning of these bytes, and what is behind it.
#[inline(always)]
fn number(bytes: &[u8]) -> Option<(u64, &[u8])> {
    let digits = bytes.iter().take_while(|byte| byte.is_ascii_digit());
    let mut number = 0u64;
    let mut length = 0;
    for digit in digits {
        number = number
            .checked_mul(10)?
            .checked_add(u64::from(digit - b'0'))?;
        length += 1;
    }
    (length > 0).then_some((number, &bytes[length..]))
}

/// The entry of the line at the beginning of these bytes, and what is behind it.
#[inline(always)]
fn entry(bytes: &[u8]) -> Option<(Entry, &[u8])> {
    let unsigned = bytes.strip_prefix(b"-");
    let (size, bytes) = number(unsigned.unwrap_or(bytes))?;
    let size = i8::try_from(size).ok()?;
    let [b' ', plan, b' ', dist @ ..] = bytes else {
        return None;
    };
    let (dist, bytes) = number(dist)?;
    let entry = Entry {
        value: if unsigned.is_some() { -size } else { size },
        plan: match plan {
            b'-' => NO_PLAN,
            b'0'..=b'5' => plan - b'0',
            _ => return None,
        },
        dist: u32::try_from(dist).ok()?,
    };
    Some((entry, bytes.strip_prefix(b"\n")?))
}

/// The next level of a text, and what is behind it.
fn level<'a>(game: &Game, text: &'a [u8], stones: usize) -> Option<(Level, &'a [u8])> {
    let (number_of, text) = number(text.strip_prefix(b"level ")?)?;
    let (limit, text) = number(text.strip_prefix(b" limit ")?)?;
    let mut text = text.strip_prefix(b"\n")?;
    if number_of != stones as u64 || stones > MOST {
        return None;
    }
    let mut entries = Vec::with_capacity(game.size(stones));
    for _ in 0..game.size(stones) {
        let (next, rest) = entry(text)?;
        entries.push(next);
        text = rest;
    }
    let limit = u32::try_from(limit).ok()?;
    Some((Level { limit, entries }, text))
}

/// What is to be said of a text, of whose faults of form only the level is told.
pub fn check(game: &Game, text: &[u8]) -> Result<String, String> {
    let mut below = Finished::default();
    let mut left = text;
    while !left.is_empty() {
        let stones = below.levels();
        let (level, rest) =
            level(game, left, stones).ok_or_else(|| format!("no level {stones}"))?;
        if let Some((rank, rule)) = refusal(game, &below, &level) {
            return Err(format!("no level {stones} rank {rank} rule V{rule}"));
        }
        below.push(&level);
        left = rest;
    }
    Ok(format!(
        "yes levels {} limit {}",
        below.levels(),
        below.limit
    ))
}
