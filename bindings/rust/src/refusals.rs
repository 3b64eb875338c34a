//! Why a call refuses.

use crate::calls::{awari_text_of, lent, PlainFault};
use std::error::Error;
use std::fmt;

/// Why a call refuses. It is printed as a sentence for a person.
#[derive(Clone, Copy, Debug, PartialEq, Eq, Hash)]
#[non_exhaustive]
pub enum Refusal {
    /// 1: the text is not six numbers, a slash and six numbers.
    Shape,
    /// 2: a number of the text is not one of 0 to 99.
    Number,
    /// 3: a board has at most 48 stones.
    TooMany,
    /// 4: a pit is 0 to 5.
    NoPit,
    /// 5: the pit is empty.
    EmptyPit,
    /// 6: the opponent has no stones, and the move gives none.
    MustFeed,
    /// 7: the play has ended.
    Ended,
    /// 20: the file is as long as another level's.
    WrongLevel,
    /// 51: all levels are there.
    TooHigh,
    /// 53: memory has run out while a level is built.
    MemoryOfLevel,
    /// 59: the board's level is not there; or no level was begun, or not all its gains are closed.
    NotYet,
    /// 60: the file is shorter than it should be.
    Truncated,
    /// 67: the file is longer than it should be.
    Trailing,
    /// 70: the room for a file has another length.
    Write,
    /// 80: the file of the level is over another file than the one below it.
    Below { level: u8 },
    /// 81: the file of the level is none; `inner` is the number of what is wrong, 60 to 68.
    File { level: u8, inner: u8 },
    /// 82: the folder, or the file of the level, does not open or is no file; or the folder has no level 0.
    Open { level: u8 },
    /// 83: the level is not right; `inner` is 20 to 22. With 22, the board of this rank breaks the rule.
    Verify { level: u8, inner: u8, rule: u8, rank: u32 },
    /// 84: memory has run out.
    Memory,
    /// 86: the file of the level is of an older version.
    Old { level: u8 },
    /// 93: the level has no board of this rank.
    NoRank,
}

impl Refusal {
    /// The number of the refusal.
    pub fn number(self) -> u8 {
        match self {
            Refusal::Shape => 1,
            Refusal::Number => 2,
            Refusal::TooMany => 3,
            Refusal::NoPit => 4,
            Refusal::EmptyPit => 5,
            Refusal::MustFeed => 6,
            Refusal::Ended => 7,
            Refusal::WrongLevel => 20,
            Refusal::TooHigh => 51,
            Refusal::MemoryOfLevel => 53,
            Refusal::NotYet => 59,
            Refusal::Truncated => 60,
            Refusal::Trailing => 67,
            Refusal::Write => 70,
            Refusal::Below { .. } => 80,
            Refusal::File { .. } => 81,
            Refusal::Open { .. } => 82,
            Refusal::Verify { .. } => 83,
            Refusal::Memory => 84,
            Refusal::Old { .. } => 86,
            Refusal::NoRank => 93,
        }
    }

    /// What the number means, for a person. A refusal is printed with more, as its level.
    pub fn sentence(self) -> &'static str {
        sentence(self.number())
    }

    /// The refusal that an answer of the library is, with the fault that was told beside it.
    fn of(answer: u8, fault: PlainFault) -> Refusal {
        let PlainFault { level, inner, rule, rank } = fault;
        match answer {
            1 => Refusal::Shape,
            2 => Refusal::Number,
            3 => Refusal::TooMany,
            4 => Refusal::NoPit,
            5 => Refusal::EmptyPit,
            6 => Refusal::MustFeed,
            7 => Refusal::Ended,
            20 => Refusal::WrongLevel,
            51 => Refusal::TooHigh,
            53 => Refusal::MemoryOfLevel,
            59 => Refusal::NotYet,
            60 => Refusal::Truncated,
            67 => Refusal::Trailing,
            70 => Refusal::Write,
            80 => Refusal::Below { level },
            81 => Refusal::File { level, inner },
            82 => Refusal::Open { level },
            83 => Refusal::Verify { level, inner, rule, rank },
            84 => Refusal::Memory,
            86 => Refusal::Old { level },
            93 => Refusal::NoRank,
            other => unreachable!("the library has no answer {other} to these calls"),
        }
    }
}

/// No refusal if the answer is 0.
pub(crate) fn refused(answer: u8) -> Result<(), Refusal> {
    refused_with(answer, PlainFault::default())
}

/// The same, with the fault that was told beside the answer.
pub(crate) fn refused_with(answer: u8, fault: PlainFault) -> Result<(), Refusal> {
    match answer {
        0 => Ok(()),
        answer => Err(Refusal::of(answer, fault)),
    }
}

/// The sentence of a number.
fn sentence(number: u8) -> &'static str {
    // SAFETY: the library writes a text that is never freed, with a zero byte behind it.
    unsafe { lent(|sentence| awari_text_of(number, sentence)) }
}

impl fmt::Display for Refusal {
    fn fmt(&self, f: &mut fmt::Formatter<'_>) -> fmt::Result {
        match *self {
            Refusal::File { level, inner } => write!(f, "level {level}: {}", sentence(inner)),
            Refusal::Verify { level, inner: 22, rule, rank } => {
                write!(f, "level {level}: the board of rank {rank} breaks rule V{rule}")
            }
            Refusal::Verify { level, inner, .. } => write!(f, "level {level}: {}", sentence(inner)),
            Refusal::Below { level } | Refusal::Open { level } | Refusal::Old { level } => {
                write!(f, "level {level}: {}", self.sentence())
            }
            _ => f.write_str(self.sentence()),
        }
    }
}

impl Error for Refusal {}

#[cfg(test)]
mod tests {
    use super::{PlainFault, Refusal};

    #[test]
    fn each_answer_keeps_its_number() {
        let answers = [1, 2, 3, 4, 5, 6, 7, 20, 51, 53, 59, 60, 67, 70, 80, 81, 82, 83, 84, 86, 93];
        assert_eq!(answers.map(|answer| Refusal::of(answer, PlainFault::default()).number()), answers);
    }
}
