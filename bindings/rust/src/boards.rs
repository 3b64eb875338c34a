//! Boards, and the rules.

use crate::calls::{awari_board, awari_legal, awari_parse, awari_play, awari_rank, awari_size};
use crate::refusals::{refused, Refusal};
use std::fmt;
use std::str::FromStr;

/// A board of at most 48 stones: those of its twelve pits, the mover's six first.
///
/// ```
/// use awari::{Board, Refusal};
///
/// let board: Board = "0,0,0,0,0,1/1,0,1,0,0,0".parse().unwrap();
/// assert_eq!(board.to_string(), "0,0,0,0,0,1/1,0,1,0,0,0");
/// assert_eq!(board.legal().collect::<Vec<_>>(), [5]);
/// let played = board.play(5).unwrap();
/// assert_eq!((played.board.to_string().as_str(), played.captures), ("0,0,1,0,0,0/0,0,0,0,0,0", 2));
/// assert_eq!(board.play(0), Err(Refusal::EmptyPit));
/// assert_eq!("1,2,3".parse::<Board>(), Err(Refusal::Shape));
/// ```
#[derive(Clone, Copy, Debug, PartialEq, Eq, Hash, PartialOrd, Ord)]
#[repr(transparent)]
pub struct Board {
    pits: [u8; 12],
}

/// A move that was played.
#[derive(Clone, Copy, Debug, PartialEq, Eq)]
pub struct Played {
    /// The board that is left, as the other player sees it.
    pub board: Board,
    /// The stones that were captured.
    pub captures: u8,
}

impl Board {
    /// The board with these stones. Refused as 3 if they are more than 48.
    pub fn new(pits: [u8; 12]) -> Result<Board, Refusal> {
        if pits.iter().map(|stones| u32::from(*stones)).sum::<u32>() > 48 {
            return Err(Refusal::TooMany);
        }
        Ok(Board { pits })
    }

    /// The board of a rank. Refused as 59 if the level is above 24, and as 93 if it has fewer boards.
    ///
    /// ```
    /// # use awari::Board;
    /// let board = Board::of_rank(3, 7).unwrap();
    /// assert_eq!(board.rank(), Ok((3, 7)));
    /// ```
    pub fn of_rank(level: u8, rank: u32) -> Result<Board, Refusal> {
        let mut pits = [0; 12];
        // SAFETY: the library writes twelve bytes.
        refused(unsafe { awari_board(level, rank, &mut pits) })?;
        Ok(Board { pits })
    }

    /// The boards of a level, by rank; none if it is above 24. For a part of a level, map its ranks by
    /// [`Board::of_rank`]. Takes no memory.
    ///
    /// ```
    /// # use awari::Board;
    /// let last = Board::of_level(3).last().unwrap();
    /// assert_eq!(last.to_string(), "3,0,0,0,0,0/0,0,0,0,0,0");
    /// ```
    pub fn of_level(level: u8) -> impl ExactSizeIterator<Item = Board> + DoubleEndedIterator {
        (0..Board::count(level)).map(move |rank| Board::of_rank(level, rank).expect("a level has this many boards"))
    }

    /// How many boards a level has; 0 if it is above 24.
    pub fn count(level: u8) -> u32 {
        // SAFETY: the call takes and gives a number.
        unsafe { awari_size(level) }
    }

    /// The stones of the pits.
    pub fn pits(&self) -> &[u8; 12] {
        &self.pits
    }

    /// How many stones there are, which is the board's level.
    pub fn stones(&self) -> u8 {
        self.pits.iter().sum()
    }

    /// The board's level, and its rank there. Refused as 59 if it has more than 24 stones.
    pub fn rank(&self) -> Result<(u8, u32), Refusal> {
        let (mut level, mut rank) = (0, 0);
        // SAFETY: the library reads twelve bytes, and writes two numbers.
        refused(unsafe { awari_rank(&self.pits, &mut level, &mut rank) })?;
        Ok((level, rank))
    }

    /// The pits that can be played, ascending.
    pub fn legal(&self) -> impl Iterator<Item = u8> {
        // SAFETY: the library reads twelve bytes.
        let legal = unsafe { awari_legal(&self.pits) };
        (0..6).filter(move |pit| legal >> pit & 1 == 1)
    }

    /// Plays a pit. Refused as 4 to 7.
    pub fn play(&self, pit: u8) -> Result<Played, Refusal> {
        let (mut pits, mut captures) = ([0; 12], 0);
        // SAFETY: the library reads twelve bytes, and writes twelve bytes and one.
        refused(unsafe { awari_play(&self.pits, pit, &mut pits, &mut captures) })?;
        Ok(Played { board: Board { pits }, captures })
    }
}

impl TryFrom<[u8; 12]> for Board {
    type Error = Refusal;

    fn try_from(pits: [u8; 12]) -> Result<Board, Refusal> {
        Board::new(pits)
    }
}

impl FromStr for Board {
    type Err = Refusal;

    /// Reads a board's word. Refused as 1, 2 or 3.
    fn from_str(text: &str) -> Result<Board, Refusal> {
        let mut pits = [0; 12];
        // SAFETY: the library reads these bytes, and writes twelve.
        refused(unsafe { awari_parse(text.as_ptr(), text.len(), &mut pits) })?;
        Ok(Board { pits })
    }
}

impl fmt::Display for Board {
    fn fmt(&self, f: &mut fmt::Formatter<'_>) -> fmt::Result {
        for (pit, stones) in self.pits.iter().enumerate() {
            let before = match pit {
                0 => "",
                6 => "/",
                _ => ",",
            };
            write!(f, "{before}{stones}")?;
        }
        Ok(())
    }
}
