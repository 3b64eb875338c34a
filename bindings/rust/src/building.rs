//! The next level, built a slice at a time: it is right, and has the lowest plans.

use crate::boards::Board;
use crate::calls::{awari_begin, awari_finish, awari_spread, Handle, PlainDraft};
use crate::levels::Levels;
use crate::refusals::{refused, Refusal};
use crate::HIGHEST_LEVEL;
use std::sync::PoisonError;

/// How many boards [`Levels::build`] spreads in a slice.
const SLICE: usize = 100_000;
/// What a file has beside its entries, and the bytes of an entry.
const FRAME_BYTES: usize = 84;
const ENTRY_BYTES: usize = 6;

/// How far a level is that was begun.
#[derive(Clone, Copy, Debug, PartialEq, Eq)]
pub struct Draft {
    /// How many of its boards are settled and were spread.
    pub boards: u64,
    /// The gain that is open; one more than the level if none was opened yet.
    pub gain: u8,
    /// Whether all gains are closed.
    pub settled: bool,
}

/// One thread builds at a time, which the borrow sees to. Others may ask what [`Levels::share`] gave them.
impl Levels {
    /// Builds the next level, puts it on, and gives the bytes of its file. Refused as 51, 53 or 84.
    ///
    /// ```
    /// use awari::{Board, Levels, Refusal};
    ///
    /// # fn main() -> Result<(), Refusal> {
    /// let mut levels = Levels::start();
    /// let files: Vec<Vec<u8>> = (0..4).map(|_| levels.build()).collect::<Result<_, _>>()?;
    /// assert_eq!((levels.len(), files[3].len()), (4, 2268));
    /// assert_eq!(levels.value(&"0,0,0,0,0,1/1,0,1,0,0,0".parse()?)?, 1);
    /// # Ok(())
    /// # }
    /// ```
    pub fn build(&mut self) -> Result<Vec<u8>, Refusal> {
        self.begin()?;
        while !self.spread(SLICE)?.settled {}
        self.finish()
    }

    /// Begins the next level, level 0 first, in place of one that was begun. Refused as 51, or as 53. It takes nine
    /// bytes a board.
    ///
    /// ```
    /// # use awari::{Levels, Refusal};
    /// # fn main() -> Result<(), Refusal> {
    /// # let folder = concat!(env!("CARGO_MANIFEST_DIR"), "/../../examples/levels");
    /// let mut levels = Levels::open(folder)?;
    /// levels.begin()?;
    /// loop {
    ///     let draft = levels.spread(10_000)?;
    ///     println!("gain {}: {} boards", draft.gain, draft.boards);
    ///     if draft.settled {
    ///         break;
    ///     }
    /// }
    /// let file = levels.finish()?;
    /// assert_eq!((levels.len(), file.len()), (8, 84 + 6 * 31824));
    /// # Ok(())
    /// # }
    /// ```
    pub fn begin(&mut self) -> Result<(), Refusal> {
        // SAFETY: the handle is ours.
        refused(unsafe { awari_begin(self.own_handle()) })
    }

    /// Builds a slice of the level that was begun: spreads about this many boards of one distance, or opens the next
    /// gain. A slice of 100,000 takes some 20 milliseconds. Refused as 59 if no level was begun, and as 53, and then
    /// the level is lost.
    pub fn spread(&mut self, boards: usize) -> Result<Draft, Refusal> {
        let mut draft = PlainDraft::default();
        // SAFETY: the library writes into the draft.
        refused(unsafe { awari_spread(self.own_handle(), boards, &mut draft) })?;
        let PlainDraft { boards, gain, settled } = draft;
        Ok(Draft { boards, gain, settled })
    }

    /// Puts the level on that was begun, and gives the bytes of its file. Refused as 59 if none was begun or not all
    /// its gains are closed, and as 53, and then the level is lost. Refused as 84 if there is no room for the bytes.
    pub fn finish(&mut self) -> Result<Vec<u8>, Refusal> {
        let level = self.len().min(usize::from(HIGHEST_LEVEL)) as u8;
        let len = FRAME_BYTES + ENTRY_BYTES * Board::count(level) as usize;
        let mut file = Vec::new();
        file.try_reserve_exact(len).map_err(|_| Refusal::Memory)?;
        file.resize(len, 0);
        // SAFETY: the library writes as many bytes as it is told.
        refused(unsafe { awari_finish(self.own_handle(), file.as_mut_ptr(), file.len()) })?;
        Ok(file)
    }

    fn own_handle(&mut self) -> &mut Handle {
        // A handle is sound even after another thread has panicked.
        self.handle.get_mut().unwrap_or_else(PoisonError::into_inner)
    }
}
