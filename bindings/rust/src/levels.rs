//! Levels in memory, each verified before it is kept.

use crate::boards::Board;
use crate::calls::{
    awari_accept, awari_add_level, awari_close, awari_counts, awari_join_with, awari_levels, awari_line,
    awari_longest_line, awari_look, awari_probe, awari_probe_many, awari_probe_moves, awari_probe_value,
    awari_read_level, awari_share_with, Handle, LineCall, PlainCounts, PlainEntry, PlainFault, PlainMove,
};
use crate::files::{files_of, READ};
use crate::refusals::{refused, refused_with, Refusal};
use crate::HIGHEST_LEVEL;
use std::fs::File;
use std::io::{ErrorKind, Read};
use std::path::Path;
use std::sync::atomic::{AtomicU32, Ordering};
use std::sync::{Mutex, MutexGuard, PoisonError};
use std::thread;

/// In how many parts the library verifies a level.
const PARTS: u32 = 1601;

/// The lowest level that is verified by more than one thread.
const FIRST_SHARED: u8 = 5;

/// What the levels say of a board.
#[derive(Clone, Copy, Debug, PartialEq, Eq)]
pub struct Entry {
    /// What the mover can still gain, in stones.
    pub value: i8,
    /// The pit to play; none if the play has ended.
    pub plan: Option<u8>,
    /// The plies within which a capture or the end comes; 0 if the value is 0.
    pub distance: u32,
}

/// What a legal pit is worth.
#[derive(Clone, Copy, Debug, PartialEq, Eq)]
pub struct Move {
    pub pit: u8,
    /// The stones that it captures.
    pub captures: u8,
    /// What the mover gains by it, in stones.
    pub value: i16,
    /// The plies within which a capture or the end comes by it; 0 if the value is 0.
    pub distance: u32,
}

/// What the boards of a level are for the mover.
#[derive(Clone, Copy, Debug, PartialEq, Eq)]
pub struct Counts {
    /// How many are won.
    pub won: u32,
    /// How many are worth 0.
    pub even: u32,
    /// How many are lost.
    pub lost: u32,
    /// The greatest distance.
    pub limit: u32,
}

/// The levels of a folder, each verified: level 0 up to the first whose file is not there. So what they say
/// is right. The next one is built by [`Levels::build`].
///
/// Threads may ask one `Levels` at once; then they wait for each other. [`Levels::share`] gives each thread
/// one of its own over the same levels, and then none waits.
///
/// ```
/// use awari::{Board, Levels, Refusal};
/// use std::thread;
///
/// # fn main() -> Result<(), Refusal> {
/// # let folder = concat!(env!("CARGO_MANIFEST_DIR"), "/../../examples/levels");
/// let levels = Levels::open(folder)?;
/// let board: Board = "1,0,0,0,0,0/0,0,1,0,0,0".parse()?;
/// let entry = levels.entry(&board)?;
/// assert_eq!((entry.value, entry.plan, entry.distance), (2, Some(0), 8));
/// assert_eq!(levels.line(&board)?, [0, 2, 1, 3, 2, 4, 3, 5]);
/// thread::scope(|scope| {
///     for _ in 0..4 {
///         scope.spawn(|| assert_eq!(levels.value(&board), Ok(2)));
///     }
/// });
/// assert_eq!(Levels::open("no such folder").err(), Some(Refusal::Open { level: 0 }));
/// # Ok(())
/// # }
/// ```
pub struct Levels {
    // It is not moved, as the library asks.
    pub(crate) handle: Mutex<Box<Handle>>,
}

// SAFETY: a handle may be used by any thread, by one at a time, which the lock sees to.
unsafe impl Send for Levels {}
// SAFETY: the same.
unsafe impl Sync for Levels {}

impl Levels {
    /// No level yet. [`Levels::build`] puts level 0 on, and so on.
    pub fn start() -> Levels {
        Levels { handle: Mutex::new(Box::new(Handle::CLOSED)) }
    }

    /// Reads and verifies the levels of a folder. Refused as 80 to 84 or 86; as 82 also if the folder has no
    /// level 0. It takes three bytes a board, and for a time the room of a file.
    pub fn open(folder: impl AsRef<Path>) -> Result<Levels, Refusal> {
        Levels::open_to(folder, HIGHEST_LEVEL)
    }

    /// The same, and levels of more than `most` stones are not read.
    pub fn open_to(folder: impl AsRef<Path>, most: u8) -> Result<Levels, Refusal> {
        Levels::open_by(folder, most, 1)
    }

    /// The same, verified by this many threads, of which the caller's is one. If a thread can't be started, the
    /// others do its work.
    ///
    /// ```
    /// use awari::Levels;
    ///
    /// # fn main() -> Result<(), awari::Refusal> {
    /// # let folder = concat!(env!("CARGO_MANIFEST_DIR"), "/../../examples/levels");
    /// assert_eq!(Levels::open_by(folder, 24, 4)?.len(), Levels::open(folder)?.len());
    /// # Ok(())
    /// # }
    /// ```
    pub fn open_by(folder: impl AsRef<Path>, most: u8, threads: usize) -> Result<Levels, Refusal> {
        let levels = Levels::start();
        for file in files_of(folder.as_ref(), most) {
            let (level, file) = file?;
            let bytes = bytes_of(file, level)?;
            if threads < 2 || level < FIRST_SHARED {
                levels.add(&bytes)?;
            } else {
                levels.read(&bytes)?;
                drop(bytes);
                levels.look_by(threads);
                levels.accept()?;
            }
        }
        Ok(levels)
    }

    fn read(&self, bytes: &[u8]) -> Result<(), Refusal> {
        let mut fault = PlainFault::default();
        // SAFETY: the library reads these bytes, and writes into the fault.
        let answer = unsafe { awari_read_level(&mut **self.handle(), bytes.as_ptr(), bytes.len(), &mut fault) };
        refused_with(answer, fault)
    }

    /// Has threads look at the level that was read, beside this one. What they leave out, `accept` looks at.
    fn look_by(&self, threads: usize) {
        let next = AtomicU32::new(0);
        let helpers: Vec<Levels> = (1..threads).map_while(|_| self.share().ok()).collect();
        thread::scope(|scope| {
            for helper in &helpers {
                if thread::Builder::new().spawn_scoped(scope, || helper.look(&next)).is_err() {
                    break;
                }
            }
            self.look(&next);
        });
        for helper in &helpers {
            // SAFETY: the two handles are apart, and one is shared from the other.
            unsafe { awari_join_with(&mut **helper.handle(), &mut **self.handle()) };
        }
    }

    /// Takes parts in turn, and looks at each, until none is left.
    fn look(&self, next: &AtomicU32) {
        loop {
            let part = next.fetch_add(1, Ordering::Relaxed);
            // SAFETY: the handle is ours.
            if part >= PARTS || unsafe { awari_look(&mut **self.handle(), part) } != 0 {
                break;
            }
        }
    }

    fn accept(&self) -> Result<(), Refusal> {
        let mut fault = PlainFault::default();
        // SAFETY: the library writes into the fault.
        let answer = unsafe { awari_accept(&mut **self.handle(), &mut fault) };
        refused_with(answer, fault)
    }

    fn handle(&self) -> MutexGuard<'_, Box<Handle>> {
        // A call of the library never panics, so a handle is sound even after another thread has.
        self.handle.lock().unwrap_or_else(PoisonError::into_inner)
    }

    fn add(&self, bytes: &[u8]) -> Result<(), Refusal> {
        let mut fault = PlainFault::default();
        // SAFETY: the library reads these bytes, and writes into the fault.
        let answer = unsafe { awari_add_level(&mut **self.handle(), bytes.as_ptr(), bytes.len(), &mut fault) };
        refused_with(answer, fault)
    }

    /// How many levels there are.
    pub fn len(&self) -> usize {
        // SAFETY: the handle is ours.
        usize::from(unsafe { awari_levels(&mut **self.handle()) })
    }

    /// Whether there is no level.
    pub fn is_empty(&self) -> bool {
        self.len() == 0
    }

    /// What the levels say of a board. Refused as 59 if its level is not there.
    pub fn entry(&self, board: &Board) -> Result<Entry, Refusal> {
        let mut entry = PlainEntry::default();
        // SAFETY: the library reads twelve bytes, and writes into the entry.
        refused(unsafe { awari_probe(&mut **self.handle(), board.pits(), &mut entry) })?;
        Ok(entry.into())
    }

    /// The value of a board alone. Refused as 59 if its level is not there.
    pub fn value(&self, board: &Board) -> Result<i8, Refusal> {
        let mut value = 0;
        // SAFETY: the library reads twelve bytes, and writes into the value.
        refused(unsafe { awari_probe_value(&mut **self.handle(), board.pits(), &mut value) })?;
        Ok(value)
    }

    /// What the levels say of many boards, which costs less than to ask for each. Refused as 59 if a
    /// board's level is not there.
    pub fn many(&self, boards: &[Board]) -> Result<Vec<Entry>, Refusal> {
        let mut found = vec![PlainEntry::default(); boards.len()];
        let mut told = 0;
        // SAFETY: a board is twelve bytes. The library reads as many as are told, and writes one entry for each.
        refused(unsafe {
            awari_probe_many(
                &mut **self.handle(),
                boards.as_ptr().cast(),
                boards.len(),
                found.as_mut_ptr(),
                found.len(),
                &mut told,
            )
        })?;
        Ok(found.into_iter().map(Entry::from).collect())
    }

    /// What each legal pit is worth, ascending; none if the play has ended. Refused as 59.
    pub fn moves(&self, board: &Board) -> Result<Vec<Move>, Refusal> {
        let mut found = [PlainMove::default(); 6];
        // SAFETY: the library reads twelve bytes, and writes six moves.
        refused(unsafe { awari_probe_moves(&mut **self.handle(), board.pits(), &mut found) })?;
        Ok(moves_of(found))
    }

    /// The boards of a level, by rank, each with what the level says of it. Refused as 59 if the level is not
    /// there. Takes no memory.
    pub fn entries(
        &self,
        level: u8,
    ) -> Result<impl ExactSizeIterator<Item = (Board, Entry)> + DoubleEndedIterator + '_, Refusal> {
        if usize::from(level) >= self.len() {
            return Err(Refusal::NotYet);
        }
        let told = |board| (board, self.entry(&board).expect("a level stays once it is there"));
        Ok(Board::of_level(level).map(told))
    }

    /// What the boards of a level come to. Refused as 59 if it is not there. Takes no memory.
    ///
    /// ```
    /// use awari::{Counts, Levels, Refusal};
    ///
    /// # fn main() -> Result<(), Refusal> {
    /// # let folder = concat!(env!("CARGO_MANIFEST_DIR"), "/../../examples/levels");
    /// let levels = Levels::open(folder)?;
    /// assert_eq!(levels.counts(2)?, Counts { won: 24, even: 13, lost: 41, limit: 9 });
    /// assert_eq!(levels.counts(7), Err(Refusal::NotYet));
    /// # Ok(())
    /// # }
    /// ```
    pub fn counts(&self, level: u8) -> Result<Counts, Refusal> {
        let mut found = PlainCounts::default();
        // SAFETY: the library writes into what is found.
        refused(unsafe { awari_counts(&mut **self.handle(), level, &mut found) })?;
        let PlainCounts { won, even, lost, limit } = found;
        Ok(Counts { won, even, lost, limit })
    }

    /// The play by the plans of both sides, to its first outcome, which is the board's value. Refused as 59
    /// or 84.
    pub fn line(&self, board: &Board) -> Result<Vec<u8>, Refusal> {
        self.line_by(awari_line, board)
    }

    /// The play in which the side that gains goes by its plans, and the other holds out as long as it can: as many
    /// moves as the distance. Refused as 59 or 84.
    ///
    /// ```
    /// # use awari::{Board, Levels, Refusal};
    /// # fn main() -> Result<(), Refusal> {
    /// # let folder = concat!(env!("CARGO_MANIFEST_DIR"), "/../../examples/levels");
    /// let levels = Levels::open(folder)?;
    /// let board: Board = "1,1,1,1,0,0/0,0,0,1,0,1".parse()?;
    /// assert_eq!(levels.line(&board)?, [0, 3, 3, 4, 1, 5]);
    /// assert_eq!(levels.longest_line(&board)?, [0, 3, 3, 5, 0, 4, 2, 5]);
    /// # Ok(())
    /// # }
    /// ```
    pub fn longest_line(&self, board: &Board) -> Result<Vec<u8>, Refusal> {
        self.line_by(awari_longest_line, board)
    }

    fn line_by(&self, call: LineCall, board: &Board) -> Result<Vec<u8>, Refusal> {
        let mut moves = vec![0; 64];
        loop {
            let mut count = 0;
            // SAFETY: the library reads twelve bytes, and writes as many moves as there is room for.
            refused(unsafe { call(&mut **self.handle(), board.pits(), moves.as_mut_ptr(), moves.len(), &mut count) })?;
            let fits = count <= moves.len();
            moves.resize(count, 0);
            if fits {
                return Ok(moves);
            }
        }
    }

    /// The same levels for another thread. None is copied, and a level that was begun is not shared. Refused as 84.
    pub fn share(&self) -> Result<Levels, Refusal> {
        let shared = Levels::start();
        // SAFETY: the two handles are apart.
        refused(unsafe { awari_share_with(&mut **self.handle(), &mut **shared.handle()) })?;
        Ok(shared)
    }
}

/// The bytes of a level's file. Refused as 81 if it is not read, and as 84.
fn bytes_of(mut file: File, level: u8) -> Result<Vec<u8>, Refusal> {
    let mut bytes = Vec::new();
    match file.read_to_end(&mut bytes) {
        Ok(_) => Ok(bytes),
        Err(error) if error.kind() == ErrorKind::OutOfMemory => Err(Refusal::Memory),
        Err(_) => Err(Refusal::File { level, inner: READ }),
    }
}

impl Drop for Levels {
    fn drop(&mut self) {
        // SAFETY: nobody has the handle any more.
        unsafe { awari_close(&mut **self.handle()) }
    }
}

impl From<PlainEntry> for Entry {
    fn from(PlainEntry { value, plan, distance }: PlainEntry) -> Entry {
        Entry { value, plan: (plan < 6).then_some(plan), distance }
    }
}

/// The legal ones of these moves, each with its pit.
pub(crate) fn moves_of(found: [PlainMove; 6]) -> Vec<Move> {
    let legal = (0..).zip(found).filter(|(_, found)| found.legal);
    legal.map(|(pit, PlainMove { captures, value, distance, .. })| Move { pit, captures, value, distance }).collect()
}
