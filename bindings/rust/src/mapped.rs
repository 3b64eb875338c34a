//! Levels in the bytes of their files, where they lie.

use crate::boards::Board;
use crate::calls::{
    awari_check_file, awari_probe_file, awari_probe_moves_files, PlainEntry, PlainFault, PlainFile, PlainMove,
};
use crate::files::{files_of, READ};
use crate::levels::{moves_of, Entry, Move};
use crate::map::Map;
use crate::refusals::{refused, refused_with, Refusal};
use crate::{HIGHEST_LEVEL, LEVELS};
use std::array;
use std::path::Path;

/// The levels of a folder in their files, where they lie: level 0 up to the first whose file is not there.
/// Or levels in bytes that the caller has, as those of `memmap2::Mmap`.
///
/// It opens at once, and takes no memory for levels. Nothing is verified. What it says is the truth if
/// `awari verify` says yes to these files, or if [`Mapped::check`] does for a digest that you trust.
///
/// Any number of threads may ask one `Mapped` at once, and none waits for another.
///
/// ```
/// use awari::{Board, Mapped, Move, Refusal};
/// use std::thread;
///
/// # fn main() -> Result<(), Refusal> {
/// # let folder = concat!(env!("CARGO_MANIFEST_DIR"), "/../../examples/levels");
/// // SAFETY: nobody writes into these files or cuts one off.
/// let levels = unsafe { Mapped::open(folder) }?;
/// assert!(levels.check("ebbc32bd38a6dafb1b2d7caca7dc013cd1264cb40d1669e9739a020ba053f212")?);
/// let board: Board = "1,0,0,0,0,0/0,0,1,0,0,0".parse()?;
/// thread::scope(|scope| {
///     for _ in 0..8 {
///         scope.spawn(|| assert_eq!(levels.value(&board), Ok(2)));
///     }
/// });
/// assert_eq!(levels.moves(&board)?, [Move { pit: 0, captures: 0, value: 2, distance: 8 }]);
/// # Ok(())
/// # }
/// ```
pub struct Mapped<Bytes = Map> {
    files: Vec<Bytes>,
}

impl Mapped {
    /// Maps the files of a folder. Refused as 82 if the folder or a file does not open or is no file, or if the
    /// folder has no level 0. Refused as 81 if a file is not mapped; `inner` is 68 then.
    ///
    /// # Safety
    ///
    /// Nobody writes into these files or cuts one off while they are mapped, not even another process. If one is
    /// cut off, a look-up behind its new end makes the system end this process by SIGBUS. `awari build` keeps
    /// this: it puts a new file in the place of the old one, whose bytes stay mapped.
    ///
    /// Who can't promise it reads the files, and gives their bytes to [`Mapped::of_files`].
    pub unsafe fn open(folder: impl AsRef<Path>) -> Result<Mapped, Refusal> {
        // SAFETY: the caller promises the same.
        unsafe { Mapped::open_to(folder, HIGHEST_LEVEL) }
    }

    /// The same, and levels of more than `most` stones are not mapped.
    ///
    /// # Safety
    ///
    /// That of [`Mapped::open`].
    pub unsafe fn open_to(folder: impl AsRef<Path>, most: u8) -> Result<Mapped, Refusal> {
        let files = files_of(folder.as_ref(), most).map(|file| {
            let (level, file) = file?;
            // SAFETY: the caller promises the same.
            unsafe { Map::of(&file) }.map_err(|_| Refusal::File { level, inner: READ })
        });
        Ok(Mapped { files: files.collect::<Result<_, _>>()? })
    }
}

impl<Bytes: AsRef<[u8]>> Mapped<Bytes> {
    /// The levels of these files: that of level 0, of level 1 and so on. What is behind level 24 is left out.
    ///
    /// ```
    /// use awari::{Board, Mapped};
    /// use std::fs;
    ///
    /// # fn main() -> Result<(), Box<dyn std::error::Error>> {
    /// # let folder = concat!(env!("CARGO_MANIFEST_DIR"), "/../../examples/levels");
    /// let files = [fs::read(format!("{folder}/level_00.awdb"))?, fs::read(format!("{folder}/level_01.awdb"))?];
    /// let levels = Mapped::of_files(files);
    /// let board: Board = "0,0,0,0,0,1/0,0,0,0,0,0".parse()?;
    /// assert_eq!(levels.value(&board), Ok(-1));
    /// # Ok(())
    /// # }
    /// ```
    pub fn of_files(files: impl IntoIterator<Item = Bytes>) -> Mapped<Bytes> {
        Mapped { files: files.into_iter().take(LEVELS).collect() }
    }

    /// How many levels there are.
    pub fn len(&self) -> usize {
        self.files.len()
    }

    /// Whether there is no level.
    pub fn is_empty(&self) -> bool {
        self.files.is_empty()
    }

    /// What the file of the board's level says of it. Refused as 59 if there is no such file. Refused as 20 if
    /// the file is as long as another level's, or as 60 or 67 if it is shorter or longer than it should be.
    /// Takes no memory.
    pub fn entry(&self, board: &Board) -> Result<Entry, Refusal> {
        entry_in(self.file(board.stones())?, board)
    }

    /// The value of a board alone. Refused as [`Mapped::entry`] is. Takes no memory.
    pub fn value(&self, board: &Board) -> Result<i8, Refusal> {
        self.entry(board).map(|entry| entry.value)
    }

    /// What the files say of many boards, in order. The first board that [`Mapped::entry`] refuses is refused as
    /// it is there. It takes eight bytes a board.
    pub fn many(&self, boards: &[Board]) -> Result<Vec<Entry>, Refusal> {
        let mut found = Vec::with_capacity(boards.len());
        for board in boards {
            found.push(self.entry(board)?);
        }
        Ok(found)
    }

    /// What each legal pit is worth, ascending; none if the play has ended. Refused as 59 if the board's level
    /// is not there. Of the files up to that level, the first that is not as long as it should be is refused as
    /// 20, 60 or 67. It takes no memory but for what it gives.
    pub fn moves(&self, board: &Board) -> Result<Vec<Move>, Refusal> {
        // The library's promise rests on each file that it is given, so it is given none above the board's level.
        let count = self.len().min(usize::from(board.stones()) + 1);
        let files: [_; LEVELS] =
            array::from_fn(|level| PlainFile::of(self.files.get(level).map_or(&[], AsRef::as_ref)));
        let mut found = [PlainMove::default(); 6];
        // SAFETY: the library reads the bytes of so many files and twelve more, and writes six moves.
        refused(unsafe { awari_probe_moves_files(files.as_ptr(), count, board.pits(), &mut found) })?;
        Ok(moves_of(found))
    }

    /// The boards of a level, by rank, each with what the file says of it. Refused as [`Mapped::entry`] is.
    /// Takes no memory.
    ///
    /// ```
    /// # use awari::{Mapped, Refusal};
    /// # fn main() -> Result<(), Refusal> {
    /// # let folder = concat!(env!("CARGO_MANIFEST_DIR"), "/../../examples/levels");
    /// # let levels = unsafe { Mapped::open(folder) }?;
    /// let won = levels.entries(4)?.filter(|(_, entry)| entry.value > 0);
    /// assert_eq!(won.count(), 577);
    /// # Ok(())
    /// # }
    /// ```
    pub fn entries(
        &self,
        level: u8,
    ) -> Result<impl ExactSizeIterator<Item = (Board, Entry)> + DoubleEndedIterator + '_, Refusal> {
        let file = self.file(level)?;
        entry_in(file, &Board::of_rank(level, 0)?)?;
        // A file is refused for its length, so it is refused for the first board or for none.
        let told = move |board| (board, entry_in(file, &board).expect("the file was as long as it should be"));
        Ok(Board::of_level(level).map(told))
    }

    /// Whether the last file ends in this digest, in hexadecimal, and each file is one over the file below it.
    /// Form and digests are judged, and not the entries. So the levels are as right as those of whoever publishes
    /// the digest.
    ///
    /// Refused as 59 if there is no level, and as 80, 81 or 86 if a file is at fault. It reads all bytes, one
    /// file after the other. For that time it takes three bytes for each board of the file's level. If memory
    /// runs out, it is refused as 84.
    pub fn check(&self, digest: &str) -> Result<bool, Refusal> {
        if self.is_empty() {
            return Err(Refusal::NotYet);
        }
        let mut files = (0..).zip(&self.files);
        let last = files.try_fold([0; 32], |below, (level, file)| digest_over(&below, level, file.as_ref()))?;
        Ok(last.map(|byte| format!("{byte:02x}")).concat().eq_ignore_ascii_case(digest))
    }

    /// The bytes of a level's file. Refused as 59.
    fn file(&self, level: u8) -> Result<&[u8], Refusal> {
        self.files.get(usize::from(level)).map(AsRef::as_ref).ok_or(Refusal::NotYet)
    }
}

/// What a file says of a board.
fn entry_in(file: &[u8], board: &Board) -> Result<Entry, Refusal> {
    let mut entry = PlainEntry::default();
    // SAFETY: the library reads these bytes and twelve more, and writes into the entry.
    refused(unsafe { awari_probe_file(file.as_ptr(), file.len(), board.pits(), &mut entry) })?;
    Ok(entry.into())
}

/// The digest in which a level's file ends, if it is one over the file that ends in `below`.
fn digest_over(below: &[u8; 32], level: u8, file: &[u8]) -> Result<[u8; 32], Refusal> {
    let mut digest = [0; 32];
    // SAFETY: the library reads these bytes and 32 more, and writes 32.
    match unsafe { awari_check_file(file.as_ptr(), file.len(), below, &mut digest) } {
        inner @ 60..=67 => Err(Refusal::File { level, inner }),
        answer => refused_with(answer, PlainFault { level, ..PlainFault::default() }).map(|()| digest),
    }
}
