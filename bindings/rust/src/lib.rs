//! Awari's endgame levels: what each board is worth, which pit to play for that, and how soon it comes.
//! Each level is verified before it is kept, and what the library says of it is proved right.
//!
//! ```
//! use awari::{Board, Levels};
//!
//! # fn main() -> Result<(), Box<dyn std::error::Error>> {
//! # let folder = concat!(env!("CARGO_MANIFEST_DIR"), "/../../examples/levels");
//! let levels = Levels::open(folder)?;
//! let board: Board = "1,0,0,0,0,1/1,0,1,0,0,0".parse()?;
//! assert_eq!(levels.entry(&board)?.value, 4);
//! for found in levels.moves(&board)? {
//!     println!("pit {} is worth {} in {} plies", found.pit, found.value, found.distance);
//! }
//! # Ok(())
//! # }
//! ```
//!
//! [`Levels`] reads and verifies files, and keeps three bytes a board. It builds the next level too. [`Mapped`]
//! leaves large levels in mapped files: it opens at once, and verifies nothing. Any number of threads may ask one of
//! either kind. At `Levels` they wait for each other, and at `Mapped` they don't. `examples/engine.rs` is a search
//! in eight threads.
//!
//! The library is `libawari.a`: see `build.rs` for where it is looked for. It runs on Linux, on x86-64 and 64-bit ARM.

mod boards;
mod building;
mod calls;
mod files;
mod levels;
mod map;
mod mapped;
mod refusals;

pub use boards::{Board, Played};
pub use building::Draft;
pub use levels::{Counts, Entry, Levels, Move};
pub use map::Map;
pub use mapped::Mapped;
pub use refusals::Refusal;

/// The highest level that there is.
pub const HIGHEST_LEVEL: u8 = 24;
/// How many levels there are.
const LEVELS: usize = HIGHEST_LEVEL as usize + 1;

/// The digest of the sources that the library was made of, in hexadecimal.
///
/// ```
/// assert_eq!(awari::source_id().len(), 64);
/// ```
pub fn source_id() -> &'static str {
    // SAFETY: the library writes a text that is never freed, with a zero byte behind it.
    unsafe { calls::lent(|id| calls::awari_source_text(id)) }
}
