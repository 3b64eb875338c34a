//! Folders of level files, in the form of docs/FORMATS.md: levels saved, loaded and verified.

use crate::board::{Game, MOST};
use crate::level::{Entry, Finished, Level, NO_PLAN, refusal};
use crate::sha256::{Digest, Sha256};
use std::fs::{self, File};
use std::io::{self, Read, Write};
use std::path::{Path, PathBuf};

const MAGIC: [u8; 4] = *b"AWDB";
const VERSION: [u8; 2] = [0, 2];
/// The version of files that are read, and not loaded.
const OLD_VERSION: [u8; 2] = [0, 1];
const OLD_MOST: usize = 12;
const ENTRY: usize = 6;
/// How many entries are read or written at once.
const PIECE: usize = 680;

/// Why a file is not read.
enum FileFault {
    Read,
    Truncated,
    Magic,
    Version,
    LevelOutOfRange,
    Count,
    EntryForm,
    Digest,
    Trailing,
}

impl FileFault {
    fn text(&self) -> &'static str {
        match self {
            FileFault::Truncated => "60 Truncated",
            FileFault::Magic => "61 Magic",
            FileFault::Version => "62 Version",
            FileFault::LevelOutOfRange => "63 LevelOutOfRange",
            FileFault::Count => "64 Count",
            FileFault::EntryForm => "65 EntryForm",
            FileFault::Digest => "66 Digest",
            FileFault::Trailing => "67 Trailing",
            FileFault::Read => "68 Read",
        }
    }
}

fn path_of(folder: &Path, stones: usize) -> PathBuf {
    folder.join(format!("level_{stones:02}.awdb"))
}

/// A reader or a writer, and the digest of the bytes that passed.
struct Hashed<T> {
    stream: T,
    sha: Sha256,
}

impl<T> Hashed<T> {
    fn new(stream: T) -> Self {
        Hashed {
            stream,
            sha: Sha256::new(),
        }
    }
}

impl<R: Read> Hashed<R> {
    /// Fills the bytes as far as the file goes, and says how many came.
    fn fill(&mut self, bytes: &mut [u8]) -> Result<usize, FileFault> {
        let mut came = 0;
        while came < bytes.len() {
            match self.stream.read(&mut bytes[came..]) {
                Ok(0) => break,
                Ok(more) => came += more,
                Err(fault) if fault.kind() == io::ErrorKind::Interrupted => {}
                Err(_) => return Err(FileFault::Read),
            }
        }
        self.sha.update(&bytes[..came]);
        Ok(came)
    }

    fn field<const N: usize>(&mut self) -> Result<[u8; N], FileFault> {
        let mut bytes = [0; N];
        if self.fill(&mut bytes)? < N {
            return Err(FileFault::Truncated);
        }
        Ok(bytes)
    }
}

impl<W: Write> Hashed<W> {
    fn put(&mut self, bytes: &[u8]) -> io::Result<()> {
        self.sha.update(bytes);
        self.stream.write_all(bytes)
    }
}

/// What stands before the entries.
struct Header {
    version: [u8; 2],
    stones: usize,
    limit: u32,
    below: Digest,
}

/// What a file holds: its version, a level, how many stones its boards have, and the two digests.
struct Loaded {
    version: [u8; 2],
    stones: usize,
    level: Level,
    below: Digest,
    digest: Digest,
}

fn read_entry(bytes: &[u8; ENTRY]) -> Result<Entry, FileFault> {
    let [value, plan, dist @ ..] = *bytes;
    if plan > 5 && plan != NO_PLAN {
        return Err(FileFault::EntryForm);
    }
    Ok(Entry {
        value: value as i8,
        plan,
        dist: u32::from_be_bytes(dist),
    })
}

fn read_entries<R: Read>(input: &mut Hashed<R>, count: usize) -> Result<Vec<Entry>, FileFault> {
    let mut entries = Vec::with_capacity(count);
    let mut piece = [0; PIECE * ENTRY];
    while entries.len() < count {
        let wanted = PIECE.min(count - entries.len()) * ENTRY;
        let came = input.fill(&mut piece[..wanted])?;
        for bytes in piece[..came].as_chunks::<ENTRY>().0 {
            entries.push(read_entry(bytes)?);
        }
        if came < wanted {
            return Err(FileFault::Truncated);
        }
    }
    Ok(entries)
}

fn read_header<R: Read>(game: &Game, input: &mut Hashed<R>) -> Result<Header, FileFault> {
    if input.field()? != MAGIC {
        return Err(FileFault::Magic);
    }
    let version = input.field()?;
    let highest = match version {
        VERSION => MOST,
        OLD_VERSION => OLD_MOST,
        _ => return Err(FileFault::Version),
    };
    let [stones] = input.field()?;
    let stones = usize::from(stones);
    if stones > highest {
        return Err(FileFault::LevelOutOfRange);
    }
    if input.field()? != [0] {
        return Err(FileFault::Version);
    }
    if u64::from_be_bytes(input.field()?) != game.size(stones) as u64 {
        return Err(FileFault::Count);
    }
    Ok(Header {
        version,
        stones,
        limit: u32::from_be_bytes(input.field()?),
        below: input.field()?,
    })
}

fn read_level(game: &Game, file: File) -> Result<Loaded, FileFault> {
    let mut input = Hashed::new(file);
    let Header {
        version,
        stones,
        limit,
        below,
    } = read_header(game, &mut input)?;
    let entries = read_entries(&mut input, game.size(stones))?;
    let Hashed { stream, sha } = input;
    let digest = sha.digest();
    let mut end = Hashed::new(stream);
    if end.field()? != digest {
        return Err(FileFault::Digest);
    }
    if end.fill(&mut [0])? > 0 {
        return Err(FileFault::Trailing);
    }
    Ok(Loaded {
        version,
        stones,
        level: Level { limit, entries },
        below,
        digest,
    })
}

/// The level of a file put on those below it, and the digest of the file; or why it is refused.
fn loaded(
    game: &Game,
    below: &Finished,
    digest: Digest,
    file: File,
) -> Result<(Level, Digest), String> {
    let level = below.levels();
    let loaded = read_level(game, file)
        .map_err(|fault| format!("refused 81 File level {level}: {}", fault.text()))?;
    if loaded.version != VERSION {
        return Err(format!("refused 86 Old level {level}"));
    }
    if loaded.below != digest {
        return Err(format!("refused 80 Below level {level}"));
    }
    if loaded.stones != level {
        return Err(format!("refused 83 Verify level {level}: 20 WrongLevel"));
    }
    match refusal(game, below, &loaded.level) {
        None => Ok((loaded.level, loaded.digest)),
        Some((rank, rule)) => Err(format!(
            "refused 83 Verify level {level}: 22 Refused rank {rank} rule V{rule}"
        )),
    }
}

/// Loads and verifies the levels of a folder, and gives the lines to be printed.
pub fn verify(game: &Game, folder: &Path) -> Result<String, String> {
    let mut below = Finished::default();
    let mut digest = [0; 32];
    let mut lines = String::new();
    while below.levels() <= MOST {
        let level = below.levels();
        let file = match File::open(path_of(folder, level)) {
            Ok(file) => file,
            Err(fault) if fault.kind() == io::ErrorKind::NotFound => break,
            Err(_) => return Err(format!("refused 82 Open level {level}")),
        };
        let (next, its_digest) = loaded(game, &below, digest, file)?;
        lines += &format!("level {level} ok limit {}\n", next.limit);
        below.push(&next);
        digest = its_digest;
    }
    let digits: String = digest.iter().map(|byte| format!("{byte:02x}")).collect();
    Ok(format!("{lines}levels {} digest {digits}", below.levels()))
}

fn write_level(file: &File, stones: usize, level: &Level, below: &Digest) -> io::Result<Digest> {
    let mut output = Hashed::new(file);
    let mut header = Vec::with_capacity(52);
    header.extend(MAGIC);
    header.extend(VERSION);
    header.extend([stones as u8, 0]);
    header.extend((level.entries.len() as u64).to_be_bytes());
    header.extend(level.limit.to_be_bytes());
    header.extend(below);
    output.put(&header)?;
    let mut piece = Vec::with_capacity(PIECE * ENTRY);
    for entries in level.entries.chunks(PIECE) {
        piece.clear();
        for entry in entries {
            let [a, b, c, d] = entry.dist.to_be_bytes();
            piece.extend([entry.value as u8, entry.plan, a, b, c, d]);
        }
        output.put(&piece)?;
    }
    let Hashed { mut stream, sha } = output;
    let digest = sha.digest();
    stream.write_all(&digest)?;
    stream.sync_all()?;
    Ok(digest)
}

/// Writes the file of a level beside an old one, renames it, and gives its digest.
pub fn save(folder: &Path, stones: usize, level: &Level, below: &Digest) -> io::Result<Digest> {
    let path = path_of(folder, stones);
    let new = path.with_extension("awdb.new");
    let digest = write_level(&File::create(&new)?, stones, level, below)?;
    fs::rename(new, path)?;
    Ok(digest)
}
