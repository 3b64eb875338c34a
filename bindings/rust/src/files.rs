//! The files of a folder's levels.

use crate::refusals::Refusal;
use crate::HIGHEST_LEVEL;
use std::fs::{File, OpenOptions};
use std::io::ErrorKind;
use std::os::unix::fs::OpenOptionsExt;
use std::path::Path;

/// A file is opened without waiting for whoever writes into a pipe. So it is named on Linux.
const O_NONBLOCK: i32 = 0o4000;
/// The number of a file that is not read, or not mapped.
pub(crate) const READ: u8 = 68;

/// The files of a folder's levels with at most `most` stones, up to the first that is not there, each with its
/// level. Refused as 82 if one does not open or is no file, or if the folder has no level 0.
pub(crate) fn files_of(folder: &Path, most: u8) -> impl Iterator<Item = Result<(u8, File), Refusal>> + '_ {
    let levels = 0..=most.min(HIGHEST_LEVEL);
    levels.map_while(move |level| Some(file_of(folder, level).transpose()?.map(|file| (level, file))))
}

/// The file of a level, or none if it is not there. Refused as 82.
fn file_of(folder: &Path, level: u8) -> Result<Option<File>, Refusal> {
    let path = folder.join(format!("level_{level:02}.awdb"));
    let file = match OpenOptions::new().read(true).custom_flags(O_NONBLOCK).open(path) {
        Ok(file) => file,
        Err(error) if error.kind() == ErrorKind::NotFound && level > 0 => return Ok(None),
        Err(_) => return Err(Refusal::Open { level }),
    };
    if !file.metadata().is_ok_and(|about| about.is_file()) {
        return Err(Refusal::Open { level });
    }
    Ok(Some(file))
}
