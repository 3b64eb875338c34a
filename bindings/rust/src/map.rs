//! The bytes of a file, where they lie.

use std::ffi::{c_int, c_void};
use std::fs::File;
use std::io;
use std::os::fd::AsRawFd;
use std::ptr::{self, NonNull};
use std::slice;

extern "C" {
    fn mmap(
        place: *mut c_void,
        len: usize,
        protection: c_int,
        flags: c_int,
        descriptor: c_int,
        offset: i64,
    ) -> *mut c_void;
    fn munmap(place: *mut c_void, len: usize) -> c_int;
}

// So they are named on Linux.
const PROT_READ: c_int = 1;
const MAP_PRIVATE: c_int = 2;
const MAP_FAILED: *mut c_void = !0 as *mut c_void;

/// The bytes of a mapped file, which [`Mapped::open`](crate::Mapped::open) makes. They are given back with it.
pub struct Map {
    place: *mut u8,
    len: usize,
}

// SAFETY: the bytes are only read, and nothing belongs to one thread.
unsafe impl Send for Map {}
// SAFETY: the same.
unsafe impl Sync for Map {}

impl Map {
    /// Maps a file.
    ///
    /// # Safety
    ///
    /// Nobody writes into the file or cuts it off while it is mapped.
    pub(crate) unsafe fn of(file: &File) -> io::Result<Map> {
        let len = file.metadata()?.len() as usize;
        // The system maps no file that is empty.
        if len == 0 {
            return Ok(Map { place: NonNull::dangling().as_ptr(), len });
        }
        // SAFETY: the system chooses where, so nothing else lies there.
        let place = unsafe { mmap(ptr::null_mut(), len, PROT_READ, MAP_PRIVATE, file.as_raw_fd(), 0) };
        if place == MAP_FAILED {
            return Err(io::Error::last_os_error());
        }
        Ok(Map { place: place.cast(), len })
    }
}

impl AsRef<[u8]> for Map {
    fn as_ref(&self) -> &[u8] {
        // SAFETY: so many bytes are mapped there until this goes, and by the promise of `of` nobody writes them.
        unsafe { slice::from_raw_parts(self.place, self.len) }
    }
}

impl Drop for Map {
    fn drop(&mut self) {
        if self.len > 0 {
            // SAFETY: it was mapped by `of`, and nobody has its bytes any more.
            unsafe { munmap(self.place.cast(), self.len) };
        }
    }
}
