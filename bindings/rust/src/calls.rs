//! The calls of `awari.h`.

use std::ffi::{c_char, c_void, CStr};
use std::ptr;

/// Levels in memory. It begins closed, stays where it is, and is closed before it goes.
#[repr(C)]
pub(crate) struct Handle {
    at: *mut c_void,
    open: bool,
}

impl Handle {
    pub(crate) const CLOSED: Handle = Handle { at: ptr::null_mut(), open: false };
}

#[repr(C)]
#[derive(Clone, Copy, Default)]
pub(crate) struct PlainEntry {
    pub(crate) value: i8,
    pub(crate) plan: u8,
    pub(crate) distance: u32,
}

#[repr(C)]
#[derive(Clone, Copy, Default)]
pub(crate) struct PlainMove {
    pub(crate) legal: bool,
    pub(crate) captures: u8,
    pub(crate) value: i16,
    pub(crate) distance: u32,
}

#[repr(C)]
#[derive(Clone, Copy, Default)]
pub(crate) struct PlainFault {
    pub(crate) level: u8,
    pub(crate) inner: u8,
    pub(crate) rule: u8,
    pub(crate) rank: u32,
}

/// The bytes of a file. They are there as long as what they were taken of.
#[repr(C)]
pub(crate) struct PlainFile {
    bytes: *const u8,
    len: usize,
}

impl PlainFile {
    pub(crate) fn of(file: &[u8]) -> PlainFile {
        PlainFile { bytes: file.as_ptr(), len: file.len() }
    }
}

#[repr(C)]
#[derive(Default)]
pub(crate) struct PlainDraft {
    pub(crate) boards: u64,
    pub(crate) gain: u8,
    pub(crate) settled: bool,
}

#[repr(C)]
#[derive(Default)]
pub(crate) struct PlainCounts {
    pub(crate) won: u32,
    pub(crate) even: u32,
    pub(crate) lost: u32,
    pub(crate) limit: u32,
}

/// A call that tells the moves of a line.
pub(crate) type LineCall = unsafe extern "C" fn(*mut Handle, *const [u8; 12], *mut u8, usize, *mut usize) -> u8;

#[repr(C)]
pub(crate) struct Sentence {
    pub(crate) text: *const c_char,
    pub(crate) size: usize,
}

/// A text that a call lends.
///
/// # Safety
///
/// The call writes a text that is never freed, with a zero byte behind it.
pub(crate) unsafe fn lent(call: impl FnOnce(*mut Sentence)) -> &'static str {
    let mut text = Sentence { text: ptr::null(), size: 0 };
    call(&mut text);
    unsafe { CStr::from_ptr(text.text) }.to_str().unwrap_or("")
}

extern "C" {
    pub(crate) fn awari_source_text(id: *mut Sentence);
    pub(crate) fn awari_text_of(answer: u8, sentence: *mut Sentence);
    pub(crate) fn awari_parse(text: *const u8, len: usize, pits: *mut [u8; 12]) -> u8;
    pub(crate) fn awari_legal(pits: *const [u8; 12]) -> u8;
    pub(crate) fn awari_play(pits: *const [u8; 12], pit: u8, out: *mut [u8; 12], captures: *mut u8) -> u8;
    pub(crate) fn awari_size(level: u8) -> u32;
    pub(crate) fn awari_rank(pits: *const [u8; 12], level: *mut u8, rank: *mut u32) -> u8;
    pub(crate) fn awari_board(level: u8, rank: u32, pits: *mut [u8; 12]) -> u8;
    pub(crate) fn awari_add_level(handle: *mut Handle, bytes: *const u8, len: usize, fault: *mut PlainFault) -> u8;
    pub(crate) fn awari_levels(handle: *mut Handle) -> u8;
    pub(crate) fn awari_probe(handle: *mut Handle, pits: *const [u8; 12], out: *mut PlainEntry) -> u8;
    pub(crate) fn awari_probe_value(handle: *mut Handle, pits: *const [u8; 12], value: *mut i8) -> u8;
    pub(crate) fn awari_probe_moves(handle: *mut Handle, pits: *const [u8; 12], out: *mut [PlainMove; 6]) -> u8;
    pub(crate) fn awari_probe_many(
        handle: *mut Handle,
        boards: *const u8,
        count: usize,
        out: *mut PlainEntry,
        room: usize,
        told: *mut usize,
    ) -> u8;
    pub(crate) fn awari_line(
        handle: *mut Handle,
        pits: *const [u8; 12],
        out: *mut u8,
        room: usize,
        moves: *mut usize,
    ) -> u8;
    pub(crate) fn awari_longest_line(
        handle: *mut Handle,
        pits: *const [u8; 12],
        out: *mut u8,
        room: usize,
        moves: *mut usize,
    ) -> u8;
    pub(crate) fn awari_counts(handle: *mut Handle, level: u8, out: *mut PlainCounts) -> u8;
    pub(crate) fn awari_read_level(handle: *mut Handle, bytes: *const u8, len: usize, fault: *mut PlainFault) -> u8;
    pub(crate) fn awari_look(handle: *mut Handle, part: u32) -> u8;
    pub(crate) fn awari_join_with(from: *mut Handle, to: *mut Handle) -> u8;
    pub(crate) fn awari_accept(handle: *mut Handle, fault: *mut PlainFault) -> u8;
    pub(crate) fn awari_begin(handle: *mut Handle) -> u8;
    pub(crate) fn awari_spread(handle: *mut Handle, boards: usize, out: *mut PlainDraft) -> u8;
    pub(crate) fn awari_finish(handle: *mut Handle, file: *mut u8, len: usize) -> u8;
    pub(crate) fn awari_share_with(from: *mut Handle, to: *mut Handle) -> u8;
    pub(crate) fn awari_close(handle: *mut Handle);
    pub(crate) fn awari_probe_file(bytes: *const u8, len: usize, pits: *const [u8; 12], out: *mut PlainEntry) -> u8;
    pub(crate) fn awari_probe_moves_files(
        files: *const PlainFile,
        count: usize,
        pits: *const [u8; 12],
        out: *mut [PlainMove; 6],
    ) -> u8;
    pub(crate) fn awari_check_file(bytes: *const u8, len: usize, below: *const [u8; 32], digest: *mut [u8; 32]) -> u8;
}
