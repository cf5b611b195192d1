//! The functions of `ordup.h`: a store of scripts. `VERSION` is asked for before a store is opened. The checks compare the numbers; nothing compares the functions.

use std::ffi::c_void;
use std::ptr;

pub const VERSION: u32 = 1;

pub const DONE: u32 = 0;
pub const MORE: u32 = 1;
pub const NO_MEMORY: u32 = 4;
pub const NOT_STARTED: u32 = 5;
pub const UNKNOWN_SITE: u32 = 6;
pub const MALFORMED: u32 = 7;
pub const TOO_LONG: u32 = 8;
pub const NOT_YET: u32 = 9;

/// `ordup_store`: none where it is all zero.
#[repr(C)]
struct RawStore {
    held: *mut c_void,
    mark: u64,
}

extern "C" {
    fn ordup_version() -> u32;
    fn ordup_open(store: *mut RawStore) -> u32;
    fn ordup_close(store: *mut RawStore);
    fn ordup_run(
        store: *mut RawStore,
        text: *const u8,
        bytes: usize,
        taken: *mut usize,
        answers: *mut u8,
        room: usize,
        written: *mut usize,
    ) -> u32;
    fn ordup_record(
        store: *mut RawStore,
        site: *const u8,
        bytes: usize,
        record: *mut u8,
        room: usize,
        written: *mut usize,
    ) -> u32;
    fn ordup_check(record: *const u8, bytes: usize, verdict: *mut u8, room: usize, written: *mut usize) -> u32;
    fn ordup_check_series(records: *const u8, bytes: usize, verdict: *mut u8, room: usize, written: *mut usize) -> u32;
    fn ordup_next(store: *mut RawStore, lines: *mut u8, room: usize, written: *mut usize) -> u32;
}

/// The version of the library.
pub fn version() -> u32 {
    // SAFETY: it has no arguments.
    unsafe { ordup_version() }
}

/// A store, or none before it was opened. It is closed when it is dropped.
pub struct Script(RawStore);

// SAFETY: a store has all of its memory to itself, and the library has no state of its own. A call takes `&mut`, so one thread at a
// time is in it.
unsafe impl Send for Script {}

impl Script {
    pub fn none() -> Script {
        Script(RawStore { held: ptr::null_mut(), mark: 0 })
    }

    pub fn open(&mut self) -> u32 {
        // SAFETY: all zero is no store, and another one is as the last call left it.
        unsafe { ordup_open(&mut self.0) }
    }

    /// Adds to `answers` what has room in its capacity.
    pub fn run(&mut self, text: &[u8], taken: &mut usize, answers: &mut Vec<u8>) -> u32 {
        let (start, room) = (answers.len(), answers.capacity() - answers.len());
        let mut written = 0;
        // SAFETY: the store is as the last call left it. The text is a slice, and the room is the vector's own. The library
        // reads no byte of the room, and writes the first `written`, which are at most `room`.
        unsafe {
            let at = answers.as_mut_ptr().add(start);
            let status = ordup_run(&mut self.0, text.as_ptr(), text.len(), taken, at, room, &mut written);
            answers.set_len(start + written);
            status
        }
    }

    pub fn record(&mut self, site: &str, room: &mut [u8], written: &mut usize) -> u32 {
        // SAFETY: as in `run`.
        unsafe { ordup_record(&mut self.0, site.as_ptr(), site.len(), room.as_mut_ptr(), room.len(), written) }
    }

    pub fn next(&mut self, room: &mut [u8], written: &mut usize) -> u32 {
        // SAFETY: as in `run`.
        unsafe { ordup_next(&mut self.0, room.as_mut_ptr(), room.len(), written) }
    }
}

impl Drop for Script {
    fn drop(&mut self) {
        // SAFETY: the store is as the last call left it.
        unsafe { ordup_close(&mut self.0) }
    }
}

pub fn check(record: &[u8], room: &mut [u8], written: &mut usize) -> u32 {
    // SAFETY: these are slices, and the library writes the first `written` bytes of the room, which are at most its length.
    unsafe { ordup_check(record.as_ptr(), record.len(), room.as_mut_ptr(), room.len(), written) }
}

pub fn check_series(records: &[u8], room: &mut [u8], written: &mut usize) -> u32 {
    // SAFETY: as in `check`.
    unsafe { ordup_check_series(records.as_ptr(), records.len(), room.as_mut_ptr(), room.len(), written) }
}
