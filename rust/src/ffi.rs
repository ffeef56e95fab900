//! A session of the C library: the one file with `unsafe` code.
//!
//! Nothing checks a call from Rust against the library's contract. What it requires of a caller is in `include/hir_expr_store.h`, and
//! each `unsafe` below says how that is met.

use crate::transport::{Report, Status};
use std::ffi::c_void;
use std::ptr;

/// What the library reports beside the status: `hir_expr_store_report` of the header.
#[repr(C)]
#[derive(Default)]
struct RawReport {
    length: usize,
    written: usize,
    line: usize,
    column: usize,
    reason: u32,
}

/// A handle: `hir_expr_store_handle` of the header. The library knows it by its address.
#[repr(C)]
struct RawHandle {
    is_open: bool,
    at: *mut c_void,
}

extern "C" {
    fn hir_c_open(
        handle: *mut RawHandle,
        text: *const u8,
        text_length: usize,
        report: *mut RawReport,
    ) -> u32;

    fn hir_c_ask(
        handle: *mut RawHandle,
        text: *const u8,
        text_length: usize,
        buffer: *mut u8,
        buffer_length: usize,
        report: *mut RawReport,
    ) -> u32;

    fn hir_c_fetch(
        handle: *mut RawHandle,
        buffer: *mut u8,
        buffer_length: usize,
        report: *mut RawReport,
    ) -> u32;

    fn hir_c_close(handle: *mut RawHandle) -> u32;

    fn hir_c_version() -> u32;

    fn hir_c_answer(
        text: *const u8,
        text_length: usize,
        buffer: *mut u8,
        buffer_length: usize,
        report: *mut RawReport,
    ) -> u32;

    fn malloc(size: usize) -> *mut c_void;
    fn realloc(block: *mut c_void, size: usize) -> *mut c_void;
    fn free(block: *mut c_void);
}

/// What a call returned and reported.
fn report(status: u32, raw: &RawReport) -> Report {
    Report {
        status: match status {
            0 => Status::Answered,
            1 => Status::Refused(raw.line),
            2 => Status::BadLine(raw.line),
            3 => Status::OutOfMemory,
            _ => Status::Gone,
        },
        length: raw.length,
        written: raw.written,
    }
}

/// The number of the library's version.
pub(crate) fn version() -> u32 {
    // SAFETY: the call takes nothing, and the declaration is that of the header.
    unsafe { hir_c_version() }
}

/// Answers the questions of a text into a buffer, as far as it goes, by a session of its own.
pub(crate) fn answer_into(text: &[u8], buffer: &mut [u8]) -> Report {
    let mut raw = RawReport::default();
    // SAFETY: the declaration is that of the header. Each pointer and its length are those of a Rust slice or of a local value, so they
    // aren't null, don't overlap and stay valid for the call, and no slice has 2^63 bytes or more.
    let status = unsafe {
        hir_c_answer(
            text.as_ptr(),
            text.len(),
            buffer.as_mut_ptr(),
            buffer.len(),
            ptr::from_mut(&mut raw),
        )
    };
    report(status, &raw)
}

/// An open session of the library.
pub(crate) struct Library {
    /// In a box, since the library knows a handle by its address, and a `Library` may be moved.
    handle: Box<RawHandle>,
}

// SAFETY: a handle may be used by any thread, by one at a time (the header says so): the library keeps nothing of a thread's own, and its
// memory is of `malloc`. Each call takes `&mut self`, so no two threads are in a call on one handle. It isn't `Sync`, and needn't be:
// the one call that takes `&self` is none of these.
unsafe impl Send for Library {}

impl Library {
    /// A session that has taken no line. `None` where there is no memory for one.
    pub(crate) fn open() -> Option<Library> {
        let mut handle = Box::new(RawHandle {
            is_open: false,
            at: ptr::null_mut(),
        });
        let mut raw = RawReport::default();
        let text: &[u8] = b"";
        // SAFETY: the handle is closed, as the call requires, and stays at its address until it is closed. The pointers are those of a
        // slice, of a box and of a local value: not null, valid for the call and apart.
        let status = unsafe {
            hir_c_open(
                ptr::from_mut(handle.as_mut()),
                text.as_ptr(),
                text.len(),
                ptr::from_mut(&mut raw),
            )
        };
        // A handle that isn't open needs no closing.
        (status == 0).then_some(Library { handle })
    }

    /// Takes the lines of a text, and writes their answers to a buffer, as far as it goes; the rest is kept.
    pub(crate) fn ask_into(&mut self, text: &[u8], buffer: &mut [u8]) -> Report {
        let mut raw = RawReport::default();
        // SAFETY: the handle is the one that `open` opened, at the same address, and nobody else uses it, as it is borrowed mutably. The
        // other pointers and lengths are those of slices and of a local value, as in `answer_into`.
        let status = unsafe {
            hir_c_ask(
                ptr::from_mut(self.handle.as_mut()),
                text.as_ptr(),
                text.len(),
                buffer.as_mut_ptr(),
                buffer.len(),
                ptr::from_mut(&mut raw),
            )
        };
        report(status, &raw)
    }

    /// Writes the next part of what was kept to a buffer.
    pub(crate) fn fetch_into(&mut self, buffer: &mut [u8]) -> Report {
        let mut raw = RawReport::default();
        // SAFETY: as in `ask_into`.
        let status = unsafe {
            hir_c_fetch(
                ptr::from_mut(self.handle.as_mut()),
                buffer.as_mut_ptr(),
                buffer.len(),
                ptr::from_mut(&mut raw),
            )
        };
        report(status, &raw)
    }
}

impl Drop for Library {
    fn drop(&mut self) {
        // SAFETY: the handle is the one that `open` opened, at the same address, and isn't used afterwards. The status says only whether
        // it was open.
        unsafe { hir_c_close(ptr::from_mut(self.handle.as_mut())) };
    }
}

/// What the library's calls for memory return: whether there is memory, and where.
#[repr(C)]
pub struct Block {
    is_there: bool,
    at: *mut c_void,
}

impl Block {
    fn new(at: *mut c_void) -> Block {
        Block {
            is_there: !at.is_null(),
            // Where there is no memory the pointer is never used; the library takes no null pointer.
            at: if at.is_null() {
                ptr::NonNull::dangling().as_ptr()
            } else {
                at
            },
        }
    }
}

/// As many bytes as are taken from the allocator: one at least, as many as the alignment where none are wanted.
const fn size_of(size: usize, align: usize) -> usize {
    if size == 0 {
        align
    } else {
        size
    }
}

/// Memory for the library: `malloc` aligns it to each power of two up to 16 that divides its size.
#[no_mangle]
extern "C" fn rattle_alloc(size: usize, align: usize) -> Block {
    // SAFETY: malloc takes any size.
    Block::new(unsafe { malloc(size_of(size, align)) })
}

/// The same for a block that grows or shrinks.
///
/// # Safety
///
/// The block is one that `rattle_alloc` or this function gave, and wasn't given back.
#[no_mangle]
unsafe extern "C" fn rattle_realloc(
    block: *mut c_void,
    _old_size: usize,
    size: usize,
    align: usize,
) -> Block {
    // SAFETY: the block is one of malloc's, as the caller owes.
    Block::new(unsafe { realloc(block, size_of(size, align)) })
}

/// Takes a block back.
///
/// # Safety
///
/// The block is one that the two functions above gave, and wasn't given back.
#[no_mangle]
unsafe extern "C" fn rattle_dealloc(block: *mut c_void) {
    // SAFETY: the block is one of malloc's, as the caller owes.
    unsafe { free(block) }
}
