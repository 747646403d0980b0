//! What `ffi/heap.c` is for C: the archive's memory is that of the C library.

use core::ffi::c_void;
use core::ptr::NonNull;

unsafe extern "C" {
    fn malloc(size: usize) -> *mut c_void;
    #[link_name = "realloc"]
    fn c_realloc(at: *mut c_void, size: usize) -> *mut c_void;
    fn free(at: *mut c_void);
}

/// A block, or none.
#[repr(C)]
pub(crate) struct Memory {
    given: bool,
    at: NonNull<u8>,
}

fn memory_at(at: *mut c_void) -> Memory {
    match NonNull::new(at.cast()) {
        Some(at) => Memory { given: true, at },
        None => Memory { given: false, at: NonNull::dangling() },
    }
}

/// A block of `size` bytes. `malloc` aligns it to each power of two up to 16 that divides its size, and more is never
/// asked for.
pub(crate) extern "C" fn alloc(size: usize, _align: usize) -> Memory {
    // SAFETY: `malloc` asks nothing of its size.
    memory_at(unsafe { malloc(size.max(1)) })
}

/// The block with another size.
///
/// # Safety
///
/// The block is one of `alloc` or of this function, and not freed. The archive is proved to hand in no other.
pub(crate) unsafe extern "C" fn realloc(at: *mut u8, _kept: usize, size: usize, _align: usize) -> Memory {
    // SAFETY: what `realloc` asks is what this function asks.
    memory_at(unsafe { c_realloc(at.cast(), size.max(1)) })
}

/// Frees a block.
///
/// # Safety
///
/// As of `realloc`.
pub(crate) unsafe extern "C" fn dealloc(at: *mut u8) {
    // SAFETY: what `free` asks is what this function asks.
    unsafe { free(at.cast()) }
}
