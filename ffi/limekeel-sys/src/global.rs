//! The archive's memory is that of Rust's global allocator.
//!
//! Rust wants to know how long a block is that is freed, and the archive does not say it; so that stands before each block,
//! in 16 bytes.

extern crate alloc;

use alloc::alloc as rust;
use core::alloc::Layout;
use core::ptr::NonNull;

const BEFORE: usize = 16;

/// A block, or none.
#[repr(C)]
pub(crate) struct Memory {
    given: bool,
    at: NonNull<u8>,
}

/// A block of `size` bytes, at a multiple of 16. The archive asks for no greater alignment.
fn layout(size: usize) -> Option<Layout> {
    Layout::from_size_align(size.checked_add(BEFORE)?, BEFORE).ok()
}

/// What the archive gets of a block of this layout, or of none.
///
/// # Safety
///
/// The block is null, or the layout is its own.
unsafe fn memory_at(block: *mut u8, layout: Layout) -> Memory {
    let Some(block) = NonNull::new(block) else { return NONE };
    // SAFETY: the block has room for a number before the first of its bytes, and is aligned for it.
    unsafe {
        block.cast::<usize>().write(layout.size());
        Memory { given: true, at: block.add(BEFORE) }
    }
}

const NONE: Memory = Memory { given: false, at: NonNull::dangling() };

#[cfg_attr(limekeel_lib_dir, unsafe(export_name = "limekeel_alloc"))]
pub(crate) extern "C" fn alloc(size: usize, _align: usize) -> Memory {
    // SAFETY: a layout here is never empty, and it is the block's own.
    layout(size).map_or(NONE, |layout| unsafe { memory_at(rust::alloc(layout), layout) })
}

/// The block with another size.
///
/// # Safety
///
/// The block is one of `alloc` or of this function, and not freed. The archive is proved to hand in no other.
#[cfg_attr(limekeel_lib_dir, unsafe(export_name = "limekeel_realloc"))]
pub(crate) unsafe extern "C" fn realloc(at: NonNull<u8>, _kept: usize, size: usize, _align: usize) -> Memory {
    // SAFETY: the block is one of these functions', so it begins before the byte that the archive has, with its own layout.
    layout(size).map_or(NONE, |layout| unsafe {
        let (block, old) = whole(at);
        memory_at(rust::realloc(block.as_ptr(), old, layout.size()), layout)
    })
}

/// Frees a block.
///
/// # Safety
///
/// As of `realloc`.
#[cfg_attr(limekeel_lib_dir, unsafe(export_name = "limekeel_dealloc"))]
pub(crate) unsafe extern "C" fn dealloc(at: NonNull<u8>) {
    // SAFETY: as of `realloc`.
    unsafe {
        let (block, layout) = whole(at);
        rust::dealloc(block.as_ptr(), layout);
    }
}

/// The block with what stands before its bytes, and its layout.
///
/// # Safety
///
/// As of `realloc`.
unsafe fn whole(at: NonNull<u8>) -> (NonNull<u8>, Layout) {
    // SAFETY: `memory_at` wrote the size of a layout there, with this alignment.
    unsafe {
        let block = at.sub(BEFORE);
        (block, Layout::from_size_align_unchecked(block.cast::<usize>().read(), BEFORE))
    }
}
