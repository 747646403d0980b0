//! The archive, as the assembly that the compiler wrote of it: it is in the object of this crate.
//!
//! Its three functions of the heap are those of this crate, by whatever names these have, so that no other library of the
//! program can be meant.

use crate::heap;

core::arch::global_asm!(
    ".set limekeel_alloc, {alloc}",
    ".set limekeel_realloc, {realloc}",
    ".set limekeel_dealloc, {dealloc}",
    include_str!(concat!(env!("OUT_DIR"), "/limekeel.s")),
    alloc = sym heap::alloc,
    realloc = sym heap::realloc,
    dealloc = sym heap::dealloc,
    options(att_syntax),
);
