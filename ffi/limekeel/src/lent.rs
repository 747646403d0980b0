//! Memory that messages are lent, kept until the archive told that they are gone.
//!
//! `Handle` writes with it and tells it what is gone; the `unsafe` here and there stands on this: what is kept under a promise is
//! neither moved nor dropped, nor are its bytes changed, before [`Lent::let_go_below`] or [`Lent::let_go_if_below`] is called with
//! an end above that promise.

use crate::owners::{Kept, Owners, Vacant};
use crate::replies::Refusal;
use std::arch::x86_64::{_MM_HINT_T0, _mm_prefetch};
use std::fmt::{self, Debug, Formatter};
use std::mem::{replace, take};

/// How large a chunk is at most, in bytes, that is kept when all in it are gone.
const KEPT: usize = 128;
/// How large the second chunk is at least, and each at most that was not asked for larger, in bytes: as in the archive.
const SMALL: usize = 1024;
const LARGE: usize = 16384;

/// What messages that wait are lent.
#[derive(Default)]
pub(crate) struct Lent {
    /// A chunk may stand behind owners of later promises.
    owners: Owners,
    /// What messages are made in, one behind the other. It is longer while one is made, and never grows past its capacity.
    chunk: Vec<u8>,
    /// The promise of the last message in it.
    last: u64,
    /// How many bytes the chunks before it had since all were gone, at most `LARGE`. While there is none: how many all had before
    /// that: as many are likely to come again, so it has room for them and an eighth, since one may be shorter than it asks for.
    burst: u32,
    /// Whether full chunks were among the owners since there was no room for any.
    had_full: bool,
}

impl Debug for Lent {
    fn fmt(&self, formatter: &mut Formatter<'_>) -> fmt::Result {
        formatter.debug_struct("Lent").field("owners", &self.owners.count()).field("made", &self.chunk.len()).finish()
    }
}

impl Lent {
    #[inline]
    pub(crate) fn is_empty(&self) -> bool {
        self.owners.is_empty() && self.chunk.is_empty()
    }

    /// Where one owner more stays if it is kept.
    #[inline]
    pub(crate) fn vacant(&mut self) -> Result<Vacant<'_>, Refusal> {
        self.owners.vacant()
    }

    /// Memory in which `most` bytes are made, behind those that are there.
    #[inline]
    pub(crate) fn reserve(&mut self, most: usize) -> Result<(), Refusal> {
        if self.chunk.capacity() - self.chunk.len() >= most { Ok(()) } else { self.begin_chunk(most) }
    }

    /// The same in a new chunk.
    #[cold]
    fn begin_chunk(&mut self, most: usize) -> Result<(), Refusal> {
        let mut next = Vec::new();
        let refused = |_| Refusal::NoMemory;
        if self.chunk.is_empty() {
            // a message alone takes what it asks for, and one that is more than half of what waited together before is alone
            let burst = self.burst as usize;
            let again = if most > burst / 2 { most } else { (burst + burst / 8).min(LARGE) };
            next.try_reserve_exact(most.max(again)).map_err(refused)?;
            self.burst = 0;
            self.chunk = next;
            return Ok(());
        }
        // and more that wait share
        let shared = (2 * self.chunk.capacity()).clamp(SMALL, LARGE);
        next.try_reserve_exact(most.max(shared)).map_err(refused)?;
        let vacant = self.owners.vacant()?;
        self.had_full = true;
        let full = replace(&mut self.chunk, next);
        let length = full.len();
        vacant.place(full).keep(self.last);
        self.add_to_burst(length);
        Ok(())
    }

    /// Counts what a chunk had that is full or gone.
    fn add_to_burst(&mut self, length: usize) {
        self.burst = (self.burst as usize + length).min(LARGE) as u32;
    }

    /// How many bytes the chunk has.
    #[inline]
    pub(crate) fn made(&self) -> usize {
        self.chunk.len()
    }

    /// The bytes from this place on.
    #[inline]
    pub(crate) fn made_from(&self, start: usize) -> &[u8] {
        &self.chunk[start..]
    }

    /// Adds as many of these bytes as there is room for without moving the others, and returns how many.
    #[inline]
    pub(crate) fn add(&mut self, bytes: &[u8]) -> usize {
        let count = bytes.len().min(self.chunk.capacity() - self.chunk.len());
        self.chunk.extend_from_slice(&bytes[..count]);
        count
    }

    /// Takes what was made from this place on back, in which no message has a part. A chunk without a message goes.
    #[inline]
    pub(crate) fn take_back(&mut self, start: usize) {
        if start == 0 {
            drop(take(&mut self.chunk));
        }
        self.chunk.truncate(start);
    }

    /// The same of a copy that was refused.
    #[cold]
    #[inline(never)]
    pub(crate) fn take_back_refused(&mut self, start: usize) {
        self.take_back(start);
    }

    /// The bytes that were made last are of the message with this promise.
    #[inline]
    pub(crate) fn keep_made(&mut self, id: u64) {
        self.last = id;
        self.ask_for_the_next();
    }

    /// Has the processor bring the memory that the next message is made in: when others had theirs meanwhile, it would be waited
    /// for.
    #[inline]
    fn ask_for_the_next(&self) {
        const LINE: usize = 64;
        let next = self.chunk.as_ptr().wrapping_add(self.chunk.len() + LINE);
        // SAFETY: it reads and writes nothing that a program sees, and fails for no address.
        unsafe { _mm_prefetch::<_MM_HINT_T0>(next.cast()) };
    }

    /// Lets go of that in which no message from this promise on has a part. It does not allocate.
    pub(crate) fn let_go_below(&mut self, end: u64) {
        // a drop of the owner's that panics leaves the others for the next call
        self.owners.drop_below(end);
        // who lends owners one by one keeps room for few, and who copies or makes messages none
        if self.had_full {
            self.give_back();
        } else {
            self.owners.keep_few();
        }
        if self.last < end {
            self.let_go_of_chunk();
        }
    }

    /// Lets go of the chunk, in which no message has a part any more. A small one stays for the next message: who writes few bytes at a
    /// time allocates once. No chunk was before it then, since the second is larger.
    fn let_go_of_chunk(&mut self) {
        if self.chunk.capacity() <= KEPT {
            self.chunk.clear();
            return;
        }
        let gone = take(&mut self.chunk);
        self.add_to_burst(gone.len());
    }

    /// The same, if there is any: small enough to be a piece of its caller.
    #[inline]
    pub(crate) fn let_go_if_below(&mut self, end: u64) {
        let has_below = self.last < end || self.owners.have_below(end);
        if has_below && !self.is_empty() {
            self.let_go_below(end);
        }
    }

    /// Hands out the first owner in which no message from this promise on has a part, to be dropped.
    #[inline]
    pub(crate) fn next_below(&mut self, end: u64) -> Option<Kept> {
        self.owners.pop_below(end)
    }

    /// Keeps no memory for what is not there.
    pub(crate) fn shrink(&mut self) {
        self.give_back();
        if self.chunk.is_empty() {
            self.chunk = Vec::new();
        }
    }

    /// Keeps no room for owners if there are none.
    pub(crate) fn give_back(&mut self) {
        if self.owners.is_empty() {
            self.owners.give_back();
            self.had_full = false;
        }
    }
}
