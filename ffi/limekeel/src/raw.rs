//! The `unsafe` of this crate, but that of `lends.rs`, `lent.rs`, `owners.rs`, `handles.rs`, `managed_raw.rs`, `budget_raw.rs` and
//! `common.rs`. Each call here is as safe as its signature.
//!
//! What the archive asks of a caller, and why it is so here:
//!
//! - The handle was made as null or by the archive, and is let go once: `Handle` and `Slot` alone hold one, and neither
//!   can be copied.
//! - One call at a time uses it: a command takes `&mut`, and a look takes `&` of a type that is not `Sync`. A look writes
//!   neither the handle nor what is behind it, and so the archive takes it as const.
//! - Slices are not null: those of Rust never are.
//! - Memory that is lent stays as it is until the archive told the message as gone: a handle keeps its owner, and lets it go
//!   as it is told (`lends.rs`, `lent.rs`, `owners.rs`).
//! - What a `Piece` points to is read while the connection is as it was: a `Pieces` borrows it. It may be read in one thread
//!   while another looks at the connection, since a look writes nothing.

use limekeel_sys as sys;
use std::arch::x86_64::{_MM_HINT_T0, _mm_prefetch};
use std::fmt::{self, Debug, Formatter};
use std::io::IoSlice;
use std::marker::PhantomData;
use std::mem::MaybeUninit;
use std::ops::Deref;
use std::ptr::{null, null_mut};
use std::slice;

use crate::lends::{Archived, Lends, Made};
use crate::lent::Lent;
use crate::replies::{Refusal, done};
use crate::views::Front;

/// A connection of the archive's, or none, and what its messages are lent.
#[derive(Debug)]
pub(crate) struct Handle {
    inner: sys::Connection,
    lent: Lent,
    /// How many messages are gone: the promise of the one in front, since promises count the writes.
    gone: u64,
}

// SAFETY: the archive proves `Send` of what is behind the pointer, and nothing of it is tied to a thread. The pointer keeps
// `Handle` from being `Sync`.
unsafe impl Send for Handle {}

/// Has the processor bring what lies behind the newest message of a connection.
///
/// # Safety
///
/// The pointer is that of a handle that holds a connection, whose first word says where that message lies.
#[inline]
pub(crate) unsafe fn ask_behind(held: *const u8) {
    // an entry has 64 bytes, and the processor brings the one beside it too
    const AHEAD: usize = 128;
    // SAFETY: the word is there, by the caller. What it says is asked for and not read, which fails for no address.
    unsafe {
        let newest = held.cast::<*const i8>().read();
        _mm_prefetch::<_MM_HINT_T0>(newest.wrapping_add(AHEAD));
    }
}

/// Calls an export with the handle of a `&mut`, and what else it takes by value.
macro_rules! commands {
    ($($name:ident($($argument:ident: $kind:ty),*) -> $answer:ty = $export:ident;)*) => {
        $(
            #[inline]
            pub(crate) fn $name(&mut self $(, $argument: $kind)*) -> $answer {
                // SAFETY: the handle is this value's own, and `&mut` says that no other call uses it.
                unsafe { sys::$export(&mut self.inner $(, $argument)*) }
            }
        )*
    };
}

pub(crate) use commands;

/// Has the processor bring the memory of the next messages, by the export that notes where the newest one lies.
macro_rules! asks_ahead {
    ($export:ident) => {
        #[inline]
        pub(crate) fn ask_ahead(&mut self) {
            // SAFETY: as of a command; and the handle holds a connection, if that was noted.
            unsafe {
                if sys::$export(&mut self.inner) == sys::OK {
                    $crate::raw::ask_behind(self.inner.at);
                }
            }
        }
    };
}

pub(crate) use asks_ahead;

/// The same of those that tell which messages are gone: what these were lent is let go. `$taken` is where the answer tells it.
macro_rules! removals {
    ($answer:ty, $taken:ident; $($name:ident($($argument:ident: $kind:ty),*) = $export:ident;)*) => {
        $(
            #[inline]
            pub(crate) fn $name(&mut self $(, $argument: $kind)*) -> $answer {
                // SAFETY: as of a command.
                let told = unsafe { sys::$export(&mut self.inner $(, $argument)*) };
                // if it was refused this is 0
                let end = $taken(&told).to;
                self.gone = self.gone.max(end);
                if !self.lent.is_empty() {
                    self.lent.let_go_below(end);
                }
                told
            }
        )*
    };
}

pub(crate) use removals;

/// The same of the two that take the front away.
macro_rules! front_removals {
    ($answer:ty, $any:ident; $($name:ident($($argument:ident: $kind:ty),*) = $export:ident;)*) => {
        $(
            #[inline]
            pub(crate) fn $name(&mut self $(, $argument: $kind)*) -> $answer {
                // SAFETY: as of a command.
                let told = unsafe { sys::$export(&mut self.inner $(, $argument)*) };
                if $any(&told) {
                    // a removal does not report the promise of a cancelled message, so they are counted: a handle is opened
                    // once, and its promises count the writes from 0
                    self.gone += 1;
                    self.lent.let_go_if_below(self.gone);
                }
                told
            }
        )*
    };
}

pub(crate) use front_removals;

/// The same with the handle of a `&`.
macro_rules! looks {
    ($($name:ident($($argument:ident: $kind:ty),*) -> $answer:ty = $export:ident;)*) => {
        $(
            #[inline]
            pub(crate) fn $name(&self $(, $argument: $kind)*) -> $answer {
                // SAFETY: the handle is this value's own, and not `Sync`, so that no other call uses it meanwhile.
                unsafe { sys::$export(&self.inner $(, $argument)*) }
            }
        )*
    };
}

pub(crate) use looks;

/// What is gathered from.
///
/// # Safety
///
/// `gather` fills as many places as it says, with where bytes lie, and they lie there as they are until this value is borrowed as
/// `&mut`.
pub(crate) unsafe trait Gather {
    /// Fills places with where the flushed blocks in front lie, and returns how many were filled and what stands in front.
    fn gather(&self, places: &mut [Place], max_bytes: u32) -> (usize, Front);

    fn pieces<const N: usize>(&self, max_bytes: u32) -> Pieces<'_, N> {
        let mut places = [const { Place::uninit() }; N];
        let (count, front) = self.gather(&mut places, max_bytes);
        Pieces { places, count, front, connection: PhantomData }
    }

    /// The pieces that one vectored write is offered, by these places: those that lie together in memory are one.
    fn offered<'a>(&'a self, places: &'a mut [Place]) -> &'a [IoSlice<'a>] {
        let (count, _) = self.gather(places, u32::MAX);
        // SAFETY: the first `count` places were filled, with where bytes of the connection lie; `joined` leaves as many as it
        // says, with where the same bytes lie. They lie there until the connection changes, which its borrow keeps off.
        unsafe {
            let count = joined(as_pieces(&mut places[..count]));
            as_slices(&places[..count])
        }
    }
}

// SAFETY: the archive says so, and a `&mut` is what a command takes.
unsafe impl Gather for Handle {
    fn gather(&self, places: &mut [Place], max_bytes: u32) -> (usize, Front) {
        // SAFETY: the handle is this value's own, as in a look; the pointer and the length are those of one slice. A place
        // is laid out as a `Piece`, and the archive only writes there.
        let told =
            unsafe { sys::limekeel_gather_pieces(&self.inner, places.as_mut_ptr().cast(), places.len(), max_bytes) };
        (told.count, Front::of(told.front))
    }
}

fn itself(told: &sys::Taken) -> &sys::Taken {
    told
}

fn is_any(told: &sys::Removed) -> bool {
    told.any
}

impl Handle {
    pub(crate) fn none() -> Handle {
        Handle { inner: sys::Connection { at: null_mut() }, lent: Lent::default(), gone: 0 }
    }

    /// Opens a connection of an archive of this version.
    pub(crate) fn open(&mut self, low: u32, high: u32, overhead: u32, unknown: u32) -> u32 {
        self.open_for(sys::EDGE, low, high, overhead, unknown)
    }

    commands! {
        open_for(edge: u32, low: u32, high: u32, overhead: u32, unknown: u32) -> u32 = limekeel_open_for;
        free() -> u32 = limekeel_free;
        write_region(length: u64) -> sys::Written = limekeel_write_region;
        write_other(value: u32) -> sys::Written = limekeel_write_other;
        flush() -> sys::Flushed = limekeel_flush;
        progress(n: u64) -> u32 = limekeel_progress;
        cancel(id: u64) -> sys::Cancelled = limekeel_cancel;
        user_bit(index: u32, writable: bool) -> sys::Changed = limekeel_user_bit;
        set_marks(low: u32, high: u32) -> u32 = limekeel_set_marks;
    }

    asks_ahead! { limekeel_note_newest }

    pub(crate) fn shrink_to_fit(&mut self) {
        self.lent.shrink();
        // SAFETY: as of a command. An open connection cannot refuse it.
        unsafe { sys::limekeel_shrink_to_fit(&mut self.inner) };
    }

    removals! { sys::Taken, itself;
        take_sent(n: u64) = limekeel_take_sent;
        fail_flushed(cause: u32, notify: bool) = limekeel_fail_flushed;
        close(cause: u32) = limekeel_close;
        give_up(cause: u32) = limekeel_give_up;
    }

    front_removals! { sys::Removed, is_any;
        remove() = limekeel_remove;
        remove_with(cause: u32) = limekeel_remove_with;
    }

    looks! {
        look() -> sys::Look = limekeel_look;
        is_writable() -> sys::Truth = limekeel_is_writable;
        is_closed() -> sys::Truth = limekeel_is_closed;
        is_empty() -> sys::Truth = limekeel_is_empty;
        counts() -> sys::Counts = limekeel_counts;
        settings() -> sys::Settings = limekeel_settings;
        promise(id: u64) -> sys::Promise = limekeel_promise;
        front() -> sys::Front = limekeel_front;
        current() -> sys::Current = limekeel_current;
    }

    #[inline]
    pub(crate) fn write(&mut self, bytes: &[u8]) -> sys::Written {
        if let Some(told) = self.lends().write_copy(bytes) {
            return told.written;
        }
        // SAFETY: the handle is this value's own; the pointer and the length are those of one slice.
        unsafe { sys::limekeel_write_bytes(&mut self.inner, bytes.as_ptr(), bytes.len()) }
    }

    /// Writes bytes that are there for good.
    #[inline]
    pub(crate) fn write_static(&mut self, bytes: &'static [u8]) -> sys::Written {
        // SAFETY: the handle is this value's own; the pointer and the length are those of one slice, which stays as it is.
        unsafe { sys::limekeel_write_lent_bytes(&mut self.inner, bytes.as_ptr(), bytes.len()) }
    }

    /// Writes the bytes of an owner, and keeps it until the message is gone. If it is refused, the owner comes back.
    #[inline]
    pub(crate) fn write_owned<T: AsRef<[u8]> + Send + 'static>(
        &mut self,
        owner: T,
    ) -> Result<sys::Written, (Refusal, T)> {
        self.lends().write_owned(owner).answer
    }

    /// Memory in which a message of at most so many bytes is made.
    #[inline]
    pub(crate) fn reserve(&mut self, most: usize) -> Result<Made<'_>, Refusal> {
        Made::new(self.lends(), most)
    }

    #[inline]
    fn lends(&mut self) -> Lends<'_> {
        Lends { archived: Archived::Connection(&mut self.inner), lent: &mut self.lent }
    }

    pub(crate) fn write_parts(&mut self, parts: &[IoSlice<'_>]) -> sys::Written {
        // SAFETY: the handle is this value's own; the pointer and the length are those of one slice, whose `IoSlice`s are laid
        // out as `Piece`s and are not null.
        unsafe { sys::limekeel_write_pieces(&mut self.inner, parts.as_ptr().cast(), parts.len()) }
    }

    #[inline]
    pub(crate) fn write_block(&mut self, block: &Slot) -> sys::Written {
        // SAFETY: both handles are their values' own, and two values; neither type is `Sync`, so that no other call uses
        // one of them meanwhile.
        unsafe { sys::limekeel_write_block(&mut self.inner, &block.inner) }
    }
}

/// Room for a piece.
pub(crate) type Place = MaybeUninit<sys::Piece>;

/// These places as the pieces that they hold.
///
/// # Safety
///
/// Each is filled.
pub(crate) unsafe fn as_pieces(places: &mut [Place]) -> &mut [sys::Piece] {
    // SAFETY: a `MaybeUninit` is laid out as what it holds, and the caller says that each is there.
    unsafe { slice::from_raw_parts_mut(places.as_mut_ptr().cast(), places.len()) }
}

/// These places as the slices that they stand for.
///
/// # Safety
///
/// Each is filled with where bytes lie, which nobody changes during `'a`.
pub(crate) unsafe fn as_slices<'a>(places: &[Place]) -> &[IoSlice<'a>] {
    // SAFETY: on Unix an `IoSlice` is laid out as `struct iovec`, which is what a `Piece` is.
    unsafe { slice::from_raw_parts(places.as_ptr().cast(), places.len()) }
}

/// Makes one piece of those that lie together in memory, and returns how many are left.
///
/// Two blocks that a heap lays side by side, with no byte of its own between them, are one piece then, though they are two
/// allocations. Their pointers come out of the archive, into which no compiler of Rust sees, and the bytes are only read.
///
/// The end of the last is kept at hand: else each that joins it waits for the length that the one before wrote.
pub(crate) fn joined(pieces: &mut [sys::Piece]) -> usize {
    let end_of = |piece: sys::Piece| piece.at.wrapping_add(piece.length);
    let length_to = |end: *const u8, piece: sys::Piece| end as usize - piece.at as usize;
    // those before the first that joins another stay as they are
    let Some(apart) = pieces.windows(2).position(|two| end_of(two[0]) == two[1].at) else { return pieces.len() };
    let (mut last, mut end) = (apart, end_of(pieces[apart]));
    for at in apart + 1..pieces.len() {
        let piece = pieces[at];
        if piece.at != end {
            pieces[last].length = length_to(end, pieces[last]);
            last += 1;
            pieces[last] = piece;
            end = piece.at;
        }
        end = end.wrapping_add(piece.length);
    }
    pieces[last].length = length_to(end, pieces[last]);
    last + 1
}

impl Drop for Handle {
    // what is lent is dropped after this
    fn drop(&mut self) {
        self.free();
    }
}

// A slice of these is handed in where the archive wants a slice of those. `limekeel-sys` is for Linux on x86-64 alone, where
// std lays an `IoSlice` out as `struct iovec`.
const _: () = assert!(size_of::<IoSlice<'_>>() == size_of::<sys::Piece>());
const _: () = assert!(align_of::<IoSlice<'_>>() == align_of::<sys::Piece>());

/// Where the flushed blocks in front lie, for one vectored write. It borrows the connection.
///
/// Another thread may read it, while this one looks at the connection: neither writes anything.
///
/// ```
/// fn crosses_threads<T: Send + Sync>() {}
/// crosses_threads::<limekeel::Pieces<64>>();
/// ```
pub struct Pieces<'a, const N: usize> {
    places: [Place; N],
    count: usize,
    front: Front,
    connection: PhantomData<&'a ()>,
}

// SAFETY: what it holds is where bytes lie that nobody changes while it lives, as an `IoSlice` does.
unsafe impl<const N: usize> Send for Pieces<'_, N> {}

// SAFETY: as of `Send`.
unsafe impl<const N: usize> Sync for Pieces<'_, N> {}

impl<const N: usize> Pieces<'_, N> {
    /// What stands in front.
    #[must_use]
    pub fn front(&self) -> Front {
        self.front
    }
}

impl<'a, const N: usize> Deref for Pieces<'a, N> {
    type Target = [IoSlice<'a>];

    fn deref(&self) -> &[IoSlice<'a>] {
        // SAFETY: the archive filled the first `count` places, with where bytes of the connection lie. They lie there until
        // it changes, which the borrow in `Pieces` keeps off.
        unsafe { as_slices(&self.places[..self.count]) }
    }
}

impl<const N: usize> Debug for Pieces<'_, N> {
    fn fmt(&self, formatter: &mut Formatter<'_>) -> fmt::Result {
        formatter.debug_struct("Pieces").field("slices", &&**self).field("front", &self.front).finish()
    }
}

/// A block of the archive's, and where its bytes lie.
pub(crate) struct Slot {
    inner: sys::Block,
    piece: sys::Piece,
}

// SAFETY: as of `Handle`. The owners of the bytes are counted by an atomic.
unsafe impl Send for Slot {}

// SAFETY: what takes a `&Slot` only reads: where the bytes lie, the bytes, which nobody changes, or by a call of the archive
// that takes the block as const. Of such a call the archive proves that the block stays as it was, and that its bytes may be
// shared between threads; but it proves that for one call at a time. That two calls at once only read the handle is seen in
// the assembly, and by tests: `ffi/tests/looks.c` hands it in where nobody can write, `ffi/tests/threads.c` from two threads.
unsafe impl Sync for Slot {}

impl Slot {
    /// A block of a copy of these bytes.
    pub(crate) fn of(bytes: &[u8]) -> Result<Slot, Refusal> {
        // SAFETY: the handle is new and owns nothing; the pointer and the length are those of one slice.
        Slot::made(|inner| unsafe { sys::limekeel_block_of_bytes(inner, bytes.as_ptr(), bytes.len()) })
    }

    /// A second block of the same bytes.
    pub(crate) fn share(&self) -> Result<Slot, Refusal> {
        // SAFETY: the one handle is this value's own, and only read; the other is new and owns nothing.
        Slot::made(|inner| unsafe { sys::limekeel_block_share(&self.inner, inner) })
    }

    /// A block that this call fills, unless it refuses.
    fn made(fill: impl FnOnce(&mut sys::Block) -> u32) -> Result<Slot, Refusal> {
        let mut slot = Slot { inner: sys::Block { at: null_mut() }, piece: sys::Piece { at: null(), length: 0 } };
        done(fill(&mut slot.inner))?;
        // SAFETY: both are this value's own.
        done(unsafe { sys::limekeel_block_piece(&slot.inner, &mut slot.piece) })?;
        Ok(slot)
    }

    /// The archive's block, to be read.
    #[inline]
    pub(crate) fn inner(&self) -> *const sys::Block {
        &self.inner
    }

    #[inline]
    pub(crate) fn bytes(&self) -> &[u8] {
        // SAFETY: the archive said that the bytes lie there, and they do as long as the block is theirs, which is as long as
        // this value is; nobody changes them.
        unsafe { slice::from_raw_parts(self.piece.at, self.piece.length) }
    }
}

impl Drop for Slot {
    fn drop(&mut self) {
        // SAFETY: the handle is this value's own, and it is not used again.
        unsafe { sys::limekeel_block_free(&mut self.inner) };
    }
}

#[cfg(test)]
mod tests {
    use super::{joined, sys};

    #[test]
    fn what_lies_together_is_one_piece_with_the_same_bytes() {
        let bytes: Vec<u8> = (0..100).collect();
        // from where, and how many: the second follows the first, the fourth follows the third, the last stands before it
        let parts = [(0, 10), (10, 1), (20, 5), (25, 5), (11, 9)];
        let mut pieces = parts.map(|(from, length)| sys::Piece { at: bytes[from..].as_ptr(), length });
        let count = joined(&mut pieces);
        let left: Vec<(usize, usize)> =
            pieces[..count].iter().map(|piece| (piece.at as usize - bytes.as_ptr() as usize, piece.length)).collect();
        assert_eq!(left, [(0, 11), (20, 10), (11, 9)]);
        assert_eq!(joined(&mut []), 0);
    }
}
