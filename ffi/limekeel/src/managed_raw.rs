//! The `unsafe` of a managed connection. Each call here is as safe as its signature, for the reasons in `raw.rs`.

use limekeel_sys as sys;
use std::ptr::null_mut;

use crate::connection::{Estimate, Marks};
use crate::lends::{Archived, Lends};
use crate::lent::Lent;
use crate::managed::Limits;
use crate::raw::{Gather, Place, Slot, asks_ahead, commands, front_removals, looks, removals};
use crate::replies::{Refusal, done};
use crate::views::Front;

/// A managed connection of the archive's.
#[derive(Debug)]
pub(crate) struct Managed {
    inner: sys::Managed,
    lent: Lent,
    /// How many messages are gone: the promise of the one in front, since promises count the writes.
    gone: u64,
}

// SAFETY: the archive proves `Send` of what is behind the pointer, and nothing of it is tied to a thread. The pointer keeps
// `Managed` from being `Sync`.
unsafe impl Send for Managed {}

fn taken(told: &sys::ToldTaken) -> &sys::Taken {
    &told.taken
}

fn is_any(told: &sys::ToldRemoved) -> bool {
    told.removed.any
}

impl Managed {
    /// What bytes can be lent to.
    #[inline]
    pub(crate) fn lends(&mut self) -> Lends<'_> {
        Lends { archived: Archived::Managed(&mut self.inner), lent: &mut self.lent }
    }

    pub(crate) fn open(marks: Marks, estimate: Estimate, limits: Limits, now: u64) -> Result<Managed, Refusal> {
        let mut opened = Managed { inner: sys::Managed { at: null_mut() }, lent: Lent::default(), gone: 0 };
        let (Marks { low, high }, Estimate { overhead, unknown }) = (marks, estimate);
        let Limits { most_pending, window, least_bytes } = limits;
        let at = &mut opened.inner;
        // SAFETY: the handle is this value's own, and owns nothing yet.
        done(unsafe {
            sys::limekeel_managed_open_for(
                at,
                sys::EDGE,
                low,
                high,
                overhead,
                unknown,
                most_pending,
                window,
                least_bytes,
                now,
            )
        })?;
        Ok(opened)
    }

    commands! {
        free() -> u32 = limekeel_managed_free;
        finish() -> sys::Truth = limekeel_managed_finish;
        tick(now: u64) -> sys::Truth = limekeel_managed_tick;
        write_region(length: u64) -> sys::Written = limekeel_managed_write_region;
        write_other(value: u32) -> sys::Written = limekeel_managed_write_other;
        flush() -> sys::ToldFlushed = limekeel_managed_flush;
        progress(n: u64) -> sys::ToldDone = limekeel_managed_progress;
        cancel(id: u64) -> sys::ToldCancelled = limekeel_managed_cancel;
        user_bit(index: u32, writable: bool) -> sys::ToldChanged = limekeel_managed_user_bit;
        set_marks(low: u32, high: u32) -> sys::ToldDone = limekeel_managed_set_marks;
    }

    asks_ahead! { limekeel_managed_note_newest }

    pub(crate) fn shrink_to_fit(&mut self) {
        self.lent.shrink();
        // SAFETY: as of a command. An open connection cannot refuse it.
        unsafe { sys::limekeel_managed_shrink_to_fit(&mut self.inner) };
    }

    removals! { sys::ToldTaken, taken;
        take_sent(n: u64) = limekeel_managed_take_sent;
        fail_flushed(cause: u32, notify: bool) = limekeel_managed_fail_flushed;
        close(cause: u32) = limekeel_managed_close;
        give_up(cause: u32) = limekeel_managed_give_up;
    }

    front_removals! { sys::ToldRemoved, is_any;
        remove() = limekeel_managed_remove;
        remove_with(cause: u32) = limekeel_managed_remove_with;
    }

    looks! {
        state() -> sys::State = limekeel_managed_state;
        numbers() -> sys::Numbers = limekeel_managed_numbers;
        look() -> sys::Look = limekeel_managed_look;
        promise(id: u64) -> sys::Promise = limekeel_managed_promise;
        front() -> sys::Front = limekeel_managed_front;
        current() -> sys::Current = limekeel_managed_current;
    }

    #[inline]
    pub(crate) fn write(&mut self, bytes: &[u8]) -> sys::Written {
        if let Some(told) = self.lends().write_copy(bytes) {
            return told.written;
        }
        // SAFETY: the handle is this value's own; the pointer and the length are those of one slice.
        unsafe { sys::limekeel_managed_write_bytes(&mut self.inner, bytes.as_ptr(), bytes.len()) }
    }

    /// Writes bytes that are there for good.
    #[inline]
    pub(crate) fn write_static(&mut self, bytes: &'static [u8]) -> sys::Written {
        // SAFETY: the handle is this value's own; the pointer and the length are those of one slice, which stays as it is.
        unsafe { sys::limekeel_managed_write_lent_bytes(&mut self.inner, bytes.as_ptr(), bytes.len()) }
    }

    #[inline]
    pub(crate) fn write_block(&mut self, block: &Slot) -> sys::Written {
        // SAFETY: both handles are their values' own, and two values; the block is only read.
        unsafe { sys::limekeel_managed_write_block(&mut self.inner, block.inner()) }
    }
}

// SAFETY: the archive says so, and a `&mut` is what a command takes.
unsafe impl Gather for Managed {
    fn gather(&self, places: &mut [Place], max_bytes: u32) -> (usize, Front) {
        // SAFETY: as of a connection.
        let told = unsafe {
            sys::limekeel_managed_gather_pieces(&self.inner, places.as_mut_ptr().cast(), places.len(), max_bytes)
        };
        (told.count, Front::of(told.front))
    }
}

impl Drop for Managed {
    fn drop(&mut self) {
        self.free();
    }
}
