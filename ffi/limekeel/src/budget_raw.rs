//! The `unsafe` of a budget and of a connection that it covers. Each call here is as safe as its signature, for the reasons in
//! `raw.rs`.

use limekeel_sys as sys;
use std::ptr::null_mut;

use crate::budget::Bounds;
use crate::connection::{Estimate, Marks};
use crate::lends::{Archived, Lends, WrittenWithin};
use crate::lent::Lent;
use crate::raw::{Gather, Place, Slot, asks_ahead, commands, front_removals, looks, removals};
use crate::replies::{Refusal, done};
use crate::views::Front;

/// A handle of a budget of the archive's.
#[derive(Debug)]
pub(crate) struct Handle {
    inner: sys::Budget,
}

// SAFETY: the archive proves `Send` of what is behind the pointer, and nothing of it is tied to a thread. The pointer keeps
// `Handle` from being `Sync`.
unsafe impl Send for Handle {}

impl Handle {
    pub(crate) fn open(bounds: Bounds, quantum: u64) -> Result<Handle, Refusal> {
        let mut opened = Handle { inner: sys::Budget { at: null_mut() } };
        let Bounds { room, low, high } = bounds;
        // SAFETY: the handle is this value's own, and owns nothing yet.
        done(unsafe { sys::limekeel_budget_open_for(&mut opened.inner, sys::EDGE, room, low, high, quantum) })?;
        Ok(opened)
    }

    pub(crate) fn share(&mut self) -> Result<Handle, Refusal> {
        let mut second = Handle { inner: sys::Budget { at: null_mut() } };
        // SAFETY: both handles are their values' own, and two values; the second owns nothing yet.
        done(unsafe { sys::limekeel_budget_share(&mut self.inner, &mut second.inner) })?;
        Ok(second)
    }

    /// What opens a connection within the budget.
    pub(crate) fn inner(&mut self) -> &mut sys::Budget {
        &mut self.inner
    }

    commands! {
        look() -> sys::BudgetTold = limekeel_budget_look;
        free() -> u32 = limekeel_budget_free;
    }
}

impl Drop for Handle {
    fn drop(&mut self) {
        self.free();
    }
}

/// A connection of the archive's that a budget covers.
#[derive(Debug)]
pub(crate) struct Budgeted {
    inner: sys::Budgeted,
    lent: Lent,
    /// How many messages are gone: the promise of the one in front, since promises count the writes.
    gone: u64,
}

// SAFETY: as of a `Handle`.
unsafe impl Send for Budgeted {}

fn taken(told: &sys::PressedTaken) -> &sys::Taken {
    &told.taken
}

fn is_any(told: &sys::PressedRemoved) -> bool {
    told.removed.any
}

impl Budgeted {
    /// What bytes can be lent to.
    #[inline]
    pub(crate) fn lends(&mut self) -> Lends<'_> {
        Lends { archived: Archived::Budgeted(&mut self.inner), lent: &mut self.lent }
    }

    pub(crate) fn open(budget: &mut Handle, marks: Marks, estimate: Estimate) -> Result<Budgeted, Refusal> {
        let mut opened = Budgeted { inner: sys::Budgeted { at: null_mut() }, lent: Lent::default(), gone: 0 };
        let (Marks { low, high }, Estimate { overhead, unknown }) = (marks, estimate);
        let (at, budget) = (&mut opened.inner, &mut budget.inner);
        // SAFETY: both handles are their values' own, and this one owns nothing yet.
        done(unsafe { sys::limekeel_open_within_for(at, sys::EDGE, low, high, overhead, unknown, budget) })?;
        Ok(opened)
    }

    commands! {
        free() -> sys::PressedDone = limekeel_budgeted_free;
        rest() -> sys::PressedDone = limekeel_budgeted_rest;
        cover(bytes: u32) -> sys::PressedDone = limekeel_budgeted_cover;
        look_at_budget() -> sys::BudgetTold = limekeel_budgeted_look_at_budget;
        write_region(length: u64) -> sys::PressedWritten = limekeel_budgeted_write_region;
        write_other(value: u32) -> sys::PressedWritten = limekeel_budgeted_write_other;
        flush() -> sys::PressedFlushed = limekeel_budgeted_flush;
        progress(n: u64) -> sys::PressedDone = limekeel_budgeted_progress;
        cancel(id: u64) -> sys::PressedCancelled = limekeel_budgeted_cancel;
        user_bit(index: u32, writable: bool) -> sys::PressedChanged = limekeel_budgeted_user_bit;
        set_marks(low: u32, high: u32) -> sys::PressedDone = limekeel_budgeted_set_marks;
    }

    asks_ahead! { limekeel_budgeted_note_newest }

    removals! { sys::PressedTaken, taken;
        take_sent(n: u64) = limekeel_budgeted_take_sent;
        fail_flushed(cause: u32, notify: bool) = limekeel_budgeted_fail_flushed;
        close(cause: u32) = limekeel_budgeted_close;
        give_up(cause: u32) = limekeel_budgeted_give_up;
    }

    front_removals! { sys::PressedRemoved, is_any;
        remove() = limekeel_budgeted_remove;
        remove_with(cause: u32) = limekeel_budgeted_remove_with;
    }

    looks! {
        state() -> sys::Standing = limekeel_budgeted_state;
        look() -> sys::Look = limekeel_budgeted_look;
        promise(id: u64) -> sys::Promise = limekeel_budgeted_promise;
        front() -> sys::Front = limekeel_budgeted_front;
        current() -> sys::Current = limekeel_budgeted_current;
    }

    /// Writes a copy of these bytes, which the archive makes.
    #[cold]
    pub(crate) fn write(&mut self, bytes: &[u8]) -> WrittenWithin {
        // SAFETY: the handle is this value's own; the pointer and the length are those of one slice.
        unsafe { sys::limekeel_budgeted_write_bytes(&mut self.inner, bytes.as_ptr(), bytes.len()) }.into()
    }

    /// Writes bytes that are there for good.
    #[inline]
    pub(crate) fn write_static(&mut self, bytes: &'static [u8]) -> WrittenWithin {
        // SAFETY: the handle is this value's own; the pointer and the length are those of one slice, which stays as it is.
        unsafe { sys::limekeel_budgeted_write_lent_bytes(&mut self.inner, bytes.as_ptr(), bytes.len()) }.into()
    }

    #[inline]
    pub(crate) fn write_block(&mut self, block: &Slot) -> WrittenWithin {
        // SAFETY: both handles are their values' own, and two values; the block is only read.
        unsafe { sys::limekeel_budgeted_write_block(&mut self.inner, block.inner()) }.into()
    }
}

// SAFETY: the archive says so, and a `&mut` is what a command takes.
unsafe impl Gather for Budgeted {
    fn gather(&self, places: &mut [Place], max_bytes: u32) -> (usize, Front) {
        // SAFETY: as of a connection.
        let told = unsafe {
            sys::limekeel_budgeted_gather_pieces(&self.inner, places.as_mut_ptr().cast(), places.len(), max_bytes)
        };
        (told.count, Front::of(told.front))
    }
}

/// How often what is freed tries again, if other threads come in between 65536 times.
const TRIES: usize = 1024;

impl Budgeted {
    /// Frees it, and tells how that changed pressure. If it is freed already nothing changes.
    pub(crate) fn frees(&mut self) -> u32 {
        for _ in 0..TRIES {
            let told = self.free();
            if told.status != sys::BUSY {
                return told.pressure;
            }
        }
        sys::PRESSURE_UNCHANGED
    }
}

impl Drop for Budgeted {
    fn drop(&mut self) {
        self.frees();
    }
}
