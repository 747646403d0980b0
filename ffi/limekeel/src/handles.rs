//! The `unsafe` of a shared connection. Each call here is as safe as its signature, for the reasons in `raw.rs` and these:
//!
//! - One call at a time uses a handle: `Sender` takes `&mut`, and `Sharer` has a flag that a call raises first. Handles of one
//!   connection may be used by any threads at once: the archive has a lock for them, and proves what they do.
//! - What was gathered lies where it was until this handle takes it away, and no other can: `Sender::offered` borrows it.
//! - Memory that is lent stays as it is until the archive told the message as gone: `Books` keeps its owner (`common.rs`).

use limekeel_sys as sys;
use std::cell::UnsafeCell;
use std::fmt::{self, Debug, Formatter};
use std::io::IoSlice;
use std::ptr::null_mut;
use std::sync::atomic::{AtomicBool, Ordering};

use crate::connection::{Estimate, Marks};
use crate::raw::{Place, Slot, as_pieces, as_slices, joined};
use crate::replies::{Refusal, done};
use crate::waits::Line;

/// A handle of a shared connection, for any thread, or none.
pub(crate) struct Sharer {
    inner: UnsafeCell<sys::Shared>,
    /// Whether a call uses it.
    in_use: AtomicBool,
}

// SAFETY: the archive proves `Send` of what is behind the pointer, and nothing of it is tied to a thread.
unsafe impl Send for Sharer {}

// SAFETY: whoever uses what is in the cell has raised the flag, and lowers it after that.
unsafe impl Sync for Sharer {}

/// Calls an export if the handle and the lock are free, and else returns nothing.
macro_rules! tries {
    ($($name:ident($($argument:ident: $kind:ty),*) -> $answer:ty = $export:ident;)*) => {
        $(
            #[inline]
            pub(crate) fn $name(&self $(, $argument: $kind)*) -> Option<$answer> {
                // SAFETY: the handle is this value's own, and no other call uses it.
                let told = self.with(|inner| unsafe { sys::$export(inner $(, $argument)*) })?;
                (told.status != sys::BUSY).then_some(told)
            }
        )*
    };
}

/// The same of the handle that sends.
macro_rules! sends {
    ($($name:ident($($argument:ident: $kind:ty),*) -> $answer:ty = $export:ident;)*) => {
        $(
            pub(crate) fn $name(&mut self $(, $argument: $kind)*) -> Option<$answer> {
                // SAFETY: the handle is this value's own, and `&mut` says that no other call uses it.
                let told = unsafe { sys::$export(&mut self.inner $(, $argument)*) };
                (told.status != sys::BUSY).then_some(told)
            }
        )*
    };
}

impl Sharer {
    pub(crate) fn none() -> Sharer {
        Sharer { inner: UnsafeCell::new(sys::Shared { at: null_mut() }), in_use: AtomicBool::new(false) }
    }

    /// A handle that this call makes, unless it refuses.
    fn made(make: impl FnOnce(*mut sys::Shared) -> u32) -> Result<Sharer, Refusal> {
        let mut sharer = Sharer::none();
        done(make(sharer.inner.get_mut()))?;
        Ok(sharer)
    }

    /// Uses the handle, unless another call does.
    #[inline]
    fn with<T>(&self, call: impl FnOnce(*mut sys::Shared) -> T) -> Option<T> {
        if self.in_use.swap(true, Ordering::Acquire) {
            return None;
        }
        // what is called are exports, which do not panic
        let answer = call(self.inner.get());
        self.in_use.store(false, Ordering::Release);
        Some(answer)
    }

    /// Another handle of the same connection.
    pub(crate) fn another(&self) -> Option<Result<Sharer, Refusal>> {
        // SAFETY: the handle is this value's own, and no other call uses it; the second is new and owns nothing.
        self.with(|inner| Sharer::made(|second| unsafe { sys::limekeel_shared_another(inner, second) }))
    }

    tries! {
        flush() -> sys::Flushed = limekeel_shared_flush;
        cancel(id: u64) -> sys::Cancelled = limekeel_shared_cancel;
        close(cause: u32) -> sys::Taken = limekeel_shared_close;
        write_region(length: u64) -> sys::Written = limekeel_shared_write_region;
        write_other(value: u32) -> sys::Written = limekeel_shared_write_other;
        user_bit(index: u32, writable: bool) -> sys::Changed = limekeel_shared_user_bit;
        look() -> sys::Look = limekeel_shared_look;
        promise(id: u64) -> sys::Promise = limekeel_shared_promise;
        glance() -> sys::Glance = limekeel_shared_glance;
    }

    tries! {
        settle() -> sys::PressedDone = limekeel_shared_settle;
        rest() -> sys::PressedDone = limekeel_shared_rest;
        held() -> sys::SeatTold = limekeel_shared_held;
    }

    pub(crate) fn write_region_within(&self, length: u64) -> Option<sys::PressedWritten> {
        // SAFETY: as of the others.
        let told = self.with(|inner| unsafe { sys::limekeel_shared_write_region_within(inner, length) })?;
        (told.status != sys::BUSY).then_some(told)
    }

    pub(crate) fn write_other_within(&self, value: u32) -> Option<sys::PressedWritten> {
        // SAFETY: as of the others.
        let told = self.with(|inner| unsafe { sys::limekeel_shared_write_other_within(inner, value) })?;
        (told.status != sys::BUSY).then_some(told)
    }

    pub(crate) fn write_within(&self, bytes: &[u8]) -> Option<sys::PressedWritten> {
        // SAFETY: as of `write`.
        let told =
            self.with(|inner| unsafe { sys::limekeel_shared_write_bytes_within(inner, bytes.as_ptr(), bytes.len()) })?;
        (told.status != sys::BUSY).then_some(told)
    }

    pub(crate) fn write_and_flush_within(&self, bytes: &[u8]) -> Option<sys::PressedWrittenAndFlushed> {
        // SAFETY: as of `write`.
        let told = self.with(|inner| unsafe {
            sys::limekeel_shared_write_and_flush_bytes_within(inner, bytes.as_ptr(), bytes.len())
        })?;
        (told.done.status != sys::BUSY).then_some(told)
    }

    pub(crate) fn write_block_within(&self, block: &Slot) -> Option<sys::PressedWritten> {
        // SAFETY: as of the others; the block is only read.
        let told = self.with(|inner| unsafe { sys::limekeel_shared_write_block_within(inner, block.inner()) })?;
        (told.status != sys::BUSY).then_some(told)
    }

    pub(crate) fn write_block_and_flush_within(&self, block: &Slot) -> Option<sys::PressedWrittenAndFlushed> {
        // SAFETY: as of the others; the block is only read.
        let told =
            self.with(|inner| unsafe { sys::limekeel_shared_write_and_flush_block_within(inner, block.inner()) })?;
        (told.done.status != sys::BUSY).then_some(told)
    }

    /// Writes bytes where they lie, within a budget.
    ///
    /// # Safety
    ///
    /// As of `write_lent`.
    pub(crate) unsafe fn write_lent_within(&self, bytes: &[u8]) -> Option<sys::PressedWritten> {
        // SAFETY: as of `write_lent`.
        let told = self.with(|inner| unsafe {
            sys::limekeel_shared_write_lent_bytes_within(inner, bytes.as_ptr(), bytes.len())
        })?;
        (told.status != sys::BUSY).then_some(told)
    }

    pub(crate) fn set_marks(&self, marks: Marks) -> Option<u32> {
        // SAFETY: as of the others.
        let told = self.with(|inner| unsafe { sys::limekeel_shared_set_marks(inner, marks.low, marks.high) })?;
        (told != sys::BUSY).then_some(told)
    }

    #[inline]
    pub(crate) fn write(&self, bytes: &[u8]) -> Option<sys::Written> {
        // SAFETY: as of the others; the pointer and the length are those of one slice.
        let told =
            self.with(|inner| unsafe { sys::limekeel_shared_write_bytes(inner, bytes.as_ptr(), bytes.len()) })?;
        (told.status != sys::BUSY).then_some(told)
    }

    /// Writes, and flushes under the same lock.
    #[inline]
    pub(crate) fn write_and_flush(&self, bytes: &[u8]) -> Option<sys::WrittenAndFlushed> {
        // SAFETY: as of `write`.
        let told = self
            .with(|inner| unsafe { sys::limekeel_shared_write_and_flush_bytes(inner, bytes.as_ptr(), bytes.len()) })?;
        (told.status != sys::BUSY).then_some(told)
    }

    #[inline]
    pub(crate) fn write_block_and_flush(&self, block: &Slot) -> Option<sys::WrittenAndFlushed> {
        // SAFETY: as of the others; the block is only read.
        let told = self.with(|inner| unsafe { sys::limekeel_shared_write_and_flush_block(inner, block.inner()) })?;
        (told.status != sys::BUSY).then_some(told)
    }

    #[inline]
    pub(crate) fn write_block(&self, block: &Slot) -> Option<sys::Written> {
        // SAFETY: as of the others; the block is only read.
        let told = self.with(|inner| unsafe { sys::limekeel_shared_write_block(inner, block.inner()) })?;
        (told.status != sys::BUSY).then_some(told)
    }

    /// Writes bytes where they lie.
    ///
    /// # Safety
    ///
    /// They stay there, as they are, until the archive told the message as gone, or the connection is.
    #[inline]
    pub(crate) unsafe fn write_lent(&self, bytes: &[u8]) -> Option<sys::Written> {
        // SAFETY: as of the others; the pointer and the length are those of one slice, and the caller says the rest.
        let told =
            self.with(|inner| unsafe { sys::limekeel_shared_write_lent_bytes(inner, bytes.as_ptr(), bytes.len()) })?;
        (told.status != sys::BUSY).then_some(told)
    }

    /// Writes bytes that are there for good, within a budget.
    pub(crate) fn write_static_within(&self, bytes: &'static [u8]) -> Option<sys::PressedWritten> {
        // SAFETY: they stay as they are.
        unsafe { self.write_lent_within(bytes) }
    }

    /// Writes bytes that are there for good.
    #[inline]
    pub(crate) fn write_static(&self, bytes: &'static [u8]) -> Option<sys::Written> {
        // SAFETY: they stay as they are.
        unsafe { self.write_lent(bytes) }
    }
}

impl Drop for Sharer {
    fn drop(&mut self) {
        // SAFETY: the handle is this value's own or owns nothing, which is told and changes nothing.
        unsafe { sys::limekeel_shared_free(self.inner.get_mut()) };
    }
}

impl Debug for Sharer {
    fn fmt(&self, formatter: &mut Formatter<'_>) -> fmt::Result {
        formatter.debug_struct("Sharer").finish_non_exhaustive()
    }
}

/// The handle of a shared connection that sends, or none.
#[derive(Debug)]
pub(crate) struct Sender {
    inner: sys::Transport,
}

// SAFETY: as of `Sharer`. The pointer keeps it from being `Sync`.
unsafe impl Send for Sender {}

impl Sender {
    pub(crate) fn none() -> Sender {
        Sender { inner: sys::Transport { at: null_mut() } }
    }

    pub(crate) fn open(marks: Marks, estimate: Estimate) -> Result<Sender, Refusal> {
        let mut sender = Sender::none();
        // SAFETY: the handle is this value's own, and owns nothing yet.
        done(unsafe {
            sys::limekeel_shared_open_for(
                &mut sender.inner,
                sys::EDGE,
                marks.low,
                marks.high,
                estimate.overhead,
                estimate.unknown,
            )
        })?;
        Ok(sender)
    }

    /// The same within a budget.
    pub(crate) fn open_within(
        budget: &mut crate::budget_raw::Handle,
        marks: Marks,
        estimate: Estimate,
    ) -> Result<Sender, Refusal> {
        let mut sender = Sender::none();
        // SAFETY: both handles are their values' own, and this one owns nothing yet.
        done(unsafe {
            sys::limekeel_shared_open_within_for(
                &mut sender.inner,
                sys::EDGE,
                marks.low,
                marks.high,
                estimate.overhead,
                estimate.unknown,
                budget.inner(),
            )
        })?;
        Ok(sender)
    }

    /// A handle of the same connection, for any thread.
    pub(crate) fn another(&mut self) -> Result<Sharer, Refusal> {
        // SAFETY: the handle is this value's own, and `&mut` says that no other call uses it; the second is new.
        Sharer::made(|second| unsafe { sys::limekeel_transport_another(&mut self.inner, second) })
    }

    sends! {
        take_sent(n: u64) -> sys::Taken = limekeel_transport_take_sent;
        remove() -> sys::Removed = limekeel_transport_remove;
        remove_with(cause: u32) -> sys::Removed = limekeel_transport_remove_with;
        fail_flushed(cause: u32, notify: bool) -> sys::Taken = limekeel_transport_fail_flushed;
        give_up(cause: u32) -> sys::Taken = limekeel_transport_give_up;
        current() -> sys::Current = limekeel_transport_current;
    }

    pub(crate) fn progress(&mut self, n: u64) -> Option<u32> {
        // SAFETY: as of the others.
        let told = unsafe { sys::limekeel_transport_progress(&mut self.inner, n) };
        (told != sys::BUSY).then_some(told)
    }

    fn gather(&mut self, places: &mut [Place], max_bytes: u32) -> Option<sys::Laid> {
        // SAFETY: as of the others; the pointer and the length are those of one slice, where the archive only writes.
        let told = unsafe {
            sys::limekeel_transport_gather_pieces(&mut self.inner, places.as_mut_ptr().cast(), places.len(), max_bytes)
        };
        (told.status != sys::BUSY).then_some(told)
    }

    /// The pieces that one vectored write is offered, by these places: those that lie together in memory are one.
    pub(crate) fn offered<'a>(
        &'a mut self,
        line: &Line,
        places: &'a mut [Place],
        max_bytes: u32,
    ) -> Result<&'a [IoSlice<'a>], Refusal> {
        let told = line.had_by_sender(|| self.gather(places, max_bytes));
        done(told.status)?;
        // SAFETY: the archive filled the first `count` places, with where bytes of the connection lie; `joined` leaves as many
        // as it says, with where the same bytes lie. They lie there until this handle takes them away, which its borrow keeps
        // off, and nobody changes them.
        Ok(unsafe {
            let count = joined(as_pieces(&mut places[..told.count]));
            as_slices(&places[..count])
        })
    }
}

impl Drop for Sender {
    fn drop(&mut self) {
        // SAFETY: the handle is this value's own or owns nothing, which is told and changes nothing.
        unsafe { sys::limekeel_transport_free(&mut self.inner) };
    }
}
