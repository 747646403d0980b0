//! The `unsafe` of what is lent to a connection of each kind. Each call here is as safe as its signature, for the reasons in `raw.rs`.

use limekeel_sys as sys;
use std::any::TypeId;

use crate::lent::Lent;
use crate::owners::{Boxed, fits};
use crate::replies::{Refusal, done};

/// What a write came to, and the number of the change of pressure: none, if no budget covers the connection.
#[derive(Clone, Copy)]
pub(crate) struct WrittenWithin {
    pub(crate) written: sys::Written,
    pub(crate) pressure: u32,
}

impl From<sys::PressedWritten> for WrittenWithin {
    #[inline(always)]
    fn from(told: sys::PressedWritten) -> WrittenWithin {
        let sys::PressedWritten { status, change, pressure, id } = told;
        WrittenWithin { written: sys::Written { status, change: change.into(), id }, pressure: pressure.into() }
    }
}

/// The handle of a connection of the archive's that bytes are lent to.
#[derive(Debug)]
pub(crate) enum Archived<'a> {
    Connection(&'a mut sys::Connection),
    Managed(&'a mut sys::Managed),
    Budgeted(&'a mut sys::Budgeted),
}

impl Archived<'_> {
    /// Writes bytes where they lie.
    ///
    /// # Safety
    ///
    /// They stay there as they are until the archive told the message as gone, or freed the connection.
    #[inline(always)]
    unsafe fn write(&mut self, at: *const u8, length: usize) -> WrittenWithin {
        let unpressed = |written| WrittenWithin { written, pressure: sys::PRESSURE_UNCHANGED };
        // SAFETY: `&mut` says that no other call uses the handle; the caller says the rest.
        unsafe {
            match self {
                Archived::Connection(handle) => unpressed(sys::limekeel_write_lent_bytes(*handle, at, length)),
                Archived::Managed(handle) => unpressed(sys::limekeel_managed_write_lent_bytes(*handle, at, length)),
                Archived::Budgeted(handle) => sys::limekeel_budgeted_write_lent_bytes(*handle, at, length).into(),
            }
        }
    }
}

/// The longest message of which a copy shares a chunk, in bytes: as in the archive.
const LONGEST: usize = 2048;

/// The longest list that is copied and not kept, in bytes: that costs less. Nobody sees when a list is dropped.
const SHORT: usize = 256;

fn is_list<T: 'static>() -> bool {
    TypeId::of::<T>() == TypeId::of::<Vec<u8>>()
}

/// A connection, and what its messages are lent. Whoever has both lets go of what is lent as the archive tells a message as gone,
/// and drops it after the connection.
#[derive(Debug)]
pub(crate) struct Lends<'a> {
    pub(crate) archived: Archived<'a>,
    pub(crate) lent: &'a mut Lent,
}

/// What a write of an owner came to: the owner comes back if it was refused. With the change of pressure, if a budget covers it.
pub(crate) struct Owned<T> {
    pub(crate) answer: Result<sys::Written, (Refusal, T)>,
    pub(crate) pressure: u32,
}

impl<T> Owned<T> {
    fn out_of_memory(owner: T) -> Owned<T> {
        Owned { answer: Err((Refusal::NoMemory, owner)), pressure: sys::PRESSURE_UNCHANGED }
    }

    /// What a write of its copy came to.
    fn of(told: WrittenWithin, owner: T) -> Owned<T> {
        let answer = done(told.written.status).map(|()| told.written);
        Owned { answer: answer.map_err(|refusal| (refusal, owner)), pressure: told.pressure }
    }

    fn map<U>(self, of: impl FnOnce(T) -> U) -> Owned<U> {
        Owned { answer: self.answer.map_err(|(refusal, owner)| (refusal, of(owner))), pressure: self.pressure }
    }
}

impl Lends<'_> {
    /// Writes a copy of few bytes, made where messages are made in place: so it needs no count of owners, which the archive would
    /// keep for it. If there is no memory for that, or they are many, it does nothing, and the archive is to be asked.
    #[inline(always)]
    pub(crate) fn write_copy(&mut self, bytes: &[u8]) -> Option<WrittenWithin> {
        if bytes.len() > LONGEST {
            return None;
        }
        let Lends { archived, lent } = self;
        lent.reserve(bytes.len()).ok()?;
        let start = lent.made();
        lent.add(bytes);
        let copy = lent.made_from(start);
        let (at, length) = (copy.as_ptr(), copy.len());
        // SAFETY: the pointer and the length are those of one slice. The chunk is kept with the promise of the last message in it,
        // and nobody changes these bytes: others are added behind them.
        let told = unsafe { archived.write(at, length) };
        if told.written.status == sys::OK {
            lent.keep_made(told.written.id);
        } else {
            lent.take_back_refused(start);
        }
        Some(told)
    }

    /// Writes the bytes of an owner, and keeps it until the message is gone, but for a short list.
    #[inline]
    pub(crate) fn write_owned<T: AsRef<[u8]> + Send + 'static>(mut self, owner: T) -> Owned<T> {
        if is_list::<T>()
            && owner.as_ref().len() <= SHORT
            && let Some(told) = self.write_copy(owner.as_ref())
        {
            return Owned::of(told, owner);
        }
        if fits::<T>() {
            return self.write_placed(owner);
        }
        match Boxed::new(owner) {
            Ok(boxed) => self.write_placed(boxed).map(Boxed::into_inner),
            Err(owner) => Owned::out_of_memory(owner),
        }
    }

    /// The same of one that fits among those that are kept.
    #[inline]
    fn write_placed<T: AsRef<[u8]> + Send + 'static>(self, owner: T) -> Owned<T> {
        let Lends { mut archived, lent } = self;
        let Ok(vacant) = lent.vacant() else {
            return Owned::out_of_memory(owner);
        };
        let placed = vacant.place(owner);
        let bytes = placed.bytes();
        // SAFETY: the pointer and the length are those of one slice. Its owner is kept under the promise of the message; what is
        // kept is let go if the archive told the message as gone, and behind the archive at the end.
        let told = unsafe { archived.write(bytes.as_ptr(), bytes.len()) };
        let answer = match done(told.written.status) {
            Ok(()) => {
                placed.keep(told.written.id);
                Ok(told.written)
            }
            Err(refusal) => Err((refusal, placed.into_inner())),
        };
        Owned { answer, pressure: told.pressure }
    }
}

/// A message that is being made, in memory of the connection's. Without [`Made::write`] it comes to nothing.
#[derive(Debug)]
pub(crate) struct Made<'a> {
    lends: Lends<'a>,
    /// Where its bytes begin in the chunk, in which each byte before is of a message.
    start: usize,
    most: usize,
}

impl<'a> Made<'a> {
    /// Memory in which a message of at most so many bytes is made.
    #[inline]
    pub(crate) fn new(lends: Lends<'a>, most: usize) -> Result<Made<'a>, Refusal> {
        lends.lent.reserve(most)?;
        let start = lends.lent.made();
        Ok(Made { lends, start, most })
    }

    /// How many bytes it may still have.
    #[inline]
    pub(crate) fn left(&self) -> usize {
        self.most - self.bytes().len()
    }

    #[inline]
    pub(crate) fn bytes(&self) -> &[u8] {
        self.lends.lent.made_from(self.start)
    }

    /// Adds as many of these bytes as it may still have, and returns how many.
    #[inline]
    pub(crate) fn add(&mut self, bytes: &[u8]) -> usize {
        let count = bytes.len().min(self.left());
        self.lends.lent.add(&bytes[..count])
    }

    /// Writes it.
    #[inline(always)]
    pub(crate) fn write(mut self) -> WrittenWithin {
        let bytes = self.lends.lent.made_from(self.start);
        let (at, length) = (bytes.as_ptr(), bytes.len());
        // SAFETY: the pointer and the length are those of one slice. The chunk is kept with the promise of the last message in it,
        // and nobody changes these bytes: others are added behind them.
        let told = unsafe { self.lends.archived.write(at, length) };
        if told.written.status == sys::OK {
            self.lends.lent.keep_made(told.written.id);
            self.start += length;
        }
        told
    }
}

impl Drop for Made<'_> {
    #[inline]
    fn drop(&mut self) {
        self.lends.lent.take_back(self.start);
    }
}
