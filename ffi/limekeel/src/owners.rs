//! Owners of bytes that messages are lent, oldest first. None moves while it is kept, so its bytes may lie in the owner itself.
//!
//! The `unsafe` here stands on this: the cells of a segment from `oldest` to `next` hold an owner each, the others nothing; and while
//! an owner is kept, no reference reaches into its room but the one that its bytes were asked of.

use crate::replies::Refusal;
use std::alloc::{Layout, alloc, dealloc};
use std::collections::VecDeque;
use std::marker::PhantomData;
use std::mem::{ManuallyDrop, MaybeUninit, align_of, forget, replace, size_of, take};
use std::ptr::NonNull;

/// For how many owners a segment has room: the first, which is kept if none is left, the second at least, and each at most that is
/// not made for as many as came before.
const FEW: usize = 2;
const SOME: usize = 8;
const MANY: usize = 128;
/// For how many there is room at once at most, if as many came before.
const AGAIN: u32 = 256;

/// Room for a `Bytes`, a list, or a pointer to what is larger.
type Room = MaybeUninit<[usize; 4]>;

/// An owner of some type that messages were lent bytes of, and are no longer: it is there to be dropped.
pub(crate) struct Kept {
    room: Room,
    /// Drops what is in the room, once.
    drop: unsafe fn(NonNull<Room>),
}

// SAFETY: `Owners` takes only what is `Send`.
unsafe impl Send for Kept {}

impl Drop for Kept {
    #[inline]
    fn drop(&mut self) {
        // SAFETY: in the room is what this drops, and nobody uses it afterwards.
        unsafe { (self.drop)(NonNull::from(&mut self.room)) };
    }
}

/// Drops a `T` in its room.
///
/// # Safety
///
/// It is there, and nobody uses it afterwards.
unsafe fn drop_in<T>(room: NonNull<Room>) {
    // SAFETY: the caller says so.
    unsafe { room.cast::<T>().drop_in_place() };
}

/// An owner, and the last promise that has a part in its bytes.
struct Cell {
    kept: Kept,
    last: u64,
}

/// Memory for some owners.
struct Segment {
    /// Where its memory begins and ends.
    cells: NonNull<Cell>,
    end: NonNull<Cell>,
    /// The cells from the oldest to the next are held.
    oldest: NonNull<Cell>,
    next: NonNull<Cell>,
}

impl Default for Segment {
    fn default() -> Segment {
        let none = NonNull::dangling();
        Segment { cells: none, end: none, oldest: none, next: none }
    }
}

impl Segment {
    /// With room for *count*, which is not 0.
    fn with_room(count: usize) -> Result<Segment, Refusal> {
        // SAFETY: the layout has a size.
        let cells = unsafe { alloc(Segment::layout_of(count)) };
        let cells = NonNull::new(cells.cast()).ok_or(Refusal::NoMemory)?;
        // SAFETY: the memory ends there.
        let end = unsafe { cells.add(count) };
        Ok(Segment { cells, end, oldest: cells, next: cells })
    }

    fn layout_of(count: usize) -> Layout {
        Layout::array::<Cell>(count).expect("a segment is small")
    }

    /// How many cells lie between two of its places.
    fn between(from: NonNull<Cell>, to: NonNull<Cell>) -> usize {
        // SAFETY: they are of one segment, and the second is not before the first.
        unsafe { to.offset_from(from) as usize }
    }

    fn room(&self) -> usize {
        Segment::between(self.cells, self.end)
    }

    fn count(&self) -> usize {
        Segment::between(self.oldest, self.next)
    }

    /// How many came since its cells began anew.
    fn came(&self) -> usize {
        Segment::between(self.cells, self.next)
    }

    #[inline]
    fn is_empty(&self) -> bool {
        self.oldest == self.next
    }

    #[inline]
    fn is_full(&self) -> bool {
        self.next == self.end
    }

    /// Has the cells begin anew. None may be held.
    #[inline]
    fn begin_anew(&mut self) {
        debug_assert!(self.is_empty());
        (self.oldest, self.next) = (self.cells, self.cells);
    }

    /// The last promise that has a part in the oldest.
    #[inline]
    fn last_of_oldest(&self) -> Option<u64> {
        // SAFETY: this cell holds an owner. Its room is not touched.
        (!self.is_empty()).then(|| unsafe { (*self.oldest.as_ptr()).last })
    }

    /// The cell of the oldest, which counts as empty from now on.
    #[inline]
    fn leave_oldest(&mut self) -> NonNull<Cell> {
        debug_assert!(!self.is_empty());
        let cell = self.oldest;
        // SAFETY: it is one of these cells.
        self.oldest = unsafe { cell.add(1) };
        cell
    }

    /// Hands out the oldest.
    #[inline]
    fn pop(&mut self) -> Option<Kept> {
        if self.is_empty() {
            return None;
        }
        let cell = self.leave_oldest();
        // SAFETY: this cell held an owner, and counts as empty now.
        let Cell { kept, .. } = unsafe { cell.read() };
        Some(kept)
    }

    /// Drops those in which no message from this promise on has a part, where they lie.
    #[inline]
    fn drop_below(&mut self, end: u64) {
        while self.last_of_oldest().is_some_and(|last| last < end) {
            let cell = self.leave_oldest();
            // SAFETY: this cell held an owner, and counts as empty now, also if the drop panics. Nobody else has the segment meanwhile.
            unsafe { (&raw mut (*cell.as_ptr()).kept).drop_in_place() };
        }
    }

    /// Drops all that are left, also those behind one whose drop panics, and frees the memory.
    #[cold]
    fn drop_rest(&mut self) {
        struct Rest(Segment);
        impl Drop for Rest {
            fn drop(&mut self) {
                while self.0.pop().is_some() {}
            }
        }
        let mut rest = Rest(take(self));
        while rest.0.pop().is_some() {}
    }
}

impl Drop for Segment {
    #[inline]
    fn drop(&mut self) {
        if !self.is_empty() {
            self.drop_rest();
        } else if self.room() > 0 {
            // SAFETY: it is that of `with_room` with this count.
            unsafe { dealloc(self.cells.as_ptr().cast(), Segment::layout_of(self.room())) };
        }
    }
}

/// Owners, oldest first.
///
/// ```text
///     ahead                                      last
///   [   | o | o | o ]     [ o | o | o ] ..     [ o | o |   |   ]
///         the oldest                                     the next
/// ```
#[derive(Default)]
pub(crate) struct Owners {
    /// The segments before the last. Each has some.
    ahead: VecDeque<Segment>,
    /// The newest, and all while no segment lies before them.
    last: Segment,
    /// How many came since there was none into segments that have none any more; and how many came in all before that, for which it
    /// makes room again.
    came: u32,
    came_before: u32,
}

// SAFETY: it takes only what is `Send`.
unsafe impl Send for Owners {}

/// Owners of which some go. The others are in order afterwards, also if a drop panics.
struct Ordered<'a>(&'a mut Owners);

impl Drop for Ordered<'_> {
    #[inline]
    fn drop(&mut self) {
        self.0.order();
    }
}

impl Owners {
    #[inline]
    pub(crate) fn is_empty(&self) -> bool {
        self.ahead.is_empty() && self.last.is_empty()
    }

    pub(crate) fn count(&self) -> usize {
        self.ahead.iter().map(Segment::count).sum::<usize>() + self.last.count()
    }

    /// The segment with the oldest.
    #[inline]
    fn front(&mut self) -> &mut Segment {
        self.ahead.front_mut().unwrap_or(&mut self.last)
    }

    /// Whether no message from this promise on has a part in the oldest.
    #[inline]
    pub(crate) fn have_below(&self, end: u64) -> bool {
        let front = self.ahead.front().unwrap_or(&self.last);
        front.last_of_oldest().is_some_and(|last| last < end)
    }

    /// Where one more stays if it is kept.
    #[inline]
    pub(crate) fn vacant(&mut self) -> Result<Vacant<'_>, Refusal> {
        if self.last.is_full() {
            self.grow()?;
        }
        Ok(Vacant { next: &mut self.last.next })
    }

    #[cold]
    fn grow(&mut self) -> Result<(), Refusal> {
        let room = self.last.room();
        if room == 0 {
            let again = take(&mut self.came_before) as usize;
            self.last = Segment::with_room(FEW.max(again))?;
            return Ok(());
        }
        let next = Segment::with_room((2 * room).clamp(SOME, MANY))?;
        self.ahead.try_reserve(1).map_err(|_| Refusal::NoMemory)?;
        self.ahead.push_back(replace(&mut self.last, next));
        Ok(())
    }

    /// Frees the first segment ahead if none is left in it; if there is none at all, the cells of the last begin anew.
    #[inline]
    fn order(&mut self) {
        if let Some(first) = self.ahead.front() {
            if !first.is_empty() {
                return;
            }
            self.came = self.came.saturating_add(first.came() as u32);
            self.ahead.pop_front();
        }
        if self.is_empty() {
            self.came = self.came.saturating_add(self.last.came() as u32);
            self.last.begin_anew();
        }
    }

    /// Hands out the oldest if no message from this promise on has a part in it.
    #[inline]
    pub(crate) fn pop_below(&mut self, end: u64) -> Option<Kept> {
        if !self.have_below(end) {
            return None;
        }
        let ordered = Ordered(self);
        ordered.0.front().pop()
    }

    /// Drops those in which no message from this promise on has a part, where they lie. If a drop panics, the others are left.
    #[inline]
    pub(crate) fn drop_below(&mut self, end: u64) {
        while self.have_below(end) {
            let ordered = Ordered(self);
            ordered.0.front().drop_below(end);
        }
    }

    /// Keeps room for few if there are none.
    #[inline]
    pub(crate) fn keep_few(&mut self) {
        if !self.is_empty() {
            return;
        }
        if self.last.room() > FEW {
            self.give_back();
        } else {
            self.came = 0;
        }
    }

    /// Keeps no room if there are none.
    pub(crate) fn give_back(&mut self) {
        if self.is_empty() {
            self.last = Segment::default();
            if self.ahead.capacity() > 0 {
                self.ahead = VecDeque::new();
            }
            self.came_before = take(&mut self.came).min(AGAIN);
        }
    }
}

/// Whether an owner has room in a cell.
pub(crate) const fn fits<T>() -> bool {
    size_of::<T>() <= size_of::<Room>() && align_of::<T>() <= align_of::<Room>()
}

/// A cell behind all owners, which holds nothing.
pub(crate) struct Vacant<'a> {
    /// Where its segment keeps which it is.
    next: &'a mut NonNull<Cell>,
}

impl<'a> Vacant<'a> {
    /// Puts an owner where it stays if it is kept.
    #[inline]
    pub(crate) fn place<T: Send + 'static>(self, owner: T) -> Placed<'a, T> {
        assert!(fits::<T>());
        let (cell, next) = (*self.next, self.next);
        // SAFETY: the cell is there, and nothing else uses it. In its room is space for a `T`, at an address that suits one.
        unsafe {
            write_by_words((&raw mut (*cell.as_ptr()).kept.room).cast::<T>(), owner);
            (&raw mut (*cell.as_ptr()).kept.drop).write(drop_in::<T>);
        }
        Placed { cell, next, of: PhantomData }
    }
}

/// Writes a value word by word if it has any. What was stored so a moment ago, as a `Bytes` that was cloned, is not at hand for a
/// load of two words at once: the processor waits until the stores have reached its cache, some 15 cycles.
///
/// # Safety
///
/// A `T` may be written there.
#[inline]
unsafe fn write_by_words<T>(to: *mut T, value: T) {
    if align_of::<T>() != align_of::<usize>() {
        // SAFETY: the caller says so.
        return unsafe { to.write(value) };
    }
    let value = ManuallyDrop::new(value);
    let words = (&raw const value).cast::<MaybeUninit<usize>>();
    for word in 0..size_of::<T>() / size_of::<usize>() {
        // SAFETY: by its alignment it consists of so many words, and the caller says that it may be written there. A volatile load is
        // not made one with the next.
        unsafe { to.cast::<MaybeUninit<usize>>().add(word).write(words.add(word).read_volatile()) };
    }
}

/// An owner that lies where it stays if it is kept, and else is dropped.
pub(crate) struct Placed<'a, T> {
    cell: NonNull<Cell>,
    /// The same, until it is kept.
    next: &'a mut NonNull<Cell>,
    of: PhantomData<T>,
}

impl<T> Placed<'_, T> {
    #[inline]
    fn at(&self) -> NonNull<T> {
        // SAFETY: the room lies in the cell, which nothing else uses.
        unsafe { NonNull::new_unchecked(&raw mut (*self.cell.as_ptr()).kept.room) }.cast()
    }

    /// Its bytes, which lie there as long as it is kept.
    #[inline]
    pub(crate) fn bytes(&self) -> &[u8]
    where
        T: AsRef<[u8]>,
    {
        // SAFETY: it is there, and nothing else reaches it.
        unsafe { self.at().as_ref() }.as_ref()
    }

    /// Keeps it under the last promise that has a part in it.
    #[inline]
    pub(crate) fn keep(self, last: u64) {
        // SAFETY: the cell is there, and nothing else uses it; behind it is another, or the end of its segment.
        unsafe {
            (&raw mut (*self.cell.as_ptr()).last).write(last);
            *self.next = self.cell.add(1);
        }
        forget(self);
    }

    /// Takes it back.
    #[inline]
    pub(crate) fn into_inner(self) -> T {
        // SAFETY: it is there, and its cell counts as empty.
        let owner = unsafe { self.at().read() };
        forget(self);
        owner
    }
}

impl<T> Drop for Placed<'_, T> {
    fn drop(&mut self) {
        // SAFETY: it is there, and its cell counts as empty.
        unsafe { self.at().drop_in_place() };
    }
}

/// An owner that has no room in a cell, in memory of its own: it stays where it is if this is moved.
pub(crate) struct Boxed<T>(NonNull<T>);

// SAFETY: what is behind the pointer is this value's own.
unsafe impl<T: Send> Send for Boxed<T> {}

impl<T> Boxed<T> {
    /// It, or what was to be one if memory is refused.
    pub(crate) fn new(owner: T) -> Result<Boxed<T>, T> {
        let mut room = Vec::new();
        // a `Box` of its own aborts if memory is refused
        if room.try_reserve_exact(1).is_err() {
            return Err(owner);
        }
        room.push(owner);
        let Ok(room) = <Box<[T; 1]>>::try_from(room) else { unreachable!("it has one element") };
        Ok(Boxed(NonNull::from(Box::leak(room)).cast()))
    }

    /// The box that it was made of.
    fn taken(&self) -> Box<[T; 1]> {
        // SAFETY: it is called once, by who has this value and lets it go.
        unsafe { Box::from_raw(self.0.cast().as_ptr()) }
    }

    pub(crate) fn into_inner(self) -> T {
        let [owner] = *self.taken();
        forget(self);
        owner
    }
}

impl<T: AsRef<[u8]>> AsRef<[u8]> for Boxed<T> {
    fn as_ref(&self) -> &[u8] {
        // SAFETY: it is there, and nothing else reaches it.
        unsafe { self.0.as_ref() }.as_ref()
    }
}

impl<T> Drop for Boxed<T> {
    fn drop(&mut self) {
        drop(self.taken());
    }
}
