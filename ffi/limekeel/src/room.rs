use crate::budget::Pressed;
use crate::calm::Waiters;
use crate::lends::Made;
use crate::replies::{Refusal, Written};
use std::io;
use std::marker::PhantomData;
use std::ops::Deref;

/// Room for one message that is made in place, as by [`write!`] or a serializer: it is read as the bytes that it has so far.
///
/// [`Room::write_message`] makes a message of them; a room that is dropped comes to nothing. `Answer` is what that returns: of a
/// connection within a budget how pressure changed, too.
#[derive(Debug)]
pub struct Room<'a, Answer = Result<Written, Refusal>> {
    made: Made<'a>,
    /// Who waits for the end of pressure, within a budget.
    waiters: Option<&'a Waiters>,
    answer: PhantomData<Answer>,
}

impl<'a, Answer> Room<'a, Answer> {
    #[inline]
    pub(crate) fn new(made: Made<'a>, waiters: Option<&'a Waiters>) -> Room<'a, Answer> {
        Room { made, waiters, answer: PhantomData }
    }

    /// How many bytes it has room for besides.
    #[inline]
    #[must_use]
    pub fn left(&self) -> usize {
        self.made.left()
    }
}

impl Room<'_> {
    /// Writes what is in it as one message after all else, and copies nothing. It is refused as [`crate::Connection::write`] is, and
    /// then comes to nothing.
    #[inline]
    pub fn write_message(self) -> Result<Written, Refusal> {
        Written::of(self.made.write().written)
    }
}

impl Room<'_, Pressed<Result<Written, Refusal>>> {
    /// The same within a budget, refused as [`crate::BudgetedConnection::write`] is.
    #[inline]
    pub fn write_message(self) -> Pressed<Result<Written, Refusal>> {
        self.waiters.expect("it is within a budget").written(self.made.write())
    }
}

impl<Answer> Deref for Room<'_, Answer> {
    type Target = [u8];

    #[inline]
    fn deref(&self) -> &[u8] {
        self.made.bytes()
    }
}

/// It takes as many bytes as there is room for, and none once it is full: then `write_all` ends with
/// [`io::ErrorKind::WriteZero`].
impl<Answer> io::Write for Room<'_, Answer> {
    #[inline]
    fn write(&mut self, bytes: &[u8]) -> io::Result<usize> {
        Ok(self.made.add(bytes))
    }

    fn flush(&mut self) -> io::Result<()> {
        Ok(())
    }
}
