use crate::connection::Connection;
use crate::raw::{Gather, Place};
use crate::replies::{Refusal, Taken};
use limekeel_sys as sys;
use std::io::{self, ErrorKind, IoSlice, Write};

/// How many pieces one vectored write is given at most: as many as Linux takes.
pub(crate) const PIECES: usize = sys::PIECES;

/// How many blocks are gathered for it at most: many small ones lie together, and are one piece then.
const GATHERED: usize = 2 * PIECES;

/// What a connection sent at once.
#[must_use = "nothing tells the change of writability or the settlements again"]
#[derive(Clone, Debug, PartialEq, Eq)]
pub struct Sent {
    /// How many bytes were taken.
    pub bytes: usize,
    /// Which messages are gone by that, and how it changed writability.
    pub taken: Taken,
    /// Whether the writer had no room: it is to be written to again when it is ready. A reactor that clears readiness at
    /// the error [`ErrorKind::WouldBlock`] (tokio's `try_io`) does not see that error, and has to be told by this. What is
    /// in `taken` holds then too: empty messages in front may be gone.
    pub blocked: bool,
    /// Whether a flushed message is left. If the writer was not blocked and took nothing, that in front is no block:
    /// [`Connection::current`] says what it is, and it is the caller's to send.
    pub more: bool,
}

/// What a connection sent in several turns.
#[must_use = "nothing tells the change of writability or the settlements again"]
#[derive(Debug)]
pub struct SentTurns {
    /// How many bytes were taken in all turns together.
    pub bytes: u64,
    /// Which messages are gone by that, and how it changed writability: from before the first turn to after the last.
    pub taken: Taken,
    /// How it ended. Flushed messages are left unless that is [`Ending::Drained`].
    pub ending: Ending,
}

/// How a sending of several turns ended.
#[derive(Debug)]
pub enum Ending {
    /// No flushed message is left.
    Drained,
    /// The writer has no room now: send again when it is ready.
    Blocked,
    /// A region or another message is in front, which is the caller's to send.
    OtherInFront,
    /// The turns are used up, and flushed messages are left: send again when the others had their turn.
    TurnsUsed,
    /// The writer is broken: give the connection up. What it took before is reported along with this.
    Broken(io::Error),
}

impl Connection {
    /// Lets a writer take once of the flushed blocks in front, and takes away what it took.
    ///
    /// A writer that would block takes nothing, and that is no error. One that is interrupted is asked again. With no
    /// block in front that holds a byte the writer is not asked, and the empty messages in front are taken away all the
    /// same.
    ///
    /// An error of the writer leaves the connection as it was, and so does [`crate::Refusal::Closed`], which comes as
    /// [`ErrorKind::BrokenPipe`]. A writer that takes nothing, and would not block either, is [`ErrorKind::WriteZero`],
    /// and one that says it took more than it was given is [`ErrorKind::InvalidData`]; both leave the connection as it
    /// was.
    pub fn send_to<W: Write + ?Sized>(&mut self, writer: &mut W) -> io::Result<Sent> {
        self.send_with(|pieces| writer.write_vectored(pieces))
    }

    /// The same for what is no [`Write`]: `write` is given the pieces, at most 1024, and returns how many of their bytes it
    /// took, as a vectored write does. Of at most 2048 messages those that lie together in memory are one piece.
    pub fn send_with(&mut self, write: impl FnMut(&[IoSlice<'_>]) -> io::Result<usize>) -> io::Result<Sent> {
        once(self, write)
    }

    /// Lets a writer take of the flushed blocks in front, turn by turn as [`Connection::send_to`] does, until no flushed message
    /// is left, a region or another message is in front, the writer would block, or `max_turns` turns were made; one turn is
    /// made in any case, and each offers at most 1024 pieces.
    ///
    /// What the turns took away is returned as one interval. A writer that takes less than it was offered is asked again, since
    /// some take little at a time. Empty messages in front are taken away however it ends.
    ///
    /// [`Refusal::Closed`] comes if the connection is closed, and no other refusal does.
    ///
    /// ```
    /// use limekeel::{Connection, Ending, Estimate, Marks};
    ///
    /// let mut connection = Connection::open(Marks::default(), Estimate::default())?;
    /// for _ in 0..3 {
    ///     let _ = connection.write_static(b"news")?;
    /// }
    /// let _ = connection.flush()?;
    /// let mut socket = Vec::new();
    /// let sent = connection.send_until_blocked(&mut socket, 16)?;
    /// assert!(matches!(sent.ending, Ending::Drained));
    /// assert_eq!((sent.bytes, sent.taken.promises), (12, 0..3));
    /// # Ok::<(), limekeel::Refusal>(())
    /// ```
    pub fn send_until_blocked<W: Write + ?Sized>(
        &mut self,
        writer: &mut W,
        max_turns: u32,
    ) -> Result<SentTurns, Refusal> {
        self.send_until_blocked_with(max_turns, |pieces| writer.write_vectored(pieces))
    }

    /// The same for what is no [`Write`], as at [`Connection::send_with`].
    pub fn send_until_blocked_with(
        &mut self,
        max_turns: u32,
        mut write: impl FnMut(&[IoSlice<'_>]) -> io::Result<usize>,
    ) -> Result<SentTurns, Refusal> {
        in_turns(self, max_turns, &mut write)
    }
}

/// What sends: a connection, or one that is managed.
pub(crate) trait Source {
    fn gathers(&self) -> &impl Gather;
    fn is_closed(&self) -> bool;
    fn is_empty(&self) -> bool;

    /// Takes bytes off the flushed blocks in front, as sent.
    fn take(&mut self, bytes: u64) -> Result<Taken, Refusal>;

    /// Leaves out those of these promises that were cancelled before.
    fn settled_by(&mut self, taken: Taken) -> Taken;
}

impl Source for Connection {
    fn gathers(&self) -> &impl Gather {
        &self.handle
    }

    fn is_closed(&self) -> bool {
        Connection::is_closed(self)
    }

    fn is_empty(&self) -> bool {
        Connection::is_empty(self)
    }

    fn take(&mut self, bytes: u64) -> Result<Taken, Refusal> {
        Taken::of(self.handle.take_sent(bytes))
    }

    fn settled_by(&mut self, taken: Taken) -> Taken {
        self.cancelled.settled_by(taken)
    }
}

/// A sending at once.
pub(crate) fn once(
    source: &mut impl Source,
    mut write: impl FnMut(&[IoSlice<'_>]) -> io::Result<usize>,
) -> io::Result<Sent> {
    let (bytes, blocked) = write_once(source, &mut { GATHERED }, &mut write)?;
    // a closed connection has nothing to offer, so it is asked for that only then
    if bytes == 0 && !blocked && source.is_closed() {
        return Err(io::Error::new(ErrorKind::BrokenPipe, Refusal::Closed));
    }
    // no refusal is left that could come
    let taken = source.take(bytes as u64).map_err(io::Error::other)?;
    let taken = source.settled_by(taken);
    Ok(Sent { bytes, taken, blocked, more: !source.is_empty() })
}

/// A sending in turns.
pub(crate) fn in_turns(
    source: &mut impl Source,
    max_turns: u32,
    write: &mut impl FnMut(&[IoSlice<'_>]) -> io::Result<usize>,
) -> Result<SentTurns, Refusal> {
    let mut taken = source.take(0)?;
    let (mut bytes, mut turns, mut most) = (0, 0, GATHERED);
    let ending = loop {
        turns += 1;
        let took = write_once(source, &mut most, write);
        let count = took.as_ref().map_or(0, |(count, _)| *count as u64);
        bytes += count;
        taken.add(source.take(count)?);
        match took {
            Err(error) => break Ending::Broken(error),
            Ok((_, true)) => break Ending::Blocked,
            Ok(_) if source.is_empty() => break Ending::Drained,
            Ok((0, false)) => break Ending::OtherInFront,
            Ok(_) if turns >= max_turns => break Ending::TurnsUsed,
            Ok(_) => {}
        }
    };
    Ok(SentTurns { bytes, taken: source.settled_by(taken), ending })
}

/// How many bytes a writer took of at most `most` blocks, and whether it would block. If they lie apart, fewer are gathered for the
/// next turn.
fn write_once(
    source: &impl Source,
    most: &mut usize,
    write: &mut impl FnMut(&[IoSlice<'_>]) -> io::Result<usize>,
) -> io::Result<(usize, bool)> {
    // not filled beforehand: most often few are
    let mut places = [const { Place::uninit() }; GATHERED];
    let pieces = source.gathers().offered(&mut places[..*most]);
    if pieces.is_empty() {
        return Ok((0, false));
    }
    if pieces.len() > PIECES {
        *most = PIECES;
    }
    written(&pieces[..pieces.len().min(PIECES)], write)
}

/// How many bytes of these pieces a writer took, and whether it would block.
pub(crate) fn written(
    pieces: &[IoSlice<'_>],
    write: &mut impl FnMut(&[IoSlice<'_>]) -> io::Result<usize>,
) -> io::Result<(usize, bool)> {
    loop {
        match write(pieces) {
            Ok(0) => return Err(ErrorKind::WriteZero.into()),
            Ok(bytes) if bytes > pieces.iter().map(|piece| piece.len()).sum() => {
                return Err(io::Error::new(ErrorKind::InvalidData, "a writer took more than it was given"));
            }
            Ok(bytes) => return Ok((bytes, false)),
            Err(error) if error.kind() == ErrorKind::WouldBlock => return Ok((0, true)),
            Err(error) if error.kind() == ErrorKind::Interrupted => {}
            Err(error) => return Err(error),
        }
    }
}
