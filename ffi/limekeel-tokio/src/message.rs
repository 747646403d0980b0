use bytes::Bytes;
use limekeel::{Block, Refusal, SharedConnection, Written};
use std::error::Error;
use std::fmt;
use std::io::{self, ErrorKind};

/// How many bytes of an owner are copied at most: that costs less than to keep it, and a few bytes of a large buffer
/// do not keep all of that.
const FEW: usize = 2048;

/// Why a message is there.
pub const LEFT: &str = "it was not written yet";

/// What can be written as one message.
///
/// | Type | Its bytes |
/// |---|---|
/// | `&[u8]`, `&[u8; N]`, `&str` | are copied |
/// | `Bytes`, `Vec<u8>`, `String` | are copied up to 2048 bytes; more stay where they are, until sent or given up |
/// | `&Block` | are shared, by as many connections and messages as you like |
/// | [`Static`] | stay where they are, and nothing is kept for them |
pub trait Message: Writes {}

impl<M: Writes> Message for M {}

/// Bytes that are there for good.
#[derive(Clone, Copy, Debug, PartialEq, Eq)]
pub struct Static(pub &'static [u8]);

impl AsRef<[u8]> for Static {
    fn as_ref(&self) -> &[u8] {
        self.0
    }
}

/// The bytes of a message that has not moved away.
pub fn bytes<M: AsRef<[u8]>>(message: Option<&M>) -> &[u8] {
    message.expect(LEFT).as_ref()
}

/// How a message is written. It stays there if it is refused or copied, so that it is not dropped under a lock.
type Write<M> = fn(&SharedConnection, &mut Option<M>) -> Result<Written, Refusal>;

/// What no user implements, as its name is not public.
pub trait Writes: AsRef<[u8]> + Sized {
    const WRITE: Write<Self> = |connection, message| connection.write(bytes(message.as_ref()));
}

impl Writes for &[u8] {}
impl<const N: usize> Writes for &[u8; N] {}
impl Writes for &str {}

impl Writes for Bytes {
    const WRITE: Write<Self> = owned;
}

impl Writes for Vec<u8> {
    const WRITE: Write<Self> = owned;
}

impl Writes for String {
    const WRITE: Write<Self> = owned;
}

impl Writes for &Block {
    const WRITE: Write<Self> = |connection, block| connection.write_block(block.expect(LEFT));
}

impl Writes for Static {
    const WRITE: Write<Self> = |connection, bytes| connection.write_static(bytes.expect(LEFT).0);
}

/// Writes an owner, which moves into the connection if it has many bytes.
fn owned<M>(connection: &SharedConnection, message: &mut Option<M>) -> Result<Written, Refusal>
where
    M: AsRef<[u8]> + Send + 'static,
{
    if bytes(message.as_ref()).len() <= FEW {
        return connection.write(bytes(message.as_ref()));
    }
    connection.write_owned(message.take().expect(LEFT)).map_err(|refused| {
        *message = Some(refused.owner);
        refused.refusal
    })
}

/// Why a message was not written, or not sent. A write that failed changed nothing.
#[derive(Clone, Copy, Debug, PartialEq, Eq, Hash)]
pub enum WriteError {
    /// Nothing is sent any more: the connection was finished, its stream is broken, or its pump was dropped.
    Gone,
    /// This message was refused: [`Refusal::NoMemory`]; [`Refusal::Oversize`] above 2 GiB; [`Refusal::TooMuch`] if 4
    /// GiB would be pending.
    Refused(Refusal),
}

/// Why a write that does not wait did not write, with the message. Nothing changed.
#[derive(Clone, Copy, Debug, PartialEq, Eq)]
pub enum TryWriteError<M> {
    /// The connection is not writable, or others wait for their turn.
    Full(M),
    /// Nothing is sent any more, as at [`WriteError::Gone`].
    Gone(M),
    /// This message was refused, as at [`WriteError::Refused`].
    Refused(Refusal, M),
}

impl fmt::Display for WriteError {
    fn fmt(&self, f: &mut fmt::Formatter<'_>) -> fmt::Result {
        match self {
            WriteError::Gone => f.write_str("nothing is sent any more"),
            WriteError::Refused(refusal) => refusal.fmt(f),
        }
    }
}

impl<M> fmt::Display for TryWriteError<M> {
    fn fmt(&self, f: &mut fmt::Formatter<'_>) -> fmt::Result {
        match self {
            TryWriteError::Full(_) => f.write_str("the connection is not writable now"),
            TryWriteError::Gone(_) => WriteError::Gone.fmt(f),
            TryWriteError::Refused(refusal, _) => refusal.fmt(f),
        }
    }
}

impl Error for WriteError {}

impl<M: fmt::Debug> Error for TryWriteError<M> {}

impl From<WriteError> for io::Error {
    fn from(error: WriteError) -> io::Error {
        let kind = match error {
            WriteError::Gone => ErrorKind::BrokenPipe,
            WriteError::Refused(Refusal::NoMemory | Refusal::OverBudget) => ErrorKind::OutOfMemory,
            WriteError::Refused(_) => ErrorKind::InvalidInput,
        };
        io::Error::new(kind, error)
    }
}
