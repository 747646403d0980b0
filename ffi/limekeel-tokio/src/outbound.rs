use crate::gate::{Event, Gate, Link, Shared, Waiting, Wrote};
use crate::message::{LEFT, Message, TryWriteError, WriteError};
use crate::sink::OutboundSink;
use limekeel::Outcome;
use std::future::poll_fn;
use std::pin::Pin;
use std::sync::Arc;
use std::task::{Context, Poll, ready};

/// What tasks write to one client with. Each has a clone, or a reference to one.
///
/// Messages go in the order in which they were written, each whole. Who has to wait writes in the order of arrival, and
/// one at a time: so the pending bytes ([`Outbound::pending`]) pass the high mark by one message at most, however many
/// tasks write. A write that was polled and is then neither polled nor dropped keeps its room.
///
/// When the last is dropped, all that was written is sent, the stream is shut down, and the [`crate::Pump`] ends.
#[derive(Clone, Debug)]
pub struct Outbound {
    /// Where `poll_ready` waits.
    pub(crate) turn: Waiting,
    /// As long as one has it, more can be written.
    pub(crate) _open: Arc<Open>,
}

impl Outbound {
    fn receipt(&self, count: u64) -> Receipt {
        Receipt { waiting: Waiting::new(&self.turn.shared), count }
    }

    /// Waits until it is this one's turn and the connection is writable; then writes a message and flushes.
    ///
    /// It can be dropped while it waits, as by `select!` or a limit of time: then nothing was written, and the next
    /// one has the turn.
    ///
    /// # Errors
    ///
    /// [`WriteError::Gone`] if the connection was finished, its stream is broken, or its pump was dropped, also while
    /// this waits. [`WriteError::Refused`] if the message is too large or memory was refused. The message is dropped
    /// then.
    pub fn write<M: Message>(&self, message: M) -> impl Future<Output = Result<Receipt, WriteError>> {
        self.writes(message, true)
    }

    /// The same without a flush: it is sent with the next message that is flushed, or when somebody waits for room or
    /// for a promise. For several messages that go together.
    ///
    /// # Errors
    ///
    /// Those of [`Outbound::write`].
    pub fn feed<M: Message>(&self, message: M) -> impl Future<Output = Result<Receipt, WriteError>> {
        self.writes(message, false)
    }

    fn writes<M: Message>(&self, message: M, flushes: bool) -> impl Future<Output = Result<Receipt, WriteError>> {
        let (mut message, mut waiting) = (Some(message), Some(Waiting::new(&self.turn.shared)));
        poll_fn(move |cx| {
            let count = ready!(waiting.as_mut().expect(LEFT).poll_write(cx, &mut message, flushes))?;
            Poll::Ready(Ok(Receipt { waiting: waiting.take().expect(LEFT), count }))
        })
    }

    /// Writes a message and flushes, if the connection is writable and nobody waits for a turn.
    ///
    /// # Errors
    ///
    /// Each has the message: [`TryWriteError::Full`] if it would have to wait, [`TryWriteError::Gone`] and
    /// [`TryWriteError::Refused`] as of [`Outbound::write`].
    pub fn try_write<M: Message>(&self, message: M) -> Result<Receipt, TryWriteError<M>> {
        self.tries_once(message, true)
    }

    /// The same without a flush, as of [`Outbound::feed`].
    ///
    /// # Errors
    ///
    /// Those of [`Outbound::try_write`].
    pub fn try_feed<M: Message>(&self, message: M) -> Result<Receipt, TryWriteError<M>> {
        self.tries_once(message, false)
    }

    fn tries_once<M: Message>(&self, message: M, flushes: bool) -> Result<Receipt, TryWriteError<M>> {
        let mut held = Some(message);
        let answer = self.tries(&mut held, flushes);
        let left = || held.expect(LEFT);
        match answer {
            Poll::Ready(Ok(count)) => Ok(self.receipt(count)),
            Poll::Ready(Err(WriteError::Gone)) => Err(TryWriteError::Gone(left())),
            Poll::Ready(Err(WriteError::Refused(refusal))) => Err(TryWriteError::Refused(refusal, left())),
            Poll::Pending => Err(TryWriteError::Full(left())),
        }
    }

    /// Writes a message, if one may that arrives now.
    pub(crate) fn tries<M: Message>(&self, message: &mut Option<M>, flushes: bool) -> Wrote {
        let shared = &self.turn.shared;
        shared.with(|gate| shared.write(gate, message, flushes, false))
    }

    /// Has all sent that was written so far, by whomever.
    pub fn flush(&self) {
        self.turn.shared.with(Gate::flush);
    }

    /// Ready when the connection is writable and it is this one's turn, in order of arrival. It keeps no room: if
    /// another writes first, a [`Outbound::try_write`] is `Full` all the same.
    ///
    /// # Errors
    ///
    /// [`WriteError::Gone`], as of [`Outbound::write`].
    pub fn poll_ready(&mut self, cx: &mut Context<'_>) -> Poll<Result<(), WriteError>> {
        self.turn.poll(cx, Event::Room, 0, |_, gate, is_turn| gate.enters(is_turn))
    }

    /// Waits as [`Outbound::poll_ready`]: for who makes a message once it may be written, since a task that waits in
    /// [`Outbound::write`] has one in memory. It keeps no room either: make the message, try to write it, and if it is
    /// `Full`, drop it and wait again.
    ///
    /// # Errors
    ///
    /// [`WriteError::Gone`], as of [`Outbound::write`].
    pub async fn ready(&self) -> Result<(), WriteError> {
        let mut other = self.clone();
        poll_fn(|cx| other.poll_ready(cx)).await
    }

    /// Whether a [`Outbound::try_write`] would be accepted now, but for its message.
    #[must_use]
    pub fn is_writable(&self) -> bool {
        self.turn.shared.with(|gate| gate.enters(false) == Poll::Ready(Ok(())))
    }

    /// Whether nothing can be written any more.
    #[must_use]
    pub fn is_gone(&self) -> bool {
        self.turn.shared.with(|gate| gate.is_over)
    }

    /// How many bytes were written and are not sent, with those that each message counts beside its own.
    #[must_use]
    pub fn pending(&self) -> u32 {
        self.turn.shared.with(|_| self.turn.shared.connection.glance().total)
    }

    /// Flushes, and waits until all is sent that was written so far, by whomever: the stream took it.
    ///
    /// # Errors
    ///
    /// [`WriteError::Gone`] if a message of those was given up.
    pub async fn drained(&self) -> Result<(), WriteError> {
        sent(self.all_written().await)
    }

    /// The receipt of all that was written so far.
    pub(crate) fn all_written(&self) -> Receipt {
        self.receipt(self.turn.shared.with(|gate| gate.written))
    }

    /// Lets nobody write any more, not even those who wait, and waits until all is sent that was written, and the
    /// stream is shut down. If it is dropped before that, all is sent all the same.
    ///
    /// # Errors
    ///
    /// [`WriteError::Gone`] if the pump ended otherwise.
    pub async fn finish(&self) -> Result<(), WriteError> {
        self.turn.shared.with(|gate| gate.ends(None));
        // no message has this promise, so it is that of the end
        sent(self.receipt(u64::MAX).await)
    }

    /// A [`futures_sink::Sink`] and a [`tokio::io::AsyncWrite`] over this one.
    #[must_use]
    pub fn into_sink(self) -> OutboundSink {
        OutboundSink { outbound: Some(self), kept: None, flushed: None }
    }
}

/// What all outbounds have together: the last takes it along.
#[derive(Debug)]
pub struct Open(pub Link);

impl Drop for Open {
    fn drop(&mut self) {
        self.0.with(|gate| gate.ends(None));
    }
}

/// Whether what became of a promise is what its writer wished.
pub(crate) fn sent(outcome: Outcome) -> Result<(), WriteError> {
    if outcome == Outcome::Success { Ok(()) } else { Err(WriteError::Gone) }
}

/// The promise of one message: a future of what became of it.
///
/// [`Outcome::Success`] comes when the stream took its last byte, and [`Outcome::Failed`] with [`crate::BROKEN`] or
/// [`crate::DROPPED`] if it was given up. Who awaits it has all flushed that was written so far. It can be dropped at
/// any time, which changes nothing for the message.
///
/// ```
/// # #[tokio::main(flavor = "current_thread")]
/// # async fn main() -> Result<(), Box<dyn std::error::Error>> {
/// use limekeel_tokio::{Marks, Outcome, split};
///
/// let (outbound, pump) = split(tokio::io::sink(), Marks::default())?;
/// tokio::spawn(pump);
/// let receipt = outbound.write(b"is it sent?").await?;
/// assert_eq!((receipt.id(), receipt.await), (0, Outcome::Success));
/// # Ok(())
/// # }
/// ```
#[derive(Debug)]
pub struct Receipt {
    waiting: Waiting,
    /// How many messages are sent once this one is.
    count: u64,
}

impl Receipt {
    /// The number of the message among all of its connection, from 0, in the order in which they are sent.
    #[must_use]
    pub fn id(&self) -> u64 {
        self.count - 1
    }

    /// What became of it, if that is known.
    #[must_use]
    pub fn outcome(&self) -> Option<Outcome> {
        self.waiting.shared.with(|gate| gate.outcome(self.count))
    }
}

impl Future for Receipt {
    type Output = Outcome;

    fn poll(mut self: Pin<&mut Self>, cx: &mut Context<'_>) -> Poll<Outcome> {
        let count = self.count;
        let outcome = |_: &Shared, gate: &mut Gate, _| gate.outcome(count).map_or(Poll::Pending, Poll::Ready);
        self.waiting.poll(cx, Event::Sent(count), 0, outcome)
    }
}
