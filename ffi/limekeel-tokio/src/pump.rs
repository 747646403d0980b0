use crate::gate::{Event, Gate, Shared, Waiting};
use crate::outbound::{Open, Outbound};
use limekeel::{Budget, Estimate, Marks, Outcome, Refusal, SharedConnection, Taken, Transport};
use std::io::{self, ErrorKind, IoSlice};
use std::pin::{Pin, pin};
use std::sync::{Arc, Mutex};
use std::task::{Context, Poll, ready};
use tokio::io::AsyncWrite;
use tokio::task::yield_now;

/// How often the stream is written to before other tasks have their turn.
const TURNS: usize = 32;

const ENDED: &str = "it has not ended";

/// The cause of [`Outcome::Failed`] if the stream is broken.
pub const BROKEN: u32 = 1;

/// The cause of [`Outcome::Failed`] if the pump was dropped.
pub const DROPPED: u32 = 2;

type Pair<S> = Result<(Outbound, Pump<S>), Refusal>;

/// What tasks write with to this stream, and the future that sends it, which the caller spawns.
///
/// # Errors
///
/// Those of [`split_with`].
pub fn split<S: AsyncWrite + Unpin>(stream: S, marks: Marks) -> Result<(Outbound, Pump<S>), Refusal> {
    split_with(stream, marks, Estimate::default())
}

/// The same with another estimate of what a message counts beside its bytes.
///
/// # Errors
///
/// [`Refusal::BadMarks`] if the low mark is 0, under which who waits would wait for ever, or above the high mark, or
/// the high mark is above 2147483647; [`Refusal::BadEstimate`] if the overhead is above 65535; [`Refusal::NoMemory`].
pub fn split_with<S: AsyncWrite + Unpin>(stream: S, marks: Marks, estimate: Estimate) -> Pair<S> {
    begin(stream, marks.low, estimate.overhead, SharedConnection::open(marks, estimate))
}

/// The same within a budget, which many connections share: what is pending of all of them is never more than its room.
///
/// A write for which the budget has no room is refused by [`Refusal::OverBudget`], and changed nothing: the client can
/// be given up, or the answer be a smaller one. So that it does not come to that, ask [`Budget::is_pressed`] before you
/// read from a client, and await [`Budget::calm`]: whichever write, pump or end lowers pressure wakes all who do.
///
/// # Errors
///
/// Those of [`split_with`].
pub fn split_within<S: AsyncWrite + Unpin>(stream: S, marks: Marks, estimate: Estimate, budget: &Budget) -> Pair<S> {
    begin(stream, marks.low, estimate.overhead, SharedConnection::within(budget, marks, estimate))
}

fn begin<S>(stream: S, low: u32, overhead: u32, opened: Result<(SharedConnection, Transport), Refusal>) -> Pair<S> {
    let (connection, transport) = if low == 0 { Err(Refusal::BadMarks) } else { opened }?;
    let shared = Arc::new(Arc::new(Shared { connection, overhead: overhead.into(), gate: Mutex::default() }));
    shared.with(|gate| gate.room = shared.connection.look().before_unwritable.into());
    let outbound = Outbound { turn: Waiting::new(&shared), _open: Arc::new(Open(Arc::clone(&shared))) };
    Ok((outbound, Pump { stream: Some(stream), transport, waiting: Waiting::new(&shared), paused: None }))
}

/// The future that sends what is written with an [`crate::Outbound`], for the user to spawn. It ends with its stream.
///
/// It sends many messages by one vectored write, if the stream has those. It ends when all was sent that can come:
/// after [`crate::Outbound::finish`], or when the last [`crate::Outbound`] is dropped; then the stream is shut down.
/// Or it ends when the stream is broken. A client that goes away is noticed when something is sent: who reads from it
/// sees it before that, and drops the outbound, or the pump.
///
/// If it is dropped before its end, as by `abort` of its task or a limit of time, what waits to be sent is given up,
/// and whoever waits is told.
#[derive(Debug)]
#[must_use = "nothing is sent unless it is polled"]
pub struct Pump<S> {
    /// None once it has ended.
    stream: Option<S>,
    transport: Transport,
    waiting: Waiting,
    /// How many messages were sent when it last let others go before.
    paused: Option<u64>,
}

/// What became of a [`Pump`].
#[derive(Debug)]
pub struct Ended<S> {
    /// The stream, which is shut down if there is no error.
    pub stream: S,
    /// How many messages were sent.
    pub sent: u64,
    /// How many messages were written, and not sent or not wholly.
    pub lost: u64,
    /// How the stream is broken, or failed to be shut down. [`ErrorKind::WriteZero`] if it took nothing of some bytes,
    /// and [`ErrorKind::OutOfMemory`] if memory was refused for the list of what is sent next.
    pub error: Option<io::Error>,
}

impl<S> Ended<S> {
    /// The stream, if all was sent and it was shut down.
    ///
    /// # Errors
    ///
    /// How the stream is broken.
    pub fn into_result(self) -> io::Result<S> {
        self.error.map_or(Ok(self.stream), Err)
    }
}

impl<S: AsyncWrite + Unpin> Pump<S> {
    /// Ready when all is sent that can come, and the stream is shut down.
    fn poll_all(&mut self, cx: &mut Context<'_>) -> Poll<io::Result<()>> {
        let Pump { stream, transport, waiting, paused } = self;
        let mut stream = Pin::new(stream.as_mut().expect(ENDED));
        // who was let in and has not come holds up nobody
        waiting.shared.with(Gate::ends_chain);
        for _ in 0..TURNS {
            let mut pauses = false;
            let next = waiting.poll(cx, Event::Work, 0, |shared, gate, _| {
                let has_work = shared.has_work(gate);
                // what those write who were let in goes by the same call; but they are waited for once
                pauses = has_work && gate.kept > 0 && paused.replace(gate.sent) != Some(gate.sent);
                if has_work || gate.is_over { Poll::Ready(has_work) } else { Poll::Pending }
            });
            match next {
                Poll::Ready(true) if pauses => break,
                Poll::Ready(true) => {}
                Poll::Ready(false) => return stream.poll_shutdown(cx),
                Poll::Pending => {
                    ready!(stream.poll_flush(cx))?;
                    return Poll::Pending;
                }
            }
            let sent = transport.send_with(|pieces| write_pieces(stream.as_mut(), cx, pieces))?;
            waiting.shared.has_sent(sent.taken.promises.end);
            if sent.blocked {
                return Poll::Pending;
            }
        }
        cx.waker().wake_by_ref();
        Poll::Pending
    }
}

/// Gives up what is left, and returns what that was.
fn end<S>(pump: &mut Pump<S>, outcome: Outcome) -> Taken {
    pump.waiting.shared.with(|gate| gate.ends(Some(outcome)));
    pump.transport.give_up(BROKEN).expect("it is not closed before this")
}

/// How many bytes a stream took of these pieces, or of the first if it takes one at a time. What would block is
/// [`ErrorKind::WouldBlock`], and nothing else is.
fn write_pieces(stream: Pin<&mut impl AsyncWrite>, cx: &mut Context<'_>, pieces: &[IoSlice<'_>]) -> io::Result<usize> {
    let offered = if stream.is_write_vectored() { pieces } else { &pieces[..1] };
    match stream.poll_write_vectored(cx, offered) {
        Poll::Pending => Err(ErrorKind::WouldBlock.into()),
        // a stream that says this in place of `Pending` wakes nobody
        Poll::Ready(Err(error)) if error.kind() == ErrorKind::WouldBlock => Err(io::Error::other(error)),
        // more than it was given is refused
        Poll::Ready(Ok(bytes)) if bytes > offered.iter().map(|piece| piece.len()).sum() => Ok(usize::MAX),
        Poll::Ready(answer) => answer,
    }
}

impl<S: AsyncWrite + Unpin> Future for Pump<S> {
    type Output = Ended<S>;

    /// # Panics
    ///
    /// After it has ended.
    fn poll(self: Pin<&mut Self>, cx: &mut Context<'_>) -> Poll<Ended<S>> {
        let pump = self.get_mut();
        let polled = pump.poll_all(cx);
        if polled.is_pending() && pump.waiting.shared.has_chain() {
            // behind all else that its thread has to do: if it woke itself, another thread would take it along
            let _ = pin!(yield_now()).poll(cx);
        }
        let error = ready!(polled).err();
        let left = end(pump, if error.is_none() { Outcome::Success } else { Outcome::Failed(BROKEN) });
        let stream = pump.stream.take().expect(ENDED);
        Poll::Ready(Ended { stream, sent: left.promises.start, lost: left.count, error })
    }
}

impl<S> Drop for Pump<S> {
    fn drop(&mut self) {
        if self.stream.is_some() {
            let _left = end(self, Outcome::Failed(DROPPED));
        }
    }
}
