use crate::message::WriteError;
use crate::outbound::{Outbound, Receipt, sent};
use bytes::Bytes;
use futures_sink::Sink;
use std::io;
use std::pin::Pin;
use std::task::{Context, Poll, ready};
use tokio::io::AsyncWrite;

/// How many bytes of a write become one message at most.
const MOST: usize = 65536;

/// A [`Sink`] of messages and an [`AsyncWrite`], over an [`Outbound`].
///
/// It keeps one message itself, if others wrote between `poll_ready` and `start_send`: so the bound of the connection
/// holds. Each write of an [`AsyncWrite`] becomes a message, of at most 65536 bytes, and copied; it fails with
/// [`io::ErrorKind::BrokenPipe`] if nothing is sent any more, and with [`io::ErrorKind::OutOfMemory`] if memory was
/// refused.
///
/// A flush is done when the stream took all that was written so far. A close, or a shutdown, flushes, and lets go of
/// the outbound: others write on, and if it was the last, the stream is shut down.
///
/// ```
/// # #[tokio::main(flavor = "current_thread")]
/// # async fn main() -> Result<(), Box<dyn std::error::Error>> {
/// use limekeel_tokio::{Marks, split};
/// use tokio::io::AsyncWriteExt;
///
/// let (outbound, pump) = split(Vec::new(), Marks::default())?;
/// let pump = tokio::spawn(pump);
/// let mut sink = outbound.into_sink();
/// tokio::io::copy(&mut &b"a file, say"[..], &mut sink).await?;
/// sink.shutdown().await?;
/// assert_eq!(pump.await?.stream, b"a file, say");
/// # Ok(())
/// # }
/// ```
#[derive(Debug)]
pub struct OutboundSink {
    /// None once it is closed.
    pub(crate) outbound: Option<Outbound>,
    pub(crate) kept: Option<Bytes>,
    /// What a flush waits for.
    pub(crate) flushed: Option<Receipt>,
}

impl OutboundSink {
    /// Writes what is kept, and returns what to write with then.
    fn poll_kept(&mut self, cx: &mut Context<'_>) -> Poll<Result<&mut Outbound, WriteError>> {
        let outbound = self.outbound.as_mut().ok_or(WriteError::Gone)?;
        if self.kept.is_some() {
            ready!(outbound.turn.poll_write(cx, &mut self.kept, false))?;
            self.kept = None;
        }
        Poll::Ready(Ok(outbound))
    }
}

impl Sink<Bytes> for OutboundSink {
    type Error = WriteError;

    fn poll_ready(mut self: Pin<&mut Self>, cx: &mut Context<'_>) -> Poll<Result<(), WriteError>> {
        ready!(self.poll_kept(cx))?.poll_ready(cx)
    }

    fn start_send(mut self: Pin<&mut Self>, message: Bytes) -> Result<(), WriteError> {
        let mut message = Some(message);
        match self.outbound.as_ref().ok_or(WriteError::Gone)?.tries(&mut message, false) {
            Poll::Ready(written) => drop(written?),
            Poll::Pending => self.kept = message,
        }
        Ok(())
    }

    fn poll_flush(mut self: Pin<&mut Self>, cx: &mut Context<'_>) -> Poll<Result<(), WriteError>> {
        let all = ready!(self.poll_kept(cx))?.all_written();
        // a flush that is under way waits for what was written when it began
        let outcome = ready!(Pin::new(self.flushed.get_or_insert(all)).poll(cx));
        self.flushed = None;
        Poll::Ready(sent(outcome))
    }

    fn poll_close(mut self: Pin<&mut Self>, cx: &mut Context<'_>) -> Poll<Result<(), WriteError>> {
        if self.outbound.is_some() {
            ready!(Sink::poll_flush(self.as_mut(), cx))?;
            self.outbound = None;
        }
        Poll::Ready(Ok(()))
    }
}

impl AsyncWrite for OutboundSink {
    fn poll_write(mut self: Pin<&mut Self>, cx: &mut Context<'_>, bytes: &[u8]) -> Poll<io::Result<usize>> {
        let bytes = &bytes[..bytes.len().min(MOST)];
        if !bytes.is_empty() {
            ready!(ready!(self.poll_kept(cx))?.turn.poll_write(cx, &mut Some(bytes), false))?;
        }
        Poll::Ready(Ok(bytes.len()))
    }

    fn poll_flush(self: Pin<&mut Self>, cx: &mut Context<'_>) -> Poll<io::Result<()>> {
        Sink::poll_flush(self, cx).map_err(io::Error::from)
    }

    fn poll_shutdown(self: Pin<&mut Self>, cx: &mut Context<'_>) -> Poll<io::Result<()>> {
        Sink::poll_close(self, cx).map_err(io::Error::from)
    }
}
