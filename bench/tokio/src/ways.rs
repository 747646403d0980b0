//! The ways for tasks to share a client, each with a handle that tasks clone and a task that sends.

use bytes::Bytes;
use futures_sink::Sink;
use limekeel_tokio::{Marks, Outbound, split};
use std::future::poll_fn;
use std::pin::Pin;
use tokio::io::{AsyncWrite, AsyncWriteExt, BufWriter};
use tokio::sync::mpsc::{Receiver, Sender, channel};
use tokio_util::codec::{BytesCodec, FramedWrite};

#[derive(Clone, Copy, Debug, PartialEq, Eq)]
pub enum Way {
    Limekeel,
    LimekeelCopied,
    /// A message is made once it may be written, and made again if another was quicker.
    LimekeelReady,
    WriteAll,
    /// Half of what may wait does so in the channel, and half in the buffer.
    Buffered,
    /// As much as may wait does so in the channel, and as much again in the buffer.
    BufferedTwice,
    Framed,
}

pub const WAYS: [Way; 7] = [
    Way::Limekeel,
    Way::LimekeelCopied,
    Way::LimekeelReady,
    Way::WriteAll,
    Way::Buffered,
    Way::BufferedTwice,
    Way::Framed,
];

/// What tasks write with.
#[derive(Clone)]
pub enum Handle {
    Limekeel(Outbound),
    Copied(Outbound),
    Ready(Outbound),
    Channel(Sender<Bytes>),
}

impl Handle {
    /// Waits before a message is made, if it can.
    pub async fn ready(&self) {
        if let Handle::Ready(outbound) = self {
            outbound.ready().await.expect("the client is there");
        }
    }

    #[inline]
    pub async fn write(&self, message: Bytes) {
        match self {
            Handle::Ready(outbound) => drop(outbound.try_write(message)),
            Handle::Limekeel(outbound) => drop(outbound.write(message).await.expect("the client is there")),
            Handle::Copied(outbound) => drop(outbound.write(&message[..]).await.expect("the client is there")),
            Handle::Channel(sender) => sender.send(message).await.expect("the client is there"),
        }
    }
}

/// A handle of a client, whose messages have this size. Each way lets about as many wait.
pub fn open<S: AsyncWrite + Unpin + Send + 'static>(way: Way, stream: S, size: usize) -> Handle {
    let marks = Marks::default();
    let limekeel = |stream| {
        let (outbound, pump) = split(stream, marks).expect("there is memory");
        tokio::spawn(async move { pump.await.into_result().expect("the client is there") });
        outbound
    };
    let most = marks.high as usize;
    let queue = |bytes: usize| channel((bytes / (size + 96)).max(1));
    match way {
        Way::Limekeel => Handle::Limekeel(limekeel(stream)),
        Way::LimekeelCopied => Handle::Copied(limekeel(stream)),
        Way::LimekeelReady => Handle::Ready(limekeel(stream)),
        Way::WriteAll => {
            let (sender, receiver) = queue(most);
            tokio::spawn(writes_all(receiver, stream));
            Handle::Channel(sender)
        }
        Way::Buffered | Way::BufferedTwice => {
            let each = if way == Way::Buffered { most / 2 } else { most };
            let (sender, receiver) = queue(each);
            tokio::spawn(buffers(receiver, BufWriter::with_capacity(each, stream)));
            Handle::Channel(sender)
        }
        Way::Framed => {
            let (sender, receiver) = queue(most);
            tokio::spawn(frames(receiver, stream));
            Handle::Channel(sender)
        }
    }
}

async fn writes_all(mut receiver: Receiver<Bytes>, mut stream: impl AsyncWrite + Unpin) {
    while let Some(message) = receiver.recv().await {
        if stream.write_all(&message).await.is_err() {
            return;
        }
    }
}

/// Flushes when no message waits.
async fn buffers(mut receiver: Receiver<Bytes>, mut stream: BufWriter<impl AsyncWrite + Unpin>) {
    while let Some(message) = receiver.recv().await {
        if stream.write_all(&message).await.is_err() {
            return;
        }
        while let Ok(message) = receiver.try_recv() {
            if stream.write_all(&message).await.is_err() {
                return;
            }
        }
        if stream.flush().await.is_err() {
            return;
        }
    }
}

async fn frames(mut receiver: Receiver<Bytes>, stream: impl AsyncWrite + Unpin) {
    let mut framed = FramedWrite::new(stream, BytesCodec::new());
    while let Some(message) = receiver.recv().await {
        if feed(&mut framed, message).await.is_err() {
            return;
        }
        while let Ok(message) = receiver.try_recv() {
            if feed(&mut framed, message).await.is_err() {
                return;
            }
        }
        if poll_fn(|cx| Sink::<Bytes>::poll_flush(Pin::new(&mut framed), cx)).await.is_err() {
            return;
        }
    }
}

async fn feed(framed: &mut FramedWrite<impl AsyncWrite + Unpin, BytesCodec>, message: Bytes) -> std::io::Result<()> {
    poll_fn(|cx| Sink::<Bytes>::poll_ready(Pin::new(&mut *framed), cx)).await?;
    Pin::new(framed).start_send(message)
}
