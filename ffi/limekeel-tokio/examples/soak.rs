//! A server and clients in one process, over loopback, for a number of seconds: clients that read fast or slowly,
//! stall, reset and half close, while many tasks write to each. Each byte is compared, no wait is endless, and the
//! bound of the pending bytes is kept.
//!
//!     cargo run --release --example soak -- 60

use bytes::Bytes;
use limekeel_tokio::{Ended, Marks, Outbound, Outcome, split};
use std::env;
use std::sync::Arc;
use std::sync::atomic::{AtomicU32, AtomicU64, Ordering};
use std::time::{Duration, Instant, SystemTime, UNIX_EPOCH};
use tokio::io::{AsyncReadExt, AsyncWriteExt};
use tokio::net::tcp::OwnedWriteHalf;
use tokio::net::{TcpListener, TcpStream};
use tokio::task::JoinHandle;
use tokio::time::{sleep, timeout};

const CLIENTS: usize = 24;
const MOST: usize = 4000;
const OVERHEAD: u32 = 96;
/// What takes longer sleeps for ever: no client stalls as long.
const PATIENCE: Duration = Duration::from_secs(30);

#[derive(Clone, Copy, Debug, PartialEq, Eq)]
enum Kind {
    Fast,
    Slow,
    Stalls,
    Resets,
    HalfCloses,
}

const KINDS: [Kind; 5] = [Kind::Fast, Kind::Slow, Kind::Stalls, Kind::Resets, Kind::HalfCloses];

/// What was seen in all.
#[derive(Default)]
struct Seen {
    rounds: AtomicU64,
    messages: AtomicU64,
    bytes: AtomicU64,
    waits: AtomicU64,
    given_up: AtomicU64,
    peak: AtomicU32,
}

/// Random numbers, the same for the same seed (SplitMix64).
struct Dice(u64);

impl Dice {
    fn below(&mut self, end: usize) -> usize {
        self.0 = self.0.wrapping_add(0x9E37_79B9_7F4A_7C15);
        let mut mixed = self.0;
        mixed = (mixed ^ (mixed >> 30)).wrapping_mul(0xBF58_476D_1CE4_E5B9);
        mixed = (mixed ^ (mixed >> 27)).wrapping_mul(0x94D0_49BB_1331_11EB);
        ((mixed ^ (mixed >> 31)) % end as u64) as usize
    }
}

/// The message of a writer: who wrote it, which one it is, its length, and bytes that follow from those.
fn message(writer: u8, at: u32, length: u16) -> Vec<u8> {
    let rest = (0..length).map(|place| (u32::from(place) * 7 + at * 13 + u32::from(writer)) as u8);
    [writer].into_iter().chain(at.to_le_bytes()).chain(length.to_le_bytes()).chain(rest).collect()
}

/// Reads and compares, until the end or until `most` messages came. It returns how many came of each writer.
async fn reads(client: &mut TcpStream, kind: Kind, most: u32) -> Vec<u32> {
    let mut came = vec![0; 256];
    let mut head = [0; 7];
    for count in 0..most {
        if client.read_exact(&mut head).await.is_err() {
            break;
        }
        let (writer, at) = (head[0], u32::from_le_bytes(head[1..5].try_into().expect("four bytes")));
        let mut rest = vec![0; u16::from_le_bytes(head[5..].try_into().expect("two bytes")).into()];
        if client.read_exact(&mut rest).await.is_err() {
            break;
        }
        assert_eq!(message(writer, at, rest.len() as u16), [&head[..], &rest].concat(), "bytes of {kind:?}");
        assert_eq!(at, came[usize::from(writer)], "in order, and each once");
        came[usize::from(writer)] += 1;
        if kind == Kind::Slow && count % 64 == 0 {
            sleep(Duration::from_millis(1)).await;
        }
    }
    came
}

/// Writes messages until `count` are written or nothing is sent any more. It returns how many were.
async fn writes(outbound: Outbound, writer: u8, count: u32, bound: u32, seed: u64, seen: Arc<Seen>) -> u32 {
    let mut dice = Dice(seed);
    for at in 0..count {
        let bytes = message(writer, at, dice.below(MOST) as u16);
        let size = bytes.len() as u64;
        if !outbound.is_writable() {
            seen.waits.fetch_add(1, Ordering::Relaxed);
        }
        let written = match dice.below(4) {
            0 => timeout(PATIENCE, outbound.write(Bytes::from(bytes))).await,
            1 => timeout(PATIENCE, outbound.write(&bytes[..])).await,
            2 => timeout(PATIENCE, outbound.feed(bytes)).await,
            // some that give up waiting, and try again
            _ => loop {
                if let Ok(written) = timeout(Duration::from_micros(50), outbound.write(&bytes[..])).await {
                    break Ok(written);
                }
                seen.given_up.fetch_add(1, Ordering::Relaxed);
            },
        };
        let Ok(receipt) = written.expect("nobody is left asleep") else { return at };
        let pending = outbound.pending();
        assert!(pending <= bound, "{pending} bytes are pending, and {bound} may be");
        seen.peak.fetch_max(pending, Ordering::Relaxed);
        seen.messages.fetch_add(1, Ordering::Relaxed);
        seen.bytes.fetch_add(size, Ordering::Relaxed);
        if dice.below(50) == 0 {
            let outcome = timeout(PATIENCE, receipt).await.expect("nobody is left asleep");
            if outcome != Outcome::Success {
                return at;
            }
        }
    }
    count
}

/// What the client does, until all came that it reads.
async fn client(mut client: TcpStream, kind: Kind) -> Vec<u32> {
    match kind {
        Kind::Fast | Kind::Slow => reads(&mut client, kind, u32::MAX).await,
        Kind::Stalls => {
            let came = reads(&mut client, kind, 100).await;
            sleep(Duration::from_millis(300)).await;
            came
        }
        Kind::Resets => {
            let came = reads(&mut client, kind, 200).await;
            client.set_linger(Some(Duration::ZERO)).expect("a socket");
            came
        }
        Kind::HalfCloses => {
            client.shutdown().await.expect("a socket");
            reads(&mut client, kind, u32::MAX).await
        }
    }
}

/// What was written is what came, as far as the client read it.
fn compare(kind: Kind, written: &[u32], came: &[u32], ended: Option<Ended<OwnedWriteHalf>>) {
    for (writer, count) in written.iter().enumerate() {
        let came = came[writer];
        match kind {
            Kind::Fast | Kind::Slow | Kind::HalfCloses => assert_eq!(came, *count, "{kind:?}, writer {writer}"),
            // a message may be read before its writer knows that it is written
            Kind::Stalls | Kind::Resets => assert!(came <= count + 1, "{kind:?}, writer {writer}"),
        }
    }
    if matches!(kind, Kind::Fast | Kind::Slow | Kind::HalfCloses) {
        let ended = ended.expect("its pump was not aborted");
        assert_eq!(ended.sent, written.iter().map(|count| u64::from(*count)).sum::<u64>());
        assert!(ended.error.is_none() && ended.lost == 0);
    }
}

/// One client from beginning to end, and then another.
async fn round(seed: u64, seen: &Arc<Seen>) {
    let mut dice = Dice(seed);
    let kind = KINDS[dice.below(KINDS.len())];
    let marks = [Marks::default(), Marks { low: 1000, high: 8000 }, Marks { low: 1, high: 50 }][dice.below(3)];
    let listener = TcpListener::bind("127.0.0.1:0").await.expect("loopback is there");
    let stream = TcpStream::connect(listener.local_addr().expect("it is bound")).await.expect("it listens");
    let (server, _) = listener.accept().await.expect("it was connected to");
    let (_reading, writing) = server.into_split();
    let (outbound, pump) = split(writing, marks).expect("there is memory");
    let pump = tokio::spawn(pump);
    let bound = marks.high + OVERHEAD + MOST as u32 + 7;
    let count = if matches!(kind, Kind::Stalls | Kind::Resets) { u32::MAX } else { 300 };
    let writers: Vec<JoinHandle<u32>> = (0..1 + dice.below(8) as u8)
        .map(|name| {
            let seed = seed * 100 + u64::from(name);
            tokio::spawn(writes(outbound.clone(), name, count, bound, seed, Arc::clone(seen)))
        })
        .collect();
    drop(outbound);
    let client = tokio::spawn(client(stream, kind));
    let mut came = None;
    if kind == Kind::Stalls {
        came = Some(client.await.expect("it read"));
        pump.abort();
    } else {
        came = came.or(Some(client.await.expect("it read")));
    }
    let mut written = Vec::new();
    for writer in writers {
        written.push(timeout(PATIENCE, writer).await.expect("nobody is left asleep").expect("it wrote"));
    }
    let ended = timeout(PATIENCE, pump).await.expect("nobody is left asleep").ok();
    compare(kind, &written, &came.expect("it read"), ended);
    seen.rounds.fetch_add(1, Ordering::Relaxed);
}

#[tokio::main]
async fn main() {
    let seconds = env::args().nth(1).map_or(60, |text| text.parse().expect("a number of seconds"));
    let now = SystemTime::now().duration_since(UNIX_EPOCH).expect("a clock").as_secs();
    let seed = env::args().nth(2).map_or(now, |text| text.parse().expect("a seed"));
    println!("seed {seed}");
    let end = Instant::now() + Duration::from_secs(seconds);
    let seen = Arc::new(Seen::default());
    let clients: Vec<_> = (0..CLIENTS as u64)
        .map(|name| {
            let seen = Arc::clone(&seen);
            tokio::spawn(async move {
                let mut at = 0;
                while Instant::now() < end {
                    round(seed * 1_000_000 + name * 10_000 + at, &seen).await;
                    at += 1;
                }
            })
        })
        .collect();
    for client in clients {
        client.await.expect("each byte is right, and nobody was left asleep");
    }
    let read = |number: &AtomicU64| number.load(Ordering::Relaxed);
    println!(
        "{} clients, {} messages, {} MB, {} waits, {} given up, peak {}",
        read(&seen.rounds),
        read(&seen.messages),
        read(&seen.bytes) >> 20,
        read(&seen.waits),
        read(&seen.given_up),
        seen.peak.load(Ordering::Relaxed)
    );
    assert!(read(&seen.rounds) > 0 && read(&seen.waits) > 0 && read(&seen.given_up) > 0);
}
