//! Small cases in many random schedules: each byte is compared, nobody sleeps who could go on, and the pending bytes
//! keep their bound.
//!
//! `LIMEKEEL_SCHEDULES` says how many, `LIMEKEEL_SEED` with which to begin.

mod common;

use bytes::Bytes;
use common::{Executor, Memory, Within};
use futures_sink::Sink;
use limekeel_tokio::{Ended, Marks, Outbound, Outcome, Pump, TryWriteError, WriteError, split};
use std::collections::BTreeMap;
use std::env;
use std::future::{Future, poll_fn};
use std::pin::{Pin, pin};
use std::sync::{Arc, Mutex};
use std::task::Poll;
use tokio::io::AsyncWriteExt;

/// One message fills it, or two do, or some.
const MARKS: [Marks; 3] = [Marks { low: 1, high: 90 }, Marks { low: 90, high: 150 }, Marks { low: 250, high: 500 }];
/// What a message counts beside its bytes.
const OVERHEAD: u32 = 96;
/// The most bytes of a message.
const MOST: usize = 60;

/// What was seen of one case.
#[derive(Default)]
struct Seen {
    /// How many messages each writer knows to be written, and which of them to be sent or lost.
    written: BTreeMap<u8, Vec<u8>>,
    outcomes: BTreeMap<(u8, u8), Outcome>,
    ended: Option<Ended<Memory>>,
    waits: u64,
}

type Book = Arc<Mutex<Seen>>;

/// A message: who wrote it, which one of its writer's it is, its length, and bytes that follow from those.
fn message(writer: u8, at: u8, length: usize) -> Vec<u8> {
    let rest = (0..length).map(|place| writer.wrapping_mul(31) ^ at.wrapping_mul(7) ^ place as u8);
    [writer, at, length as u8].into_iter().chain(rest).collect()
}

/// Reads messages, and returns for each writer which came, and how many bytes are left of one that is cut off.
fn read(mut got: &[u8]) -> (BTreeMap<u8, Vec<u8>>, usize) {
    let mut came: BTreeMap<u8, Vec<u8>> = BTreeMap::new();
    while let [writer, at, length, ..] = *got {
        let whole = message(writer, at, length as usize);
        if got.len() < whole.len() {
            assert!(whole.starts_with(got), "a part of a message is wrong");
            break;
        }
        assert_eq!(&got[..whole.len()], whole, "message {at} of writer {writer}");
        came.entry(writer).or_default().push(at);
        got = &got[whole.len()..];
    }
    (came, got.len())
}

/// A writer of some messages, each by another call.
struct Writer {
    outbound: Outbound,
    executor: Executor,
    book: Book,
    name: u8,
    high: u32,
}

impl Writer {
    fn knows(&self, at: u8) {
        let pending = self.outbound.pending();
        assert!(pending <= self.high + OVERHEAD + MOST as u32 + 3, "{pending} bytes are pending");
        self.book.lock().unwrap().written.entry(self.name).or_default().push(at);
    }

    /// Writes one message, or returns that nothing is sent any more.
    async fn write(&self, at: u8) -> Result<(), WriteError> {
        let bytes = message(self.name, at, self.executor.below(MOST));
        let receipt = match self.executor.below(8) {
            0 => self.outbound.write(&bytes[..]).await?,
            1 => self.outbound.write(Bytes::from(bytes)).await?,
            2 => self.outbound.feed(bytes).await?,
            3 => match self.outbound.try_write(&bytes[..]) {
                Ok(receipt) => receipt,
                Err(TryWriteError::Full(given_back)) => {
                    assert_eq!(given_back, bytes);
                    return Ok(());
                }
                Err(error) => {
                    assert!(matches!(error, TryWriteError::Gone(_)));
                    return Err(WriteError::Gone);
                }
            },
            4 => return self.write_when_ready(at, bytes).await,
            5 => return self.write_for_a_while(at, bytes).await,
            6 => return self.write_by_a_sink(at, bytes).await,
            _ => return self.write_by_a_writer(at, bytes).await,
        };
        self.knows(at);
        match self.executor.below(6) {
            0 => {
                let outcome = receipt.await;
                self.book.lock().unwrap().outcomes.insert((self.name, at), outcome);
            }
            1 => self.outbound.drained().await?,
            2 => self.outbound.flush(),
            3 => polled_once(receipt).await,
            _ => {}
        }
        Ok(())
    }

    async fn write_when_ready(&self, at: u8, bytes: Vec<u8>) -> Result<(), WriteError> {
        let mut outbound = self.outbound.clone();
        loop {
            poll_fn(|cx| outbound.poll_ready(cx)).await?;
            if let Ok(receipt) = outbound.try_write(&bytes[..]) {
                drop(receipt);
                self.knows(at);
                return Ok(());
            }
        }
    }

    /// Writes, unless it has to be polled too often.
    async fn write_for_a_while(&self, at: u8, bytes: Vec<u8>) -> Result<(), WriteError> {
        let mut polls = self.executor.below(3);
        let mut write = pin!(self.outbound.write(bytes));
        let written = poll_fn(|cx| match write.as_mut().poll(cx) {
            Poll::Ready(written) => Poll::Ready(Some(written)),
            Poll::Pending if polls == 0 => Poll::Ready(None),
            Poll::Pending => {
                polls -= 1;
                self.book.lock().unwrap().waits += 1;
                Poll::Pending
            }
        });
        if let Some(written) = written.await {
            drop(written?);
            self.knows(at);
        }
        Ok(())
    }

    async fn write_by_a_sink(&self, at: u8, bytes: Vec<u8>) -> Result<(), WriteError> {
        let mut sink = self.outbound.clone().into_sink();
        poll_fn(|cx| Pin::new(&mut sink).poll_ready(cx)).await?;
        Pin::new(&mut sink).start_send(Bytes::from(bytes))?;
        poll_fn(|cx| Sink::poll_close(Pin::new(&mut sink), cx)).await?;
        self.knows(at);
        Ok(())
    }

    async fn write_by_a_writer(&self, at: u8, bytes: Vec<u8>) -> Result<(), WriteError> {
        let mut writer = self.outbound.clone().into_sink();
        if writer.write_all(&bytes).await.is_err() {
            return Err(WriteError::Gone);
        }
        self.knows(at);
        if self.executor.one_in(2) && writer.flush().await.is_err() {
            return Err(WriteError::Gone);
        }
        Ok(())
    }

    async fn writes(self, count: u8, finishes: bool) {
        for at in 0..count {
            if self.write(at).await.is_err() {
                return;
            }
        }
        if finishes {
            let _ = self.outbound.finish().await;
        }
    }
}

/// Polls a future once and drops it.
async fn polled_once(future: impl Future) {
    let mut future = pin!(future);
    poll_fn(|cx| {
        let _ = future.as_mut().poll(cx);
        Poll::Ready(())
    })
    .await;
}

async fn pumps(pump: Pump<Memory>, book: Book) {
    let ended = pump.await;
    book.lock().unwrap().ended = Some(ended);
}

/// What may befall a case.
#[derive(Clone, Copy, Debug, PartialEq, Eq)]
enum Fate {
    AllIsWell,
    Breaks,
    PumpIsDropped,
    WritersAreDropped,
    Finishes,
}

const FATES: [Fate; 5] = [Fate::AllIsWell, Fate::Breaks, Fate::PumpIsDropped, Fate::WritersAreDropped, Fate::Finishes];

/// Plays one case to its end, and compares what came of it.
fn play(seed: u64) -> (u64, u64) {
    let executor = Executor::new(seed);
    let fate = FATES[executor.below(FATES.len())];
    let dice = common::Dice(seed ^ 0xABCD);
    let stream = Memory::new(Within {
        dice: Some(dice),
        most: [3, 50, 400][executor.below(3)],
        blocks: 1 + executor.below(4),
        breaks_after: (fate == Fate::Breaks).then(|| executor.below(600)),
        vectored: executor.one_in(2),
        executor: Some(executor.clone()),
        ..Within::default()
    });
    stream.with(|within| within.blocks = if within.blocks == 1 { 0 } else { within.blocks });
    let book = Book::default();
    let marks = MARKS[executor.below(MARKS.len())];
    let (outbound, pump) = split(stream.clone(), marks).unwrap();
    let pump = executor.spawn(pumps(pump, Arc::clone(&book)));
    let writers = 2 + executor.below(2);
    let mut tasks = Vec::new();
    for name in 0..writers as u8 {
        let writer = Writer {
            outbound: outbound.clone(),
            executor: executor.clone(),
            book: Arc::clone(&book),
            name,
            high: marks.high,
        };
        let finishes = fate == Fate::Finishes && name == 0;
        tasks.push(executor.spawn(writer.writes(1 + executor.below(12) as u8, finishes)));
    }
    drop(outbound);
    run(&executor, fate, &stream, pump, &tasks);
    assert_eq!(executor.left(), [], "nobody is woken any more, and these tasks sleep");
    compare(fate, &stream, &book.lock().unwrap());
    let waits = book.lock().unwrap().waits;
    (executor.polls(), waits)
}

/// Polls tasks, and lets befall them what is to, until none is woken any more.
fn run(executor: &Executor, fate: Fate, stream: &Memory, pump: usize, writers: &[usize]) {
    loop {
        if executor.one_in(3) {
            stream.unblock();
        }
        if fate == Fate::WritersAreDropped && executor.one_in(8) {
            executor.abort(writers[executor.below(writers.len())]);
        }
        if fate == Fate::PumpIsDropped && executor.one_in(30) {
            executor.abort(pump);
        }
        if !executor.turn() && !stream.unblock() {
            break;
        }
    }
}

/// What came is what was written, as far as it was to come.
fn compare(fate: Fate, stream: &Memory, seen: &Seen) {
    let got = stream.with(|within| within.got.clone());
    let (came, rest) = read(&got);
    for came in came.values() {
        assert!(came.is_sorted_by(|one, next| one < next), "in order, and each once: {came:?}");
    }
    let has_come = |name: &u8, at: &u8| came.get(name).is_some_and(|came| came.contains(at));
    for ((name, at), outcome) in &seen.outcomes {
        assert_eq!(*outcome == Outcome::Success, has_come(name, at), "the receipt of {at} of {name}");
    }
    let Some(ended) = &seen.ended else {
        assert_eq!(fate, Fate::PumpIsDropped);
        return;
    };
    assert_eq!(ended.sent, came.values().map(|came| came.len() as u64).sum::<u64>());
    assert_eq!(ended.error.is_some(), !stream.with(|within| within.shut));
    if ended.error.is_some() {
        assert_eq!(fate, Fate::Breaks);
        return;
    }
    assert_eq!((ended.lost, rest), (0, 0));
    for (name, written) in &seen.written {
        assert!(written.iter().all(|at| has_come(name, at)), "{written:?} of {name} were written: {came:?}");
    }
}

fn number(name: &str, otherwise: u64) -> u64 {
    env::var(name).map_or(otherwise, |text| text.parse().expect("a number"))
}

#[test]
fn no_schedule_loses_a_byte_or_a_wake_up() {
    let (count, first) = (number("LIMEKEEL_SCHEDULES", 30_000), number("LIMEKEEL_SEED", 1));
    let (mut polls, mut waits) = (0, 0);
    for seed in first..first + count {
        let told = std::panic::catch_unwind(|| play(seed));
        let (more_polls, more_waits) = told.unwrap_or_else(|_| panic!("LIMEKEEL_SEED={seed} LIMEKEEL_SCHEDULES=1"));
        polls += more_polls;
        waits += more_waits;
    }
    println!("{count} schedules, {polls} polls, {waits} waits");
    assert!(count < 1000 || waits > count / 10, "writers had to wait");
}
