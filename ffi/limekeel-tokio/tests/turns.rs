//! A million turns of writability over threads, and none is missed: each message fills the connection, so that each
//! write waits for the one before it to be sent.

mod common;

use common::{ByHand, Dice, Memory, Within};
use limekeel_tokio::{Marks, Outbound, Outcome, WriteError, split};
use std::future::Future;
use std::sync::atomic::{AtomicBool, AtomicU64, Ordering};
use std::sync::{Arc, Mutex};
use std::task::Poll;
use std::thread;
use std::time::Duration;
use tokio::runtime::{Builder, Runtime};
use tokio::task::yield_now;
use tokio::time::timeout;

const FILLED_BY_ONE: Marks = Marks { low: 1, high: 50 };

fn threads(count: usize) -> Runtime {
    Builder::new_multi_thread().worker_threads(count).enable_time().build().unwrap()
}

/// What sleeps for ever was not woken.
async fn in_time<F: Future>(future: F) -> F::Output {
    timeout(Duration::from_secs(150), future).await.expect("nobody was left asleep")
}

async fn writes(outbound: Outbound, count: u32) {
    for at in 0..count {
        let receipt = outbound.write(&at.to_le_bytes()).await.unwrap();
        if at % 1000 == 999 {
            assert_eq!(receipt.await, Outcome::Success);
        }
    }
}

#[test]
fn a_million_turns_wake_whoever_waits() {
    const WRITERS: u32 = 4;
    const TURNS: u32 = 1_000_000;
    let ended = threads(3).block_on(in_time(async {
        let (outbound, pump) = split(Vec::new(), FILLED_BY_ONE).unwrap();
        let pump = tokio::spawn(pump);
        let writers: Vec<_> = (0..WRITERS).map(|_| tokio::spawn(writes(outbound.clone(), TURNS / WRITERS))).collect();
        drop(outbound);
        for writer in writers {
            writer.await.unwrap();
        }
        pump.await.unwrap()
    }));
    assert_eq!((ended.sent, ended.lost, ended.error.is_none()), (TURNS.into(), 0, true));
    let mut came = vec![0; (TURNS / WRITERS) as usize];
    for bytes in ended.stream.chunks_exact(4) {
        came[u32::from_le_bytes(bytes.try_into().unwrap()) as usize] += 1;
    }
    assert!(came.iter().all(|count| *count == WRITERS));
}

#[test]
fn writers_that_give_up_waiting_leave_nobody_asleep() {
    threads(3).block_on(in_time(async {
        let (outbound, pump) = split(tokio::io::sink(), FILLED_BY_ONE).unwrap();
        let pump = tokio::spawn(pump);
        let writers: Vec<_> = (0..6)
            .map(|seed| {
                let outbound = outbound.clone();
                tokio::spawn(async move {
                    let mut dice = Dice(seed);
                    let mut written = 0;
                    while written < 20_000 {
                        let turns = dice.below(3);
                        tokio::select! {
                            biased;
                            _ = outbound.write(b"news") => written += 1,
                            () = async { for _ in 0..turns { yield_now().await } } => {}
                        }
                    }
                })
            })
            .collect();
        drop(outbound);
        for writer in writers {
            writer.await.unwrap();
        }
        assert_eq!(pump.await.unwrap().sent, 120_000);
    }));
}

#[test]
fn a_pump_that_is_dropped_at_any_time_is_told_to_all() {
    threads(3).block_on(in_time(async {
        for seed in 0..3000 {
            let mut dice = Dice(seed);
            let (outbound, pump) = split(tokio::io::sink(), FILLED_BY_ONE).unwrap();
            let pump = tokio::spawn(pump);
            let writers: Vec<_> = (0..3)
                .map(|_| {
                    let outbound = outbound.clone();
                    tokio::spawn(async move {
                        loop {
                            match outbound.write(b"news").await {
                                Ok(receipt) => drop(receipt.await),
                                Err(error) => return error,
                            }
                        }
                    })
                })
                .collect();
            for _ in 0..dice.below(20) {
                yield_now().await;
            }
            pump.abort();
            for writer in writers {
                assert_eq!(writer.await.unwrap(), WriteError::Gone);
            }
        }
    }));
}

#[test]
fn a_stream_that_blocks_at_times_is_gone_on_with() {
    let blocking = Memory::new(Within { dice: Some(Dice(3)), most: 7, blocks: 3, vectored: true, ..Within::default() });
    let (stream, ended) = (blocking.clone(), Arc::new(AtomicBool::new(false)));
    let over = Arc::clone(&ended);
    let unblocks = thread::spawn(move || {
        while !over.load(Ordering::SeqCst) {
            stream.unblock();
            thread::yield_now();
        }
    });
    let sent = threads(3).block_on(in_time(async {
        let (outbound, pump) = split(blocking.clone(), Marks { low: 100, high: 400 }).unwrap();
        let pump = tokio::spawn(pump);
        let writers: Vec<_> = (0..4).map(|_| tokio::spawn(writes(outbound.clone(), 5000))).collect();
        for writer in writers {
            writer.await.unwrap();
        }
        outbound.finish().await.unwrap();
        pump.await.unwrap().sent
    }));
    ended.store(true, Ordering::SeqCst);
    unblocks.join().unwrap();
    assert_eq!((sent, blocking.with(|within| within.got.len())), (20_000, 80_000));
}

#[test]
fn one_that_is_let_in_and_does_not_come_keeps_nobody_asleep() {
    for count in [1, 3] {
        threads(count).block_on(in_time(async {
            let stream = Memory::new(Within { vectored: true, ..Within::default() });
            let (outbound, pump) = split(stream, Marks { low: 150, high: 350 }).unwrap();
            for _ in 0..4 {
                drop(outbound.try_write(b"full").unwrap());
            }
            let first = ByHand::new(outbound.write(b"next")).waits();
            let others = [(); 2].map(|()| {
                let outbound = outbound.clone();
                tokio::spawn(async move { outbound.write(b"next").await.unwrap().await })
            });
            // they stand behind it by then
            tokio::time::sleep(Duration::from_millis(20)).await;
            let pump = tokio::spawn(pump);
            for other in others {
                assert_eq!(other.await.unwrap(), Outcome::Success);
            }
            assert_eq!(first.woken(), 1);
            drop(first);
            drop(outbound);
            assert_eq!(pump.await.unwrap().sent, 6);
        }));
    }
}

/// Writes whenever it may, and notes in which round one waited before, and the promise.
fn tries_to_pass(outbound: &Outbound, waits_in: &AtomicU64, passed: &Mutex<Vec<(u64, u64)>>, over: &AtomicBool) {
    while !over.load(Ordering::SeqCst) {
        let round = waits_in.load(Ordering::SeqCst);
        if let Ok(receipt) = outbound.try_write(b"late") {
            passed.lock().unwrap().push((round, receipt.id()));
        }
    }
}

#[test]
fn nobody_passes_one_that_waits_on_any_thread() {
    const ROUNDS: u64 = 5000;
    let (outbound, pump) = split(tokio::io::sink(), FILLED_BY_ONE).unwrap();
    // the round in which one waits, or 0, and who wrote meanwhile: the round before its call, and its promise
    let (waits_in, passed, over) = (AtomicU64::new(0), Mutex::default(), AtomicBool::new(false));
    let sends = || {
        let mut pump = ByHand::new(pump);
        while !over.load(Ordering::SeqCst) {
            assert!(pump.poll().is_pending());
        }
    };
    thread::scope(|scope| {
        scope.spawn(|| tries_to_pass(&outbound, &waits_in, &passed, &over));
        scope.spawn(sends);
        let mut waited = 0;
        for round in 1..=ROUNDS {
            let mut write = ByHand::new(outbound.write(b"soon"));
            if write.poll().is_ready() {
                continue;
            }
            waits_in.store(round, Ordering::SeqCst);
            let id = loop {
                if let Poll::Ready(written) = write.poll() {
                    break written.unwrap().id();
                }
                thread::yield_now();
            };
            waits_in.store(0, Ordering::SeqCst);
            waited += 1;
            // one whose call came later has a later promise
            let passed = std::mem::take(&mut *passed.lock().unwrap());
            if passed.iter().any(|(at, late)| *at == round && *late < id) {
                over.store(true, Ordering::SeqCst);
                panic!("one was passed in round {round}");
            }
        }
        over.store(true, Ordering::SeqCst);
        assert!(waited > ROUNDS / 100, "{waited} had to wait");
    });
}
