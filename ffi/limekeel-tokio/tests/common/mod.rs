//! What the tests have in common: chance from a seed, an executor that polls in any order, and a stream in memory.
#![allow(dead_code)]

use std::collections::BTreeSet;
use std::future::Future;
use std::io::{self, ErrorKind, IoSlice};
use std::pin::Pin;
use std::sync::atomic::{AtomicU64, AtomicUsize, Ordering};
use std::sync::{Arc, Mutex, Weak};
use std::task::{Context, Poll, Wake, Waker};
use tokio::io::AsyncWrite;

/// Random numbers, the same for the same seed (SplitMix64).
pub struct Dice(pub u64);

impl Dice {
    pub fn next(&mut self) -> u64 {
        self.0 = self.0.wrapping_add(0x9E37_79B9_7F4A_7C15);
        let mut mixed = self.0;
        mixed = (mixed ^ (mixed >> 30)).wrapping_mul(0xBF58_476D_1CE4_E5B9);
        mixed = (mixed ^ (mixed >> 27)).wrapping_mul(0x94D0_49BB_1331_11EB);
        mixed ^ (mixed >> 31)
    }

    /// A number below this.
    pub fn below(&mut self, end: usize) -> usize {
        (self.next() % end as u64) as usize
    }

    pub fn one_in(&mut self, n: usize) -> bool {
        self.below(n) == 0
    }
}

type Task = Pin<Box<dyn Future<Output = ()> + Send>>;

/// How many tasks are polled inside each other at most.
const DEPTH: usize = 4;

/// Polls tasks that were woken, in a random order: also another one in the midst of a poll, when that wakes a task or
/// writes to its stream, as if it were on another thread. A task that waits is polled when it was woken, and now and
/// then for nothing.
#[derive(Clone)]
pub struct Executor(Arc<Inside>);

struct Inside {
    dice: Mutex<Dice>,
    /// A task that is polled is locked, and gone once it has ended.
    tasks: Mutex<Vec<Arc<Mutex<Option<Task>>>>>,
    woken: Mutex<BTreeSet<usize>>,
    /// How often each task was polled.
    turns: Mutex<Vec<u64>>,
    depth: AtomicUsize,
    polls: AtomicU64,
}

/// That of one poll of a task. Once the task was polled again it wakes nobody, as a waker of another task.
struct Alarm {
    task: usize,
    turn: u64,
    inside: Weak<Inside>,
}

impl Wake for Alarm {
    fn wake(self: Arc<Self>) {
        if let Some(inside) = self.inside.upgrade() {
            if inside.turns.lock().unwrap()[self.task] == self.turn {
                inside.woken.lock().unwrap().insert(self.task);
            }
            Executor(inside).interferes();
        }
    }
}

impl Executor {
    pub fn new(seed: u64) -> Executor {
        let depth = AtomicUsize::new(0);
        let (tasks, woken, turns) = (Mutex::default(), Mutex::default(), Mutex::default());
        let polls = AtomicU64::new(0);
        Executor(Arc::new(Inside { dice: Mutex::new(Dice(seed)), tasks, woken, turns, depth, polls }))
    }

    pub fn below(&self, end: usize) -> usize {
        self.0.dice.lock().unwrap().below(end)
    }

    pub fn one_in(&self, n: usize) -> bool {
        self.below(n) == 0
    }

    pub fn polls(&self) -> u64 {
        self.0.polls.load(Ordering::SeqCst)
    }

    pub fn spawn(&self, future: impl Future<Output = ()> + Send + 'static) -> usize {
        let mut tasks = self.0.tasks.lock().unwrap();
        tasks.push(Arc::new(Mutex::new(Some(Box::pin(future)))));
        self.0.turns.lock().unwrap().push(0);
        self.0.woken.lock().unwrap().insert(tasks.len() - 1);
        tasks.len() - 1
    }

    fn next_turn(&self, at: usize) -> u64 {
        let mut turns = self.0.turns.lock().unwrap();
        turns[at] += 1;
        turns[at]
    }

    fn task(&self, at: usize) -> Arc<Mutex<Option<Task>>> {
        Arc::clone(&self.0.tasks.lock().unwrap()[at])
    }

    /// Which tasks have not ended and are not just polled.
    pub fn left(&self) -> Vec<usize> {
        let tasks = self.0.tasks.lock().unwrap().clone();
        let left = |at: &usize| tasks[*at].try_lock().is_ok_and(|task| task.is_some());
        (0..tasks.len()).filter(left).collect()
    }

    /// Drops a task, unless it is just polled.
    pub fn abort(&self, at: usize) {
        let task = self.task(at);
        let dropped = task.try_lock().ok().and_then(|mut task| task.take());
        drop(dropped);
    }

    /// Now and then another task has its turn here.
    pub fn interferes(&self) {
        if self.0.depth.load(Ordering::SeqCst) < DEPTH && self.one_in(4) {
            self.turn();
        }
    }

    /// Polls one task. It answers whether one was woken.
    pub fn turn(&self) -> bool {
        let left = self.left();
        let woken: Vec<usize> = {
            let woken = self.0.woken.lock().unwrap();
            left.iter().copied().filter(|task| woken.contains(task)).collect()
        };
        if woken.is_empty() {
            return false;
        }
        let pool = if self.one_in(20) { &left } else { &woken };
        let at = pool[self.below(pool.len())];
        self.0.woken.lock().unwrap().remove(&at);
        self.0.polls.fetch_add(1, Ordering::SeqCst);
        self.0.depth.fetch_add(1, Ordering::SeqCst);
        let turn = self.next_turn(at);
        let waker = Waker::from(Arc::new(Alarm { task: at, turn, inside: Arc::downgrade(&self.0) }));
        let task = self.task(at);
        let mut future = task.try_lock().expect("it is not polled");
        let ended = future.as_mut().expect("it is left").as_mut().poll(&mut Context::from_waker(&waker)).is_ready();
        let ended = if ended { future.take() } else { None };
        drop(future);
        drop(ended);
        self.0.depth.fetch_sub(1, Ordering::SeqCst);
        true
    }
}

/// What a stream in memory does, and what it got.
#[derive(Default)]
pub struct Within {
    pub got: Vec<u8>,
    pub dice: Option<Dice>,
    /// The most bytes that it takes at once.
    pub most: usize,
    /// It has no room once in `blocks` writes, if that is not 0, and breaks after this many bytes.
    pub blocks: usize,
    pub breaks_after: Option<usize>,
    pub vectored: bool,
    /// While it has no room by `stalled` nobody wakes the pump.
    pub stalled: bool,
    pub flushed: bool,
    pub shut: bool,
    pub waiting: Option<Waker>,
    pub writes: u64,
    /// Whose tasks go on in the midst of a write.
    pub executor: Option<Executor>,
}

/// A stream in memory.
#[derive(Clone, Default)]
pub struct Memory(pub Arc<Mutex<Within>>);

impl Memory {
    pub fn new(within: Within) -> Memory {
        Memory(Arc::new(Mutex::new(within)))
    }

    pub fn with<T>(&self, call: impl FnOnce(&mut Within) -> T) -> T {
        call(&mut self.0.lock().unwrap())
    }

    fn interferes(&self) {
        let executor = self.with(|within| within.executor.clone());
        executor.iter().for_each(Executor::interferes);
    }

    /// Gives it room again.
    pub fn unblock(&self) -> bool {
        let waiting = self.with(|within| if within.stalled { None } else { within.waiting.take() });
        let waits = waiting.is_some();
        waiting.into_iter().for_each(Waker::wake);
        waits
    }
}

impl Within {
    fn has_room(&mut self, cx: &Context<'_>) -> bool {
        let blocks = self.blocks;
        let full = self.stalled || blocks > 0 && self.dice.as_mut().is_some_and(|dice| dice.one_in(blocks));
        if full {
            self.waiting = Some(cx.waker().clone());
        }
        !full
    }

    fn take<'a>(&mut self, pieces: impl Iterator<Item = &'a [u8]>) -> io::Result<usize> {
        assert!(!self.shut, "a stream is written to that was shut down");
        self.writes += 1;
        self.flushed = false;
        let most = self.most;
        let mut room = match &mut self.dice {
            Some(dice) => 1 + dice.below(most),
            None => usize::MAX,
        };
        if let Some(end) = self.breaks_after {
            room = room.min(end - self.got.len());
            if room == 0 {
                return Err(ErrorKind::ConnectionReset.into());
            }
        }
        let before = self.got.len();
        for piece in pieces {
            let count = piece.len().min(room);
            self.got.extend_from_slice(&piece[..count]);
            room -= count;
        }
        Ok(self.got.len() - before)
    }
}

impl AsyncWrite for Memory {
    fn poll_write(self: Pin<&mut Self>, cx: &mut Context<'_>, bytes: &[u8]) -> Poll<io::Result<usize>> {
        self.interferes();
        self.with(
            |within| {
                if within.has_room(cx) { Poll::Ready(within.take([bytes].into_iter())) } else { Poll::Pending }
            },
        )
    }

    fn poll_write_vectored(
        self: Pin<&mut Self>,
        cx: &mut Context<'_>,
        pieces: &[IoSlice<'_>],
    ) -> Poll<io::Result<usize>> {
        self.interferes();
        self.with(|within| {
            assert!(within.vectored || pieces.len() == 1, "it said that it has no vectored writes");
            if within.has_room(cx) {
                Poll::Ready(within.take(pieces.iter().map(|piece| &**piece)))
            } else {
                Poll::Pending
            }
        })
    }

    fn is_write_vectored(&self) -> bool {
        self.with(|within| within.vectored)
    }

    fn poll_flush(self: Pin<&mut Self>, cx: &mut Context<'_>) -> Poll<io::Result<()>> {
        self.with(|within| {
            if !within.has_room(cx) {
                return Poll::Pending;
            }
            within.flushed = true;
            Poll::Ready(Ok(()))
        })
    }

    fn poll_shutdown(self: Pin<&mut Self>, cx: &mut Context<'_>) -> Poll<io::Result<()>> {
        self.with(|within| {
            if !within.has_room(cx) {
                return Poll::Pending;
            }
            within.shut = true;
            Poll::Ready(Ok(()))
        })
    }
}

/// A waker that counts how often it is woken.
#[derive(Default)]
pub struct Counter(AtomicUsize);

impl Wake for Counter {
    fn wake(self: Arc<Self>) {
        self.0.fetch_add(1, Ordering::SeqCst);
    }
}

impl Counter {
    pub fn count(&self) -> usize {
        self.0.load(Ordering::SeqCst)
    }
}

/// A future that is polled by hand, and how often it was woken.
pub struct ByHand<F> {
    pub future: Pin<Box<F>>,
    pub woken: Arc<Counter>,
}

impl<F: Future> ByHand<F> {
    pub fn new(future: F) -> ByHand<F> {
        ByHand { future: Box::pin(future), woken: Arc::default() }
    }

    pub fn poll(&mut self) -> Poll<F::Output> {
        let waker = Waker::from(Arc::clone(&self.woken));
        self.future.as_mut().poll(&mut Context::from_waker(&waker))
    }

    /// Polls it, which is to wait.
    pub fn waits(mut self) -> ByHand<F> {
        assert!(self.poll().is_pending());
        self
    }

    pub fn woken(&self) -> usize {
        self.woken.count()
    }
}
