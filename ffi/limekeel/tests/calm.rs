//! Waiting until pressure at a budget has ended: each call that ends it wakes each thread and each task that waits.

use limekeel::{Bounds, Budget, BudgetedConnection, Calm, Estimate, Marks, Pressure};
use std::future::Future;
use std::hint::spin_loop;
use std::pin::{Pin, pin};
use std::sync::atomic::{AtomicUsize, Ordering};
use std::sync::{Arc, Barrier, Mutex};
use std::task::{Context, Poll, Wake, Waker};
use std::thread;
use std::time::{Duration, Instant};

const BOUNDS: Bounds = Bounds { room: 1000, low: 200, high: 800 };
const LONG: Duration = Duration::from_secs(20);

fn open() -> Budget {
    Budget::open(BOUNDS, 0).expect("there is memory")
}

fn within(budget: &Budget) -> BudgetedConnection {
    BudgetedConnection::within(budget, Marks::default(), Estimate::default()).expect("there is memory")
}

/// A connection that holds 900 of the budget, so that pressure stands.
fn pressing(budget: &Budget) -> BudgetedConnection {
    let mut connection = within(budget);
    let told = connection.write(&[0; 804]);
    assert!(told.answer.is_ok());
    assert_eq!(told.pressure, Some(Pressure::Began));
    let _ = connection.flush().answer.expect("it is open");
    connection
}

/// A waker that counts.
#[derive(Default)]
struct Counts(AtomicUsize);

impl Wake for Counts {
    fn wake(self: Arc<Self>) {
        self.0.fetch_add(1, Ordering::SeqCst);
    }
}

impl Counts {
    fn new() -> (Arc<Counts>, Waker) {
        let counts = Arc::new(Counts::default());
        (Arc::clone(&counts), Waker::from(counts))
    }

    fn told(&self) -> usize {
        self.0.load(Ordering::SeqCst)
    }
}

fn poll(calm: &mut Calm, waker: &Waker) -> Poll<()> {
    Pin::new(calm).poll(&mut Context::from_waker(waker))
}

/// Each way in which a connection ends pressure.
const ENDS: [fn(BudgetedConnection) -> Option<Pressure>; 8] = [
    |mut it| it.take_sent(804).pressure,
    |mut it| it.remove().pressure,
    |mut it| it.remove_with(7).pressure,
    |mut it| it.fail_flushed(7, true).pressure,
    |mut it| it.give_up(7).pressure,
    |mut it| it.send_to(&mut Vec::new()).pressure,
    |mut it| it.send_until_blocked(&mut Vec::new(), 1).pressure,
    BudgetedConnection::retire,
];

#[test]
fn each_call_that_ends_pressure_wakes_a_task() {
    for (at, ends) in ENDS.into_iter().enumerate() {
        let budget = open();
        let connection = pressing(&budget);
        let ((counts, waker), mut calm) = (Counts::new(), budget.calm());
        assert_eq!((poll(&mut calm, &waker), counts.told()), (Poll::Pending, 0));
        assert_eq!((ends(connection), counts.told()), (Some(Pressure::Ended), 1), "end {at}");
        assert_eq!(poll(&mut calm, &waker), Poll::Ready(()));
    }
}

#[test]
fn one_that_is_dropped_wakes_too() {
    let budget = open();
    let connection = pressing(&budget);
    let ((counts, waker), mut calm) = (Counts::new(), budget.calm());
    assert_eq!(poll(&mut calm, &waker), Poll::Pending);
    drop(connection);
    assert_eq!((counts.told(), poll(&mut calm, &waker)), (1, Poll::Ready(())));
}

#[test]
fn each_task_is_woken_once_at_each_end_by_its_last_waker() {
    let budget = open();
    let other = budget.share().expect("there is memory");
    let mut connection = pressing(&budget);
    let mut tasks: Vec<_> = (0..5).map(|_| (Counts::new(), other.calm())).collect();
    let (old, old_waker) = Counts::new();
    for ((_, waker), calm) in &mut tasks {
        assert_eq!(poll(calm, &old_waker), Poll::Pending);
        assert_eq!(poll(calm, waker), Poll::Pending);
    }
    let told = |tasks: &Vec<((Arc<Counts>, Waker), Calm)>| tasks.iter().map(|it| it.0.0.told()).collect::<Vec<_>>();
    // one leaves, and one comes into its place
    let (gone, calm) = tasks.remove(2);
    drop(calm);
    let mut late = (Counts::new(), budget.calm());
    assert_eq!(poll(&mut late.1, &late.0.1), Poll::Pending);
    tasks.push(late);
    assert_eq!(connection.take_sent(804).pressure, Some(Pressure::Ended));
    assert_eq!((told(&tasks), old.told(), gone.0.told()), (vec![1; 5], 0, 0));
    // woken before they looked again, they wait once more
    assert_eq!(connection.write(&[0; 804]).pressure, Some(Pressure::Began));
    for ((_, waker), calm) in &mut tasks[..3] {
        assert_eq!(poll(calm, waker), Poll::Pending);
    }
    assert_eq!(connection.retire(), Some(Pressure::Ended));
    assert_eq!(told(&tasks), [2, 2, 2, 1, 1]);
}

#[test]
fn without_pressure_nobody_waits() {
    let budget = open();
    let (counts, waker) = Counts::new();
    assert_eq!(poll(&mut budget.calm(), &waker), Poll::Ready(()));
    budget.wait_while_pressed();
    assert!(budget.wait_while_pressed_within(Duration::ZERO));
    let connection = pressing(&budget);
    assert!(!budget.wait_while_pressed_within(Duration::from_millis(1)));
    assert_eq!((connection.retire(), counts.told()), (Some(Pressure::Ended), 0));
    assert!(budget.wait_while_pressed_within(Duration::ZERO));
}

/// A waker that drops a task's future, and lets another begin: each locks the same mutex.
struct Drops(Mutex<Option<Calm>>, Budget);

impl Wake for Drops {
    fn wake(self: Arc<Self>) {
        drop(self.0.lock().expect("no panic").take());
        let (_, waker) = Counts::new();
        let _ = poll(&mut self.1.calm(), &waker);
    }
}

#[test]
fn a_waker_may_drop_who_waits() {
    let budget = open();
    let connection = pressing(&budget);
    let mut calm = budget.calm();
    let drops = Arc::new(Drops(Mutex::new(None), budget.clone()));
    assert_eq!(poll(&mut calm, &Waker::from(Arc::clone(&drops))), Poll::Pending);
    *drops.0.lock().expect("no panic") = Some(calm);
    assert_eq!(connection.retire(), Some(Pressure::Ended));
    assert!(drops.0.lock().expect("no panic").is_none());
}

/// Wakes a thread that waits for a task.
struct Unparks(thread::Thread);

impl Wake for Unparks {
    fn wake(self: Arc<Self>) {
        self.0.unpark();
    }
}

/// Waits as an executor does that knows nothing but its waker. False if nobody woke it in time.
fn is_woken(budget: &Budget) -> bool {
    let waker = Waker::from(Arc::new(Unparks(thread::current())));
    let mut calm = pin!(budget.calm());
    let end = Instant::now() + LONG;
    while calm.as_mut().poll(&mut Context::from_waker(&waker)).is_pending() {
        let left = end.saturating_duration_since(Instant::now());
        if left.is_zero() {
            return false;
        }
        thread::park_timeout(left);
    }
    true
}

/// Two threads and two tasks wait for each end, which comes as they begin to: all are woken by that one, since no other comes.
#[test]
fn no_end_is_lost() {
    const ENDS: usize = 1000;
    let budget = open();
    let both = Barrier::new(5);
    let waits = |wait: fn(&Budget) -> bool| {
        let (own, both) = (budget.share().expect("there is memory"), &both);
        move || {
            for end in 0..ENDS {
                both.wait();
                let start = Instant::now();
                // who was not woken finds it at the end of its time
                assert!(wait(&own) && start.elapsed() < LONG / 2, "end {end} was lost");
                both.wait();
            }
        }
    };
    thread::scope(|scope| {
        for _ in 0..2 {
            scope.spawn(waits(|own| own.wait_while_pressed_within(LONG)));
            scope.spawn(waits(is_woken));
        }
        for end in 0..ENDS {
            let connection = pressing(&budget);
            both.wait();
            (0..end * 37 % 1000).for_each(|_| spin_loop());
            assert_eq!(connection.retire(), Some(Pressure::Ended));
            both.wait();
        }
    });
}
