//! A connection that threads share within a budget.

use limekeel::BudgetedConnection;
use limekeel::{Block, Bounds, Budget, Estimate, Marks, Moment, Pressure, Refusal, SharedConnection, Transport};
use std::sync::atomic::{AtomicBool, Ordering};
use std::sync::mpsc::channel;
use std::thread;
use std::time::Duration;

const ESTIMATE: Estimate = Estimate { overhead: 96, unknown: 8 };
/// How many messages each writer writes.
const MESSAGES: u32 = 3000;

fn budget(quantum: u64) -> Budget {
    Budget::open(Bounds { room: 1000, low: 200, high: 800 }, quantum).expect("there is memory")
}

fn within(budget: &Budget) -> (SharedConnection, Transport) {
    SharedConnection::within(budget, Marks { low: 5000, high: 9000 }, ESTIMATE).expect("there is memory")
}

/// Does this in a thread of its own, for half a minute at most.
fn watched(test: impl FnOnce() + Send + 'static) {
    let (done, ends) = channel();
    let runs = thread::spawn(move || {
        test();
        let _ = done.send(());
    });
    if ends.recv_timeout(Duration::from_secs(30)) == Err(std::sync::mpsc::RecvTimeoutError::Timeout) {
        panic!("it hangs");
    }
    if let Err(fault) = runs.join() {
        std::panic::resume_unwind(fault);
    }
}

#[test]
fn each_kind_of_write_takes_what_it_counts() {
    let budget = budget(0);
    let (connection, mut transport) = within(&budget);
    let block = Block::new(b"four").expect("there is memory");
    let _ = connection.write(b"four").expect("there is room");
    let _ = connection.write_block(&block).expect("there is room");
    let _ = connection.write_static(b"four").expect("there is room");
    let _ = connection.write_owned(*b"four").expect("there is room");
    let _ = connection.write_region(5).expect("there is room");
    let _ = connection.write_other(7).expect("there is room");
    assert_eq!(budget.look().total, 600);
    assert_eq!(connection.write_block_and_flush(&block).expect("there is room").flushed.count, 7);
    assert_eq!(connection.write_and_flush(b"four").expect("there is room").flushed.count, 1);
    assert!(!budget.is_pressed());
    let _ = connection.write_and_flush(b"four").expect("there is room");
    assert!(budget.is_pressed());
    assert_eq!(connection.write(&[0; 200]), Err(Refusal::OverBudget));
    let refused = connection.write_owned(vec![1; 200]).expect_err("there is no room");
    assert_eq!((refused.refusal, refused.owner), (Refusal::OverBudget, vec![1; 200]));
    let _ = transport.take_sent(8).expect("as many are in front");
    assert_eq!(budget.look().total, 700, "what is spare went back");
    let _ = transport.give_up(7).expect("it is open");
    assert_eq!(budget.look().total, 0);
    assert_eq!(connection.write(b"four"), Err(Refusal::Closed));
}

#[test]
fn an_idle_connection_gives_back_its_quantum() {
    let budget = budget(300);
    let (connection, mut transport) = within(&budget);
    let _ = connection.write_and_flush(b"four").expect("there is room");
    assert_eq!((budget.look().total, connection.held()), (300, Some(300)));
    connection.rest();
    assert_eq!((budget.look().total, connection.held()), (100, Some(100)));
    assert!(transport.remove().expect("it is open").any);
    transport.rest();
    assert_eq!(budget.look().total, 0);
}

#[test]
fn a_connection_within_no_budget_holds_nothing_of_one() {
    let (connection, _transport) =
        SharedConnection::open(Marks { low: 5000, high: 9000 }, ESTIMATE).expect("there is memory");
    let _ = connection.write(b"four").expect("there is room");
    assert_eq!(connection.held(), None);
}

#[test]
fn the_last_one_gives_all_back_and_wakes_who_waits() {
    watched(|| {
        let budget = budget(0);
        let (connection, transport) = within(&budget);
        let _ = connection.write_and_flush(&[0; 804]).expect("there is room");
        let clone = connection.clone();
        drop(connection);
        drop(transport);
        assert_eq!(budget.look().total, 900);
        let other = budget.share().expect("there is memory");
        let waits = thread::spawn(move || other.wait_while_pressed());
        thread::sleep(Duration::from_millis(60));
        assert!(!waits.is_finished());
        drop(clone);
        waits.join().expect("it goes on");
        assert_eq!(budget.look().total, 0);
    });
}

#[test]
fn a_connection_of_one_thread_shares_the_room() {
    let budget = budget(0);
    let (connection, mut transport) = within(&budget);
    let marks = Marks { low: 5000, high: 9000 };
    let mut other = BudgetedConnection::within(&budget, marks, ESTIMATE).expect("there is memory");
    let _ = connection.write_and_flush(&[0; 804]).expect("there is room");
    assert_eq!(other.write(&[0; 104]).answer, Err(Refusal::OverBudget));
    let _ = transport.fail_flushed(1, true).expect("it is open");
    let told = other.write(&[0; 804]);
    assert!(told.answer.is_ok());
    assert_eq!(told.pressure, Some(Pressure::Began));
}

/// What the first writer writes fills the room: one after the other, none of these threads would make any.
#[test]
fn threads_of_two_connections_stay_within_one_room() {
    watched(|| {
        let budget = budget(0);
        let ended = AtomicBool::new(false);
        thread::scope(|scope| {
            for _ in 0..2 {
                let (connection, mut transport) = within(&budget);
                for _ in 0..2 {
                    let writer = connection.clone();
                    let budget = budget.share().expect("there is memory");
                    scope.spawn(move || {
                        let mut left = MESSAGES;
                        while left > 0 {
                            match writer.write_and_flush(b"four") {
                                Ok(_) => left -= 1,
                                Err(refusal) => {
                                    assert_eq!(refusal, Refusal::OverBudget);
                                    budget.wait_while_pressed();
                                    thread::yield_now();
                                }
                            }
                        }
                    });
                }
                drop(connection);
                let ended = &ended;
                scope.spawn(move || {
                    let mut sink = Vec::new();
                    while transport.wait_for_work() == Moment::Ready {
                        let _ = transport.send_to(&mut sink).expect("it takes all");
                    }
                    assert_eq!(sink.len(), 2 * MESSAGES as usize * 4);
                    ended.store(true, Ordering::SeqCst);
                });
            }
            let budget = budget.share().expect("there is memory");
            scope.spawn(|| {
                let budget = budget;
                while !ended.load(Ordering::SeqCst) {
                    assert!(budget.look().total <= 1000);
                    thread::yield_now();
                }
            });
        });
        let look = budget.look();
        assert_eq!((look.total, look.is_pressed), (0, false));
    });
}
