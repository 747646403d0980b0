//! What messages of a managed connection, and of one within a budget, are lent: it goes as its message is told as gone, and not
//! before. `lent.rs` has the same of a connection.

use limekeel::{Bounds, Budget, BudgetedConnection, Estimate, Limits, ManagedConnection, Marks, Pressure, Refusal};
use std::io::Write;
use std::sync::{Arc, Mutex};

/// The names of the owners that were dropped, in order.
type Dropped = Arc<Mutex<Vec<u64>>>;

/// Four bytes that tell when they are dropped, in the owner itself.
struct Watched {
    bytes: [u8; 4],
    name: u64,
    dropped: Dropped,
}

impl AsRef<[u8]> for Watched {
    fn as_ref(&self) -> &[u8] {
        &self.bytes
    }
}

impl Drop for Watched {
    fn drop(&mut self) {
        self.bytes = [0xee; 4];
        self.dropped.lock().expect("nobody panicked").push(self.name);
    }
}

fn watched(name: u64, dropped: &Dropped) -> Watched {
    Watched { bytes: [b'0' + name as u8; 4], name, dropped: dropped.clone() }
}

/// The names that were dropped since the last time.
fn names(dropped: &Dropped) -> Vec<u64> {
    std::mem::take(&mut dropped.lock().expect("nobody panicked"))
}

fn managed() -> ManagedConnection {
    let limits = Limits { most_pending: 1199, window: 10, least_bytes: 1 };
    ManagedConnection::open(Marks::default(), Estimate::default(), limits, 0).expect("there is memory")
}

fn within(budget: &Budget) -> BudgetedConnection {
    BudgetedConnection::within(budget, Marks::default(), Estimate::default()).expect("there is memory")
}

fn budget() -> Budget {
    Budget::open(Bounds { room: 1199, low: 200, high: 900 }, 0).expect("there is memory")
}

#[test]
fn of_a_managed_one() {
    let (mut connection, dropped) = (managed(), Dropped::default());
    for name in 0..9 {
        assert_eq!(connection.write_owned(watched(name, &dropped)).expect("there is room").id, name);
    }
    // a list, and a message that is made in place, among them
    assert_eq!(connection.write_owned(vec![b'9'; 4]).expect("there is room").id, 9);
    let mut room = connection.reserve(9).expect("there is memory");
    write!(room, "{}", 1010).expect("it has room");
    assert_eq!((&*room, room.left()), (&b"1010"[..], 5));
    assert_eq!(room.write_message().expect("there is room").id, 10);
    let refused = connection.write_owned(watched(11, &dropped)).expect_err("above its limit");
    assert_eq!((refused.refusal, refused.owner.name, names(&dropped)), (Refusal::Full, 11, vec![]));
    drop(refused);
    assert!(connection.cancel(2).expect("it waits").answer);
    let _ = connection.flush().expect("it is open");
    assert_eq!(names(&dropped), [11]);
    assert!(connection.remove().expect("it is open").answer.any);
    assert!(connection.remove_with(7).expect("it is open").answer.any);
    assert_eq!(names(&dropped), [0, 1]);
    // cancelled: no promise is told, and its message is gone all the same
    assert_eq!(connection.remove().expect("it is open").answer.settled, None);
    assert_eq!(names(&dropped), [2]);
    assert_eq!(connection.take_sent(7).expect("they wait").answer.promises, 3..4);
    assert_eq!(names(&dropped), [3]);
    let mut socket = [0; 6];
    let sent = connection.send_to(&mut &mut socket[..]).expect("it takes some").answer;
    assert_eq!((sent.bytes, &socket, names(&dropped)), (6, b"455556", vec![4, 5]));
    let mut socket = Vec::new();
    let sent = connection.send_until_blocked(&mut socket, 9).expect("it is open").answer;
    assert_eq!((sent.bytes, socket), (19, b"6667777888899991010".to_vec()));
    assert_eq!(names(&dropped), [6, 7, 8]);
    let _ = connection.write_owned(watched(12, &dropped)).expect("there is room");
    let _ = connection.flush().expect("it is open");
    let _ = connection.fail_flushed(7, true).expect("it is open");
    let _ = connection.write_owned(watched(13, &dropped)).expect("there is room");
    assert_eq!(names(&dropped), [12]);
    let _ = connection.close(7).expect("nothing is flushed");
    assert_eq!(names(&dropped), [13]);
    assert_eq!(connection.write_owned(vec![1]).expect_err("it is closed").owner, [1]);
}

#[test]
fn of_one_within_a_budget() {
    let (budget, dropped) = (budget(), Dropped::default());
    let mut connection = within(&budget);
    for name in 0..9 {
        let told = connection.write_owned(watched(name, &dropped));
        assert_eq!((told.answer.expect("there is room").id, told.pressure), (name, None));
    }
    let told = connection.write_owned(vec![b'9'; 4]);
    assert_eq!((told.answer.expect("there is room").id, told.pressure), (9, Some(Pressure::Began)));
    let mut room = connection.reserve(9).expect("there is memory");
    write!(room, "{}", 1010).expect("it has room");
    let told = room.write_message();
    assert_eq!((told.answer.expect("there is room").id, told.pressure), (10, None));
    let mut room = connection.reserve(100).expect("there is memory");
    room.write_all(&[0; 100]).expect("it has room");
    assert_eq!(room.write_message().answer, Err(Refusal::OverBudget));
    let refused = connection.write_owned(watched(11, &dropped)).answer.expect_err("above the budget");
    assert_eq!((refused.refusal, refused.owner.name, names(&dropped)), (Refusal::OverBudget, 11, vec![]));
    drop(refused);
    assert_eq!(connection.cancel(2).answer, Ok(true));
    let _ = connection.flush().answer.expect("it is open");
    assert_eq!(names(&dropped), [11]);
    assert!(connection.remove().answer.expect("it is open").any);
    assert!(connection.remove_with(7).answer.expect("it is open").any);
    assert!(connection.remove().answer.expect("it is open").any);
    assert_eq!(names(&dropped), [0, 1, 2]);
    assert_eq!(connection.take_sent(7).answer.expect("they wait").promises, 3..4);
    assert_eq!(names(&dropped), [3]);
    let mut socket = [0; 6];
    let sent = connection.send_to(&mut &mut socket[..]).answer.expect("it takes some");
    assert_eq!((sent.bytes, &socket, names(&dropped)), (6, b"455556", vec![4, 5]));
    let mut socket = Vec::new();
    let told = connection.send_until_blocked(&mut socket, 9);
    assert_eq!((told.answer.expect("it is open").bytes, told.pressure), (19, Some(Pressure::Ended)));
    assert_eq!((socket, names(&dropped)), (b"6667777888899991010".to_vec(), vec![6, 7, 8]));
    let _ = connection.write_owned(watched(12, &dropped)).answer.expect("there is room");
    let _ = connection.flush().answer.expect("it is open");
    let _ = connection.fail_flushed(7, true).answer.expect("it is open");
    let _ = connection.write_owned(watched(13, &dropped)).answer.expect("there is room");
    assert_eq!(names(&dropped), [12]);
    let _ = connection.close(7).answer.expect("nothing is flushed");
    assert_eq!(names(&dropped), [13]);
}

#[test]
fn an_end_lets_all_go() {
    let (budget, dropped) = (budget(), Dropped::default());
    let (mut one, mut other, mut third) = (managed(), within(&budget), within(&budget));
    let _ = one.write_owned(watched(0, &dropped)).expect("there is room");
    let _ = one.give_up(7).expect("it is open");
    assert_eq!(names(&dropped), [0]);
    let _ = other.write_owned(watched(1, &dropped)).answer.expect("there is room");
    let _ = other.give_up(7).answer.expect("it is open");
    assert_eq!(names(&dropped), [1]);
    let _ = third.write_owned(watched(2, &dropped)).answer.expect("there is room");
    assert_eq!((third.retire(), names(&dropped)), (None, vec![2]));
    let mut last = managed();
    let _ = last.write_owned(watched(3, &dropped)).expect("there is room");
    drop(last);
    assert_eq!(names(&dropped), [3]);
}
