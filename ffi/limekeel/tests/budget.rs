//! A budget and the connections that it covers: pressure that is told once each way, the room that no write passes, and threads.

use limekeel::{
    Block, Bounds, Budget, BudgetLook, BudgetedConnection, Change, Current, Ending, Estimate, Marks, Outcome, Pressure,
    Promise, Refusal,
};
use std::sync::Barrier;
use std::thread;

const BOUNDS: Bounds = Bounds { room: 1000, low: 200, high: 800 };

fn open(bounds: Bounds, quantum: u64) -> Budget {
    Budget::open(bounds, quantum).expect("there is memory")
}

fn within(budget: &Budget) -> BudgetedConnection {
    let marks = Marks { low: 5000, high: 9000 };
    BudgetedConnection::within(budget, marks, Estimate::default()).expect("there is memory")
}

/// Writes a block that counts 100.
fn write(connection: &mut BudgetedConnection) -> Result<Option<Pressure>, Refusal> {
    let told = connection.write(b"four");
    told.answer.map(|_| told.pressure)
}

#[test]
fn pressure_is_told_as_it_begins_and_as_it_ends() {
    let budget = open(BOUNDS, 0);
    let (mut slow, mut fast) = (within(&budget), within(&budget));
    for count in 1..=10 {
        assert_eq!(write(&mut slow), Ok((count == 9).then_some(Pressure::Began)), "write {count}");
        slow.ask_ahead();
        let seen = BudgetLook { total: count * 100, is_pressed: count >= 9 };
        assert_eq!((budget.look(), fast.look_at_budget(), slow.held()), (seen, seen, seen.total));
    }
    let block = Block::new(b"four").expect("there is memory");
    assert_eq!(write(&mut fast), Err(Refusal::OverBudget));
    assert_eq!(fast.write_block(&block).answer, Err(Refusal::OverBudget));
    assert_eq!(fast.write_static(b"four").answer, Err(Refusal::OverBudget));
    assert_eq!(fast.write_region(1).answer, Err(Refusal::OverBudget));
    assert_eq!(fast.write_other(1).answer, Err(Refusal::OverBudget));
    assert_eq!((fast.look().total, fast.held()), (0, 0));
    assert_eq!(slow.flush().answer.expect("it is open").count, 10);
    let told = slow.take_sent(32);
    assert_eq!((told.answer.expect("they wait").promises, told.pressure), (0..8, None));
    let told = slow.remove();
    assert_eq!(told.answer.expect("it is open").settled, Some((8, Outcome::Success)));
    assert_eq!((told.pressure, budget.is_pressed()), (Some(Pressure::Ended), false));
    assert_eq!(write(&mut fast), Ok(None), "what one gives back another may take");
    assert_eq!(Refusal::OverBudget.to_string(), "the budget has no room for the message");
}

#[test]
fn cover_is_there_for_the_write_that_it_was_asked_for() {
    let budget = open(BOUNDS, 0);
    let (mut one, mut other) = (within(&budget), within(&budget));
    assert_eq!((one.cover(100).answer, write(&mut one), budget.look().total), (Ok(()), Ok(None), 100));
    let told = one.cover(800);
    assert_eq!((told.answer, told.pressure, one.held()), (Ok(()), Some(Pressure::Began), 900));
    let told = other.cover(101);
    assert_eq!((told.answer, told.pressure, other.held()), (Err(Refusal::OverBudget), None, 0));
    // what no write used goes back
    let told = one.flush();
    assert_eq!((told.pressure, one.held(), budget.is_pressed()), (Some(Pressure::Ended), 100, false));
}

#[test]
fn bounds_are_refused() {
    let crossed = Budget::open(Bounds { room: 10, low: 3, high: 2 }, 0);
    let too_much = Budget::open(Bounds { room: 1 << 62, low: 2, high: 3 }, 0);
    assert_eq!((crossed.err(), too_much.err()), (Some(Refusal::BadBounds), Some(Refusal::BadBounds)));
    let bad = BudgetedConnection::within(&open(BOUNDS, 0), Marks { low: 2, high: 1 }, Estimate::default());
    assert_eq!(bad.err(), Some(Refusal::BadMarks));
}

#[test]
fn what_is_spare_goes_back() {
    let budget = open(Bounds { room: 1000, low: 200, high: 400 }, 250);
    let mut connection = within(&budget);
    let held = [250, 250, 500, 500, 500];
    for (at, held) in held.into_iter().enumerate() {
        assert_eq!(write(&mut connection), Ok((at == 2).then_some(Pressure::Began)));
        assert_eq!(connection.held(), held);
    }
    let _ = connection.flush().answer.expect("it is open");
    let sent = connection.send_to(&mut Vec::new());
    assert_eq!(sent.answer.expect("it takes all").taken.promises, 0..5);
    assert_eq!((sent.pressure, budget.look().total), (None, 500), "two quanta may stay");
    assert_eq!((connection.rest(), budget.look().total), (Some(Pressure::Ended), 0));
    assert_eq!(connection.write(&[0; 500]).pressure, Some(Pressure::Began));
    assert_eq!(connection.retire(), Some(Pressure::Ended));
    let mut another = within(&budget);
    let _ = another.write(&[0; 500]).answer.expect("there is room");
    drop(another);
    assert_eq!(budget.look(), BudgetLook { total: 0, is_pressed: false });
}

#[test]
fn commands_return_what_those_of_a_connection_do() {
    let budget = open(Bounds { room: 100_000, low: 1, high: 50_000 }, 0);
    let mut connection = within(&budget);
    let _ = connection.write_region(50).answer.expect("there is room");
    let _ = connection.write_other(5).answer.expect("there is room");
    let _ = connection.write_static(b"lent").answer.expect("there is room");
    let _ = write(&mut connection).expect("there is room");
    assert_eq!(connection.cancel(2).answer, Ok(true));
    assert_eq!(connection.cancel(9).answer, Err(Refusal::UnknownPromise));
    assert_eq!(connection.promise(2), Some(Promise::Settled(Outcome::Cancelled)));
    assert_eq!(connection.flush().answer.expect("it is open").count, 4);
    assert_eq!(connection.progress(20).answer, Ok(()));
    assert_eq!((connection.front(), connection.current()), (Some(0), Some(Current::Region(30))));
    let failed = connection.remove_with(7).answer.expect("it is open");
    assert_eq!(failed.settled, Some((0, Outcome::Failed(7))));
    assert_eq!(connection.remove().answer.expect("it is open").settled, Some((1, Outcome::Success)));
    assert_eq!(connection.pieces::<4>(u32::MAX).len(), 1);
    assert_eq!(connection.user_bit(3, false).answer, Ok(Some(Change::Unwritable)));
    assert!(!connection.is_writable() && !connection.is_empty() && !connection.is_closed());
    assert_eq!(connection.set_marks(Marks { low: 2, high: 1 }).answer, Err(Refusal::BadMarks));
    assert_eq!(connection.set_marks(Marks { low: 1, high: 2 }).answer, Ok(()));
    let mut socket = Vec::new();
    let sent = connection.send_until_blocked(&mut socket, 4).answer.expect("it is open");
    assert!(matches!(sent.ending, Ending::Drained));
    assert_eq!(socket, b"four");
    assert_eq!(
        sent.taken.settled().collect::<Vec<_>>(),
        [(3, Outcome::Success)],
        "the cancelled one was settled before"
    );
    let _ = write(&mut connection).expect("there is room");
    let _ = connection.flush().answer.expect("it is open");
    assert_eq!(connection.close(1).answer, Err(Refusal::FlushedLeft));
    assert_eq!(connection.fail_flushed(3, true).answer.expect("it is open").count, 1);
    assert_eq!(connection.close(1).answer.expect("nothing is flushed").count, 0);
    assert_eq!(connection.give_up(1).answer, Err(Refusal::Closed));
    assert_eq!(write(&mut connection), Err(Refusal::Closed));
}

/// What one thread counted of pressure, as it began and as it ended.
fn works(budget: &Budget, start: &Barrier) -> (u64, u64) {
    let mut connection = within(budget);
    let (mut began, mut ended) = (0, 0);
    let mut counts = |pressure| match pressure {
        Some(Pressure::Began) => began += 1,
        Some(Pressure::Ended) => ended += 1,
        None => {}
    };
    start.wait();
    for round in 0..20_000 {
        let told = connection.write(b"four");
        counts(told.pressure);
        assert!(matches!(told.answer, Ok(_) | Err(Refusal::OverBudget | Refusal::Busy)), "{told:?}");
        assert!(budget.look().total <= BOUNDS.room && connection.held() >= u64::from(connection.look().total));
        if told.answer.is_err() || round % 9 == 8 {
            counts(connection.flush().pressure);
            counts(connection.fail_flushed(1, true).pressure);
        }
    }
    counts(connection.retire());
    (began, ended)
}

#[test]
fn threads_never_hold_more_than_the_room() {
    let budget = open(Bounds { room: 1000, low: 300, high: 700 }, 0);
    let start = Barrier::new(4);
    let counted: Vec<(u64, u64)> = thread::scope(|scope| {
        let workers: Vec<_> = (0..4)
            .map(|at| {
                // two have handles of their own, and two one that a mutex guards
                let own = if at < 2 { budget.share().expect("there is memory") } else { budget.clone() };
                let start = &start;
                scope.spawn(move || works(&own, start))
            })
            .collect();
        workers.into_iter().map(|worker| worker.join().expect("it does not panic")).collect()
    });
    let (began, ended) = counted.iter().fold((0, 0), |all, one| (all.0 + one.0, all.1 + one.1));
    assert!(began > 0);
    assert_eq!((began, budget.look()), (ended, BudgetLook { total: 0, is_pressed: false }));
}
