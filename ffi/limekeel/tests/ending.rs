//! A connection that is given up, and one that is idle.

use limekeel::{Change, Connection, Estimate, Marks, Outcome, Refusal};

fn open() -> Connection {
    Connection::open(Marks { low: 100, high: 200 }, Estimate::default()).expect("there is memory")
}

#[test]
fn a_connection_that_is_given_up_fails_all_and_is_closed() {
    let mut connection = open();
    let _ = connection.write(b"flushed").expect("it is accepted");
    let _ = connection.flush().expect("it is open");
    // 7 and 5 bytes, and 96 for each of the two messages
    let written = connection.write(b"not so").expect("it is accepted");
    assert_eq!((written.change, connection.look().total), (Some(Change::Unwritable), 205));
    let taken = connection.give_up(7).expect("it is open");
    assert_eq!((taken.promises.clone(), taken.count, taken.change), (0..2, 2, None));
    assert_eq!(taken.settled().collect::<Vec<_>>(), [(0, Outcome::Failed(7)), (1, Outcome::Failed(7))]);
    assert_eq!((connection.look().total, connection.is_writable(), connection.is_closed()), (0, false, true));
    assert_eq!(connection.give_up(7), Err(Refusal::Closed));
}

#[test]
fn it_is_empty_if_nothing_is_flushed() {
    let mut connection = open();
    assert!(connection.is_empty());
    let _ = connection.write(b"waits").expect("it is accepted");
    assert!(connection.is_empty());
    let _ = connection.flush().expect("it is open");
    assert!(!connection.is_empty());
    let _ = connection.take_sent(5).expect("they wait");
    assert!(connection.is_empty());
}

#[test]
fn asking_ahead_changes_nothing_that_shows() {
    let mut connection = open();
    connection.ask_ahead();
    for id in 0..1000 {
        assert_eq!(connection.write(b"some").expect("it is accepted").id, id);
        let before = (connection.look(), connection.front(), connection.current());
        connection.ask_ahead();
        assert_eq!((connection.look(), connection.front(), connection.current()), before);
    }
    let _ = connection.flush().expect("it is open");
    assert_eq!(connection.take_sent(4000).expect("they wait").promises, 0..1000);
    connection.ask_ahead();
    let _ = connection.close(1).expect("nothing is flushed");
    connection.ask_ahead();
    assert_eq!(connection.write(b"more"), Err(Refusal::Closed));
}

#[test]
fn shrinking_changes_nothing_that_shows() {
    let mut connection = open();
    for _ in 0..1000 {
        let _ = connection.write(b"some").expect("it is accepted");
    }
    let _ = connection.flush().expect("it is open");
    let _ = connection.take_sent(998 * 4).expect("they wait");
    assert_eq!(connection.cancel(999), Ok(false));
    let before = (connection.look(), connection.front(), connection.current());
    connection.shrink_to_fit();
    assert_eq!((connection.look(), connection.front(), connection.current()), before);
    let pieces = connection.pieces::<4>(u32::MAX);
    assert_eq!(pieces.iter().map(|piece| &piece[..]).collect::<Vec<_>>(), [b"some", b"some"]);
    let _ = connection.take_sent(8).expect("they wait");
    connection.shrink_to_fit();
    assert_eq!(connection.write(b"more").expect("it is accepted").id, 1000);
}
