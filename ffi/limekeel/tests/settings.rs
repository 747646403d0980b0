//! What a connection goes by, and what it shows.

use limekeel::{Change, Connection, Estimate, Marks};

#[test]
fn the_defaults_are_netty_s() {
    // WriteBufferWaterMark.DEFAULT, CHANNEL_OUTBOUND_BUFFER_ENTRY_OVERHEAD and the unknown size of DefaultMessageSizeEstimator
    assert_eq!(Marks::default(), Marks { low: 32768, high: 65536 });
    assert_eq!(Estimate::default(), Estimate { overhead: 96, unknown: 8 });
    let connection = Connection::open(Marks::default(), Estimate::default()).expect("there is memory");
    assert_eq!((connection.marks(), connection.estimate()), (Marks::default(), Estimate::default()));
}

#[test]
fn each_look_shows_its_own() {
    let mut connection =
        Connection::open(Marks { low: 5, high: 300 }, Estimate { overhead: 7, unknown: 90 }).expect("there is memory");
    assert_eq!(connection.estimate(), Estimate { overhead: 7, unknown: 90 });
    for _ in 0..3 {
        let _ = connection.write(b"four").expect("it is accepted");
    }
    let _ = connection.write_region(50).expect("it is accepted");
    let _ = connection.flush().expect("it is open");
    let _ = connection.write_other(3).expect("it is accepted");
    let _ = connection.take_sent(12).expect("they wait");
    connection.progress(20).expect("a region is in front");
    let look = connection.look();
    // the region counts its overhead alone, and the other 90 besides
    assert_eq!((look.total, look.size, look.current_progress), (7 + 97, 1, 20));
    assert_eq!((look.before_unwritable, look.before_writable, look.word), (300 - 104 + 1, 0, 0));
    assert_eq!(connection.user_bit(3, false), Ok(Some(Change::Unwritable)));
    assert_eq!((connection.look().word, connection.is_writable()), (8, false));
    assert_eq!(connection.user_bit(3, true), Ok(Some(Change::Writable)));
    assert!(connection.is_writable());
}
