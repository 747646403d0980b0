//! Memory that messages are lent: it lies where it was, and goes as its message is told as gone, and not before.

use limekeel::{Block, Connection, Ending, Estimate, Marks, Outcome, Refusal};
use std::collections::VecDeque;
use std::io::{self, ErrorKind, IoSlice, Write};
use std::panic::{AssertUnwindSafe, catch_unwind};
use std::sync::{Arc, Mutex};
use std::thread;

/// The names of the owners that were dropped, in order.
type Dropped = Arc<Mutex<Vec<u64>>>;

/// Bytes that tell when they are dropped. They lie in the owner itself, so that they would move with it.
struct Watched<const LENGTH: usize> {
    bytes: [u8; LENGTH],
    name: u64,
    dropped: Dropped,
}

impl<const LENGTH: usize> Watched<LENGTH> {
    fn new(name: u64, dropped: &Dropped) -> Watched<LENGTH> {
        Watched { bytes: [name as u8; LENGTH], name, dropped: dropped.clone() }
    }
}

impl<const LENGTH: usize> AsRef<[u8]> for Watched<LENGTH> {
    fn as_ref(&self) -> &[u8] {
        &self.bytes
    }
}

impl<const LENGTH: usize> Drop for Watched<LENGTH> {
    fn drop(&mut self) {
        self.bytes = [0xee; LENGTH];
        self.dropped.lock().expect("nobody panicked").push(self.name);
    }
}

/// How many bytes an owner has that is kept in place, and how many one that has memory of its own.
const SMALL: usize = 16;
const LARGE: usize = 24;

fn connection() -> Connection {
    Connection::open(Marks::default(), Estimate::default()).expect("there is memory")
}

/// Writes the bytes of a watched owner that is named after the promise.
fn write_watched(connection: &mut Connection, name: u64, dropped: &Dropped) {
    let owner = Watched::<LARGE>::new(name, dropped);
    assert_eq!(connection.write_owned(owner).expect("it is accepted").id, name);
}

/// The names that were dropped since the last time.
fn names(dropped: &Dropped) -> Vec<u64> {
    std::mem::take(&mut dropped.lock().expect("nobody panicked"))
}

#[test]
fn an_owner_goes_with_the_call_that_tells_its_message() {
    let (mut connection, dropped) = (connection(), Dropped::default());
    for name in 0..20 {
        write_watched(&mut connection, name, &dropped);
    }
    assert_eq!(connection.cancel(3), Ok(true));
    assert_eq!(connection.cancel(6), Ok(true));
    let _ = connection.flush().expect("it is open");
    assert_eq!(names(&dropped), []);
    let _ = connection.take_sent(24 + 23).expect("they wait");
    assert_eq!(names(&dropped), [0]);
    assert_eq!(connection.remove().expect("it is open").settled, Some((1, Outcome::Success)));
    assert_eq!(names(&dropped), [1]);
    assert_eq!(connection.remove_with(4).expect("it is open").settled, Some((2, Outcome::Failed(4))));
    assert_eq!(names(&dropped), [2]);
    // cancelled: no promise is told, and its message is gone all the same
    assert_eq!(connection.remove().expect("it is open").settled, None);
    assert_eq!(names(&dropped), [3]);
    assert_eq!(connection.take_sent(9999), Err(Refusal::TooManyBytes));
    assert_eq!(names(&dropped), []);
    let mut room = [0; 60];
    assert_eq!(connection.send_to(&mut &mut room[..]).expect("it takes").bytes, 60);
    assert_eq!((names(&dropped), room[..25].to_vec()), (vec![4, 5, 6], [vec![4; 24], vec![5]].concat()));
    let sent = connection.send_until_blocked(&mut &mut room[..13], 1).expect("it is open");
    assert_eq!((sent.bytes, names(&dropped)), (13, vec![7]));
    assert_eq!(connection.fail_flushed(1, true).expect("it is open").promises, 8..20);
    assert_eq!(names(&dropped), (8..20).collect::<Vec<_>>());
    assert!(!connection.remove().expect("it is open").any);
    write_watched(&mut connection, 20, &dropped);
    assert_eq!(names(&dropped), []);
    let _ = connection.close(1).expect("nothing is flushed");
    assert_eq!(names(&dropped), [20]);
}

#[test]
fn an_end_lets_all_go() {
    let dropped = Dropped::default();
    let mut given_up = connection();
    write_watched(&mut given_up, 0, &dropped);
    let _ = given_up.flush().expect("it is open");
    write_watched(&mut given_up, 1, &dropped);
    let _ = given_up.give_up(1).expect("it is open");
    assert_eq!(names(&dropped), [0, 1]);
    let mut ended = connection();
    write_watched(&mut ended, 0, &dropped);
    assert_eq!(names(&dropped), []);
    drop(ended);
    assert_eq!(names(&dropped), [0]);
}

#[test]
fn a_refused_owner_comes_back() {
    let (mut connection, dropped) = (connection(), Dropped::default());
    let _ = connection.close(1).expect("nothing is flushed");
    let refused = connection.write_owned(Watched::<SMALL>::new(8, &dropped)).expect_err("it is closed");
    assert_eq!((refused.refusal, refused.owner.bytes, names(&dropped)), (Refusal::Closed, [8; SMALL], vec![]));
    drop(refused);
    assert_eq!(names(&dropped), [8]);
    let refused = connection.write_owned(Watched::<LARGE>::new(9, &dropped)).expect_err("it is closed");
    assert_eq!((refused.refusal, refused.owner.bytes, names(&dropped)), (Refusal::Closed, [9; LARGE], vec![]));
    assert_eq!(refused.to_string(), "the connection is closed");
    assert!(format!("{refused:?}").contains("Closed"));
    assert_eq!(Refusal::from(refused), Refusal::Closed);
    assert_eq!(names(&dropped), [9]);
    assert_eq!(connection.write_static(b"no"), Err(Refusal::Closed));
    let mut room = connection.reserve(5).expect("there is memory");
    room.write_all(b"no").expect("it has room");
    assert_eq!(room.write_message(), Err(Refusal::Closed));
}

#[test]
fn nothing_is_copied() {
    static FOREVER: [u8; 5000] = [5; 5000];
    let mut connection = connection();
    let lists: Vec<Vec<u8>> = (0..40).map(|byte| vec![byte; 3000]).collect();
    let at: Vec<*const u8> = lists.iter().map(|list| list.as_ptr()).collect();
    let _ = connection.write_static(&FOREVER).expect("it is accepted");
    for list in lists {
        let _ = connection.write_owned(list).expect("it is accepted");
    }
    let _ = connection.write_owned("text").expect("it is accepted");
    let _ = connection.write_owned(Arc::<[u8]>::from([1, 2])).expect("it is accepted");
    assert_eq!(connection.look().total, 5000 + 40 * 3000 + 4 + 2 + 43 * 96);
    let _ = connection.flush().expect("it is open");
    let pieces = connection.pieces::<64>(u32::MAX);
    assert_eq!(pieces.len(), 43);
    assert_eq!(pieces[0].as_ptr(), FOREVER.as_ptr());
    assert!(pieces[1..41].iter().map(|piece| piece.as_ptr()).eq(at));
    assert_eq!((&pieces[41][..], &pieces[42][..]), (&b"text"[..], &[1, 2][..]));
}

/// Bytes that want to lie at a multiple of 32.
#[repr(align(32))]
struct Aligned([u8; 32]);

impl AsRef<[u8]> for Aligned {
    fn as_ref(&self) -> &[u8] {
        assert_eq!(self.0.as_ptr().align_offset(32), 0);
        &self.0
    }
}

#[test]
fn small_owners_stay_where_they_are() {
    let mut connection = connection();
    for number in 0..500u16 {
        let _ = connection.write_owned([number as u8; 7]).expect("it is accepted");
        let _ = connection.write_owned(Aligned([number as u8; 32])).expect("it is accepted");
    }
    let _ = connection.flush().expect("it is open");
    let lie_at: Vec<*const u8> = connection.pieces::<64>(u32::MAX).iter().map(|piece| piece.as_ptr()).collect();
    // the first goes, and more than there was room for come
    let _ = connection.take_sent(7).expect("it waits");
    for _ in 0..5000 {
        let _ = connection.write_owned(*b"more").expect("it is accepted");
    }
    let pieces = connection.pieces::<63>(u32::MAX);
    assert!(pieces.iter().map(|piece| piece.as_ptr()).eq(lie_at[1..].iter().copied()));
    let mut socket = Vec::new();
    while connection.send_to(&mut socket).expect("it takes").more {}
    let mut wanted: Vec<u8> = (0..500u16).flat_map(|number| [number as u8; 39]).collect();
    assert_eq!(socket, wanted.split_off(7));
}

/// An owner whose bytes cannot be had.
struct Broken {
    _watched: Watched<8>,
}

impl AsRef<[u8]> for Broken {
    fn as_ref(&self) -> &[u8] {
        panic!("it has none");
    }
}

#[test]
fn an_owner_that_panics_is_dropped() {
    let (mut connection, dropped) = (connection(), Dropped::default());
    write_watched(&mut connection, 0, &dropped);
    let write = || connection.write_owned(Broken { _watched: Watched::new(7, &dropped) });
    assert!(catch_unwind(AssertUnwindSafe(write)).is_err());
    assert_eq!(names(&dropped), [7]);
    write_watched(&mut connection, 1, &dropped);
    let _ = connection.flush().expect("it is open");
    let _ = connection.take_sent(2 * LARGE as u64).expect("they wait");
    assert_eq!(names(&dropped), [0, 1]);
}

/// An owner that panics as it is dropped.
struct Loud(Watched<8>);

impl AsRef<[u8]> for Loud {
    fn as_ref(&self) -> &[u8] {
        self.0.as_ref()
    }
}

impl Drop for Loud {
    fn drop(&mut self) {
        panic!("it is dropped");
    }
}

/// A connection with 40 messages, all flushed, the one of the given name with an owner that panics as it is dropped.
fn with_loud(loud: u64, dropped: &Dropped) -> Connection {
    let mut connection = connection();
    for name in 0..40 {
        if name == loud {
            let owner = Loud(Watched::new(name, dropped));
            assert_eq!(connection.write_owned(owner).expect("it is accepted").id, name);
        } else {
            write_watched(&mut connection, name, dropped);
        }
    }
    let _ = connection.flush().expect("it is open");
    connection
}

/// The bytes of those messages.
const ALL: u64 = 39 * LARGE as u64 + 8;

#[test]
fn a_panic_as_an_owner_is_dropped_leaves_the_others() {
    // the first of all, the oldest and the last of a segment, one in the middle, and the newest
    for loud in [0, 1, 2, 9, 39] {
        let dropped = Dropped::default();
        let mut sends = with_loud(loud, &dropped);
        assert!(catch_unwind(AssertUnwindSafe(|| sends.take_sent(ALL))).is_err());
        assert_eq!(names(&dropped), (0..=loud).collect::<Vec<_>>());
        // they are gone, and dropped by the next call
        write_watched(&mut sends, 40, &dropped);
        let _ = sends.flush().expect("it is open");
        let _ = sends.take_sent(LARGE as u64).expect("it waits");
        assert_eq!(names(&dropped), (loud + 1..=40).collect::<Vec<_>>());
        let ends = with_loud(loud, &dropped);
        assert!(catch_unwind(AssertUnwindSafe(|| drop(ends))).is_err());
        assert_eq!(names(&dropped), (0..40).collect::<Vec<_>>());
    }
}

#[test]
fn a_panic_as_the_only_owner_is_dropped_leaves_room_for_the_next() {
    let (mut connection, dropped) = (connection(), Dropped::default());
    for name in 0..8 {
        let owner = Loud(Watched::new(name, &dropped));
        assert_eq!(connection.write_owned(owner).expect("it is accepted").id, name);
        let _ = connection.flush().expect("it is open");
        assert!(catch_unwind(AssertUnwindSafe(|| connection.take_sent(8))).is_err());
        assert_eq!(names(&dropped), [name]);
    }
    write_watched(&mut connection, 8, &dropped);
    let _ = connection.flush().expect("it is open");
    let _ = connection.take_sent(LARGE as u64).expect("it waits");
    assert_eq!(names(&dropped), [8]);
}

#[test]
fn what_is_made_has_no_more_than_it_asked_for() {
    let mut connection = connection();
    let mut room = connection.reserve(6).expect("there is memory");
    write!(room, "{}-{}", 12, 34).expect("it has room");
    assert_eq!((&room[..], room.left()), (&b"12-34"[..], 1));
    assert_eq!(room.write(b"ab").expect("no error"), 1);
    assert_eq!(room.write_all(b"c").expect_err("it is full").kind(), ErrorKind::WriteZero);
    assert_eq!(room.write_message().expect("it is accepted").id, 0);
    // a second in the same memory, and one that comes to nothing between
    let mut room = connection.reserve(1000).expect("there is memory");
    room.write_all(b"nothing").expect("it has room");
    drop(room);
    assert_eq!(connection.reserve(0).expect("there is memory").write_message().expect("it is accepted").id, 1);
    let mut room = connection.reserve(4).expect("there is memory");
    room.write_all(b"more").expect("it has room");
    assert_eq!(room.write_message().expect("it is accepted").id, 2);
    // the chunk of these has room for more than they ask for
    for (id, text) in [(3, "abc"), (4, "def")] {
        let mut room = connection.reserve(3).expect("there is memory");
        room.write_all(text.as_bytes()).expect("it has room");
        assert_eq!((room.write(b"z").expect("no error"), room.left()), (0, 0));
        assert_eq!(room.write_message().expect("it is accepted").id, id);
    }
    assert_eq!(connection.look().total, 6 + 4 + 3 + 3 + 5 * 96);
    let _ = connection.flush().expect("it is open");
    let mut socket = Vec::new();
    assert!(!connection.send_to(&mut socket).expect("it takes").more);
    assert_eq!(socket, b"12-34amoreabcdef");
}

#[test]
fn a_refused_message_leaves_the_others_where_they_are() {
    let mut connection = connection();
    let large: &'static [u8] = Box::leak(vec![0; 1 << 26].into_boxed_slice());
    let _ = connection.write_static(b"gone").expect("it is accepted");
    let mut room = connection.reserve(1000).expect("there is memory");
    room.write_all(&[7; 500]).expect("it has room");
    assert_eq!(room.write_message().expect("it is accepted").id, 1);
    for _ in 0..63 {
        let _ = connection.write_static(large).expect("it is accepted");
    }
    // 100 less than may be pending, so that no message goes along
    let left = u32::MAX - connection.look().total - 100;
    let _ = connection.write_static(&large[..left as usize]).expect("it is accepted");
    let mut room = connection.reserve(100).expect("there is memory");
    room.write_all(&[8; 100]).expect("it has room");
    assert_eq!(room.write_message(), Err(Refusal::TooMuch));
    let _ = connection.flush().expect("it is open");
    assert_eq!(connection.take_sent(4).expect("they wait").promises, 0..1);
    assert_eq!(connection.pieces::<1>(u32::MAX)[0][..], [7; 500]);
}

#[test]
fn small_messages_that_are_made_lie_together() {
    let mut connection = connection();
    let mut wanted = Vec::new();
    for number in 0..600u32 {
        let text = format!("message {number}\n");
        let mut room = connection.reserve(100).expect("there is memory");
        room.write_all(text.as_bytes()).expect("it has room");
        let _ = room.write_message().expect("it is accepted");
        wanted.extend_from_slice(text.as_bytes());
    }
    let _ = connection.flush().expect("it is open");
    let (mut socket, mut most) = (Vec::new(), 0);
    let sent = connection.send_with(|pieces| {
        most = pieces.len();
        socket.write_vectored(pieces)
    });
    assert_eq!(sent.expect("it takes").taken.count, 600);
    // 7 KB in the first of 100 bytes, and then chunks of 1, 2, 4 and 8 KiB
    assert!(most <= 6, "{most} pieces");
    assert_eq!(socket, wanted);
}

/// A writer that does the next of its steps: it takes so many bytes, or fails.
struct Steps(VecDeque<Result<usize, ErrorKind>>, Vec<u8>);

impl Write for Steps {
    fn write(&mut self, _: &[u8]) -> io::Result<usize> {
        unreachable!("a vectored write is asked for")
    }

    fn write_vectored(&mut self, pieces: &[IoSlice<'_>]) -> io::Result<usize> {
        let given: Vec<u8> = pieces.iter().flat_map(|piece| piece.iter().copied()).collect();
        let count = self.0.pop_front().expect("a step for each write").map_err(io::Error::from)?;
        self.1.extend(&given[..count.min(given.len())]);
        Ok(count.min(given.len()))
    }

    fn flush(&mut self) -> io::Result<()> {
        Ok(())
    }
}

fn ending_of(ending: &Ending) -> String {
    match ending {
        Ending::Broken(error) => format!("{:?}", error.kind()),
        other => format!("{other:?}"),
    }
}

#[test]
fn sendings_end_as_they_say() {
    // by hand: ten messages of one byte wait, of which the fourth is cancelled, and behind them a region
    type Case<'a> = (&'a [Result<usize, ErrorKind>], u32, &'a str, u64, u64);
    let cases: [Case<'_>; 8] = [
        (&[Ok(9)], 9, "OtherInFront", 9, 10),
        (&[Ok(2), Ok(2), Ok(5)], 9, "OtherInFront", 9, 10),
        (&[Ok(2), Err(ErrorKind::WouldBlock)], 9, "Blocked", 2, 2),
        (&[Err(ErrorKind::WouldBlock)], 0, "Blocked", 0, 0),
        // with the third byte the message that was cancelled goes too
        (&[Ok(1), Ok(2)], 2, "TurnsUsed", 3, 4),
        (&[Ok(1)], 0, "TurnsUsed", 1, 1),
        (&[Ok(1), Err(ErrorKind::Interrupted), Ok(1), Err(ErrorKind::ConnectionReset)], 9, "ConnectionReset", 2, 2),
        (&[Ok(1), Ok(0)], 9, "WriteZero", 1, 1),
    ];
    for (steps, turns, ending, bytes, end) in cases {
        let mut connection = connection();
        for byte in 0..10 {
            let _ = connection.write(&[byte]).expect("it is accepted");
        }
        let _ = connection.write_region(7).expect("it is accepted");
        assert_eq!(connection.cancel(3), Ok(true));
        let _ = connection.flush().expect("it is open");
        let mut writer = Steps(steps.iter().copied().collect(), Vec::new());
        let sent = connection.send_until_blocked(&mut writer, turns).expect("it is open");
        assert_eq!(
            (&*ending_of(&sent.ending), sent.bytes, sent.taken.promises.clone()),
            (ending, bytes, 0..end),
            "{steps:?}"
        );
        assert_eq!((sent.taken.count, sent.taken.outcome), (end, Outcome::Success));
        let settled: Vec<u64> = sent.taken.settled().map(|(id, _)| id).collect();
        assert_eq!(settled, (0..end).filter(|id| *id != 3).collect::<Vec<_>>());
        assert_eq!(writer.1, (0..10).filter(|byte| *byte != 3).take(bytes as usize).collect::<Vec<u8>>());
        assert!(writer.0.is_empty());
        assert_eq!(connection.look().size, 11 - end);
    }
}

#[test]
fn a_sending_of_several_turns_tells_its_change_once() {
    use limekeel::Change;
    let mut connection = Connection::open(Marks { low: 300, high: 400 }, Estimate::default()).expect("there is memory");
    for byte in 0..5 {
        let _ = connection.write(&[byte]).expect("it is accepted");
    }
    let _ = connection.flush().expect("it is open");
    // five times 97 bytes are pending, and below 300 with the second that goes
    let mut writer = Steps([Ok(1), Ok(1), Ok(1), Ok(2)].into(), Vec::new());
    let sent = connection.send_until_blocked(&mut writer, 9).expect("it is open");
    assert_eq!(
        (sent.taken.change, sent.taken.promises, ending_of(&sent.ending)),
        (Some(Change::Writable), 0..5, "Drained".into())
    );
    let _ = connection.close(1).expect("nothing is flushed");
    assert_eq!(connection.send_until_blocked(&mut writer, 9).err(), Some(Refusal::Closed));
}

struct Dice(u64);

impl Dice {
    fn below(&mut self, limit: u64) -> u64 {
        self.0 ^= self.0 << 13;
        self.0 ^= self.0 >> 7;
        self.0 ^= self.0 << 17;
        self.0 % limit
    }
}

/// Messages of all kinds by chance, beside a list: each byte comes in order, and an owner goes as its message does.
fn by_chance(seed: u64) {
    let mut dice = Dice(seed);
    let (mut connection, dropped) = (connection(), Dropped::default());
    let (mut waits, mut gone, mut came) = (VecDeque::<(Vec<u8>, bool)>::new(), 0, Vec::new());
    let mut wanted = Vec::new();
    let mut next = 0;
    for _ in 0..3000 {
        match dice.below(8) {
            0..6 => {
                let longest = if dice.below(20) == 0 { 6000 } else { 60 };
                let length = dice.below(longest) as usize;
                let bytes: Vec<u8> = (0..length).map(|at| (next * 31 + at as u64) as u8).collect();
                let kind = dice.below(6);
                let written = match kind {
                    0 => connection.write(&bytes),
                    1 => connection.write_block(&Block::from(&bytes[..])),
                    2 => connection.write_owned(bytes.clone()).map_err(Refusal::from),
                    3 => {
                        let spare = dice.below(50) as usize;
                        let mut room = connection.reserve(bytes.len() + spare).expect("there is memory");
                        room.write_all(&bytes).expect("it has room");
                        room.write_message()
                    }
                    4 => connection.write_owned(Watched::<SMALL>::new(next, &dropped)).map_err(Refusal::from),
                    _ => connection.write_owned(Watched::<LARGE>::new(next, &dropped)).map_err(Refusal::from),
                };
                let bytes = match kind {
                    4 => vec![next as u8; SMALL],
                    5 => vec![next as u8; LARGE],
                    _ => bytes,
                };
                assert_eq!(written.expect("it is accepted").id, next);
                wanted.extend_from_slice(&bytes);
                waits.push_back((bytes, kind >= 4));
                next += 1;
            }
            6 => {
                let _ = connection.flush().expect("it is open");
            }
            _ => {
                let most = dice.below(3000) as usize;
                let taken = connection.send_with(|pieces| {
                    let given: Vec<u8> = pieces.iter().flat_map(|piece| piece.iter().copied()).collect();
                    let count = most.min(given.len()).max(1);
                    came.extend_from_slice(&given[..count]);
                    Ok(count)
                });
                let taken = taken.expect("it takes").taken;
                assert_eq!(taken.promises.start, gone);
                let watched: Vec<u64> = waits
                    .drain(..taken.count as usize)
                    .zip(gone..)
                    .filter(|((_, watched), _)| *watched)
                    .map(|(_, id)| id)
                    .collect();
                assert_eq!(names(&dropped), watched);
                gone = taken.promises.end;
            }
        }
    }
    let _ = connection.flush().expect("it is open");
    let sent = connection.send_until_blocked(&mut came, u32::MAX).expect("it is open");
    assert!(matches!(sent.ending, Ending::Drained));
    assert_eq!((sent.taken.promises.end, came == wanted), (next, true));
}

#[test]
fn messages_of_all_kinds_come_in_order_and_let_go() {
    thread::scope(|scope| {
        for seed in 1..=4 {
            scope.spawn(move || (0..5).for_each(|turn| by_chance(seed << 32 | (turn + 1))));
        }
    });
}

/// Messages that are taken away one by one, or several at once, cancelled ones among them: an owner goes as its message does.
#[test]
fn an_owner_goes_however_its_message_does() {
    let mut dice = Dice(0x5eed);
    let (mut connection, dropped) = (connection(), Dropped::default());
    let (mut watched, mut next) = (VecDeque::new(), 0);
    for _ in 0..30000 {
        let gone = next - watched.len() as u64;
        let end = match dice.below(12) {
            kind @ 0..5 => {
                match kind {
                    0 => drop(connection.write_owned(Watched::<SMALL>::new(next, &dropped)).expect("it is accepted")),
                    1 => write_watched(&mut connection, next, &dropped),
                    2 => drop(connection.write_static(b"for good").expect("it is accepted")),
                    _ => drop(connection.write(b"a copy").expect("it is accepted")),
                }
                watched.push_back(kind < 2);
                next += 1;
                gone
            }
            5 => {
                let _ = connection.cancel(gone + dice.below(watched.len() as u64 + 1));
                gone
            }
            6 | 7 => {
                let _ = connection.flush().expect("it is open");
                gone
            }
            8 => {
                let most = dice.below(99) as usize + 1;
                let writes = |pieces: &[IoSlice<'_>]| Ok(most.min(pieces.iter().map(|piece| piece.len()).sum()));
                connection.send_with(writes).expect("it takes").taken.promises.end
            }
            9 if dice.below(40) == 0 => connection.fail_flushed(1, true).expect("it is open").promises.end,
            9 => gone + u64::from(connection.remove_with(1).expect("it is open").any),
            _ => gone + u64::from(connection.remove().expect("it is open").any),
        };
        let left = watched.drain(..(end - gone) as usize).zip(gone..).filter_map(|(watched, id)| watched.then_some(id));
        assert_eq!(names(&dropped), left.collect::<Vec<_>>());
    }
    assert!(next > 9000 && watched.len() < 9000, "{next} {}", watched.len());
}

#[test]
fn a_connection_with_owners_goes_to_another_thread() {
    let (mut connection, dropped) = (connection(), Dropped::default());
    write_watched(&mut connection, 0, &dropped);
    let _ = connection.flush().expect("it is open");
    let sent = thread::spawn(move || {
        let mut socket = Vec::new();
        let _ = connection.send_to(&mut socket).expect("it takes");
        socket
    });
    assert_eq!(sent.join().expect("it ends"), [0; 24]);
    assert_eq!(names(&dropped), [0]);
}
