//! Each call, and who is woken by it, by futures that are polled by hand.

mod common;

use bytes::Bytes;
use common::{ByHand, Memory, Within};
use futures_sink::Sink;
use limekeel_tokio::{
    BROKEN, Block, Bounds, Budget, DROPPED, Estimate, Marks, Outbound, Outcome, Pump, Refusal, Static, TryWriteError,
    WriteError, split, split_with, split_within,
};
use std::future::{Future, poll_fn};
use std::io::{self, ErrorKind, IoSlice};
use std::pin::Pin;
use std::sync::mpsc::channel;
use std::sync::{Arc, Mutex};
use std::task::{Context, Poll, Wake, Waker};
use std::thread;
use std::time::Duration;
use tokio::io::AsyncWrite;

/// A message of four bytes fills it.
const MARKS: Marks = Marks { low: 50, high: 99 };

/// A connection to a stream that takes all, once it does not stall.
fn opened() -> (Outbound, ByHand<Pump<Memory>>, Memory) {
    let stream = Memory::new(Within { vectored: true, ..Within::default() });
    let (outbound, pump) = split(stream.clone(), MARKS).unwrap();
    (outbound, ByHand::new(pump), stream)
}

/// The same, with a message that is pending, so that it is not writable.
fn filled() -> (Outbound, ByHand<Pump<Memory>>, Memory) {
    let (outbound, pump, stream) = opened();
    drop(outbound.try_write(b"full").unwrap());
    assert!(!outbound.is_writable());
    (outbound, pump, stream)
}

#[test]
fn a_message_is_written_and_sent() {
    let (outbound, mut pump, stream) = opened();
    let mut write = ByHand::new(outbound.write(b"news"));
    let Poll::Ready(Ok(receipt)) = write.poll() else { panic!("there is room") };
    assert_eq!((receipt.id(), receipt.outcome(), outbound.pending()), (0, None, 100));
    assert!(pump.poll().is_pending());
    assert_eq!(stream.with(|within| within.got.clone()), b"news");
    assert!(stream.with(|within| within.flushed));
    assert_eq!((receipt.outcome(), outbound.pending()), (Some(Outcome::Success), 0));
    assert_eq!(ByHand::new(receipt).poll(), Poll::Ready(Outcome::Success));
}

#[test]
fn the_high_mark_is_passed_by_one_message() {
    let (outbound, _pump, _) = opened();
    drop(outbound.try_write(b"at ").unwrap());
    assert_eq!((outbound.pending(), outbound.is_writable()), (99, true));
    drop(outbound.try_write(&[7; 1000]).unwrap());
    assert!(!outbound.is_writable());
    assert!(matches!(outbound.try_write(b""), Err(TryWriteError::Full(_))));
}

#[test]
fn writers_go_on_below_the_low_mark() {
    // a byte at a time, and 32 before the others have their turn
    let stream = Memory::new(Within { dice: Some(common::Dice(7)), most: 1, vectored: true, ..Within::default() });
    let (outbound, pump) = split(stream, Marks { low: 150, high: 400 }).unwrap();
    let mut pump = ByHand::new(pump);
    for _ in 0..3 {
        drop(outbound.try_write(&[1; 40]).unwrap());
    }
    let write = ByHand::new(outbound.write(b"next")).waits();
    assert!(pump.poll().is_pending() && pump.poll().is_pending());
    // below the high mark alone
    assert_eq!((outbound.pending(), outbound.is_writable(), write.woken()), (272, false, 0));
    assert!(pump.poll().is_pending());
    assert_eq!((outbound.pending(), write.woken()), (136, 1));
}

#[test]
fn who_waits_writes_in_the_order_of_arrival() {
    let (outbound, mut pump, stream) = filled();
    let mut writers: Vec<_> = [b"one ", b"two ", b"drei"].map(|text| ByHand::new(outbound.write(text)).waits()).into();
    for at in 0..3 {
        assert!(pump.poll().is_pending());
        assert_eq!(
            writers.iter().map(ByHand::woken).collect::<Vec<_>>(),
            (0..3).map(|it| usize::from(it <= at)).collect::<Vec<_>>()
        );
        // those that were not woken are polled for nothing
        for later in writers.iter_mut().skip(at + 1) {
            assert!(later.poll().is_pending());
        }
        assert!(writers[at].poll().is_ready());
    }
    assert!(pump.poll().is_pending());
    assert_eq!(stream.with(|within| within.got.clone()), b"fullone two drei");
}

#[test]
fn who_is_polled_for_nothing_keeps_its_place() {
    let (outbound, mut pump, _) = filled();
    let mut first = ByHand::new(outbound.write(b"one ")).waits();
    let second = ByHand::new(outbound.write(b"two ")).waits();
    assert!(first.poll().is_pending());
    assert!(pump.poll().is_pending());
    assert_eq!((first.woken(), second.woken()), (1, 0));
}

#[test]
fn room_is_kept_for_those_who_were_woken() {
    let stream = Memory::new(Within { vectored: true, ..Within::default() });
    let marks = Marks { low: 150, high: 350 };
    let (outbound, pump) = split(stream, marks).unwrap();
    let mut pump = ByHand::new(pump);
    for _ in 0..4 {
        drop(outbound.try_write(b"full").unwrap());
    }
    let mut writers: Vec<_> = (0..6).map(|_| ByHand::new(outbound.write(b"next")).waits()).collect();
    assert!(pump.poll().is_pending());
    let woken = |writers: &[ByHand<_>]| writers.iter().filter(|writer| writer.woken() > 0).count();
    assert_eq!((woken(&writers), pump.woken()), (1, 1));
    assert!(pump.poll().is_pending());
    // three leave room of 50 bytes, so that one more is let in
    assert_eq!((woken(&writers), outbound.pending()), (4, 0));
    assert!(matches!(outbound.try_write(b"late"), Err(TryWriteError::Full(b"late"))));
    assert!(writers[4].poll().is_pending());
    // in whatever order they come
    for at in [3, 1, 0, 2] {
        assert!(writers[at].poll().is_ready());
    }
    assert_eq!((woken(&writers), outbound.pending()), (4, 400));
}

/// A connection that was full, of which three writers were let in again.
macro_rules! three_let_in {
    ($pump:ident, $stream:ident, $writers:ident) => {
        let $stream = Memory::new(Within { vectored: true, ..Within::default() });
        let (outbound, pump) = split($stream.clone(), Marks { low: 150, high: 350 }).unwrap();
        let mut $pump = ByHand::new(pump);
        for _ in 0..4 {
            drop(outbound.try_write(b"full").unwrap());
        }
        let mut $writers: Vec<_> = (0..3).map(|_| ByHand::new(outbound.write(b"next")).waits()).collect();
        assert!($pump.poll().is_pending());
        assert_eq!(woken_of(&$writers), [1, 0, 0]);
    };
}

fn woken_of<F: Future>(writers: &[ByHand<F>]) -> Vec<usize> {
    writers.iter().map(ByHand::woken).collect()
}

/// Three that were let in come one after the other, unless this thread was held up meanwhile.
fn come_one_by_one() -> bool {
    three_let_in!(pump, stream, writers);
    // the pump comes again by itself, in case that they do not
    assert_eq!(pump.woken(), 1);
    assert!(writers[0].poll().is_ready());
    if woken_of(&writers) == [1, 1, 1] {
        return false;
    }
    assert_eq!((woken_of(&writers), pump.woken()), (vec![1, 1, 0], 1));
    drop(writers.remove(1));
    assert_eq!(woken_of(&writers), [1, 1]);
    if pump.woken() == 2 {
        return false;
    }
    assert!(writers[1].poll().is_ready());
    assert_eq!(pump.woken(), 2);
    assert!(pump.poll().is_pending());
    assert_eq!(stream.with(|within| (within.writes, within.got.len())), (2, 24));
    true
}

#[test]
fn who_comes_wakes_the_next_and_the_last_the_pump() {
    assert!((0..1000).any(|_| come_one_by_one()));
}

#[test]
fn who_was_let_in_and_does_not_come_keeps_nobody_asleep() {
    three_let_in!(pump, stream, writers);
    assert_eq!(pump.woken(), 1);
    assert!(pump.poll().is_pending());
    assert_eq!(woken_of(&writers), [1, 1, 1]);
    for writer in &mut writers[1..] {
        assert!(writer.poll().is_ready());
    }
    // once for those who were let in, and once more by itself
    assert!(pump.poll().is_pending() && pump.poll().is_pending());
    assert_eq!(stream.with(|within| within.got.len()), 24);
}

#[test]
fn whose_messages_are_sent_are_told_at_once() {
    let stream = Memory::new(Within { vectored: true, ..Within::default() });
    let (outbound, pump) = split(stream, Marks::default()).unwrap();
    let receipts = [b"one", b"two"].map(|text| ByHand::new(outbound.try_write(text).unwrap()).waits());
    let mut pump = ByHand::new(pump);
    assert!(pump.poll().is_pending());
    assert_eq!(woken_of(&receipts), [1, 1]);
}

#[test]
fn those_with_other_work_are_woken_at_once() {
    three_let_in!(pump, stream, writers);
    thread::sleep(Duration::from_millis(1));
    assert!(writers[0].poll().is_ready());
    assert_eq!((woken_of(&writers), pump.woken()), (vec![1, 1, 1], 2));
    assert_eq!(stream.with(|within| within.got.len()), 16);
}

#[test]
fn after_slow_ones_fewer_are_woken_one_by_one() {
    let stream = Memory::new(Within { vectored: true, ..Within::default() });
    let (outbound, pump) = split(stream, Marks { low: 150, high: 350 }).unwrap();
    let mut pump = ByHand::new(pump);
    let mut one_by_one = Vec::new();
    for turn in 0..300 {
        while outbound.is_writable() {
            drop(outbound.try_write(b"full").unwrap());
        }
        let mut writers: Vec<_> = (0..2).map(|_| ByHand::new(outbound.write(b"next")).waits()).collect();
        assert!(pump.poll().is_pending());
        if woken_of(&writers) == [1, 0] {
            one_by_one.push(turn);
        }
        thread::sleep(Duration::from_micros(100));
        assert!(writers.iter_mut().all(|writer| writer.poll().is_ready()));
        assert_eq!(woken_of(&writers), [1, 1]);
    }
    assert_eq!(one_by_one, [0, 1, 3, 7, 15, 31, 63, 127, 255, 256, 258, 262, 270, 286]);
}

/// 1000 bytes for all, of which a message takes 96 beside its own.
fn budget() -> Budget {
    Budget::open(Bounds { room: 1000, low: 300, high: 700 }, 0).unwrap()
}

#[test]
fn all_within_a_budget_hold_its_room_at_most() {
    let budget = budget();
    let within = |stream| split_within(stream, Marks::default(), Estimate::default(), &budget).unwrap();
    let (slow, slow_pump) = within(Memory::new(Within { vectored: true, ..Within::default() }));
    let (other, other_pump) = within(Memory::default());
    drop(slow.try_write(&[1; 404]).unwrap());
    assert!(!budget.is_pressed());
    drop(other.try_write(&[2; 304]).unwrap());
    assert!(budget.is_pressed());
    let mut calm = ByHand::new(budget.calm()).waits();
    assert_eq!(
        other.try_write([3; 5].to_vec()).map(drop),
        Err(TryWriteError::Refused(Refusal::OverBudget, vec![3; 5]))
    );
    let mut refused = ByHand::new(other.write([3; 5].to_vec()));
    assert!(matches!(refused.poll(), Poll::Ready(Err(WriteError::Refused(Refusal::OverBudget)))));
    assert_eq!((slow.pending(), other.pending(), budget.look().total), (500, 400, 900));
    // what the slow one's pump sends is room for all, and ends pressure
    let mut slow_pump = ByHand::new(slow_pump);
    assert!(slow_pump.poll().is_pending());
    assert_eq!((calm.woken(), budget.look().total), (0, 400));
    drop(other.try_write(&[3; 104]).unwrap());
    drop(other_pump);
    assert_eq!((calm.woken(), budget.look().total), (1, 0));
    assert!(calm.poll().is_ready());
    drop(slow.try_write(&[4; 804]).unwrap());
    drop((slow, slow_pump));
    assert_eq!(budget.look().total, 0);
}

#[test]
fn marks_are_judged_first() {
    let budget = budget();
    let opened = split_within(Memory::default(), Marks { low: 0, high: 1 }, Estimate::default(), &budget);
    assert_eq!(opened.map(drop).unwrap_err(), Refusal::BadMarks);
}

/// After slow ones every other sending has all come at once; here it is one that finds some of a chain not woken yet.
#[test]
fn who_is_left_of_a_chain_is_woken_after_another_sending() {
    const BYTES: &[u8] = &[7; 112];
    let stream = Memory::new(Within { vectored: true, ..Within::default() });
    let (outbound, pump) = split(stream.clone(), Marks { low: 150, high: 350 }).unwrap();
    let mut pump = ByHand::new(pump);
    for _ in 0..4 {
        drop(outbound.try_write(b"full").unwrap());
    }
    let mut slow: Vec<_> = (0..3).map(|_| ByHand::new(outbound.write(b"slow")).waits()).collect();
    assert!(pump.poll().is_pending());
    thread::sleep(Duration::from_millis(1));
    assert!(slow.iter_mut().all(|writer| writer.poll().is_ready()));
    assert!(pump.poll().is_pending());
    // none lies behind the one before it, so each goes by a sending of its own: the second lets them in
    stream.with(|within| within.vectored = false);
    for bytes in [&BYTES[8..], &BYTES[4..8], &BYTES[..4]] {
        drop(outbound.try_write(Static(bytes)).unwrap());
    }
    let mut waiting: Vec<_> = (0..3).map(|_| ByHand::new(outbound.ready()).waits()).collect();
    let writes = stream.with(|within| within.writes);
    assert!(pump.poll().is_pending());
    assert_eq!(stream.with(|within| within.writes), writes + 3);
    assert_eq!((woken_of(&waiting), outbound.pending()), (vec![1, 0, 0], 0));
    drop(waiting.remove(0));
    assert_eq!(woken_of(&waiting), [1, 0]);
    assert!(waiting[0].poll().is_ready());
    assert_eq!(woken_of(&waiting), [1, 1]);
}

#[test]
fn what_those_write_who_were_let_in_goes_by_one_write() {
    three_let_in!(pump, stream, writers);
    assert!(pump.poll().is_pending());
    let woken = pump.woken();
    assert!(writers[0].poll().is_ready());
    assert_eq!(pump.woken(), woken + 1);
    // it comes again by itself, behind the others
    assert!(pump.poll().is_pending());
    assert_eq!((stream.with(|within| within.writes), pump.woken()), (1, woken + 2));
    assert!(writers[1].poll().is_ready() && writers[2].poll().is_ready());
    assert!(pump.poll().is_pending());
    assert_eq!((stream.with(|within| (within.writes, within.got.len())), pump.woken()), ((2, 28), woken + 2));
}

#[test]
fn one_that_was_let_in_and_does_not_write_holds_up_nothing() {
    three_let_in!(pump, stream, writers);
    assert!(pump.poll().is_pending());
    assert!(writers[0].poll().is_ready());
    for sent in [16, 20] {
        assert!(pump.poll().is_pending());
        assert_eq!(stream.with(|within| within.got.len()), sent);
    }
    // and after it has sent others are waited for once more
    assert!(writers[1].poll().is_ready());
    for sent in [20, 24] {
        assert!(pump.poll().is_pending());
        assert_eq!(stream.with(|within| within.got.len()), sent);
    }
}

#[test]
fn what_is_gone_before_the_stream_blocks_is_told_at_once() {
    let (outbound, mut pump, stream) = opened();
    stream.with(|within| within.stalled = true);
    let mut empty = ByHand::new(outbound.try_write(b"").unwrap()).waits();
    drop(outbound.try_write(b"full").unwrap());
    assert!(pump.poll().is_pending());
    assert_eq!((empty.woken(), empty.poll()), (1, Poll::Ready(Outcome::Success)));
}

#[test]
fn a_writer_that_is_dropped_passes_its_turn_on() {
    let (outbound, mut pump, _) = filled();
    let first = ByHand::new(outbound.write(b"one ")).waits();
    let second = ByHand::new(outbound.write(b"two ")).waits();
    let mut third = ByHand::new(outbound.write(b"drei")).waits();
    drop(second);
    assert!(pump.poll().is_pending());
    assert_eq!((first.woken(), third.woken()), (1, 0));
    drop(first);
    assert_eq!(third.woken(), 1);
    assert!(third.poll().is_ready());
}

#[test]
fn nobody_passes_one_that_waits() {
    let (outbound, mut pump, _) = filled();
    let mut first = ByHand::new(outbound.write(b"one ")).waits();
    assert!(pump.poll().is_pending());
    assert!(matches!(outbound.try_write(b"two "), Err(TryWriteError::Full(_))));
    let mut second = ByHand::new(outbound.write(b"two ")).waits();
    assert!(first.poll().is_ready());
    assert!(second.poll().is_pending());
}

#[test]
fn a_refused_message_comes_back() {
    let (outbound, pump, _) = filled();
    let message = Bytes::from_static(b"news");
    assert_eq!(outbound.try_write(message.clone()).unwrap_err(), TryWriteError::Full(message.clone()));
    drop(pump);
    assert_eq!(outbound.try_write(message.clone()).unwrap_err(), TryWriteError::Gone(message.clone()));
    assert_eq!(outbound.try_feed(&message[..]).unwrap_err(), TryWriteError::Gone(&message[..]));
}

#[test]
fn a_message_that_is_too_large_comes_back() {
    let (outbound, _pump, _) = opened();
    // nobody touches these pages
    let Err(TryWriteError::Refused(refusal, message)) = outbound.try_write(vec![0; 2_200_000_000]) else {
        panic!("it is refused");
    };
    assert_eq!((refusal, message.len()), (Refusal::Oversize, 2_200_000_000));
    assert!(outbound.is_writable() && outbound.pending() == 0);
}

/// A full connection, and all who may wait for it.
struct Waiting<A, B, C, D> {
    receipt: ByHand<A>,
    write: ByHand<B>,
    drained: ByHand<C>,
    ready: ByHand<D>,
}

macro_rules! all_wait {
    ($outbound:expr, $receipt:expr) => {{
        let mut other = $outbound.clone();
        Waiting {
            receipt: ByHand::new($receipt).waits(),
            write: ByHand::new($outbound.write(b"news")).waits(),
            drained: ByHand::new($outbound.drained()).waits(),
            ready: ByHand::new(poll_fn(move |cx| other.poll_ready(cx))).waits(),
        }
    }};
}

#[test]
fn all_who_wait_are_told_when_the_pump_is_dropped() {
    let (outbound, pump, _) = opened();
    let receipt = outbound.try_write(b"full").unwrap();
    let mut all = all_wait!(outbound, receipt);
    let mut finish = ByHand::new(outbound.drained()).waits();
    drop(pump);
    assert_eq!((all.receipt.woken(), all.write.woken(), all.drained.woken(), all.ready.woken()), (1, 1, 1, 1));
    assert_eq!(all.receipt.poll(), Poll::Ready(Outcome::Failed(DROPPED)));
    assert!(matches!(all.write.poll(), Poll::Ready(Err(WriteError::Gone))));
    assert_eq!(all.drained.poll(), Poll::Ready(Err(WriteError::Gone)));
    assert_eq!(all.ready.poll(), Poll::Ready(Err(WriteError::Gone)));
    assert_eq!(finish.poll(), Poll::Ready(Err(WriteError::Gone)));
    assert_eq!(ByHand::new(outbound.finish()).poll(), Poll::Ready(Err(WriteError::Gone)));
    assert!(outbound.is_gone() && !outbound.is_writable());
    assert_eq!(outbound.pending(), 0);
}

#[test]
fn all_who_wait_are_told_when_the_stream_breaks() {
    let (outbound, mut pump, stream) = opened();
    let receipt = outbound.try_write(b"full").unwrap();
    let mut all = all_wait!(outbound, receipt);
    stream.with(|within| within.breaks_after = Some(2));
    let Poll::Ready(ended) = pump.poll() else { panic!("it is broken") };
    assert_eq!((ended.sent, ended.lost, ended.error.as_ref().unwrap().kind()), (0, 1, ErrorKind::ConnectionReset));
    assert!(ended.into_result().is_err());
    assert_eq!((all.receipt.woken(), all.write.woken(), all.drained.woken(), all.ready.woken()), (1, 1, 1, 1));
    assert_eq!(all.receipt.poll(), Poll::Ready(Outcome::Failed(BROKEN)));
    assert!(matches!(all.write.poll(), Poll::Ready(Err(WriteError::Gone))));
    assert_eq!(all.drained.poll(), Poll::Ready(Err(WriteError::Gone)));
    assert_eq!(all.ready.poll(), Poll::Ready(Err(WriteError::Gone)));
    assert_eq!(outbound.pending(), 0);
}

#[test]
fn a_finish_sends_what_was_written_and_refuses_those_who_wait() {
    let (outbound, mut pump, stream) = opened();
    let receipt = outbound.try_feed(b"full").unwrap();
    let mut write = ByHand::new(outbound.write(b"news")).waits();
    let mut finish = ByHand::new(outbound.finish()).waits();
    assert_eq!(write.woken(), 1);
    assert!(matches!(write.poll(), Poll::Ready(Err(WriteError::Gone))));
    let Poll::Ready(ended) = pump.poll() else { panic!("all is sent") };
    assert_eq!((ended.sent, ended.lost, ended.error.is_none()), (1, 0, true));
    assert_eq!((finish.woken(), finish.poll()), (1, Poll::Ready(Ok(()))));
    assert_eq!(receipt.outcome(), Some(Outcome::Success));
    assert!(stream.with(|within| within.shut && within.got == b"full"));
}

#[test]
fn after_the_last_outbound_all_is_sent() {
    let (outbound, pump, stream) = opened();
    let mut pump = pump.waits();
    let other = outbound.clone();
    drop(outbound);
    assert_eq!(pump.woken(), 0);
    drop(other.try_feed(b"last").unwrap());
    assert_eq!(pump.woken(), 0);
    drop(other);
    assert_eq!(pump.woken(), 1);
    assert!(matches!(pump.poll(), Poll::Ready(ended) if ended.sent == 1));
    assert!(stream.with(|within| within.shut && within.got == b"last"));
}

#[test]
fn an_outbound_that_waits_to_be_ready_can_be_dropped() {
    let (outbound, mut pump, _) = filled();
    let mut other = outbound.clone();
    {
        let mut ready = ByHand::new(poll_fn(|cx| other.poll_ready(cx)));
        assert!(ready.poll().is_pending());
    }
    let write = ByHand::new(outbound.write(b"news")).waits();
    drop(other);
    assert!(pump.poll().is_pending());
    assert_eq!(write.woken(), 1);
}

#[test]
fn who_waits_to_be_ready_is_woken_as_who_writes() {
    let (outbound, mut pump, _) = filled();
    let mut ready = ByHand::new(outbound.ready()).waits();
    let mut write = ByHand::new(outbound.write(b"news")).waits();
    assert!(pump.poll().is_pending());
    assert_eq!((ready.woken(), ready.poll()), (1, Poll::Ready(Ok(()))));
    assert!(write.woken() == 1 && write.poll().is_ready());
    let mut ready = ByHand::new(outbound.ready()).waits();
    drop(pump);
    assert_eq!((ready.woken(), ready.poll()), (1, Poll::Ready(Err(WriteError::Gone))));
}

#[test]
fn one_that_was_ready_and_left_alone_takes_no_room() {
    let (outbound, mut pump, _) = filled();
    let mut idle: Vec<_> = (0..10).map(|_| outbound.clone()).collect();
    let cx = &mut Context::from_waker(Waker::noop());
    assert!(idle.iter_mut().all(|outbound| outbound.poll_ready(cx).is_pending()));
    assert!(pump.poll().is_pending());
    drop(outbound.try_write(b"news").unwrap());
    drop(idle);
}

#[test]
fn what_is_fed_is_sent_when_somebody_waits() {
    // for the message itself, for all, for room, and when it is flushed
    for which in 0..4 {
        let (outbound, pump, stream) = opened();
        let mut pump = pump.waits();
        let receipt = outbound.try_feed(b"full").unwrap();
        assert_eq!(pump.woken(), 0);
        match which {
            0 => drop(ByHand::new(receipt).waits()),
            1 => drop(ByHand::new(outbound.drained()).waits()),
            2 => drop(ByHand::new(outbound.write(b"news")).waits()),
            _ => outbound.flush(),
        }
        assert_eq!(pump.woken(), 1);
        assert!(pump.poll().is_pending());
        assert_eq!(stream.with(|within| within.got.clone()), b"full");
    }
}

#[test]
fn what_is_fed_is_not_sent_before_a_flush() {
    for waits in [false, true] {
        let (outbound, mut pump, stream) = opened();
        if waits {
            assert!(ByHand::new(outbound.feed(b"fed ")).poll().is_ready());
        } else {
            drop(outbound.try_feed(b"fed ").unwrap());
        }
        // polled for nothing, before it sleeps and after that
        for _ in 0..3 {
            assert!(pump.poll().is_pending());
        }
        assert_eq!((pump.woken(), outbound.pending()), (0, 100));
        outbound.flush();
        assert!(pump.poll().is_pending());
        assert_eq!(stream.with(|within| within.got.clone()), b"fed ");
    }
}

#[test]
fn the_pump_is_woken_once_and_sends_all_by_one_write() {
    let stream = Memory::new(Within { vectored: true, ..Within::default() });
    let (outbound, pump) = split(stream.clone(), Marks::default()).unwrap();
    let mut pump = ByHand::new(pump).waits();
    for _ in 0..100 {
        drop(outbound.try_write(b"news").unwrap());
    }
    assert_eq!(pump.woken(), 1);
    assert!(pump.poll().is_pending());
    assert_eq!(stream.with(|within| (within.writes, within.got.len())), (1, 400));
    drop(outbound.try_write(b"news").unwrap());
    assert_eq!(pump.woken(), 2);
}

#[test]
fn empty_messages_and_more_than_one_write_can_take_are_sent() {
    let stream = Memory::new(Within { vectored: true, ..Within::default() });
    let (outbound, pump) = split(stream.clone(), Marks { low: 1000, high: 10_000_000 }).unwrap();
    let mut pump = ByHand::new(pump);
    let empty = outbound.try_write(b"").unwrap();
    assert!(pump.poll().is_pending());
    assert_eq!((empty.outcome(), stream.with(|within| within.writes)), (Some(Outcome::Success), 0));
    for number in 0..5000_u32 {
        outbound.try_write(b"").unwrap();
        outbound.try_write(Bytes::from(number.to_le_bytes().to_vec())).unwrap();
    }
    let last = outbound.try_write(b"").unwrap();
    assert!(pump.poll().is_pending());
    assert_eq!((last.outcome(), outbound.pending()), (Some(Outcome::Success), 0));
    let wanted: Vec<u8> = (0..5000_u32).flat_map(u32::to_le_bytes).collect();
    assert!(stream.with(|within| within.got == wanted && within.writes < 10));
}

#[test]
fn a_pump_that_waits_for_its_stream_is_woken_by_that_alone() {
    let (outbound, pump, stream) = opened();
    let mut pump = pump.waits();
    stream.with(|within| within.stalled = true);
    drop(outbound.try_write(b"full").unwrap());
    assert_eq!(pump.woken(), 1);
    assert!(pump.poll().is_pending());
    outbound.flush();
    assert_eq!(pump.woken(), 1);
    stream.with(|within| within.stalled = false);
    assert!(stream.unblock());
    assert_eq!(pump.woken(), 2);
    assert!(pump.poll().is_pending());
    assert_eq!(stream.with(|within| within.got.clone()), b"full");
}

#[test]
fn a_stream_without_vectored_writes_gets_one_message_after_another() {
    let stream = Memory::new(Within { dice: Some(common::Dice(7)), most: 3, ..Within::default() });
    let (outbound, pump) = split(stream.clone(), Marks::default()).unwrap();
    for number in 0..50_u8 {
        drop(outbound.try_feed(&[number; 5]).unwrap());
    }
    drop(outbound);
    let mut pump = ByHand::new(pump);
    let ended = loop {
        if let Poll::Ready(ended) = pump.poll() {
            break ended;
        }
        // others have their turn, and it goes on by itself
        assert!(pump.woken() > 0);
    };
    assert_eq!(ended.sent, 50);
    let wanted: Vec<u8> = (0..250).map(|place| place / 5).collect();
    assert_eq!(stream.with(|within| within.got.clone()), wanted);
}

/// A stream that gives one answer, and then takes all.
struct Answers(Option<Poll<io::Result<usize>>>);

impl AsyncWrite for Answers {
    fn poll_write(mut self: Pin<&mut Self>, _: &mut Context<'_>, bytes: &[u8]) -> Poll<io::Result<usize>> {
        self.0.take().unwrap_or(Poll::Ready(Ok(bytes.len())))
    }

    fn poll_flush(self: Pin<&mut Self>, _: &mut Context<'_>) -> Poll<io::Result<()>> {
        Poll::Ready(Ok(()))
    }

    fn poll_shutdown(self: Pin<&mut Self>, _: &mut Context<'_>) -> Poll<io::Result<()>> {
        Poll::Ready(Ok(()))
    }
}

#[test]
fn a_stream_that_answers_wrongly_is_broken() {
    let answers = [
        (Ok(0), ErrorKind::WriteZero),
        (Ok(5), ErrorKind::InvalidData),
        // nobody would wake the pump
        (Err(ErrorKind::WouldBlock.into()), ErrorKind::Other),
        (Err(ErrorKind::TimedOut.into()), ErrorKind::TimedOut),
    ];
    for (answer, wanted) in answers {
        let (outbound, pump) = split(Answers(Some(Poll::Ready(answer))), MARKS).unwrap();
        drop(outbound.try_write(b"news").unwrap());
        let Poll::Ready(ended) = ByHand::new(pump).poll() else { panic!("{wanted}") };
        assert_eq!((ended.error.unwrap().kind(), ended.lost), (wanted, 1));
        assert!(outbound.is_gone());
    }
    let (outbound, pump) = split(Answers(Some(Poll::Ready(Err(ErrorKind::Interrupted.into())))), MARKS).unwrap();
    drop(outbound.try_write(b"news").unwrap());
    drop(outbound);
    assert!(matches!(ByHand::new(pump).poll(), Poll::Ready(ended) if ended.sent == 1));
}

/// A stream that takes three bytes, and then says once that it is broken.
struct TakesOne(u32);

impl AsyncWrite for TakesOne {
    fn poll_write(mut self: Pin<&mut Self>, _: &mut Context<'_>, bytes: &[u8]) -> Poll<io::Result<usize>> {
        self.0 += 1;
        if self.0 == 2 { Poll::Ready(Err(ErrorKind::TimedOut.into())) } else { Poll::Ready(Ok(bytes.len().min(3))) }
    }

    fn poll_flush(self: Pin<&mut Self>, _: &mut Context<'_>) -> Poll<io::Result<()>> {
        Poll::Ready(Ok(()))
    }

    fn poll_shutdown(self: Pin<&mut Self>, _: &mut Context<'_>) -> Poll<io::Result<()>> {
        Poll::Ready(Ok(()))
    }
}

#[test]
fn a_fault_that_is_told_once_behind_a_message_is_heard() {
    let (outbound, pump) = split(TakesOne(0), Marks::default()).unwrap();
    let receipts = [b"one", b"two"].map(|text| outbound.try_write(text).unwrap());
    let Poll::Ready(ended) = ByHand::new(pump).poll() else { panic!("it is broken") };
    assert_eq!((ended.sent, ended.lost, ended.error.unwrap().kind()), (1, 1, ErrorKind::TimedOut));
    assert_eq!(receipts.map(|receipt| receipt.outcome()), [Some(Outcome::Success), Some(Outcome::Failed(BROKEN))]);
}

/// A stream that keeps where the pieces lie that it is given.
#[derive(Default)]
struct Places(Vec<(usize, usize)>);

impl AsyncWrite for Places {
    fn poll_write(self: Pin<&mut Self>, _: &mut Context<'_>, _: &[u8]) -> Poll<io::Result<usize>> {
        panic!("it has vectored writes")
    }

    fn poll_write_vectored(
        mut self: Pin<&mut Self>,
        _: &mut Context<'_>,
        pieces: &[IoSlice<'_>],
    ) -> Poll<io::Result<usize>> {
        self.0.extend(pieces.iter().map(|piece| (piece.as_ptr() as usize, piece.len())));
        Poll::Ready(Ok(pieces.iter().map(|piece| piece.len()).sum()))
    }

    fn is_write_vectored(&self) -> bool {
        true
    }

    fn poll_flush(self: Pin<&mut Self>, _: &mut Context<'_>) -> Poll<io::Result<()>> {
        Poll::Ready(Ok(()))
    }

    fn poll_shutdown(self: Pin<&mut Self>, _: &mut Context<'_>) -> Poll<io::Result<()>> {
        Poll::Ready(Ok(()))
    }
}

#[test]
fn owned_shared_and_static_bytes_are_not_copied() {
    let (outbound, pump) = split(Places::default(), Marks::default()).unwrap();
    let (owned, vec) = (Bytes::from(vec![1; 5000]), vec![2; 5000]);
    let text: &'static str = "for good";
    let block = Block::new(&[3; 5000]).unwrap();
    let places =
        [owned.as_ptr() as usize, vec.as_ptr() as usize, text.as_ptr() as usize, block.as_ref().as_ptr() as usize];
    drop(outbound.try_write(owned).unwrap());
    drop(outbound.try_write(vec).unwrap());
    drop(outbound.try_write(Static(text.as_bytes())).unwrap());
    drop(outbound.try_write(&block).unwrap());
    drop(outbound.try_write("copied").unwrap());
    drop(outbound.try_write("c".repeat(3000)).unwrap());
    drop(outbound);
    let Poll::Ready(ended) = ByHand::new(pump).poll() else { panic!("all is sent") };
    let lengths: Vec<_> = ended.stream.0.iter().map(|(_, length)| *length).collect();
    assert_eq!(lengths, [5000, 5000, 8, 5000, 6, 3000]);
    assert_eq!(ended.stream.0.iter().map(|(place, _)| *place).take(4).collect::<Vec<_>>(), places);
}

#[test]
fn an_owner_is_dropped_once_its_message_is_sent_or_given_up() {
    for sent in [true, false] {
        let (outbound, mut pump, _) = opened();
        let owned = Bytes::from(vec![1; 2049]);
        let shared = owned.clone();
        drop(outbound.try_write(owned).unwrap());
        if sent {
            assert!(pump.poll().is_pending());
        } else {
            drop(pump);
        }
        // bytes that nobody else has become a vector where they lie
        let at = shared.as_ptr();
        assert!(BytesAlone::is(shared), "{at:?} is kept, {sent}");
    }
}

#[test]
fn few_bytes_of_a_large_buffer_do_not_keep_it() {
    let (outbound, _pump, _) = opened();
    let buffer = Bytes::from(vec![1; 100_000]);
    drop(outbound.try_write(buffer.slice(..2)).unwrap());
    assert!(BytesAlone::is(buffer));
}

/// Whether nobody else has these bytes.
struct BytesAlone;

impl BytesAlone {
    fn is(bytes: Bytes) -> bool {
        let at = bytes.as_ptr();
        let alone: Vec<u8> = bytes.into();
        alone.as_ptr() == at
    }
}

#[test]
fn a_sink_keeps_one_message_and_a_close_lets_go() {
    let (outbound, mut pump, stream) = opened();
    let mut sink = outbound.clone().into_sink();
    let waker = Waker::noop();
    let cx = &mut Context::from_waker(waker);
    assert_eq!(Pin::new(&mut sink).poll_ready(cx), Poll::Ready(Ok(())));
    // another one writes in between
    drop(outbound.try_write(b"full").unwrap());
    assert_eq!(Pin::new(&mut sink).start_send(Bytes::from_static(b"kept")), Ok(()));
    assert_eq!(outbound.pending(), 100);
    assert!(Pin::new(&mut sink).poll_ready(cx).is_pending());
    assert!(pump.poll().is_pending());
    assert!(Sink::poll_flush(Pin::new(&mut sink), cx).is_pending());
    assert_eq!(outbound.pending(), 100);
    assert!(pump.poll().is_pending());
    assert_eq!(Sink::poll_close(Pin::new(&mut sink), cx), Poll::Ready(Ok(())));
    assert_eq!(Pin::new(&mut sink).poll_ready(cx), Poll::Ready(Err(WriteError::Gone)));
    assert_eq!(Pin::new(&mut sink).start_send(Bytes::new()), Err(WriteError::Gone));
    assert_eq!(stream.with(|within| within.got.clone()), b"fullkept");
    assert!(!outbound.is_gone());
}

#[test]
fn a_flush_waits_for_what_was_written_when_it_began() {
    // a byte at a time, and 32 before the others have their turn
    let stream = Memory::new(Within { dice: Some(common::Dice(7)), most: 1, vectored: true, ..Within::default() });
    let (outbound, pump) = split(stream, Marks::default()).unwrap();
    let mut pump = ByHand::new(pump);
    let mut sink = outbound.clone().into_sink();
    let cx = &mut Context::from_waker(Waker::noop());
    assert!(matches!(AsyncWrite::poll_write(Pin::new(&mut sink), cx, &[1; 20]), Poll::Ready(Ok(20))));
    assert!(Sink::poll_flush(Pin::new(&mut sink), cx).is_pending());
    drop(outbound.try_write(&[2; 100]).unwrap());
    assert!(Sink::poll_flush(Pin::new(&mut sink), cx).is_pending());
    assert!(pump.poll().is_pending());
    assert!(outbound.pending() > 0);
    assert_eq!(Sink::poll_flush(Pin::new(&mut sink), cx), Poll::Ready(Ok(())));
    // and the next one for the rest
    assert!(Sink::poll_flush(Pin::new(&mut sink), cx).is_pending());
}

#[test]
fn a_writer_takes_no_more_than_it_has_room_kept_for() {
    let (outbound, mut pump, stream) = filled();
    let mut writer = outbound.clone().into_sink();
    let cx = &mut Context::from_waker(Waker::noop());
    let mut write = |bytes: &[u8]| AsyncWrite::poll_write(Pin::new(&mut writer), cx, bytes);
    assert!(write(b"four").is_pending());
    let mut next = ByHand::new(outbound.write(b"next")).waits();
    assert!(pump.poll().is_pending());
    // it comes back with more: its place is the same, and its room is asked for anew
    assert!(matches!(write(&[7; 500]), Poll::Pending | Poll::Ready(Ok(500))));
    assert!(next.poll().is_pending());
    assert!(outbound.pending() <= 99 + 96 + 500);
    let _ = write(&[7; 500]);
    assert!(pump.poll().is_pending());
    assert!(matches!(write(&[]), Poll::Ready(Ok(0))));
    assert!(next.poll().is_ready());
    assert!(pump.poll().is_pending());
    assert!(stream.with(|within| within.got.ends_with(b"next")));
}

#[test]
fn those_who_come_back_with_more_are_let_in_one_by_one() {
    let stream = Memory::new(Within { vectored: true, ..Within::default() });
    let (outbound, pump) = split(stream.clone(), Marks { low: 300, high: 350 }).unwrap();
    let mut pump = ByHand::new(pump);
    drop(outbound.try_write(&[0; 300]).unwrap());
    let mut writers = [outbound.clone().into_sink(), outbound.clone().into_sink()];
    let cx = &mut Context::from_waker(Waker::noop());
    let mut write = |at: usize, bytes: &[u8]| AsyncWrite::poll_write(Pin::new(&mut writers[at]), cx, bytes);
    assert!(write(0, b"four").is_pending() && write(1, b"four").is_pending());
    assert!(pump.poll().is_pending());
    // room for four bytes is kept for both, and there is more for the first
    assert!(matches!(write(0, &[1; 5000]), Poll::Ready(Ok(5000))));
    assert!(write(1, &[1; 5000]).is_pending());
    assert!(write(1, &[1; 5000]).is_pending());
    assert!(pump.poll().is_pending());
    assert!(matches!(write(1, &[1; 5000]), Poll::Ready(Ok(5000))));
}

/// A stream that takes a byte at a time, and in the midst of one write a message is written.
struct Meddled(usize, Arc<Mutex<Option<Outbound>>>);

impl AsyncWrite for Meddled {
    fn poll_write(mut self: Pin<&mut Self>, _: &mut Context<'_>, _: &[u8]) -> Poll<io::Result<usize>> {
        self.0 += 1;
        if self.0 == 32 {
            let outbound = self.1.lock().unwrap().take().unwrap();
            drop(outbound.try_write(b"!").unwrap());
        }
        Poll::Ready(Ok(1))
    }

    fn poll_flush(self: Pin<&mut Self>, _: &mut Context<'_>) -> Poll<io::Result<()>> {
        Poll::Ready(Ok(()))
    }

    fn poll_shutdown(self: Pin<&mut Self>, _: &mut Context<'_>) -> Poll<io::Result<()>> {
        Poll::Ready(Ok(()))
    }
}

#[test]
fn what_is_written_in_the_midst_of_the_last_turn_is_sent() {
    let meddler = Arc::default();
    let (outbound, pump) = split(Meddled(0, Arc::clone(&meddler)), Marks::default()).unwrap();
    *meddler.lock().unwrap() = Some(outbound.clone());
    drop(outbound.try_write(&[7; 32]).unwrap());
    let mut pump = ByHand::new(pump).waits();
    // it comes again by itself, as long as there is something to send
    while outbound.pending() > 0 {
        let woken = pump.woken();
        assert!(woken > 0, "it is woken");
        pump = ByHand { future: pump.future, woken: Arc::default() }.waits();
    }
}

#[test]
fn one_that_is_refused_or_comes_back_with_less_lets_the_next_in() {
    let (outbound, mut pump, _) = filled();
    // nobody touches these pages
    let mut refused = ByHand::new(outbound.write(vec![0; 2_200_000_000])).waits();
    let mut next = ByHand::new(outbound.write(b"next")).waits();
    assert!(pump.poll().is_pending());
    assert_eq!((refused.woken(), next.woken()), (1, 0));
    assert!(matches!(refused.poll(), Poll::Ready(Err(WriteError::Refused(Refusal::Oversize)))));
    assert_eq!(next.woken(), 1);
    assert!(next.poll().is_ready());
    assert!(matches!(outbound.try_write(vec![0; 2_200_000_000]), Err(TryWriteError::Full(_))));

    let stream = Memory::new(Within { vectored: true, ..Within::default() });
    let (outbound, pump) = split(stream, Marks { low: 300, high: 350 }).unwrap();
    let mut pump = ByHand::new(pump);
    drop(outbound.try_write(&[0; 300]).unwrap());
    let mut writer = outbound.clone().into_sink();
    let cx = &mut Context::from_waker(Waker::noop());
    let mut write = |bytes: &[u8]| AsyncWrite::poll_write(Pin::new(&mut writer), cx, bytes);
    assert!(write(&[0; 500]).is_pending());
    let next = ByHand::new(outbound.write(b"next")).waits();
    assert!(pump.poll().is_pending());
    assert_eq!(next.woken(), 0);
    assert!(matches!(write(&[0; 4]), Poll::Ready(Ok(4))));
    assert_eq!(next.woken(), 1);
}

/// A waker that asks the connection when it is woken and when it is dropped.
struct Asks(Outbound);

impl Wake for Asks {
    fn wake(self: Arc<Self>) {
        let _ = self.0.is_writable();
    }
}

impl Drop for Asks {
    fn drop(&mut self) {
        let _ = self.0.is_writable();
    }
}

/// Polls a future once, with a waker that is dropped here and so kept by what is polled alone.
fn polled_by_one_that_asks(future: Pin<&mut dyn Future<Output = ()>>, outbound: &Outbound) -> bool {
    let waker = Waker::from(Arc::new(Asks(outbound.clone())));
    future.poll(&mut Context::from_waker(&waker)).is_ready()
}

#[test]
fn no_waker_is_called_or_dropped_under_the_lock() {
    let (done, told) = channel();
    thread::spawn(move || {
        for turn in 0..3 {
            let (outbound, pump, stream) = filled();
            let mut pump = Box::pin(async { drop(pump.future.await) });
            let mut write = Box::pin(async { drop(outbound.write(b"news").await) });
            let mut drained = Box::pin(async { assert!(outbound.drained().await.is_ok()) });
            // a new waker each time, so that the one before it is dropped
            for _ in 0..3 {
                assert!(!polled_by_one_that_asks(write.as_mut(), &outbound));
                assert!(!polled_by_one_that_asks(drained.as_mut(), &outbound));
            }
            if turn < 2 {
                // all who wait are woken, and then it sleeps, with another waker each time
                for _ in 0..3 {
                    assert!(!polled_by_one_that_asks(pump.as_mut(), &outbound));
                }
                assert_eq!(stream.with(|within| within.got.clone()), b"full");
            }
            if turn == 1 {
                assert!(polled_by_one_that_asks(write.as_mut(), &outbound));
            }
            drop((write, drained, pump));
        }
        done.send(()).unwrap();
    });
    told.recv_timeout(Duration::from_secs(20)).expect("it locked itself out, or failed");
}

#[test]
fn marks_and_estimates_are_held() {
    let refused = |marks| split(tokio::io::sink(), marks).map(drop).unwrap_err();
    assert_eq!(refused(Marks { low: 0, high: 10 }), Refusal::BadMarks);
    assert_eq!(refused(Marks { low: 11, high: 10 }), Refusal::BadMarks);
    assert_eq!(refused(Marks { low: 1, high: 1 << 31 }), Refusal::BadMarks);
    let estimate = |overhead| split_with(tokio::io::sink(), MARKS, Estimate { overhead, unknown: 8 });
    assert_eq!(estimate(65536).map(drop).unwrap_err(), Refusal::BadEstimate);
    let (outbound, _pump) = estimate(10).unwrap();
    drop(outbound.try_write(b"news").unwrap());
    assert_eq!(outbound.pending(), 14);
}

#[test]
fn all_goes_to_other_threads() {
    fn goes<T: Send>(_: &T) {}
    fn is_shared<T: Sync>(_: &T) {}
    let (outbound, pump, _) = opened();
    let write = outbound.write(Bytes::new());
    goes(&write);
    drop(write);
    goes(&outbound.finish());
    goes(&pump.future);
    goes(&outbound);
    is_shared(&outbound);
    goes(&outbound.try_write(b"").unwrap());
}
