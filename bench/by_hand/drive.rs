//! `drive`: writers in threads, a transport beside them, and a report that counts the history.

use crate::hand_off::HandOff;
use crate::history::{Record, Recorded};
use crate::outbound::{Bytes, Command, Estimate, Marks, Message, Outcome, Refusal};
use crate::script::{GREATEST_U32, LineFault, Words, lines};
use crate::trace::Trace;
use crate::{Fault, TASK};
use std::io::Write;
use std::sync::atomic::{AtomicUsize, Ordering::SeqCst};
use std::sync::{Mutex, MutexGuard};
use std::thread;
use std::time::Duration;

// what a line may ask for: how long a block, how many of them, and by which writer
const LONGEST_BLOCK: u64 = 1048576;
const MOST_COPIES: u64 = 1024;
const LAST_WRITER: u64 = 63;

// passes of the transport: the most that a line may ask for, and the most if none does
const MOST_TURNS: u64 = 16777216;
const MOST_PASSES: u64 = 1000000;

// the numbers under which the program tells the faults of a drive
const BAD_COUNT: u32 = 1;
const TOO_MUCH_ROOM: u32 = 3;
const REFUSED: u32 = 6;
const TRANSPORT: u32 = 7;
const FINISH: u32 = 8;

enum SinkStep {
    Take(u64),
    Fail(u32),
}

/// What the lines of a script ask.
#[derive(Default)]
struct Script {
    plans: Vec<Vec<Command>>,
    steps: Vec<SinkStep>,
    after: Option<u64>,
    turns: Option<u64>,
}

/// Takes what it is offered, as its script says.
struct Sink {
    steps: std::vec::IntoIter<SinkStep>,
    after: u64,
    taken: Vec<u8>,
    units: u64,
}

struct Shared {
    recorded: Mutex<Recorded>,
    hand_off: HandOff,
    estimate: Estimate,
    running: AtomicUsize,
}

enum Pass {
    Idle,
    Moved,
}

enum PassFault {
    Sink(u32),
    History,
}

pub fn run<W: Write>(
    script: &[u8],
    recorded: Recorded,
    marks: Marks,
    estimate: Estimate,
    trace: &mut Trace<W>,
) -> Result<(), Fault> {
    let script = read(script)?;
    let writers = script.plans.len();
    check(&script.plans, estimate)?;
    let shared = Shared {
        recorded: Mutex::new(recorded),
        hand_off: HandOff::new(marks),
        estimate,
        running: AtomicUsize::new(writers),
    };
    let mut sink =
        Sink { steps: script.steps.into_iter(), after: script.after.unwrap_or(u64::MAX), taken: Vec::new(), units: 0 };
    let receipts = carry_out(script.plans, &shared, script.turns.unwrap_or(MOST_PASSES), &mut sink)?;
    let recorded = shared.recorded.into_inner().map_err(|_| Fault::Drive(FINISH))?;
    if !all_stand(&receipts, &recorded.records) {
        return Err(Fault::Drive(FINISH));
    }
    report(&recorded.records, writers as u32, shared.hand_off.load(), trace)
}

/// Each plan in a thread of its own, and the transport in this one: the receipts of each, those of the transport last.
fn carry_out(
    plans: Vec<Vec<Command>>,
    shared: &Shared,
    turns: u64,
    sink: &mut Sink,
) -> Result<Vec<Vec<Record>>, Fault> {
    let writers = plans.len() as u32;
    thread::scope(|scope| {
        let start = |(writer, plan)| scope.spawn(move || write_plan(plan, writer, shared));
        let threads: Vec<_> = (0..writers).zip(plans).map(start).collect();
        let transported = transport(shared, writers, turns, sink);
        let mut receipts = Vec::with_capacity(threads.len() + 1);
        for thread in threads {
            receipts.push(thread.join().map_err(|_| Fault::Drive(REFUSED))??);
        }
        receipts.push(transported?);
        Ok(receipts)
    })
}

fn read(bytes: &[u8]) -> Result<Script, Fault> {
    let mut script = Script::default();
    for (number, line) in lines(bytes).enumerate() {
        script.read_line(line).map_err(|fault| Fault::Line(number + 1, fault))?;
    }
    Ok(script)
}

impl Script {
    fn read_line(&mut self, line: &[u8]) -> Result<(), LineFault> {
        let words = Words::of(line)?;
        let takes = |numbers| words.takes(numbers);
        let writer = || Ok::<_, LineFault>(words.number(1, 0, LAST_WRITER)? as usize);
        match words.first() {
            b"b" => {
                takes(3)?;
                let writer = writer()?;
                let bytes = vec![writer as u8; words.number(2, 0, LONGEST_BLOCK)? as usize];
                let write = Command::Write(Message::Block(Bytes::new(&bytes)));
                let copies = words.number(3, 1, MOST_COPIES)? as usize;
                self.plan(writer).extend(std::iter::repeat_n(write, copies));
            }
            b"r" => {
                takes(2)?;
                let write = Command::Write(Message::Region(words.number(2, 0, u64::MAX)?));
                self.plan(writer()?).push(write);
            }
            b"o" => {
                takes(2)?;
                let write = Command::Write(Message::Other(words.number_u32(2)?));
                self.plan(writer()?).push(write);
            }
            b"f" => takes(1).and_then(|()| Ok(self.plan(writer()?).push(Command::Flush)))?,
            b"x" => takes(2).and_then(|()| {
                let cancel = Command::Cancel(words.number_u32(2)?);
                Ok(self.plan(writer()?).push(cancel))
            })?,
            b"u" => {
                takes(3)?;
                let bit = Command::UserBit(words.number(2, 0, 255)? as u32, words.flag(3)?);
                self.plan(writer()?).push(bit);
            }
            b"m" => {
                takes(3)?;
                let marks = Command::SetMarks(words.marks(2)?);
                self.plan(writer()?).push(marks);
            }
            b"take" => {
                takes(1).and_then(|()| Ok(self.steps.push(SinkStep::Take(words.number(1, 0, GREATEST_U32)?))))?
            }
            b"fail" => takes(1).and_then(|()| Ok(self.steps.push(SinkStep::Fail(words.number_u32(1)?))))?,
            b"then" => takes(1).and_then(|()| once(&mut self.after, words.number(1, 0, GREATEST_U32)?))?,
            b"turns" => takes(1).and_then(|()| once(&mut self.turns, words.number(1, 1, MOST_TURNS)?))?,
            _ => return Err(LineFault::FirstWord),
        }
        Ok(())
    }

    /// The plan of a writer, which a line names for the first time or again.
    fn plan(&mut self, writer: usize) -> &mut Vec<Command> {
        if self.plans.len() <= writer {
            self.plans.resize_with(writer + 1, Vec::new);
        }
        &mut self.plans[writer]
    }
}

fn once(place: &mut Option<u64>, number: u64) -> Result<(), LineFault> {
    match place.replace(number) {
        None => Ok(()),
        Some(_) => Err(LineFault::Misplaced),
    }
}

/// That there are plans, and lanes with room for the greatest charge of each.
fn check(plans: &[Vec<Command>], estimate: Estimate) -> Result<(), Fault> {
    if plans.is_empty() {
        return Err(Fault::Drive(BAD_COUNT));
    }
    let room = |plan: &Vec<Command>| plan.iter().map(|command| charge_of(command, estimate)).max().unwrap_or(0);
    if plans.iter().map(room).sum::<u64>() > GREATEST_U32 {
        return Err(Fault::Drive(TOO_MUCH_ROOM));
    }
    Ok(())
}

fn charge_of(command: &Command, estimate: Estimate) -> u64 {
    match command {
        Command::Write(message) => estimate.readable(message) + u64::from(TASK),
        _ => 0,
    }
}

impl Shared {
    fn lock(&self) -> Result<MutexGuard<'_, Recorded>, Fault> {
        self.recorded.lock().map_err(|_| Fault::Drive(FINISH))
    }
}

/// One writer: each command charged, given to the buffer, discharged, and its receipt kept.
fn write_plan(plan: Vec<Command>, caller: u32, shared: &Shared) -> Result<Vec<Record>, Fault> {
    let mut receipts = Vec::with_capacity(plan.len());
    let mut done = Ok(());
    for command in plan {
        let charge = charge_of(&command, shared.estimate) as u32;
        if charge > 0 {
            shared.hand_off.charge(charge);
        }
        let receipt = shared.lock()?.call(caller, command).cloned();
        if charge > 0 {
            shared.hand_off.discharge(charge);
        }
        match receipt {
            Ok(receipt) => receipts.push(receipt),
            Err(_) => {
                done = Err(Fault::Drive(REFUSED));
                break;
            }
        }
    }
    shared.running.fetch_sub(1, SeqCst);
    done.map(|()| receipts)
}

/// Passes until all writers have ended and there is nothing to do.
fn transport(shared: &Shared, caller: u32, turns: u64, sink: &mut Sink) -> Result<Vec<Record>, Fault> {
    let mut receipts = Vec::new();
    for _ in 0..turns {
        let ended = shared.running.load(SeqCst) == 0;
        let mut recorded = shared.lock()?;
        match pass(&mut recorded, caller, sink, &mut receipts) {
            Ok(Pass::Moved) => {}
            Ok(Pass::Idle) if ended => break,
            Ok(Pass::Idle) => {
                drop(recorded);
                thread::sleep(Duration::from_millis(1));
            }
            Err(PassFault::Sink(cause)) => {
                let failing = recorded.call(caller, Command::FailFlushed(cause, true));
                receipts.push(failing.map_err(|_| Fault::Drive(TRANSPORT))?.clone());
            }
            Err(PassFault::History) => return Err(Fault::Drive(TRANSPORT)),
        }
    }
    Ok(receipts)
}

// what one pass offers to the sink at most
const BLOCKS: usize = 16;
const BYTES: u64 = 65536;

/// Asks the sink once for what stands in front, and books what it took.
fn pass(recorded: &mut Recorded, caller: u32, sink: &mut Sink, receipts: &mut Vec<Record>) -> Result<Pass, PassFault> {
    let mut book = |recorded: &mut Recorded, command| {
        receipts.push(recorded.call(caller, command)?.clone());
        Ok::<_, PassFault>(Pass::Moved)
    };
    match recorded.buffer.current() {
        None => Ok(Pass::Idle),
        Some((Message::Other(_), _)) => book(recorded, Command::RemoveWith(1)),
        Some((Message::Region(length), progress)) => {
            let rest = length.saturating_sub(progress);
            if rest == 0 {
                return book(recorded, Command::Remove);
            }
            has_room(recorded)?;
            let taken = sink.next_step()?.min(rest);
            if taken == 0 {
                return Ok(Pass::Idle);
            }
            sink.units += taken;
            book(recorded, Command::Progress(taken))?;
            if taken == rest { book(recorded, Command::Remove) } else { Ok(Pass::Moved) }
        }
        Some((Message::Block(_), _)) => {
            let blocks: Vec<Bytes> = recorded.buffer.gather(BLOCKS, BYTES).cloned().collect();
            if blocks.is_empty() {
                return book(recorded, Command::RemoveBytes(0));
            }
            has_room(recorded)?;
            match sink.take(&blocks)? {
                0 => Ok(Pass::Idle),
                taken => book(recorded, Command::RemoveBytes(taken)),
            }
        }
    }
}

/// That two more records fit, before the sink is asked.
fn has_room(recorded: &Recorded) -> Result<(), PassFault> {
    if recorded.room() < 2 { Err(PassFault::History) } else { Ok(()) }
}

impl Sink {
    fn next_step(&mut self) -> Result<u64, PassFault> {
        match self.steps.next() {
            None => Ok(self.after),
            Some(SinkStep::Take(most)) => Ok(most),
            Some(SinkStep::Fail(cause)) => Err(PassFault::Sink(cause)),
        }
    }

    fn take(&mut self, blocks: &[Bytes]) -> Result<u64, PassFault> {
        let most = self.next_step()?;
        let mut room = most;
        for block in blocks {
            let count = room.min(block.len() as u64);
            self.taken.extend_from_slice(&block.as_slice()[..count as usize]);
            room -= count;
        }
        Ok(most - room)
    }
}

/// Whether each receipt names its caller and is the record at its place, and those of a caller rise in place.
fn all_stand(receipts: &[Vec<Record>], records: &[Record]) -> bool {
    receipts.iter().enumerate().all(|(caller, own)| {
        own.is_sorted_by(|one, next| one.place < next.place)
            && own
                .iter()
                .all(|receipt| receipt.caller == caller as u32 && records.get(receipt.place as usize) == Some(receipt))
    })
}

#[derive(Default)]
struct Counts {
    writes: u64,
    flushes: u64,
    cancels: u64,
    bits: u64,
    refused: u64,
    taken: u64,
    success: u64,
    failed: u64,
    cancelled: u64,
}

impl Counts {
    fn add(&mut self, record: &Record, transport: u32) {
        let Ok(reply) = &record.reply else {
            self.refused += u64::from(record.caller != transport);
            return;
        };
        match &record.command {
            Command::Write(_) => self.writes += 1,
            Command::Flush => self.flushes += 1,
            Command::Cancel(_) => self.cancels += 1,
            Command::UserBit(..) => self.bits += 1,
            Command::RemoveBytes(count) => self.taken += count,
            _ => {}
        }
        for (_, outcome) in reply.settled.iter() {
            match outcome {
                Outcome::Success => self.success += 1,
                Outcome::Failed(_) => self.failed += 1,
                Outcome::Cancelled => self.cancelled += 1,
            }
        }
    }
}

fn report<W: Write>(
    records: &[Record],
    transport: u32,
    (total, word): (u32, u32),
    trace: &mut Trace<W>,
) -> Result<(), Fault> {
    let mut counts = Counts::default();
    records.iter().for_each(|record| counts.add(record, transport));
    let left = counts.writes - counts.success - counts.failed - counts.cancelled;
    let rows = [
        ("writes ", counts.writes),
        ("flushes ", counts.flushes),
        ("cancels ", counts.cancels),
        ("bits ", counts.bits),
        ("refused ", counts.refused),
        ("taken ", counts.taken),
        ("success ", counts.success),
        ("failed ", counts.failed),
        ("cancelled ", counts.cancelled),
        ("left ", left),
    ];
    for (name, number) in rows {
        trace.text(name);
        trace.number(number);
        trace.end_line()?;
    }
    trace.text("hand ");
    trace.number(u64::from(total));
    trace.text(" ");
    trace.word(word);
    trace.end_line()?;
    Ok(())
}

impl From<Refusal> for PassFault {
    fn from(_: Refusal) -> PassFault {
        PassFault::History
    }
}
