//! `run`: the commands of a script, each with its trace.

use crate::Fault;
use crate::history::Recorded;
use crate::outbound::{Answer, Bytes, Command, Message, Outcome, Reply};
use crate::script::{LineFault, Words, lines};
use crate::trace::Trace;
use std::io::{self, Write};

const LONGEST_BLOCK: u64 = 1048576;
const PATTERN: usize = 4096;

enum Line {
    Block(usize),
    Call(Command),
    Look,
    Gather(usize, u64),
}

pub fn run<W: Write>(script: &[u8], recorded: &mut Recorded, trace: &mut Trace<W>) -> Result<(), Fault> {
    let counting: Vec<u8> = (0..256 + PATTERN).map(|at| at as u8).collect();
    let pattern = Bytes::new(&counting);
    for (number, line) in lines(script).enumerate() {
        let line = read(line).map_err(|fault| Fault::Line(number + 1, fault))?;
        match line {
            Line::Block(len) => {
                let message = Message::Block(block(&pattern, recorded.buffer.writes(), len));
                call(recorded, Command::Write(message), trace);
            }
            Line::Call(command) => call(recorded, command, trace),
            Line::Look => look(recorded, trace),
            Line::Gather(count, bytes) => gather(recorded, count, bytes, trace),
        }
        trace.end_line()?;
    }
    Ok(())
}

fn read(line: &[u8]) -> Result<Line, LineFault> {
    let words = Words::of(line)?;
    let call = |command| Ok(Line::Call(command));
    let takes = |numbers| words.takes(numbers);
    match words.first() {
        b"b" => takes(1).and_then(|()| Ok(Line::Block(words.number(1, 0, LONGEST_BLOCK)? as usize))),
        b"r" => takes(1).and_then(|()| call(Command::Write(Message::Region(words.number(1, 0, u64::MAX)?)))),
        b"o" => takes(1).and_then(|()| call(Command::Write(Message::Other(words.number_u32(1)?)))),
        b"f" => takes(0).and_then(|()| call(Command::Flush)),
        b"rm" => takes(0).and_then(|()| call(Command::Remove)),
        b"rc" => takes(1).and_then(|()| call(Command::RemoveWith(words.number_u32(1)?))),
        b"rb" => takes(1).and_then(|()| call(Command::RemoveBytes(words.number(1, 0, u64::MAX)?))),
        b"p" => takes(1).and_then(|()| call(Command::Progress(words.number(1, 0, u64::MAX)?))),
        b"x" => takes(1).and_then(|()| call(Command::Cancel(words.number_u32(1)?))),
        b"fl" => takes(2).and_then(|()| call(Command::FailFlushed(words.number_u32(1)?, words.flag(2)?))),
        b"cl" => takes(1).and_then(|()| call(Command::Close(words.number_u32(1)?))),
        b"u" => takes(2).and_then(|()| call(Command::UserBit(words.number(1, 0, 255)? as u32, words.flag(2)?))),
        b"m" => takes(2).and_then(|()| call(Command::SetMarks(words.marks(1)?))),
        b"?" => takes(0).map(|()| Line::Look),
        b"g" => takes(2)
            .and_then(|()| Ok(Line::Gather(words.number(1, 1, 1024)? as usize, words.number(2, 1, 2147483647)?))),
        _ => Err(LineFault::FirstWord),
    }
}

/// A block whose bytes count up, from the number of its promise on.
fn block(pattern: &Bytes, id: usize, len: usize) -> Bytes {
    if len <= PATTERN {
        return pattern.part(id % 256, len);
    }
    let counting: Vec<u8> = (0..len).map(|at| (id + at) as u8).collect();
    Bytes::new(&counting)
}

fn call<W: Write>(recorded: &mut Recorded, command: Command, trace: &mut Trace<W>) {
    let full = recorded.call(0, command).err();
    let (total, word) = (recorded.buffer.total(), recorded.buffer.word());
    let reply = match full {
        Some(refusal) => Err(refusal),
        None => recorded.records[recorded.records.len() - 1].reply.as_ref().map_err(|refusal| *refusal),
    };
    match reply {
        Err(refusal) => {
            trace.text("!");
            trace.number(refusal as u64);
            trace.state(total, word);
        }
        Ok(reply) => {
            write_answer(reply.answer, trace);
            trace.state(total, word);
            write_rest(reply, trace);
        }
    }
}

fn write_answer<W: Write>(answer: Answer, trace: &mut Trace<W>) {
    match answer {
        Answer::Id(id) => {
            trace.text("id ");
            trace.number(u64::from(id));
        }
        Answer::Count(count) => {
            trace.text("n ");
            trace.number(u64::from(count));
        }
        Answer::Yes(true) => trace.text("yes"),
        Answer::Yes(false) => trace.text("no"),
        Answer::Done => trace.text("ok"),
    }
}

fn write_rest<W: Write>(reply: &Reply, trace: &mut Trace<W>) {
    trace.change(reply.change);
    for (id, outcome) in reply.settled.iter() {
        trace.text(" ");
        trace.number(u64::from(*id));
        match outcome {
            Outcome::Success => trace.text(":ok"),
            Outcome::Failed(cause) => {
                trace.text(":f");
                trace.number(u64::from(*cause));
            }
            Outcome::Cancelled => trace.text(":x"),
        }
    }
}

fn look<W: Write>(recorded: &Recorded, trace: &mut Trace<W>) {
    let look = recorded.buffer.look();
    let numbers = [
        ("size=", look.size as u64),
        (" cur=", look.current_progress),
        (" bu=", u64::from(look.before_unwritable)),
        (" bw=", u64::from(look.before_writable)),
    ];
    for (name, number) in numbers {
        trace.text(name);
        trace.number(number);
    }
    trace.state(look.total, look.word);
}

fn gather<W: Write>(recorded: &Recorded, count: usize, bytes: u64, trace: &mut Trace<W>) {
    trace.text("g");
    for block in recorded.buffer.gather(count, bytes) {
        trace.text(" ");
        trace.number(block.len() as u64);
    }
    trace.state(recorded.buffer.total(), recorded.buffer.word());
}

impl From<io::Error> for Fault {
    fn from(_: io::Error) -> Fault {
        Fault::Write
    }
}
