//! `core`: turns of lanes on one word, each with its trace.

use crate::Fault;
use crate::outbound::{Change, Marks};
use crate::script::{GREATEST_U32, LineFault, Words, lines};
use crate::trace::Trace;
use std::io::Write;

const MOST_LANES: usize = 64;

enum Ask {
    Charge(u32),
    Discharge,
    Bit(u32, bool),
    Word,
    Total,
    Go,
}

enum Line {
    Lane { room: u32, bits: u32 },
    Turn(u32, Ask),
}

/// Why an ask is refused, by the numbers under which traces know it.
#[derive(Clone, Copy)]
enum AskFault {
    UnknownLane = 1,
    NoRoom = 2,
    Owing = 3,
    NotOwing = 4,
    NotHeld = 5,
    NotInside = 6,
}

struct Lane {
    room: u32,
    bits: u32,
    debt: Option<u32>,
}

struct World {
    marks: Marks,
    total: u32,
    word: u32,
    lanes: Vec<Lane>,
    turned: bool,
}

pub fn run<W: Write>(script: &[u8], marks: Marks, trace: &mut Trace<W>) -> Result<(), Fault> {
    let mut world = World { marks, total: 0, word: 0, lanes: Vec::new(), turned: false };
    for (number, line) in lines(script).enumerate() {
        let at = |fault| Fault::Line(number + 1, fault);
        match read(line).map_err(at)? {
            Line::Lane { room, bits } => world.add_lane(room, bits, trace).map_err(at)?,
            Line::Turn(lane, ask) => world.trace_turn(lane, ask, trace).map_err(at)?,
        }
        trace.end_line()?;
    }
    if !world.lanes.is_empty() {
        trace.text("end quiet owed=");
        trace.number(world.lanes.iter().map(|lane| u64::from(lane.debt.unwrap_or(0))).sum());
        trace.end_line()?;
    }
    Ok(())
}

fn read(line: &[u8]) -> Result<Line, LineFault> {
    let words = Words::of(line)?;
    let turn = |ask| Ok(Line::Turn(words.number_u32(1)?, ask));
    let takes = |numbers| words.takes(numbers);
    match words.first() {
        b"lane" => takes(2).and_then(|()| Ok(Line::Lane { room: words.number_u32(1)?, bits: words.number_u32(2)? })),
        b"c" => takes(2).and_then(|()| Ok(Line::Turn(words.number_u32(1)?, Ask::Charge(words.number_u32(2)?)))),
        b"d" => takes(1).and_then(|()| turn(Ask::Discharge)),
        b"u" => takes(3).and_then(|()| {
            let lane = words.number_u32(1)?;
            Ok(Line::Turn(lane, Ask::Bit(words.number(2, 0, 255)? as u32, words.flag(3)?)))
        }),
        b"w" => takes(1).and_then(|()| turn(Ask::Word)),
        b"t" => takes(1).and_then(|()| turn(Ask::Total)),
        b"k" => takes(1).and_then(|()| turn(Ask::Go)),
        _ => Err(LineFault::FirstWord),
    }
}

impl World {
    fn add_lane<W: Write>(&mut self, room: u32, bits: u32, trace: &mut Trace<W>) -> Result<(), LineFault> {
        let rooms: u64 = self.lanes.iter().map(|lane| u64::from(lane.room)).sum();
        let held = self.lanes.iter().fold(1, |held, lane| held | lane.bits);
        let full = self.lanes.len() == MOST_LANES || rooms + u64::from(room) > GREATEST_U32;
        if self.turned || full || bits & held != 0 {
            return Err(LineFault::Misplaced);
        }
        trace.text("lane ");
        trace.number(self.lanes.len() as u64);
        self.lanes.push(Lane { room, bits, debt: None });
        Ok(())
    }

    fn trace_turn<W: Write>(&mut self, lane: u32, ask: Ask, trace: &mut Trace<W>) -> Result<(), LineFault> {
        if self.lanes.is_empty() {
            return Err(LineFault::Misplaced);
        }
        self.turned = true;
        let before = self.word;
        match self.turn(lane, ask) {
            Ok(event) => trace.text(event),
            Err(fault) => {
                trace.text("!");
                trace.number(fault as u64);
            }
        }
        trace.state(self.total, self.word);
        trace.change(Change::between(before, self.word));
        Ok(())
    }

    fn turn(&mut self, lane: u32, ask: Ask) -> Result<&'static str, AskFault> {
        let lane = self.lanes.get_mut(lane as usize).ok_or(AskFault::UnknownLane)?;
        match ask {
            Ask::Charge(_) if lane.debt.is_some() => Err(AskFault::Owing),
            Ask::Charge(amount) if amount > lane.room => Err(AskFault::NoRoom),
            Ask::Charge(amount) => {
                lane.debt = Some(amount);
                self.total += amount;
                if amount > 0 && self.total > self.marks.high {
                    self.word |= 1;
                }
                Ok(if amount == 0 { "none" } else { "add" })
            }
            Ask::Discharge => {
                let amount = lane.debt.take().ok_or(AskFault::NotOwing)?;
                self.total -= amount;
                if amount > 0 && self.total < self.marks.low {
                    self.word &= !1;
                }
                Ok(if amount == 0 { "none" } else { "sub" })
            }
            Ask::Bit(index, _) if index > 31 || lane.bits & (1 << index) == 0 => Err(AskFault::NotHeld),
            Ask::Bit(index, true) => {
                self.word &= !(1 << index);
                Ok("bit")
            }
            Ask::Bit(index, false) => {
                self.word |= 1 << index;
                Ok("bit")
            }
            Ask::Word => Ok("word"),
            Ask::Total => Ok("total"),
            Ask::Go => Err(AskFault::NotInside),
        }
    }
}
