//! A buffer with a record of each call, which no call of a thread of its own passes by.

use crate::outbound::{Buffer, Command, Estimate, Marks, Refusal, Reply};

#[derive(Clone, PartialEq)]
pub struct Record {
    pub place: u32,
    pub caller: u32,
    pub command: Command,
    pub reply: Result<Reply, Refusal>,
}

pub struct Recorded {
    pub buffer: Buffer,
    pub records: Vec<Record>,
    limit: usize,
}

impl Recorded {
    pub fn new(marks: Marks, estimate: Estimate, limit: usize) -> Recorded {
        Recorded { buffer: Buffer::new(marks, estimate), records: Vec::new(), limit }
    }

    /// Makes a call, and keeps it, also if the buffer refuses it. A full history refuses it without a record.
    pub fn call(&mut self, caller: u32, command: Command) -> Result<&Record, Refusal> {
        if self.room() == 0 {
            return Err(Refusal::HistoryFull);
        }
        let place = self.records.len();
        let reply = self.buffer.apply(command.clone());
        self.records.push(Record { place: place as u32, caller, command, reply });
        Ok(&self.records[place])
    }

    /// How many more calls can be kept.
    pub fn room(&self) -> usize {
        self.limit - self.records.len()
    }
}
