//! The buffer that remembers: it has the duties of `ob_seq`, and keeps what has become of each promise.

use super::outcomes::Outcomes;
use super::values::{
    Answer, Bytes, Change, Command, Estimate, Look, Marks, Message, Outcome, Refusal, Reply, Settlements,
};
use super::waiting::{Standing, Waiting};

const MAX_WRITES: usize = 1048576;

pub struct Buffer {
    waiting: Waiting,
    outcomes: Outcomes,
}

impl Buffer {
    pub fn new(marks: Marks, estimate: Estimate) -> Buffer {
        Buffer { waiting: Waiting::new(marks, estimate), outcomes: Outcomes::default() }
    }

    pub fn apply(&mut self, command: Command) -> Result<Reply, Refusal> {
        match command {
            Command::Write(message) => self.write(message),
            Command::Flush => self.flush(),
            Command::Remove => self.remove(),
            Command::RemoveWith(cause) => self.remove_as(Outcome::Failed(cause)),
            Command::RemoveBytes(count) => self.remove_bytes(count),
            Command::Progress(count) => self.progress(count),
            Command::Cancel(id) => self.cancel(id),
            Command::FailFlushed(cause, notify) => self.fail_flushed(cause, notify),
            Command::Close(cause) => self.close(cause),
            Command::UserBit(index, writable) => self.user_bit(index, writable),
            Command::SetMarks(marks) => self.set_marks(marks),
        }
    }

    // inlined, so that the message is not moved once more
    #[inline(always)]
    pub fn write(&mut self, message: Message) -> Result<Reply, Refusal> {
        self.waiting.check_open()?;
        let size = self.waiting.size_of(&message)?;
        if !self.waiting.has_bytes_left(size) || self.writes() >= MAX_WRITES {
            return Err(Refusal::TooMuch);
        }
        let before = self.word();
        let id = self.writes() as u32;
        self.waiting.add(message, size);
        Ok(self.reply(Answer::Id(id), Settlements::default(), before))
    }

    pub fn flush(&mut self) -> Result<Reply, Refusal> {
        self.waiting.check_open()?;
        let before = self.word();
        let count = self.waiting.flush();
        Ok(self.reply(Answer::Count(count as u32), Settlements::default(), before))
    }

    pub fn remove(&mut self) -> Result<Reply, Refusal> {
        self.remove_as(Outcome::Success)
    }

    fn remove_as(&mut self, outcome: Outcome) -> Result<Reply, Refusal> {
        self.waiting.check_open()?;
        let before = self.word();
        let mut settled = Settlements::default();
        let any = self.take_front(outcome, true, &mut settled);
        Ok(self.reply(Answer::Yes(any), settled, before))
    }

    pub fn remove_bytes(&mut self, count: u64) -> Result<Reply, Refusal> {
        self.waiting.check_open()?;
        let (whole, rest) = self.waiting.cut(count).ok_or(Refusal::TooManyBytes)?;
        let before = self.word();
        let settled = self.take_several(whole, Outcome::Success, true);
        self.waiting.skip_in_front(rest);
        Ok(self.reply(Answer::Count(whole as u32), settled, before))
    }

    fn progress(&mut self, count: u64) -> Result<Reply, Refusal> {
        self.waiting.check_open()?;
        self.waiting.progress(count)?;
        Ok(self.reply(Answer::Done, Settlements::default(), self.word()))
    }

    fn cancel(&mut self, id: u32) -> Result<Reply, Refusal> {
        self.waiting.check_open()?;
        if id as usize >= self.writes() {
            return Err(Refusal::UnknownPromise);
        }
        let before = self.word();
        let mut settled = Settlements::default();
        let place = id.checked_sub(self.outcomes.gone()).map(|place| place as usize);
        let waits = place.is_some_and(|place| self.waiting.standing(place) == Standing::Waiting);
        if let Some(place) = place.filter(|_| waits) {
            self.waiting.cancel(place);
            settled.push(id, Outcome::Cancelled);
        }
        Ok(self.reply(Answer::Yes(waits), settled, before))
    }

    fn fail_flushed(&mut self, cause: u32, notify: bool) -> Result<Reply, Refusal> {
        self.waiting.check_open()?;
        let before = self.word();
        let count = self.waiting.flushed();
        let settled = self.take_several(count, Outcome::Failed(cause), notify);
        Ok(self.reply(Answer::Count(count as u32), settled, before))
    }

    fn close(&mut self, cause: u32) -> Result<Reply, Refusal> {
        self.waiting.check_open()?;
        let (count, before) = (self.waiting.len(), self.word());
        let states: Vec<_> = (0..count).map(|place| self.waiting.standing(place)).collect();
        self.waiting.close()?;
        let mut settled = Settlements::with_room(count);
        for state in states {
            let outcome = if state == Standing::Cancelled { Outcome::Cancelled } else { Outcome::Failed(cause) };
            if state != Standing::Cancelled {
                settled.push(self.outcomes.gone(), outcome);
            }
            self.outcomes.push(outcome);
        }
        Ok(self.reply(Answer::Count(count as u32), settled, before))
    }

    fn user_bit(&mut self, index: u32, writable: bool) -> Result<Reply, Refusal> {
        self.waiting.check_open()?;
        let before = self.word();
        self.waiting.user_bit(index, writable)?;
        Ok(self.reply(Answer::Done, Settlements::default(), before))
    }

    fn set_marks(&mut self, marks: Marks) -> Result<Reply, Refusal> {
        self.waiting.check_open()?;
        self.waiting.set_marks(marks);
        Ok(self.reply(Answer::Done, Settlements::default(), self.word()))
    }

    pub fn total(&self) -> u32 {
        self.waiting.total()
    }

    pub fn word(&self) -> u32 {
        self.waiting.word()
    }

    /// How many writes were accepted.
    pub fn writes(&self) -> usize {
        self.outcomes.gone() as usize + self.waiting.len()
    }

    pub fn look(&self) -> Look {
        self.waiting.look()
    }

    pub fn current(&self) -> Option<(&Message, u64)> {
        self.waiting.current()
    }

    pub fn gather(&self, max_count: usize, max_bytes: u64) -> impl Iterator<Item = &Bytes> {
        self.waiting.gather(max_count, max_bytes)
    }

    fn take_several(&mut self, count: usize, outcome: Outcome, notify: bool) -> Settlements {
        let mut settled = Settlements::with_room(count);
        for _ in 0..count {
            self.take_front(outcome, notify, &mut settled);
        }
        settled
    }

    fn take_front(&mut self, outcome: Outcome, notify: bool, settled: &mut Settlements) -> bool {
        let Some(settles) = self.waiting.take_front(notify) else {
            return false;
        };
        if settles {
            settled.push(self.outcomes.gone(), outcome);
        }
        self.outcomes.push(if settles { outcome } else { Outcome::Cancelled });
        true
    }

    fn reply(&self, answer: Answer, settled: Settlements, before: u32) -> Reply {
        Reply { answer, settled, change: Change::between(before, self.word()) }
    }
}
