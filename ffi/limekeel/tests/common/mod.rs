//! Scripts of `ob_tool run`, carried out through this crate. docs/formats.md has their lines and their traces.

mod shadow;

use limekeel::{Change, Connection, Current, Estimate, Marks, Outcome, Refusal, Removed, Taken, Written};
use shadow::Shadow;
use std::fmt::Write;

/// What a line returns: its answer, the change, and the settlements.
type Answer = Result<(String, Option<Change>, Vec<(u64, Outcome)>), Refusal>;

/// A connection, how many writes it accepted, and what it is to show.
pub struct Player {
    connection: Connection,
    accepted: u64,
    shadow: Shadow,
}

impl Player {
    pub fn new(marks: Marks, estimate: Estimate) -> Player {
        let connection = Connection::open(marks, estimate).expect("the marks are good");
        Player { connection, accepted: 0, shadow: Shadow::default() }
    }

    /// The trace of a script.
    pub fn trace(&mut self, script: &str) -> String {
        script.lines().map(|line| self.line(line) + "\n").collect()
    }

    fn line(&mut self, line: &str) -> String {
        let words: Vec<&str> = line.split(' ').collect();
        let numbers: Vec<u64> = words[1..].iter().map(|word| word.parse().expect("a number")).collect();
        match words[0] {
            "?" => self.look(),
            "g" => self.gather(numbers[0], numbers[1] as u32),
            word => {
                let answer = self.command(word, &numbers);
                self.shadow.check(&self.connection);
                self.told(answer)
            }
        }
    }

    fn command(&mut self, word: &str, numbers: &[u64]) -> Answer {
        let connection = &mut self.connection;
        match word {
            "b" => {
                let bytes: Vec<u8> = (0..numbers[0]).map(|place| (self.accepted + place) as u8).collect();
                let written = connection.write(&bytes);
                self.wrote(written, Current::Block(numbers[0]))
            }
            "r" => {
                let written = connection.write_region(numbers[0]);
                self.wrote(written, Current::Region(numbers[0]))
            }
            "o" => {
                let written = connection.write_other(numbers[0] as u32);
                self.wrote(written, Current::Other(numbers[0] as u32))
            }
            "f" => connection.flush().map(|flushed| {
                self.shadow.flush();
                (format!("n {}", flushed.count), flushed.change, Vec::new())
            }),
            "rm" => connection.remove().map(|reply| removed(reply, &mut self.shadow)),
            "rc" => connection.remove_with(numbers[0] as u32).map(|reply| removed(reply, &mut self.shadow)),
            "rb" => connection.take_sent(numbers[0]).map(|reply| {
                self.shadow.take(reply.count, numbers[0]);
                taken(reply)
            }),
            "p" => connection.progress(numbers[0]).map(|()| {
                self.shadow.progress(numbers[0]);
                ("ok".to_owned(), None, Vec::new())
            }),
            "x" => connection.cancel(numbers[0]).map(|in_time| {
                if in_time {
                    self.shadow.cancel(numbers[0]);
                }
                let settled = if in_time { vec![(numbers[0], Outcome::Cancelled)] } else { Vec::new() };
                (if in_time { "yes" } else { "no" }.to_owned(), None, settled)
            }),
            "fl" => {
                connection.fail_flushed(numbers[0] as u32, numbers[1] == 1).map(|reply| gone(reply, &mut self.shadow))
            }
            "cl" => connection.close(numbers[0] as u32).map(|reply| gone(reply, &mut self.shadow)),
            "u" => connection
                .user_bit(numbers[0] as u32, numbers[1] == 1)
                .map(|change| ("ok".to_owned(), change, Vec::new())),
            "m" => {
                let marks = Marks { low: numbers[0] as u32, high: numbers[1] as u32 };
                connection.set_marks(marks).map(|()| ("ok".to_owned(), None, Vec::new()))
            }
            _ => unreachable!("a word of a script"),
        }
    }

    fn wrote(&mut self, written: Result<Written, Refusal>, left: Current) -> Answer {
        let written = written?;
        self.shadow.write(left);
        self.accepted += 1;
        Ok((format!("id {}", written.id), written.change, Vec::new()))
    }

    fn told(&self, answer: Answer) -> String {
        let (text, change, settled) =
            answer.unwrap_or_else(|refusal| (format!("!{}", refusal.number()), None, Vec::new()));
        let mut line = text + &self.pending();
        match change {
            Some(Change::Unwritable) => line += " -",
            Some(Change::Writable) => line += " +",
            None => {}
        }
        for (id, outcome) in settled {
            match outcome {
                Outcome::Success => write!(line, " {id}:ok"),
                Outcome::Failed(cause) => write!(line, " {id}:f{cause}"),
                Outcome::Cancelled => write!(line, " {id}:x"),
            }
            .expect("a string takes all");
        }
        line
    }

    fn pending(&self) -> String {
        let look = self.connection.look();
        assert_eq!(self.connection.is_writable(), look.word == 0);
        format!(" t={} w={:08x}", look.total, look.word)
    }

    fn look(&self) -> String {
        let look = self.connection.look();
        let text = format!(
            "size={} cur={} bu={} bw={}",
            look.size, look.current_progress, look.before_unwritable, look.before_writable
        );
        text + &self.pending()
    }

    fn gather(&self, count: u64, max_bytes: u32) -> String {
        let lengths = match count {
            1 => self.lengths::<1>(max_bytes),
            2 => self.lengths::<2>(max_bytes),
            5 => self.lengths::<5>(max_bytes),
            17 => self.lengths::<17>(max_bytes),
            64 => self.lengths::<64>(max_bytes),
            _ => unreachable!("one of the counts that scripts ask for"),
        };
        let text: String = lengths.iter().map(|length| format!(" {length}")).collect();
        format!("g{text}{}", self.pending())
    }

    fn lengths<const N: usize>(&self, max_bytes: u32) -> Vec<usize> {
        self.connection.pieces::<N>(max_bytes).iter().map(|piece| piece.len()).collect()
    }
}

fn removed(removed: Removed, shadow: &mut Shadow) -> (String, Option<Change>, Vec<(u64, Outcome)>) {
    shadow.remove(u64::from(removed.any));
    let text = if removed.any { "yes" } else { "no" };
    (text.to_owned(), removed.change, removed.settled.into_iter().collect())
}

fn gone(reply: Taken, shadow: &mut Shadow) -> (String, Option<Change>, Vec<(u64, Outcome)>) {
    shadow.remove(reply.count);
    taken(reply)
}

fn taken(taken: Taken) -> (String, Option<Change>, Vec<(u64, Outcome)>) {
    (format!("n {}", taken.count), taken.change, taken.settled().collect())
}
