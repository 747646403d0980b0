//! The lines of a script and their words, with the faults of a line by the numbers that the program prints.

use crate::outbound::Marks;

pub const GREATEST_U32: u64 = u32::MAX as u64;
const GREATEST_MARK: u64 = 2147483647;
const LONGEST_LINE: usize = 200;
const MOST_WORDS: usize = 4;

/// What is wrong with a line, by numbers from 1 on.
#[derive(Clone, Copy)]
pub enum LineFault {
    FirstWord = 1,
    Number,
    Range,
    TooFew,
    TooMany,
    TooLong,
    Misplaced,
}

/// The lines of a script; what stands behind the last line end is one more, if it is anything.
pub fn lines(script: &[u8]) -> impl Iterator<Item = &[u8]> {
    let body = script.strip_suffix(b"\n").unwrap_or(script);
    body.split(|byte| *byte == b'\n').take(if script.is_empty() { 0 } else { usize::MAX })
}

/// A line cut at its spaces.
pub struct Words<'a> {
    words: [&'a [u8]; MOST_WORDS],
    count: usize,
}

impl<'a> Words<'a> {
    pub fn of(line: &'a [u8]) -> Result<Words<'a>, LineFault> {
        if line.len() > LONGEST_LINE {
            return Err(LineFault::TooLong);
        }
        let mut cut = Words { words: [&[]; MOST_WORDS], count: 0 };
        for word in line.split(|byte| *byte == b' ') {
            if cut.count < MOST_WORDS {
                cut.words[cut.count] = word;
            }
            cut.count += 1;
        }
        Ok(cut)
    }

    pub fn first(&self) -> &'a [u8] {
        self.words[0]
    }

    /// That this many numbers stand behind the first word.
    pub fn takes(&self, numbers: usize) -> Result<(), LineFault> {
        match self.count {
            count if count < numbers + 1 => Err(LineFault::TooFew),
            count if count > numbers + 1 => Err(LineFault::TooMany),
            _ => Ok(()),
        }
    }

    /// The number of a word, which is within its range.
    pub fn number(&self, place: usize, least: u64, most: u64) -> Result<u64, LineFault> {
        let word = self.words[place];
        if word.is_empty() || !word.iter().all(u8::is_ascii_digit) {
            return Err(LineFault::Number);
        }
        let add = |number: u64, digit: &u8| number.checked_mul(10)?.checked_add(u64::from(digit - b'0'));
        let number = word.iter().try_fold(0, add).ok_or(LineFault::Range)?;
        if (least..=most).contains(&number) { Ok(number) } else { Err(LineFault::Range) }
    }

    pub fn number_u32(&self, place: usize) -> Result<u32, LineFault> {
        Ok(self.number(place, 0, GREATEST_U32)? as u32)
    }

    pub fn flag(&self, place: usize) -> Result<bool, LineFault> {
        Ok(self.number(place, 0, 1)? == 1)
    }

    /// Two marks, from a word on.
    pub fn marks(&self, place: usize) -> Result<Marks, LineFault> {
        let low = self.number(place, 0, GREATEST_MARK)? as u32;
        let high = self.number(place + 1, 0, GREATEST_MARK)? as u32;
        if low > high { Err(LineFault::Misplaced) } else { Ok(Marks { low, high }) }
    }
}
