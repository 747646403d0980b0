//! The lines that are written, in large pieces.

use crate::outbound::Change;
use std::io::{self, Write};

const PIECE: usize = 65536;

pub struct Trace<W> {
    waiting: Vec<u8>,
    writer: W,
}

impl<W: Write> Trace<W> {
    pub fn new(writer: W) -> Trace<W> {
        Trace { waiting: Vec::with_capacity(PIECE + 4096), writer }
    }

    pub fn text(&mut self, text: &str) {
        self.waiting.extend_from_slice(text.as_bytes());
    }

    pub fn number(&mut self, number: u64) {
        let mut digits = [0; 20];
        let (mut from, mut rest) = (digits.len(), number);
        loop {
            from -= 1;
            digits[from] = b'0' + (rest % 10) as u8;
            rest /= 10;
            if rest == 0 {
                break;
            }
        }
        self.waiting.extend_from_slice(&digits[from..]);
    }

    pub fn word(&mut self, word: u32) {
        for place in (0..8).rev() {
            let digit = (word >> (4 * place)) & 15;
            self.waiting.push(b"0123456789abcdef"[digit as usize]);
        }
    }

    pub fn state(&mut self, total: u32, word: u32) {
        self.text(" t=");
        self.number(u64::from(total));
        self.text(" w=");
        self.word(word);
    }

    pub fn change(&mut self, change: Option<Change>) {
        match change {
            None => {}
            Some(Change::Unwritable) => self.text(" -"),
            Some(Change::Writable) => self.text(" +"),
        }
    }

    pub fn end_line(&mut self) -> io::Result<()> {
        self.waiting.push(b'\n');
        if self.waiting.len() < PIECE {
            return Ok(());
        }
        self.writer.write_all(&self.waiting)?;
        self.waiting.clear();
        Ok(())
    }

    pub fn finish(mut self) -> io::Result<()> {
        self.writer.write_all(&self.waiting)?;
        self.writer.flush()
    }
}
