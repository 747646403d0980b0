//! The queue that a server over the crate `bytes` has: no promises, nothing is cancelled, nothing is given back.

use bytes::Bytes;
use std::collections::VecDeque;
use std::io::{self, IoSlice, Write};

/// Netty's marks, and what it counts for a message beside its bytes.
const LOW: usize = 32768;
const HIGH: usize = 65536;
const OVERHEAD: usize = 96;
/// How many slices are offered at once.
const SLICES: usize = 64;

pub struct Queue {
    messages: VecDeque<Bytes>,
    total: usize,
    writable: bool,
}

impl Queue {
    pub fn new() -> Queue {
        Queue { messages: VecDeque::new(), total: 0, writable: true }
    }

    pub fn is_empty(&self) -> bool {
        self.messages.is_empty()
    }

    pub fn write(&mut self, bytes: Bytes) {
        self.total += bytes.len() + OVERHEAD;
        self.writable &= self.total <= HIGH;
        self.messages.push_back(bytes);
    }

    pub fn send_to(&mut self, socket: &mut impl Write) -> io::Result<()> {
        let mut slices = [IoSlice::new(&[]); SLICES];
        let mut count = 0;
        for (slice, bytes) in slices.iter_mut().zip(&self.messages) {
            *slice = IoSlice::new(bytes);
            count += 1;
        }
        let mut sent = socket.write_vectored(&slices[..count])?;
        while let Some(first) = self.messages.front_mut() {
            if first.len() > sent {
                let _ = first.split_to(sent);
                self.total -= sent;
                break;
            }
            sent -= first.len();
            self.total -= first.len() + OVERHEAD;
            self.messages.pop_front();
        }
        self.writable |= self.total < LOW;
        Ok(())
    }
}
