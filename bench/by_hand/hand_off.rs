//! The one word on which writers charge what they hand over: the word above, the total below.

use crate::outbound::Marks;
use std::sync::atomic::{AtomicU64, Ordering::SeqCst};

const MARK: u64 = 1 << 32;
const TOTAL: u64 = u32::MAX as u64;

pub struct HandOff {
    packed: AtomicU64,
    marks: Marks,
}

impl HandOff {
    pub fn new(marks: Marks) -> HandOff {
        HandOff { packed: AtomicU64::new(0), marks }
    }

    pub fn charge(&self, amount: u32) {
        self.change(|packed| {
            let packed = packed + u64::from(amount);
            if packed & TOTAL > u64::from(self.marks.high) { packed | MARK } else { packed }
        });
    }

    pub fn discharge(&self, amount: u32) {
        self.change(|packed| {
            let packed = packed - u64::from(amount);
            if packed & TOTAL < u64::from(self.marks.low) { packed & !MARK } else { packed }
        });
    }

    /// The total and the word.
    pub fn load(&self) -> (u32, u32) {
        let packed = self.packed.load(SeqCst);
        ((packed & TOTAL) as u32, (packed >> 32) as u32)
    }

    fn change(&self, after: impl Fn(u64) -> u64) {
        let mut found = self.packed.load(SeqCst);
        while let Err(other) = self.packed.compare_exchange(found, after(found), SeqCst, SeqCst) {
            found = other;
        }
    }
}
