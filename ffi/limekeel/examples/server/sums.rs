//! The numbers of clients together, as a text for Prometheus.

use crate::Client;
use limekeel::{Count, Refusals};
use std::fmt::{self, Display, Formatter};

/// Why a client was given up: the cause of what fails by it.
#[derive(Clone, Copy)]
pub enum Cause {
    Broken,
    Stalled,
    Full,
    Late,
}

/// Why calls are refused.
const REASONS: [&str; 12] = [
    "closed",
    "finishing",
    "oversize",
    "full",
    "too_much",
    "no_memory",
    "nothing_flushed",
    "too_far",
    "too_many_bytes",
    "bad_index",
    "flushed_left",
    "unknown_promise",
];

/// The refusals in the order of their reasons.
fn by_reason(r: &Refusals) -> [u64; REASONS.len()] {
    [
        r.closed,
        r.finishing,
        r.oversize,
        r.full,
        r.too_much,
        r.no_memory,
        r.nothing_flushed,
        r.too_far,
        r.too_many_bytes,
        r.bad_index,
        r.flushed_left,
        r.unknown_promise,
    ]
}

/// The numbers of clients together.
#[derive(Clone, Default)]
pub struct Sums {
    /// How many are here.
    pub clients: u64,
    stops: u64,
    stopped: u64,
    peak: u64,
    refused: [u64; REASONS.len()],
    counts: [Count; 5],
    given_up: [u64; 4],
}

impl Sums {
    pub fn add(&mut self, client: &Client) {
        let numbers = client.connection.numbers();
        let counts = [numbers.accepted, numbers.sent, numbers.failed, numbers.cancelled, numbers.pending];
        for (sum, one) in self.counts.iter_mut().zip(counts) {
            *sum = Count { messages: sum.messages + one.messages, bytes: sum.bytes + one.bytes };
        }
        self.peak = self.peak.max(numbers.peak);
        self.stops += numbers.stops;
        self.stopped += numbers.stopped;
        for (sum, one) in self.refused.iter_mut().zip(by_reason(&numbers.refusals)) {
            *sum += one;
        }
        if let Some(cause) = client.given_up {
            self.given_up[cause as usize] += 1;
        }
    }
}

/// In the form of Prometheus.
impl Display for Sums {
    fn fmt(&self, page: &mut Formatter<'_>) -> fmt::Result {
        writeln!(page, "limekeel_clients {}\nlimekeel_stops_total {}", self.clients, self.stops)?;
        writeln!(page, "limekeel_stopped_milliseconds_total {}", self.stopped)?;
        writeln!(page, "limekeel_peak_pending_bytes {}", self.peak)?;
        for (state, count) in ["accepted", "sent", "failed", "cancelled", "pending"].iter().zip(&self.counts) {
            writeln!(page, "limekeel_messages{{state=\"{state}\"}} {}", count.messages)?;
            writeln!(page, "limekeel_bytes{{state=\"{state}\"}} {}", count.bytes)?;
        }
        for (cause, count) in ["broken", "stalled", "full", "late"].iter().zip(self.given_up) {
            writeln!(page, "limekeel_given_up_total{{cause=\"{cause}\"}} {count}")?;
        }
        for (reason, count) in REASONS.iter().zip(self.refused) {
            writeln!(page, "limekeel_refusals_total{{reason=\"{reason}\"}} {count}")?;
        }
        Ok(())
    }
}
