//! The outcomes of promises whose messages are gone, in runs of the same outcome.

use super::values::Outcome;

struct Run {
    first: u32,
    outcome: Outcome,
}

#[derive(Default)]
pub struct Outcomes {
    runs: Vec<Run>,
    gone: u32,
}

impl Outcomes {
    pub fn gone(&self) -> u32 {
        self.gone
    }

    pub fn push(&mut self, outcome: Outcome) {
        if self.runs.last().is_none_or(|run| run.outcome != outcome) {
            self.runs.push(Run { first: self.gone, outcome });
        }
        self.gone += 1;
    }
}
