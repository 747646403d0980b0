//! What `ob_tool` does, as one writes it by hand: the scripts, the traces and the reports of `run`, `core` and `drive`, in
//! plain Rust on std alone, with the duties of the program (each call is recorded, writers and transport keep receipts,
//! and at the end all are compared with the history), and nothing proved. `bench/peer` times it beside the program.

mod drive;
mod hand_off;
mod history;
// the timed cycles of `bench/cycle_by_hand` stand on the same buffer, and ask it what this program does not
#[allow(dead_code, unused_imports)]
mod outbound;
mod run;
mod script;
mod trace;
mod turns;

use history::Recorded;
use outbound::{Estimate, Marks};
use script::LineFault;
use std::io::{self, Read};
use trace::Trace;

const LONGEST_SCRIPT: u64 = 16777216;
const LIMIT: usize = 1048576;
const TASK: u32 = 32;

/// Why there is no whole trace.
pub enum Fault {
    Read,
    TooLong,
    Line(usize, LineFault),
    Drive(u32),
    Write,
}

fn main() {
    let mut words = std::env::args().skip(1);
    let mode = words.next().unwrap_or_default();
    let marks = words.map(|word| word.parse().ok()).collect::<Option<Vec<u32>>>();
    let Some([low, high]) = marks.as_deref() else {
        eprintln!("usage: by_hand run|core|drive LOW HIGH");
        std::process::exit(1);
    };
    if let Err(fault) = carry_out(&mode, Marks { low: *low, high: *high }) {
        tell(&fault);
        std::process::exit(2);
    }
}

fn carry_out(mode: &str, marks: Marks) -> Result<(), Fault> {
    let mut script = Vec::new();
    io::stdin().lock().take(LONGEST_SCRIPT + 1).read_to_end(&mut script).map_err(|_| Fault::Read)?;
    if script.len() as u64 > LONGEST_SCRIPT {
        return Err(Fault::TooLong);
    }
    let estimate = Estimate { overhead: 96, unknown: 8 };
    let recorded = || Recorded::new(marks, estimate, LIMIT);
    let mut trace = Trace::new(io::stdout().lock());
    let done = match mode {
        "run" => run::run(&script, &mut recorded(), &mut trace),
        "core" => turns::run(&script, marks, &mut trace),
        _ => drive::run(&script, recorded(), marks, estimate, &mut trace),
    };
    trace.finish()?;
    done
}

fn tell(fault: &Fault) {
    match fault {
        Fault::Read => eprintln!("read fault"),
        Fault::TooLong => eprintln!("script too long"),
        Fault::Line(number, fault) => eprintln!("line {number}: fault {}", *fault as u32),
        Fault::Drive(number) => eprintln!("drive: fault {number}"),
        Fault::Write => eprintln!("write fault"),
    }
}
