//! Traces through this crate, beside those of the proved program `ob_tool`.

mod common;

use common::Player;
use limekeel::{Estimate, Marks};
use std::fmt::Write as _;
use std::io::Write as _;
use std::path::PathBuf;
use std::process::{Command, Stdio};
use std::{env, thread};

const SCRIPTS: u64 = 10_000;
const THREADS: u64 = 4;

/// The trace in the README, line by line.
#[test]
fn the_trace_of_the_readme() {
    let mut player = Player::new(Marks { low: 200, high: 400 }, Estimate::default());
    let wanted = "id 0 t=400 w=00000000\nid 1 t=496 w=00000001 -\nn 2 t=496 w=00000001\nyes t=96 w=00000000 + 0:ok\n";
    assert_eq!(player.trace("b 304\nb 0\nf\nrm\n"), wanted);
}

/// Random numbers, the same at each run (xorshift).
struct Dice(u64);

impl Dice {
    fn below(&mut self, limit: u64) -> u64 {
        self.0 ^= self.0 << 13;
        self.0 ^= self.0 >> 7;
        self.0 ^= self.0 << 17;
        self.0 % limit
    }

    fn one_of<T: Copy>(&mut self, things: &[T]) -> T {
        things[self.below(things.len() as u64) as usize]
    }
}

/// A random script, with its options.
fn script(dice: &mut Dice) -> (Marks, Estimate, String) {
    let high = dice.below(2000) as u32;
    let marks = Marks { low: dice.below(u64::from(high) + 1) as u32, high };
    let estimate = Estimate { overhead: dice.one_of(&[0, 96, 65535]), unknown: dice.one_of(&[0, 8, 300]) };
    let mut text = String::new();
    for _ in 0..10 + dice.below(60) {
        line(dice, &mut text).expect("a string takes all");
    }
    (marks, estimate, text)
}

fn line(dice: &mut Dice, text: &mut String) -> std::fmt::Result {
    match dice.below(32) {
        0..8 => writeln!(text, "b {}", dice.one_of(&[0, 0, 1, 64, 200, 700])),
        8 => writeln!(text, "r {}", dice.one_of(&[0, 9, 1 << 40, 1 << 63, u64::MAX])),
        9 => writeln!(text, "o {}", dice.below(1 << 32)),
        10..15 => writeln!(text, "f"),
        15..18 => writeln!(text, "rm"),
        18 => writeln!(text, "rc {}", dice.below(1 << 32)),
        19..22 => writeln!(text, "rb {}", dice.one_of(&[0, 1, 64, 65, 200, 1000])),
        22 => writeln!(text, "p {}", dice.one_of(&[0, 1, 100, i64::MAX as u64, u64::MAX])),
        23..25 => writeln!(text, "x {}", dice.below(12)),
        25 => writeln!(text, "fl {} {}", dice.below(9), dice.below(2)),
        26 => match dice.below(4) {
            0 => writeln!(text, "cl {}", dice.below(9)),
            _ => writeln!(text, "?"),
        },
        27 => writeln!(text, "u {} {}", dice.one_of(&[0, 1, 2, 31, 32, 255]), dice.below(2)),
        28 => {
            // marks that are none are a fault of the script
            let high = dice.below(2000);
            writeln!(text, "m {} {high}", dice.below(high + 1))
        }
        29 => writeln!(text, "?"),
        _ => writeln!(text, "g {} {}", dice.one_of(&[1, 2, 5, 17, 64]), dice.one_of(&[1, 64, 300, 2147483647])),
    }
}

/// The program: the one that `LIMEKEEL_OB_TOOL` names, or else the one that the gate left in this repository, if it did.
fn tool() -> Option<PathBuf> {
    let built = PathBuf::from(concat!(env!("CARGO_MANIFEST_DIR"), "/../../crates/ob_tool/out/ob_tool"));
    env::var_os("LIMEKEEL_OB_TOOL").map(PathBuf::from).or_else(|| built.exists().then_some(built))
}

/// The trace of the program.
fn traced(tool: &PathBuf, marks: Marks, estimate: Estimate, script: &str) -> Vec<u8> {
    let options = [
        ("--low", marks.low),
        ("--high", marks.high),
        ("--overhead", estimate.overhead),
        ("--unknown", estimate.unknown),
    ];
    let mut command = Command::new(tool);
    command.arg("run");
    for (name, value) in options {
        command.arg(name).arg(value.to_string());
    }
    let mut child = command.stdin(Stdio::piped()).stdout(Stdio::piped()).spawn().expect("ob_tool starts");
    child.stdin.take().expect("it has one").write_all(script.as_bytes()).expect("it reads");
    let done = child.wait_with_output().expect("it ends");
    assert!(done.status.success(), "{:?}\n{script}", done.status);
    done.stdout
}

#[test]
fn scripts_by_chance_are_answered_as_by_the_program() {
    let Some(tool) = tool() else {
        eprintln!("not run: no ob_tool, which `rt run` in crates/ob_tool builds and LIMEKEEL_OB_TOOL may name");
        return;
    };
    thread::scope(|scope| {
        for part in 0..THREADS {
            let tool = &tool;
            scope.spawn(move || {
                for number in (part..SCRIPTS).step_by(THREADS as usize) {
                    let mut dice = Dice(0x9e37_79b9_7f4a_7c15 ^ (number + 1).wrapping_mul(0xbf58_476d_1ce4_e5b9));
                    let (marks, estimate, text) = script(&mut dice);
                    let trace = Player::new(marks, estimate).trace(&text);
                    let wanted = traced(tool, marks, estimate, &text);
                    assert_eq!(
                        trace,
                        String::from_utf8_lossy(&wanted),
                        "script {number}, {marks:?} {estimate:?}\n{text}"
                    );
                }
            });
        }
    });
}
