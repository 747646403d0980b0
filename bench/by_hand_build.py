"""Builds a program in plain Rust by rustc, as well as it can be built. For bench/cycle and bench/peer."""

import subprocess

# For the processors for which rt builds too; in one piece with std, as rt builds; and with no unwinding, which Rattle does
# not have either. Without the last two a message takes up to twice as long.
HOW = ["--edition", "2024", "-C", "opt-level=3", "-C", "codegen-units=1", "-C", "lto=fat", "-C", "panic=abort",
       "-C", "target-cpu=x86-64-v2"]


def build_by_hand(source, target):
    subprocess.run(["rustc", *HOW, source, "-o", target], check=True)
