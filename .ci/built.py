#!/usr/bin/env python3
"""Tells `rt` which libraries `rt ci` has built in crates/, so that `rt lib` and `rt run` need not prove them once more.

    .ci/built.py > MARKS

A library that `rt ci` builds holds what others cite, and is not marked as built, since it fits those alone that were
built with it. While the gate runs all were; whoever builds one anew finds that those above it no longer fit, so the gate
removes the marks at its end, whose paths are printed here. With a kit that marks otherwise nothing is spared, and nothing
is lost.
"""

import pathlib
import subprocess
import sys

TOP = pathlib.Path(__file__).resolve().parent.parent


def main():
    page = subprocess.run(["rt", "doc"], stdout=subprocess.PIPE, text=True, check=True).stdout.strip()
    sys.path.insert(0, str(pathlib.Path(page).parent / "bin"))
    sys.dont_write_bytecode = True
    import rtlib

    for crate in rtlib.crates_below(str(TOP)):
        built = pathlib.Path(crate.folder) / "out" / "rlib"
        if (built / f"{crate.name}.rlib" / "format").exists() and not (built / "stamp").exists():
            print(built / "stamp", flush=True)
            (built / "stamp").write_text(crate.stamp(), encoding="utf-8")


if __name__ == "__main__":
    main()
