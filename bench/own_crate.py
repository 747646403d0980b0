"""Lays a crate of this repository's folders out beside the crates that it stands on, proves it and builds it.

Such a crate is no part of the workspace, so that no gate pays for it, or because it opens sockets. Its sources end in
.in, since the gate refuses a file that no listed crate has. For bench/cycle, bench/connection and .ci/server.
"""

import pathlib
import re
import shutil
import subprocess
import sys

TOP = pathlib.Path(__file__).resolve().parent.parent


def lay_out(folder, source, crates, uses, handles=TOP / "HANDLES"):
    """Makes a repository of these crates and one more, of the same name as its folder, and returns the crate's folder."""
    for crate in crates:
        own = folder / "crates" / crate
        shutil.copytree(TOP / "crates" / crate, own, ignore=shutil.ignore_patterns("out"))
        # what `rt` finds built and unchanged it does not prove once more
        built = TOP / "crates" / crate / "out" / "rlib"
        if (built / "stamp").exists():
            shutil.copytree(built, own / "out" / "rlib")
    lines = (TOP / "crates.txt").read_text(encoding="utf-8").splitlines()
    kept = [line for line in lines if re.split("[ :]", line)[0] in crates]
    (folder / "crates.txt").write_text("\n".join([*kept, f"{source.name}: {uses}", ""]), encoding="utf-8")
    shutil.copy(handles, folder / "HANDLES")
    own = folder / "crates" / source.name
    for part in ("src", "specs", "proofs"):
        if (source / part).exists():
            shutil.copytree(source / part, own / part)
    for file in own.rglob("*.in"):
        file.rename(file.with_suffix(""))
    return own


def prove_and_build(folder, source, crates, uses, target, handles=TOP / "HANDLES"):
    """The same, and then proves and builds the program, of which `target` becomes a copy."""
    own = lay_out(folder, source, crates, uses, handles)
    # Without words of a command line each of these programs ends at once; what it says then is of no account.
    made = subprocess.run(["rt", "run"], cwd=own, stdin=subprocess.DEVNULL, capture_output=True, text=True)
    built = own / "out" / source.name
    if "logic=proved" not in made.stderr or not built.exists():
        sys.exit(made.stdout + made.stderr)
    shutil.copy(built, target)
