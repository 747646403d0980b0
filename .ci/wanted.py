"""What a process of `ob_tool` has to leave: the worked rows as scripts with their traces, and what want of memory may make
of them. `.ci/processes` and `.ci/growths` take it from here.
"""

import os

TOP = os.path.dirname(os.path.dirname(os.path.realpath(__file__)))

# Rows of `run` that are run where memory is scarce.
SCARCE_ROWS = [
    "equality with high sets nothing",
    "a removal of bytes takes empty blocks along",
    "failing without notice keeps the mark",
    "a gathering skips voided entries",
]


def story(name, about):
    """Returns the words of the command line, the script and the trace of the row that begins so in a text of `ob_stories`.

    A line behind a colon is asked of the libraries alone. The lines of a report are parted by commas.
    """
    with open(f"{TOP}/crates/ob_stories/src/{name}.rt", encoding="utf-8") as file:
        (told,) = [it for it in file.read().split("\n# ")[1:] if it.startswith(about)]
    words, *lines = told.split("\n$ ", 1)[1].split("\n")
    script, trace = [], []
    for line in lines:
        if line.startswith('"'):
            break
        asked, _, answer = line.partition("/")
        if not line.startswith(":"):
            script += [it for it in [asked.strip()] if it]
            trace += [it.strip() for it in answer.split(",") if it.strip()]
    whole = lambda rows: "".join(f"{it}\n" for it in rows).encode()
    return words.split(), whole(script), whole(trace)


def wants(ended, status, out, errors):
    """Returns what is otherwise than it is to be, with at most 60 bytes of a stream."""
    found = {"status": ended.status, "standard output": ended.out, "standard error": ended.errors}
    wanted = {"status": status, "standard output": out, "standard error": errors}
    short = lambda it: it[:60] if isinstance(it, bytes) else it
    return [f"{it} is {short(found[it])!r} and not {short(wanted[it])!r}" for it in found if found[it] != wanted[it]]


def wants_first_lines(ended, trace):
    """Wants the whole trace, or as many whole lines of it as there are, and then that memory ran out."""
    if ended.status != 4:
        return wants(ended, 0, trace, b"")
    lines = trace.splitlines(keepends=True)[: ended.out.count(b"\n")]
    return wants(ended, 4, b"".join(lines), b"no memory\n")


def wants_report(ended, report):
    """Wants the report, or that memory ran out: before the drive or behind it, in a writer or in the transport.

    A sink that wants memory fails, and what is flushed then fails with it: a report may tell that.
    """
    if ended.status == 4:
        return wants(ended, 4, b"", b"no memory\n")
    if ended.status == 5:
        fault = b"drive: fault 7\n" if b"7" in ended.errors else b"drive: fault 4\n"
        return wants(ended, 5, b"", fault)
    return wants(ended, 0, ended.out if is_of_a_failed_sink(ended.out, report) else report, b"")


def is_of_a_failed_sink(text, report):
    """Whether a report on blocks of 10 bytes is another one only in what its sink took and failed."""
    found, wanted = (dict(line.partition(b" ")[::2] for line in it.splitlines()) for it in (text, report))
    parts = [b"taken", b"success", b"failed"]
    rest = lambda lines: [it for it in lines.items() if it[0] not in parts]
    if rest(found) != rest(wanted) or not all(found.get(it, b"").isdigit() for it in parts):
        return False
    taken, success, failed = (int(found[it]) for it in parts)
    all_of_them = int(wanted[b"success"])
    # the block in front may have gone out in part as its sink failed
    return failed > 0 and success + failed == all_of_them and 10 * success <= taken < 10 * all_of_them
