"""Random scripts, carried out from C and by the proved program, for .ci/ffi."""

import random
import subprocess
from concurrent.futures import ThreadPoolExecutor

SCRIPTS = 600
BYTES = (0, 0, 1, 64, 200, 700)
FAR = (0, 1, 100, 2**63 - 1, 2**64 - 1)

# How a line is chosen, and how often of 32.
LINES = [
    (8, lambda dice: f"b {dice.choice(BYTES)}"),
    (1, lambda dice: f"r {dice.choice((0, 9, 2**40, 2**63, 2**64 - 1))}"),
    (1, lambda dice: f"o {dice.randrange(2**32)}"),
    (5, lambda dice: "f"),
    (3, lambda dice: "rm"),
    (1, lambda dice: f"rc {dice.randrange(2**32)}"),
    (3, lambda dice: f"rb {dice.choice((0, 1, 64, 65, 200, 1000))}"),
    (1, lambda dice: f"p {dice.choice(FAR)}"),
    (3, lambda dice: f"x {dice.randrange(12)}"),
    (1, lambda dice: f"fl {dice.randrange(9)} {dice.randrange(2)}"),
    (1, lambda dice: f"cl {dice.randrange(9)}" if dice.randrange(4) == 0 else "?"),
    (1, lambda dice: f"u {dice.choice((0, 1, 2, 31, 32, 255))} {dice.randrange(2)}"),
    (1, lambda dice: "m {} {}".format(*sorted(dice.randrange(2000) for _ in range(2)))),
    (2, lambda dice: f"g {dice.choice((1, 2, 5, 17, 64))} {dice.choice((1, 64, 300, 2**31 - 1))}"),
]


def script(number):
    """A script, with the marks, the overhead and the size of unknown messages."""
    dice = random.Random(number)
    low, high = sorted(dice.randrange(2000) for _ in range(2))
    settings = (low, high, dice.choice((0, 96, 65535)), dice.choice((0, 8, 300)))
    weights = [often for often, _ in LINES]
    lines = [line(dice) for _, line in dice.choices(LINES, weights, k=dice.randrange(10, 70))]
    return settings, "\n".join(lines) + "\n"


def difference(program, tool, number):
    """The first line at which the traces differ, or nothing."""
    settings, text = script(number)
    words = [str(word) for word in settings]
    options = [word for name, value in zip(("low", "high", "overhead", "unknown"), words) for word in (f"--{name}", value)]
    told, wanted = (subprocess.run(command, input=text, text=True, stdout=subprocess.PIPE, timeout=60).stdout.splitlines()
                    for command in ([program, *words], [tool, "run", *options]))
    for line, one, other in zip(text.splitlines(), told, wanted):
        if one != other:
            return f"script {number}, {words}: {line} is {one!r} from C and {other!r} by the program"
    lines = text.count("\n")
    return None if len(told) == len(wanted) == lines else f"script {number}: {len(told)} and {len(wanted)} lines of {lines}"


def fault(program, tool):
    """Why the traces of some script differ, or nothing."""
    if not tool.exists():
        return f"no {tool}: `rt run` in crates/ob_tool builds it"
    with ThreadPoolExecutor(4) as pool:
        return next(filter(None, pool.map(lambda number: difference(program, tool, number), range(SCRIPTS))), None)
