"""Where the built `ob_tool` lies, and what to do if it is not there. For the scripts of .ci and bench that run it."""

import os
import pathlib
import sys

BUILT = str(pathlib.Path(__file__).resolve().parent.parent / "crates/ob_tool/out/ob_tool")


def lacking(program):
    """Returns what to do if this is no program that can be run, and else nothing."""
    if os.path.isfile(program) and os.access(program, os.X_OK):
        return None
    return (
        f"{program} is not there. `rt run -- run < /dev/null` in crates/ob_tool proves and builds it, in 5 to 20 minutes; "
        "the gate (`bash .ci/run`) leaves it there too. Or name another program."
    )


def there(program):
    """Returns the path of a program that can be run, or ends with what to do."""
    lacks = lacking(program)
    if lacks:
        sys.exit(lacks)
    return program
