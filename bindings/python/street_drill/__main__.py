"""`python3 -m street_drill`, and `street-drill` where the package is installed."""

import io
import os
import signal
import sys
from typing import NoReturn


def _status() -> int:
    # Ctrl-C ends the command at once, also while it is loaded or in the middle of a run; files.write_all puts it off
    # while it writes.
    signal.signal(signal.SIGINT, signal.SIG_DFL)
    from .command import main

    if sys.stdout is None:
        print("street_drill: standard output: is closed", file=sys.stderr)
        return 1
    if isinstance(sys.stdout, io.TextIOWrapper):
        # A file's name may hold bytes that are no text.
        sys.stdout.reconfigure(errors="backslashreplace")
    try:
        try:
            status = main()
        finally:
            # --help leaves main by an exit of its own.
            print(end="", flush=True)
    except OSError as error:
        # Of all files only standard output is written here. What Python would flush at its end goes nowhere.
        print(f"street_drill: standard output: {error.strerror}", file=sys.stderr)
        os.dup2(os.open(os.devnull, os.O_WRONLY), sys.stdout.fileno())
        status = 1
    return status


def run() -> NoReturn:
    """The command, as a process."""
    sys.exit(_status())


if __name__ == "__main__":
    run()
