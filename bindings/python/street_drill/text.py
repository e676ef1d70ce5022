"""A text as the program `forecast` reads it, with an exit status.

The program itself reads it and makes the run: its reading is proved, and a second one in Python could differ. Rattle
has no exit status, so what was printed is judged here: a refusal, a listing that is whole, or neither.
"""

import math
import re
import subprocess
from pathlib import Path

from . import listing
from .errors import Mistake

# Where this package lies in the repository.
_REPOSITORY = Path(__file__).resolve().parents[3]
PROGRAMS = ("forecast", "cheapest")
_INPUT = "standard input"
_CHEAPEST = re.compile(r"\(cheapest [0-9A-F]{8} \(rounds \d+\) \(mean ([0-9A-F]{8})\)\)\n", re.ASCII)


def _built(program: str) -> str:
    """One of the repository's by its name: of that of the package, or of the one where the command is called."""
    if program not in PROGRAMS:
        return program
    here = Path.cwd()
    for folder in [_REPOSITORY, here, *here.parents]:
        path = folder / "target" / "bin" / program
        if path.is_file():
            return str(path)
    raise Mistake(f"target/bin/{program}", f"is not built: tools/build {program} makes it; --program names another")


def _printed(program: str) -> str:
    """What the program prints for this process's own input."""
    try:
        ended = subprocess.run([program], stdout=subprocess.PIPE, check=True)
        return ended.stdout.decode("ascii")
    except OSError as error:
        raise Mistake(program, f"{error.strerror}; --program is forecast, cheapest or a program's path") from error
    except (subprocess.CalledProcessError, UnicodeDecodeError) as error:
        raise Mistake(program, "did not end as it should") from error


def _check(program: str, printed: str) -> None:
    """A mistake where it is no answer."""
    if told := listing.refused(printed.removesuffix("\n")):
        raise Mistake(_INPUT, told)
    found = _CHEAPEST.fullmatch(printed)
    if not found:
        listing.of_text(program, printed)
    elif not 0 <= listing.float_of(found[1]) < math.inf:
        raise Mistake(_INPUT, "what a trial costs for each street held is no time: no retention is the cheapest")


def answer(program: str) -> str:
    """What the program prints, which is shown in any case; a mistake where it refused the text."""
    printed = _printed(_built(program))
    try:
        _check(program, printed)
    except Mistake:
        print(printed, end="", flush=True)
        raise
    return printed
