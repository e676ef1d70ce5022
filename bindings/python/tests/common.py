"""What the tests share: the repository, its example, and its parameters."""

import io
import re
import struct
import subprocess
from pathlib import Path

PACKAGE = Path(__file__).resolve().parents[1]
REPOSITORY = PACKAGE.parents[1]
LISTING = (REPOSITORY / "examples" / "new_round.txt").read_text()


def float_of(bits: str) -> float:
    return struct.unpack(">f", bytes.fromhex(bits))[0]


def bits_of(value: float) -> str:
    return struct.pack(">f", value).hex().upper()


PARAMETERS = [float_of(bits) for bits in re.search(r"\(parameters ([^)]*)\)", LISTING)[1].split()]


class Terminal(io.StringIO):
    """What a terminal is told."""

    def isatty(self) -> bool:
        return True


def printed(program: str, text: str) -> str:
    """What the proved program prints for a text."""
    path = REPOSITORY / "target" / "bin" / program
    return subprocess.run([path], input=text.encode(), stdout=subprocess.PIPE, check=True).stdout.decode()
