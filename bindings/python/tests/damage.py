"""Damaged settings and decks through the command: an error with its place or a forecast, and no file half written.

    python3 -m tests.damage 10000 [SEED]
"""

import contextlib
import io
import os
import random
import re
import sys
import tempfile
from pathlib import Path

from street_drill.command import main

from .common import PACKAGE

SETTINGS = (PACKAGE / "examples" / "new_round.toml").read_bytes() + b"""max_cost_perday = 1800.0
new_cards_ignore_review_limit = true
first_rating_prob = [0.24, 0.094, 0.495, 0.171]
desired_retention = 0.9
first_day = 2026-11-23
state_rating_costs = [[19.58, 18.79, 13.78, 10.71], [19.38, 17.59, 12.38, 8.94], [16.44, 15.25, 12.32, 8.03]]
"""
DECK = b"""street,difficulty,stability,last_date,due,interval,desired_retention,reps,lapses
Mill Lane,5.25,3.5,-2,1,3,0.9,4,1
"Church Road, upper",7.125,12.5,-10,2.5,12,0.85,9,3
Station Road,-inf,-inf,-inf,0,-inf,-inf,0,0
"""
# As a spreadsheet writes it, for settings with a first day.
SHEET = b"""Street;Difficulty;Stability;Last Date;Due;Interval;Desired Retention;Reps;Lapses
;;;;;;;;
Mill Lane;5,25;3,5;2026-11-21;2026-11-24;3;0,9;4;1
"Church Road; upper";7,125;12,5;-10;2,5;12;0,85;9;3
Station Road;;;;;;;;
"""
PIECES = [b"", b"\n", b",", b'"', b"=", b"[", b"]", b"-", b".", b"nan", b"inf", b"1e99", b"9" * 12, b"9" * 5000,
          b"\xff", b"\0", b"\r", b"#", b"true", b"[" * 3000, b"'", b"\xef\xbb\xbf", b"_", b" ", b"2020-13-01",
          "é".encode(), b"\\u0000",
          b"seed = 1\n"]
VALUES = [b"0", b"-0", b"-1", b"1", b"0.5", b"1e39", b"-1e39", b"nan", b"inf", b"-inf", b"65536", b"65537", b"36501",
          b"4294967295", b"4294967296", b"18446744073709551615", b"16777217", b"false", b"'5'", b"[]", b"[1]", b"{}",
          b"1e-10", b"1979-05-27", b"1e9999999999999999999", b""]
# Each line of an error names one of the two files, and in it a line, a key or a refusal of the library.
PLACE = re.compile(r"(street_drill: \S*(settings\.toml|deck\.csv)"
                   r"(: line \d+| \(\w|: end of document| \('|: refused \d+ \d+: |: has \d+ more mistakes).*\n)+")
NOTES = re.compile(r"(street_drill: note: \S*(settings\.toml|deck\.csv): line \d+.*\n)*")
BEFORE = "as it was before\n"


def with_piece(draw: random.Random, text: bytes) -> bytes:
    """Some bytes replaced by others."""
    start = draw.randrange(len(text) + 1)
    end = min(len(text), start + draw.choice([0, 0, 1, 1, 2, 5, 20]))
    piece = draw.choice([draw.choice(PIECES), bytes([draw.randrange(32, 127)]), text[end : end + draw.randrange(30)]])
    return text[:start] + piece + text[end:]


def with_value(draw: random.Random, text: bytes) -> bytes:
    """A number replaced by something else that may stand there."""
    place = draw.choice([*re.finditer(rb"-?\b(\d[\d.]*|inf|true)\b", text)] or [re.search(b"", text)])
    return text[: place.start()] + draw.choice(VALUES) + text[place.end() :]


def damaged(draw: random.Random, text: bytes) -> bytes:
    for _ in range(draw.choice([1, 1, 2, 3])):
        text = draw.choice([with_piece, with_value])(draw, text)
    return text


def fault_of(folder: Path, settings: bytes, deck: bytes) -> str | None:
    """What went wrong with one pair of files, None where nothing did."""
    outputs = {"--rows": folder / "rows.csv", "--cards": folder / "cards.csv", "--page": folder / "page.html"}
    (folder / "settings.toml").write_bytes(settings)
    (folder / "deck.csv").write_bytes(deck)
    for path in outputs.values():
        path.write_text(BEFORE)
    arguments = ["forecast", str(folder / "settings.toml"), "--deck", str(folder / "deck.csv"), "--workers", "1"]
    for option, path in outputs.items():
        arguments += [option, str(path)]
    said, errors = io.StringIO(), io.StringIO()
    try:
        with contextlib.redirect_stdout(said), contextlib.redirect_stderr(errors):
            status = main(arguments)
    except BaseException as error:
        return f"raised {error!r}"
    if sorted(os.listdir(folder)) != ["cards.csv", "deck.csv", "page.html", "rows.csv", "settings.toml"]:
        return f"left {sorted(os.listdir(folder))}"
    kept = [path.read_text() == BEFORE for path in outputs.values()]
    if status == 0:
        told = any(kept) or not NOTES.fullmatch(errors.getvalue())
        return f"wrote no file, or told a mistake: {errors.getvalue()}" if told else None
    if status != 2 or not all(kept) or said.getvalue():
        return f"status {status}, files kept {kept}, said {said.getvalue()!r}"
    return None if PLACE.fullmatch(errors.getvalue()) else f"told no place: {errors.getvalue()!r}"


def check(count: int, seed: int) -> tuple[int, list[str]]:
    """How many were refused, and the faults."""
    draw = random.Random(seed)
    refused, faults = 0, []
    with tempfile.TemporaryDirectory() as name:
        folder = Path(name)
        for number in range(count):
            which = draw.randrange(3)
            settings = damaged(draw, SETTINGS) if which != 1 else SETTINGS
            deck = draw.choice([DECK, SHEET])
            deck = damaged(draw, deck) if which != 0 else deck
            fault = fault_of(folder, settings, deck)
            if fault:
                faults.append(f"{number}: {fault[:300]}")
            refused += (folder / "rows.csv").read_text() == BEFORE
    return refused, faults


if __name__ == "__main__":
    count = int(sys.argv[1])
    refused, faults = check(count, int(sys.argv[2]) if len(sys.argv) > 2 else 20)
    print(*faults[:20], sep="\n", end="\n" if faults else "")
    print(f"{count} damaged pairs of files: {refused} refused, {count - refused} forecast, {len(faults)} faults")
    sys.exit(bool(faults))
