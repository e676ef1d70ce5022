"""Why a text is no number, and no value of a setting, as far as it can be seen.

  cause        of a text
  of_setting   of the line of a setting, with its key
"""

import re

_CAUSES = {
    r".*%": "is a percentage: 90% is written 0.9",
    r"\d{4}-\d\d-\d\d": "is a date",
    r"\d{4}-\d\d-\d\d[ T].*": "is a date with a time of day: write the date alone",
    r"\d+([./-])\d+\1\d+": "is a date, perhaps: dates are written as 2026-11-23",
    r"[+-]?\d*,\d+": "has a decimal comma: write a point",
    r"[+-]?\d{1,3}([.,'\s])\d{3}(\1\d{3})*([.,]\d+)?": "has marks between its thousands: write the digits alone",
}


def cause(text: str) -> str | None:
    """None where nothing is seen."""
    return next((told for pattern, told in _CAUSES.items() if re.fullmatch(pattern, text)), None)


_SETTING = re.compile(r"\s*([\w-]+)\s*=\s*([^#]*?)\s*(#.*)?")
_BARE = re.compile(r"[A-Za-z~./\\][^\"'\[\]{}=,]*")


def of_setting(line: str) -> tuple[str, str] | None:
    """A line that TOML does not take; None where nothing is seen."""
    found = _SETTING.fullmatch(line)
    if not found:
        return None
    key, value = found[1], found[2]
    if re.fullmatch(r"\d{4}-\d\d-\d\d", value):
        told: str | None = "is no date of the calendar"
    elif value.lower() in ("true", "false"):
        told = "is written in small letters"
    elif _BARE.fullmatch(value):
        told = f"is a text, which stands in quotes: {key} = \"{value[:40]}\""
    else:
        told = cause(value)
    return (key, f"{value[:40]!r} {told}") if told else None
