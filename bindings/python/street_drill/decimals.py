"""f32 as decimal numbers: read by rounding once, written by the fewest digits that read back.

  exact(text)      the decimal number that a text says
  nearest(value)   the f32 nearest to a decimal number
  rounded(text)    the f32 nearest to the number that a text says: nearest(exact(text)), sooner
  to_f32(value)    the f32 nearest to a float
  shortest(value)  the text of an f32
"""

import functools
import math
import re
import struct
from decimal import ROUND_CEILING, ROUND_FLOOR, Context, Decimal, InvalidOperation

_NUMBER = re.compile(r"[+-]?((\d+(\.\d*)?|\.\d+)(e[+-]?\d+)?|inf|nan)", re.ASCII | re.IGNORECASE)
# Most f32 that a run leaves need so many digits, or one or two more.
_USUAL_DIGITS, _MOST_DIGITS = 7, 9
# Below this an f32 has fewer bits, and its ties lie elsewhere.
_LEAST_NORMAL = 2.0**-126
_F32, _F64, _BITS = struct.Struct("<f"), struct.Struct("<d"), struct.Struct("<Q")


def exact(text: str) -> Decimal:
    """ValueError where the text is no number. inf and nan are numbers, with a sign or without."""
    if not _NUMBER.fullmatch(text):
        raise ValueError("is no decimal number")
    try:
        return Decimal(text)
    except InvalidOperation:
        raise ValueError("has an exponent that is too large") from None


def _bits(value: float) -> int:
    bits: int = _BITS.unpack(_F64.pack(value))[0]
    return bits


def to_f32(value: float) -> float:
    """Ties go to even."""
    try:
        rounded: float = _F32.unpack(_F32.pack(value))[0]
    except OverflowError:
        rounded = math.copysign(math.inf, value)
    return rounded


def nearest(value: Decimal) -> float:
    """Ties go to even; what is beyond the largest f32 by half a place or more is infinite."""
    wide = float(value)
    if math.isfinite(wide) and value != wide and _bits(wide) % 2 == 0:
        # Two roundings are one where the first goes to the odd neighbour: it then stands on no tie of the second.
        wide = math.nextafter(wide, math.inf if value > wide else -math.inf)
    return to_f32(wide)


def _may_be_tie(wide: float) -> bool:
    """Whether it lies just between two f32, so that it matters what the first rounding did."""
    return _bits(wide) & 0x1FFF_FFFF == 0x1000_0000 or abs(wide) < _LEAST_NORMAL


def _rounded(text: str) -> float:
    wide = float(text)
    return nearest(exact(text)) if _may_be_tie(wide) or math.isinf(wide) else to_f32(wide)


def rounded(text: str) -> float:
    """ValueError where the text is no number."""
    if not _NUMBER.fullmatch(text):
        raise ValueError("is no decimal number")
    return _rounded(text)


def _with_digits(value: float, digits: int) -> str | None:
    """A decimal number of so many digits that reads back to the value, the nearest where there are more."""
    text = f"{value:.{digits - 1}e}"
    if _rounded(text) == value:
        return text
    # At a power of two the nearest may not read back while the other neighbour does.
    if _bits(value) % 2**52 == 0:
        for rounding in (ROUND_FLOOR, ROUND_CEILING):
            text = str(Context(prec=digits, rounding=rounding).create_decimal(Decimal(value)))
            if _rounded(text) == value:
                return text
    return None


@functools.lru_cache(maxsize=65_536)
def _written(value: float) -> str:
    digits = _USUAL_DIGITS
    written = _with_digits(value, digits)
    while written is None:
        digits += 1
        assert digits <= _MOST_DIGITS, "nine digits tell any two f32 apart"
        written = _with_digits(value, digits)
    while 1 < digits <= _USUAL_DIGITS and (fewer := _with_digits(value, digits - 1)):
        digits, written = digits - 1, fewer
    number = Decimal(written).normalize()
    return f"{number:f}" if 1e-6 <= abs(value) < 1e16 else f"{number:e}"


def shortest(value: float) -> str:
    """The value must be an f32."""
    if not math.isfinite(value):
        return str(value)
    if value == 0:
        # Not kept with the others: 0 and -0 are one key.
        return "-0" if math.copysign(1, value) < 0 else "0"
    return _written(value)
