"""f32 by decimals."""

import math
import random
import unittest
from decimal import Decimal, localcontext

from street_drill.decimals import exact, nearest, rounded, shortest

from .common import bits_of, float_of


class Decimals(unittest.TestCase):
    def test_rounded_once(self) -> None:
        # A hair above the tie between 1 and the next f32: as an f64 it is the tie itself, which would go down to 1.
        tie = "1.000000059604644775390625"
        self.assertEqual(bits_of(nearest(exact(tie))), "3F800000")
        self.assertEqual(bits_of(nearest(exact(tie + "0000001"))), "3F800001")
        # And a hair below the next tie, which would go up.
        self.assertEqual(bits_of(nearest(exact("1.000000178813934326171875"))), "3F800002")
        self.assertEqual(bits_of(nearest(exact("1.0000001788139343261718749999999"))), "3F800001")

    def test_ends(self) -> None:
        self.assertEqual(nearest(exact("1e999999")), math.inf)
        self.assertEqual(nearest(exact("-1e-999999")), 0.0)
        self.assertEqual(bits_of(nearest(exact("3.4028235e38"))), "7F7FFFFF")
        self.assertEqual(bits_of(nearest(exact("1e-45"))), "00000001")
        self.assertTrue(math.isnan(nearest(exact("nan"))))

    def test_rounded_as_nearest(self) -> None:
        """At ties and a hair beside them, where the short way through an f64 would go wrong, and at both ends."""
        draw = random.Random(28)
        texts = ["1e999999", "-1e-999999", "3.4028235677973366e38", "3.4028235677973367e38", "7e-46", "-inf", "-0"]
        with localcontext(prec=180):
            for _ in range(3000):
                low = draw.randrange(0x7F7F_FFFF)
                tie = (Decimal(float_of(f"{low:08X}")) + Decimal(float_of(f"{low + 1:08X}"))) / 2
                texts += [str(tie), str(tie.next_plus()), str(tie.next_minus()), f"{tie:.{draw.randrange(1, 12)}e}"]
        for text in texts:
            self.assertEqual(bits_of(rounded(text)), bits_of(nearest(exact(text))), text)

    def test_no_number(self) -> None:
        for text in ["", " 1", "1_0", "0x1", "1,5", "snan", "Infinity", "١", "1e99999999999999999999"]:
            for read in [exact, rounded]:
                with self.assertRaises(ValueError, msg=text):
                    read(text)

    def test_written_short(self) -> None:
        for text in ["0.9", "0.1", "1800", "36500", "0.0001", "16777216", "-0", "0", "inf", "-inf", "1e-45", "3e+38"]:
            self.assertEqual(shortest(nearest(exact(text))), text)

    def test_written_reads_back(self) -> None:
        draw = random.Random(20)
        patterns = [draw.getrandbits(32) for _ in range(3000)]
        patterns += [(exponent << 23) + place for exponent in range(255) for place in (0, 1)]
        for pattern in patterns:
            value = float_of(f"{pattern:08X}")
            text = shortest(value)
            if not math.isnan(value):
                self.assertEqual(bits_of(nearest(exact(text))), f"{pattern:08X}", text)

    def test_fewest_at_a_power_of_two(self) -> None:
        # Of eight digits the nearest to 2^90, 1.2379400e+27, does not read back, and the next above does.
        self.assertEqual(shortest(2.0**90), "1.2379401e+27")
        for exponent in range(-126, 128):
            value = 2.0**exponent
            digits = len(shortest(value).split("e")[0].replace(".", "").strip("0"))
            for fewer in range(1, digits):
                step = Decimal(10) ** (Decimal(value).adjusted() - fewer + 1)
                lower = Decimal(value) // step * step
                self.assertNotIn(value, [nearest(lower), nearest(lower + step)])
