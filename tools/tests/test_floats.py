"""Decimals to f32 and back."""

import random
import struct
import unittest
from decimal import Decimal
from fractions import Fraction

import support  # noqa: F401  (finds beltlib)
from beltlib.errors import BadInput
from beltlib.floats import (
    bits_of_decimal, bits_of_hexadecimal, float_of_bits, neighbours, shortest_decimal,
)


def through_double(text: str) -> int:
    """The f32 of a decimal that is rounded twice."""
    return struct.unpack(">I", struct.pack(">f", float(text)))[0]


def exact(value: Fraction) -> str:
    """The digits of a fraction whose denominator is a power of two."""
    digits = value.denominator.bit_length() - 1
    return f"{value.numerator * 5**digits}e-{digits}"


class Rounding(unittest.TestCase):
    def check(self, text: str, bits: int) -> None:
        self.assertEqual(f"{bits_of_decimal(text):08x}", f"{bits:08x}", text)

    def test_plain_numbers(self) -> None:
        self.check("1", 0x3F800000)
        self.check("-3.0", 0xC0400000)
        self.check("+.5", 0x3F000000)
        self.check("4.", 0x40800000)
        self.check("1e-1", 0x3DCCCCCD)
        self.check("1E+2", 0x42C80000)
        self.check(" 0.1 ", 0x3DCCCCCD)

    def test_zeros_keep_their_sign(self) -> None:
        self.check("0", 0)
        self.check("-0", 0x80000000)
        self.check("-0.000e99999", 0x80000000)
        self.check("-1e-99999", 0x80000000)

    def test_infinity(self) -> None:
        self.check("inf", 0x7F800000)
        self.check("+inf", 0x7F800000)
        self.check("-inf", 0xFF800000)

    def test_ties_go_to_even(self) -> None:
        self.check("16777217", 0x4B800000)  # between 2^24 and 2^24 + 2
        self.check("16777219", 0x4B800002)
        self.check("16777217.0000001", 0x4B800001)
        self.check("16777218.9999999", 0x4B800001)

    def test_a_mantissa_that_rounds_up_carries(self) -> None:
        self.check("1.99999999", 0x40000000)

    def test_subnormals(self) -> None:
        least = Fraction(1, 2**149)
        self.check(exact(least), 1)
        self.check(exact(least / 2), 0)
        self.check(exact(least * 3 / 2), 2)
        self.check(exact(Fraction(1, 2**126)), 0x00800000)
        self.check(exact(Fraction(1, 2**126) - least), 0x007FFFFF)
        self.check(exact(Fraction(1, 2**126) - least / 2), 0x00800000)

    def test_the_largest(self) -> None:
        largest, limit = 2**128 - 2**104, 2**128 - 2**103
        self.check(str(largest), 0x7F7FFFFF)
        self.check(str(limit - 1), 0x7F7FFFFF)
        for text in (str(limit), f"-{limit}", "3.5e38", "1e39", "1e999999999999", "9" * 400):
            with self.assertRaisesRegex(BadInput, "f32 can hold"):
                bits_of_decimal(text)

    def test_the_shortest_decimal_that_a_second_rounding_spoils(self) -> None:
        # No decimal of six digits or fewer shows the difference, and no other of seven.
        self.check("7.038531e-26", 0x15AE43FD)
        self.assertEqual(through_double("7.038531e-26"), 0x15AE43FE)

    def test_the_least_numbers_that_a_second_rounding_spoils(self) -> None:
        # A double just above half of the least f32 is that half, which is a tie.
        just_above = exact(Fraction(1, 2**150) + Fraction(1, 2**210))
        self.check(just_above, 1)
        self.assertEqual(through_double(just_above), 0)

    def test_not_numbers(self) -> None:
        for text in ("", "nan", "-", ".", "1,5", "1e", "0x10", "1_0", "1 0", "Infinity", "\u0661"):
            with self.assertRaisesRegex(BadInput, "decimal number"):
                bits_of_decimal(text)
        with self.assertRaisesRegex(BadInput, "1000 characters"):
            bits_of_decimal("1" * 1001)

    def test_random_decimals_go_to_the_nearest(self) -> None:
        choice = random.Random(1)
        for _ in range(500):
            text = f"{choice.getrandbits(64)}e{choice.randint(-64, 18)}"
            bits = bits_of_decimal(text)
            value = Fraction(text)
            gaps = [abs(Fraction(float_of_bits(max(bits + d, 0))) - value) for d in (-1, 0, 1)]
            self.assertEqual(min(gaps), gaps[1], text)


class Hexadecimal(unittest.TestCase):
    def test_only_eight_lower_case_digits(self) -> None:
        self.assertEqual(bits_of_hexadecimal("c0400000"), 0xC0400000)
        for text in ("C0400000", "c040000", "c04000000", " c0400000", "c0400000\r", "0x400000"):
            with self.assertRaises(BadInput):
                bits_of_hexadecimal(text)


class Shortest(unittest.TestCase):
    def test_known(self) -> None:
        known = {
            0x00000000: "0", 0x80000000: "-0", 0x3DCCCCCD: "0.1", 0xC0400000: "-3",
            0x4B800000: "16777216", 0x00000001: "1e-45", 0x7F7FFFFF: "3.4028235e+38",
            0x7F800000: "inf", 0xFF800000: "-inf", 0x7FC00000: "nan", 0x3FB0002B: "1.3750051",
        }
        for bits, text in known.items():
            self.assertEqual(shortest_decimal(bits), text)

    def test_a_power_of_two_whose_nearest_decimal_reads_back_to_another(self) -> None:
        self.assertEqual(shortest_decimal(0x0F800000), "1.2621775e-29")
        self.assertNotEqual(bits_of_decimal("1.2621774e-29"), 0x0F800000)

    def test_random_bits_read_back_and_no_shorter_decimal_does(self) -> None:
        choice = random.Random(2)
        for _ in range(1000):
            bits = choice.randrange(1, 0x7F800000)
            text = shortest_decimal(bits)
            self.assertEqual(bits_of_decimal(text), bits)
            self.assertEqual(bits_of_decimal("-" + text), bits | 0x80000000)
            digits = len(Decimal(text).normalize().as_tuple().digits)
            if digits > 1:
                shorter = neighbours(Decimal(float_of_bits(bits)), digits - 1)
                self.assertNotIn(bits, [bits_of_decimal(str(one)) for one in shorter])


if __name__ == "__main__":
    unittest.main()
