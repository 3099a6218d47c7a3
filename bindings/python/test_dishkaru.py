"""Tests of the module: rows worked out by hand, refusals, and random lists compared with Python's own numbers and with bitstruct.

Run by `python3 -m unittest` in this folder. DISHKARU_LISTS says how many random lists (2,000).
"""

import os
import random
import unittest

import dishkaru

try:
    import bitstruct
except ImportError:
    bitstruct = None

LISTS = int(os.environ.get("DISHKARU_LISTS", "2000"))

# Words, values, and the bytes that were worked out by hand.
ROWS = (
    ("u8,big,bits4 u8,big,bits4 u16,big", (6, 9, 49406), "69c0fe"),
    ("u16", (1,), "0100"),
    ("u16,big", (1,), "0001"),
    ("i8", (-1,), "ff"),
    ("i16,big,bits12", (-2,), "ffe0"),
    ("u8,lsb,bits4 u8,lsb,bits4", (6, 9), "96"),
    ("u16,lsb,bits12", (0xABC,), "bc0a"),
    ("u32,big,bytes3", (0x010203,), "010203"),
    ("u8,bytes4", (7,), "07"),
    ("u128", (2**128 - 1,), "ff" * 16),
    ("u128,big", (2**64,), "0000000000000001" + "00" * 8),
    ("i128,big", (-(2**127),), "80" + "00" * 15),
    ("i128", (-2,), "fe" + "ff" * 15),
    ("isize,big usize,big", (-1, 2), "ff" * 8 + "00" * 7 + "02"),
    ("u8,big,bits1", (1,), "80"),
    ("u8,bits0", (0,), ""),
    ("", (), ""),
)

# Words and values that cannot be written, and a part of the error's text.
REFUSED = (
    ("u8", (256,), "does not fit"),
    ("u8", (-1,), "does not fit"),
    ("u128", (-1,), "does not fit"),
    ("u128", (2**128,), "does not fit"),
    ("i128", (2**127,), "does not fit"),
    ("i8,bits4", (8,), "does not fit"),
    ("u8,bits9", (1,), "rejected"),
    ("i16,big,lsb,bits9", (1,), "rejected"),
    ("u8 u8", (1,), "as many"),
    ("u8", (1, 2), "as many"),
)

# Words and bytes that cannot be read, and a part of the error's text.
UNREAD = (
    ("u16", "69", "not enough data"),
    ("u8", "", "not enough data"),
    ("u8,bits9", "6969", "beyond its kind"),
    ("u8,bits99999999999", "6969", "beyond its kind"),
    ("i16,big,lsb,bits9", "6969", "rejected"),
)

# Words that are no fields.
NO_FIELDS = ("u9", "u8,", "u8,big,", "u8,lsb,big", "u8,bits", "u8,bits-1", "U8", "u8 x", "u8,bits4,big", "u8,bits٣")


class Rows(unittest.TestCase):
    def test_rows(self):
        for spec, values, text in ROWS:
            with self.subTest(spec):
                self.assertEqual(dishkaru.write(spec, values).hex(), text)
                self.assertEqual(dishkaru.read(spec, bytes.fromhex(text)), values)
                self.assertEqual(dishkaru.read(spec.split(), bytes.fromhex(text) + b"more"), values)

    def test_bits(self):
        self.assertEqual(dishkaru.bits("u8,bits4 u16 i128"), 148)

    def test_refused(self):
        for spec, values, text in REFUSED:
            with self.subTest(spec), self.assertRaisesRegex(ValueError, text):
                dishkaru.write(spec, values)

    def test_unread(self):
        for spec, data, text in UNREAD:
            with self.subTest(spec), self.assertRaisesRegex(ValueError, text):
                dishkaru.read(spec, bytes.fromhex(data))

    def test_no_fields(self):
        for spec in NO_FIELDS:
            with self.subTest(spec), self.assertRaisesRegex(ValueError, "not a field"):
                dishkaru.Fields(spec)

    def test_no_number(self):
        with self.assertRaises(TypeError):
            dishkaru.write("u8", ["1"])

    def test_no_bytes(self):
        for data in (1, "69", [0.5]):
            with self.subTest(data), self.assertRaises(TypeError):
                dishkaru.read("u8", data)


def random_list(chance):
    """Big fields, high bits first: each with its sign, its bits and a value."""
    fields = []
    for _ in range(chance.randrange(1, 10)):
        signed = chance.random() < 0.5
        bits = chance.randrange(1, 65)
        low = -(2 ** (bits - 1)) if signed else 0
        fields.append((signed, bits, chance.randrange(low, low + 2**bits)))
    return fields


def spec_of(fields):
    return [f"{'i' if signed else 'u'}64,big,bits{bits}" for signed, bits, _ in fields]


class Random(unittest.TestCase):
    def lists(self):
        chance = random.Random(1)
        return (random_list(chance) for _ in range(LISTS))

    def test_one_number(self):
        # Big fields with their high bits first are one binary number.
        for fields in self.lists():
            number = total = 0
            for _, bits, value in fields:
                number = number << bits | value % 2**bits
                total += bits
            pad = -total % 8
            data = (number << pad).to_bytes((total + pad) // 8, "big")
            values = tuple(value for _, _, value in fields)
            self.assertEqual(dishkaru.write(spec_of(fields), values), data)
            self.assertEqual(dishkaru.read(spec_of(fields), data), values)

    @unittest.skipIf(bitstruct is None, "bitstruct is not there (Debian's python3-bitstruct)")
    def test_bitstruct(self):
        for fields in self.lists():
            form = "".join(f"{'s' if signed else 'u'}{bits}" for signed, bits, _ in fields)
            values = tuple(value for _, _, value in fields)
            data = bitstruct.pack(form, *values)
            self.assertEqual(dishkaru.write(spec_of(fields), values), data)
            self.assertEqual(dishkaru.read(spec_of(fields), data), bitstruct.unpack(form, data))


if __name__ == "__main__":
    unittest.main()
