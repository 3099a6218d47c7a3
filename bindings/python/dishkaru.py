"""Lists of whole-number fields, read from bytes and written as bytes, bit by bit.

    >>> import dishkaru
    >>> dishkaru.write("u8,big,bits4 u8,big,bits4 u16,big", [6, 9, 49406]).hex()
    '69c0fe'
    >>> dishkaru.read("u8,big,bits4 u8,big,bits4 u16,big", bytes.fromhex("69c0fe"))
    (6, 9, 49406)

A spec is words with spaces between them, or a list of words, each `kind[,big|,little][,msb|,lsb][,bitsN|,bytesN]`. The kind is `u8`,
`u16`, `u32`, `u64`, `u128` or `usize`, or one of these with `i` for `u`, which is signed. Without options a field has its low byte first
(`little`), takes the high bits of a byte first (`msb`), and has all bits of its kind.

The module calls the library libdishkaru.so, which `make` in bindings/c builds. It is looked for under the name in the environment variable
DISHKARU_LIBRARY, beside this file, and in ../c/out.
"""

import ctypes
import os
import pathlib
import re

__all__ = ["Fields", "bits", "read", "write"]

KINDS = ("u8", "u16", "u32", "u64", "u128", "usize", "i8", "i16", "i32", "i64", "i128", "isize")
WORD = re.compile(r"([iu](?:8|16|32|64|128|size))(,big|,little)?(,msb|,lsb)?(?:,(bits|bytes)([0-9]+))?", re.ASCII)

# The texts of statuses, as in dishkaru.h.
TEXTS = (
    "ok",
    "a field has an unknown kind, endian, order or unit",
    "there are not as many values as fields",
    "not enough data",
    "the size of a field is beyond its kind",
    "a value does not fit its field, or the layout of a field is rejected",
    "an assertion failed",
    "no variant has this id",
    "not enough room",
)
INVALID_PARAM = 5

LOW = 2**64 - 1
LARGEST_SIZE = 2**32 - 1


class _Field(ctypes.Structure):
    _fields_ = [
        ("kind", ctypes.c_uint8),
        ("endian", ctypes.c_uint8),
        ("order", ctypes.c_uint8),
        ("unit", ctypes.c_uint8),
        ("size", ctypes.c_uint32),
    ]


class _Value(ctypes.Structure):
    _fields_ = [("low", ctypes.c_uint64), ("high", ctypes.c_uint64)]


def _library():
    here = pathlib.Path(__file__).resolve().parent
    name = os.environ.get("DISHKARU_LIBRARY")
    if name is None:
        places = (here / "libdishkaru.so", here.parent / "c" / "out" / "libdishkaru.so")
        name = next((str(place) for place in places if place.is_file()), None)
    if name is None:
        raise ImportError("libdishkaru.so is not there: run `make` in bindings/c, or set DISHKARU_LIBRARY")
    library = ctypes.CDLL(name)
    fields, values = ctypes.POINTER(_Field), ctypes.POINTER(_Value)
    size, count = ctypes.c_size_t, ctypes.POINTER(ctypes.c_uint64)
    library.dishkaru_bits.argtypes = [fields, size, count]
    library.dishkaru_read.argtypes = [fields, size, ctypes.c_char_p, size, values, size, count]
    library.dishkaru_write.argtypes = [fields, size, values, size, ctypes.c_char_p, size, count]
    for function in (library.dishkaru_bits, library.dishkaru_read, library.dishkaru_write):
        function.restype = ctypes.c_uint32
    return library


_LIBRARY = _library()


def _field(word):
    match = WORD.fullmatch(word)
    if match is None:
        raise ValueError(f"not a field: {word!r}")
    kind, endian, order, unit, size = match.groups()
    return _Field(
        kind=KINDS.index(kind),
        endian=int(endian == ",big"),
        order=int(order == ",lsb"),
        unit=(None, "bits", "bytes").index(unit),
        size=min(int(size or 0), LARGEST_SIZE),
    )


def _check(status):
    if status != 0:
        raise ValueError(TEXTS[status] if status < len(TEXTS) else f"unknown status {status}")


class Fields:
    """A spec that is parsed once, for many reads and writes."""

    def __init__(self, spec):
        """ValueError if a word is no field."""
        words = spec.split() if isinstance(spec, str) else list(spec)
        self._count = len(words)
        # A call needs a pointer even to no fields.
        self._fields = (_Field * max(self._count, 1))(*map(_field, words))
        self._signed = [word.startswith("i") for word in words]

    def bits(self):
        """How many bits the fields take. ValueError if a field's layout is rejected."""
        bits = ctypes.c_uint64()
        _check(_LIBRARY.dishkaru_bits(self._fields, self._count, ctypes.byref(bits)))
        return bits.value

    def read(self, data):
        """The value of each field, from the first bit of the data on. What follows the last field is ignored.

        ValueError if the data ends before the last field does, or if a field's layout is rejected.
        """
        if isinstance(data, int):
            raise TypeError("data is a number, not bytes")  # of which `bytes` would make so many zeros
        data = bytes(data)
        values = (_Value * max(self._count, 1))()
        bits = ctypes.c_uint64()
        _check(_LIBRARY.dishkaru_read(self._fields, self._count, data, len(data), values, self._count, ctypes.byref(bits)))
        return tuple(map(_number, values, self._signed))

    def write(self, values):
        """The bytes of the values, the last one filled with zero bits.

        ValueError if there are not as many values as fields, if one does not fit its field, or if a field's layout is rejected.
        """
        values = list(values)
        codes = (_Value * max(len(values), 1))()
        for code, value, signed in zip(codes, values, self._signed):
            low, high = (-(2**127), 2**127) if signed else (0, 2**128)
            if not low <= value < high:
                _check(INVALID_PARAM)
            code.low, code.high = value & LOW, value >> 64 & LOW
        room = (self.bits() + 7) // 8
        data = ctypes.create_string_buffer(room + 1)
        written = ctypes.c_uint64()
        _check(_LIBRARY.dishkaru_write(self._fields, self._count, codes, len(values), data, room, ctypes.byref(written)))
        return data.raw[: written.value]


def _number(value, signed):
    number = value.low | value.high << 64
    return number - 2**128 if signed and number >= 2**127 else number


def bits(spec):
    """How many bits the fields of a spec take, as `Fields(spec).bits()`."""
    return Fields(spec).bits()


def read(spec, data):
    """The values of a spec's fields, as `Fields(spec).read(data)`."""
    return Fields(spec).read(data)


def write(spec, values):
    """The bytes of a spec's fields with these values, as `Fields(spec).write(values)`."""
    return Fields(spec).write(values)
