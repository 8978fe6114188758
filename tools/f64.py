"""What the tools on f64 share: numbers by their bits, rounding without the processor's floating point, and numbers that are in no range."""
import struct
from fractions import Fraction


def number(text):
    """the f64 whose bits are 16 hexadecimal digits"""
    return struct.unpack('>d', bytes.fromhex(text))[0]


def bits(x):
    """the bits of an f64, as 16 hexadecimal digits"""
    return struct.pack('>d', x).hex()


def nearest(x):
    """a fraction rounded to the nearest f64, a tie to the even one, by whole numbers alone; without the sign of a zero, and for no fraction beyond the
    greatest f64"""
    magnitude = abs(x.numerator).bit_length() - x.denominator.bit_length()
    if abs(x) < Fraction(2) ** magnitude:
        magnitude -= 1
    last_place = Fraction(2) ** max(magnitude - 52, -1074)
    return round(x / last_place) * last_place


# What is in no range, by its bits: NaN patterns of either sign, quiet and signalling, infinities, negative numbers and the greatest one.
OUTSIDE = list(map(number, ('7ff8000000000000', '7ff0000000000001', 'fff8000000000000', 'ffffffffffffffff', '7ff0000000000000', 'fff0000000000000',
                            '7fefffffffffffff', 'ffefffffffffffff', 'bff0000000000000', '8010000000000000', '8000000000000001')))
