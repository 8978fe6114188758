"""W-207 of document 02 in Python's floats, which are IEEE 754 by another implementation, written apart from the library: the correction behind the start of
roll at an angle in degrees (formulas B.14 and B.15), with refusal 22. The same over fractions, with each operation rounded by whole numbers, or with nothing
rounded, which is the exact value. Beside it stand the ways of computing it and the bounds that wrong programs have."""
import math
from decimal import Decimal
from fractions import Fraction

from f64 import bits, nearest

# The decimals of B.14 and of B.15, each with its sign. To add a product of the negative constant is to subtract that of the positive one, bit for bit.
DECIMALS = {'beside': ('51.44', '-1.553', '0.015147', '-0.000047173'), 'behind': ('339.18', '-2.5802', '-0.0045545', '0.000044193')}


def refusal(angle):
    """the number of the refusal, or 0; a NaN fails both comparisons"""
    return 0 if 0 <= angle <= 180 else 22


def position(angle):
    """where an angle that is not refused lies"""
    if angle < 90:
        return 'in front'
    return 'beside' if angle <= 148.4 else 'behind'


def beside(a):
    """B.14"""
    return 51.44 - 1.553 * a + 0.015147 * (a * a) - 0.000047173 * (a * a * a)


def behind(a):
    """B.15"""
    return 339.18 - 2.5802 * a - 0.0045545 * (a * a) + 0.000044193 * (a * a * a)


def correction(angle):
    """the correction at an angle that is beside or behind"""
    return {'beside': beside, 'behind': behind}[position(angle)](angle)


def answer(angle):
    """the text that is right for a call"""
    if refusal(angle):
        return 'R 22'
    where = position(angle)
    return 'A ' + where if where == 'in front' else 'A %s %s' % (where, bits(correction(angle)))


def terms_added(c0, c1, c2, c3, a):
    """either formula, of its four constants; over fractions it is exact"""
    return c0 + c1 * a + c2 * a ** 2 + c3 * a ** 3


def exact(angle):
    """the correction without rounding: of the decimals themselves, at the f64 that the angle is"""
    return terms_added(*map(Fraction, DECIMALS[position(angle)]), Fraction(angle))


def rounded(angle):
    """the correction over fractions, each constant and each operation rounded once; without the sign of a zero"""
    c0, c1, c2, c3 = (nearest(Fraction(decimal)) for decimal in DECIMALS[position(angle)])
    a = Fraction(angle)
    square = nearest(a * a)
    cube = nearest(square * a)
    return nearest(nearest(nearest(c0 + nearest(c1 * a)) + nearest(c2 * square)) + nearest(c3 * cube))


# What wrong programs compute of the four constants and the angle, behind the right way. The cube as a * (a * a) is not among them: it has the same bits
# always.

def in_order(c0, c1, c2, c3, a):
    return c0 + c1 * a + c2 * (a * a) + c3 * (a * a * a)


def nested(c0, c1, c2, c3, a):
    return c0 + a * (c1 + a * (c2 + a * c3))


def square_not_first(c0, c1, c2, c3, a):
    return c0 + c1 * a + c2 * a * a + c3 * (a * a * a)


def cube_not_first(c0, c1, c2, c3, a):
    return c0 + c1 * a + c2 * (a * a) + c3 * a * a * a


def neither_first(c0, c1, c2, c3, a):
    return c0 + c1 * a + c2 * a * a + c3 * a * a * a


def cube_from_square(c0, c1, c2, c3, a):
    return c0 + c1 * a + c2 * (a * a) + c3 * (a * a) * a


def highest_first(c0, c1, c2, c3, a):
    return c3 * (a * a * a) + c2 * (a * a) + c1 * a + c0


def constant_last(c0, c1, c2, c3, a):
    return c1 * a + c2 * (a * a) + c3 * (a * a * a) + c0


def from_the_right(c0, c1, c2, c3, a):
    return c0 + (c1 * a + (c2 * (a * a) + c3 * (a * a * a)))


def in_pairs(c0, c1, c2, c3, a):
    return (c0 + c1 * a) + (c2 * (a * a) + c3 * (a * a * a))


def positive_first(c0, c1, c2, c3, a):
    """the two terms that are added and the two that are subtracted, each pair by itself"""
    one, other, *negative = sorted((c0, c1 * a, c2 * (a * a), c3 * (a * a * a)), reverse=True)
    return (one + other) + (negative[0] + negative[1])


def cube_rounded_once(c0, c1, c2, c3, a):
    return c0 + c1 * a + c2 * (a * a) + c3 * float(nearest(Fraction(a) ** 3))


def fused(c0, c1, c2, c3, a):
    """each product and its sum rounded once, as a fused multiplication and addition does"""
    square, total = a * a, Fraction(c0)
    for constant, power in ((c1, a), (c2, square), (c3, square * a)):
        total = nearest(total + Fraction(constant) * Fraction(power))
    return float(total)


def rounded_at_the_end(c0, c1, c2, c3, a):
    return float(nearest(terms_added(*map(Fraction, (c0, c1, c2, c3, a)))))


OTHER_WAYS = {'powers nested': nested, 'the square not formed first': square_not_first, 'the cube not formed first': cube_not_first,
              'neither power formed first': neither_first, 'the square formed first, and not the cube': cube_from_square,
              'the highest power first': highest_first, 'the constant last': constant_last, 'terms added from the right': from_the_right,
              'terms added in pairs': in_pairs, 'the positive terms first': positive_first, 'the cube rounded once': cube_rounded_once,
              'products not rounded before they are added': fused, 'rounded once at the end': rounded_at_the_end}


def constants(where):
    return tuple(map(float, DECIMALS[where]))


def shifted(decimal, by):
    """a decimal whose last digit is changed, its size growing by so much"""
    digits = Decimal(decimal)
    return str(digits + by * Decimal((digits.is_signed(), (1,), digits.as_tuple().exponent)))


def other_constants():
    """of each formula and each of its constants the f64 that wrong programs have for it, with a name"""
    for where, decimals in DECIMALS.items():
        for place, decimal in enumerate(decimals):
            right, name = float(decimal), decimal.lstrip('-')
            wrong = {'%s a last place larger' % name: math.nextafter(right, math.copysign(math.inf, right)),
                     '%s a last place smaller' % name: math.nextafter(right, 0.0)}
            for by in (1, -1):
                other = shifted(decimal, by)
                wrong['%s for %s' % (format(abs(Decimal(other)), 'f'), name)] = float(other)
            for name_of_wrong, constant in wrong.items():
                yield name_of_wrong, where, tuple(constant if k == place else c for k, c in enumerate(constants(where)))


def other_corrections():
    """a name, the position in which it matters, and the correction of an angle there, for each way that is wrong"""
    for where in DECIMALS:
        for name, way in OTHER_WAYS.items():
            yield '%s, %s' % (name, where), where, lambda a, way=way, where=where: way(*constants(where), a)
    for name, where, wrong in other_constants():
        yield name, where, lambda a, wrong=wrong: in_order(*wrong, a)
    yield 'B.15 for B.14', 'beside', behind
    yield 'B.14 for B.15', 'behind', beside


# Of the ways above these have the right bits for every angle. Beside, the products are whole numbers of 2^-47 dB, the first of 2^-45 dB and 51.44 of 2^-44 dB,
# and all three sums are exact; so the constant may be added last. One that is a last place off, by 2^-47 dB, is rounded back in the first sum.
SAME_BITS = ('the constant last, beside', '51.44 a last place larger', '51.44 a last place smaller')

# Bounds that wrong programs have: for each, whether an angle has another answer by it than the right one.
OTHER_BOUNDS = {'beside up to the f64 below 148.4': lambda a: a == 148.4,
                'beside up to the f64 above 148.4': lambda a: a == math.nextafter(148.4, math.inf),
                '90 in front': lambda a: a == 90, 'beside from the f64 below 90 on': lambda a: a == math.nextafter(90, 0),
                '180 refused': lambda a: a == 180, 'the f64 above 180 taken': lambda a: a == math.nextafter(180, math.inf),
                '0 and -0 refused': lambda a: a == 0, '-0 refused': lambda a: a == 0 and math.copysign(1, a) < 0,
                'the f64 below 0 taken': lambda a: a == math.nextafter(0, -1), 'NaN taken': math.isnan}
