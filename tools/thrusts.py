"""W-206 of document 02 in Python's floats, which are IEEE 754 by another implementation, written apart from the library: the level at a thrust between two
rows (formula B.3), with refusals 20 and 21. The same formula over fractions rounds nothing and is the exact value. Beside it stand the orders of
computing it that wrong programs have."""
from fractions import Fraction

from f64 import bits, nearest


def formula(f0, l0, f1, l1, f):
    """B.3: from the lower row, of thrust f0 and level l0, towards the next one, at the thrust f"""
    return l0 + (l1 - l0) * (f - f0) / (f1 - f0)


def rounded_formula(f0, l0, f1, l1, f):
    """B.3 over fractions, each operation rounded once; without the sign of a zero"""
    return nearest(l0 + nearest(nearest(nearest(l1 - l0) * nearest(f - f0)) / nearest(f1 - f0)))


def division_first(f0, l0, f1, l1, f):
    return l0 + (l1 - l0) * ((f - f0) / (f1 - f0))


def slope_first(f0, l0, f1, l1, f):
    return l0 + (l1 - l0) / (f1 - f0) * (f - f0)


def from_upper_row(f0, l0, f1, l1, f):
    return l1 - (l1 - l0) * (f1 - f) / (f1 - f0)


def by_weights(f0, l0, f1, l1, f):
    return (l0 * (f1 - f) + l1 * (f - f0)) / (f1 - f0)


OTHER_ORDERS = {'the division before the product': division_first, 'the slope before the product': slope_first,
                'from the upper row': from_upper_row, 'both levels by weights': by_weights}


def rows_are_unfit(thrusts, levels):
    """A NaN fails every comparison, so each test is one that must hold."""
    holds = (len(thrusts) == len(levels) and 2 <= len(thrusts) <= 32
             and all(0 <= thrust <= 1000 for thrust in thrusts) and all(0 <= level <= 140 for level in levels)
             and all(one < next_one for one, next_one in zip(thrusts, thrusts[1:])))
    return not holds


def refusal(thrusts, levels, thrust):
    """the number of the refusal, or 0"""
    if rows_are_unfit(thrusts, levels):
        return 20
    return 0 if thrusts[0] <= thrust <= thrusts[-1] else 21


def around(thrusts, levels, thrust):
    """the thrust and the level of the lower row and those of the next one, for a thrust that is not refused; of the last row alone its own"""
    lower = max(k for k, at in enumerate(thrusts) if at <= thrust)
    return [value for row in list(zip(thrusts, levels))[lower:lower + 2] for value in row]


def level(thrusts, levels, thrust, order=formula):
    """the level at a thrust that is not refused, computed in some order; at the last row its level itself"""
    rows = around(thrusts, levels, thrust)
    return order(*rows, thrust) if len(rows) == 4 else rows[1]


def over_fractions(thrusts, levels, thrust, order=formula):
    """the same level over fractions: by the formula as it stands it is exact"""
    return level(list(map(Fraction, thrusts)), list(map(Fraction, levels)), Fraction(thrust), order)


def answer(thrusts, levels, thrust, order=formula):
    """the text that is right for a call"""
    refused = refusal(thrusts, levels, thrust)
    return 'R %d' % refused if refused else 'A ' + bits(level(thrusts, levels, thrust, order))
