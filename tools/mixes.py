"""Document 02, W-212, apart from the library: how many lists of measured counts pass, found by a product of polynomials and, where the lists within the book
are few, by trying each of them as well. The text is that of the call `mixes` of a script."""
import itertools
import math
from fractions import Fraction

import noise

MOST_CLASSES = 8
# The most lists that are tried one by one.
FEW = 70000
# The bits of a coefficient. At most 251^8 lists lie within a book, and this is less than 2^64.
WIDE = 64


def needed(classes, measured):
    """the numbers of the table that a call uses"""
    return classes * (measured + 1)


def refusal(daytime, night, measured, lent):
    """the number of the refusal, or 0"""
    if not noise.book_holds(daytime, night):
        return 10
    if len(daytime) > MOST_CLASSES:
        return 24
    if not 1 <= measured <= sum(daytime) + sum(night):
        return 25
    return 26 if lent < needed(len(daytime), measured) else 0


def passes(flights, counts):
    """the conditions of method two in document 01, on the flights of each class and the measured ones"""
    n, m = sum(flights), sum(counts)
    return all((k == 0 or count >= 1) and 20 * abs(count * n - k * m) <= n * m for k, count in zip(flights, counts))


def tried(flights, measured):
    """how many lists within the book add up and pass, by trying each"""
    lists = itertools.product(*(range(k + 1) for k in flights))
    return sum(sum(counts) == measured and passes(flights, counts) for counts in lists)


def polynomial(flights, share, measured):
    """the sum of x^count over the counts that a class of some share of the book may have, at x = 2^WIDE"""
    least = min(flights, 1)
    counts = [count for count in range(least, flights + 1) if abs(Fraction(count, measured) - share) <= Fraction(5, 100)]
    return sum(1 << WIDE * count for count in counts)


def by_product(flights, measured):
    """the same number, read off the product of the polynomials of the classes: it is the coefficient of x^measured"""
    product = math.prod(polynomial(k, Fraction(k, sum(flights)), measured) for k in flights)
    return (product >> WIDE * measured) % 2 ** WIDE


def mixes(flights, measured):
    """the count for a call that is not refused"""
    count = by_product(flights, measured)
    if math.prod(k + 1 for k in flights) <= FEW:
        assert count == tried(flights, measured), (flights, measured)
    return count


def answer(daytime, night, measured, lent):
    """the text that is right for a call that is lent so many numbers"""
    refused = refusal(daytime, night, measured, lent)
    return 'R %d' % refused if refused else 'A %d' % mixes([a + b for a, b in zip(daytime, night)], measured)
