"""Exact values of document 01, "What the numbers mean", over fractions.

The first part follows the document: the sums of a logarithm, the two values
of a root, and the operations on pairs.  The second part encloses the real
logarithm and the real root by other routes, so that each can check the other.
"""

import math
from fractions import Fraction
from functools import lru_cache
from typing import NamedTuple

# Spare binary places of the series, to take up its outward roundings.
SPARE_BITS = 32


class Pair(NamedTuple):
    """A low end and a high end, both of them fractions."""

    low: Fraction
    high: Fraction


def need_whole(least, *numbers):
    """Refuse anything but whole numbers of at least the given size."""
    for number in numbers:
        if not isinstance(number, int):
            raise TypeError(f'{number!r} is not a whole number')
        if number < least:
            raise ValueError(f'{number} is below {least}')


# ---------------------------------------------------------------------------
# Logarithm and root, as the document defines them
# ---------------------------------------------------------------------------

def top_and_bottom(first, last):
    """Add 1/k for k from first to last by halves, without reducing."""
    if first == last:
        return 1, first
    middle = (first + last) // 2
    left_top, left_bottom = top_and_bottom(first, middle)
    right_top, right_bottom = top_and_bottom(middle + 1, last)
    top = left_top * right_bottom + right_top * left_bottom
    return top, left_bottom * right_bottom


def reciprocal_sum(first, last):
    """Return the sum of 1/k for k from first to last."""
    if first > last:
        return Fraction(0)
    return Fraction(*top_and_bottom(first, last))


def ln_pair(a, b, n):
    """Return the lower and the upper sum of ln(a/b) at fineness n."""
    need_whole(1, a, b, n)
    # "Equal a and b give 0 and 0."
    if a == b:
        return stated(0)
    # "For a < b it is the negative of ln(b/a), the sums exchanged."
    if a < b:
        return negative(ln_pair(b, a, n))
    # "For whole a >= b >= 1 and fineness n >= 1, ln(a/b) has the lower sum
    # of 1/k for k from bn + 1 to an, and the upper sum of 1/k for k from bn
    # to an - 1."  They have all but their last and first terms in common.
    common = reciprocal_sum(b * n + 1, a * n - 1)
    return Pair(common + Fraction(1, a * n), common + Fraction(1, b * n))


def root_pair(x, n):
    """Return the lower and the upper value of the root of x at fineness n."""
    need_whole(0, x)
    need_whole(1, n)
    # "A root of whole X has the lower value k/n, k the greatest whole number
    # with k^2 <= X * n^2, and the upper value (k + 1)/n."
    k = math.isqrt(x * n * n)
    return Pair(Fraction(k, n), Fraction(k + 1, n))


# ---------------------------------------------------------------------------
# Operations on pairs
# ---------------------------------------------------------------------------

def stated(x):
    """Return the pair of a stated number: a whole, a fraction or a text."""
    # "A stated number is a pair of equal ends."
    if isinstance(x, float):
        raise TypeError('a stated number has to be exact')
    value = Fraction(x)
    return Pair(value, value)


def negative(p):
    """Return the pair of the negative: both ends negated and exchanged."""
    return Pair(-p.high, -p.low)


def add(p, q):
    """Return the sum of two pairs."""
    # "Sums go end by end."
    return Pair(p.low + q.low, p.high + q.high)


def sub(p, q):
    """Return the difference of two pairs."""
    # "A difference takes the low end less the other's high end, and the high
    # end less the other's low."
    return Pair(p.low - q.high, p.high - q.low)


def mul(p, q):
    """Return the product of two pairs."""
    # "A product runs from the least to the greatest of the four products."
    # Of pairs that are not below zero these are the first and the last.
    if p.low >= 0 and q.low >= 0:
        return Pair(p.low * q.low, p.high * q.high)
    products = [s * t for s in p for t in q]
    return Pair(min(products), max(products))


def div(p, q):
    """Return the quotient of a pair by a pair above zero."""
    # "A quotient likewise, by a pair above zero."
    if q.low <= 0:
        raise ValueError('the divisor is not above zero')
    quotients = [Fraction(s) / t for s in p for t in q]
    return Pair(min(quotients), max(quotients))


def branch_up_to(p, q, a, b):
    """Return a where p is up to and including q, and b where p is above q."""
    # "A branch is reached if points of the compared pairs meet its
    # condition."
    reached = []
    if p.low <= q.high:
        reached.append(a)
    if p.high > q.low:
        reached.append(b)
    # "Where a branch depends on a pair, every branch that it reaches is
    # worked out and the pair spans them all."
    return Pair(min(r.low for r in reached), max(r.high for r in reached))


def meets(p, q):
    """Tell whether some point lies in both pairs."""
    # "An answer encloses a formula if at every n some point lies both from
    # its low end to its high end and within the formula's pair, ends
    # included."
    return p.low <= q.high and q.low <= p.high


# ---------------------------------------------------------------------------
# The real logarithm and the real root, by other routes than the document's
# ---------------------------------------------------------------------------

def divide_up(top, bottom):
    """Divide whole numbers, rounding up."""
    return -(-top // bottom)


def series_ends(p, q, bits):
    """Enclose ln((1 + z)/(1 - z)), z = p/q from 0 to 1/3, in 2**-bits."""
    # 2 * (z + z^3/3 + z^5/5 + ...), the low end always rounded down and the
    # high end always rounded up.
    low_power, high_power = (p << bits) // q, divide_up(p << bits, q)
    low_square = (p * p << bits) // (q * q)
    high_square = divide_up(p * p << bits, q * q)
    low = high = 0
    odd = 1
    while low_power:
        low += low_power // odd
        high += divide_up(high_power, odd)
        low_power = low_power * low_square >> bits
        high_power = divide_up(high_power * high_square, 1 << bits)
        odd += 2
    # What is left out is at most z^odd/odd * (1 + z^2 + z^4 + ...), and the
    # bracket is at most 9/8 as z is at most 1/3.
    high += divide_up(9 * high_power, 8 * odd)
    return 2 * low, 2 * high


@lru_cache(maxsize=None)
def ln_two_ends(bits):
    """Enclose ln 2 = ln((1 + 1/3)/(1 - 1/3)) in units of 2**-bits."""
    return series_ends(1, 3, bits)


def without_twos(a, b):
    """Return t, c, d: a/b is 2**t * c/d, and c/d is near 1."""
    twos = a.bit_length() - b.bit_length()
    c, d = a << max(-twos, 0), b << max(twos, 0)
    # Now c/d is between 1/2 and 2; bring it between the root of 1/2 and of 2.
    if c * c > 2 * d * d:
        return twos + 1, c, 2 * d
    if 2 * c * c < d * d:
        return twos - 1, 2 * c, d
    return twos, c, d


def true_ln(a, b, digits=45):
    """Return a pair around the real ln(a/b), narrower than 10**-digits."""
    need_whole(1, a, b, digits)
    # 10 is below 2**(10/3).
    bits = digits * 10 // 3 + SPARE_BITS
    twos, c, d = without_twos(a, b)
    # c/d = (1 + z)/(1 - z) with z = (c - d)/(c + d).
    low, high = series_ends(abs(c - d), c + d, bits)
    if c < d:
        low, high = -high, -low
    two_low, two_high = ln_two_ends(bits)
    if twos < 0:
        two_low, two_high = two_high, two_low
    return Pair(Fraction(low + twos * two_low, 1 << bits),
                Fraction(high + twos * two_high, 1 << bits))


def true_root(x, digits=45):
    """Return a pair around the real root of x, narrower than 10**-digits."""
    need_whole(0, x)
    need_whole(1, digits)
    scale = 10 ** (digits + 1)
    square = x * scale * scale
    low = math.isqrt(square)
    high = low if low * low == square else low + 1
    return Pair(Fraction(low, scale), Fraction(high, scale))
