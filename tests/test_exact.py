"""Tests of exact.py itself.  Run as: python3 tests/test_exact.py"""

import math
import unittest
from fractions import Fraction

from exact import (Pair, add, branch_up_to, div, ln_pair, meets, mul,
                   negative, reciprocal_sum, root_pair, series_ends, stated,
                   sub, true_ln, true_root)

# The first digits of two logarithms, from printed tables.
LN_2 = '0.69314718055994530941723212145817656807550013436025'
LN_10 = '2.30258509299404568401799145468436420760110148862877'


def pair(low, high):
    """Return a pair of exact ends, given as wholes or texts."""
    return Pair(Fraction(low), Fraction(high))


def width(p):
    """Return how wide a pair is."""
    return p.high - p.low


def inside(p, q):
    """Tell whether the first pair lies within the second, ends included."""
    return q.low <= p.low and p.high <= q.high


def small_fractions(limit):
    """Return all a, b from 1 to the limit."""
    sizes = range(1, limit + 1)
    return [(a, b) for a in sizes for b in sizes]


def total(*pairs):
    """Return the sum of several pairs."""
    result = stated(0)
    for p in pairs:
        result = add(result, p)
    return result


class LnPairTest(unittest.TestCase):
    """The lower and the upper sum of a logarithm."""

    def test_stated_ln_3(self):
        """Document 01, "Values to try", P: ln 3 at n = 1."""
        self.assertEqual(ln_pair(3, 1, 1), pair('5/6', '3/2'))

    def test_stated_ln_2(self):
        """Document 01, "Values to try", P: ln 2 at n = 2."""
        self.assertEqual(ln_pair(2, 1, 2), pair('7/12', '5/6'))

    def test_stated_ln_of_equals(self):
        """Document 01, "Values to try", P: ln(7/7) has 0 and 0."""
        for n in range(1, 9):
            self.assertEqual(ln_pair(7, 7, n), pair(0, 0))

    def test_sums_term_by_term(self):
        """The sums added by halves are the sums added one by one."""
        for first in range(1, 8):
            for last in range(first - 1, first + 12):
                terms = [Fraction(1, k) for k in range(first, last + 1)]
                self.assertEqual(reciprocal_sum(first, last), sum(terms))

    def test_encloses_the_real_logarithm(self):
        """At n = 1 to 8 the real logarithm lies between the sums."""
        for a, b in small_fractions(20):
            true = true_ln(a, b)
            for n in range(1, 9):
                self.assertTrue(inside(true, ln_pair(a, b, n)), (a, b, n))

    def test_encloses_larger_arguments(self):
        """The same for some larger arguments, above and below one."""
        for a, b in [(100, 3), (100, 9), (760, 300), (300, 180), (999, 1000),
                     (1000, 75), (75, 1000), (10 ** 9 + 3, 10 ** 9)]:
            for n in range(1, 9):
                self.assertTrue(inside(true_ln(a, b), ln_pair(a, b, n)))

    def test_finer_is_narrower(self):
        """Unless a equals b, each next n gives a narrower pair."""
        for a, b in small_fractions(12):
            widths = [width(ln_pair(a, b, n)) for n in range(1, 9)]
            for coarse, fine in zip(widths, widths[1:]):
                self.assertTrue(fine < coarse or a == b and fine == 0)

    def test_width(self):
        """The width at n is the first upper term less the last lower."""
        for a, b in small_fractions(12):
            for n in (1, 2, 5):
                expected = abs(Fraction(1, b * n) - Fraction(1, a * n))
                self.assertEqual(width(ln_pair(a, b, n)), expected)

    def test_doubling_stays_inside(self):
        """The pair at 2n lies within the pair at n."""
        for a, b in small_fractions(12):
            for n in (1, 2, 3):
                fine, coarse = ln_pair(a, b, 2 * n), ln_pair(a, b, n)
                self.assertTrue(inside(fine, coarse))

    def test_below_one(self):
        """For a < b it is the negative of ln(b/a), the sums exchanged."""
        self.assertEqual(ln_pair(1, 3, 1), pair('-3/2', '-5/6'))
        for a, b in small_fractions(12):
            for n in (1, 2, 5):
                forth, back = ln_pair(a, b, n), ln_pair(b, a, n)
                self.assertEqual(forth, Pair(-back.high, -back.low))

    def test_refused(self):
        """Arguments below one and broken ones are refused."""
        for a, b, n in [(0, 1, 1), (1, 0, 1), (1, 1, 0), (-3, 1, 1)]:
            self.assertRaises(ValueError, ln_pair, a, b, n)
        self.assertRaises(TypeError, ln_pair, 1.5, 1, 1)


class RootPairTest(unittest.TestCase):
    """The lower and the upper value of a root."""

    def test_stated_root(self):
        """Document 01, "Values to try", P: the root of 18225 at n = 1."""
        self.assertEqual(root_pair(18225, 1), pair(135, 136))

    def test_by_hand(self):
        """Some roots worked out by hand."""
        self.assertEqual(root_pair(0, 1), pair(0, 1))
        self.assertEqual(root_pair(0, 4), pair(0, '1/4'))
        self.assertEqual(root_pair(2, 1), pair(1, 2))
        self.assertEqual(root_pair(2, 10), pair('14/10', '15/10'))
        self.assertEqual(root_pair(4, 3), pair(2, '7/3'))
        self.assertEqual(root_pair(18224, 1), pair(134, 135))

    def test_greatest_whole_number(self):
        """The lower value is the greatest k/n that is not too great."""
        for x in range(200):
            for n in range(1, 9):
                low, high = root_pair(x, n)
                self.assertTrue(low * low <= x < high * high, (x, n))
                self.assertEqual(high - low, Fraction(1, n))
                self.assertEqual(n % low.denominator, 0)

    def test_encloses_the_real_root(self):
        """The real root lies between the two values."""
        for x in list(range(200)) + [18224, 18226, 2 ** 29 - 1]:
            for n in range(1, 9):
                self.assertTrue(inside(true_root(x), root_pair(x, n)))

    def test_refused(self):
        """A negative number and a fineness of zero are refused."""
        self.assertRaises(ValueError, root_pair, -1, 1)
        self.assertRaises(ValueError, root_pair, 1, 0)


class OperationsTest(unittest.TestCase):
    """The operations on pairs, on examples made by hand."""

    def test_stated(self):
        """A stated number is a pair of equal ends."""
        self.assertEqual(stated(3), pair(3, 3))
        self.assertEqual(stated('-0.52'), pair('-13/25', '-13/25'))
        self.assertEqual(stated(Fraction(1, 3)), pair('1/3', '1/3'))
        self.assertRaises(TypeError, stated, 0.1)

    def test_negative(self):
        """The negative exchanges the ends."""
        self.assertEqual(negative(pair(-1, 3)), pair(-3, 1))

    def test_add(self):
        """Sums go end by end."""
        self.assertEqual(add(pair(1, 2), pair(10, 30)), pair(11, 32))
        self.assertEqual(add(pair(-5, 2), pair(-1, 4)), pair(-6, 6))
        self.assertEqual(add(pair('1/2', 1), pair('-1/3', 0)),
                         pair('1/6', 1))

    def test_sub(self):
        """A difference takes the other's opposite ends."""
        self.assertEqual(sub(pair(1, 2), pair(10, 30)), pair(-29, -8))
        self.assertEqual(sub(pair(-5, 2), pair(-1, 4)), pair(-9, 3))
        # A pair less itself is no point: only its ends count.
        self.assertEqual(sub(pair(1, 3), pair(1, 3)), pair(-2, 2))

    def test_mul(self):
        """A product runs from the least to the greatest of four."""
        for p, q, expected in [
                (pair(2, 3), pair(5, 7), pair(10, 21)),
                (pair(-3, -2), pair(5, 7), pair(-21, -10)),
                (pair(-3, -2), pair(-7, -5), pair(10, 21)),
                (pair(-3, 2), pair(5, 7), pair(-21, 14)),
                (pair(-3, 2), pair(-7, -5), pair(-14, 21)),
                (pair(-3, 2), pair(-5, 7), pair(-21, 15)),
                (pair(-2, 3), pair(-7, 1), pair(-21, 14)),
                (pair(-3, 2), pair(0, 0), pair(0, 0)),
                (pair('-1/2', '1/3'), pair('-3/5', '3/5'),
                 pair('-3/10', '3/10'))]:
            self.assertEqual(mul(p, q), expected)
            self.assertEqual(mul(q, p), expected)

    def test_square_is_a_product(self):
        """A pair times itself counts all four products too."""
        self.assertEqual(mul(pair(-2, 3), pair(-2, 3)), pair(-6, 9))

    def test_div(self):
        """A quotient runs from the least to the greatest of four."""
        for p, q, expected in [
                (pair(2, 3), pair(5, 7), pair('2/7', '3/5')),
                (pair(-3, -2), pair(5, 7), pair('-3/5', '-2/7')),
                (pair(-3, 2), pair(5, 7), pair('-3/5', '2/5')),
                (pair(0, 2), pair('1/3', 4), pair(0, 6)),
                (pair(-1, 0), pair('1/3', 4), pair(-3, 0)),
                (pair(1, 1), pair(3, 3), pair('1/3', '1/3'))]:
            self.assertEqual(div(p, q), expected)

    def test_div_stays_exact(self):
        """A quotient of plain whole ends is a fraction, not a float."""
        quotient = div(Pair(1, 1), Pair(3, 3))
        self.assertEqual(quotient, pair('1/3', '1/3'))
        self.assertIsInstance(quotient.low, Fraction)

    def test_div_refused(self):
        """A divisor that is not wholly above zero is refused."""
        for q in [pair(0, 1), pair(0, 0), pair(-1, 1), pair(-2, -1),
                  pair(-1, 0)]:
            self.assertRaises(ValueError, div, pair(1, 2), q)

    def test_meets(self):
        """Pairs meet where some point lies in both, ends included."""
        for p, q, expected in [
                (pair(1, 2), pair(2, 3), True),
                (pair(1, 2), pair('2000000001/1000000000', 3), False),
                (pair(1, 4), pair(2, 3), True),
                (pair(-3, -1), pair(-2, 5), True),
                (pair(-3, -1), pair(1, 3), False),
                (pair(2, 2), pair(2, 2), True),
                (pair(2, 2), pair(3, 3), False)]:
            self.assertIs(meets(p, q), expected)
            self.assertIs(meets(q, p), expected)


class BranchTest(unittest.TestCase):
    """A value that depends on how two pairs compare."""

    UP_TO, ABOVE = pair(-7, -5), pair(1, 2)
    BOTH = pair(-7, 2)

    def check(self, p, q, expected):
        """Check the value for the compared pairs p and q."""
        value = branch_up_to(p, q, self.UP_TO, self.ABOVE)
        self.assertEqual(value, expected, (p, q))

    def test_only_up_to(self):
        """Only the first branch is reached, also where ends touch."""
        self.check(pair(1, 2), pair(3, 4), self.UP_TO)
        self.check(pair(1, 2), pair(2, 3), self.UP_TO)
        self.check(pair(2, 2), pair(2, 2), self.UP_TO)
        self.check(pair(-4, -3), pair(-3, -3), self.UP_TO)

    def test_only_above(self):
        """Only the second branch is reached."""
        self.check(pair(3, 4), pair(1, 2), self.ABOVE)
        self.check(pair('-29/10', 0), pair(-3, -3), self.ABOVE)

    def test_both(self):
        """Both branches are reached, and the pair spans them."""
        self.check(pair(1, 3), pair(2, 2), self.BOTH)
        self.check(pair(2, 2), pair(1, 3), self.BOTH)
        self.check(pair(1, 3), pair(2, 4), self.BOTH)
        self.check(pair(1, 2), pair(1, 2), self.BOTH)
        self.check(pair(-1, 1), pair(0, 0), self.BOTH)

    def test_both_where_low_touches_high(self):
        """One common point is enough to reach the first branch."""
        self.check(pair(2, 3), pair(1, 2), self.BOTH)
        self.check(pair(2, 2), pair(1, 2), self.BOTH)
        self.check(pair(2, 3), pair(2, 2), self.BOTH)

    def test_span_of_any_order(self):
        """The pair spans the branches whichever lies lower or inside."""
        p, q = pair(0, 2), pair(1, 1)
        for a, b, expected in [
                (pair(5, 6), pair(1, 2), pair(1, 6)),
                (pair(1, 9), pair(2, 3), pair(1, 9)),
                (pair(2, 3), pair(1, 9), pair(1, 9)),
                (pair(0, 0), pair(-1, -1), pair(-1, 0))]:
            self.assertEqual(branch_up_to(p, q, a, b), expected)


class TrueLnTest(unittest.TestCase):
    """The enclosure of the real logarithm."""

    def test_narrow_enough(self):
        """The pair is narrower than asked, for small and large a/b."""
        sizes = [1, 2, 3, 7, 1000, 2 ** 29 - 1, 2 ** 64 - 1, 3 ** 400]
        for digits in (1, 9, 45, 100):
            for a in sizes:
                for b in sizes:
                    p = true_ln(a, b, digits)
                    self.assertLessEqual(p.low, p.high)
                    self.assertLess(width(p), Fraction(1, 10 ** digits))

    def test_coarse_series(self):
        """The series encloses also with few binary places."""
        for bits in range(16):
            for q in range(3, 40):
                for p in range(q // 3 + 1):
                    low, high = series_ends(p, q, bits)
                    coarse = Pair(Fraction(low, 1 << bits),
                                  Fraction(high, 1 << bits))
                    self.assertTrue(inside(true_ln(q + p, q - p), coarse))

    def test_default_digits(self):
        """Without being told, the pair is narrower than 10**-45."""
        for a, b in small_fractions(12):
            self.assertLess(width(true_ln(a, b)), Fraction(1, 10 ** 45))

    def test_equals(self):
        """The logarithm of one is exactly zero."""
        for a in (1, 2, 3, 7, 2 ** 29 - 1):
            self.assertEqual(true_ln(a, a), pair(0, 0))

    def test_printed_digits(self):
        """The printed digits of ln 2 and ln 10 lie within the pair."""
        last = Fraction(1, 10 ** 50)
        for a, digits in [(2, LN_2), (10, LN_10)]:
            printed = Pair(Fraction(digits) - last, Fraction(digits) + last)
            self.assertTrue(meets(true_ln(a, 1), printed))
            self.assertTrue(meets(true_ln(1, a), negative(printed)))
            self.assertTrue(meets(true_ln(a, 1, 60), printed))

    def test_sums_of_logarithms(self):
        """Identities such as ln 2 + ln 3 = ln 6."""
        for parts, whole in [
                ([2, 3], 6), ([2, 2], 4), ([2, 5], 10), ([3, 3, 3], 27),
                ([7, 11, 13], 1001), ([73, 137], 10001),
                ([641, 6700417], 2 ** 32 + 1)]:
            left = total(*(true_ln(part, 1) for part in parts))
            self.assertTrue(meets(left, true_ln(whole, 1)), whole)

    def test_sums_that_do_not_hold(self):
        """An enclosure is narrow enough to tell a wrong identity."""
        left = total(true_ln(2, 1), true_ln(3, 1))
        self.assertFalse(meets(left, true_ln(6 * 10 ** 40 + 1, 10 ** 40)))

    def test_ln_2_by_three_others(self):
        """ln 2 = 9 ln(27/25) - ln(4802/4800) + 4 ln(8750/8748)."""
        left = total(mul(stated(9), true_ln(27, 25)),
                     mul(stated(-1), true_ln(4802, 4800)),
                     mul(stated(4), true_ln(8750, 8748)))
        self.assertTrue(meets(left, true_ln(2, 1)))

    def test_chains(self):
        """ln(a/b) + ln(b/c) = ln(a/c)."""
        for a, b in small_fractions(15):
            for c in (1, 6, 11, 29):
                left = add(true_ln(a, b), true_ln(b, c))
                self.assertTrue(meets(left, true_ln(a, c)))

    def test_same_fraction(self):
        """Equal fractions have logarithms that meet."""
        for a, b in small_fractions(15):
            for factor in (2, 3, 1000):
                self.assertTrue(meets(true_ln(a, b),
                                      true_ln(a * factor, b * factor)))

    def test_against_the_library(self):
        """The standard library's logarithm agrees to 12 digits."""
        others = [(2 ** 29 - 1, 1), (2 ** 29 - 1, 2 ** 28), (1, 2 ** 29),
                  (18225, 10000), (399960001, 10000), (1000, 75)]
        for a, b in small_fractions(60) + others:
            expected = math.log(a) - math.log(b)
            middle = float(sum(true_ln(a, b)) / 2)
            self.assertAlmostEqual(middle, expected, delta=1e-12 * 25)
            if a != b:
                self.assertTrue(math.isclose(middle, math.log(a / b),
                                             rel_tol=1e-12), (a, b))

    def test_next_to_one(self):
        """For a = b + 1, 1/(b + 1/2) is just below and 1/b above."""
        for b in (1000, 2 ** 28, 2 ** 40):
            p = true_ln(b + 1, b)
            self.assertLess(Fraction(2, 2 * b + 1), p.low)
            self.assertLess(p.high, Fraction(1, b))
            self.assertLess(p.high - Fraction(2, 2 * b + 1),
                            Fraction(1, 11 * b ** 3))

    def test_refused(self):
        """Arguments below one are refused."""
        self.assertRaises(ValueError, true_ln, 0, 1)
        self.assertRaises(ValueError, true_ln, 1, 0)


class TrueRootTest(unittest.TestCase):
    """The enclosure of the real root."""

    def test_encloses(self):
        """The square of the low end is not above x, of the high not below."""
        for x in list(range(300)) + [2 ** 29 - 1, 2 ** 29, 10 ** 40 + 1]:
            low, high = true_root(x)
            self.assertTrue(low * low <= x <= high * high)
            self.assertLess(high - low, Fraction(1, 10 ** 45))

    def test_perfect_squares(self):
        """The root of a perfect square is exact."""
        for k in (0, 1, 2, 135, 23170):
            self.assertEqual(true_root(k * k), pair(k, k))

    def test_digits(self):
        """The number of digits can be chosen."""
        for digits in (1, 9, 100):
            self.assertLess(width(true_root(2, digits)),
                            Fraction(1, 10 ** digits))


if __name__ == '__main__':
    unittest.main()
