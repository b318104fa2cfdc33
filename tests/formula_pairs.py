"""The formulas' pairs of document 01 at a fineness n, from exact sums or from sums rounded outward.

Written from document 01, 'What the numbers mean' and the two models, and from W-201 of document 02 for the periods
between the rows, apart from the pairs of models.py.  A scenario's median rests on the distance that its model reads
(W-202), and on no other.  Each formula is worked out in one of two ways.  EXACT adds every 1/k as a fraction and rounds
nothing.  OUTWARD keeps 60 decimal places: every low end is rounded down and every high end is rounded up, so that its
pair contains the exact one.
"""

import math
from fractions import Fraction
from functools import lru_cache
from typing import Callable, NamedTuple

from exact import Pair, add, div, ln_pair, mul, negative, reciprocal_sum, root_pair, stated, sub, true_ln
from models import row_of, table_of
from records import IDRISS, between_rows, neighbours, row

PLACES = 60
SCALE = 10 ** PLACES

# Sums are added term by term up to 1/DIRECT, and bounded by a logarithm beyond it.
DIRECT = 60000


class Way(NamedTuple):
    """How a logarithm's sums are added, and how the result of each operation is kept."""

    ln: Callable
    kept: Callable


# ---------------------------------------------------------------------------
# Sums rounded outward
# ---------------------------------------------------------------------------

def down(number):
    """Return a fraction rounded down to the last of the decimal places."""
    return Fraction(math.floor(number * SCALE), SCALE)


def up(number):
    """Return a fraction rounded up to the last of the decimal places."""
    return Fraction(math.ceil(number * SCALE), SCALE)


def rounded_outward(p):
    """Return a pair with its low end rounded down and its high end rounded up."""
    return Pair(down(p.low), up(p.high))


@lru_cache(maxsize=None)
def running_sums():
    """Return, for each k up to DIRECT, the sum of all 1/j up to k: each term rounded down, and each rounded up."""
    lows, highs = [0], [0]
    for k in range(1, DIRECT + 1):
        lows.append(lows[-1] + SCALE // k)
        highs.append(highs[-1] - (-SCALE // k))
    return lows, highs


def term_by_term(first, last):
    """Return a pair around the sum of 1/k for k from first to last, last up to DIRECT."""
    lows, highs = running_sums()
    return Pair(Fraction(lows[last] - lows[first - 1], SCALE), Fraction(highs[last] - highs[first - 1], SCALE))


def by_logarithm(first, last):
    """Return a pair around the sum of 1/k for k from first to last, first from 2 on."""
    # With z = 1/(2k), ln((2k + 1)/(2k - 1)) = 2 (z + z^3/3 + z^5/5 + ...).  That is above 2z = 1/k; and it is below
    # 1/k + 1/(11 k^3), as z^2 is at most 1/16.  Over all k the logarithms add up to one, and the 1/k^3 to less than
    # half of 1/((first - 1) first), as 1/k^3 is below 1/((k - 1) k (k + 1)).
    ln = true_ln(2 * last + 1, 2 * first - 1, PLACES)
    return rounded_outward(Pair(ln.low - Fraction(1, 22 * first * (first - 1)), ln.high))


def outward_sum(first, last):
    """Return a pair around the sum of 1/k for k from first to last."""
    if first > last:
        return stated(0)
    if last <= DIRECT:
        return term_by_term(first, last)
    if first > DIRECT:
        return by_logarithm(first, last)
    return add(term_by_term(first, DIRECT), by_logarithm(DIRECT + 1, last))


@lru_cache(maxsize=None)
def outward_ln(a, b, n):
    """Return a pair that contains the lower and the upper sum of ln(a/b) at fineness n."""
    if a < b:
        return negative(outward_ln(b, a, n))
    if a == b:
        return stated(0)
    return Pair(outward_sum(b * n + 1, a * n).low, outward_sum(b * n, a * n - 1).high)


EXACT = Way(lru_cache(maxsize=None)(ln_pair), lambda p: p)
OUTWARD = Way(outward_ln, rounded_outward)


# ---------------------------------------------------------------------------
# Operations on several pairs
# ---------------------------------------------------------------------------

def plus(way, *pairs):
    """Return the sum of some pairs, from the left."""
    result = pairs[0]
    for p in pairs[1:]:
        result = way.kept(add(result, p))
    return result


def times(way, *pairs):
    """Return the product of some pairs, from the left."""
    result = pairs[0]
    for p in pairs[1:]:
        result = way.kept(mul(result, p))
    return result


def minus(way, p, q):
    """Return the difference of two pairs."""
    return way.kept(sub(p, q))


def over(way, p, q):
    """Return the quotient of two pairs."""
    return way.kept(div(p, q))


def hundredths(number):
    """Return the stated pair of a field in hundredths."""
    return stated(Fraction(number, 100))


def row_pairs(table, number):
    """Return the coefficients of a row by name, as stated pairs."""
    return {name: stated(value) for name, value in row_of(table, number).items()}


# ---------------------------------------------------------------------------
# Periods between the rows
# ---------------------------------------------------------------------------

def between(way, period, lower, upper, v1, v2, n):
    """Return the pair at a period between two others, from the pairs there, by the logarithm of the period."""
    # W-201: "v1 + (v2 − v1) ln(T/T1) / ln(T2/T1)"; "a product [...] a quotient likewise, by a pair above zero".
    risen = times(way, minus(way, v2, v1), way.ln(period, lower, n))
    return plus(way, v1, over(way, risen, way.ln(upper, lower, n)))


def at_the_period(way, scenario, n, with_row):
    """Return the pair of a formula at the scenario's period; the formula takes the number of a row."""
    model, period = scenario.model, scenario.period
    if between_rows(model, period):
        lower, upper = neighbours(model, period)
        v1, v2 = with_row(row(model, lower)), with_row(row(model, upper))
        return between(way, period, lower, upper, v1, v2, n)
    return with_row(row(model, period))


# ---------------------------------------------------------------------------
# Idriss
# ---------------------------------------------------------------------------

def idriss_median(way, scenario, n):
    """Return the pair of Idriss's median."""
    return at_the_period(way, scenario, n, lambda number: idriss_with_row(way, number, scenario, n))


def idriss_with_row(way, number, scenario, n):
    """Return the pair of Idriss's median with a row, equation 3."""
    at = row_pairs(f'idriss-{table_of(scenario.magnitude)}', number)
    m, r = hundredths(scenario.magnitude), hundredths(scenario.rupture_distance)
    # "F is 0 for codes 0 and 1, and 1 for 2, 3 and 4."
    f = stated(0) if scenario.mechanism < 2 else stated(1)
    ln_r = way.ln(scenario.rupture_distance + 1000, 100, n)
    # "V above 1200 counts as 1200."
    ln_v = way.ln(min(scenario.velocity, 12000), 10, n)
    squared = times(way, sub(stated('8.5'), m), sub(stated('8.5'), m))
    beta = add(at['β1'], mul(at['β2'], m))
    return plus(way, at['α1'], mul(at['α2'], m), mul(at['α3'], squared), negative(times(way, beta, ln_r)),
                times(way, at['ξ'], ln_v), mul(at['γ'], r), mul(at['φ'], f))


def idriss_sigma(way, scenario, n):
    """Return the pair of Idriss's sigma."""
    # "T in seconds held to 0.05 to 3 and M held to 5 to 7.5"; W-201: "sigma of Idriss uses T itself".
    t = sorted((50, scenario.period, 3000))[1]
    m = sorted((500, scenario.magnitude, 750))[1]
    return minus(way, plus(way, stated('1.18'), times(way, stated('0.035'), way.ln(t, 1000, n))),
                 mul(stated('0.06'), hundredths(m)))


# ---------------------------------------------------------------------------
# Boore-Atkinson
# ---------------------------------------------------------------------------

def on_rock(way, number, scenario, n):
    """Return the pair of distance term and magnitude term with a row; with row 0 it is p."""
    at = {**row_pairs('boore-atkinson-6', number), **row_pairs('boore-atkinson-7', number)}
    m = hundredths(scenario.magnitude)
    x = scenario.projection_distance ** 2 + int(100 * at['h'].low) ** 2
    # "ln R is half of ln(R²)"; Mref 4.5, Rref 1 km.
    ln_r = times(way, stated(Fraction(1, 2)), way.ln(x, 10000, n))
    r = over(way, root_pair(x, n), stated(100))
    factor = add(at['c1'], mul(at['c2'], sub(m, stated('4.5'))))
    distance_term = plus(way, times(way, factor, ln_r), times(way, at['c3'], minus(way, r, stated(1))))
    above = sub(m, at['Mh'])
    e = at[{0: 'e2', 1: 'e3', 2: 'e4', 3: 'e4', 9: 'e1'}[scenario.mechanism]]
    if above.low > 0:
        return plus(way, distance_term, e, mul(at['e7'], above))
    return plus(way, distance_term, e, mul(at['e5'], above), mul(at['e6'], mul(above, above)))


def slope(way, at, velocity, n):
    """Return the pair of bnl, both logarithms turned over."""
    if velocity <= 1800:
        return at['b1']
    if velocity <= 3000:
        step = times(way, sub(at['b1'], at['b2']), way.ln(3000, velocity, n))
        return plus(way, over(way, step, way.ln(3000, 1800, n)), at['b2'])
    if velocity < 7600:
        return over(way, times(way, at['b2'], way.ln(7600, velocity, n)), way.ln(7600, 3000, n))
    return stated(0)


def nonlinear(way, bnl, p, n):
    """Return the pair of the nonlinear part for the pairs of bnl and p."""
    x, y = way.ln(3, 1, n), times(way, bnl, way.ln(15, 10, n))
    lower, upper = way.ln(3, 100, n), way.ln(9, 100, n)
    bnl_x = times(way, bnl, x)
    c = over(way, minus(way, times(way, stated(3), y), bnl_x), times(way, x, x))
    d = negative(over(way, minus(way, times(way, stated(2), y), bnl_x), times(way, x, x, x)))
    z = minus(way, p, lower)
    reached = []
    # "A branch is reached if points of the compared pairs meet its condition."
    first = times(way, bnl, way.ln(6, 10, n))
    if p.low <= lower.high:
        reached.append(first)
    if p.high > lower.low and p.low <= upper.high:
        reached.append(plus(way, first, times(way, c, z, z), times(way, d, z, z, z)))
    if p.high > upper.low:
        reached.append(times(way, bnl, minus(way, p, way.ln(1, 10, n))))
    return Pair(min(r.low for r in reached), max(r.high for r in reached))


def boore_atkinson_median(way, scenario, n):
    """Return the pair of Boore-Atkinson's median."""
    # "The PGA row with the scenario's own mechanism, no site term": the same for each row.
    p = on_rock(way, 0, scenario, n)
    return at_the_period(way, scenario, n, lambda number: boore_atkinson_with_row(way, number, scenario, p, n))


def boore_atkinson_with_row(way, number, scenario, p, n):
    """Return the pair of Boore-Atkinson's median with a row: on rock, the linear part and the nonlinear part added."""
    at = row_pairs('boore-atkinson-3', number)
    linear = times(way, at['blin'], way.ln(scenario.velocity, 7600, n))
    bnl = slope(way, at, scenario.velocity, n)
    return plus(way, on_rock(way, number, scenario, n), linear, nonlinear(way, bnl, p, n))


def boore_atkinson_sigma(way, scenario, n):
    """Return the pair of Boore-Atkinson's sigma, by the column of the code."""
    column = 'σTU' if scenario.mechanism == 9 else 'σTM'
    return at_the_period(way, scenario, n, lambda number: row_pairs('boore-atkinson-8', number)[column])


# ---------------------------------------------------------------------------
# Both models
# ---------------------------------------------------------------------------

def formula_pairs(way, scenario, n):
    """Return the pairs of median and sigma of an accepted scenario at fineness n."""
    if scenario.model == IDRISS:
        return idriss_median(way, scenario, n), idriss_sigma(way, scenario, n)
    return boore_atkinson_median(way, scenario, n), boore_atkinson_sigma(way, scenario, n)


def contains(p, q):
    """Say whether a pair contains another."""
    return p.low <= q.low and q.high <= p.high


def outward_checks(scenarios, finenesses):
    """Yield whether the outward sums and pairs contain the exact ones, with what was compared."""
    room = Fraction(1, 10 ** 9)
    for first, last in ((1, 1), (1, 1000), (7, 7), (100, 2600), (DIRECT - 5, DIRECT), (DIRECT - 900, DIRECT + 900),
                        (DIRECT + 1, DIRECT + 1), (DIRECT + 1, DIRECT + 1500), (10 ** 7, 10 ** 7 + 1000)):
        p, exact = outward_sum(first, last), reciprocal_sum(first, last)
        yield f'sum of 1/k from {first} to {last}', p.low <= exact <= p.high and p.high - p.low < room
    for first, last in ((2, 2), (2, 3), (2, 900), (50, 51), (1000, 3000)):
        p, exact = by_logarithm(first, last), reciprocal_sum(first, last)
        yield f'the same by a logarithm, from {first} to {last}', p.low <= exact <= p.high
    for scenario in scenarios:
        for n in finenesses:
            exact, outward = (formula_pairs(way, scenario, n) for way in (EXACT, OUTWARD))
            yield f'pairs of {tuple(scenario)} at n = {n}', all(map(contains, outward, exact))
