"""The two ground-motion models of document 01, over exact fractions.

Written from document 01, Idriss 2014 and Boore and Atkinson 2008 alone, and from W-201 of document 02 for the periods
between the rows.  The first part reads the coefficients and knows the limits of the fields.  The second part encloses
the real value of each formula, rounded outward at 50 decimal places.  The third part works the same formulas out over
pairs at a fineness n, as document 01, 'What the numbers mean', says.  The second and the third part are written
separately, so that each can check the other.

A formula is worked out with a row, counted from 0.  A function whose name ends in `_at`, or in `_at_pair`, takes any
accepted period instead: 0, a tabled one, or one between two rows.  Idriss's sigma has the period in its formula.

Fields are whole numbers in document 01's units: magnitude 0.01, distance 0.01 km, velocity 0.1 m/s, period 0.001 s.
Each model is given the distance that it reads, and no other: Idriss the rupture distance, Boore-Atkinson the distance
to the surface projection (W-202 of document 02).
"""

import os
from fractions import Fraction
from functools import lru_cache
from typing import NamedTuple, Tuple

import records
from exact import (Pair, add, div, ln_pair, mul, negative, reciprocal_sum, root_pair, stated, sub, true_ln,
                   true_root)

# ---------------------------------------------------------------------------
# The coefficients
# ---------------------------------------------------------------------------

COEFFICIENTS = os.path.join(os.path.dirname(os.path.abspath(__file__)), 'coefficients.txt')

HEADERS = {
    'idriss-2': 'period α1 α2 α3 β1 β2 ξ γ φ',
    'idriss-3': 'period α1 α2 α3 β1 β2 ξ γ φ',
    'boore-atkinson-3': 'period blin b1 b2',
    'boore-atkinson-4': 'name a1 pga_low a2 V1 V2 Vref',
    'boore-atkinson-6': 'period c1 c2 c3 h',
    'boore-atkinson-7': 'period e1 e2 e3 e4 e5 e6 e7 Mh',
    'boore-atkinson-8': 'period σTU σTM',
}

ROWS = 22
IDRISS_PERIODS = (10, 20, 30, 40, 50, 75, 100, 150, 200, 250, 300, 400, 500, 750, 1000, 1500, 2000, 3000, 4000, 5000,
                  7500, 10000)
# "Boore-Atkinson has the same without 40." The row PGA, here 0, stands before them.
BOORE_ATKINSON_PERIODS = (0,) + tuple(period for period in IDRISS_PERIODS if period != 40)


def expected_names(table):
    """Return what the first column of a table has to hold, with periods in thousandths."""
    if table == 'boore-atkinson-4':
        return ['value']
    if table.startswith('idriss'):
        return list(IDRISS_PERIODS)
    return ['PGA', *BOORE_ATKINSON_PERIODS[1:]]


def read_name(word):
    """Return the first word of a row: a name, or a period in thousandths."""
    return Fraction(word) * 1000 if word[0].isdigit() else word


def read_coefficients(path):
    """Return the rows of each table, every row as its coefficients by name."""
    tables = {table: [] for table in HEADERS}
    names = {table: [] for table in HEADERS}
    with open(path, encoding='utf-8') as file:
        lines = [line.split() for line in file if line.strip() and not line.startswith('#')]
    for table, first, *rest in lines:
        columns = HEADERS[table].split()
        if first == columns[0]:
            if [first, *rest] != columns:
                raise ValueError(f'{table} has other columns: {first} {rest}')
            continue
        names[table].append(read_name(first))
        if len(rest) != len(columns) - 1:
            raise ValueError(f'{table} {first} has {len(rest)} numbers')
        tables[table].append(dict(zip(columns[1:], map(Fraction, rest))))
    for table in HEADERS:
        if names[table] != expected_names(table):
            raise ValueError(f'{table} has other rows: {names[table]}')
    return tables


@lru_cache(maxsize=None)
def coefficients():
    """Return the tables of the file beside this one."""
    return read_coefficients(COEFFICIENTS)


def row_of(table, row):
    """Return one row of a table, its coefficients by name."""
    return coefficients()[table][row]


def site_value(name):
    """Return a coefficient of Boore-Atkinson Table 4, which has no periods."""
    return coefficients()['boore-atkinson-4'][0][name]


# ---------------------------------------------------------------------------
# The limits of the fields
# ---------------------------------------------------------------------------

class Limits(NamedTuple):
    """What a model accepts: first and last number of a field, the distance its own, and the codes of the mechanism."""

    magnitude: Tuple[int, int]
    distance: Tuple[int, int]
    velocity: Tuple[int, int]
    mechanism: Tuple[int, ...]


# The table of 'The scenario'.
IDRISS = Limits((450, 790), (0, 17500), (4500, 20000), (0, 1, 2, 3, 4))
BOORE_ATKINSON = Limits((500, 800), (0, 19999), (1800, 13000), (0, 1, 2, 3, 9))


def within(number, limits):
    """Say whether a number is within its limits, both of them included."""
    return limits[0] <= number <= limits[1]


def accepted(limits, row, magnitude, own_distance, velocity, mechanism):
    """Say whether a model accepts a row and the fields of a scenario."""
    return (within(row, (0, ROWS - 1)) and within(magnitude, limits.magnitude) and within(own_distance, limits.distance)
            and within(velocity, limits.velocity) and mechanism in limits.mechanism)


# Of Idriss's sigma: "T in seconds held to 0.05 to 3".
HELD_TO = (50, 3000)


def held(number, low, high):
    """Return the number held to a range."""
    return min(max(number, low), high)


# ---------------------------------------------------------------------------
# The rows of a period
# ---------------------------------------------------------------------------

def by_period(model, period, by_row, between_two):
    """Return what a formula gives at an accepted period: by its row, or between those by its two neighbouring rows.

    The formula takes a row; what is between two takes the period, its neighbours and the values there.
    """
    if not records.between_rows(model, period):
        # W-201: "Tabled periods answer as before", and so does 0.
        return by_row(records.row(model, period))
    lower, upper = records.neighbours(model, period)
    v1, v2 = (by_row(records.row(model, tabled)) for tabled in (lower, upper))
    return between_two(period, lower, upper, v1, v2)


# ---------------------------------------------------------------------------
# Parts that are exact fractions
# ---------------------------------------------------------------------------

def table_of(magnitude):
    """Return the table of Idriss that a magnitude takes, 2 or 3."""
    # "Table 2 holds up to and including M 6.75, Table 3 above it."
    return 2 if magnitude <= 675 else 3


@lru_cache(maxsize=None)
def alpha_part(table, row, magnitude):
    """Return α1 + α2 M + α3 (8.5 − M)² of Idriss."""
    at = row_of(f'idriss-{table}', row)
    m = Fraction(magnitude, 100)
    return at['α1'] + at['α2'] * m + at['α3'] * (Fraction('8.5') - m) ** 2


@lru_cache(maxsize=None)
def beta_factor(table, row, magnitude):
    """Return β1 + β2 M of Idriss."""
    at = row_of(f'idriss-{table}', row)
    return at['β1'] + at['β2'] * Fraction(magnitude, 100)


def reverse_or_oblique(mechanism):
    """Return F of Idriss."""
    # "F is 0 for codes 0 and 1, and 1 for 2, 3 and 4."
    return {0: 0, 1: 0, 2: 1, 3: 1, 4: 1}[mechanism]


@lru_cache(maxsize=None)
def magnitude_term(row, magnitude, mechanism):
    """Return the magnitude term of Boore-Atkinson, equations 5a and 5b."""
    at = row_of('boore-atkinson-7', row)
    # "Here e is e1 for code 9, e2 for 0, e3 for 1, e4 for 2 and 3."
    e = at[{9: 'e1', 0: 'e2', 1: 'e3', 2: 'e4', 3: 'e4'}[mechanism]]
    beyond_hinge = Fraction(magnitude, 100) - at['Mh']
    # "... up to and including Mh, e + e7 (M − Mh) above."
    if beyond_hinge <= 0:
        return e + at['e5'] * beyond_hinge + at['e6'] * beyond_hinge ** 2
    return e + at['e7'] * beyond_hinge


@lru_cache(maxsize=None)
def distance_factor(row, magnitude):
    """Return c1 + c2 (M − Mref) of Boore-Atkinson, Mref 4.5."""
    at = row_of('boore-atkinson-6', row)
    return at['c1'] + at['c2'] * (Fraction(magnitude, 100) - Fraction('4.5'))


def sum_of_squares(row, projection_distance):
    """Return X: the squares of the projection distance and of h, both in hundredths, added."""
    # "With RJB and h in hundredths the sum of squares is a whole X."
    h = row_of('boore-atkinson-6', row)['h'] * 100
    if h.denominator != 1:
        raise ValueError(f'h of row {row} is not whole in hundredths')
    return projection_distance ** 2 + int(h) ** 2


def boore_atkinson_sigma(row, mechanism):
    """Return sigma of Boore-Atkinson, an exact fraction."""
    # "Sigma is the exact table value, total, of Table 8: unspecified for code 9, specified otherwise."
    return row_of('boore-atkinson-8', row)['σTU' if mechanism == 9 else 'σTM']


# ---------------------------------------------------------------------------
# Enclosures of the real values
# ---------------------------------------------------------------------------

PLACES = 50
GRID = 10 ** PLACES


def outward(p):
    """Return the pair rounded outward at the last of the decimal places."""
    low, high = p
    return Pair(Fraction(low.numerator * GRID // low.denominator, GRID),
                Fraction(-(-high.numerator * GRID // high.denominator), GRID))


@lru_cache(maxsize=None)
def real_ln(a, b):
    """Return a pair around the real ln(a/b)."""
    return outward(true_ln(a, b, PLACES + 5))


@lru_cache(maxsize=None)
def real_root(x):
    """Return a pair around the real root of x."""
    return outward(true_root(x, PLACES + 5))


@lru_cache(maxsize=None)
def part_of_the_way(period, lower, upper):
    """Return a pair around the real ln(T/T1) / ln(T2/T1), which is from 0 to 1."""
    return outward(div(real_ln(period, lower), real_ln(upper, lower)))


def between(period, lower, upper, v1, v2):
    """Return a pair around the real value at a period between two rows, from pairs around those by the rows."""
    # W-201: "the value is v1 + (v2 − v1) ln(T/T1) / ln(T2/T1)".
    return outward(add(v1, mul(sub(v2, v1), part_of_the_way(period, lower, upper))))


def weighted(exact, *terms):
    """Return an exact number and weights times pairs, added."""
    low = high = exact
    for weight, p in terms:
        ends = (p.low, p.high) if weight >= 0 else (p.high, p.low)
        low, high = low + weight * ends[0], high + weight * ends[1]
    return outward(Pair(low, high))


def idriss_median(table, row, magnitude, rupture_distance, velocity, mechanism):
    """Return a pair around the real median of Idriss, equation 3."""
    at = row_of(f'idriss-{table}', row)
    exact = alpha_part(table, row, magnitude) + at['γ'] * Fraction(rupture_distance, 100)
    exact += at['φ'] * reverse_or_oblique(mechanism)
    # "V above 1200 counts as 1200."
    return weighted(exact, (-beta_factor(table, row, magnitude), real_ln(rupture_distance + 1000, 100)),
                    (at['ξ'], real_ln(min(velocity, 12000), 10)))


def idriss_median_at(table, period, magnitude, rupture_distance, velocity, mechanism):
    """Return a pair around the real median of Idriss at an accepted period, with one of its tables."""
    return by_period(records.IDRISS, period,
                     lambda row: idriss_median(table, row, magnitude, rupture_distance, velocity, mechanism), between)


def held_period(period):
    """Return the period that the sigma of Idriss takes for an accepted one, 0 among them."""
    # "Period 0 uses the row 0.01", whose period is held to 0.05 like the others below that.
    return held(period or 10, *HELD_TO)


def idriss_sigma(period, magnitude):
    """Return a pair around the real sigma of Idriss at an accepted period; 0 is peak acceleration."""
    # "M held to 5 to 7.5"; W-201: "sigma of Idriss uses T itself".
    t, m = held_period(period), held(magnitude, 500, 750)
    exact = Fraction('1.18') - Fraction('0.06') * Fraction(m, 100)
    return weighted(exact, (Fraction('0.035'), real_ln(t, 1000)))


def on_rock(row, magnitude, projection_distance, mechanism):
    """Return a pair around the real distance term and magnitude term of Boore-Atkinson, added."""
    c3 = row_of('boore-atkinson-6', row)['c3']
    x = sum_of_squares(row, projection_distance)
    # "R is its root over 100 and R² is X/10000"; "ln R is half of ln(R²)"; Rref is 1 km for every row, as "Caption 6
    # names Rref 5 for it; the text equates it with PGA, and 1 km is used."
    return weighted(magnitude_term(row, magnitude, mechanism) - c3,
                    (distance_factor(row, magnitude) / 2, real_ln(x, 10000)), (c3 / 100, real_root(x)))


@lru_cache(maxsize=1)
def rock_acceleration(magnitude, projection_distance, mechanism):
    """Return a pair around the real p, the logarithm of the rock acceleration; the same for both rows of a period."""
    # "The PGA row with the scenario's own mechanism, no site term."
    return on_rock(0, magnitude, projection_distance, mechanism)


@lru_cache(maxsize=None)
def slope(row, velocity):
    """Return a pair around the real slope bnl of Boore-Atkinson, equations 13a to 13d."""
    at = row_of('boore-atkinson-3', row)
    if velocity <= 1800:
        return stated(at['b1'])
    if velocity <= 3000:
        # One part of the way from b2 at 300 m/s back to b1 at 180 m/s.
        part = div(real_ln(3000, velocity), real_ln(3000, 1800))
        return weighted(at['b2'], (at['b1'] - at['b2'], part))
    if velocity < 7600:
        return weighted(0, (at['b2'], div(real_ln(7600, velocity), real_ln(7600, 3000))))
    return stated(0)


@lru_cache(maxsize=None)
def transition_brackets():
    """Return pairs around the real 3 ln 1.5 − x and x − 2 ln 1.5, with x = ln 3."""
    x, y = real_ln(3, 1), real_ln(15, 10)
    square, cube = sub(mul(stated(3), y), x), sub(x, mul(stated(2), y))
    if square.low <= 0 or cube.low <= 0:
        raise ValueError('the transition curve is not rising')
    return square, cube


def transition(p):
    """Return the span of the nonlinear part over the slope, between the thresholds, for p there."""
    # With u = z/x the document's c z² + d z³ is bnl ((3 ln 1.5 − x) u² + (x − 2 ln 1.5) u³).  Both brackets are above
    # zero and u is not below zero, so the span runs from its value at the low end to its value at the high end.
    square, cube = transition_brackets()
    z = sub(p, real_ln(3, 100))
    u = outward(div(Pair(max(z.low, Fraction(0)), z.high), real_ln(3, 1)))
    grown = add(mul(square, mul(u, u)), mul(cube, mul(u, mul(u, u))))
    return outward(add(real_ln(6, 10), grown))


@lru_cache(maxsize=1)
def nonlinear_over_slope(p):
    """Return the span, over all real numbers of the pair p, of the nonlinear part over the slope."""
    lower, upper = real_ln(3, 100), real_ln(9, 100)
    reached = []
    # "A branch is reached if points of the compared pairs meet its condition."  This is the range of a function of a
    # real p, so each branch is worked out over the points that meet its condition, and no others.
    if p.low <= lower.high:
        reached.append(real_ln(6, 10))
    if p.high > lower.low and p.low <= upper.high:
        reached.append(transition(Pair(max(p.low, lower.low), min(p.high, upper.high))))
    if p.high > upper.low:
        reached.append(sub(Pair(max(p.low, upper.low), p.high), real_ln(1, 10)))
    # "Every branch that it reaches is worked out and the pair spans them all."
    return Pair(min(r.low for r in reached), max(r.high for r in reached))


def nonlinear_range(row, velocity, p):
    """Return the span of the nonlinear part over all real numbers of the pair p."""
    return outward(mul(slope(row, velocity), nonlinear_over_slope(p)))


def boore_atkinson_median(row, magnitude, projection_distance, velocity, mechanism):
    """Return a pair around the real median of Boore-Atkinson, equations 1 to 13."""
    linear = weighted(0, (row_of('boore-atkinson-3', row)['blin'], real_ln(velocity, 7600)))
    nonlinear = nonlinear_range(row, velocity, rock_acceleration(magnitude, projection_distance, mechanism))
    return add(add(on_rock(row, magnitude, projection_distance, mechanism), linear), nonlinear)


def boore_atkinson_median_at(period, magnitude, projection_distance, velocity, mechanism):
    """Return a pair around the real median of Boore-Atkinson at an accepted period."""
    # Each of the two rows has its own site term, with the same p.
    return by_period(records.BOORE_ATKINSON, period,
                     lambda row: boore_atkinson_median(row, magnitude, projection_distance, velocity, mechanism),
                     between)


@lru_cache(maxsize=None)
def boore_atkinson_sigma_at(period, mechanism):
    """Return a pair around the real sigma of Boore-Atkinson at an accepted period, with equal ends at a row."""
    # W-201: "Sigma of Boore-Atkinson goes the same way".
    return by_period(records.BOORE_ATKINSON, period,
                     lambda row: stated(boore_atkinson_sigma(row, mechanism)), between)


# ---------------------------------------------------------------------------
# Sums of 1/k that are too long to be added term by term
# ---------------------------------------------------------------------------

# Sums of more terms than this are replaced by enclosures of them.
MOST_TERMS = 2500
# The series below are taken from here on only, where they give more than 45 decimal places.
FAR = 2000


def harmonic_less_ln(k):
    """Return a pair around 1 + 1/2 + ... + 1/k − ln k − Euler's constant, for k from FAR on."""
    # The terms B(2j)/(2j k^(2j)) of the asymptotic series have signs in turn, and what is left out lies between zero
    # and the first term left out.
    square = Fraction(1, k * k)
    terms = [Fraction(-1, 12), Fraction(1, 120), Fraction(-1, 252), Fraction(1, 240), Fraction(-1, 132),
             Fraction(691, 32760), Fraction(-1, 12)]
    kept = Fraction(1, 2 * k) + sum(term * square ** (j + 1) for j, term in enumerate(terms[:-1]))
    left_out = terms[-1] * square ** len(terms)
    return outward(Pair(kept + min(left_out, 0), kept + max(left_out, 0)))


def sum_ends(first, last):
    """Return a pair around the sum of 1/k for k from first to last: equal ends where it is short."""
    if last - first < MOST_TERMS:
        return stated(reciprocal_sum(first, last))
    # This takes the place of the exact sum, rounded outward by less than 10^-44.
    near = stated(reciprocal_sum(first, FAR))
    start = max(first - 1, FAR)
    tail = add(real_ln(last, start), sub(harmonic_less_ln(last), harmonic_less_ln(start)))
    return outward(add(near, tail))


@lru_cache(maxsize=None)
def formula_ln(a, b, n):
    """Return the sums of ln(a/b) at fineness n, long ones by enclosures of them."""
    if abs(a - b) * n <= MOST_TERMS:
        return ln_pair(a, b, n)
    if a < b:
        return negative(formula_ln(b, a, n))
    return Pair(sum_ends(b * n + 1, a * n).low, sum_ends(b * n, a * n - 1).high)


# ---------------------------------------------------------------------------
# The formulas over pairs at fineness n
# ---------------------------------------------------------------------------

def product(*pairs):
    """Return the product of some pairs, from the left."""
    result = stated(1)
    for p in pairs:
        result = mul(result, p)
    return result


def total(*pairs):
    """Return the sum of some pairs, from the left."""
    result = stated(0)
    for p in pairs:
        result = add(result, p)
    return result


def between_pair(period, lower, upper, v1, v2, n):
    """Return the formula's pair at a period between two rows, from the formulas' pairs by the rows."""
    # v1 + (v2 − v1) ln(T/T1) / ln(T2/T1), the product first.  "A formula at fineness n is worked out over such pairs":
    # v1 occurs twice, and the difference knows nothing of the sum.
    step = div(product(sub(v2, v1), formula_ln(period, lower, n)), formula_ln(upper, lower, n))
    return total(v1, step)


def by_period_pair(model, period, by_row, n):
    """Return the formula's pair at an accepted period: with its row, or between two."""
    return by_period(model, period, by_row,
                     lambda t, lower, upper, v1, v2: between_pair(t, lower, upper, v1, v2, n))


def idriss_median_pair(table, row, magnitude, rupture_distance, velocity, mechanism, n):
    """Return the formula's pair of the median of Idriss."""
    a1, a2, a3, b1, b2, xi, gamma, phi = map(stated, row_of(f'idriss-{table}', row).values())
    m, r = stated(Fraction(magnitude, 100)), stated(Fraction(rupture_distance, 100))
    ln_v = formula_ln(12000 if velocity > 12000 else velocity, 10, n)
    f = stated(1 if mechanism in (2, 3, 4) else 0)
    from_top = sub(stated('8.5'), m)
    # α1 + α2 M + α3 (8.5 − M)² − (β1 + β2 M) ln(R + 10) + ξ ln V + γ R + φ F
    alpha = total(a1, mul(a2, m), product(a3, from_top, from_top))
    beta = mul(add(b1, mul(b2, m)), formula_ln(rupture_distance + 1000, 100, n))
    return total(sub(alpha, beta), mul(xi, ln_v), mul(gamma, r), mul(phi, f))


def idriss_median_at_pair(table, period, magnitude, rupture_distance, velocity, mechanism, n):
    """Return the formula's pair of the median of Idriss at an accepted period, with one of its tables."""
    return by_period_pair(records.IDRISS, period, lambda row: idriss_median_pair(
        table, row, magnitude, rupture_distance, velocity, mechanism, n), n)


def idriss_sigma_pair(period, magnitude, n):
    """Return the formula's pair of sigma of Idriss at an accepted period; 0 is peak acceleration."""
    if period < 50:
        period = 50
    if period > 3000:
        period = 3000
    m = Fraction(500 if magnitude < 500 else 750 if magnitude > 750 else magnitude, 100)
    # 1.18 + 0.035 ln T − 0.06 M
    return sub(add(stated('1.18'), mul(stated('0.035'), formula_ln(period, 1000, n))), mul(stated('0.06'), stated(m)))


def distance_pair(row, magnitude, projection_distance, n):
    """Return the formula's pair of the distance term of Boore-Atkinson."""
    c1, c2, c3, h = map(stated, row_of('boore-atkinson-6', row).values())
    m, m_ref, r_ref = stated(Fraction(magnitude, 100)), stated('4.5'), stated(1)
    x = projection_distance * projection_distance + int(h.low * 100) ** 2
    r = div(root_pair(x, n), stated(100))
    # "Where ln R is half of ln(R²)"; Rref is 1, so that ln(R/Rref) is ln R.
    ln_r = mul(stated(Fraction(1, 2)), formula_ln(x, 10000, n))
    return add(mul(add(c1, mul(c2, sub(m, m_ref))), ln_r), mul(c3, sub(r, r_ref)))


def magnitude_pair(row, magnitude, mechanism):
    """Return the formula's pair of the magnitude term of Boore-Atkinson, which has equal ends."""
    at = [stated(number) for number in row_of('boore-atkinson-7', row).values()]
    e5, e6, e7, hinge = at[4:]
    if mechanism == 9:
        e = at[0]
    elif mechanism in (0, 1):
        e = at[1 + mechanism]
    else:
        e = at[3]
    m = stated(Fraction(magnitude, 100))
    above = sub(m, hinge)
    if m.low > hinge.low:
        return add(e, mul(e7, above))
    return total(e, mul(e5, above), product(e6, above, above))


def rock_pair(row, magnitude, projection_distance, mechanism, n):
    """Return the formula's pair on rock; for row 0 it is p, the logarithm of the rock acceleration."""
    return add(distance_pair(row, magnitude, projection_distance, n), magnitude_pair(row, magnitude, mechanism))


@lru_cache(maxsize=None)
def slope_pair(row, velocity, n, ln=ln_pair):
    """Return the formula's pair of the slope bnl, from exact sums unless another ln is given."""
    _, b1, b2 = map(stated, row_of('boore-atkinson-3', row).values())
    # "b1 up to 180; up to 300, (b1 − b2) ln(V/300) / ln(180/300) + b2; below 760, b2 ln(V/760) / ln(300/760); from 760
    # on, 0. (Turn both logarithms over, so that the divisor is above zero.)"
    if velocity >= 7600:
        return stated(0)
    if velocity > 3000:
        return div(mul(b2, ln(7600, velocity, n)), ln(7600, 3000, n))
    if velocity > 1800:
        return add(div(mul(sub(b1, b2), ln(3000, velocity, n)), ln(3000, 1800, n)), b2)
    return b1


def nonlinear_pair(row, velocity, p, n):
    """Return the formula's pair of the nonlinear part, for a given pair of p."""
    bnl = slope_pair(row, velocity, n, formula_ln)
    x, y = formula_ln(3, 1, n), mul(bnl, formula_ln(15, 10, n))
    lower, upper = formula_ln(3, 100, n), formula_ln(9, 100, n)
    z = sub(p, lower)
    # c = (3y − bnl x)/x², d = −(2y − bnl x)/x³
    c = div(sub(mul(stated(3), y), mul(bnl, x)), product(x, x))
    d = div(negative(sub(mul(stated(2), y), mul(bnl, x))), product(x, x, x))
    low = mul(bnl, formula_ln(6, 10, n))
    middle = total(low, product(c, z, z), product(d, z, z, z))
    high = mul(bnl, sub(p, formula_ln(1, 10, n)))
    return span_reached(p, lower, upper, (low, middle, high))


def span_reached(p, lower, upper, branches):
    """Return the span of the branches that p reaches: up to lower, up to upper, above."""
    low, middle, high = branches
    # "A branch is reached if points of the compared pairs meet its condition."  The formula's branches are worked out
    # over the whole pair p, as the document has no rule that would cut it at a threshold.
    reached = []
    if p.low <= lower.high:
        reached.append(low)
    if p.high > lower.low and p.low <= upper.high and upper.high > lower.low:
        reached.append(middle)
    if p.high > upper.low:
        reached.append(high)
    return Pair(min(r.low for r in reached), max(r.high for r in reached))


def boore_atkinson_median_pair(row, magnitude, projection_distance, velocity, mechanism, n):
    """Return the formula's pair of the median of Boore-Atkinson."""
    # "The Boore-Atkinson median is the distance term, the magnitude term, the linear part and the nonlinear part
    # added."
    blin = stated(row_of('boore-atkinson-3', row)['blin'])
    p = rock_pair(0, magnitude, projection_distance, mechanism, n)
    return total(distance_pair(row, magnitude, projection_distance, n), magnitude_pair(row, magnitude, mechanism),
                 mul(blin, formula_ln(velocity, 7600, n)), nonlinear_pair(row, velocity, p, n))


def boore_atkinson_sigma_pair(row, mechanism):
    """Return the formula's pair of sigma of Boore-Atkinson: "Its two ends are equal."."""
    unspecified, specified = row_of('boore-atkinson-8', row).values()
    return stated(unspecified if mechanism == 9 else specified)


def boore_atkinson_median_at_pair(period, magnitude, projection_distance, velocity, mechanism, n):
    """Return the formula's pair of the median of Boore-Atkinson at an accepted period."""
    return by_period_pair(records.BOORE_ATKINSON, period, lambda row: boore_atkinson_median_pair(
        row, magnitude, projection_distance, velocity, mechanism, n), n)


def boore_atkinson_sigma_at_pair(period, mechanism, n):
    """Return the formula's pair of sigma of Boore-Atkinson at an accepted period."""
    return by_period_pair(records.BOORE_ATKINSON, period, lambda row: boore_atkinson_sigma_pair(row, mechanism), n)
