"""Check medians, sigmas and the nonlinear part against documents 01 and 02 and the papers, by way of models.py.

Run as: python3 tests/test_models.py PROBE [COUNT] [SEED]

PROBE reads one question from each line of its input and prints one line for each, `LOW HIGH` in units of 10^-9 of a
natural logarithm, or a table number, or `none` where an argument is outside the accepted limits:

    idriss TABLE ROW MAGNITUDE DISTANCE VELOCITY MECHANISM      -> LOW HIGH
    idriss_sigma PERIOD MAGNITUDE                               -> LOW HIGH
    boore_atkinson ROW MAGNITUDE DISTANCE VELOCITY MECHANISM    -> LOW HIGH
    boore_atkinson_sigma ROW MECHANISM                          -> LOW HIGH
    nonlinear ROW VELOCITY LOW HIGH                             -> LOW HIGH
    table MAGNITUDE                                             -> 2 or 3

DISTANCE is the one that the model reads: to the rupture for Idriss, to its surface projection for Boore-Atkinson.
The probe knows rows, and for Idriss's sigma every accepted period.  What models.py gives between the rows is checked
here by itself; the programs that answer are held against it in the other tests.  COUNT is how many questions are drawn
besides the fixed ones, 20,000 unless given.
"""

import math
import random
import re
import sys
from fractions import Fraction
from functools import lru_cache
from typing import NamedTuple, Tuple

import formula_pairs
import models
import records
from ask import ask
from exact import Pair, add, meets, mul, reciprocal_sum, stated, sub
from models import BOORE_ATKINSON, IDRISS, IDRISS_PERIODS, ROWS, accepted, row_of, within

COUNT = 20000
SEED = 20140609
FAULTS_SHOWN = 20

# "One unit is 10^-9 of a natural logarithm."
UNITS = 10 ** 9
# The given pair of p is from this many units to 0.
LOWEST = -10 ** 10

# How many units the two ends may be apart; sigma of Idriss at every accepted period, as W-205 has it "at most 10 units
# wide between rows too".
WIDEST = {'idriss': 100, 'idriss_sigma': 10, 'boore_atkinson': 2000, 'boore_atkinson_sigma': 0, 'nonlinear': 2000}
# The nonlinear part is held to that for pairs of p up to so many units wide; for wider pairs it may go beyond the
# exact range, at either end, by so many units and a hundredth of the pair's width.
NARROW = 10
BEYOND = 200

FINENESS = (1, 2, 3)
FIELD_END = 65535


class Question(NamedTuple):
    """A question to the probe, and whether its answer is held against the formula's pairs, too."""

    name: str
    arguments: Tuple[int, ...]
    by_formula: bool = False

    def line(self):
        """Return the line for the probe."""
        return ' '.join([self.name, *map(str, self.arguments)])


# ---------------------------------------------------------------------------
# What is due
# ---------------------------------------------------------------------------

def is_due(question):
    """Say whether numbers are due, and not the word none."""
    name, arguments, _ = question
    if name == 'idriss':
        return accepted(IDRISS, *arguments[1:])
    if name == 'boore_atkinson':
        return accepted(BOORE_ATKINSON, *arguments)
    if name == 'idriss_sigma':
        period, magnitude = arguments
        return records.accepts_period(period) and within(magnitude, IDRISS.magnitude)
    if name == 'boore_atkinson_sigma':
        row, mechanism = arguments
        return within(row, (0, ROWS - 1)) and mechanism in BOORE_ATKINSON.mechanism
    if name == 'nonlinear':
        row, velocity, low, high = arguments
        return (within(row, (0, ROWS - 1)) and within(velocity, BOORE_ATKINSON.velocity)
                and LOWEST <= low <= high <= 0)
    return True


def is_between_rows(question):
    """Say whether a question is one for Idriss's sigma at a period that has no row."""
    return question.name == 'idriss_sigma' and records.between_rows(records.IDRISS, question.arguments[0])


def given_pair(low, high):
    """Return a pair of p that is given in units."""
    return Pair(Fraction(low, UNITS), Fraction(high, UNITS))


def true_value(question):
    """Return a pair around what the papers give: the real value, or for the nonlinear part its exact range."""
    name, arguments, _ = question
    if name == 'idriss':
        return models.idriss_median(*arguments)
    if name == 'idriss_sigma':
        return models.idriss_sigma(*arguments)
    if name == 'boore_atkinson':
        return models.boore_atkinson_median(*arguments)
    if name == 'boore_atkinson_sigma':
        return stated(models.boore_atkinson_sigma(*arguments))
    row, velocity, low, high = arguments
    return models.nonlinear_range(row, velocity, given_pair(low, high))


@lru_cache(maxsize=None)
def formula_pair(question, n):
    """Return the formula's pair at fineness n."""
    name, arguments, _ = question
    if name == 'idriss':
        return models.idriss_median_pair(*arguments, n)
    if name == 'idriss_sigma':
        return models.idriss_sigma_pair(*arguments, n)
    if name == 'boore_atkinson':
        return models.boore_atkinson_median_pair(*arguments, n)
    if name == 'boore_atkinson_sigma':
        return models.boore_atkinson_sigma_pair(*arguments)
    row, velocity, low, high = arguments
    return models.nonlinear_pair(row, velocity, given_pair(low, high), n)


# ---------------------------------------------------------------------------
# Scenarios
# ---------------------------------------------------------------------------

def any_magnitude(rng, limits):
    """Draw a magnitude within the limits."""
    return rng.randint(*limits.magnitude)


def any_distance(rng, limits):
    """Draw a distance that the model reads within the limits, one time in three a short one."""
    last = limits.distance[1]
    return rng.randint(0, rng.choice((last, last, 1000)))


def any_velocity(rng, limits):
    """Draw a velocity within the limits, as often below 300 m/s as between that, 760 m/s and the last."""
    first, last = limits.velocity
    edges = [first, *(edge for edge in (3000, 7600, 12000) if first < edge < last), last]
    at = rng.randrange(len(edges) - 1)
    return rng.randint(edges[at], edges[at + 1])


def any_mechanism(rng, limits):
    """Draw a code of the model."""
    return rng.choice(limits.mechanism)


DRAWN_FIELDS = (any_magnitude, any_distance, any_velocity, any_mechanism)


def draw_fields(rng, limits):
    """Draw the four fields of a scenario, all within the limits."""
    return [draw(rng, limits) for draw in DRAWN_FIELDS]


def scenario(rng, limits, row, fields):
    """Return the question of a model: Idriss with either of its tables."""
    if limits is IDRISS:
        return Question('idriss', (rng.choice((2, 3)), row, *fields))
    return Question('boore_atkinson', (row, *fields))


def hinges():
    """Return the hinge magnitudes of Boore-Atkinson, and one step either side."""
    found = sorted({int(row_of('boore-atkinson-7', row)['Mh'] * 100) for row in range(ROWS)})
    return [hinge + step for hinge in found for step in (-1, 0, 1)]


def crossed_values():
    """Return, for each of the four fields, the values that every row has to meet."""
    return ([450, 451, 499, 500, 501, 675, 676, 749, 750, 751, 790, 800, *hinges()],
            [0, 1, 17500, 19999],
            [1800, 1801, 3000, 3001, 4500, 7599, 7600, 7601, 12000, 12001, 13000, 20000],
            [0, 1, 2, 3, 4, 9])


def crossed(rng):
    """Return scenarios in which each row, of both tables in Idriss, meets each of the values."""
    questions = []
    for row in range(ROWS):
        for field, values in enumerate(crossed_values()):
            for value in values:
                for limits in (IDRISS, BOORE_ATKINSON):
                    fields = draw_fields(rng, limits)
                    fields[field] = value
                    if limits is IDRISS:
                        questions += [Question('idriss', (table, row, *fields)) for table in (2, 3)]
                    else:
                        questions.append(Question('boore_atkinson', (row, *fields)))
    return questions


def at_limits(rng):
    """Return scenarios at each limit and one step either side, the other fields drawn within theirs."""
    questions = []
    for limits in (IDRISS, BOORE_ATKINSON):
        for field in range(3):
            first, last = limits[field]
            values = [first - 1, first, first + 1, last - 1, last, last + 1, 0, FIELD_END]
            for value in values * 4:
                fields = draw_fields(rng, limits)
                fields[field] = max(value, 0)
                questions.append(scenario(rng, limits, rng.randrange(ROWS), fields))
        for mechanism in [*range(16), 127, 128, 254, 255]:
            fields = [*draw_fields(rng, limits)[:3], mechanism]
            questions.append(scenario(rng, limits, rng.randrange(ROWS), fields))
        for row in (0, 21, 22, 23, 44, 255):
            questions.append(scenario(rng, limits, row, draw_fields(rng, limits)))
    return questions


def in_one_place(rng):
    """Return scenarios that differ in one field only: every row, magnitude step and mechanism in its turn."""
    questions = []
    for limits, steps in ((IDRISS, (9, 397, 211)), (BOORE_ATKINSON, (7, 401, 173))):
        base = [700, 1000, 5000, 2]
        for field, step in enumerate(steps):
            for value in range(limits[field][0], limits[field][1] + 1, step):
                fields = [*base[:field], value, *base[field + 1:]]
                questions.append(scenario(rng, limits, rng.randrange(ROWS), fields))
        for row in range(ROWS):
            questions += [scenario(rng, limits, row, [*base[:3], code]) for code in limits.mechanism]
    return questions


# ---------------------------------------------------------------------------
# Scenarios whose rock acceleration is next to a threshold
# ---------------------------------------------------------------------------

def rock_estimate(magnitude, mechanism):
    """Return a function of the projection distance: a rough p, the logarithm of the rock acceleration."""
    factor = float(models.distance_factor(0, magnitude)) / 2
    term = float(models.magnitude_term(0, magnitude, mechanism))
    c3 = float(row_of('boore-atkinson-6', 0)['c3'])

    def estimate(projection_distance):
        """Return p for a distance."""
        x = models.sum_of_squares(0, projection_distance)
        return term + factor * math.log(x / 10000) + c3 * (math.sqrt(x) / 100 - 1)

    return estimate


def next_to(threshold, magnitude, mechanism):
    """Return the projection distances on both sides of a threshold of p, each with how far p is from it."""
    estimate = rock_estimate(magnitude, mechanism)
    near, far = BOORE_ATKINSON.distance
    if not estimate(near) > threshold >= estimate(far):
        return []
    # p falls with distance.
    while far - near > 1:
        middle = (near + far) // 2
        if estimate(middle) > threshold:
            near = middle
        else:
            far = middle
    return [(abs(estimate(distance) - threshold), magnitude, distance, mechanism) for distance in (near, far)]


@lru_cache(maxsize=None)
def by_distance_to(number):
    """Return what next_to gives for all magnitudes and mechanisms, by how far p is from the logarithm of a number."""
    found = []
    for magnitude in range(BOORE_ATKINSON.magnitude[0], BOORE_ATKINSON.magnitude[1] + 1):
        for mechanism in BOORE_ATKINSON.mechanism:
            found += next_to(math.log(number), magnitude, mechanism)
    return sorted(found)


def closest(number, how_many):
    """Return magnitude, projection distance and mechanism of scenarios whose p is closest to the ln of a number."""
    return [fields for _, *fields in by_distance_to(number)[:how_many]]


def at_thresholds(rng):
    """Return scenarios of Boore-Atkinson whose rock acceleration is next to a threshold."""
    questions = []
    for row in range(ROWS):
        for velocity in (1800, 1801, 2400, 3000, 3001, 5000, 7599, 7600, 13000):
            # Its p is 11 units from ln 0.09.
            questions.append(Question('boore_atkinson', (row, 754, 6065, velocity, 0)))
    for number in (0.03, 0.09):
        for magnitude, distance, mechanism in closest(number, 60):
            for _ in range(3):
                fields = magnitude, distance, rng.randint(1800, 7599), mechanism
                questions.append(Question('boore_atkinson', (rng.randrange(ROWS), *fields)))
    return questions


# ---------------------------------------------------------------------------
# The other questions
# ---------------------------------------------------------------------------

def idriss_between():
    """Return periods without a row of Idriss: beside each row, and in the middle between any two."""
    pairs = [*zip(IDRISS_PERIODS, IDRISS_PERIODS[1:])]
    return sorted({period for lower, upper in pairs for period in (lower + 1, (lower + upper) // 2, upper - 1)})


def sigmas():
    """Return the questions for sigma: every row, periods between, and the magnitudes and codes around the limits."""
    questions = []
    # Among them are 49, 50, 51, 2999, 3000 and 3001: "T in seconds held to 0.05 to 3".
    for period in (0, *IDRISS_PERIODS, *idriss_between(), 70, 1, 9, 10001, 32768 + 70, FIELD_END):
        for magnitude in (0, 449, 450, 451, 499, 500, 501, 675, 676, 749, 750, 751, 789, 790, 791, FIELD_END):
            questions.append(Question('idriss_sigma', (period, magnitude)))
    for row in (*range(ROWS), 22, 23, 44, 255):
        for mechanism in (*range(11), 127, 128, 255):
            questions.append(Question('boore_atkinson_sigma', (row, mechanism)))
    return questions


def tables():
    """Return the questions for the table of a magnitude."""
    magnitudes = (0, 1, 67, 449, 450, 500, 670, 674, 675, 676, 680, 700, 750, 790, 800, 6749, 6750, 6751, FIELD_END)
    return [Question('table', (magnitude,)) for magnitude in magnitudes]


def unit_below(top, bottom):
    """Return the greatest whole number of units below ln(top/bottom)."""
    low = models.real_ln(top, bottom).low * UNITS
    return low.numerator // low.denominator


def threshold_pairs():
    """Return pairs of p, in units, that touch or straddle a threshold or stand next to one."""
    lower, upper, zero = unit_below(3, 100), unit_below(9, 100), unit_below(1, 10)
    pairs = [(LOWEST, 0), (LOWEST, LOWEST), (0, 0), (LOWEST, LOWEST + 1), (-1, 0), (lower, upper + 1),
             (lower + 1, upper), (LOWEST, lower), (LOWEST, lower + 1), (upper, 0), (upper + 1, 0),
             ((lower + upper) // 2, (lower + upper) // 2), (zero, zero), (zero, zero + 1)]
    sizes = (0, 1, 4, 10, 1000, 10 ** 6, 5 * 10 ** 8)
    for unit in (lower, upper):
        for size in sizes:
            below, above = unit - size, unit + 1 + size
            pairs += [(below, unit), (below, unit + 1), (unit, above), (unit + 1, above)]
            pairs += [(below, below), (above, above)]
        pairs += [(unit - size, unit + 1 + other) for size in sizes[2:] for other in sizes[2:]]
    pairs += [(lower - size, upper + 1 + other) for size in sizes for other in sizes]
    return list(dict.fromkeys(pairs))


SLOPE_VELOCITIES = (1800, 1801, 2400, 3000, 3001, 5000, 7599, 7600, 7601, 13000)


def nonlinear_parts():
    """Return the questions for the nonlinear part at the thresholds, at velocities in each range of the slope."""
    questions = []
    pairs = threshold_pairs()
    for at, (low, high) in enumerate(pairs):
        for turn, velocity in enumerate(SLOPE_VELOCITIES):
            questions.append(Question('nonlinear', ((at + turn) % ROWS, velocity, low, high)))
    middle = unit_below(6, 100)
    for row in range(ROWS):
        for velocity in SLOPE_VELOCITIES:
            for low, high in (pairs[0], pairs[5], (middle, middle), (middle, middle + NARROW)):
                questions.append(Question('nonlinear', (row, velocity, low, high)))
    return questions


def nonlinear_limits():
    """Return questions for the nonlinear part just outside and just inside its limits."""
    pairs = [(LOWEST - 1, 0), (LOWEST - 1, LOWEST - 1), (LOWEST - 1, LOWEST), (LOWEST, 1), (0, 1), (1, 1), (-1, 1),
             (-1, -2), (0, -1), (0, LOWEST), (LOWEST + 1, LOWEST), (1, 0), (LOWEST, LOWEST - 1),
             (-2 ** 32 - 5, -2 ** 32 - 5), (-2 ** 40, 0), (LOWEST, 2 ** 40), (LOWEST, 0)]
    questions = [Question('nonlinear', (row, velocity, low, high))
                 for row, velocity in ((0, 2500), (8, 1800), (21, 13000)) for low, high in pairs]
    for row in (0, 21, 22, 23, 44, 255):
        for velocity in (0, 1799, 1800, 1801, 12999, 13000, 13001, 20000, FIELD_END):
            questions.append(Question('nonlinear', (row, velocity, -3 * UNITS, -2 * UNITS)))
    return questions


def by_formula(rng):
    """Return questions for the formula's pairs, at distances up to 1 km for the sake of short sums, and some others."""
    questions = [scenario(rng, limits, row, draw_fields(rng, limits))._replace(by_formula=True)
                 for row in range(ROWS) for limits in (IDRISS, BOORE_ATKINSON)]
    for row in range(ROWS):
        for table in (2, 3):
            fields = draw_fields(rng, IDRISS)
            fields[1] = rng.randint(0, 100)
            questions.append(Question('idriss', (table, row, *fields), True))
        for low, high in ((1800, 3000), (3001, 13000)):
            fields = draw_fields(rng, BOORE_ATKINSON)
            fields[1:3] = rng.randint(0, 100), rng.randint(low, high)
            questions.append(Question('boore_atkinson', (row, *fields), True))
        p = rng.randint(unit_below(2, 100), unit_below(15, 100))
        questions.append(Question('nonlinear', (row, rng.randint(1800, 7600), p, p + rng.randint(0, 10)), True))
        questions.append(Question('boore_atkinson_sigma', (row, rng.choice(BOORE_ATKINSON.mechanism)), True))
        questions.append(Question('idriss_sigma', (IDRISS_PERIODS[row], any_magnitude(rng, IDRISS)), True))
    return questions


# ---------------------------------------------------------------------------
# Questions that are drawn
# ---------------------------------------------------------------------------

def draw_scenario(rng, limits):
    """Draw a scenario, one time in sixteen with one field outside its limits."""
    fields, row = draw_fields(rng, limits), rng.randrange(ROWS)
    if rng.randrange(16) == 0:
        field = rng.randrange(5)
        if field == 4:
            row = rng.randint(ROWS, 255)
        else:
            fields[field] = rng.randrange(256 if field == 3 else FIELD_END + 1)
    return scenario(rng, limits, row, fields)


def draw_pair(rng):
    """Draw a pair of p in units, at times near a threshold, at times narrow."""
    centre = rng.randint(LOWEST, 0)
    near = rng.randrange(4)
    if near:
        threshold = unit_below(3 * rng.choice((1, 3)), 100)
        centre = threshold + rng.choice((-1, 1)) * rng.randrange(10 ** rng.randint(1, 9 if near > 1 else 3))
    width = rng.randint(0, 10) if rng.randrange(2) else rng.randrange(10 ** rng.randint(1, 10))
    low = centre - rng.randint(0, width)
    return max(low, LOWEST), min(low + width, 0)


def draw_question(rng):
    """Draw a question."""
    kind = rng.randrange(20)
    if kind < 9:
        return draw_scenario(rng, BOORE_ATKINSON)
    if kind < 15:
        return draw_scenario(rng, IDRISS)
    if kind < 18:
        return Question('nonlinear', (rng.randrange(ROWS), any_velocity(rng, BOORE_ATKINSON), *draw_pair(rng)))
    if kind < 19:
        period = rng.choice((0, *IDRISS_PERIODS) if rng.randrange(2) else range(10 ** rng.randint(2, 4) + 2))
        return Question('idriss_sigma', (period, rng.randint(440, 800)))
    if rng.randrange(2):
        return Question('boore_atkinson_sigma', (rng.randrange(ROWS + 2), rng.randrange(12)))
    return Question('table', (rng.choice((rng.randint(600, 750), rng.randint(0, FIELD_END))),))


def make_questions(count, seed):
    """Return the fixed questions and as many drawn ones as wanted."""
    rng = random.Random(seed)
    questions = crossed(rng) + at_limits(rng) + in_one_place(rng) + at_thresholds(rng)
    questions += sigmas() + tables() + nonlinear_parts() + nonlinear_limits() + by_formula(rng)
    return questions + [draw_question(rng) for _ in range(count)]


# ---------------------------------------------------------------------------
# The checks of an answer
# ---------------------------------------------------------------------------

def read_ends(answer):
    """Return the two whole numbers of an answer, or None if it has others."""
    if not re.fullmatch(r'-?[0-9]{1,30} -?[0-9]{1,30}', answer):
        return None
    low, high = map(int, answer.split(' '))
    return low, high


def in_units(difference):
    """Return a text for a difference, in units."""
    return f'{float(difference * UNITS):.4g} units'


def width_fault(question, ends, true):
    """Return what is wrong with the width of an answer, or None."""
    low, high = ends
    if question.name == 'nonlinear':
        width = question.arguments[3] - question.arguments[2]
        if width > NARROW:
            room = Fraction(BEYOND, UNITS) + Fraction(width, 100 * UNITS)
            if Fraction(low, UNITS) < true.low - room:
                return f'the low end is {in_units(true.low - Fraction(low, UNITS))} below the range'
            if Fraction(high, UNITS) > true.high + room:
                return f'the high end is {in_units(Fraction(high, UNITS) - true.high)} above the range'
            return None
    return f'the ends are {high - low} units apart' if high - low > WIDEST[question.name] else None


def ends_fault(question, ends):
    """Return what is wrong with the two ends of an answer, or None."""
    low, high = ends
    if low > high:
        return 'the low end is above the high end'
    answer, true = Pair(Fraction(low, UNITS), Fraction(high, UNITS)), true_value(question)
    if true.low < answer.low:
        return f'the low end is {in_units(answer.low - true.low)} too high'
    if true.high > answer.high:
        return f'the high end is {in_units(true.high - answer.high)} too low'
    wrong = width_fault(question, ends, true)
    if wrong or not question.by_formula:
        return wrong
    # "An answer encloses a formula if at every n some point lies both from its low end to its high end and within the
    # formula's pair, ends included."
    for n in FINENESS:
        if not meets(answer, formula_pair(question, n)):
            return f"the formula's pair at n = {n} does not meet the ends"
    return None


def fault(question, answer):
    """Return what is wrong with the answer to a question, or None."""
    if not is_due(question):
        return None if answer == 'none' else 'outside the limits: none'
    if answer == 'none':
        return 'this is within the limits'
    if question.name == 'table':
        table = models.table_of(*question.arguments)
        return None if answer == str(table) else f'the table is {table}'
    ends = read_ends(answer)
    return ends_fault(question, ends) if ends else 'this is no answer'


def check_all(questions, lines):
    """Return a message for each answer that is wrong."""
    faults = []
    for question, line in zip(questions, lines):
        wrong = fault(question, line)
        if wrong:
            faults.append(f'{question.line()} -> {line}: {wrong}')
    return faults


# ---------------------------------------------------------------------------
# Checks of models.py itself, before the probe is asked
# ---------------------------------------------------------------------------

TINY = Fraction(1, 10 ** 40)
# Rows of Boore-Atkinson by what document 01 and the papers call them.
ROW_02S, ROW_075S, ROW_75S, ROW_10S = 8, 13, 20, 21


def near(p, number, room=TINY):
    """Say whether both ends of a pair are near a number."""
    return abs(p.low - number) <= room and abs(p.high - number) <= room


def marked_values():
    """Check the values that document 01 states."""
    yield 'Idriss 0.01 s, M 7.00', (models.alpha_part(3, 0, 700) == Fraction('8.590525')
                                    and models.beta_factor(3, 0, 700) == Fraction('1.3926'))
    yield 'Idriss 0.01 s, M 6.75', (models.alpha_part(2, 0, 675) == Fraction('8.65823125')
                                    and models.beta_factor(2, 0, 675) == Fraction('1.449775'))
    for velocity, number in ((1800, '-0.52'), (3000, '-0.19'), (7600, '0')):
        yield f'bnl at 0.2 s and {velocity}', models.slope(ROW_02S, velocity) == stated(number)
        for n in (*FINENESS, 10):
            yield f'its pair at n = {n}', models.slope_pair(ROW_02S, velocity, n) == stated(number)
    # The formulas of models.py have these numbers in them, in the units of the fields.
    stated_values = [models.site_value(name) for name in ('a1', 'pga_low', 'a2', 'V1', 'V2', 'Vref')]
    yield 'Table 4', stated_values == [Fraction(number) for number in ('0.03', '0.06', '0.09', '180', '300', '760')]
    yield 'velocity 12000 and 20000 alike', (models.idriss_median(3, 5, 700, 1000, 12000, 2)
                                             == models.idriss_median(3, 5, 700, 1000, 20000, 2))
    p = models.rock_acceleration(754, 6065, 0)
    yield 'p of M 7.54 at 60.65 km', near(p, models.real_ln(9, 100).low, Fraction(11, UNITS))


def continuity():
    """Check that the site term and the tables of Idriss join where they meet."""
    for number, value in ((3, (6, 10)), (9, (9, 10))):
        joined = models.nonlinear_over_slope(models.real_ln(number, 100))
        yield f'nonlinear part at ln 0.0{number}', near(joined, models.real_ln(*value).low)
        unit = unit_below(number, 100)
        for row in range(ROWS):
            below, above = (models.nonlinear_range(row, 1800, given_pair(p, p)) for p in (unit, unit + 1))
            yield f'the same, row {row}', near(below, above.low, Fraction(1, UNITS))
    for row in range(ROWS):
        for velocity in (1800, 3000, 7600):
            joined = models.slope(row, velocity)
            steps = [models.slope(row, velocity + step) for step in (-1, 1)]
            yield f'slope at {velocity}, row {row}', all(near(p, joined.low, Fraction(1, 1000)) for p in steps)
        # Idriss: "Table 2 for M <= 6.75 and in Table 3 for M >= 6.75".
        alpha = [models.alpha_part(table, row, 675) for table in (2, 3)]
        beta = [models.beta_factor(table, row, 675) for table in (2, 3)]
        yield f'α parts at M 6.75, row {row}', abs(alpha[0] - alpha[1]) < Fraction(1, 1000)
        yield f'β factors at M 6.75, row {row}', abs(beta[0] - beta[1]) < Fraction(1, 5000)
        yield f'other columns, row {row}', all(row_of('idriss-2', row)[name] == row_of('idriss-3', row)[name]
                                               for name in ('α3', 'ξ', 'γ', 'φ'))


def site_classes():
    """Check the differences that Appendix A of Boore-Atkinson prints for two choices of VS30 in a site class."""
    # "The differences in ground motions using the two possible sets of VS30 values are less than 8%, 5%, and 3% for
    # NEHRP classes B, C, and D" holds to the nearest percent: they are 7.8, 5.04 and 3.06.
    for name, one, other, percent in (('B', 9600, 10700, 8), ('C', 4900, 5250, 5), ('D', 2500, 2550, 3)):
        differences = [abs(models.boore_atkinson_median(row, magnitude, distance, one, 9).low
                           - models.boore_atkinson_median(row, magnitude, distance, other, 9).low)
                       for row in range(ROWS) for magnitude in (500, 800) for distance in (0, 19999)]
        # The half percents on both sides, as parts of 200.
        least, most = (-models.real_ln(200 - 2 * percent - step, 200).low for step in (-1, 1))
        yield f'class {name}', least < max(differences) < most


def printed_in_text():
    """Check what the papers print in their text, outside the tables."""
    # "For a period of 0.2 s the total aleatory uncertainty is 0.60 for our equations".
    yield 'sigma at 0.2 s', round(models.boore_atkinson_sigma(ROW_02S, 9), 2) == Fraction('0.60')
    # "e3(10s) = e1(10s) + (e3(7.5s) − e1(7.5s))".
    last, before = row_of('boore-atkinson-7', ROW_10S), row_of('boore-atkinson-7', ROW_75S)
    yield 'e3 at 10 s', last['e3'] == last['e1'] + before['e3'] - before['e1']
    # "|c3| = 0.01151" at most, "|c3| = 0.00191" at least.
    sizes = [-row_of('boore-atkinson-6', row)['c3'] for row in range(ROWS)]
    yield 'limits of c3', (min(sizes), max(sizes)) == (Fraction('0.00191'), Fraction('0.01151'))
    zero = stated(0)
    for row in range(ROWS):
        # "Note that for the reference velocity of 760 m/s, FLIN = FNL = FS = 0."
        median = models.boore_atkinson_median(row, 650, 3000, 7600, 0)
        yield f'no site term, row {row}', median == models.on_rock(row, 650, 3000, 0)
        # "According to Equation 8c, FNL = 0.0 when pga4nl = 0.1 g."
        yield f'0.1 g, row {row}', near(models.nonlinear_range(row, 1800, models.real_ln(1, 10)), 0)
        # "For periods longer than 0.75 s there is no nonlinear contribution [...] for VS30 > 300 m/s".
        yield f'slope above 300 m/s, row {row}', (models.slope(row, 3001) == zero) == (row >= ROW_075S)
    yield from site_classes()
    # Idriss: "The value of SE for M < 5 is assumed equal to that for M 5"; likewise at M 7.5, 0.05 s and 3 s.
    for one, other in (((200, 450), (200, 500)), ((200, 790), (200, 750)), ((10, 600), (50, 600)),
                       ((0, 600), (50, 600)), ((10000, 600), (3000, 600))):
        yield f'sigma of {one} and {other}', models.idriss_sigma(*one) == models.idriss_sigma(*other)


def true_units():
    """Check values between the rows that are given in units with four decimals: M 7.00, 10 km, 760 m/s, code 2."""
    fields, room = (700, 1000, 7600, 2), Fraction(1, 2 * 10 ** 4)
    for value, units in ((models.idriss_median_at(3, 70, *fields), '-747978464.4812'),
                         (models.idriss_sigma(70, 700), '666925898.7074'),
                         (models.boore_atkinson_median_at(40, *fields), '-1313794197.8390'),
                         (models.boore_atkinson_sigma_at(40, 2), '583321220.3301'),
                         (models.boore_atkinson_median_at(70, *fields), '-1069227804.0903')):
        yield f'{units} units', near(value, Fraction(units) / UNITS, room / UNITS)
    # The rows 0.01 and 0.02 have the same sigma, so that it is exact between them.
    for mechanism, number in ((2, '0.566'), (9, '0.569')):
        yield f'{number} at 0.011 s', models.boore_atkinson_sigma_at(11, mechanism) == stated(number)
        yield 'its pair', models.boore_atkinson_sigma_at_pair(11, mechanism, 1) == stated(number)


def values_at(model, period, fields):
    """Return pairs around the real values at a period: Idriss's median by both tables, or median and sigma."""
    if model == records.IDRISS:
        return [models.idriss_median_at(table, period, *fields) for table in (2, 3)]
    return [models.boore_atkinson_median_at(period, *fields), models.boore_atkinson_sigma_at(period, fields[3])]


def values_by_row(model, row, fields):
    """Return pairs around the same values with a row."""
    if model == records.IDRISS:
        return [models.idriss_median(table, row, *fields) for table in (2, 3)]
    return [models.boore_atkinson_median(row, *fields), stated(models.boore_atkinson_sigma(row, fields[3]))]


def pairs_at(model, period, fields, n):
    """Return the formulas' pairs of the same values."""
    if model == records.IDRISS:
        return [models.idriss_median_at_pair(table, period, *fields, n) for table in (2, 3)]
    return [models.boore_atkinson_median_at_pair(period, *fields, n),
            models.boore_atkinson_sigma_at_pair(period, fields[3], n)]


def pairs_elsewhere(model, period, fields, n):
    """Return the formulas' pairs by formula_pairs.py, each with its place; of Idriss by the magnitude's own table."""
    pairs = formula_pairs.formula_pairs(formula_pairs.OUTWARD, records.with_own_distance(model, *fields, period), n)
    return [(models.table_of(fields[0]) - 2, pairs[0])] if model == records.IDRISS else [*enumerate(pairs)]


def other_distance():
    """Check that the pairs of formula_pairs.py rest on the distance that the model reads, and on no other."""
    for model, other in ((records.IDRISS, 0), (records.BOORE_ATKINSON, FIELD_END)):
        alone = records.with_own_distance(model, 650, 100, 5000, 2, 70)
        both = alone._replace(**{records.OTHER_DISTANCE[model]: other})
        further = alone._replace(**{records.OWN_DISTANCE[model]: 101})
        pairs, same, unlike = (formula_pairs.formula_pairs(formula_pairs.OUTWARD, one, 1)
                               for one in (alone, both, further))
        yield f'model {model}, another distance that it does not read', same == pairs
        yield f'model {model}, another distance that it reads', unlike != pairs


def around(p, q, room):
    """Say whether a pair contains another, but for very little, and is not wider by more than so much at an end."""
    return -TINY <= q.low - p.low < room and -TINY <= p.high - q.high < room


def one_between(model, lower, upper, period, fields):
    """Check a period between two others: against their values, by another form, and by the formulas' pairs."""
    name = f'model {model}, {lower} < {period} < {upper}, {fields}'
    at_lower, at_upper, values = (values_at(model, t, fields) for t in (lower, upper, period))
    part = stated(models.real_ln(period, lower).low / models.real_ln(upper, lower).low)
    for v1, v2, value in zip(at_lower, at_upper, values):
        yield f'{name}: within', min(v1.low, v2.low) <= value.low and value.high <= max(v1.high, v2.high)
        # v1 (1 − w) + v2 w is the same number.
        yield f'{name}: by another form', near(value, add(mul(v1, sub(stated(1), part)), mul(v2, part)).low)
    for n in FINENESS:
        pairs = pairs_at(model, period, fields, n)
        yield f'{name}: pairs at n = {n}', all(map(formula_pairs.contains, pairs, values))
        yield f'{name}: other pairs at n = {n}', all(around(p, pairs[at], Fraction(1, UNITS))
                                                     for at, p in pairs_elsewhere(model, period, fields, n))


def between_the_rows(rng):
    """Check what models.py gives between any two neighbouring rows, at distances up to 1 km, and at the rows."""
    for model, limits in ((records.IDRISS, IDRISS), (records.BOORE_ATKINSON, BOORE_ATKINSON)):
        tabled = records.PERIODS[model]
        for lower, upper in zip(tabled, tabled[1:]):
            magnitude, _, velocity, mechanism = draw_fields(rng, limits)
            fields = magnitude, rng.randint(0, 100), velocity, mechanism
            yield from one_between(model, lower, upper, rng.randint(lower + 1, upper - 1), fields)
        for period in (0, *tabled):
            # "Tabled periods answer as before."
            fields = draw_fields(rng, limits)
            by_row = values_by_row(model, records.row(model, period), fields)
            yield f'model {model}, period {period}', values_at(model, period, fields) == by_row


def sums_and_pairs(questions):
    """Check the enclosures of long sums, and that the true values lie in the formula's pairs."""
    for first, last in ((1, 3000), (1999, 5000), (2000, 5000), (2001, 5000), (2002, 6000), (9000, 30000)):
        p, exact = models.sum_ends(first, last), reciprocal_sum(first, last)
        yield f'sum of 1/k from {first} to {last}', p.low <= exact <= p.high and p.high - p.low < TINY
    for question in questions:
        if question.by_formula and is_due(question):
            true = true_value(question)
            yield f'{question.line()}, narrow', question.name == 'nonlinear' or true.high - true.low < TINY
            for n in FINENESS:
                p = formula_pair(question, n)
                yield f'{question.line()} at n = {n}', p.low <= true.low and true.high <= p.high


def self_checks(questions):
    """Return a message for each check of models.py that does not hold."""
    checks = [*marked_values(), *continuity(), *printed_in_text(), *sums_and_pairs(questions)]
    checks += [*true_units(), *between_the_rows(random.Random(SEED)), *other_distance()]
    return [f'models.py: {what}' for what, holds in checks if not holds], len(checks)


# ---------------------------------------------------------------------------
# The report
# ---------------------------------------------------------------------------

def greatest_widths(questions, lines):
    """Return the greatest width seen of each kind; of the nonlinear part for narrow pairs of p only."""
    greatest = {}
    for question, line in zip(questions, lines):
        name, arguments, _ = question
        ends = read_ends(line)
        if ends and not (name == 'nonlinear' and arguments[3] - arguments[2] > NARROW):
            name += ' between rows' if is_between_rows(question) else ''
            greatest[name] = max(greatest.get(name, 0), ends[1] - ends[0])
    return greatest


def print_faults(faults):
    """Print the first faults."""
    for message in faults[:FAULTS_SHOWN]:
        print(f'FAILED {message}')


def run(probe, count, seed):
    """Check models.py and then the probe; return the exit status."""
    questions = make_questions(count, seed)
    faults, checks = self_checks(questions)
    if faults:
        print_faults(faults)
        print(f'models.py: {checks} checks, {len(faults)} wrong')
        return 1
    lines, faults = ask(probe, [question.line() for question in questions])
    faults += check_all(questions, lines)
    print_faults(faults)
    widths = ', '.join(f'{name} {width}' for name, width in sorted(greatest_widths(questions, lines).items()))
    print(f'models: seed {seed}, {checks} checks of models.py, {len(lines)} answers, {len(faults)} wrong, '
          f'greatest widths: {widths}')
    return 1 if faults else 0


def main(words):
    """Read the command line and run the checks."""
    if len(words) not in (2, 3, 4) or not all(word.isdecimal() for word in words[2:]):
        print('usage: test_models.py PROBE [COUNT] [SEED]', file=sys.stderr)
        return 2
    numbers = [int(word) for word in words[2:]]
    return run(words[1], *numbers, *(COUNT, SEED)[len(numbers):])


if __name__ == '__main__':
    sys.exit(main(sys.argv))
