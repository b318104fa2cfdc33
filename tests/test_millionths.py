"""Check medians in millionths of g against W-203 of document 02, document 01 and the papers.

Run as: python3 tests/test_millionths.py ASK [COUNT] [SEED]

ASK, a host's program, reads one question from each line of its input and prints one line for each:

    millionths SCENARIO     -> E A B or R K
    answer SCENARIO         -> E and four ends, or R K

SCENARIO is seven words, as in test_records.py.  A and B are whole numbers of millionths of g.  The true median, worked
out by models.py and decimal's exp to more than 40 digits, has to lie from A to B; and B - A is at most 2 plus B/100000
rounded down.  At some scenarios the definition itself is checked, too: the formula's pairs of formula_pairs.py against
the sums of ln(A/10^6) and ln(B/10^6) at some finenesses.  K is the number of answering, and neither A nor B depends on
the distance that the model does not read.

COUNT is how many scenarios are drawn, 4,000 unless given, besides every kind of period, every refusal, the limits, and
scenarios that are searched for: medians next to whole numbers of millionths, and next to the multiples of 100000, where
B - A may be greater by one.  With 100,000 and more, every period from 10 to 10000 is asked of both models, too.
"""

import math
import random
import re
import sys
from bisect import bisect_left
from collections import Counter
from decimal import ROUND_CEILING, ROUND_FLOOR, Context, Decimal
from fractions import Fraction
from functools import lru_cache
from itertools import chain, combinations, islice, product
from typing import NamedTuple

import formula_pairs
import models
from ask import ask
from exact import Pair, ln_pair, negative, stated
from formula_pairs import EXACT, OUTWARD
from records import (BOORE_ATKINSON, DISTANCE, IDRISS, MAGNITUDE, MECHANISM, NO_DISTANCES, OTHER_DISTANCE, OWN_DISTANCE,
                     PERIODS, VELOCITY, Scenario, own_distance, refusal, with_own_distance, without_other_distance)
from streams import (FIELD_END, NEXT_TO_ZERO, WHOLE, WRONG, at_limits, crossed, crossing, draw_period, every_period,
                     middles, within)
from test_answers import NUMBERS, Alike, draw_scenario, of_each_period, turned_away
from test_enclosures import MANY, true_values, wanted_periods
from test_models import rock_estimate
from test_records import text

COUNT = 4000
SEED = 20140801
FAULTS_SHOWN = 20
BOTH = (IDRISS, BOORE_ATKINSON)

MILLION = 10 ** 6
# W-203: "b − a is at most 2 plus b/100000 rounded down".
LEAST_GAP, WIDER = 2, 100000
# Plain decimal numbers.
NUMBER = '(0|[1-9][0-9]{0,19})'
ANSWER = re.compile(f'E {NUMBER} {NUMBER}')


# ---------------------------------------------------------------------------
# The true median in millionths of g
# ---------------------------------------------------------------------------

# More digits than a true logarithm has, with its 50 decimal places; decimal rounds exp correctly at the last of them.
DIGITS = Context(prec=70)
# True medians are remembered for so many scenarios.
REMEMBERED = 20000


def decimal_of(end):
    """Return an end of a true logarithm as a decimal that equals it."""
    whole = end * models.GRID
    if whole.denominator != 1:
        raise ValueError(f'{end} has more than {models.PLACES} decimal places')
    return Decimal(whole.numerator).scaleb(-models.PLACES, DIGITS)


@lru_cache(maxsize=REMEMBERED)
def true_alone(scenario):
    """Return what true_millionths does for an accepted scenario without the other distance."""
    low, high = (DIGITS.exp(decimal_of(end)) for end in true_values(scenario)[0])
    return DIGITS.next_minus(low).scaleb(6, DIGITS), DIGITS.next_plus(high).scaleb(6, DIGITS)


def true_millionths(scenario):
    """Return decimals just below and just above the true median of an accepted scenario, in millionths of g."""
    return true_alone(without_other_distance(scenario))


def narrowest(scenario):
    """Return the greatest a and the least b that the true median lies between."""
    low, high = true_millionths(scenario)
    return int(low.to_integral_value(ROUND_FLOOR)), int(high.to_integral_value(ROUND_CEILING))


# ---------------------------------------------------------------------------
# What is known beforehand
# ---------------------------------------------------------------------------

# Medians in millionths of g, rounded to the last decimal.  The fields are model, magnitude in 0.01, the model's own
# distance in 0.01 km, velocity in 0.1 m/s, code, and period in 0.001 s.
FIGURES = (
    # Idriss, M 4.50, 175 km, 1200 m/s, code 0, 10 s: the least median of all, where a can only be 0
    ((IDRISS, 450, 17500, 12000, 0, 10000), '0.8578'),
    # "V above 1200 counts as 1200."
    ((IDRISS, 450, 17500, 20000, 0, 10000), '0.8578'),
    # Idriss, M 7.90, 0 km, 450 m/s, code 2, 0.15 s: the greatest of all
    ((IDRISS, 790, 0, 4500, 2, 150), '3085539.35'),
    # M 7.00, 10 km, 760 m/s, code 2: Idriss at 0.075 s and 0.07 s, Boore-Atkinson at 0.04 s
    ((IDRISS, 700, 1000, 7600, 2, 75), '494230.019'),
    ((IDRISS, 700, 1000, 7600, 2, 70), '473322.424'),
    ((BOORE_ATKINSON, 700, 1000, 7600, 2, 40), '268798.245'),
)

# Found by a longer search: medians so close to a whole number of millionths, the last number here, that they differ
# from it by less than this part of it.  The first of each two is below it, the second is above.
NEXT_TO_WHOLE = Decimal('2e-8')
CLOSEST = (
    ((1, 450, 17257, 10858, 1, 9719), 1), ((1, 451, 17475, 11752, 0, 9529), 1), ((1, 454, 17057, 10827, 1, 7602), 2),
    ((1, 458, 13879, 9704, 0, 9985), 2), ((1, 453, 12607, 11030, 0, 8203), 3), ((1, 459, 12487, 11739, 1, 8791), 3),
    ((1, 458, 11492, 10172, 1, 8469), 4), ((1, 458, 12223, 7895, 0, 8576), 4), ((1, 451, 5777, 6262, 0, 9549), 10),
    ((1, 450, 6919, 7872, 0, 7876), 10), ((1, 655, 10881, 9191, 1, 0), 10000), ((1, 664, 10522, 5732, 0, 1592), 10000),
    ((1, 719, 5100, 9118, 4, 250), 99999), ((1, 747, 4793, 10784, 3, 259), 99999),
    ((1, 765, 7987, 7229, 0, 142), 100000), ((1, 782, 10831, 5432, 3, 170), 100000),
    ((1, 762, 117, 8175, 4, 4000), 100001), ((1, 460, 659, 7564, 4, 400), 100001),
    ((1, 789, 6183, 6136, 2, 160), 200000), ((1, 741, 3170, 8511, 3, 250), 200000),
    ((1, 682, 610, 4601, 1, 278), 999999), ((1, 627, 253, 4814, 1, 100), 999999),
    ((1, 748, 366, 8473, 4, 106), 1000000), ((1, 790, 180, 11511, 2, 184), 1000000),
    ((1, 622, 5, 4541, 3, 47), 1000001), ((1, 752, 876, 5238, 0, 200), 1000001), ((1, 784, 4, 4513, 3, 159), 3000000),
    ((1, 790, 11, 4564, 2, 149), 3000000), ((1, 752, 7734, 9152, 0, 10), 38690),
    ((1, 784, 10876, 11178, 2, 147), 53572), ((1, 736, 1398, 8081, 2, 208), 476576),
    ((1, 741, 1425, 5086, 4, 30), 446592), ((1, 790, 333, 5899, 3, 199), 1629107),
    ((1, 788, 2105, 5356, 2, 194), 637071), ((2, 501, 19743, 12100, 1, 9998), 11),
    ((2, 500, 19942, 12689, 1, 9473), 11), ((2, 512, 18557, 10678, 1, 8829), 20), ((2, 503, 12842, 10600, 1, 8579), 20),
    ((2, 504, 240, 9135, 1, 8211), 100), ((2, 525, 8324, 6808, 3, 7500), 100), ((2, 738, 7087, 7086, 2, 4993), 10000),
    ((2, 644, 18696, 5894, 2, 70), 10000), ((2, 773, 8026, 8089, 0, 400), 99999), ((2, 739, 9596, 6256, 3, 306), 99999),
    ((2, 615, 5252, 8043, 2, 209), 100000), ((2, 760, 7191, 4003, 3, 10), 100000),
    ((2, 792, 13243, 3247, 3, 272), 100001), ((2, 742, 4838, 8875, 3, 12), 100001),
    ((2, 593, 1280, 9667, 0, 250), 200000), ((2, 745, 1627, 4019, 1, 0), 200000), ((2, 799, 202, 6234, 2, 400), 999999),
    ((2, 800, 396, 4389, 2, 317), 999999), ((2, 796, 507, 3018, 2, 277), 1000000),
    ((2, 792, 414, 4289, 2, 295), 1000000), ((2, 797, 22, 3552, 2, 288), 1500000),
    ((2, 798, 57, 3098, 2, 255), 1500000), ((2, 778, 11473, 9097, 9, 471), 58589),
    ((2, 552, 4555, 10295, 3, 30), 27683), ((2, 800, 9447, 3438, 2, 266), 153624),
    ((2, 789, 3993, 3503, 3, 673), 252191), ((2, 795, 226, 4885, 2, 291), 1190648),
    ((2, 794, 430, 3717, 3, 318), 1002718),
)


def known_faults():
    """Yield which of the figures is not the true median, and which median is not so close to its whole number."""
    for fields, figure in FIGURES:
        wanted = Decimal(figure)
        for end in true_millionths(with_own_distance(*fields)):
            if end.quantize(wanted) != wanted:
                yield f'the true median of {fields} is {end:.9f} millionths, not {figure}'
    for turn, (fields, number) in enumerate(CLOSEST):
        for end in true_millionths(with_own_distance(*fields)):
            above = end - number if turn % 2 else number - end
            if not 0 < above < number * NEXT_TO_WHOLE:
                yield f'the true median of {fields} is {end:.18f} millionths, not next to {number} on its side'


# ---------------------------------------------------------------------------
# Refusals and limits
# ---------------------------------------------------------------------------

def orders():
    """Yield scenarios that several refusals apply to: each choice of 1 to 6, with 9 for the distance, 13 or neither."""
    for model, wrong in WRONG.items():
        for names in chain.from_iterable(combinations(wrong, size) for size in range(len(wrong) + 1)):
            scenario = WHOLE[model]._replace(**{name: wrong[name] for name in names})
            yield from (scenario, scenario._replace(**{OWN_DISTANCE[model]: None}), scenario._replace(**NO_DISTANCES))
            # 13 goes by the two distances alone, also where there is no such model.
            yield crossing(scenario._replace(model=model))._replace(model=scenario.model)


def refused_periods(rng):
    """Yield scenarios of both models with each period from 1 to 9, and with some above 10000."""
    for model, period in product(BOTH, (*range(1, 10), 10001, 10002, 10010, 16394, 20000, 32768, 40000, FIELD_END)):
        yield within(rng, model, period=period)


def corners(rng):
    """Yield scenarios at the limits of magnitude, distance and velocity at once, with every row and between any two."""
    for model in BOTH:
        for period in (0, *PERIODS[model], *middles(model)):
            for magnitude, distance, velocity in product(MAGNITUDE[model], DISTANCE[model], VELOCITY[model]):
                mechanism = rng.choice(MECHANISM[model])
                yield with_own_distance(model, magnitude, distance, velocity, mechanism, period)


# ---------------------------------------------------------------------------
# Rough medians, to search with
# ---------------------------------------------------------------------------

# Ranges of the velocity in which the median is straight over the logarithm of the velocity: Idriss counts no more than
# 1200 m/s, and the slope bnl of Boore-Atkinson is straight from 180 to 300 m/s, from there to 760 m/s, and beyond.
STRAIGHT = {IDRISS: ((4500, 12000),), BOORE_ATKINSON: ((1800, 3000), (3000, 7600), (7600, 13000))}
# The periods and the velocities of the strongest motions.
STRONGEST = {IDRISS: (range(148, 201), (4500, 12000)), BOORE_ATKINSON: (range(250, 311), (3000, 7600))}
# How many settings are drawn, besides those of extreme motions.
DRAWN = 80


def idriss_rough(row, magnitude, mechanism):
    """Return a function of the distance: the median of Idriss by a row, roughly, but for the velocity's term."""
    table = models.table_of(magnitude)
    at = models.row_of(f'idriss-{table}', row)
    numbers = (models.alpha_part(table, row, magnitude) + at['φ'] * models.reverse_or_oblique(mechanism),
               models.beta_factor(table, row, magnitude), at['γ'] / 100)
    alpha, beta, gamma = map(float, numbers)
    return lambda distance: alpha - beta * math.log(distance / 100 + 10) + gamma * distance


def boore_atkinson_rough(row, magnitude, mechanism):
    """Return a function of the distance: the median of Boore-Atkinson on rock by a row, roughly."""
    c3 = models.row_of('boore-atkinson-6', row)['c3']
    numbers = (models.magnitude_term(row, magnitude, mechanism) - c3, models.distance_factor(row, magnitude) / 2,
               c3 / 100, models.sum_of_squares(row, 0))
    term, factor, falling, least = map(float, numbers)

    def rough(distance):
        """Return the logarithm."""
        x = distance * distance + least
        return term + factor * math.log(x / 10000) + falling * math.sqrt(x)

    return rough


def site_rough(model, row, magnitude, velocity):
    """Return the velocity's term by a row, and the slope bnl, roughly."""
    if model == IDRISS:
        return float(models.row_of(f'idriss-{models.table_of(magnitude)}', row)['ξ']) * math.log(velocity / 10), 0.0
    blin = float(models.row_of('boore-atkinson-3', row)['blin'])
    return blin * math.log(velocity / 7600), float(models.slope(row, velocity).low)


def over_slope(p):
    """Return the nonlinear part of Boore-Atkinson over the slope bnl, roughly."""
    x, y, z = math.log(3), math.log(1.5), p - math.log(0.03)
    if z <= 0:
        return math.log(0.6)
    if z <= x:
        return math.log(0.6) + (3 * y - x) * (z / x) ** 2 - (2 * y - x) * (z / x) ** 3
    return p - math.log(0.1)


def shares(model, period):
    """Return the rows that a median rests on, each with its share."""
    def between(period, lower, upper, first, second):
        """Share by the logarithm of the period."""
        part = math.log(period / lower) / math.log(upper / lower)
        return [(first[0][0], 1 - part), (second[0][0], part)]

    return models.by_period(model, period, lambda row: [(row, 1.0)], between)


class Setting:
    """Scenarios that differ in the distance and in the velocity, which has a range in which the median is straight."""

    def __init__(self, model, magnitude, mechanism, period, velocities):
        self.fields = model, magnitude, mechanism, period
        self.slow, self.fast = velocities
        self.p = rock_estimate(magnitude, mechanism) if model == BOORE_ATKINSON and self.slow < 7600 else None
        rough = {IDRISS: idriss_rough, BOORE_ATKINSON: boore_atkinson_rough}[model]
        rows = shares(model, period)
        self.by_rows = [(share, rough(row, magnitude, mechanism)) for row, share in rows]
        # The terms of the slowest and the fastest.
        sites = [[(share, *site_rough(model, row, magnitude, velocity)) for row, share in rows]
                 for velocity in velocities]
        self.linear = [sum(share * linear for share, linear, _ in site) for site in sites]
        self.bnl = [sum(share * bnl for share, _, bnl in site) for site in sites]

    def scenario(self, distance, velocity):
        """Return the scenario at a distance and with a velocity."""
        model, magnitude, mechanism, period = self.fields
        return with_own_distance(model, magnitude, distance, velocity, mechanism, period)

    def ends(self, distance):
        """Return the logarithms of the medians at a distance with the slowest and with the fastest velocity."""
        rock = 0.0
        for share, rough in self.by_rows:
            rock += share * rough(distance)
        nonlinear = over_slope(self.p(distance)) if self.p else 0.0
        return tuple(rock + linear + bnl * nonlinear for linear, bnl in zip(self.linear, self.bnl))

    def median(self, ends, velocity):
        """Return the logarithm of the median with a velocity, between those with the slowest and the fastest."""
        part = math.log(velocity / self.slow) / math.log(self.fast / self.slow)
        return ends[0] + (ends[1] - ends[0]) * part

    def reaches(self, target):
        """Say whether a logarithm is between the medians of the nearest and slowest and of the farthest and fastest."""
        near, far = DISTANCE[self.fields[0]]
        return self.ends(far)[1] < target < self.ends(near)[0]

    def distances(self, target):
        """Return the distances at which some velocity gives about a logarithm; the median falls with both."""
        near, far = DISTANCE[self.fields[0]]
        first, last = (bisect_left(range(near, far + 1), -target, key=lambda distance: -self.ends(distance)[at])
                       for at in (1, 0))
        return range(first, last)

    def beside(self, distance, target):
        """Yield the velocities on both sides of a logarithm at a distance, each with how far the median is above it."""
        ends = self.ends(distance)
        if ends[1] < target < ends[0]:
            part = (target - ends[0]) / (ends[1] - ends[0])
            velocity = math.floor(self.slow * (self.fast / self.slow) ** part)
            for one in (velocity, velocity + 1):
                if self.slow <= one <= self.fast:
                    yield self.median(ends, one) - target, one


def draw_settings(rng, model):
    """Return some settings of any kind, and behind them those of the strongest motions and of the weakest, mixed."""
    least, most = MAGNITUDE[model]
    periods, velocities = STRONGEST[model]
    drawn = [(rng.randint(least, most), rng.choice(MECHANISM[model]), draw_period(rng, model),
              rng.choice(STRAIGHT[model])) for _ in range(DRAWN)]
    extreme = [(magnitude, rng.choice((2, 3)), period, velocities)
               for magnitude, period in product(range(most - 3, most + 1), periods)]
    extreme += [(rng.randint(least, least + 20), rng.choice((0, 1)), rng.randint(8000, 10000), STRAIGHT[model][-1])
                for _ in range(40)]
    return [Setting(model, *fields) for fields in drawn + rng.sample(extreme, len(extreme))]


# ---------------------------------------------------------------------------
# Medians next to whole numbers of millionths
# ---------------------------------------------------------------------------

# How many distances are looked at for one number, in one setting at most; and how many scenarios for any number.
LOOKED_AT, IN_ONE, FOR_ANY = 1000, 100, 3000
# How much is left on each side between two numbers, and how far a rough median may be from the true one, as its part.
MARGIN, ROUGH = 0.02, Decimal('1e-12')


class Hostile(NamedTuple):
    """A scenario whose median is next to a number of millionths, above it or below."""

    scenario: Scenario
    number: int
    above: bool


def beside(rng, settings, number):
    """Yield how far medians are above a number, as a part of it, each with its setting, distance and velocity."""
    target = math.log(number / MILLION)
    for setting in rng.sample(settings[:DRAWN], DRAWN) + settings[DRAWN:]:
        if setting.reaches(target):
            distances = setting.distances(target)
            for distance in rng.sample(distances, min(len(distances), IN_ONE)):
                for difference, velocity in setting.beside(distance, target):
                    yield difference, setting, distance, velocity


def closest_to(rng, settings, number):
    """Return the scenarios found closest to a number of millionths, one below and one above it."""
    found = {}
    # There are two velocities for each distance.
    for difference, *place in islice(beside(rng, settings, number), 2 * LOOKED_AT):
        above = difference > 0
        if above not in found or abs(difference) < found[above][0]:
            found[above] = abs(difference), place
    return [Hostile(setting.scenario(*place), number, above) for above, (_, (setting, *place)) in found.items()]


def closest_to_any(rng, setting):
    """Return the scenarios of a setting found closest to any whole number of millionths, below and above it."""
    found = {}
    for _ in range(FOR_ANY):
        place = rng.randint(0, rng.choice((200, 2000, 15000))), rng.randint(setting.slow, setting.fast)
        number = math.exp(setting.median(setting.ends(place[0]), place[1])) * MILLION
        whole = max(round(number), 1)
        above = number > whole
        found[above] = min(found.get(above, (1.0,)), (abs(number - whole), whole, place))
    return [Hostile(setting.scenario(*place), whole, above) for above, (_, whole, place) in found.items()]


def just_within(rng, settings, low):
    """Return a scenario whose median is between a number of millionths and the next, or none."""
    middle = low + 0.5
    for difference, setting, *place in beside(rng, settings, middle):
        if abs(difference) * middle < 0.5 - MARGIN:
            return [setting.scenario(*place)]
    return []


def multiples(settings):
    """Return the multiples of 100000 that the settings' medians reach."""
    greatest = max(math.exp(setting.ends(0)[0]) for setting in settings) * MILLION
    return range(WIDER, math.floor(greatest), WIDER)


def rooms(multiple):
    """Return the numbers below the rooms of 1 around a multiple of 100000 that are looked at."""
    # With a of the first, b can be just below the multiple if b - a is wrongly greater by one; with a of the second, b
    # can be the multiple, and b - a as great as is allowed from there on.
    reaching = multiple - LEAST_GAP - multiple // WIDER
    return reaching - 1, reaching, multiple - 2, multiple - 1, multiple, multiple + 1


def numbers_beside(rng, settings):
    """Return the numbers of millionths that medians are searched next to."""
    numbers = {1, 2, 3, 4, 7, 10, 11, 12, 20, 100, 1000, 10000, MILLION - 1, MILLION + 1, *multiples(settings)}
    numbers.update((WIDER - 2, WIDER - 1, WIDER + 1, 2 * WIDER - 1, 2 * WIDER + 1))
    numbers.update(math.floor(10 ** rng.uniform(0, 6.1)) for _ in range(10))
    # Just below 100000 no more than 2 is allowed for the greatest b.
    numbers.update(rng.randint(WIDER - 10000, WIDER) for _ in range(8))
    return sorted(numbers)


def search(rng):
    """Return what is found next to whole numbers, and scenarios in the rooms of 1 around the multiples of 100000."""
    hostile, around = [], []
    for model in BOTH:
        settings = draw_settings(rng, model)
        for number in numbers_beside(rng, settings):
            hostile += closest_to(rng, settings, number)
        for setting in rng.sample(settings[:DRAWN], 6) + rng.sample(settings[DRAWN:], 6):
            hostile += closest_to_any(rng, setting)
        for low in (1, 2, 3, *chain.from_iterable(map(rooms, multiples(settings)))):
            around += just_within(rng, settings, low)
    return hostile, around


# ---------------------------------------------------------------------------
# All scenarios
# ---------------------------------------------------------------------------

class Question(NamedTuple):
    """A scenario, and for what it is asked."""

    kind: str
    scenario: Scenario


def with_another(rng, scenario):
    """Return an accepted scenario with another distance that its model does not read, which is no reason for 13."""
    own = own_distance(scenario)
    least, most = (0, own) if scenario.model == IDRISS else (own, FIELD_END)
    other = rng.choice((least, own, most, rng.randint(least, most)))
    return scenario._replace(**{OTHER_DISTANCE[scenario.model]: other})


def questions(rng, count, hostile, around):
    """Return all questions, some of them asked once more without the other distance or with another."""
    known = [with_own_distance(*fields) for fields, _ in FIGURES + CLOSEST]
    known += [with_own_distance(*fields) for fields in NEXT_TO_ZERO]
    periods, next_to = of_each_period(rng), [one.scenario for one in hostile]
    kinds = {
        'known': known,
        'every kind of period': periods,
        'refused periods': refused_periods(rng),
        'refusals': turned_away(),
        'order of the refusals': orders(),
        'limits': at_limits(rng),
        'limits at once': corners(rng),
        'every row, and between': crossed(rng),
        'next to a whole number': next_to,
        'around a multiple': around,
        'in fractions': [scenario for scenario, _ in in_fractions()],
        'without the other distance': map(without_other_distance, periods),
        'with another distance': [with_another(rng, scenario) for scenario in known + next_to],
        'every period': every_period(rng) if count >= MANY else (),
        'drawn': [draw_scenario(rng) for _ in range(count)],
    }
    return [Question(kind, scenario) for kind, scenarios in kinds.items() for scenario in scenarios]


# ---------------------------------------------------------------------------
# The definition, at some finenesses
# ---------------------------------------------------------------------------

FINENESSES = 1, 2, 3
# At this fineness the formula's pair is narrower than 10^-10.
GREAT = 10 ** 12
# Sums of so few terms are added as fractions, longer ones in whole numbers of 10^-30 that are kept every so many terms.
SHORT, UNIT, EVERY = 2000, 10 ** 30, 1000
# More than all that a widened pair is wider than the exact one: each of its sums is off by less than 10^-10.
ROOM = Fraction(1, 10 ** 8)
# Sums for numbers above this, three times the greatest median, are not added.
MOST = 10 ** 7


class RunningSums:
    """The sums of 1/k from 1 on, term by term, each term rounded down to a whole number of 10^-30."""

    def __init__(self):
        self.kept = [0]

    @staticmethod
    def added(first, last):
        """Return the terms from 1/first to 1/last added."""
        return sum(map(UNIT.__floordiv__, range(first, last + 1)))

    def up_to(self, last):
        """Return the terms up to 1/last added."""
        place = last // EVERY
        while len(self.kept) <= place:
            done = (len(self.kept) - 1) * EVERY
            self.kept.append(self.kept[-1] + self.added(done + 1, done + EVERY))
        return self.kept[place] + self.added(place * EVERY + 1, last)

    def around(self, first, last):
        """Return a pair around the sum of 1/k for k from first to last."""
        rounded = self.up_to(last) - self.up_to(first - 1)
        # Each term has lost less than 1.  The pair is narrower than 10^-22, which decides every comparison here.
        return Pair(Fraction(rounded, UNIT), Fraction(rounded + last - first + 1, UNIT))


RUNNING = RunningSums()


def sums(number, n):
    """Return a pair around the lower sum of ln(number/10^6) at fineness n, and one around its upper sum."""
    if abs(number - MILLION) * n <= SHORT:
        return tuple(map(stated, ln_pair(number, MILLION, n)))
    # "The lower sum of 1/k for k from bn + 1 to an, and the upper sum of 1/k for k from bn to an − 1."
    small, great = sorted((number * n, MILLION * n))
    lower, upper = RUNNING.around(small + 1, great), RUNNING.around(small, great - 1)
    # "For a < b it is the negative of ln(b/a), the sums exchanged."
    return (lower, upper) if number > MILLION else (negative(upper), negative(lower))


def median_pair(way, scenario, n):
    """Return the formula's pair of the median at fineness n."""
    formula = {IDRISS: formula_pairs.idriss_median, BOORE_ATKINSON: formula_pairs.boore_atkinson_median}
    return formula[scenario.model](way, scenario, n)


def order_fault(less, more):
    """Return that the number in one pair is not up to that in another, or that this is not decided, or None."""
    if less.high <= more.low:
        return None
    return 'is not met' if less.low > more.high else 'is not decided'


def definition_fault(way, scenario, ends, n):
    """Return what is wrong with a and b at fineness n by the definition, or None."""
    a, b = ends
    if not (a <= b and 1 <= b <= MOST):
        return 'there are no such sums'
    pair = median_pair(way, scenario, n)
    room = Fraction(0) if way is EXACT else ROOM
    # Some point of the formula's pair is up to the upper sum of ln(b/10^6).
    wrong = order_fault(Pair(pair.low, pair.low + room), sums(b, n)[1])
    if wrong:
        return f'ln(b/10^6) at n = {n} {wrong}'
    # And it is from the lower sum of ln(a/10^6) on: "Where a is 0 it sets no lower bound."
    wrong = order_fault(sums(a, n)[0], Pair(pair.high - room, pair.high)) if a else None
    return f'ln(a/10^6) at n = {n} {wrong}' if wrong else None


def great_fault(scenario, ends):
    """Return what is certainly wrong with a and b at a great fineness by the definition, or None."""
    a, b = ends
    # These pairs contain the exact pair and the exact sums.
    pair = median_pair(OUTWARD, scenario, GREAT)
    if pair.low > formula_pairs.outward_ln(b, MILLION, GREAT).high:
        return f'ln(b/10^6) at n = {GREAT} is not met'
    if a and formula_pairs.outward_ln(a, MILLION, GREAT).low > pair.high:
        return f'ln(a/10^6) at n = {GREAT} is not met'
    return None


# Scenarios whose sums are short enough to be added as fractions: with period 0, a tabled one, and between the rows, and
# with a of 0, medians next to 1 g and the greatest of all.
BY_FRACTIONS = (
    ((IDRISS, 676, 0, 4500, 4, 0), FINENESSES), ((IDRISS, 675, 100, 4500, 1, 75), FINENESSES),
    ((IDRISS, 600, 0, 4500, 0, 10000), FINENESSES), ((IDRISS, 700, 1000, 7600, 2, 70), FINENESSES),
    ((IDRISS, 750, 0, 4500, 3, 8750), FINENESSES), ((IDRISS, 790, 0, 4500, 2, 150), FINENESSES),
    ((IDRISS, 649, 39, 5125, 2, 30), FINENESSES), ((IDRISS, 634, 26, 5111, 3, 34), FINENESSES),
    ((IDRISS, 450, 17500, 12000, 0, 10000), (1,)),
    ((BOORE_ATKINSON, 674, 0, 1800, 2, 0), (1, 2)), ((BOORE_ATKINSON, 720, 0, 7600, 9, 20), FINENESSES),
    ((BOORE_ATKINSON, 682, 0, 3000, 2, 25), FINENESSES), ((BOORE_ATKINSON, 650, 0, 7600, 1, 40), FINENESSES),
    ((BOORE_ATKINSON, 540, 50, 2950, 1, 10), (1,)), ((BOORE_ATKINSON, 610, 0, 5000, 3, 75), (1,)),
)
# Widened pairs are looked at for one of so many questions, and for these kinds all at the great fineness.
THINNED = 50
CLOSELY = 'known', 'next to a whole number'


def in_fractions():
    """Return the scenarios at which the definition is checked in fractions, each with its finenesses."""
    return [(with_own_distance(*fields), finenesses) for fields, finenesses in BY_FRACTIONS]


def fraction_faults(given):
    """Yield what is wrong by the definition in fractions, with what is given for each scenario."""
    for scenario, finenesses in in_fractions():
        ends = given.get(scenario)
        for n in finenesses:
            wrong = definition_fault(EXACT, scenario, ends, n) if ends else 'there are no a and b'
            if wrong:
                yield f'in fractions, {tuple(scenario)}: {ends}: {wrong}'


def widened_fault(turn, question, ends):
    """Return what is wrong with a and b by the definition with widened pairs, or None."""
    finenesses = () if turn % THINNED else FINENESSES
    faults = (definition_fault(OUTWARD, question.scenario, ends, n) for n in finenesses)
    wrong = next(filter(None, faults), None)
    if wrong or not finenesses and question.kind not in CLOSELY:
        return wrong
    return great_fault(question.scenario, ends)


# ---------------------------------------------------------------------------
# The checks
# ---------------------------------------------------------------------------

def allowed_gap(b):
    """Return how far a may be below b."""
    return LEAST_GAP + b // WIDER


def read_ends(line):
    """Return a and b of a line, or None if it has another format."""
    found = ANSWER.fullmatch(line)
    return tuple(map(int, found.groups())) if found else None


def ends_fault(scenario, ends):
    """Return what is wrong with a and b, or None."""
    a, b = ends
    greatest, least = narrowest(scenario)
    if a > greatest:
        return f'a is above the true median, at most {greatest} is allowed'
    if b < least:
        return f'b is below the true median, at least {least} is due'
    if b - a > allowed_gap(b):
        return f'b - a is {b - a}, at most {allowed_gap(b)} is allowed'
    return None


class Tally:
    """What has been seen so far."""

    def __init__(self):
        self.alike = Alike()
        self.outcomes = Counter()
        self.periods = set()
        self.medians = {model: set() for model in BOTH}
        self.given = {}

    def answer(self, scenario, ends):
        """Note an answered scenario."""
        self.outcomes['E'] += 1
        self.periods.add((scenario.model, scenario.period))
        self.medians[scenario.model].add(narrowest(scenario)[0])
        self.given[scenario] = ends

    def refused(self):
        """Return how many are refused."""
        return sum(self.outcomes.values()) - self.outcomes['E']

    def widths(self):
        """Return how far a and b go and are apart, as a text."""
        pairs = self.given.values()
        if not pairs:
            return 'none answered'
        gaps = [b - a for a, b in pairs]
        closest = min(allowed_gap(b) - (b - a) for a, b in pairs)
        return (f'a from {min(a for a, _ in pairs)}, b up to {max(b for _, b in pairs)}, b - a from {min(gaps)} to '
                f'{max(gaps)}, at least {closest} less than allowed')


def line_fault(tally, turn, question, line, answer):
    """Return what is wrong with the line of a question, beside the line of answering, or None."""
    scenario = question.scenario
    number = refusal(scenario)
    if number:
        tally.outcomes[number] += 1
        if line != f'R {number}':
            return f'R {number} is due'
        # "The call refuses as answering does."
        return None if answer == line else f'answering gives {answer}'
    if not answer.startswith('E '):
        return f'answering gives {answer}'
    ends = read_ends(line)
    if ends is None:
        return 'E and two numbers are due'
    tally.answer(scenario, ends)
    return ends_fault(scenario, ends) or tally.alike.fault(scenario, line) or widened_fault(turn, question, ends)


def search_faults(hostile):
    """Yield which scenarios that were searched for are not on their side of a whole number."""
    for scenario, number, above in hostile:
        low, high = true_millionths(scenario)
        if low < number * (1 - ROUGH) if above else high > number * (1 + ROUGH):
            yield f'searched for: {tuple(scenario)} is {low:.12f}, not {"above" if above else "below"} {number}'


def seen_faults(tally, every):
    """Yield which refusals, periods and medians no scenario has."""
    seen = set(tally.outcomes) - {'E'}
    if seen != NUMBERS['answer']:
        yield f'refusals missing or too many: {sorted(seen ^ NUMBERS["answer"])}'
    missing = set(wanted_periods(every)) - tally.periods
    if missing:
        yield f'periods missing: {sorted(missing)[:FAULTS_SHOWN]}'
    if tally.alike.compared < len(PERIODS[IDRISS]):
        yield f'only {tally.alike.compared} scenarios are compared with those with another other distance'
    # The greatest medians are 3.08 g by Idriss and 1.55 g by Boore-Atkinson.
    for model, few, most in ((IDRISS, (0, 1, 2, 3), 30), (BOORE_ATKINSON, (), 15)):
        wanted = {*few, *chain.from_iterable(rooms(WIDER * turn) for turn in range(1, most + 1))}
        if wanted - tally.medians[model]:
            yield f'model {model}: no medians in the millionth from {sorted(wanted - tally.medians[model])} on'


def run(program, count, seed):
    """Ask all questions and check the answers; return the exit status."""
    rng = random.Random(seed)
    hostile, around = search(rng)
    asked = questions(rng, count, hostile, around)
    lines, faults = ask(program, [f'{name} {text(*question.scenario)}' for question in asked
                                  for name in ('millionths', 'answer')])
    tally = Tally()
    for turn, (question, line, answer) in enumerate(zip(asked, lines[::2], lines[1::2])):
        wrong = line_fault(tally, turn, question, line, answer)
        if wrong:
            faults.append(f'{question.kind}: millionths {text(*question.scenario)}: {line}: {wrong}')
    faults += chain(fraction_faults(tally.given), known_faults(), search_faults(hostile),
                    seen_faults(tally, count >= MANY))
    for fault in faults[:FAULTS_SHOWN]:
        print(fault)
    print(f'millionths: seed {seed}, {len(asked)} scenarios ({tally.refused()} refused, {len(hostile) + len(CLOSEST)} '
          f'next to a whole number), {len(faults)} faults, {tally.widths()}')
    return 1 if faults else 0


def main(words):
    """Read the command line and run the checks."""
    program, count, seed = words[0], *map(int, words[1:] + [COUNT, SEED][len(words) - 1:])
    return run(program, count, seed)


if __name__ == '__main__':
    sys.exit(main(sys.argv[1:]))
