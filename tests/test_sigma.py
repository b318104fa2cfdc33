"""Check the sigma of Idriss at every accepted period, by all ways of answering, against documents 01 and 02.

Run as: python3 tests/test_sigma.py ASK PROGRAM [SEED]

ASK, a host's program, answers the questions answer, doubles, answer_record and doubles_record of test_answers.py, and
PROGRAM reads records and prints enclosures, as in test_enclosures.py.

Every period, 0 and 10 to 10000, is asked for at each of some magnitudes, with distances, velocities and mechanisms that
play no part in sigma: they are drawn once and taken in turn.  The ends have to enclose the true sigma of models.py, to
meet the formula's pairs at n = 1, 2 and 3, and to be at most 10 units apart; and of the periods up to 50, and of those
from 3000 on, they have to be the same at one magnitude.

All this is checked of the answers from fields.  The other ways have to give the same lines: in doubles, from a record,
from a record in doubles, and by PROGRAM; at each magnitude where the ends are the same, at one for each period between.
"""

import random
import re
import sys
from fractions import Fraction
from itertools import chain, cycle, zip_longest

import formula_pairs
import models
from ask import ask
from exact import Pair
from models import held_period
from records import ABSENT, DISTANCE, IDRISS, MECHANISM, VELOCITY, Scenario, between_rows, record
from streams import LONGEST, TAKEN, Stream, within
from test_enclosures import UNITS, Tally, pair_fault, run_program
from test_models import FINENESS
from test_records import text

SEED = 20140501
FAULTS_SHOWN = 20

# "M held to 5 to 7.5"; and both sides of 6.75, where the tables of the median change and sigma does not.
MAGNITUDES = (450, 499, 500, 501, 674, 675, 676, 749, 750, 751, 790)
# W-205: "all accepted periods up to 50 give the same sigma ends, as do all from 3000 on"; and those between.
SHORT, MIDDLE, LONG = (0, *range(10, 51)), range(51, 3000), range(3000, 10001)
# "T in seconds held to 0.05 to 3".
HELD = range(50, 3001)
# Demand 3, "at most 10 units apart"; W-205: "Idriss sigma is now at most 10 units wide between rows too".
WIDEST = 10

# Sigma is 1.18 + 0.035 ln T − 0.06 M.  In units all is whole but ln T: what stands at M 5, what each 0.01 of M takes
# away, and what ln T is multiplied by.
AT_M5, EACH_STEP, FACTOR = (int(Fraction(number) * UNITS) for number in ('0.88', '0.0006', '0.035'))
# A unit in the parts in which sums are added; and far more parts than a sum is rounded by, but far less than the true
# value is away from the ends of a pair.
PARTS = formula_pairs.SCALE
TINY = PARTS // 10 ** 30
# Periods at which all this is compared with models.py, whose sums are exact fractions where they are short.
COMPARED = (50, 51, 70, 500, 999, 1000, 1001, 1833, 2999, 3000)

# How many sites there are: a prime, so that each of them meets each code, and others at another magnitude.
SITES = 997
ANSWER = re.compile('E -?[0-9]+ -?[0-9]+ ([0-9]+ [0-9]+)')


# ---------------------------------------------------------------------------
# What is due
# ---------------------------------------------------------------------------

def true_value(period, magnitude):
    """Return a pair around the true sigma, in parts; models.py has fewer decimal places."""
    return Pair(*(int(end * UNITS * PARTS) for end in models.idriss_sigma(period, magnitude)))


def formula_pair(period, n):
    """Return the formula's pair at M 5 and fineness n, in parts, rounded outward by far less than TINY."""
    # "The lower sum of 1/k for k from bn + 1 to an, and the upper sum of 1/k for k from bn to an − 1"; "for a < b it is
    # the negative of ln(b/a), the sums exchanged".  "Equal a and b give 0 and 0", as these do.
    lows, highs = formula_pairs.running_sums()
    a, b = max(period, 1000) * n, min(period, 1000) * n
    low, high = lows[a] - lows[b], highs[a - 1] - highs[b - 1]
    low, high = (-high, -low) if period < 1000 else (low, high)
    return Pair(AT_M5 * PARTS + FACTOR * low, AT_M5 * PARTS + FACTOR * high)


def well_within(p, q):
    """Say whether a pair lies in another, far enough from its ends; or both are the same number."""
    return p.low == p.high and p == q or q.low + TINY < p.low and p.high < q.high - TINY


def whole_ends(low, high):
    """Return a number of parts rounded down to units, and another rounded up."""
    return low // PARTS, -(-high // PARTS)


def narrowest_ends():
    """Return for each held period the greatest low end and the least high end at M 5, and what is wrong with them."""
    ends, faults = {}, []
    for period in HELD:
        true, pairs = true_value(period, 500), [formula_pair(period, n) for n in FINENESS]
        # The ends enclose the true value; and "some point lies both from its low end to its high end and within the
        # formula's pair, ends included".
        ends[period] = whole_ends(min(true.low, *(p.high for p in pairs)), max(true.high, *(p.low for p in pairs)))
        # The exact pairs contain the true value, as these do by far.
        if not all(well_within(true, p) for p in pairs):
            faults.append(f'the true sigma at {period} does not lie within the pairs')
    return ends, faults


def shifted(ends, magnitude):
    """Return ends at M 5 as they are at a magnitude."""
    step = EACH_STEP * (models.held(magnitude, 500, 750) - 500)
    return ends[0] - step, ends[1] - step


def own_faults(ends):
    """Yield what is wrong with these ends: by models.py at each magnitude, by its pairs, and from period to period."""
    for period in COMPARED:
        for magnitude in MAGNITUDES:
            if shifted(ends[period], magnitude) != whole_ends(*true_value(period, magnitude)):
                yield f'the ends at {period}, magnitude {magnitude}, are not those of models.py'
        for n in FINENESS:
            exact = (end * UNITS * PARTS for end in models.idriss_sigma_pair(period, 500, n))
            if whole_ends(*formula_pair(period, n)) != whole_ends(*exact):
                yield f"the formula's pair at {period}, n = {n}, is not that of models.py"
    for period in HELD[1:]:
        # So much that ends which enclose the one, and are not too far apart, are all above those of the other.
        if ends[period][0] - ends[period - 1][1] <= 2 * WIDEST:
            yield f'the true sigma at {period} is not far above that at {period - 1}'


# ---------------------------------------------------------------------------
# Questions
# ---------------------------------------------------------------------------

def sites(rng):
    """Yield distance, velocity, mechanism and the other distance: at the limits and drawn, again and again."""
    some = [within(rng, IDRISS, velocity=velocity, distance=distance)
            for velocity in (*VELOCITY[IDRISS], ABSENT['velocity'], 12000) for distance in DISTANCE[IDRISS]]
    some += [within(rng, IDRISS) for _ in range(SITES - len(some))]
    for one, code in zip(cycle(some), cycle(MECHANISM[IDRISS])):
        yield one.rupture_distance, one.velocity, code, one.projection_distance


def scenarios(rng):
    """Return scenarios for all ways, and for fields alone: together every accepted period at each magnitude."""
    for_all, for_fields, turns = [], [], sites(rng)
    for at, magnitude in enumerate(MAGNITUDES):
        # Each of the short periods with each code.
        for period in (*(short for short in SHORT for _ in MECHANISM[IDRISS]), *MIDDLE, *LONG):
            rupture, velocity, code, projection = next(turns)
            one = Scenario(IDRISS, magnitude, rupture, velocity, code, period, projection)
            # All ways are asked for 51 and 2999, next to those that are the same, at each magnitude, too.
            alone = period in MIDDLE[1:-1] and period % len(MAGNITUDES) != at
            (for_fields if alone else for_all).append(one)
    return for_all, for_fields


def other_questions(questions, data):
    """Return the questions for the other ways, one way after the other: as the first questions, and with records."""
    doubles = [question.replace('answer', 'doubles') for question in questions[:len(data)]]
    digits = [one.hex() for one in data]
    return doubles + [f'{way} {one}' for way in ('answer_record', 'doubles_record') for one in digits]


# ---------------------------------------------------------------------------
# The checks of the answers
# ---------------------------------------------------------------------------

class Sigmas:
    """The ends of sigma by magnitude and held period, as they are in the first answer."""

    def __init__(self, narrowest):
        self.narrowest = narrowest
        self.lines = {}
        self.ends = {}

    def fault(self, scenario, line):
        """Return what is wrong with the line of an answer from fields, or None."""
        found = ANSWER.fullmatch(line)
        if not found:
            return 'E and four ends are due'
        at, sigma = (scenario.magnitude, held_period(scenario.period)), found.group(1)
        if at in self.lines:
            # W-205: "at one magnitude all accepted periods up to 50 give the same sigma ends, as do all from 3000 on".
            first, same = self.lines[at]
            return None if sigma == same else f'the ends of sigma are {same} at period {first}'
        self.lines[at] = scenario.period, sigma
        self.ends[at] = tuple(map(int, sigma.split(' ')))
        return pair_fault('sigma', WIDEST, self.ends[at], shifted(self.narrowest[at[1]], at[0]))

    def faults(self, asked, lines):
        """Yield what is wrong with the answers from fields."""
        for scenario, line in zip(asked, lines):
            wrong = self.fault(scenario, line)
            if wrong:
                yield f'answer {text(*scenario)}: {line[:100]}: {wrong}'

    def neighbour_faults(self):
        """Yield where the ends are not both above those of the period before: 51 above 50, .. and 3000 above 2999."""
        for magnitude in MAGNITUDES:
            for period in HELD[1:]:
                before, ends = (self.ends.get((magnitude, one)) for one in (period - 1, period))
                if not (before and ends and before[1] < ends[0]):
                    yield f'magnitude {magnitude}: the ends of sigma are {before} at {period - 1}, {ends} at {period}'

    def greatest_width(self, periods):
        """Return how far apart the ends are at most at some periods."""
        held = {held_period(period) for period in periods}
        return max((high - low for (_, period), (low, high) in self.ends.items() if period in held), default=None)


def way_faults(questions, lines, due):
    """Yield which lines of another way are not those of the answers from fields."""
    # "Doubles that equal the whole numbers"; from a record, "and then answers the scenario read".
    for question, line, wanted in zip(questions, lines, due):
        if line != wanted:
            yield f'{question}: {line[:100]}, {wanted} is due'


def program_faults(tally, program, data, due):
    """Yield where the program does not print the answers from fields to some records."""
    many = TAKEN // LONGEST
    for front in range(0, len(data), many):
        stream = Stream('sigma', b''.join(data[front:front + many]))
        lines = [f'{at} {line}' for at, line in enumerate(due[front:front + many], 1)]
        wanted = ['enclosures', *lines, f'end {len(lines)}', '']
        output = run_program(tally, program, stream)
        # Where there is no output the tally has the fault.
        got = wanted if output is None else output.decode('ascii', 'backslashreplace').split('\n')
        if got != wanted:
            at = next(at for at, (one, other) in enumerate(zip_longest(got, wanted)) if one != other)
            yield f'{program}: line {at + 1} is {got[at:at + 1]}, {wanted[at:at + 1]} is due: {stream.data.hex()}'


# ---------------------------------------------------------------------------
# The run
# ---------------------------------------------------------------------------

def run(host, program, seed):
    """Ask all questions and check the answers; return the exit status."""
    for_all, for_fields = scenarios(random.Random(seed))
    asked, data = for_all + for_fields, [*map(record, for_all)]
    questions = [f'answer {text(*one)}' for one in asked]
    others = other_questions(questions, data)
    lines, faults = ask(host, [*questions, *others])
    narrowest, wrong = narrowest_ends()
    sigmas, tally = Sigmas(narrowest), Tally()
    faults += chain(wrong, own_faults(narrowest), sigmas.faults(asked, lines), sigmas.neighbour_faults(),
                    way_faults(others, lines[len(asked):], cycle(lines[:len(for_all)])),
                    program_faults(tally, program, data, lines[:len(data)]), tally.faults)
    for fault in faults[:FAULTS_SHOWN]:
        print(f'FAILED {fault[:1000]}')
    tabled, between = (sigmas.greatest_width(period for period in (*SHORT, *MIDDLE, *LONG)
                                             if between_rows(IDRISS, period) == apart) for apart in (False, True))
    print(f'sigma: seed {seed}, {len(asked)} answers from fields, {len(others)} in other ways, {len(data)} by the '
          f'program, {len(faults)} faults, greatest widths: tabled {tabled}, between rows {between}')
    return 1 if faults else 0


def main(words):
    """Read the command line and run the checks."""
    if len(words) not in (3, 4) or not all(word.isdecimal() for word in words[3:]):
        print('usage: test_sigma.py ASK PROGRAM [SEED]', file=sys.stderr)
        return 2
    return run(*words[1:3], *map(int, words[3:] or [SEED]))


if __name__ == '__main__':
    sys.exit(main(sys.argv))
