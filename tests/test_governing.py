"""Check which scenario of a sheet governs, in C, Rust and Python, each through its safe wrapper, against W-206.

Run as: python3 tests/test_governing.py C_ASK RUST_ASK PYTHON_ASK [COUNT] [SEED]

An ASK answers the question `answer SCENARIO` of test_answers.py, and

    governing SCENARIO ..   -> `G`, the position that is named, counted from 1, and all that are marked, in their order;
                               `R 14` for more than 64 scenarios, `R 15` where none is accepted

C_ASK answers three questions more, as it does for a sheet in test_sheets.py.  The first is about the struct of its
interface: there are always 64 scenarios, and those past the count are not read.  The second leaves the places past the
scenarios undefined.  The third goes through the wrapper with a null pointer, which counts as no scenarios unless the
count is above 64.

    governing_places COUNT SCENARIO ..
                            -> NUMBER POSITION, then the 64 marks, each 0 or 1
    governing_unfilled SCENARIO ..
                            -> as governing, with nothing at the other places, of up to 64
    governing_null COUNT    -> NUMBER POSITION, and more after it if a mark stands

Each line has to be what a plain computation, written from W-206's words, makes of the ends that the same host gives for
the scenarios alone; and these are checked against documents 01 and 02 and the papers, as in test_sheets.py.  Besides, a
line has to have what W-206 says of every result, by the ends and by the true medians of models.py.

Ends of different scenarios seldom meet.  They are looked for among the answers of C_ASK to very many scenarios whose
medians are next to each other.  The page of test_sheets.py has to name and mark what is due, too.  PYTHON_ASK stands
beside the wrapper fusnoch.py.  COUNT is how many sheets are drawn, 800 unless given, besides the fixed ones.
"""

import math
import random
import re
import sys
from bisect import bisect_left
from collections import defaultdict
from functools import lru_cache, partial
from itertools import chain, permutations, product
from typing import NamedTuple, Tuple

from ask import ask
from models import GRID
from records import (BOORE_ATKINSON, IDRISS, MECHANISM, Scenario, own_distance, with_own_distance,
                     without_other_distance)
from streams import NEXT_TO_ZERO, within
from test_enclosures import UNITS, Tally, true_values
from test_hosts import HOSTS, WATCHED, check_python, in_python
from test_records import text
from test_sheets import (EARTHQUAKES, FEW, FEW_COUNTS, FEW_MORE, LONGER, LONGEST, MORE, PAGE, PLACES, REFUSALS, SHARES,
                         SHEET, TOO_MANY, TRIED, Question, all_alike, all_for_c, check_asks, check_memory, draw,
                         drawn_pool, drawn_sheets, few_for_c, few_sheets, for_rust, in_other_orders, in_two_parts,
                         in_words, kept_faults, kinds_of_full, kinds_of_sheet, number_of, of_each_length,
                         one_among_others, places_alone, single_faults, struct_faults, too_long, too_many_faults,
                         unfit_faults, ways_faults)

COUNT = 800
SEED = 20110311
FAULTS_SHOWN = 20

# "New numbers: 15, no scenario on the sheet is accepted".
NONE_ACCEPTED = 15

# A great median, above zero: Idriss, M 7.90, 0 km, 450 m/s, reverse, 0.15 s.  Its true value in units, rounded.
GREATEST, GREATEST_UNITS = Scenario(IDRISS, 790, 0, 4500, 2, 150, None), 1126726471

# How ends that meet are looked for.  So many scenarios of each model are drawn, far away, on hard ground and with long
# periods, where a step in the distance, the velocity or the period makes the least difference.  Of the two models a
# couple is kept whose medians are next to each other, and all scenarios up to so many steps from them are asked for.
BASES, STEPS = 400, (42, 56, 17)
FAR = {'magnitude': (550, 790), 'distance': (10000, 17000), 'velocity': (6000, 11900)}
# They have rows; a step away from a row the ends are farther apart.
LONG = (4000, 5000, 7500)
# Low ends that are up to so many units apart are compared; of each kind of meeting so many groups are kept.
REACH, KEPT = 200, 3
# How many sheets of close ones are asked under valgrind, too.
FEW_CLOSE = 8

MODELS = (IDRISS, BOORE_ATKINSON)


# ---------------------------------------------------------------------------
# What W-206 says
# ---------------------------------------------------------------------------

class Ends(NamedTuple):
    """The two ends of a median: "Ends here are the median's"."""

    low: int
    high: int


class Outcome(NamedTuple):
    """The number of the sheet, 0 for none, and then the position that is named and those that are marked."""

    number: int
    named: int = 0
    marked: Tuple[int, ...] = ()


def governing_of(count, places):
    """Return what is due for so many scenarios with these ends, None for a refused one: the plain computation."""
    # "14, more than 64 scenarios, checked before all else"; "15, no scenario on the sheet is accepted, checked after
    # 14; with either number nothing is named or marked".
    if count > SHEET:
        return Outcome(TOO_MANY)
    accepted = {position: ends for position, ends in enumerate(places, 1) if ends is not None}
    if not accepted:
        return Outcome(NONE_ACCEPTED)
    # "names the accepted scenario with the greatest high end, by its position counted from 1; of equal ones, the first"
    greatest_high = max(ends.high for ends in accepted.values())
    named = min(position for position, ends in accepted.items() if ends.high == greatest_high)
    # "marks every accepted scenario whose high end is at least the greatest low end among the accepted scenarios, and
    # no other"
    greatest_low = max(ends.low for ends in accepted.values())
    return Outcome(0, named, tuple(position for position, ends in accepted.items() if ends.high >= greatest_low))


def consequences(outcome, accepted):
    """Yield where an outcome has not what W-206 says of every one, by the ends of the accepted places by position."""
    if outcome.number:
        if outcome.named or outcome.marked:
            yield f'with {outcome.number} nothing is named or marked'
        return
    if outcome.named not in outcome.marked:
        yield 'the named scenario is not marked'
    others = [position for position in outcome.marked if position not in accepted]
    if others:
        yield f'marked are {others}, refused or past the count'
    low = max((accepted[position].low for position in outcome.marked if position in accepted), default=-math.inf)
    # "Every unmarked accepted scenario's high end lies below the low end of some marked one".
    for position, ends in accepted.items():
        if position not in outcome.marked and ends.high >= low:
            yield f'{position} is not marked, and its high end is not below the low end of a marked one'


@lru_cache(maxsize=None)
def true_median(scenario):
    """Return whole numbers around the true median of an accepted scenario, of the last decimal place of models.py."""
    low, high = true_values(scenario)[0]
    return Ends(math.floor(low * GRID), math.ceil(high * GRID))


def truths(outcome, accepted):
    """Yield where an outcome does not hold for the true medians of the accepted scenarios by position."""
    if outcome.number:
        return
    true = {position: true_median(scenario) for position, scenario in accepted.items()}
    marked = max((true[position].low for position in outcome.marked if position in true), default=-math.inf)
    greatest = max((one.low for one in true.values()), default=-math.inf)
    for position, one in true.items():
        # "so that its enclosed value is the less".
        if position not in outcome.marked and one.high >= marked:
            yield f'{position} is not marked, and its true median is not less than that of a marked one'
        if position not in outcome.marked and one.high >= greatest:
            yield f'{position} has the greatest true median and is not marked'


# ---------------------------------------------------------------------------
# Ends that meet
# ---------------------------------------------------------------------------

@lru_cache(maxsize=None)
def median(line):
    """Return the ends of the median in the line of a scenario alone, None where it is refused."""
    found = re.fullmatch(r'E (-?[0-9]+) (-?[0-9]+) -?[0-9]+ -?[0-9]+', line)
    return Ends(*map(int, found.groups())) if found else None


def answered(path, scenarios):
    """Return the ends of those scenarios that a host answers."""
    scenarios = [*dict.fromkeys(scenarios)]
    # Where the host fails, it is seen when it is asked about sheets.
    lines, _ = ask([path], [text('answer', *scenario) for scenario in scenarios])
    return {scenario: median(line) for scenario, line in zip(scenarios, lines) if median(line)}


def relation(one, top):
    """Return how some ends lie to those with the greatest low end."""
    if one.high < top.low:
        return 'just below' if one.high == top.low - 1 else 'below'
    if one.low == top.low:
        return 'equal ends' if one.high == top.high else 'equal low ends'
    if one.high == top.low:
        return 'touching'
    if one.high == top.high:
        return 'equal high ends'
    return 'overlapping' if one.high < top.high else 'around'


def far_away(rng, model):
    """Draw a scenario far away, on hard ground and with a long period."""
    fields = {name: rng.randint(*limits) for name, limits in FAR.items()}
    return with_own_distance(model, mechanism=rng.choice(MECHANISM[model]), period=rng.choice(LONG), **fields)


def couple(rng, path):
    """Return two scenarios, one of each model and of other magnitudes, whose medians are next to each other."""
    ends = answered(path, [far_away(rng, model) for model in MODELS for _ in range(BASES)])
    ordered = sorted(ends, key=ends.get)
    pairs = [(one, other) for one, other in zip(ordered, ordered[1:])
             if one.model != other.model and one.magnitude != other.magnitude]
    return min(pairs, key=lambda pair: ends[pair[1]].low - ends[pair[0]].low, default=())


def steps_away(scenario):
    """Yield all scenarios up to some steps in distance, velocity and period from one."""
    model, magnitude, _, velocity, mechanism, period, _ = scenario
    distance = own_distance(scenario)
    for farther, faster, longer in product(*map(range, STEPS)):
        yield with_own_distance(model, magnitude, distance + farther, velocity + faster, mechanism, period + longer)


def groups_below(ends, top, near):
    """Yield kinds of meeting, and the scenarios that meet: one with the greatest low end, and one or two near it."""
    # Those that are to be marked beside it, and those that are not.
    upper = [one for one in near if ends[one].high >= ends[top].low]
    lower = [one for one in near if ends[one].high < ends[top].low]
    for one in near:
        yield (relation(ends[one], ends[top]), one.model, top.model), (one, top)
    for one, other in product(upper, lower):
        if ends[other].high >= ends[one].low:
            yield ('chain', relation(ends[one], ends[top])), (other, one, top)


def meeting_groups(rng, ends):
    """Return groups of two or three scenarios whose ends meet, or only just do not, a few of each kind."""
    groups = defaultdict(list)
    ordered, first = sorted(ends, key=ends.get), 0
    for at, top in enumerate(ordered):
        while ends[top].low - ends[ordered[first]].low > REACH:
            first += 1
        for kind, group in groups_below(ends, top, ordered[first:at]):
            groups[kind].append(group)
    return [*chain.from_iterable(rng.sample(groups[kind], min(KEPT, len(groups[kind])))
                                 for kind in groups if kind[0] != 'below')]


# ---------------------------------------------------------------------------
# Sheets for all hosts
# ---------------------------------------------------------------------------

def governing(scenarios):
    """Return the question which of some scenarios governs."""
    return Question('governing', len(scenarios), tuple(scenarios))


def renamed(questions):
    """Return questions of test_sheets.py about a sheet, asked about which scenario of it governs."""
    return [question._replace(name=question.name.replace('sheet', 'governing')) for question in questions]


class Drawn:
    """What sheets are made of: scenarios by their number, the ends of the accepted ones, and groups that meet."""

    def __init__(self, rng, path):
        self.rng = rng
        self.pool = drawn_pool(rng)
        close = answered(path, chain.from_iterable(map(steps_away, couple(rng, path))))
        self.searched = len(close)
        self.groups = meeting_groups(rng, close)
        self.ends = {**close, **answered(path, self.pool[0])}
        # The accepted ones of the pool, from the one with the least high end on.
        self.rising = sorted((one for one in self.pool[0] if one in self.ends), key=lambda one: self.ends[one].high)
        self.highs = [self.ends[one].high for one in self.rising]

    def refused(self):
        """Draw a refused scenario, with each refusal as often as with any."""
        return self.rng.choice(self.pool[self.rng.choice(REFUSALS)])

    def among_lesser(self, group):
        """Draw a sheet with a group at any places, among refused scenarios and accepted ones with lesser ends."""
        below = bisect_left(self.highs, min(self.ends[one].low for one in group) - 1)
        count = self.rng.choice((len(group) + 1, self.rng.randint(len(group), SHEET), SHEET))
        places = [self.refused() if below == 0 or self.rng.randrange(2) else self.rng.choice(self.rising[:below])
                  for _ in range(count - len(group))]
        for one in group:
            places.insert(self.rng.randint(0, len(places)), one)
        return places


def of_groups(drawn):
    """Yield sheets of each group that meets: alone in each order, and among others with lesser ends."""
    for group in drawn.groups:
        yield from permutations(group)
        yield from (drawn.among_lesser(group) for _ in range(2))


def of_many_groups(drawn):
    """Yield sheets of many groups at once, and of the same scenarios in other orders."""
    scenarios = [*chain.from_iterable(drawn.groups)]
    for most in (3, 10, SHEET, SHEET):
        count = min(most, len(scenarios))
        places = drawn.rng.sample(scenarios, count)
        yield from (places, places[::-1], places[1:] + places[:1], drawn.rng.sample(places, count))


def alike(rng):
    """Yield groups of scenarios with the same ends."""
    for _ in range(3):
        # "V above 1200 counts as 1200"; "F is 0 for codes 0 and 1, and 1 for 2, 3 and 4".
        one = within(rng, IDRISS, velocity=12000)
        yield [one._replace(velocity=velocity) for velocity in (12000, 20000, 12001)]
        one = within(rng, IDRISS)
        yield [one._replace(mechanism=code) for code in (2, 3, 4)]
        yield [one._replace(mechanism=code) for code in (0, 1)]
        # "Here e is [...] e4 for 2 and 3."
        one = within(rng, BOORE_ATKINSON)
        yield [one._replace(mechanism=code) for code in (2, 3)]
        # "each model must read its own" distance
        one = within(rng, IDRISS, distance=5000)
        yield [one._replace(projection_distance=projection) for projection in (None, 0, 5000)]
        yield [one, without_other_distance(one), one]


def of_alike(drawn):
    """Yield sheets of scenarios with the same ends in each order, alone, after a refused one, and with GREATEST."""
    for group in alike(drawn.rng):
        for places in permutations(group):
            yield places
            yield [drawn.refused(), *places, drawn.refused(), places[0]]
            yield [places[0], GREATEST, *places[1:]]


def of_each_sign(drawn):
    """Yield sheets with the greatest ends above, below and around zero, alone and beside refused ones."""
    zero = [with_own_distance(*fields) for fields in NEXT_TO_ZERO]
    great = [GREATEST._replace(rupture_distance=distance) for distance in (0, 1, 2, 100, 200)]
    least = drawn.rising[:3]
    for one in (*zero, *great, *least, *drawn.rising[::50]):
        refused = [drawn.refused() for _ in range(3)]
        yield from ([one], [one, *refused], [*refused, one], [*refused, one, *refused])
    for places in (zero, great, [*zero, *least], [*great, *least], [*zero, *great], [*zero, *great, *least]):
        yield from (places, places[::-1], drawn.rng.sample(places, len(places)))
        mixed = [*places, *(drawn.refused() for _ in places)][:SHEET]
        yield drawn.rng.sample(mixed, len(mixed))


def at_each_place(drawn):
    """Yield sheets with GREATEST at each place, once; and again with the same ends at a later one."""
    for at in range(SHEET):
        places = draw(drawn.rng, drawn.pool, SHEET, 0.5)
        places[at] = GREATEST
        yield [*places]
        if at + 1 < SHEET:
            places[drawn.rng.randint(at + 1, SHEET - 1)] = GREATEST._replace(mechanism=drawn.rng.choice((2, 3, 4)))
            yield places


def drawn_at_random(drawn, count):
    """Yield so many sheets, every other of them with a group that meets."""
    yield from drawn_sheets(drawn.rng, drawn.pool, count - count // 2)
    if drawn.groups:
        yield from (drawn.among_lesser(drawn.rng.choice(drawn.groups)) for _ in range(count // 2))


def all_sheets(drawn, count):
    """Return the questions for all hosts but those few."""
    rng, pool = drawn.rng, drawn.pool
    return [governing(places) for places in chain(
        [EARTHQUAKES, EARTHQUAKES[::-1]], of_each_length(rng, pool), too_long(rng, pool), one_among_others(rng, pool),
        in_two_parts(rng, pool), all_alike(rng, pool), in_other_orders(rng, pool), of_groups(drawn),
        of_many_groups(drawn), of_alike(drawn), of_each_sign(drawn), at_each_place(drawn),
        drawn_at_random(drawn, count))]


# ---------------------------------------------------------------------------
# Questions for one host
# ---------------------------------------------------------------------------

def greater_past_the_count(drawn):
    """Yield questions with each count below 64, and past it accepted scenarios with greater ends, or just one."""
    for share, count in product(SHARES, range(SHEET)):
        before = draw(drawn.rng, drawn.pool, count, share)
        one = [drawn.refused() for _ in range(SHEET - count)]
        one[drawn.rng.randrange(len(one))] = GREATEST
        for after in ([GREATEST] * (SHEET - count), one):
            yield Question('governing_places', count, (*before, *after))


def cut_by_the_count(drawn):
    """Yield questions with a group that meets, in each order, of which one or two scenarios are past the count."""
    for group in drawn.groups:
        others = [drawn.refused() for _ in range(SHEET - len(group))]
        for places, count in product(permutations(group), range(1, len(group))):
            yield Question('governing_places', count, (*places, *others))


def all_questions(rng, path, count):
    """Return the questions for all hosts, those for one host, those under valgrind by host, and what they are made of.

    The path is that of the host in C, whose answers are looked through for ends that meet.
    """
    drawn = Drawn(rng, path)
    pool = drawn.pool
    few = renamed(few_sheets(rng, pool))
    few += [governing(drawn.among_lesser(rng.choice(drawn.groups))) for _ in range(FEW_CLOSE) if drawn.groups]
    few_alone = renamed(few_for_c(rng, pool))
    for_c = [*greater_past_the_count(drawn), *cut_by_the_count(drawn)]
    alone = {'C': few_alone + renamed(all_for_c(rng, pool)) + for_c, 'Rust': renamed(for_rust()), 'Python': []}
    return few + all_sheets(drawn, count), alone, {'C': few + few_alone, 'Rust': few}, drawn


# ---------------------------------------------------------------------------
# What is due
# ---------------------------------------------------------------------------

def accepted_of(question, single):
    """Return the ends of the accepted scenarios within the count, by position, by the lines of all scenarios alone."""
    if question.count > SHEET:
        return {}
    places = (median(single.get(one, '')) for one in question.scenarios[:question.count])
    return {position: ends for position, ends in enumerate(places, 1) if ends is not None}


def due_line(question, single):
    """Return the line that is due, by the lines of all scenarios alone."""
    name, count, scenarios = question
    due = governing_of(count, [median(single.get(one, '')) for one in scenarios[:min(count, SHEET)]])
    if name == 'governing_null':
        return text(due.number, due.named)
    if name == 'governing_places':
        return text(due.number, due.named, *(int(position in due.marked) for position in range(1, SHEET + 1)))
    return text('R', due.number) if due.number else text('G', due.named, *due.marked)


def told(name, line):
    """Return the outcome that a line tells, None if it has not the form of one."""
    if name in ('governing', 'governing_unfilled'):
        if not re.fullmatch('R [1-9][0-9]*|G( [1-9][0-9]*)+', line):
            return None
        letter, *numbers = line.split(' ')
        numbers = [*map(int, numbers)]
        return Outcome(*numbers) if letter == 'R' else Outcome(0, numbers[0], tuple(numbers[1:]))
    if not re.fullmatch('[0-9]+ [0-9]+( [01])*', line):
        return None
    number, named, *marks = map(int, line.split(' '))
    return Outcome(number, named, tuple(position for position, mark in enumerate(marks, 1) if mark))


def line_faults(question, line, single):
    """Yield what is wrong with a line: it is not the one due, or has not what W-206 says of every one."""
    wanted = due_line(question, single)
    if line != wanted:
        yield f'{line[:200]} where {wanted[:200]} is due'
    outcome = told(question.name, line)
    if outcome is None:
        yield f'{line[:200]} is no line of an outcome'
        return
    accepted = accepted_of(question, single)
    yield from consequences(outcome, accepted)
    scenarios = {position: question.scenarios[position - 1] for position in accepted}
    # A scenario that should have been refused has no true median; that it is answered is found elsewhere.
    yield from truths(outcome, {position: one for position, one in scenarios.items() if number_of(one) == 0})


def governing_faults(host, asked, single, lines):
    """Yield what is wrong with the lines of a host."""
    for question, line in zip(asked, lines):
        for wrong in line_faults(question, line, single):
            yield f'{host}: {question.name}, count {question.count}: {wrong}: {question.line()[:300]}'


# ---------------------------------------------------------------------------
# What has to be met
# ---------------------------------------------------------------------------

class Place(NamedTuple):
    """An accepted place of a sheet."""

    position: int
    scenario: Scenario
    ends: Ends


def order(one, other):
    """Return which of two numbers is the greater, in words."""
    return 'equal' if one == other else 'less' if one < other else 'greater'


def kinds_of_sign(accepted, top, named, beside):
    """Yield on which side of zero the greatest ends are, and whether there are refused places beside."""
    if top.ends.low > 0:
        yield 'above zero', beside
    if named.ends.high < 0:
        yield 'below zero', beside
    if named.ends.low < 0 < named.ends.high:
        yield 'around zero', beside
    if top.ends.low > 0 > min(one.ends.high for one in accepted):
        yield 'above and below zero', beside


def kinds_of_equal(accepted, named):
    """Yield how places with the greatest high end differ from the one that is named, the first."""
    for one in accepted:
        if one.ends.high == named.ends.high and one != named:
            apart = [name for name, first, second in zip(Scenario._fields, named.scenario, one.scenario)
                     if first != second]
            yield 'equal high ends, the low end of the first is', order(named.ends.low, one.ends.low)
            yield ('equal high ends, the magnitude of the first is',
                   order(named.scenario.magnitude, one.scenario.magnitude))
            if len(apart) < 2:
                yield 'equal high ends, apart in', *apart
            yield 'first of equal ones at', named.position


def kinds_of_meeting(accepted, marked, top, named):
    """Yield how the ends of accepted places lie to those with the greatest low end, and to others."""
    for one in accepted:
        if one != top:
            how = relation(one.ends, top.ends)
            yield from ((how, one.scenario.model, top.scenario.model), (how, order(one.position, top.position)))
            if how == 'equal low ends':
                yield 'equal low ends, the high end of the first is', order(top.ends.high, one.ends.high)
    if named.ends.low < top.ends.low:
        yield 'the named one, not with the greatest low end, is at a place', order(named.position, top.position)
    unmarked = [one for one in accepted if one.position not in marked]
    for other in (one for one in accepted if one.position in marked and one != top):
        if any(one.ends.high >= other.ends.low for one in unmarked):
            yield 'chain', relation(other.ends, top.ends)
            yield 'unmarked, above the low end of', 'the named one' if other == named else 'a marked one'


def kinds_of_accepted(places, scenarios):
    """Yield what is told apart about the ends at the places of a sheet with accepted ones."""
    _, named_at, marked = governing_of(len(places), places)
    accepted = [Place(position, *one) for position, one in enumerate(zip(scenarios, places), 1) if one[1] is not None]
    top = max(accepted, key=lambda one: one.ends.low)
    named = next(one for one in accepted if one.position == named_at)
    yield from (('marked' if one.position in marked else 'unmarked', one.position) for one in accepted)
    yield from (('named', named_at), ('marks', len(marked)))
    yield from kinds_of_sign(accepted, top, named, len(accepted) < len(places))
    yield from kinds_of_equal(accepted, named)
    yield from kinds_of_meeting(accepted, marked, top, named)


def kinds_of_struct(count, places):
    """Yield what is told apart about the places before and past the count."""
    before, after = ([ends for ends in part if ends is not None] for part in (places[:count], places[count:]))
    if after and not before:
        yield 'accepted past the count only', count
    if after and before and max(after).low > max(one.high for one in before):
        yield 'greater past the count', count
    if after and before:
        yield 'past the count', relation(max(after), max(before))


def kinds(question, single):
    """Yield what is told apart about a question, by the lines of all scenarios alone."""
    name, count, scenarios = question
    yield name, count
    if count > SHEET:
        yield 'with 14', any(number_of(one) == 0 for one in scenarios)
        return
    places = [median(single.get(one, '')) for one in scenarios]
    if name == 'governing_places':
        yield from kinds_of_struct(count, places)
    if name != 'governing':
        return
    if count:
        yield from kinds_of_sheet([*map(number_of, scenarios)])
    if any(places):
        yield from kinds_of_accepted(places, scenarios)
        yield from (('refused', position) for position, ends in enumerate(places, 1) if ends is None)
    else:
        yield 'none accepted', count


def wanted_of_places():
    """Yield what has to be met by counts and positions."""
    up_to, positions = range(SHEET + 1), range(1, SHEET + 1)
    yield from product(['governing'], (*up_to, *LONGER, LONGEST))
    yield from product(('governing_places', 'governing_null'), (*up_to, *MORE, *FEW_COUNTS))
    yield from product(['governing_unfilled'], FEW)
    yield from product(['none accepted'], up_to)
    yield from product(['with 14'], (True, False))
    yield from product(('named', 'marked', 'unmarked', 'refused'), positions)
    yield from product(['first of equal ones at'], positions[:-1])
    yield from product(['marks'], (1, 2, 3, SHEET - 1, SHEET))
    yield from product(['accepted past the count only'], up_to[:-1])
    yield from product(['greater past the count'], positions[:-1])
    yield from product(PLACES, REFUSALS, ['among'], [0])
    yield from product(PLACES, [0], ['among'], REFUSALS)
    yield from ('all accepted', 'some accepted', 'all refused', 'refused ones, then accepted',
                'accepted ones, then refused', 'a beginning', 'in the reverse order', 'the first last')


def wanted_of_ends():
    """Yield what has to be met by how ends lie."""
    yield from product(('above zero', 'below zero', 'around zero', 'above and below zero'), (True, False))
    yield from product(('just below', 'touching', 'overlapping'), MODELS, MODELS)
    yield from product(('just below', 'touching', 'overlapping', 'around', 'equal high ends'), ('less', 'greater'))
    yield from product(['equal low ends, the high end of the first is'], ('less', 'greater'))
    yield from product(['past the count'], ('just below', 'touching', 'overlapping', 'around', 'equal high ends'))
    yield from product(['the named one, not with the greatest low end, is at a place'], ('less', 'greater'))
    yield from product([f'equal high ends, the {what} of the first is' for what in ('low end', 'magnitude')],
                       ('less', 'equal', 'greater'))
    yield from product(['equal high ends, apart in'], ('velocity', 'mechanism', 'projection_distance'))
    yield 'equal high ends, apart in',
    yield from product(['chain'], ('touching', 'overlapping', 'around'))
    yield from product(['unmarked, above the low end of'], ('the named one', 'a marked one'))


def wanted_under_valgrind():
    """Return the hosts, questions and counts that valgrind has to have seen."""
    alone = product(['C'], ('governing_places', 'governing_null'), FEW_COUNTS)
    return {*product(WATCHED, ['governing'], (*FEW, *FEW_MORE)), *alone, *product(['C'], ['governing_unfilled'], FEW)}


def seen_faults(asked, few, single):
    """Yield what has not been met."""
    seen = {*chain.from_iterable(kinds(question, single) for question in asked), *kinds_of_full(asked, 'governing')}
    watched = {(host, question.name, question.count) for host in few for question in few[host]}
    missing = {*wanted_of_places(), *wanted_of_ends()} - seen | wanted_under_valgrind() - watched
    if missing:
        yield f'missing among the questions: {", ".join(sorted(map(str, missing))[:FAULTS_SHOWN])}'


# ---------------------------------------------------------------------------
# What is typed in
# ---------------------------------------------------------------------------

def on_the_page():
    """Return the outcome that the page of test_sheets.py prints, as it is typed in there; None if it is not."""
    found = re.search(r'\ngoverning: ([0-9]+), .*\nmarked: ([0-9, ]+); .*\n$', PAGE)
    return Outcome(0, int(found[1]), tuple(map(int, found[2].split(', ')))) if found else None


def typed_faults(single):
    """Yield where the page, or a true value, is not typed in as is due by the ends and by the true medians."""
    typed = on_the_page()
    due = governing_of(len(EARTHQUAKES), [median(single.get(one, '')) for one in EARTHQUAKES])
    if typed != due:
        yield f'the page names and marks {typed}, {due} is due'
    true = {position: true_median(one) for position, one in enumerate(EARTHQUAKES, 1) if number_of(one) == 0}
    # Of the true medians those that are marked are equal, and greater than all others.
    greatest = tuple(position for position, one in true.items() if one.high >= max(true.values()).low)
    if typed != Outcome(0, min(greatest), greatest):
        yield f'the page names and marks {typed}, and the greatest true medians are at {greatest}'
    ends, units = median(single.get(GREATEST, '')), round(true_values(GREATEST)[0].low * UNITS)
    if units != GREATEST_UNITS or ends is None or not 0 < ends.low <= units <= ends.high:
        yield f'GREATEST has the ends {ends} and the true median {units}, not {GREATEST_UNITS}'


# ---------------------------------------------------------------------------
# What only Python lets through
# ---------------------------------------------------------------------------

def due_in_python(fusnoch, count, scenarios):
    """Return what is due for the first so many scenarios, by what the wrapper answers to each alone."""
    places = [None if number_of(one) else Ends(*fusnoch.answer(in_python(fusnoch, one))[:2])
              for one in scenarios[:count] if count <= SHEET]
    return governing_of(count, places)


def tuple_faults(fusnoch, scenarios):
    """Yield what is wrong with the kind of what is given back: a named tuple of an int and of a list of its own."""
    given = [in_python(fusnoch, scenario) for scenario in scenarios]
    first, second = fusnoch.governing(given), fusnoch.governing(given)
    if not isinstance(first, tuple) or first._fields != ('position', 'marked'):
        yield f'a named tuple of position and marked is due, not {first!r}'
    if type(first.position) is not int or type(first.marked) is not list or {*map(type, first.marked)} != {int}:
        yield f'a whole number and a list of whole numbers are due, not {first!r}'
    if first.marked is second.marked:
        yield 'a list of its own is due'
    if repr(first) != f'Governing(position={first.position}, marked={first.marked})':
        yield f'it is printed as {first!r}'


def struct_due(fusnoch, count, scenarios):
    """Return all numbers that the struct is due to hold, in the order of its fields."""
    due = due_in_python(fusnoch, count, scenarios)
    parts = {'number': [due.number], 'position': [due.named],
             'marks': [int(position in due.marked) for position in range(1, SHEET + 1)]}
    return [*chain.from_iterable(parts[name] for name, *_ in fusnoch.LIBRARY.fusnoch_governing.restype._fields_)]


def python_faults(asked, in_structs, fusnoch):
    """Yield the faults of Python's wrapper where no types see to the caller's mistakes, and of the struct."""
    function = fusnoch.governing
    for _, count, scenarios in asked:
        if count <= SHEET:
            number, named, marked = due_in_python(fusnoch, count, scenarios)
            wanted = ('raised', in_words(number)) if number else ('Governing', (named, [*marked]))
            yield from ways_faults(fusnoch, function, scenarios, wanted)
            yield from kept_faults(fusnoch, function, scenarios)
            if not number:
                yield from tuple_faults(fusnoch, scenarios)
    yield from unfit_faults(fusnoch, function)
    yield from too_many_faults(fusnoch, function)
    yield from struct_faults(fusnoch, fusnoch.LIBRARY.fusnoch_governing, struct_due, in_structs)


# ---------------------------------------------------------------------------
# The run
# ---------------------------------------------------------------------------

def command_line(words):
    """Return the ASKs by host, and the count and the seed, as given or as they are unless given."""
    if len(words) not in (4, 5, 6) or not all(word.isdecimal() for word in words[4:]):
        print(__doc__.split('\n')[2], file=sys.stderr)
        sys.exit(2)
    given = [int(word) for word in words[4:]]
    return dict(zip(HOSTS, words[1:4])), *given, *(COUNT, SEED)[len(given):]


def main(words):
    """Read the command line, run the checks and print the first faults and a summary."""
    asks, count, seed = command_line(words)
    rng, tally = random.Random(seed), Tally()
    asked, alone, few, drawn = all_questions(rng, asks['C'], count)
    single, faults = check_asks(asks, asked, alone, governing_faults)
    faults += single_faults(tally, single['C'])
    faults += check_memory(single, asks, few, governing_faults)
    faults += seen_faults(asked + alone['C'] + alone['Rust'], few, single['C'])
    faults += typed_faults(single['C'])
    # A wrapper with a wrong struct could end this program, and nothing would be printed.
    if not faults:
        tried, in_structs = few['Rust'] + rng.sample(asked, TRIED), places_alone(rng, alone['C'])
        faults += check_python(asks['Python'], partial(python_faults, tried, in_structs))
    for fault in faults[:FAULTS_SHOWN]:
        print(f'FAILED {fault}')
    print(f'governing: seed {seed}, {len(asked)} sheets of {sum(question.count for question in asked)} scenarios to '
          f'each of {", ".join(HOSTS)}, {len(alone["C"])} to C alone, {len(single["C"])} scenarios alone, '
          f'{len(drawn.groups)} groups that meet among {drawn.searched}, {len(few["C"])} sheets under valgrind, '
          f'{len(faults)} faults, greatest widths: {tally.greatest_widths()}')
    return 1 if faults else 0


if __name__ == '__main__':
    sys.exit(main(sys.argv))
