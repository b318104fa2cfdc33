"""Check sheets of scenarios in the hosts in C, Rust and Python, each through its safe wrapper, against W-204.

Run as: python3 tests/test_sheets.py C_ASK RUST_ASK PYTHON_ASK C_SHEET RUST_SHEET PYTHON_SHEET [COUNT] [SEED]

An ASK answers the question `answer SCENARIO` of test_answers.py, and

    sheet SCENARIO ..       -> `S` and the count, then for each place ` | E` and four ends or ` | R` and its number;
                               `R 14` for more than 64 scenarios

C_ASK answers three questions more.  The first is about the struct of its interface, which is printed as it is: the
sheet's own number, the count and the 64 places.  There are always 64 scenarios, and those past the count are not read.
The second leaves the places past the scenarios undefined.  The third goes through the wrapper with a null pointer,
which counts as no scenarios unless the count is above 64.

    sheet_places COUNT SCENARIO ..
                            -> NUMBER COUNT, then 64 times ` | ` and the place's number and four ends
    sheet_unfilled SCENARIO ..
                            -> as sheet, with nothing at the other places, of up to 64
    sheet_null COUNT        -> NUMBER COUNT, and more after it if a place does not hold zeros

Each place has to be what the same host answers to that scenario alone; and these answers are checked against documents
01 and 02 and the papers, as in test_answers.py.

A SHEET prints a page of eight earthquakes.  The three of a kind have to print the same.  PYTHON_ASK stands beside the
wrapper fusnoch.py.  COUNT is how many sheets are drawn, 1,000 unless given, besides the fixed ones.
"""

import ctypes
import random
import sys
from functools import lru_cache, partial
from itertools import chain, product, zip_longest
from typing import NamedTuple, Tuple

from ask import ask, run
from records import (BOORE_ATKINSON, IDRISS, NO_DISTANCES, OTHER_DISTANCE, OWN_DISTANCE, Scenario, between_rows, record,
                     refusal, without_other_distance)
from streams import WHOLE, Stream
from test_answers import draw_scenario, due_for_scenario, of_each_period, turned_away
from test_enclosures import Tally, line_fault
from test_hosts import (HOSTS, VALGRIND, WATCHED, WORDS, check_python, command_line, in_python, numbers_in, raised,
                        refusal_words)
from test_records import text

COUNT = 1000
SEED = 19950117
FAULTS_SHOWN = 20
# How many scenarios are drawn, to fill sheets with; and how many sheets are tried by way of Python's wrapper itself.
DRAWN = 1500
TRIED = 60

# "Up to 64 scenarios are answered in one call"; "New numbers: 14, more than 64 scenarios".
SHEET = 64
TOO_MANY = 14
# The refusals of a scenario, in the order in which they are looked for.
REFUSALS = (9, 13, 1, 2, 3, 4, 5, 6)
# What is past the count, or with 14 anywhere: the number of a place and its four ends.
ZEROS = '0 0 0 0 0'

# More than 64: lengths of lists, one of them for Rust alone; and counts that a narrower or signed number would take for
# others, or whose bytes cannot be counted, a scenario having 14.
LONGER = (65, 66, 67, 100, 127, 128, 129, 130, 255, 256, 257, 258, 256 + SHEET, 512)
LONGEST = 2 ** 16 + 3
MORE = (*LONGER, *(2 ** bits + step for bits in (15, 16, 31, 32, 63) for step in (-1, 0, 1, 3, SHEET, SHEET + 1)),
        2 ** 32 + 2 ** 16, 2 ** 64 // 14 + 1, 2 ** 64 - 65, 2 ** 64 - 64, 2 ** 64 - 63, 2 ** 64 - 1)
# Lengths and counts that are asked for under valgrind, too.
FEW, FEW_MORE = (0, 1, 2, 63, 64), (65, 130)
FEW_COUNTS = (*FEW, *FEW_MORE, 2 ** 16, 2 ** 32, 2 ** 64 - 1)
# How many of the scenarios of a sheet are accepted: all, none, or some.
SHARES = (1, 0, 0.5)
# The places at which each refusal has to be met.
PLACES = ('first', 'middle', 'last')

# The earthquakes of the page: V_S30 520.0 m/s, and 1.000 s.
EARTHQUAKES = (
    Scenario(1, 700, 1044, 5200, 0, 1000, 1000),
    Scenario(2, 700, 1044, 5200, 0, 1000, 1000),
    Scenario(1, 650, 2200, 5200, 2, 1000, 1850),
    Scenario(2, 650, 2200, 5200, 2, 1000, 1850),
    Scenario(1, 800, 18000, 5200, 0, 1000, None),
    Scenario(2, 800, None, 5200, 0, 1000, 18000),
    Scenario(1, 600, 1200, 5200, 1, 1000, 1500),
    Scenario(2, 600, 1200, 5200, 1, 1000, None),
)
# What is printed of them, typed in by hand; {} stands for four ends.
COLUMNS = '  median low  median high  sigma low sigma high'
PAGE = f"""\
A page of earthquakes for one bridge, 5 percent damped: V_S30 520.0 m/s, period 1.000 s
median, sigma: ends in units of 10^-9; they enclose the natural logarithm of the median in g, and sigma

place | model                   |    M | rupture km | projection km | mechanism   | {COLUMNS}
    1 | Idriss 2014             | 7.00 |      10.44 |         10.00 | strike-slip | {{}}
    2 | Boore and Atkinson 2008 | 7.00 |      10.44 |         10.00 | strike-slip | {{}}
    3 | Idriss 2014             | 6.50 |      22.00 |         18.50 | reverse     | {{}}
    4 | Boore and Atkinson 2008 | 6.50 |      22.00 |         18.50 | reverse     | {{}}
    5 | Idriss 2014             | 8.00 |     180.00 |             - | strike-slip | refusal 2, {WORDS[1]}
    6 | Boore and Atkinson 2008 | 8.00 |          - |        180.00 | strike-slip | {{}}
    7 | Idriss 2014             | 6.00 |      12.00 |         15.00 | normal      | refusal 13, {WORDS[12]}
    8 | Boore and Atkinson 2008 | 6.00 |      12.00 |             - | normal      | refusal 9, {WORDS[8]}

8 scenarios, 5 answered
"""
# The lines of the page before the first earthquake.
PAGE_FRONT = 4


class Question(NamedTuple):
    """The name of a question, the count of the scenarios, and the scenarios; some may be past the count."""

    name: str
    count: int
    scenarios: Tuple[Scenario, ...] = ()

    def line(self):
        """Return the line for a host."""
        words = chain.from_iterable(self.scenarios)
        counted = () if self.name in ('sheet', 'sheet_unfilled') else (self.count,)
        return text(self.name, *counted, *words)


def sheet(scenarios):
    """Return the question of a sheet."""
    return Question('sheet', len(scenarios), tuple(scenarios))


@lru_cache(maxsize=None)
def number_of(scenario):
    """Return the number of a scenario alone, 0 if it is accepted."""
    return refusal(scenario)


# ---------------------------------------------------------------------------
# Scenarios
# ---------------------------------------------------------------------------

def drawn_pool(rng):
    """Return scenarios by their number: of each kind of period, of each two distances, of each refusal, and drawn."""
    scenarios = [*WHOLE.values(), *of_each_period(rng), *turned_away()]
    scenarios += [without_other_distance(one) for one in scenarios if number_of(one) == 0]
    scenarios += [draw_scenario(rng) for _ in range(DRAWN)]
    pool = {number: [] for number in (0, *REFUSALS)}
    for one in dict.fromkeys(scenarios):
        pool[number_of(one)].append(one)
    return pool


def draw(rng, pool, count, share):
    """Draw so many scenarios, about the given share of them accepted; of the others each refusal as often as any."""
    numbers = (0 if rng.random() < share else rng.choice(REFUSALS) for _ in range(count))
    return [rng.choice(pool[number]) for number in numbers]


def apart_in_one_field():
    """Return an accepted scenario of each model again and again, in turn with scenarios that differ in one field."""
    scenarios = []
    for model, whole in WHOLE.items():
        own, other = OWN_DISTANCE[model], OTHER_DISTANCE[model]
        distance = getattr(whole, own)
        for name, number in (('magnitude', 701), ('velocity', 7601), ('mechanism', 0), ('period', 76), ('period', 0),
                             ('model', 0), (own, distance - 1), (own, 20000), (own, None), (other, distance),
                             (other, None)):
            scenarios += [whole, whole._replace(**{name: number})]
    return scenarios


# ---------------------------------------------------------------------------
# Sheets for all hosts
# ---------------------------------------------------------------------------

def of_each_length(rng, pool):
    """Yield sheets of each length up to 64, each the beginning of the next: of accepted ones, refused ones and both."""
    for share in SHARES:
        whole = draw(rng, pool, SHEET, share)
        yield from (whole[:count] for count in range(SHEET + 1))


def too_long(rng, pool):
    """Yield sheets of more than 64, each with a beginning that is answered."""
    for share in SHARES:
        whole = draw(rng, pool, max(LONGER), share)
        yield from (whole[:count] for count in (SHEET, *LONGER))


def one_among_others(rng, pool):
    """Yield sheets with one refused place among accepted ones, and the reverse: at the first, a middle and the last."""
    for number, count in product(REFUSALS, (3, 5, SHEET)):
        for at in (0, count // 2, count - 1):
            for one, others in ((number, 0), (0, number)):
                places = rng.choices(pool[others], k=count)
                places[at] = rng.choice(pool[one])
                yield places


def in_two_parts(rng, pool):
    """Yield sheets of refused ones with accepted ones after them, and the reverse, and of both in turn."""
    for count in (1, 2, 31, SHEET // 2):
        accepted, refused = draw(rng, pool, count, 1), draw(rng, pool, count, 0)
        yield from (accepted + refused, refused + accepted)
        yield [*chain.from_iterable(zip(accepted, refused))]
        yield [*chain.from_iterable(zip(refused, accepted))]


def all_alike(rng, pool):
    """Yield sheets with the same scenario at all places."""
    for one in [*WHOLE.values(), *map(without_other_distance, WHOLE.values()), *map(rng.choice, pool.values())]:
        yield from ([one] * count for count in (2, 3, SHEET - 1, SHEET, SHEET + 1))


def in_other_orders(rng, pool):
    """Yield sheets, and each in other orders."""
    for count, share in product((2, 3, 10, SHEET), (1, 0.5)):
        places = draw(rng, pool, count, share)
        yield from (places, places[::-1], places[1:] + places[:1], places[-1:] + places[:-1], sorted(places, key=repr))
        yield from (rng.sample(places, count) for _ in range(3))


def cut_in_sheets(scenarios):
    """Yield some scenarios, 64 at a time."""
    for front in range(0, len(scenarios), SHEET):
        yield scenarios[front:front + SHEET]


def few_sheets(rng, pool):
    """Return sheets that are asked for under valgrind, too."""
    return [sheet(draw(rng, pool, count, share)) for count, share in product((*FEW, *FEW_MORE), SHARES)]


def drawn_sheets(rng, pool, count):
    """Yield so many sheets of any length, often a short one."""
    for _ in range(count):
        length = rng.choice((rng.randint(0, 8), rng.randint(0, SHEET), rng.choice((SHEET - 1, SHEET, SHEET + 1))))
        yield draw(rng, pool, length, rng.choice((1, 0.9, 0.5, 0.5, 0.1, 0)))


def all_sheets(rng, pool, count):
    """Return the questions for all hosts but those few."""
    of_all_kinds = [*apart_in_one_field(), *of_each_period(rng), *turned_away()]
    return [sheet(places) for places in chain(
        [EARTHQUAKES, EARTHQUAKES[::-1]], of_each_length(rng, pool), too_long(rng, pool), one_among_others(rng, pool),
        in_two_parts(rng, pool), all_alike(rng, pool), in_other_orders(rng, pool), cut_in_sheets(of_all_kinds),
        drawn_sheets(rng, pool, count))]


# ---------------------------------------------------------------------------
# Questions for one host
# ---------------------------------------------------------------------------

def past_the_count(rng, pool):
    """Yield questions with each count up to 64: the same places before it, and past it accepted ones, refused, both."""
    befores, afters = ([draw(rng, pool, SHEET, share) for share in SHARES] for _ in range(2))
    for before, after, count in product(befores, afters, range(SHEET + 1)):
        yield Question('sheet_places', count, (*before[:count], *after[count:]))


def few_for_c(rng, pool):
    """Return questions for C alone that are asked under valgrind, too."""
    places = [Question('sheet_places', count, tuple(draw(rng, pool, SHEET, share)))
              for count, share in product(FEW_COUNTS, SHARES)]
    unfilled = [Question('sheet_unfilled', count, tuple(draw(rng, pool, count, share)))
                for count, share in product(FEW, SHARES)]
    return places + unfilled + [Question('sheet_null', count) for count in FEW_COUNTS]


def all_for_c(rng, pool):
    """Return the questions for C alone but those few."""
    large = [Question('sheet_places', count, tuple(draw(rng, pool, SHEET, share)))
             for count, share in product(MORE, SHARES)]
    return [*past_the_count(rng, pool), *large,
            *(Question('sheet_null', count) for count in (*range(SHEET + 1), *MORE))]


def for_rust():
    """Return a question for Rust alone: so many scenarios that 16 bits do not count them."""
    return [sheet([Scenario(0, 0, None, 0, 0, 0, None)] * LONGEST)]


def all_questions(rng, count):
    """Return the questions for all hosts, those for one host, and those that are asked under valgrind, by host."""
    pool = drawn_pool(rng)
    few, few_alone = few_sheets(rng, pool), few_for_c(rng, pool)
    alone = {'C': few_alone + all_for_c(rng, pool), 'Rust': for_rust(), 'Python': []}
    return few + all_sheets(rng, pool, count), alone, {'C': few + few_alone, 'Rust': few}


# ---------------------------------------------------------------------------
# What is due
# ---------------------------------------------------------------------------

def in_struct(line):
    """Return the number and the ends of a place, by the line of its scenario alone."""
    letter, *numbers = line.split(' ')
    return text(0, *numbers) if letter == 'E' else text(*numbers, 0, 0, 0, 0)


def due_line(question, single):
    """Return the line that is due, by the lines of all scenarios alone."""
    name, count, scenarios = question
    if name == 'sheet_null':
        return f'{TOO_MANY} 0' if count > SHEET else '0 0'
    if count > SHEET:
        return f'R {TOO_MANY}' if name == 'sheet' else ' | '.join([f'{TOO_MANY} 0', *[ZEROS] * SHEET])
    lines = [single.get(one, 'nothing') for one in scenarios[:count]]
    if name in ('sheet', 'sheet_unfilled'):
        return ' | '.join([f'S {count}', *lines])
    return ' | '.join([f'0 {count}', *map(in_struct, lines), *[ZEROS] * (SHEET - count)])


def first_difference(got, wanted):
    """Return the first place at which two lists differ, counted from 0."""
    return next(at for at, (one, other) in enumerate(zip_longest(got, wanted)) if one != other)


def difference(line, wanted):
    """Return where a line is not the one due: at its front, or at a place, counted from 1."""
    got, due = line.split(' | '), wanted.split(' | ')
    at = first_difference(got, due)
    return f'place {at}: {got[at:at + 1]}, {due[at:at + 1]} is due' if at else f'{got[0][:100]}, {due[0]} is due'


def sheet_faults(host, asked, single, lines):
    """Yield which lines of a host are not those due."""
    for question, line in zip(asked, lines):
        wanted = due_line(question, single)
        if line != wanted:
            named = f'{host}: {question.name}, count {question.count}'
            yield f'{named}: {difference(line, wanted)}: {question.line()[:300]}'


def single_faults(tally, single):
    """Yield what is wrong with the answers to scenarios alone."""
    for scenario, line in single.items():
        stream = Stream('sheets', record(scenario))
        wrong = line_fault(tally, stream, 1, due_for_scenario(scenario), f'1 {line}'.encode('ascii'))
        if wrong:
            yield f'{text("answer", *scenario)}: {line[:100]}: {wrong}'


# ---------------------------------------------------------------------------
# What has to be met
# ---------------------------------------------------------------------------

def kind_of_period(scenario):
    """Return where an accepted period stands."""
    if scenario.period == 0:
        return 'period 0'
    return 'between rows' if between_rows(scenario.model, scenario.period) else 'tabled'


def kinds_of_place(scenario):
    """Yield what is told apart about an accepted place."""
    yield scenario.model, kind_of_period(scenario)
    absent = [name for name in NO_DISTANCES if getattr(scenario, name) is None]
    yield scenario.model, 'absent', *absent


def kinds_by_place(numbers):
    """Yield the numbers at the first, a middle and the last of some places; and whether all others have another."""
    for name, at in zip(PLACES, (0, len(numbers) // 2, len(numbers) - 1)):
        yield name, numbers[at]
        others = {*numbers[:at], *numbers[at + 1:]}
        if len(others) == 1 and numbers[at] not in others:
            yield name, numbers[at], 'among', *others


def kinds_of_sheet(numbers):
    """Yield what is told apart about the numbers of some places, of which there is one at least."""
    accepted = [number == 0 for number in numbers]
    yield 'all accepted' if all(accepted) else 'some accepted' if any(accepted) else 'all refused'
    if accepted.count(True) > 1 and accepted.count(False) > 1:
        if accepted == sorted(accepted):
            yield 'refused ones, then accepted'
        if accepted == sorted(accepted, reverse=True):
            yield 'accepted ones, then refused'
    if len(numbers) >= len(PLACES):
        yield from kinds_by_place(numbers)


def kinds_of_neighbours(one, other):
    """Yield in which field two neighbours differ, if there is just one."""
    names = [name for name, first, second in zip(Scenario._fields, one, other) if first != second]
    if len(names) == 1:
        yield 'neighbours apart in', *names


def kinds(question):
    """Yield what is told apart about a question."""
    name, count, scenarios = question
    yield name, count
    if name == 'sheet_places':
        what, others = ('past the count', scenarios[count:]) if count <= SHEET else ('with 14', scenarios)
        yield from ((what, number_of(one) == 0) for one in others)
    if name != 'sheet' or not 0 < count <= SHEET:
        return
    numbers = [*map(number_of, scenarios)]
    yield from kinds_of_sheet(numbers)
    for one in dict.fromkeys(scenarios):
        if number_of(one) == 0:
            yield from kinds_of_place(one)
    for one, other in zip(scenarios, scenarios[1:]):
        yield from kinds_of_neighbours(one, other)
    if count > 1 and len({*scenarios}) == 1:
        yield 'all alike', numbers[0]
    if {one.model for one in scenarios} >= {IDRISS, BOORE_ATKINSON}:
        yield 'both models'


def kinds_of_full(asked):
    """Yield what else is there of a sheet of 64: a beginning of it, or the same in another order."""
    sheets = {question.scenarios for question in asked if question.name == 'sheet' and question.count <= SHEET}
    for one in sheets:
        if len(one) == SHEET and one != one[::-1]:
            others = {'a beginning': one[:-1], 'in the reverse order': one[::-1], 'the first last': one[1:] + one[:1]}
            yield from (name for name, other in others.items() if other in sheets)


def wanted_kinds():
    """Return all that has to be met."""
    up_to, numbers = range(SHEET + 1), (0, *REFUSALS)
    wanted = {'all accepted', 'some accepted', 'all refused', 'refused ones, then accepted',
              'accepted ones, then refused', 'both models', 'a beginning', 'in the reverse order',
              'the first last', *product(('past the count', 'with 14'), (True, False)),
              *product(['neighbours apart in'], Scenario._fields)}
    wanted.update(('sheet', count) for count in (*up_to, *LONGER, LONGEST))
    wanted.update(product(('sheet_places', 'sheet_null'), (*up_to, *MORE, *FEW_COUNTS)))
    wanted.update(product(['sheet_unfilled'], FEW))
    wanted.update(product((*PLACES, 'all alike'), numbers))
    wanted.update(product(PLACES, REFUSALS, ['among'], [0]))
    wanted.update(product(PLACES, [0], ['among'], REFUSALS))
    wanted.update(product((IDRISS, BOORE_ATKINSON), ('period 0', 'tabled', 'between rows')))
    for model in (IDRISS, BOORE_ATKINSON):
        wanted.update([(model, 'absent'), (model, 'absent', OTHER_DISTANCE[model])])
    return wanted


def wanted_under_valgrind():
    """Return the hosts, questions and counts that valgrind has to have seen."""
    alone = product(['C'], ('sheet_places', 'sheet_null'), FEW_COUNTS)
    return {*product(WATCHED, ['sheet'], (*FEW, *FEW_MORE)), *alone, *product(['C'], ['sheet_unfilled'], FEW)}


def seen_faults(asked, few):
    """Yield what has not been met, and where the page is typed in wrong."""
    seen = {*chain.from_iterable(map(kinds, asked)), *kinds_of_full(asked)}
    watched = {(host, question.name, question.count) for host in few for question in few[host]}
    missing = sorted(map(str, (wanted_kinds() - seen) | (wanted_under_valgrind() - watched)))
    if missing:
        yield f'missing among the questions: {", ".join(missing[:FAULTS_SHOWN])}'
    for scenario, line in zip(EARTHQUAKES, PAGE.split('\n')[PAGE_FRONT:]):
        number = number_of(scenario)
        if not line.endswith(f' | {refusal_words(number) if number else "{}"}'):
            yield f'the page is not typed in as it should be: {line}'


# ---------------------------------------------------------------------------
# The hosts' answers
# ---------------------------------------------------------------------------

def check_asks(asks, asked, alone):
    """Ask all hosts; return the lines of the scenarios alone, by host, and the faults."""
    single, faults, same = {}, [], set()
    scenarios = [*dict.fromkeys(chain.from_iterable(question.scenarios for question in asked + alone['C']))]
    front = [text('answer', *scenario) for scenario in scenarios]
    for host, path in asks.items():
        own = asked + alone[host]
        lines, failures = ask([path], front + [question.line() for question in own])
        single[host] = dict(zip(scenarios, lines))
        faults += [f'{host}: {failure}' for failure in failures]
        faults += sheet_faults(host, own, single[host], lines[len(front):])
        same.add(tuple(lines[:len(front) + len(asked)]))
    if len(same) != 1:
        faults.append('the three hosts do not print the same lines')
    return single, faults


def check_memory(single, asks, few):
    """Return what valgrind finds."""
    faults = []
    for host in WATCHED:
        lines, failures = ask([*VALGRIND, asks[host]], [question.line() for question in few[host]])
        faults += [f'{host} under valgrind: {failure}' for failure in failures]
        faults += sheet_faults(f'{host} under valgrind', few[host], single[host], lines)
    return faults


# ---------------------------------------------------------------------------
# The page
# ---------------------------------------------------------------------------

def columns(line):
    """Return four ends as the page has them, by the line of a scenario alone."""
    return ' '.join(f'{end:>{width}}' for end, width in zip(line.split(' ')[1:], (12, 12, 10, 10)))


def page_faults(printed, single):
    """Yield what is wrong with a page."""
    wanted = PAGE.format(*(columns(single.get(one, '')) for one in EARTHQUAKES if number_of(one) == 0))
    lines, due = printed.split('\n'), wanted.split('\n')
    if any(line != line.rstrip() for line in lines):
        yield 'blanks at the end of a line'
    if printed != wanted:
        at = first_difference(lines, due)
        yield f'line {at + 1}: {lines[at:at + 1]}, {due[at:at + 1]} is due'


def check_pages(single, pages):
    """Return the faults of the pages, and where they differ."""
    faults, texts = [], set()
    for host, path in pages.items():
        printed, failures = run([path])
        faults += [f"{host}'s page: {fault}" for fault in [*failures, *page_faults(printed, single[host])]]
        texts.add(printed)
    if len(texts) != 1:
        faults.append('the three pages are not the same')
    return faults


# ---------------------------------------------------------------------------
# What only Python lets through
# ---------------------------------------------------------------------------

# Flags of a distance that stands, and numbers beside the flag 0; one of each at every place, in turn.
FLAGS, BESIDE = (1, 2, 255, 128, 1), (0, 65535, 1000)
# Ways to hand over some items; an iterator or a generator can be gone through once.
WAYS = {'list': list, 'tuple': tuple, 'iterator': iter, 'generator': lambda items: (item for item in items)}


def as_words(fusnoch, result):
    """Return what a call gives, a refusal with its kind, number and words, so that two can be compared."""
    if isinstance(result, fusnoch.Refused):
        return type(result).__name__, result.number, result.words, str(result)
    if isinstance(result, list):
        return [as_words(fusnoch, one) for one in result]
    return type(result).__name__, result


def called(fusnoch, items):
    """Return what a sheet of some items gives, or the name of what it raises, or the refusal that it raises."""
    try:
        return as_words(fusnoch, fusnoch.answer_sheet(items))
    except fusnoch.Refused as refused:
        return 'raised', as_words(fusnoch, refused)
    except Exception as error:  # whatever it is, it is compared with what is due
        return type(error).__name__


def in_words(number):
    """Return what as_words is due to give for a refusal."""
    return 'Refused', number, WORDS[number - 1], refusal_words(number)


def place_due(fusnoch, scenario):
    """Return what as_words is due to give for a place."""
    number = number_of(scenario)
    return in_words(number) if number else ('Enclosure', fusnoch.answer(in_python(fusnoch, scenario)))


def returned_faults(fusnoch, scenarios):
    """Yield what is wrong with what a sheet gives back, in whatever way the scenarios are handed over."""
    made = [in_python(fusnoch, scenario) for scenario in scenarios]
    wanted = [place_due(fusnoch, scenario) for scenario in scenarios]
    for name, way in WAYS.items():
        got = called(fusnoch, way(made))
        if got != wanted:
            yield f'a sheet of {len(made)}, by {name}: {str(got)[:300]}, {str(wanted)[:300]} is due'


def lists_faults(fusnoch, scenarios):
    """Yield what is wrong with the lists: the caller's own, which is left alone, and the one that is given back."""
    given = [in_python(fusnoch, scenario) for scenario in scenarios]
    kept = [*given]
    first, second = fusnoch.answer_sheet(given), fusnoch.answer_sheet(given)
    if len(given) != len(kept) or any(one is not other for one, other in zip(given, kept)):
        yield "the caller's list is changed"
    if type(first) is not list or first is second or first is given:
        yield f'a list of its own is due, not {type(first).__name__}'
    ends = [*chain.from_iterable(place for place in first if isinstance(place, fusnoch.Enclosure))]
    if len(ends) != 4 * [*map(number_of, scenarios)].count(0) or {*map(type, ends)} - {int}:
        yield f'four whole numbers are due at each accepted place: {str(first)[:300]}'


def unfit_items(fusnoch):
    """Return what is no scenario, though it may look like one."""
    whole = WHOLE[IDRISS]
    return [tuple(whole), whole, None, 1, 'scenario', fusnoch.c_scenario(in_python(fusnoch, whole)), [],
            [in_python(fusnoch, whole)], fusnoch.Scenario, fusnoch.Refused(1)]


def unfit_faults(fusnoch):
    """Yield where no TypeError is raised: what is no scenario at some place, and what is no iterable."""
    accepted, refused = (in_python(fusnoch, WHOLE[IDRISS]._replace(model=model)) for model in (IDRISS, 0))
    for wrong, one, count in product(unfit_items(fusnoch), (accepted, refused), (1, 2, 3, SHEET)):
        for at in {0, count // 2, count - 1}:
            given = [one] * count
            given[at] = wrong
            for name, way in WAYS.items():
                if called(fusnoch, way(given)) != 'TypeError':
                    yield f'{wrong!r} at place {at + 1} of {count}, by {name}: no TypeError'
    for wrong in (None, 5, 5.0, accepted, refused, WHOLE[IDRISS][0], fusnoch.Scenario, object()):
        if called(fusnoch, wrong) != 'TypeError':
            yield f'answer_sheet({wrong!r}): no TypeError'
    for given in ((), ([accepted], [accepted]), (accepted, accepted), (1, [accepted])):
        if raised(fusnoch.answer_sheet, *given) != 'TypeError':
            yield f'answer_sheet{given}: no TypeError'


def too_many_faults(fusnoch):
    """Yield where more than 64 items, whatever they are, do not raise 14."""
    one = in_python(fusnoch, WHOLE[IDRISS])
    for item, count in product((one, *unfit_items(fusnoch)), (*LONGER, 2 ** 16, LONGEST)):
        for name, way in WAYS.items():
            # The item is at all places, or at the last, after scenarios.
            for items in ([item] * count, [one] * (count - 1) + [item]):
                got = called(fusnoch, way(items))
                if got != ('raised', in_words(TOO_MANY)):
                    yield f'{count} items, the last {item!r}, by {name}: {str(got)[:300]}, {TOO_MANY} is due'


def plain(fusnoch, scenario, turn):
    """Return a scenario as fusnoch.h has it; in turn with another flag where a distance stands, or number where not."""
    made = fusnoch.c_scenario(in_python(fusnoch, scenario))
    for name in NO_DISTANCES:
        if getattr(scenario, name) is None:
            setattr(made, name, BESIDE[turn % len(BESIDE)])
        else:
            setattr(made, name.replace('distance', 'present'), FLAGS[turn % len(FLAGS)])
    return made


def struct_due(fusnoch, count, scenarios):
    """Return all numbers that the struct of a sheet is due to hold: number, count, four times 64 ends, 64 numbers."""
    if count > SHEET:
        return [TOO_MANY] + [0] * (1 + 5 * SHEET)
    places = []
    for scenario in scenarios[:count]:
        number = number_of(scenario)
        ends = [0] * 4 if number else fusnoch.answer(in_python(fusnoch, scenario))
        places.append([*ends, number])
    places += [[0] * 5] * (SHEET - count)
    return [0, count, *chain.from_iterable(zip(*places))]


def struct_faults(fusnoch, asked):
    """Yield what is wrong with the struct that the library's own function hands back, by the types of the wrapper."""
    function = fusnoch.LIBRARY.fusnoch_answer_sheet
    for _, count, scenarios in asked:
        data = b''.join(bytes(plain(fusnoch, scenario, turn)) for turn, scenario in enumerate(scenarios))
        kind = function.argtypes[1]
        if ctypes.sizeof(kind) != len(data):
            yield f'{ctypes.sizeof(kind)} bytes are taken, {len(data)} are due'
            return
        got = [*numbers_in(function(count, kind.from_buffer_copy(data)))]
        wanted = struct_due(fusnoch, count, scenarios)
        if got != wanted:
            at = first_difference(got, wanted)
            yield f'fusnoch_answer_sheet: count {count}: number {at}: {got[at:at + 1]}, {wanted[at:at + 1]} is due'


def places_alone(rng, asked):
    """Return some questions about the struct."""
    return rng.sample([question for question in asked if question.name == 'sheet_places'], TRIED)


def python_faults(asked, in_structs, fusnoch):
    """Yield the faults of Python's wrapper where no types see to the caller's mistakes, and of the struct."""
    if (type(fusnoch.SHEET_MOST), fusnoch.SHEET_MOST) != (int, SHEET):
        yield f'SHEET_MOST is {fusnoch.SHEET_MOST!r}'
    for question in asked:
        if question.count <= SHEET:
            yield from returned_faults(fusnoch, question.scenarios)
            yield from lists_faults(fusnoch, question.scenarios)
    yield from unfit_faults(fusnoch)
    yield from too_many_faults(fusnoch)
    yield from struct_faults(fusnoch, in_structs)


# ---------------------------------------------------------------------------
# The run
# ---------------------------------------------------------------------------

def main(words):
    """Read the command line, run the checks and print the first faults and a summary."""
    asks, pages, count, seed = command_line(words, __doc__, COUNT, SEED)
    rng, tally = random.Random(seed), Tally()
    asked, alone, few = all_questions(rng, count)
    single, faults = check_asks(asks, asked, alone)
    faults += single_faults(tally, single['C'])
    faults += check_memory(single, asks, few)
    faults += check_pages(single, pages)
    faults += seen_faults(asked + alone['C'] + alone['Rust'], few)
    # A wrapper with a wrong struct could end this program, and nothing would be printed.
    if not faults:
        tried, in_structs = few['Rust'] + rng.sample(asked, TRIED), places_alone(rng, alone['C'])
        faults += check_python(asks['Python'], partial(python_faults, tried, in_structs))
    for fault in faults[:FAULTS_SHOWN]:
        print(f'FAILED {fault}')
    print(f'sheets: seed {seed}, {len(asked)} sheets of {sum(question.count for question in asked)} scenarios to each '
          f'of {", ".join(HOSTS)}, {len(alone["C"])} to C alone, {len(single["C"])} scenarios alone, '
          f'{len(few["C"])} sheets under valgrind, {len(faults)} faults, greatest widths: {tally.greatest_widths()}')
    return 1 if faults else 0


if __name__ == '__main__':
    sys.exit(main(sys.argv))
