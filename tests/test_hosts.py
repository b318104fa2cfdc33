"""Check the hosts in C, Rust and Python, each through its safe wrapper, against documents 01 and 02 and the papers.

Run as: python3 tests/test_hosts.py C_ASK RUST_ASK PYTHON_ASK C_SPECTRUM RUST_SPECTRUM PYTHON_SPECTRUM [COUNT] [SEED]

An ASK answers the questions of test_records.py (other than place), of test_answers.py and of test_millionths.py, a line
each, and

    words NUMBER            -> what the number of a refusal stands for
    rows_words MODEL PERIOD -> the period, and the row or the two rows that an answer there rests on; or the refusal
    null                    -> the numbers of reading, answering from a record in both ways, and writing, with no bytes;
                               then once more with no bytes of another kind

C_ASK answers three questions more, about the numbers that its interface has for a distance that may be absent.  FIELDS
are MODEL MAGNITUDE RUPTURE_FLAG RUPTURE VELOCITY MECHANISM PERIOD PROJECTION_FLAG PROJECTION.  A flag of 0 says that
the distance is absent, and the number beside it is not looked at; with any other flag, 1 to 255, the distance stands.
Reading gives flags of 0 and 1, and 0 beside an absent distance; with a refusal it gives zeros.

    refusal_flags FIELDS    -> K
    answer_flags FIELDS     -> E and four ends, or R K
    read_flags BYTES        -> K FIELDS LENGTH

A SPECTRUM prints the table of one earthquake by both models, each at its own of the two distances, with the median in g
between two whole numbers of millionths, and what the answers between the rows rest on.  The three of a kind have to
print the same.  PYTHON_ASK stands beside the wrapper fusnoch.py.  COUNT is how many byte strings are answered from,
10,000 unless given.
"""

import importlib
import os
import random
import re
import sys
from ctypes import Array, Structure
from decimal import Decimal
from functools import partial
from itertools import chain, product
from typing import NamedTuple, Union

import streams
import test_answers
import test_millionths
import test_records
from ask import ask, run
from records import (BOORE_ATKINSON, IDRISS, NO_DISTANCES, OWN_DISTANCE, PERIODS, Scenario, read, record, refusal, rows,
                     without_other_distance)
from streams import WHOLE, Stream
from test_enclosures import Tally, check_seen, line_fault

COUNT = 10000
SEED = 19890118
# How many questions of the other tests are drawn, and how many scenarios and byte strings for C alone.
DRAWN = 3000
FLAGGED = 500
# Rows are asked for at every period up to the first number, and beyond it at the multiples of the second, up to 65535.
NEAR, FAR = 10010, 257
# One of so many questions of these kinds is asked.
THINNED, SOME = ('map bytes', 'order of the refusals', 'order in reading', 'defaults written out', 'periods'), 4
FAULTS_SHOWN = 20
HOSTS = ('C', 'Rust', 'Python')
# Python's own memory is not what is looked at.
WATCHED = ('C', 'Rust')
VALGRIND = ('valgrind', '--error-exitcode=99', '--leak-check=full', '-q')
# A number of bytes that does not fit 16 bits; its low 16 bits are 3, too few for a record.
MANY = 65536 + 3

# 'What is turned away', the word and the condition; as W-201, W-202 and W-204 leave them.
WORDS = (
    'model: neither 1 nor 2',
    "magnitude: beyond the model's limits",
    "distance: that which the model reads is beyond its limits",
    "velocity: beyond the model's limits",
    'mechanism: not a code of the model',
    'period: neither 0 nor from 10 to 10000',
    'cut short: no map byte, or fewer bytes than the map calls for',
    'spare bit: bit 7 stands',
    'wanting: bit 0 or 1 is clear, or the distance that the model reads is absent',
    'blank: no bit stands',
    'plain default: a field written with its absent number',
    'page full: lent bytes shorter than the record',
    'distances: the projection distance exceeds the rupture distance',
    'sheet: more than 64 scenarios',
)

# What the rows of some periods are called, typed in by hand.
ROWS_WORDS = (
    (1, 70, '0.070 s: between 0.050 and 0.075'),
    (2, 70, '0.070 s: between 0.050 and 0.075'),
    (1, 75, '0.075 s: the row 0.075'),
    (2, 75, '0.075 s: the row 0.075'),
    (1, 40, '0.040 s: the row 0.040'),
    (2, 40, '0.040 s: between 0.030 and 0.050'),
    (1, 0, 'PGA: the row 0.010'),
    (2, 0, 'PGA: the row PGA'),
    (1, 10, '0.010 s: the row 0.010'),
    (2, 11, '0.011 s: between 0.010 and 0.020'),
    (1, 999, '0.999 s: between 0.750 and 1.000'),
    (2, 1001, '1.001 s: between 1.000 and 1.500'),
    (1, 9999, '9.999 s: between 7.500 and 10.000'),
    (2, 10000, '10.000 s: the row 10.000'),
    (1, 9, 'refusal 6, period: neither 0 nor from 10 to 10000'),
    (2, 10001, 'refusal 6, period: neither 0 nor from 10 to 10000'),
    (2, 65535, 'refusal 6, period: neither 0 nor from 10 to 10000'),
    (0, 75, 'refusal 1, model: neither 1 nor 2'),
    (3, 9, 'refusal 1, model: neither 1 nor 2'),
    (255, 0, 'refusal 1, model: neither 1 nor 2'),
)

# The earthquake of the table: M 7.00, strike-slip, 760 m/s, both distances; only the model differs.
SPECTRUM = {model: Scenario(model, 700, 1044, 7600, 0, 0, 1000) for model in (IDRISS, BOORE_ATKINSON)}
# Its periods: 0, those that Idriss has a row for, and 0.07 s, for which no model has one.
SPECTRUM_PERIODS = sorted((0, *PERIODS[IDRISS], 70))
COLUMNS = '  median low  median high     g low    g high  sigma low sigma high'
HEADING = f"""\
Spectrum, 5 percent damped: M 7.00, strike-slip, V_S30 760.0 m/s
Idriss 2014 at 10.44 km from the rupture, Boore and Atkinson 2008 at 10.00 km from its surface projection
median, sigma: ends in units of 10^-9; they enclose the natural logarithm of the median in g, and sigma
g low, g high: the median in g lies between them; whole millionths of g, and a low of 0 sets no bound

         | Idriss 2014                                                         | Boore and Atkinson 2008
period s | {COLUMNS} | {COLUMNS}
"""
# What is printed after the table, typed in by hand: one line for each answer between the rows.
BETWEEN = """
Between rows: answered from the two rows named, by the logarithm of the period
Boore and Atkinson 2008, 0.040 s: between 0.030 and 0.050
Idriss 2014, 0.070 s: between 0.050 and 0.075
Boore and Atkinson 2008, 0.070 s: between 0.050 and 0.075
"""


class InMillionths(NamedTuple):
    """A scenario whose median in millionths of g is due."""

    scenario: Scenario


class Question(NamedTuple):
    """A line for a host, and what is due: a line, the ends of a scenario, or its median in millionths of g."""

    line: str
    due: Union[str, Scenario, InMillionths]


# ---------------------------------------------------------------------------
# Questions
# ---------------------------------------------------------------------------

def line_or_scenario(due):
    """Return what is due for an answer: the line of a refusal, or the scenario to be answered."""
    letter, value = due
    return f'R {value}' if letter == 'R' else value


def about_scenarios(scenarios):
    """Yield the questions for an answer to each scenario."""
    for scenario in scenarios:
        due = line_or_scenario(test_answers.due_for_scenario(scenario))
        for name in ('answer', 'doubles'):
            yield Question(test_records.text(name, *scenario), due)
        yield Question(test_records.text('millionths', *scenario), due if isinstance(due, str) else InMillionths(due))


def about_bytes(name, strings):
    """Yield a question about each byte string."""
    for data in strings:
        yield Question(f'{name} {data.hex() or "-"}', line_or_scenario(test_answers.due_for_bytes(data)))


def about_records(lines):
    """Yield questions of reading, writing and refusing."""
    for line in lines:
        yield Question(line, test_records.answer(line))


def refusal_words(number):
    """Return the words of a refusal with its number."""
    return f'refusal {number}, {WORDS[number - 1]}'


def seconds(period):
    """Return a period in seconds as the hosts print it."""
    return f'{period // 1000}.{period % 1000:03}' if period else 'PGA'


def rows_words(model, period):
    """Return what the hosts print for the rows of a period."""
    letter, *numbers = rows(model, period)
    if letter == 'R':
        return refusal_words(*numbers)
    name = f'{seconds(period)} s' if period else seconds(period)
    lower, upper = map(seconds, numbers)
    return f'{name}: the row {lower}' if lower == upper else f'{name}: between {lower} and {upper}'


def is_for_hosts(number, question):
    """Say whether a question of test_records.py is for all hosts: no place, and not all of those that are very many."""
    name, *words = question.line.split(' ')
    if name == 'rows':
        return int(words[1]) <= NEAR or int(words[1]) % FAR == 0
    return name != 'place' and (question.kind not in THINNED or number % SOME == 0)


def about_rows_words():
    """Yield questions for the words of the rows: those typed in, all periods of both models, and some of others."""
    for model, period, words in ROWS_WORDS:
        yield Question(f'rows_words {model} {period}', words)
    some = [(model, period) for model in range(256) for period in (0, 9, 10, 70)]
    for model, period in some + [(model, period) for model in SPECTRUM for period in range(NEAR + 1)]:
        yield Question(f'rows_words {model} {period}', rows_words(model, period))


def shortest():
    """Return no bytes, and each byte alone."""
    return [b'', *(bytes([byte]) for byte in range(256))]


def longest():
    """Return records with very many bytes after them."""
    return [front + bytes(MANY - len(front)) for front in map(record, WHOLE.values())]


def byte_strings(rng, count):
    """Return so many byte strings, or the fixed ones if these are more."""
    fixed = [*shortest(), *longest(), *(data for _, data in streams.REFUSED.values()), *streams.orders(),
             *streams.defaults(), *streams.map_bytes(), *(stream.data for stream in streams.cuts()),
             *map(record, streams.of_two_distances())]
    return fixed + [test_answers.draw_bytes(rng) for _ in range(count - len(fixed))]


def small_questions():
    """Return questions with few bytes, or none, that are asked under valgrind, too."""
    cut = [test_records.taken(question.line.split(' ')[1]) for question in test_records.prefixes()]
    asked = [*about_records(question.line for question in test_records.prefixes()),
             # One of the two patterns of lent bytes.
             *about_records(question.line for question in [*test_records.writing()][::2])]
    for name in ('answer_record', 'doubles_record'):
        asked += about_bytes(name, cut)
    asked += about_scenarios([*SPECTRUM.values(), *(SPECTRUM[model]._replace(period=70) for model in SPECTRUM),
                              *(WHOLE[model]._replace(**wrong) for model, wrong in streams.WRONG.items()),
                              *map(streams.crossing, WHOLE.values()), *map(without_other_distance, WHOLE.values()),
                              *(WHOLE[model]._replace(**{name: None}) for model, name in OWN_DISTANCE.items()),
                              *(whole._replace(**NO_DISTANCES) for whole in WHOLE.values())])
    for model, period, words in ROWS_WORDS:
        asked += [Question(f'rows_words {model} {period}', words), *about_records([f'rows {model} {period}'])]
    asked += [Question(f'words {number}', words) for number, words in enumerate(WORDS, 1)]
    asked += [Question(f'words {number}', 'not a refusal') for number in (0, 15, 255)]
    return asked + [Question('null', '7 7 7 12 7 7 7 12')]


def all_questions(rng, count):
    """Return all questions."""
    asked = small_questions()
    asked += about_bytes('answer_record', byte_strings(rng, count))
    asked += about_bytes('doubles_record', shortest() + longest())
    asked += about_scenarios(streams.at_limits(rng))
    asked += about_scenarios(streams.of_two_distances())
    for whole, doubles, _, due in test_answers.questions(rng, DRAWN):
        asked += [Question(line, line_or_scenario(due)) for line in (whole, doubles)]
    of_records = enumerate(test_records.questions(DRAWN, rng.randrange(2 ** 32)))
    asked += about_records(question.line for number, question in of_records if is_for_hosts(number, question))
    asked += about_rows_words()
    asked += about_records(f'read {data.hex() or "-"}' for data in shortest() + longest())
    asked += about_records(test_records.text('write', *scenario, bytes(MANY).hex()) for scenario in WHOLE.values())
    return asked


# ---------------------------------------------------------------------------
# Questions for C alone
# ---------------------------------------------------------------------------

def with_flags(scenario, flag, beside):
    """Return the nine numbers of a scenario: a flag for each distance that stands, a number beside each absent one."""
    numbers = []
    for name, number in scenario._asdict().items():
        if name not in NO_DISTANCES:
            numbers.append(number)
        else:
            numbers += [0, beside] if number is None else [flag, number]
    return numbers


def due_for_flags(data):
    """Return the line that is due for bytes that are read with flags."""
    letter, value, *others = read(data)
    if letter == 'R':
        return test_records.text(value, *[0] * 10)
    return test_records.text(0, *with_flags(value, 1, 0), others[0])


def flagged(scenarios, flags):
    """Yield the questions with flags about each scenario: whatever flag stands, and whatever number beside none."""
    for scenario in scenarios:
        for flag, beside in flags:
            words = test_records.text(*with_flags(scenario, flag, beside))
            yield Question(f'refusal_flags {words}', str(refusal(scenario)))
            yield Question(f'answer_flags {words}', line_or_scenario(test_answers.due_for_scenario(scenario)))


# Typed in by hand: a number beside a flag of 0 that would be turned away, or would do, were it looked at.
TYPED_FLAGS = (
    ('refusal_flags 1 700 1 1000 7600 2 75 0 0', '0'),
    ('refusal_flags 1 700 1 1000 7600 2 75 0 65535', '0'),
    ('refusal_flags 1 700 1 1000 7600 2 75 1 1001', '13'),
    ('refusal_flags 1 700 255 1000 7600 2 75 255 1001', '13'),
    ('refusal_flags 1 700 128 1000 7600 2 75 2 1000', '0'),
    ('refusal_flags 1 700 0 1000 7600 2 75 0 0', '9'),
    ('refusal_flags 1 700 0 1000 7600 2 75 1 1000', '9'),
    ('refusal_flags 1 700 2 17501 7600 2 75 0 0', '3'),
    ('refusal_flags 2 700 0 0 7600 2 75 1 1000', '0'),
    ('refusal_flags 2 700 0 999 7600 2 75 2 1000', '0'),
    ('refusal_flags 2 700 2 999 7600 2 75 2 1000', '13'),
    ('refusal_flags 2 700 1 1000 7600 2 75 0 1000', '9'),
    ('refusal_flags 2 700 0 0 7600 2 75 64 20000', '3'),
    ('refusal_flags 3 700 0 0 7600 2 75 0 1', '1'),
    ('refusal_flags 3 700 1 0 7600 2 75 1 1', '13'),
    ('answer_flags 1 700 0 1000 7600 2 75 0 0', 'R 9'),
    ('answer_flags 2 700 16 999 7600 2 75 16 1000', 'R 13'),
    ('answer_flags 3 700 0 0 7600 2 75 0 1', 'R 1'),
    ('read_flags 3701bc02e803024b00', '0 1 700 1 1000 7600 2 75 0 0 9'),
    ('read_flags 7701bc02e803024b00e703', '0 1 700 1 1000 7600 2 75 1 999 11'),
    ('read_flags 4302bc020000', '0 2 700 0 0 7600 9 0 1 0 6'),
    ('read_flags 4702bc0200000000ff', '0 2 700 1 0 7600 9 0 1 0 8'),
    ('read_flags 3702bc02e803024b00', '9 0 0 0 0 0 0 0 0 0 0'),
    ('read_flags 7701bc02e803024b00e903', '13 0 0 0 0 0 0 0 0 0 0'),
    ('read_flags -', '7 0 0 0 0 0 0 0 0 0 0'),
)


def flag_questions(rng, count):
    """Return the questions for C alone; every flag from 1 to 255 stands at some scenario."""
    asked = [Question(line, due) for line, due in TYPED_FLAGS]
    few = [whole._replace(**absent) for whole in WHOLE.values() for absent in (
        {}, {'rupture_distance': None}, {'projection_distance': None}, NO_DISTANCES)]
    few += [*map(streams.crossing, WHOLE.values()), WHOLE[IDRISS]._replace(model=3, **NO_DISTANCES)]
    asked += flagged(few, product((1, 2, 128, 255), (0, 1, 258, 1000, 65535)))
    asked += flagged(few[:2], [(flag, 0) for flag in range(1, 256)])
    asked += flagged(streams.of_two_distances(), [(1, 0), (255, 65535)])
    for _ in range(count):
        scenario = test_answers.draw_scenario(rng)
        asked += flagged([scenario], [(rng.randint(1, 255), rng.randint(0, 65535))])
    strings = [*shortest(), *(data for _, data in streams.REFUSED.values()), *map(record, streams.of_two_distances()),
               *(test_answers.draw_bytes(rng) for _ in range(count))]
    return asked + [Question(f'read_flags {test_records.show(data)}', due_for_flags(data)) for data in strings]


# ---------------------------------------------------------------------------
# The hosts' answers
# ---------------------------------------------------------------------------

class Answers:
    """The ends of each scenario, which are checked once and have to be the same ever after.

    The distance that the model does not read is no part of what they rest on.
    """

    def __init__(self):
        self.tally = Tally()
        self.known = {}
        self.in_millionths = {}

    def fault(self, due, line):
        """Return what is wrong with a line, or None."""
        if isinstance(due, str):
            return None if line == due else f'{due} is due'
        scenario, known = (due.scenario, self.in_millionths) if isinstance(due, InMillionths) else (due, self.known)
        alone = without_other_distance(scenario)
        if alone in known:
            return None if line == known[alone] else f'{known[alone]} was the answer before'
        known[alone] = line
        if known is self.in_millionths:
            ends = test_millionths.read_ends(line)
            return test_millionths.ends_fault(alone, ends) if ends else 'E and two numbers are due'
        return line_fault(self.tally, Stream('hosts', record(due)), 1, ('E', due), f'1 {line}'.encode('ascii'))

    def faults(self, host, asked, lines):
        """Yield what is wrong with the lines of a host."""
        for (question, due), line in zip(asked, lines):
            wrong = self.fault(due, line)
            if wrong:
                yield f'{host}: {question[:100]}: {line[:100]}: {wrong}'


def check_asks(answers, asks, asked):
    """Return the faults of all hosts, and where they differ."""
    faults, heard = [], {}
    for host, path in asks.items():
        lines, failures = ask([path], [question.line for question in asked])
        faults += [f'{host}: {failure}' for failure in failures]
        faults += answers.faults(host, asked, lines)
        heard[host] = lines
    if not heard['C'] == heard['Rust'] == heard['Python']:
        faults.append('the three hosts do not print the same lines')
    for question in asked:
        if question.line.startswith('answer_record '):
            answers.tally.outcomes[('R', int(question.due[2:])) if isinstance(question.due, str) else 'E'] += 1
    check_seen(answers.tally)
    return faults


def check_flags(answers, path, asked):
    """Return the faults of the host in C at the questions for it alone."""
    lines, faults = ask([path], [question.line for question in asked])
    return [f'C: {fault}' for fault in faults] + [*answers.faults('C', asked, lines)]


def check_memory(answers, asks, asked):
    """Return what valgrind finds."""
    faults = []
    for host in WATCHED:
        typed = [Question(line, due) for line, due in TYPED_FLAGS] if host == 'C' else []
        lines, failures = ask([*VALGRIND, asks[host]], [question.line for question in asked + typed])
        faults += [f'{host} under valgrind: {failure}' for failure in failures]
        faults += answers.faults(f'{host} under valgrind', asked + typed, lines)
    return faults


# ---------------------------------------------------------------------------
# The spectra
# ---------------------------------------------------------------------------

def millionths_in(text):
    """Return the millionths of an acceleration in g that is printed with six decimals; -1 if it is not printed so."""
    number = int(text.replace('.', ''))
    return number if text == f'{number // 10 ** 6}.{number % 10 ** 6:06}' else -1


def cell_fault(answers, scenario, cell):
    """Return what is wrong with the part of a model in a line, or None."""
    found = re.fullmatch(r' *(-?[0-9]+) +(-?[0-9]+) +([0-9.]+) +([0-9.]+) +([0-9]+) +([0-9]+)', cell)
    if not found:
        return 'four ends and two accelerations are due'
    low, high, least, most, *sigma = found.groups()
    if cell != f'{low:>12} {high:>12} {least:>9} {most:>9} {sigma[0]:>10} {sigma[1]:>10}':
        return 'the columns are not in their places'
    in_g = f'E {millionths_in(least)} {millionths_in(most)}'
    return (answers.fault(scenario, ' '.join(['E', low, high, *sigma]))
            or answers.fault(InMillionths(scenario), in_g))


def spectrum_faults(answers, text):
    """Yield what is wrong with a table."""
    if not text.startswith(HEADING):
        yield f'the heading is not the one due: {text[:len(HEADING)]!r}'
        return
    if not text.endswith(BETWEEN):
        yield f'the lines about what is between the rows are not those due: {text[-len(BETWEEN):]!r}'
        return
    *lines, after = text[len(HEADING):-len(BETWEEN)].split('\n')
    if len(lines) != len(SPECTRUM_PERIODS) or after:
        yield f'{len(SPECTRUM_PERIODS)} lines are due, not {len(lines)}, and {after!r} after them'
    for period, line in zip(SPECTRUM_PERIODS, lines):
        name = seconds(period)
        # 8 columns for the period and 67 for the first model.
        cells = {IDRISS: line[11:78], BOORE_ATKINSON: line[81:]}
        if line != f'{name:>8} | {cells[IDRISS]} | {cells[BOORE_ATKINSON]}':
            yield f'the line of {name} is due: {line}'
        for model, cell in cells.items():
            wrong = cell_fault(answers, SPECTRUM[model]._replace(period=period), cell)
            if wrong:
                yield f'{line}: {wrong}'


def check_spectra(answers, spectra):
    """Return the faults of the tables, and where they differ."""
    faults, texts = [], set()
    for host, path in spectra.items():
        text, failures = run([path])
        faults += [f"{host}'s spectrum: {fault}" for fault in [*failures, *spectrum_faults(answers, text)]]
        texts.add(text)
    if len(texts) != 1:
        faults.append('the three spectra are not the same')
    return faults


# ---------------------------------------------------------------------------
# What only Python lets through
# ---------------------------------------------------------------------------

def raised(function, *given):
    """Return the name of what a call raises, or what it returns."""
    try:
        return function(*given)
    except Exception as error:  # whatever it is, it is compared with what is due
        return type(error).__name__


def in_python(fusnoch, scenario):
    """Return a scenario as Python's wrapper has it: the two distances are given by name, the other fields by place."""
    fields = scenario._asdict()
    named = {name: fields.pop(name) for name in NO_DISTANCES}
    return fusnoch.Scenario(*fields.values(), **named)


def unfit_fields(fusnoch):
    """Yield calls with numbers that do not fit a field, or are none; ctypes would cut them to an accepted scenario."""
    for scenario in WHOLE.values():
        for (name, size), number in zip(streams.FIELDS, scenario):
            for wrong in (number + 256 ** size, number - 256 ** size, number + 2 ** 64, -1, 256 ** size):
                yield 'ValueError', in_python, fusnoch, scenario._replace(**{name: wrong})
            # A distance may be None, and is absent then.
            kinds = (float(number), Decimal(number), str(number), bytes([number % 256]), True, False)
            for wrong in kinds if name in NO_DISTANCES else (*kinds, None):
                yield 'TypeError', in_python, fusnoch, scenario._replace(**{name: wrong})


def unfit_calls(fusnoch):
    """Yield calls for a scenario with a distance that is given by place or by another name, or without a field."""
    made, five = fusnoch.Scenario, (1, 700, 7600, 2, 75)
    # The second is the order of a record without the projection distance, and of a scenario before W-202.
    for given in ((*five, 1000), (1, 700, 1000, 7600, 2, 75), (*five, 1000, 999), (*five, None), (*five, None, None),
                  five[:4], ()):
        yield 'TypeError', made, *given
        yield 'TypeError', partial(made, rupture_distance=1000), *given
    for name in ('distance', 'rupture', 'projection', 'rupture_distances', 'projection_Distance', 'r_rup', 'rjb'):
        yield 'TypeError', partial(made, **{name: 1000}), *five
        yield 'TypeError', partial(made, **{name: 1000, 'rupture_distance': 1000}), *five
    for name in NO_DISTANCES:
        # Four fields and a distance are no scenario; and a distance cannot be given in a tuple of its own.
        yield 'TypeError', partial(made, **{name: 1000}), *five[:4]
        for wrong in ((1000,), [1000], {}, b'', '', '-', 0.0, False, Decimal(0), 1000.0, 'None'):
            yield 'TypeError', partial(made, **{name: wrong}), *five


def distances_faults(fusnoch):
    """Yield what is wrong with the distances of Python's wrapper: each a whole number, or None where it is absent."""
    if fusnoch.LONGEST_RECORD != streams.LONGEST:
        yield f'LONGEST_RECORD is {fusnoch.LONGEST_RECORD}, {streams.LONGEST} is due'
    for model, rupture, projection in product((IDRISS, BOORE_ATKINSON, 3), streams.DISTANCES, streams.DISTANCES):
        scenario = Scenario(model, 700, rupture, 7600, 2, 75, projection)
        made = in_python(fusnoch, scenario)
        given = {name: number for name, number in (('rupture_distance', rupture), ('projection_distance', projection))
                 if number is not None}
        # A distance that is not given is absent, as one that is None; it is not 0.
        if fusnoch.Scenario(model, 700, 7600, 2, 75, **given) != made:
            yield f'{scenario}: not the same where an absent distance is not given'
        for name in NO_DISTANCES:
            zero = in_python(fusnoch, scenario._replace(**{name: 0}))
            if (zero == made) != (getattr(scenario, name) == 0):
                yield f'{scenario}: {name} absent and 0 are not told apart'
        number = refusal(scenario)
        if number:
            yield from refused_faults(fusnoch, made, number)
            continue
        back, rest = fusnoch.read(record(scenario) + b'rest')
        if (back, bytes(rest)) != (made, b'rest'):
            yield f'{scenario}: read back as {back}, {rest}'
        for one in (made, back):
            distances = one.rupture_distance, one.projection_distance
            if distances != (rupture, projection) or not {type(number) for number in distances} <= {int, type(None)}:
                yield f'{scenario}: the distances are {distances}'


def refused_faults(fusnoch, scenario, number):
    """Yield what is wrong with the refusals of a scenario of Python's wrapper in writing, with its words."""
    lent = bytearray(b'lent to the wrapper')
    for function, *given in ((fusnoch.record, scenario), (fusnoch.write, scenario, lent)):
        try:
            got = function(*given)
        except fusnoch.Refused as refused:
            got = refused.number, refused.words, str(refused)
        if got != (number, WORDS[number - 1], refusal_words(number)):
            yield f'{function.__name__}({scenario}): {got}, refusal {number} is due'
    if lent != b'lent to the wrapper':
        yield f'{scenario}: {lent} is left'


def unfit_rows(fusnoch):
    """Yield calls for rows with a model or a period that does not fit its field, or is no number."""
    for given in ((1, 70), (2, 75)):
        for at, size in ((0, 1), (1, 2)):
            number = given[at]
            for wrong in (number + 256 ** size, number - 256 ** size, number + 2 ** 64, -1, 256 ** size):
                yield 'ValueError', fusnoch.rows, *given[:at], wrong, *given[at + 1:]
            for wrong in (float(number), Decimal(number), str(number), bytes([number]), None, True, False):
                yield 'TypeError', fusnoch.rows, *given[:at], wrong, *given[at + 1:]


def rows_faults(fusnoch):
    """Yield what is wrong with the rows that Python's wrapper gives: a named tuple, or a refusal."""
    for model, period, *_ in ROWS_WORDS:
        letter, *numbers = rows(model, period)
        try:
            given = fusnoch.rows(model, period)
            got = ['T', isinstance(given, tuple), type(given).__name__, *given, given.lower, given.upper]
        except fusnoch.Refused as refused:
            got = ['R', refused.number, refused.words, str(refused)]
        if letter == 'T':
            due = ['T', True, 'Rows', *numbers, *numbers]
        else:
            due = ['R', *numbers, WORDS[numbers[0] - 1], refusal_words(*numbers)]
        if got != due:
            yield f'rows({model}, {period}): {got}, {due} is due'


def python_calls(fusnoch):
    """Yield what is due, a function of Python's wrapper and its arguments."""
    yield from unfit_fields(fusnoch)
    yield from unfit_calls(fusnoch)
    yield from unfit_rows(fusnoch)
    whole = WHOLE[IDRISS]
    scenario = in_python(fusnoch, whole)
    for function in (fusnoch.read, fusnoch.answer_record, fusnoch.answer_record_in_doubles):
        for wrong in (9, record(whole).hex(), list(record(whole)), None):
            yield 'TypeError', function, wrong
    for wrong in (bytes(20), memoryview(bytes(20)), 20, [0] * 20, None):
        yield 'TypeError', fusnoch.write, scenario, wrong
    for function in (fusnoch.refusal, fusnoch.answer, fusnoch.answer_in_doubles, fusnoch.millionths, fusnoch.record):
        yield 'TypeError', function, tuple(whole)
    for kind in (bytes, bytearray, memoryview):
        yield (scenario, b'rest'), fusnoch.read, kind(record(whole) + b'rest')
    for one in (*WHOLE.values(), *map(without_other_distance, WHOLE.values())):
        yield record(one), fusnoch.record, in_python(fusnoch, one)
    for period in streams.REFUSED_PERIODS:
        yield 'Refused', fusnoch.record, in_python(fusnoch, whole._replace(period=period))
    for one in (whole._replace(period=70), WHOLE[BOORE_ATKINSON]._replace(period=40)):
        yield record(one), fusnoch.record, in_python(fusnoch, one)


def numbers_in(value):
    """Yield all numbers of a structure or an array of ctypes, and of those in it, in their order."""
    if isinstance(value, (Structure, Array)):
        parts = value if isinstance(value, Array) else (getattr(value, name) for name, *_ in value._fields_)
        yield from chain.from_iterable(map(numbers_in, parts))
    else:
        yield value


def zeros_faults(fusnoch):
    """Yield what the library's own functions with a struct hand back with a refusal besides its number."""
    library = fusnoch.LIBRARY
    writing = library.fusnoch_write(fusnoch.c_scenario(in_python(fusnoch, WHOLE[IDRISS])), None, 0)
    if (writing.number, writing.length) != (12, 0):
        yield f'fusnoch_write: {writing.number}, {writing.length}: 12 and 0 are due'
    for number, data in streams.REFUSED.values():
        reading = library.fusnoch_read(data, len(data))
        others = [reading.length, *numbers_in(reading.scenario)]
        if reading.number != number or any(others):
            yield f'fusnoch_read: {data.hex()}: {reading.number}, {others}: {number} and zeros are due'
    for model, wrong in streams.WRONG.items():
        scenario = WHOLE[model]._replace(**wrong)
        found = library.fusnoch_millionths(fusnoch.c_scenario(in_python(fusnoch, scenario)))
        if (found.number, found.low, found.high) != (refusal(scenario), 0, 0):
            yield f'fusnoch_millionths: {scenario}: {found.number}, {found.low}, {found.high}: zeros are due'
    for model, period, number in ((0, 75, 1), (255, 9, 1), (1, 9, 6), (2, 10001, 6)):
        found = library.fusnoch_rows(model, period)
        others = [getattr(found, name) for name, *_ in found._fields_ if name != 'number']
        if found.number != number or any(others):
            yield f'fusnoch_rows: {model}, {period}: {found.number}, {others}: {number} and zeros are due'


def page_full_fault(fusnoch):
    """Return what is wrong with a refusal and with what the caller does next, or None."""
    lent = bytearray(b'short')
    try:
        fusnoch.write(in_python(fusnoch, WHOLE[IDRISS]), lent)
    except fusnoch.Refused as refused:
        # The caller can go on with the lent bytes.
        lent.extend(b'er')
        if (refused.number, refused.words, str(refused)) == (12, WORDS[11], refusal_words(12)):
            return None if lent == b'shorter' else f'{lent} is left'
    return 'page full is not refused as it should be'


def millionths_faults(fusnoch):
    """Yield what is wrong with the millionths that Python's wrapper gives: a named tuple, or a refusal."""
    for scenario in (*WHOLE.values(), *(WHOLE[model]._replace(**wrong) for model, wrong in streams.WRONG.items())):
        number = refusal(scenario)
        try:
            given = fusnoch.millionths(in_python(fusnoch, scenario))
        except fusnoch.Refused as refused:
            if (refused.number, refused.words) != (number, WORDS[number - 1]):
                yield f'millionths({scenario}): {refused}, refusal {number} is due'
            continue
        if number or type(given).__name__ != 'Millionths' or tuple(given) != (given.low, given.high):
            yield f'millionths({scenario}): {given!r}'


def python_faults(fusnoch):
    """Yield the faults of Python's wrapper where no types see to the caller's mistakes."""
    yield from zeros_faults(fusnoch)
    yield from millionths_faults(fusnoch)
    yield from rows_faults(fusnoch)
    yield from distances_faults(fusnoch)
    for due, function, *given in python_calls(fusnoch):
        got = raised(function, *given)
        if got != due:
            yield f'{getattr(function, "__name__", function)}{tuple(given)}: {got!r}, {due!r} is due'
    wrong = page_full_fault(fusnoch)
    if wrong:
        yield wrong


def check_python(path, faults_of):
    """Return the faults of the wrapper beside a Python host, which a function yields."""
    sys.path.insert(0, os.path.dirname(os.path.abspath(path)))
    try:
        return [f'Python: {fault}' for fault in faults_of(importlib.import_module('fusnoch'))]
    except Exception as error:  # no summary would be printed
        return [f'Python: fusnoch.py cannot be tried: {error!r}']


# ---------------------------------------------------------------------------
# The run
# ---------------------------------------------------------------------------

def command_line(words, about, *numbers):
    """Return the ASKs and the other programs by host, and the numbers, as given or as they are unless given.

    What is no such command line ends the program, with the third line of what is said about it.
    """
    if len(words) not in (7, 8, 9) or not all(word.isdecimal() for word in words[7:]):
        print(about.split('\n')[2], file=sys.stderr)
        sys.exit(2)
    given = [int(word) for word in words[7:]]
    return dict(zip(HOSTS, words[1:4])), dict(zip(HOSTS, words[4:7])), *given, *numbers[len(given):]


def main(words):
    """Read the command line, run the checks and print the first faults and a summary."""
    asks, spectra, count, seed = command_line(words, __doc__, COUNT, SEED)
    rng = random.Random(seed)
    answers, asked, small = Answers(), all_questions(rng, count), small_questions()
    flags = flag_questions(rng, FLAGGED)
    faults = check_asks(answers, asks, asked)
    faults += check_flags(answers, asks['C'], flags)
    faults += check_memory(answers, asks, small)
    faults += check_spectra(answers, spectra)
    faults += check_python(asks['Python'], python_faults)
    faults += answers.tally.faults
    for fault in faults[:FAULTS_SHOWN]:
        print(f'FAILED {fault}')
    print(f'hosts: seed {seed}, {len(asked)} questions to each of {", ".join(HOSTS)}, {len(flags)} to C alone, '
          f'{len(answers.known)} scenarios enclosed, {len(small)} questions under valgrind to each of '
          f'{", ".join(WATCHED)}, {len(faults)} faults, greatest widths: {answers.tally.greatest_widths()}')
    return 1 if faults else 0


if __name__ == '__main__':
    sys.exit(main(sys.argv))
