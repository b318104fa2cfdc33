"""Ground motion with proved ends, for programs in Python: the safe way to the engine.

libfusnoch.so is taken from the directory that the environment variable FUSNOCH_LIB names, or else from the
repository's target/lib.
"""

import ctypes
import os
from ctypes import c_char_p, c_double, c_int64, c_size_t, c_uint8, c_uint16, c_uint32, c_void_p
from dataclasses import dataclass, field
from itertools import islice
from typing import List, NamedTuple, Optional

IDRISS = 1
BOORE_ATKINSON = 2

# The bytes of a record with all its fields.
LONGEST_RECORD = 13

# The most scenarios that a sheet has.
SHEET_MOST = 64

# What the number of a refusal stands for.
WORDS = {
    1: 'model: neither 1 nor 2',
    2: "magnitude: beyond the model's limits",
    3: 'distance: that which the model reads is beyond its limits',
    4: "velocity: beyond the model's limits",
    5: 'mechanism: not a code of the model',
    6: 'period: neither 0 nor from 10 to 10000',
    7: 'cut short: no map byte, or fewer bytes than the map calls for',
    8: 'spare bit: bit 7 stands',
    9: 'wanting: bit 0 or 1 is clear, or the distance that the model reads is absent',
    10: 'blank: no bit stands',
    11: 'plain default: a field written with its absent number',
    12: 'page full: lent bytes shorter than the record',
    13: 'distances: the projection distance exceeds the rupture distance',
    14: 'sheet: more than 64 scenarios',
}


class Refused(Exception):
    """A refusal.

    It is raised, so that no one takes a refused scenario for an answered one by leaving a number unread; refusal()
    gives the number of a scenario to those who would rather ask first.  In a sheet, where a refused scenario does not
    stop the others, it stands at the place of its scenario.
    """

    def __init__(self, number):
        self.number = number
        self.words = WORDS.get(number, 'not a refusal')
        super().__init__(number)

    def __str__(self):
        return f'refusal {self.number}, {self.words}'


# ---------------------------------------------------------------------------
# fusnoch.h
# ---------------------------------------------------------------------------

class _Scenario(ctypes.Structure):
    _fields_ = [('model', c_uint8), ('rupture_present', c_uint8), ('magnitude', c_uint16),
                ('rupture_distance', c_uint16), ('velocity', c_uint16), ('mechanism', c_uint8),
                ('projection_present', c_uint8), ('period', c_uint16), ('projection_distance', c_uint16)]


# The flags of the distances: where one is 0, the distance is absent, whatever its number.
_FLAGS = {'rupture_distance': 'rupture_present', 'projection_distance': 'projection_present'}


class _Answer(ctypes.Structure):
    _fields_ = [('number', c_uint8), ('ends', c_int64 * 4)]


class _Scenarios(ctypes.Structure):
    _fields_ = [('places', _Scenario * SHEET_MOST)]


class _Sheet(ctypes.Structure):
    _fields_ = [('number', c_uint8), ('count', c_size_t),
                ('median_low', c_int64 * SHEET_MOST), ('median_high', c_int64 * SHEET_MOST),
                ('sigma_low', c_int64 * SHEET_MOST), ('sigma_high', c_int64 * SHEET_MOST),
                ('numbers', c_uint8 * SHEET_MOST)]


class _Screening(ctypes.Structure):
    _fields_ = [('number', c_uint8), ('position', c_size_t), ('marks', c_uint8 * SHEET_MOST)]


class _Doubles(ctypes.Structure):
    _fields_ = [('number', c_uint8), ('ends', c_double * 4)]


class _Bounds(ctypes.Structure):
    _fields_ = [('number', c_uint8), ('low', c_uint32), ('high', c_uint32)]


class _Periods(ctypes.Structure):
    _fields_ = [('number', c_uint8), ('lower', c_uint16), ('upper', c_uint16)]


class _Reading(ctypes.Structure):
    _fields_ = [('number', c_uint8), ('scenario', _Scenario), ('length', c_size_t)]


class _Writing(ctypes.Structure):
    _fields_ = [('number', c_uint8), ('length', c_size_t)]


def _load():
    """Return the library, its functions with their types."""
    nearby = os.path.join(os.path.dirname(os.path.abspath(__file__)), '..', '..', 'target', 'lib')
    library = ctypes.CDLL(os.path.abspath(os.path.join(os.environ.get('FUSNOCH_LIB') or nearby, 'libfusnoch.so')))
    for name, result, *taken in (
            ('refusal', c_uint8, _Scenario),
            ('rows', _Periods, c_uint8, c_uint16),
            ('answer_fields', _Answer, _Scenario),
            ('answer_record', _Answer, c_char_p, c_size_t),
            ('answer_fields_in_doubles', _Doubles, _Scenario),
            ('answer_record_in_doubles', _Doubles, c_char_p, c_size_t),
            ('millionths', _Bounds, _Scenario),
            ('read', _Reading, c_char_p, c_size_t),
            ('write', _Writing, _Scenario, c_void_p, c_size_t),
            ('answer_sheet', _Sheet, c_size_t, _Scenarios),
            ('governing', _Screening, c_size_t, _Scenarios)):
        function = getattr(library, f'fusnoch_{name}')
        function.restype, function.argtypes = result, taken
    return library


LIBRARY = _load()


# ---------------------------------------------------------------------------
# Scenarios, answers and records
# ---------------------------------------------------------------------------

def _must_fit(name, kind, number):
    """See that a number fits its field: ctypes would cut it, and the engine answer another question."""
    most = 256 ** ctypes.sizeof(kind) - 1
    if not isinstance(number, int) or isinstance(number, bool):
        raise TypeError(f'{name} has to be a whole number (int), not {number!r}')
    if not 0 <= number <= most:
        raise ValueError(f'{name} has to be from 0 to {most}, not {number}')


@dataclass(frozen=True)
class Scenario:
    """The fields of a scenario, whole numbers in the units named here.

    Of the two distances a model reads its own, and the other may be absent: None.  They are given by name only, so
    that neither is taken for the other.
    """

    model: int  # 1 Idriss, 2 Boore-Atkinson
    magnitude: int  # 0.01
    rupture_distance: Optional[int] = field(default=None, kw_only=True)  # 0.01 km, to the rupture; Idriss reads it
    velocity: int  # V_S30, 0.1 m/s
    mechanism: int  # 0 strike-slip, 1 normal, 2 reverse, 3 reverse oblique, 4 other oblique, 9 unspecified
    period: int  # 0.001 s; 0 is peak acceleration
    # 0.01 km, to the surface projection of the rupture; Boore-Atkinson reads it
    projection_distance: Optional[int] = field(default=None, kw_only=True)

    def __post_init__(self):
        """See that each number fits its field; a distance may be absent."""
        kinds = dict(_Scenario._fields_)
        for name, number in vars(self).items():
            if number is not None or name not in _FLAGS:
                _must_fit(name, kinds[name], number)


class Enclosure(NamedTuple):
    """Ends of the natural logarithm of the median in g and of sigma, in units of 10^-9: whole numbers or floats."""

    median_low: int
    median_high: int
    sigma_low: int
    sigma_high: int


class Millionths(NamedTuple):
    """Two whole numbers of millionths of g between which a median lies; a low of 0 sets no bound."""

    low: int
    high: int


class Governing(NamedTuple):
    """Which scenario of a sheet governs, and which are marked, by their positions counted from 1.

    The median of an accepted one without a mark is less than that of some marked one.
    """

    position: int
    marked: List[int]


def _name(period):
    """Return the name of a period: its seconds, or PGA for peak acceleration."""
    return f'{period // 1000}.{period % 1000:03}' if period else 'PGA'


class Rows(NamedTuple):
    """The periods, in 0.001 s, of the two rows that a median rests on, equal where it is one; 0 is the row PGA."""

    lower: int
    upper: int

    def __str__(self):
        if self.lower == self.upper:
            return f'the row {_name(self.lower)}'
        return f'between {_name(self.lower)} and {_name(self.upper)}'


def c_scenario(scenario):
    """Return a scenario as fusnoch.h has it."""
    if not isinstance(scenario, Scenario):
        raise TypeError(f'a Scenario is wanted, not {scenario!r}')
    numbers = {name: number for name, number in vars(scenario).items() if number is not None}
    flags = {flag: int(name in numbers) for name, flag in _FLAGS.items()}
    return _Scenario(**numbers, **flags)


def _scenario(given):
    """Return the scenario of a struct of fusnoch.h."""
    numbers = {name: getattr(given, name) for name, _ in _Scenario._fields_}
    for name, flag in _FLAGS.items():
        if numbers.pop(flag) == 0:
            numbers[name] = None
    return Scenario(**numbers)


def _bytes(data):
    """Return the bytes of bytes, bytearray or memoryview; of nothing else, as bytes(5) would be five zeros."""
    return bytes(memoryview(data))


def _unless_refused(number):
    """Raise the refusal if the number is that of one."""
    if number != 0:
        raise Refused(number)


def _ends(answered):
    """Return the enclosure of an answer."""
    _unless_refused(answered.number)
    return Enclosure(*answered.ends)


def refusal(scenario):
    """Return the number of the refusal of a scenario, 0 for none."""
    return LIBRARY.fusnoch_refusal(c_scenario(scenario))


def rows(model, period):
    """Return the rows that the median of a model at a period rests on, and the sigma of Boore-Atkinson."""
    _must_fit('model', c_uint8, model)
    _must_fit('period', c_uint16, period)
    periods = LIBRARY.fusnoch_rows(model, period)
    _unless_refused(periods.number)
    return Rows(periods.lower, periods.upper)


def rows_words(model, period):
    """Return the same in words, '0.070 s: between 0.050 and 0.075' or 'PGA: the row 0.010'; or the refusal's."""
    try:
        rested_on = rows(model, period)
    except Refused as refused:
        return str(refused)
    return f'{_name(period)}{" s" if period else ""}: {rested_on}'


def answer(scenario):
    """Return the enclosure of a scenario."""
    return _ends(LIBRARY.fusnoch_answer_fields(c_scenario(scenario)))


def answer_in_doubles(scenario):
    """Return the enclosure of a scenario in floats that equal the whole numbers."""
    return _ends(LIBRARY.fusnoch_answer_fields_in_doubles(c_scenario(scenario)))


def answer_record(data):
    """Return the enclosure of the scenario whose record is at the front of some bytes."""
    given = _bytes(data)
    return _ends(LIBRARY.fusnoch_answer_record(given, len(given)))


def answer_record_in_doubles(data):
    """Return the same in floats that equal the whole numbers."""
    given = _bytes(data)
    return _ends(LIBRARY.fusnoch_answer_record_in_doubles(given, len(given)))


def _taken_over(scenarios):
    """Return the count of some scenarios, and a struct of them; none of more than a sheet has is looked at."""
    # One too many is enough to be refused, and no more are taken.
    given = list(islice(scenarios, SHEET_MOST + 1))
    places = map(c_scenario, given) if len(given) <= SHEET_MOST else ()
    return len(given), _Scenarios((_Scenario * SHEET_MOST)(*places))


def answer_sheet(scenarios):
    """Return a list of the answers to up to 64 scenarios, one for each, in their order.

    An answer is an Enclosure, or a Refused, which is not raised.  More than 64 are refused with 14, whatever they are,
    and that is raised.
    """
    sheet = LIBRARY.fusnoch_answer_sheet(*_taken_over(scenarios))
    _unless_refused(sheet.number)
    ends = zip(sheet.median_low, sheet.median_high, sheet.sigma_low, sheet.sigma_high)
    return [Refused(number) if number else Enclosure(*four) for number, four in zip(sheet.numbers[:sheet.count], ends)]


def governing(scenarios):
    """Return which of up to 64 scenarios governs, and which are marked.

    It is the accepted one with the greatest high end of the median, of equal ones the first; marked is each accepted
    one whose high end is at least the greatest low end among them.  More than 64 are refused with 14, whatever they
    are, and where none is accepted it is 15.
    """
    screening = LIBRARY.fusnoch_governing(*_taken_over(scenarios))
    _unless_refused(screening.number)
    return Governing(screening.position, [position for position, mark in enumerate(screening.marks, 1) if mark])


def millionths(scenario):
    """Return the median of a scenario in millionths of g.

    The exact one lies from low to high, and high less low is at most 2 plus high/100000 rounded down.
    """
    bounds = LIBRARY.fusnoch_millionths(c_scenario(scenario))
    _unless_refused(bounds.number)
    return Millionths(bounds.low, bounds.high)


def read(data):
    """Return the scenario whose record is at the front of some bytes, and the bytes after it."""
    given = _bytes(data)
    reading = LIBRARY.fusnoch_read(given, len(given))
    _unless_refused(reading.number)
    return _scenario(reading.scenario), given[reading.length:]


def write(scenario, lent):
    """Put the record at the front of a lent bytearray and return its length; refused, leave it as it is."""
    length = memoryview(lent).nbytes
    # The array is not kept, as a bytearray cannot be resized while one is over it.
    writing = LIBRARY.fusnoch_write(c_scenario(scenario), (c_uint8 * length).from_buffer(lent), length)
    _unless_refused(writing.number)
    return writing.length


def record(scenario):
    """Return the bytes of a scenario's record."""
    lent = bytearray(LONGEST_RECORD)
    return bytes(lent[:write(scenario, lent)])
