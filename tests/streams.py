"""Streams of records for the program that reads records and prints enclosures.

Written from document 01, 'The scenario', 'Records and doubles' and 'What is turned away', and W-201 and W-202 of
document 02, by way of records.py.  A stream is a run of accepted records, at times ended by a damaged or refused one or
by a cut.  A refused record ends its stream, so each costs a process.  The refusal 10 cannot occur: its condition is
that no bit stands, and 9 (bit 0 or 1 is clear) is checked before it.  Nor can 12, which belongs to writing.

A scenario's own distance is the one that its model reads, the other one may be absent.
"""

from itertools import combinations, product
from typing import NamedTuple, Optional, Tuple

import models
from records import (ABSENT, BOORE_ATKINSON, DISTANCE, FIELDS, IDRISS, MAGNITUDE, MECHANISM, NO_DISTANCES,
                     OTHER_DISTANCE, OWN_DISTANCE, PERIOD, PERIODS, VELOCITY, Scenario, between_rows, own_distance,
                     read, record, with_own_distance, without_other_distance)
from test_models import closest, draw_fields, hinges

# "It takes the first 4,096 bytes and ignores the rest."
TAKEN = 4096
LIMITS = {IDRISS: models.IDRISS, BOORE_ATKINSON: models.BOORE_ATKINSON}
# The first and the last number of each wide field, by model, the distance its own; period 0 is accepted besides.
WIDE_FIELDS = {'magnitude': MAGNITUDE, 'distance': DISTANCE, 'velocity': VELOCITY,
               'period': {model: PERIOD for model in (IDRISS, BOORE_ATKINSON)}}
FIELD_END = 65535
# Periods that both models turn away: W-201, "1 to 9 and above 10000".
REFUSED_PERIODS = (1, 9, 10001, FIELD_END)

# Map bytes in which bits 0 and 1 stand and 7 is clear, and the bit of the distance that a model reads.
MAPS = tuple(range(0x03, 0x80, 4))
OWN_BIT = {IDRISS: 0x04, BOORE_ATKINSON: 0x40}
# Half of those with this bit: the other distance stands where the velocity does.
SOME_MAPS = {model: tuple(map_byte for map_byte in MAPS if map_byte & 0x4c in (OWN_BIT[model], 0x4c))
             for model in OWN_BIT}
# The bytes of the longest record, and of the longest with one distance.
LONGEST, LONGEST_WITH_ONE = 13, 11
# Accepted scenarios, every field of which has to be written.  The model's own distance can be changed, to a number from
# 258 on in Idriss and up to 60001 in Boore-Atkinson, and there is still no reason for 13.
WHOLE = {IDRISS: Scenario(1, 700, 1000, 7500, 2, 75, 258), BOORE_ATKINSON: Scenario(2, 650, 60001, 3600, 1, 200, 258)}
# For each model, numbers that are turned away by the refusals 1 to 6, in their order.
WRONG = {IDRISS: {'model': 0, 'magnitude': 449, 'rupture_distance': 17501, 'velocity': 20001, 'mechanism': 5,
                  'period': 9},
         BOORE_ATKINSON: {'model': 3, 'magnitude': 801, 'projection_distance': 20000, 'velocity': 1799, 'mechanism': 4,
                          'period': 10001}}
# Numbers of a distance, or none: equal, next to each other, to both limits and to the ends of the field.
DISTANCES = (None, 0, 1, 1000, 1001, 17500, 17501, 19999, 20000, FIELD_END)


class Stream(NamedTuple):
    """The bytes of a stream, what they are about, and how they are given and checked."""

    kind: str
    data: bytes
    # The lines that are due, as typed in by hand; * stands for an end.
    lines: Optional[Tuple[str, ...]] = None
    # The finenesses at which the formula's pairs are checked, exactly and rounded outward.
    exact: Tuple[int, ...] = ()
    outward: Tuple[int, ...] = ()
    # The sizes of the pieces in which the bytes are given, with a pause after each.
    pieces: Tuple[int, ...] = ()


def raw(map_byte, scenario):
    """Return a map byte and the fields that it calls for, whatever their numbers are."""
    fields = (getattr(scenario, name).to_bytes(size, 'little')
              for bit, (name, size) in enumerate(FIELDS) if map_byte >> bit & 1)
    return bytes([map_byte]) + b''.join(fields)


def packed(kind, records, **others):
    """Yield the records in streams of at most 4,096 bytes; a refused one ends its stream."""
    data = b''
    for one in records:
        if len(data) + len(one) > TAKEN:
            yield Stream(kind, data, **others)
            data = b''
        data += one
        if read(one)[0] == 'R':
            yield Stream(kind, data, **others)
            data = b''
    if data:
        yield Stream(kind, data, **others)


def written(kind, scenarios, **others):
    """Yield the records of some scenarios in streams."""
    return packed(kind, map(record, scenarios), **others)


def sized(length, turn=0):
    """Return an accepted record of so many bytes, 6 to 13, from 12 on with both distances; each turn is another."""
    optional = {6: (), 7: ('mechanism',), 8: ('velocity',), 9: ('mechanism', 'period'), 10: ('velocity', 'period'),
                11: ('velocity', 'mechanism', 'period')}[length if length <= LONGEST_WITH_ONE else length - 2]
    given = {'velocity': 1800 + 37 * turn % 5000, 'mechanism': turn % 4, 'period': PERIODS[2][turn % 21]}
    fields = {**ABSENT, **{name: given[name] for name in optional}}
    own = 131 * turn % 20000
    other = None if length <= LONGEST_WITH_ONE else own + 97 * turn % 40000
    return record(Scenario(BOORE_ATKINSON, 500 + 7 * turn % 301, other, projection_distance=own, **fields))


def filled(size, longest=LONGEST):
    """Return accepted records of all lengths up to the longest that take up just so many bytes, from 12 on."""
    data, turn = b'', 0
    while size - len(data) > 2 * longest:
        data += sized(6 + turn % (longest - 5), turn)
        turn += 1
    left = size - len(data)
    return data + sized(left // 2, turn) + sized(left - left // 2, turn + 1)


# ---------------------------------------------------------------------------
# Periods
# ---------------------------------------------------------------------------

def intervals(model):
    """Return the neighbouring periods of a model's list, two and two."""
    return [*zip(PERIODS[model], PERIODS[model][1:])]


def middles(model):
    """Return a period in the middle of each interval of a model's list."""
    return [(lower + upper) // 2 for lower, upper in intervals(model)]


def untabled(model):
    """Return periods between the rows of a model: beside each row, in the middle of each interval, and 31 to 49."""
    # Boore-Atkinson has no row 0.04: "31 to 49" are all between 30 and 50 there.
    wanted = {*middles(model), *range(31, 50), 70}
    wanted.update(tabled + step for tabled in PERIODS[IDRISS] for step in (-1, 0, 1))
    return sorted(period for period in wanted if between_rows(model, period))


def draw_untabled(rng, model):
    """Draw a period between two rows, as often in one interval of the list as in any other."""
    lower, upper = rng.choice(intervals(model))
    return rng.randint(lower + 1, upper - 1)


def draw_period(rng, model):
    """Draw an accepted period, as often between two rows as a tabled one or 0."""
    if rng.randrange(2):
        return draw_untabled(rng, model)
    return rng.choice((0, 0, *PERIODS[model]))


# ---------------------------------------------------------------------------
# Accepted scenarios
# ---------------------------------------------------------------------------

def draw_other(rng, model, own):
    """Draw the distance that a model does not read: absent every other time, and never a reason for 13."""
    least, most = (0, own) if model == IDRISS else (own, FIELD_END)
    return rng.choice((None, None, None, own, rng.randint(least, most), rng.choice((least, most))))


def within(rng, model, **given):
    """Draw a scenario within the model's limits, some fields and its own distance given; absent numbers at times."""
    magnitude, distance, velocity, mechanism = draw_fields(rng, LIMITS[model])
    if rng.randrange(6) == 0:
        velocity = ABSENT['velocity']
    fields = {'magnitude': magnitude, 'distance': distance, 'velocity': velocity, 'mechanism': mechanism,
              'period': draw_period(rng, model), **given}
    other = draw_other(rng, model, fields['distance'])
    return with_own_distance(model, **fields)._replace(**{OTHER_DISTANCE[model]: other})


def crossing(scenario):
    """Return a scenario of model 1 or 2 with the other distance such that the one to the projection is greater by 1."""
    step = 1 if scenario.model == IDRISS else -1
    return scenario._replace(**{OTHER_DISTANCE[scenario.model]: own_distance(scenario) + step})


CROSSED = {
    'magnitude': [450, 451, 499, 500, 501, 675, 676, 749, 750, 751, 790, 800, *hinges()],
    'distance': [0, 1, 2, 17500, 19999],
    'velocity': [1800, 1801, 2999, 3000, 3001, 4500, 7599, 7600, 7601, 11999, 12000, 12001, 13000, 20000],
}


def accepts(model, field, number):
    """Say whether a model accepts a number of magnitude, its own distance or velocity."""
    return models.within(number, getattr(LIMITS[model], field))


def crossed(rng):
    """Yield scenarios in which every row of each model, and the middle between any two, meets each value and code."""
    for model in (IDRISS, BOORE_ATKINSON):
        for period in (0, *PERIODS[model], *middles(model)):
            for field, values in CROSSED.items():
                for value in values:
                    if accepts(model, field, value):
                        yield within(rng, model, period=period, **{field: value})
            for code in MECHANISM[model]:
                yield within(rng, model, period=period, mechanism=code)


def joined(rng):
    """Yield scenarios of those periods at both sides of a table or hinge and of a velocity, near and at distance 0."""
    for model, magnitudes in ((IDRISS, (675, 676)), (BOORE_ATKINSON, (674, 675, 676))):
        for period in (0, *PERIODS[model], *middles(model)):
            for magnitude in magnitudes:
                for velocity in CROSSED['velocity']:
                    if accepts(model, 'velocity', velocity):
                        yield within(rng, model, period=period, magnitude=magnitude, velocity=velocity,
                                     distance=rng.choice((0, 0, 1, 100, 1000)))


def between_the_rows(rng):
    """Yield scenarios of the periods between the rows: at both sides of Idriss's tables, and with each code."""
    for model in (IDRISS, BOORE_ATKINSON):
        for period in untabled(model):
            for magnitude in (675, 676):
                yield within(rng, model, period=period, magnitude=magnitude)
            for code in MECHANISM[model]:
                yield within(rng, model, period=period, mechanism=code)


def every_period(rng):
    """Yield a scenario of each accepted period of both models, from 10 to 10000 thousandths."""
    for model in (IDRISS, BOORE_ATKINSON):
        for period in range(PERIOD[0], PERIOD[1] + 1):
            yield within(rng, model, period=period)


def beyond_hinges():
    """Yield scenarios at the hinge magnitudes above Boore-Atkinson's limit, which are turned away."""
    for magnitude in hinges():
        if not accepts(BOORE_ATKINSON, 'magnitude', magnitude):
            for period in (5000, 7500, 10000):
                yield WHOLE[BOORE_ATKINSON]._replace(magnitude=magnitude, period=period)


def sigmas():
    """Yield scenarios of Idriss with every row, periods between, and the magnitudes around those sigma is held to."""
    # Among them are 49, 50, 51, 2999, 3000 and 3001: "T in seconds held to 0.05 to 3".
    for period in (0, *PERIODS[IDRISS], *untabled(IDRISS)):
        for magnitude in (450, 499, 500, 501, 625, 749, 750, 751, 790):
            yield with_own_distance(IDRISS, magnitude, 5000, 6000, 4, period)


def thresholds(rng):
    """Yield scenarios whose p is next to ln 0.03 or ln 0.09, with every row and between any two."""
    for period in (0, *PERIODS[BOORE_ATKINSON], *middles(BOORE_ATKINSON)):
        for velocity in (1800, 1801, 2400, 3000, 3001, 5000, 7599, 7600, 13000):
            # Its p is 11 units from ln 0.09.
            yield with_own_distance(BOORE_ATKINSON, 754, 6065, velocity, 0, period)
    for number in (0.03, 0.09):
        for magnitude, distance, mechanism in closest(number, 60):
            # Two of them with 0 or a tabled period, two between the rows.
            rows = rng.sample((0, *PERIODS[BOORE_ATKINSON]), 2)
            for period in (*rows, *(draw_untabled(rng, BOORE_ATKINSON) for _ in range(2))):
                velocity = rng.randint(1800, 7599)
                yield with_own_distance(BOORE_ATKINSON, magnitude, distance, velocity, mechanism, period)


# Scenarios whose median is within 4 units of 0, so that its ends change sign or are 0; the distance is the model's own.
NEXT_TO_ZERO = (
    (1, 649, 39, 5125, 2, 30), (1, 553, 17, 5254, 2, 100), (1, 686, 413, 5666, 0, 100), (1, 687, 160, 9485, 2, 150),
    (1, 677, 836, 4700, 2, 150), (1, 650, 57, 8244, 0, 200), (1, 670, 5, 7753, 0, 300), (1, 734, 467, 5772, 2, 300),
    (2, 750, 9, 8234, 2, 100), (2, 774, 206, 10475, 3, 150), (2, 759, 190, 10336, 0, 150), (2, 644, 59, 9396, 2, 200),
    (2, 670, 212, 8906, 2, 200), (2, 729, 114, 10070, 3, 300), (2, 762, 5, 10770, 0, 300),
    # Between the rows.
    (1, 634, 26, 5111, 3, 34), (1, 779, 389, 6058, 3, 58), (1, 704, 321, 5905, 0, 86), (1, 641, 299, 4973, 3, 91),
    (1, 619, 279, 5122, 2, 117), (1, 649, 130, 6965, 3, 266), (1, 777, 106, 7327, 0, 331), (2, 691, 38, 7929, 2, 107),
    (2, 699, 20, 11633, 3, 127), (2, 677, 59, 11900, 2, 138), (2, 754, 207, 10820, 3, 214), (2, 725, 68, 8952, 0, 308))


def byte_order():
    """Yield scenarios that are accepted either way round in some field, low byte first or last."""
    for model in (IDRISS, BOORE_ATKINSON):
        for magnitude in (513, 515, 770):
            for distance in (1, 256, 258, 513, 13330):
                for turn, period in enumerate((300, 258, 513, 2561)):
                    scenario = with_own_distance(model, magnitude, distance, 4864, 3, period)
                    # Every other time with another distance, which is no reason for 13 this way round.
                    other = (None, {IDRISS: distance // 256, BOORE_ATKINSON: 0xfe00 + distance % 256}[model])[turn % 2]
                    yield scenario._replace(**{OTHER_DISTANCE[model]: other})


def short_idriss(rng, periods):
    """Yield scenarios of Idriss whose exact sums are short, at distances up to 1 km."""
    for turn, period in enumerate(periods):
        yield within(rng, IDRISS, period=period, magnitude=rng.choice((600, 675, 676, 750)),
                     distance=(0, 37, 100)[turn % 3], velocity=(4500, 7600, 4501)[turn % 3])


def short_boore_atkinson(rng, periods):
    """Yield scenarios of Boore-Atkinson at distances up to 1 km; the exact sums are the longer the greater h is."""
    for turn, period in enumerate(periods):
        yield within(rng, BOORE_ATKINSON, period=period, distance=(0, 50, 100)[turn % 3],
                     velocity=(1800, 2950, 3050, 7550, 7650, 1850, 3000, 7600)[turn % 8])


def long_sums(rng):
    """Yield scenarios of every row of both models and of the periods between, at any distances."""
    for model in (IDRISS, BOORE_ATKINSON):
        for period in (0, *PERIODS[model]):
            for _ in range(4):
                yield within(rng, model, period=period)
        for period in untabled(model):
            yield within(rng, model, period=period)
    for number in (0.03, 0.09):
        for magnitude, distance, mechanism in closest(number, 10):
            for period in (rng.choice(PERIODS[BOORE_ATKINSON]), draw_untabled(rng, BOORE_ATKINSON)):
                yield within(rng, BOORE_ATKINSON, magnitude=magnitude, distance=distance, mechanism=mechanism,
                             period=period)


def formula_streams(rng):
    """Yield the streams whose answers are checked against the formula's pairs."""
    rows = (0, *PERIODS[BOORE_ATKINSON])
    few, all_three = (1,), (1, 2, 3)
    kind = "the formula's pairs"
    yield from written(kind, short_idriss(rng, PERIODS[IDRISS]), exact=all_three, outward=all_three)
    yield from written(kind, short_idriss(rng, middles(IDRISS)[:10]), exact=all_three, outward=all_three)
    yield from written(kind, short_idriss(rng, middles(IDRISS)[10:]), exact=few, outward=all_three)
    yield from written(kind, short_boore_atkinson(rng, (40,)), exact=all_three, outward=all_three)
    yield from written(kind, short_boore_atkinson(rng, (15, 25, 70)), exact=few, outward=all_three)
    yield from written(kind, short_boore_atkinson(rng, middles(BOORE_ATKINSON)), outward=all_three)
    yield from written(kind, short_boore_atkinson(rng, rows[:5]), exact=all_three, outward=all_three)
    yield from written(kind, short_boore_atkinson(rng, rows[5:10]), exact=few, outward=all_three)
    yield from written(kind, short_boore_atkinson(rng, rows[10:]), outward=all_three)
    yield from written(kind, long_sums(rng), outward=all_three)


# ---------------------------------------------------------------------------
# Limits, refusals and damage
# ---------------------------------------------------------------------------

def at_limits(rng):
    """Yield scenarios at each limit and one step either side, at 0 and at the field's end, and all kinds of period."""
    for model in (IDRISS, BOORE_ATKINSON):
        for field, limits in WIDE_FIELDS.items():
            first, last = limits[model]
            for value in (first - 1, first, first + 1, last - 1, last, last + 1, 0, 32768 + first, FIELD_END):
                if value >= 0:
                    yield within(rng, model, **{field: value})
        for code in (*range(12), 127, 128, 254, 255):
            yield within(rng, model, mechanism=code)
        for period in (0, *PERIODS[model], *untabled(model), *REFUSED_PERIODS, 2, 5, 256 + 75, 32768 + 75, 32768 + 70):
            yield within(rng, model, period=period)
    # In a model that is neither 1 nor 2 no distance has to stand.
    for model in (0, 1, 2, 3, 4, 9, 127, 128, 129, 254, 255):
        yield WHOLE[IDRISS]._replace(model=model)
        yield WHOLE[IDRISS]._replace(model=model, **NO_DISTANCES)


def of_two_distances():
    """Yield scenarios of both models with each two distances, and some of another model, which can get 13, too."""
    for model, rupture, projection in product((IDRISS, BOORE_ATKINSON), DISTANCES, DISTANCES):
        yield WHOLE[model]._replace(rupture_distance=rupture, projection_distance=projection)
    for rupture, projection in product(DISTANCES[:5], DISTANCES[:5]):
        yield WHOLE[IDRISS]._replace(model=3, rupture_distance=rupture, projection_distance=projection)


def orders():
    """Yield records in which several refusals apply: document 01's order, and W-202's, decides."""
    for model, own_bit in OWN_BIT.items():
        wrong = WRONG[model]
        for size in (0, 1, 2, 6):
            for names in combinations(wrong, size):
                scenario = WHOLE[model]._replace(**{name: wrong[name] for name in names})
                # 9 for the distance comes before 1 to 6, but needs a model that is 1 or 2; 13 just before 1.
                crossed = crossing(scenario._replace(model=model))._replace(model=scenario.model)
                yield from (raw(0x7f, scenario), raw(0x7f, crossed), raw(0x7f & ~own_bit, scenario))
                # 7 comes before these, 8 and 9 before that.
                if size != 2:
                    yield raw(0x7f, scenario)[:-1]
                    yield raw(0x7f, crossed)[:-1]
                    yield raw(0x7f & ~own_bit, scenario)[:-1]
                    yield from (raw(map_byte, crossed) for map_byte in (0xff, 0x7d, 0x7e))
        for (name, number), default in product(wrong.items(), ABSENT):
            if name != default:
                # 11 comes before 9 for the distance, 13 and 1 to 6.
                scenario = WHOLE[model]._replace(**{name: number, default: ABSENT[default]})
                yield raw(0x7f, scenario)
                yield raw(0x7f & ~own_bit, scenario)
        for default in ABSENT:
            yield raw(0x7f, crossing(WHOLE[model])._replace(**{default: ABSENT[default]}))


def defaults():
    """Yield records with each choice of fields, and of absent numbers among those that are written."""
    for model in (IDRISS, BOORE_ATKINSON):
        for map_byte in SOME_MAPS[model]:
            for size in range(4):
                for names in combinations(ABSENT, size):
                    yield raw(map_byte, WHOLE[model]._replace(**{name: ABSENT[name] for name in names}))


def not_defaults():
    """Yield scenarios with numbers next to an absent one, or with its two bytes, which are no absent ones."""
    for velocity in (7599, 7601, 7344, 7856, 0x1d00, 0x1db1):
        yield WHOLE[BOORE_ATKINSON]._replace(velocity=velocity)
    for name in ('projection_distance', 'velocity', 'period'):
        for number in (0, 9, 7600):
            yield WHOLE[BOORE_ATKINSON]._replace(**{name: number})
    for number in (0, 9, 7600):
        yield WHOLE[IDRISS]._replace(rupture_distance=number, projection_distance=None)
        yield WHOLE[IDRISS]._replace(rupture_distance=number, projection_distance=0)
        yield WHOLE[IDRISS]._replace(rupture_distance=7600, projection_distance=number)
        yield WHOLE[BOORE_ATKINSON]._replace(rupture_distance=number, projection_distance=0)


def map_bytes():
    """Yield every map byte with all the bytes that it calls for, and all but the last of them."""
    for map_byte in range(256):
        for model in (IDRISS, BOORE_ATKINSON) if map_byte in MAPS else (BOORE_ATKINSON,):
            whole = raw(map_byte, WHOLE[model])
            yield whole if read(whole)[0] == 'E' else whole + b'\x00'
        if map_byte not in MAPS and map_byte % 32 in (0x00, 0x03, 0x05, 0x07, 0x1e, 0x1f):
            yield raw(map_byte, WHOLE[BOORE_ATKINSON])[:-1] or bytes([map_byte])


def cuts():
    """Yield streams that are cut at every byte of a record, first in the stream and after accepted ones."""
    # The last map of each model has not the distance that the model reads: 7 comes before 9 for it.
    for model, maps in ((BOORE_ATKINSON, (*SOME_MAPS[BOORE_ATKINSON], 0x3f)), (IDRISS, (0x17, 0x3f, 0x7f, 0x7b))):
        for map_byte in maps:
            whole = raw(map_byte, WHOLE[model])
            for length in range(1, len(whole) + 1):
                yield Stream('cut at every byte', whole[:length])
                yield Stream('cut at every byte', sized(9, length) + sized(6, length) + whole[:length])


# A record for each refusal that reading has, typed in by hand, with its number; 9 is looked for in two places.
REFUSED = {
    '1': (1, bytes.fromhex('3703bc02e803024b00')), '2': (2, bytes.fromhex('37011703e803024b00')),
    '3': (3, bytes.fromhex('3701bc025d44024b00')), '4': (4, bytes.fromhex('4b02bc020707e803')),
    '5': (5, bytes.fromhex('0701bc02e803')), '6': (6, bytes.fromhex('3701bc02e803020900')),
    '7': (7, bytes.fromhex('3701bc02e803024b')), '8': (8, bytes.fromhex('b701bc02e803024b00')),
    '9': (9, bytes.fromhex('3601bc02e803024b00')), '9_distance': (9, bytes.fromhex('3702bc02e803024b00')),
    '11': (11, bytes.fromhex('5302bc0209e803')), '13': (13, bytes.fromhex('7701bc02e803024b00e903'))}


def refusals():
    """Yield each refusal alone, after one record, after many, and before records that are not answered."""
    for number, last in REFUSED.values():
        after = b'' if number == 7 else filled(100)
        kind = f'refusal {number}'
        yield Stream(kind, last, ('enclosures', f'1 R {number}', 'end 1'))
        yield Stream(kind, last + after, ('enclosures', f'1 R {number}', 'end 1'))
        yield Stream(kind, sized(6) + last + after, ('enclosures', '1 E * * * *', f'2 R {number}', 'end 2'))
        yield Stream(kind, filled(3000) + last + after)
        yield Stream(kind, sized(13, 3) * 300 + last + last)


# ---------------------------------------------------------------------------
# Around 4,096 bytes
# ---------------------------------------------------------------------------

def around_the_end():
    """Yield streams that end at, next to and beyond 4,096 bytes."""
    for size in (TAKEN - 1, TAKEN):
        yield Stream(f'{size} bytes', filled(size))
    for after in (b'\x00', b'\x07', b'\xff', sized(6), sized(13, 5), REFUSED['6'][1], filled(TAKEN), filled(96000),
                  bytes(10 ** 6), b'\xff' * 70000):
        yield Stream('4,096 bytes and more', filled(TAKEN) + after)
    for before in range(1, LONGEST + 1):
        for length in (6, LONGEST_WITH_ONE, LONGEST):
            # Whole for the caller, but cut at byte 4,096 where it has more bytes than are left.
            data = filled(TAKEN - before) + sized(length, before)
            yield Stream('a record around byte 4,096', data)
            yield Stream('a record around byte 4,096', data + filled(500))
    for last in (0x00, 0x07, 0x3f, 0x38, 0x40, 0x43, 0x7f, 0x80, 0xc7, 0xff):
        yield Stream('the last byte is a map byte', filled(TAKEN - 1) + bytes([last]))
        yield Stream('the last byte is a map byte', filled(TAKEN - 1) + bytes([last]) + filled(50))
    for length in range(6, LONGEST + 1):
        yield Stream('records of one length', sized(length, 1) * 700)
        yield Stream('records of one length', sized(length, 2) * (TAKEN // length))
    for number, last in REFUSED.values():
        yield Stream(f'refusal {number} at the end', filled(TAKEN - len(last)) + last)
        yield Stream(f'refusal {number} and more', filled(2000) + last + filled(4000))


def in_pieces():
    """Yield streams that are given in pieces."""
    few = filled(60)
    yield Stream('a byte at a time', few, pieces=(1,) * len(few))
    yield Stream('a byte at a time', few[:-1], pieces=(1,) * len(few))
    for data in (filled(TAKEN), filled(TAKEN) + filled(700), filled(TAKEN - 3) + sized(9) + filled(50),
                 filled(1000) + REFUSED['8'][1] + filled(3500)):
        for sizes in ((1,), (4095,), (4096,), (1000, 1000, 1000), (2047, 1, 2047, 1), (11,) * 40):
            yield Stream('in pieces', data, pieces=sizes)
    yield Stream('nothing, late', b'', ('enclosures', 'end 0'), pieces=(0, 0))


# ---------------------------------------------------------------------------
# Streams that are drawn
# ---------------------------------------------------------------------------

def uniform(rng):
    """Draw each field evenly from all its numbers; mostly with a model that is there, at times without a distance."""
    model = rng.choice((IDRISS, BOORE_ATKINSON, rng.randrange(256)))
    scenario = Scenario(model, *(rng.randrange(256 ** size) for _, size in FIELDS[1:]))
    return scenario._replace(**{name: None for name in NO_DISTANCES if rng.randrange(4) == 0})


def one_uniform(rng):
    """Draw a scenario within the limits with one or two fields drawn from all their numbers."""
    scenario = within(rng, rng.choice((IDRISS, BOORE_ATKINSON)))
    for name, size in rng.sample(FIELDS, rng.choice((1, 1, 2))):
        scenario = scenario._replace(**{name: rng.randrange(256 ** size)})
    return scenario


def near_limits(rng):
    """Draw a scenario with a field, of the distances either, at a limit of either model or one step beside it."""
    scenario = within(rng, rng.choice((IDRISS, BOORE_ATKINSON)))
    field = rng.choice([*WIDE_FIELDS])
    limits = WIDE_FIELDS[field][rng.choice((IDRISS, BOORE_ATKINSON))]
    name = rng.choice([*NO_DISTANCES]) if field == 'distance' else field
    return scenario._replace(**{name: max(rng.choice(limits) + rng.choice((-1, 0, 1)), 0)})


def any_distances(rng):
    """Draw a scenario whose distances are equal, one apart or unlike, or absent; or that is of another model."""
    scenario = within(rng, rng.choice((IDRISS, BOORE_ATKINSON)))
    own = own_distance(scenario)
    other = rng.choice((None, own, max(own + rng.choice((-1, 1)), 0), rng.randint(0, FIELD_END)))
    scenario = scenario._replace(**{OTHER_DISTANCE[scenario.model]: other})
    if rng.randrange(4) == 0:
        scenario = scenario._replace(**{OWN_DISTANCE[scenario.model]: None})
    return scenario._replace(model=rng.choice((IDRISS, BOORE_ATKINSON, scenario.model, rng.randrange(256))))


def damaged(rng):
    """Draw a record with a byte or a bit altered, or with bytes put in or taken out."""
    data = bytearray(record(within(rng, rng.choice((IDRISS, BOORE_ATKINSON)))))
    place, way = rng.randrange(len(data)), rng.randrange(4)
    if way == 0:
        data[place] = rng.randrange(256)
    elif way == 1:
        data[place] ^= 1 << rng.randrange(8)
    elif way == 2:
        del data[place:place + rng.randint(1, 3)]
    else:
        data[place:place] = rng.randbytes(rng.randint(1, 4))
    return bytes(data)


def ending(rng):
    """Draw what may come after a run of accepted records."""
    way = rng.randrange(11)
    if way < 2:
        return record(one_uniform(rng))
    if way == 2:
        return record(uniform(rng))
    if way == 3:
        return record(near_limits(rng))
    if way == 4:
        return damaged(rng)
    if way == 5:
        # A written field may hold its absent number, and any field may be left out.
        scenario = near_limits(rng)
        absent = {name: rng.randint(0, FIELD_END) for name in NO_DISTANCES if getattr(scenario, name) is None}
        return raw(rng.choice(MAPS), scenario._replace(**absent))
    if way == 6:
        return rng.randbytes(rng.randint(1, 16))
    if way == 7:
        whole = record(within(rng, BOORE_ATKINSON))
        return whole[:rng.randrange(len(whole))]
    if way == 8:
        return bytes([rng.choice(MAPS)]) + rng.randbytes(12)
    if way == 9:
        return record(any_distances(rng))
    return b''


def drawn(rng, count):
    """Yield streams until so many accepted records have been drawn for them, each with an ending."""
    while count > 0:
        many = min(rng.choice((0, 1, 2, 5, 10, 30, 60, 120)), count)
        front = b''.join(record(within(rng, rng.choice((IDRISS, BOORE_ATKINSON)))) for _ in range(many))
        yield Stream('drawn', front + ending(rng) + rng.choice((b'', b'', rng.randbytes(9), sized(6))))
        count -= max(many, 1)


# ---------------------------------------------------------------------------
# All streams
# ---------------------------------------------------------------------------

def fixed(rng):
    """Yield the streams that every run has."""
    yield from refusals()
    yield from around_the_end()
    yield from in_pieces()
    yield from cuts()
    yield from packed('map bytes', map_bytes())
    yield from packed('order of the refusals', orders())
    yield from packed('absent numbers', defaults())
    yield from written('next to the absent numbers', not_defaults())
    yield from written('limits', at_limits(rng))
    yield from written('two distances', of_two_distances())
    yield from written('beyond the hinge magnitudes', beyond_hinges())
    yield from written('every row, and between', crossed(rng))
    yield from written('every row, and between, at the joints', joined(rng))
    yield from written('between the rows', between_the_rows(rng))
    yield from written("Idriss's sigma", sigmas())
    yield from written('next to a threshold of p', thresholds(rng))
    yield from written('next to zero', (with_own_distance(*fields) for fields in NEXT_TO_ZERO))
    yield from written('byte order', byte_order())
    yield from formula_streams(rng)


# ---------------------------------------------------------------------------
# Stored streams
# ---------------------------------------------------------------------------

# Every scenario has the distance that its model reads, and no other, but for those of both_distances.

def both_models():
    """Return scenarios of both models with every kind of row; no number in them is drawn."""
    scenarios = []
    for turn, period in enumerate((0, *PERIODS[IDRISS])):
        scenarios += [with_own_distance(IDRISS, magnitude, 450 * turn, 4500 + 650 * turn, turn % 5, period)
                      for magnitude in (600, 675, 676, 760)]
    for turn, period in enumerate((0, *PERIODS[BOORE_ATKINSON])):
        code = MECHANISM[BOORE_ATKINSON][turn % 5]
        # Above, at and below the hinge magnitude, at distances in each branch of p, in each branch of the slope.
        scenarios += [with_own_distance(BOORE_ATKINSON, magnitude, distance + turn, velocity, code, period)
                      for magnitude, distance, velocity in (
                          (760, 500, 1800), (675, 4500, 2500), (674, 10000, 5000), (550, 15000, 10000),
                          (676, 0, 3000), (650, 2500, 7600), (720, 6500, 2000))]
    scenarios += [with_own_distance(BOORE_ATKINSON, 754, 6065, 2500, code, 0) for code in MECHANISM[BOORE_ATKINSON]]
    # Every branch of the slope with every branch of p, on both sides of the hinge magnitude.
    scenarios += [with_own_distance(BOORE_ATKINSON, magnitude, distance, velocity, 9, 200)
                  for magnitude in (674, 675, 676) for distance in (500, 4500, 15000)
                  for velocity in (1800, 2400, 3000, 5000, 7600, 10000)]
    return scenarios


def between_records():
    """Return scenarios of both models with periods between the rows; no number in them is drawn."""
    scenarios = []
    for turn, period in enumerate(untabled(IDRISS)):
        magnitude = (600, 675, 676, 760)[turn % 4]
        scenarios.append(with_own_distance(IDRISS, magnitude, 170 * turn, 4500 + 190 * turn, turn % 5, period))
    for turn, period in enumerate(untabled(BOORE_ATKINSON)):
        # Each branch of p, and of the slope.
        magnitude, distance, velocity = ((760, 500, 1800), (675, 4500, 2500), (674, 10000, 5000), (550, 15000, 10000),
                                         (676, 0, 3000), (650, 2500, 7600), (720, 6500, 2000))[turn % 7]
        code = MECHANISM[BOORE_ATKINSON][turn % 5]
        scenarios.append(with_own_distance(BOORE_ATKINSON, magnitude, distance + turn, velocity, code, period))
    return scenarios


def sample():
    """Return scenarios of one earthquake, M 7.00 and reverse at 10 km on 760 m/s, at some periods by both models."""
    return [with_own_distance(model, 700, 1000, 7600, 2, period)
            for model in (IDRISS, BOORE_ATKINSON) for period in (0, 50, 75, 100, 200, 1000)]


def both_distances():
    """Return scenarios of the other stored streams with both distances: each has the ends that it has there."""
    scenarios = []
    for turn, scenario in enumerate([*sample(), *both_models()[::3], *between_records()[::3]]):
        own = own_distance(scenario)
        # Equal distances, the least or greatest other one, and one apart where that is no reason for 13.
        others = {IDRISS: (own, 0, max(own - 1, 0)), BOORE_ATKINSON: (own, FIELD_END, own + 1)}[scenario.model]
        scenarios.append(scenario._replace(**{OTHER_DISTANCE[scenario.model]: others[turn % 3]}))
    return scenarios


def stored():
    """Return the bytes of the stored streams by name."""
    few = b''.join(sized(length, length) for length in range(6, 12)) + record(without_other_distance(WHOLE[IDRISS]))
    one = LONGEST_WITH_ONE
    return {
        'document_example': bytes.fromhex('37 01 BC 02 E8 03 02 46 00'),
        'empty': b'',
        **{name: b''.join(map(record, scenarios)) for name, scenarios in (
            ('sample', sample()), ('both_models', both_models()), ('between_rows', between_records()),
            ('both_distances', both_distances()))},
        **{f'refusal_{name}': few + last for name, (_, last) in REFUSED.items()},
        'longer_than_4096': filled(TAKEN, one) + filled(1000, one),
        'cut_at_4096': filled(TAKEN - 5, one) + sized(11, 1) + filled(100, one),
    }
