"""Scenarios and records of document 01, as plain functions on whole numbers and bytes.

Written from the papers' text alone: document 01, 'The scenario', 'Records and doubles' and 'What is turned away'; and
document 02, W-201 for the periods between the rows, W-202 for the two distances.
"""

from typing import NamedTuple, Optional


class Scenario(NamedTuple):
    """The fields of a scenario in the order of a record, whole numbers in the units named here.

    W-202: "An absent distance has no number, not even 0"; it is None here.
    """

    model: int
    magnitude: int  # 0.01
    rupture_distance: Optional[int]  # 0.01 km
    velocity: int  # 0.1 m/s
    mechanism: int  # code
    period: int  # 0.001 s
    projection_distance: Optional[int]  # 0.01 km


# ---------------------------------------------------------------------------
# The scenario
# ---------------------------------------------------------------------------

IDRISS = 1
BOORE_ATKINSON = 2

# W-202: "each model must read its own"; 'The scenario': "to the rupture", "to its surface projection".
OWN_DISTANCE = {IDRISS: 'rupture_distance', BOORE_ATKINSON: 'projection_distance'}
OTHER_DISTANCE = {IDRISS: 'projection_distance', BOORE_ATKINSON: 'rupture_distance'}
NO_DISTANCES = {'rupture_distance': None, 'projection_distance': None}

# The limits of each model, both of them included; that of the distance is for the one that the model reads.
MAGNITUDE = {IDRISS: (450, 790), BOORE_ATKINSON: (500, 800)}
DISTANCE = {IDRISS: (0, 17500), BOORE_ATKINSON: (0, 19999)}
VELOCITY = {IDRISS: (4500, 20000), BOORE_ATKINSON: (1800, 13000)}

# The codes of each model.
MECHANISM = {IDRISS: (0, 1, 2, 3, 4), BOORE_ATKINSON: (0, 1, 2, 3, 9)}

# The tabled periods of each model; "Boore-Atkinson has the same without 40".
PERIODS = {
    IDRISS: (10, 20, 30, 40, 50, 75, 100, 150, 200, 250, 300, 400, 500, 750, 1000, 1500, 2000, 3000, 4000, 5000,
             7500, 10000),
    BOORE_ATKINSON: (10, 20, 30, 50, 75, 100, 150, 200, 250, 300, 400, 500, 750, 1000, 1500, 2000, 3000, 4000, 5000,
                     7500, 10000),
}

# W-201: "A whole number of thousandths from 10 to 10000" is accepted by both models, tabled or not, and 0 as before.
PERIOD = (10, 10000)

# The row of a period that is neither 0 nor tabled: one past the last.
NO_ROW = 22


def beyond(number, limits):
    """Say whether a number is beyond its limits."""
    low, high = limits
    return number < low or number > high


def own_distance(scenario):
    """Return the distance that model 1 or 2 reads, or None where it is absent."""
    return getattr(scenario, OWN_DISTANCE[scenario.model])


def lacks_distance(scenario):
    """Say whether the distance that the model reads is absent."""
    # W-202: "A model that is neither 1 nor 2 needs no distance."
    return scenario.model in OWN_DISTANCE and own_distance(scenario) is None


def distances_crossed(scenario):
    """Say whether both distances stand and that to the projection exceeds that to the rupture."""
    rupture, projection = scenario.rupture_distance, scenario.projection_distance
    return rupture is not None and projection is not None and projection > rupture


def refusal(scenario):
    """Return the first of 9 (for the distance), 13 and 1 to 6 that turns the scenario away, or 0."""
    model = scenario.model
    # 9 wanting: W-202, "Writing and answering begin with 9 for the distance."
    if lacks_distance(scenario):
        return 9
    # 13 distances: "checked after 9 for the distance and just before 1", for any model
    if distances_crossed(scenario):
        return 13
    # 1 model: neither 1 nor 2
    if model not in (IDRISS, BOORE_ATKINSON):
        return 1
    # 2 magnitude: beyond the model's limits
    if beyond(scenario.magnitude, MAGNITUDE[model]):
        return 2
    # 3 distance: W-202, "The limit of refusal 3 is applied to the distance that the model reads."
    if beyond(own_distance(scenario), DISTANCE[model]):
        return 3
    # 4 velocity: likewise
    if beyond(scenario.velocity, VELOCITY[model]):
        return 4
    # 5 mechanism: not a code of the model
    if scenario.mechanism not in MECHANISM[model]:
        return 5
    # 6 period: W-201, "Refusal 6 is left with 1 to 9 and above 10000"
    if not accepts_period(scenario.period):
        return 6
    return 0


def with_own_distance(model, magnitude, distance, velocity, mechanism, period):
    """Return a scenario of model 1 or 2 that has the distance that the model reads, and no other."""
    fields = {'magnitude': magnitude, 'velocity': velocity, 'mechanism': mechanism, 'period': period}
    return Scenario(model=model, **fields, **{**NO_DISTANCES, OWN_DISTANCE[model]: distance})


def without_other_distance(scenario):
    """Return a scenario of model 1 or 2 without the distance that the model does not read; it is answered alike."""
    return scenario._replace(**{OTHER_DISTANCE[scenario.model]: None})


def accepts_period(period):
    """Say whether both models accept a period: 0, or from 10 to 10000 thousandths."""
    return period == 0 or not beyond(period, PERIOD)


def row(model, period):
    """Return the row of a period in the coefficient tables of model 1 or 2, counted from 0."""
    if model == IDRISS:
        # "Period 0 uses the row 0.01."
        rows = PERIODS[IDRISS]
        wanted = 10 if period == 0 else period
    else:
        # "Period 0 uses the row PGA."  The rows are counted from it; the printed row PGV before it is out of scope.
        rows = (0,) + PERIODS[BOORE_ATKINSON]
        wanted = period
    return rows.index(wanted) if wanted in rows else NO_ROW


def place(model, period):
    """Return where a period stands in the tables of model 1 or 2: in a row, between two rows of its list, or neither.

    The row of period 0 is no neighbour of any period: between are only periods of the list.
    """
    if row(model, period) != NO_ROW:
        return f'row {row(model, period)}'
    if between_rows(model, period):
        return f'between {row(model, neighbours(model, period)[0])}'
    return 'outside'


def between_rows(model, period):
    """Say whether a period of model 1 or 2 is accepted and lies between two rows."""
    return accepts_period(period) and row(model, period) == NO_ROW


def neighbours(model, period):
    """Return the neighbours of an accepted period that is neither 0 nor tabled for model 1 or 2."""
    # W-201: "answered between the two neighbouring rows of the model"; they are the greatest listed period below and
    # the least above.  The row PGA has no period, and is no neighbour of any.
    return (max(tabled for tabled in PERIODS[model] if tabled < period),
            min(tabled for tabled in PERIODS[model] if tabled > period))


def rows(model, period):
    """Return ('R', number), or ('T', lower, upper): the periods of the two rows that an answer rests on."""
    if model not in (IDRISS, BOORE_ATKINSON):
        return 'R', 1
    if not accepts_period(period):
        return 'R', 6
    if between_rows(model, period):
        return 'T', *neighbours(model, period)
    # "Period 0 uses the row 0.01" in Idriss, and "the row PGA" in Boore-Atkinson, which has the number 0 here.
    only = 10 if model == IDRISS and period == 0 else period
    return 'T', only, only


# ---------------------------------------------------------------------------
# Records
# ---------------------------------------------------------------------------

# The fields and their bytes, in the order of bits 0 to 6 of the map byte.  W-202: "Bit 2 becomes the rupture distance.
# Bit 6 becomes the distance to the surface projection, 2 bytes, after the period."
FIELDS = (('model', 1), ('magnitude', 2), ('rupture_distance', 2), ('velocity', 2), ('mechanism', 1), ('period', 2),
          ('projection_distance', 2))

# "An absent velocity is 7600, mechanism 9, period 0".  W-202: "An absent distance has no number, not even 0", so that
# no number of a distance is a plain default.
ABSENT = {'velocity': 7600, 'mechanism': 9, 'period': 0}


def stands(map_byte, bit):
    """Say whether a bit of the map byte stands."""
    return (map_byte >> bit) % 2 == 1


def turned_away(number):
    """Return a refused read: "a refused read hands back none of the bytes"."""
    return 'R', number, b''


def read(data):
    """Return ('R', number, b''), or ('E', scenario, length of its record, rest of the bytes)."""
    # 7 cut short: no map byte
    if len(data) == 0:
        return turned_away(7)
    map_byte = data[0]
    # 8 spare bit: W-202, "Only bit 7 is spare now."
    if stands(map_byte, 7):
        return turned_away(8)
    # 9 wanting: bit 0 or 1 is clear; W-202, "9 for bits 0 and 1 keeps its place"
    if not (stands(map_byte, 0) and stands(map_byte, 1)):
        return turned_away(9)
    # 10 blank: no bit stands (never reached, as 9 comes first)
    if map_byte == 0:
        return turned_away(10)
    # 7 cut short: fewer bytes than the map calls for
    called_for = [(name, size) for bit, (name, size) in enumerate(FIELDS) if stands(map_byte, bit)]
    length = 1 + sum(size for _, size in called_for)
    if len(data) < length:
        return turned_away(7)
    # "Low byte first."
    written = {}
    place = 1
    for name, size in called_for:
        written[name] = int.from_bytes(data[place:place + size], 'little')
        place += size
    # 11 plain default: a field written with its absent number
    for name, number in ABSENT.items():
        if name in written and written[name] == number:
            return turned_away(11)
    # then 9 for the distance, 13 and 1 to 6: W-202, "9 for the distance comes after 11"
    scenario = Scenario(**{**NO_DISTANCES, **ABSENT, **written})
    number = refusal(scenario)
    if number != 0:
        return turned_away(number)
    return 'E', scenario, length, data[length:]


def record(scenario):
    """Return the bytes of the one record of a scenario that is not turned away."""
    map_byte = 0
    fields = b''
    for bit, (name, size) in enumerate(FIELDS):
        number = getattr(scenario, name)
        # "a field with that number is never written"; and an absent distance has no number to write
        if number is None or name in ABSENT and number == ABSENT[name]:
            continue
        map_byte += 2 ** bit
        fields += number.to_bytes(size, 'little')
    return bytes([map_byte]) + fields


def write(scenario, lent):
    """Return ('R', number, lent bytes unchanged) or ('L', length of the record, lent bytes afterwards)."""
    # 9 for the distance, 13 and 1 to 6, then 12 page full: lent bytes shorter than the record
    number = refusal(scenario)
    if number != 0:
        return 'R', number, lent
    front = record(scenario)
    if len(lent) < len(front):
        return 'R', 12, lent
    # "Writing puts the record at the front of the lent bytes and leaves all later bytes unchanged".
    return 'L', len(front), front + lent[len(front):]
