"""Check refusals, rows, reading and writing against documents 01 and 02 (W-201, W-202), by way of records.py.

Run as: python3 tests/test_records.py ASK PROBE [COUNT] [SEED]

ASK, a host's program, and PROBE read one question from each line of their input and print one line for each, ASK

    refusal SCENARIO        -> K
    read BYTES              -> E SCENARIO LENGTH REST or R K REST
    write SCENARIO BYTES    -> L N BYTES or R K BYTES
    rows MODEL PERIOD       -> T LOWER UPPER or R K

and PROBE

    place MODEL PERIOD      -> row N, between N (and N + 1), or outside
    rest BYTES              -> REST

SCENARIO is seven words in the order of a record, MODEL MAGNITUDE RUPTURE VELOCITY MECHANISM PERIOD PROJECTION; RUPTURE
and PROJECTION are the two distances, or - where one is absent.  LOWER and UPPER are the periods of the two rows that an
answer at that period rests on, in thousandths.  Numbers are decimal; bytes are pairs of lower-case hexadecimal digits,
or - for none, and at most 259 of them.  COUNT is how many questions are drawn besides the fixed ones, 20,000 unless
given.
"""

import random
import sys
from collections import Counter
from itertools import combinations, product
from typing import NamedTuple, Optional

from ask import ask
from records import Scenario, place, read, record, refusal, rows, write

COUNT = 20000
SEED = 20080214
FAILURES_SHOWN = 10


class Question(NamedTuple):
    """A line for a program, its kind, and its answer where that is known without records.py."""

    kind: str
    line: str
    stated: Optional[str] = None


# ---------------------------------------------------------------------------
# What documents 01 and 02 print, typed in by hand, with the numbers next to their limits
# ---------------------------------------------------------------------------

PAPER = (
    ('Magnitude 449, 791 in Idriss and 499, 801 in Boore-Atkinson give 2.', (
        ('refusal 1 449 1000 7600 2 75 -', '2'),
        ('refusal 1 450 1000 7600 2 75 -', '0'),
        ('refusal 1 790 1000 7600 2 75 -', '0'),
        ('refusal 1 791 1000 7600 2 75 -', '2'),
        ('refusal 2 499 - 7600 2 75 1000', '2'),
        ('refusal 2 500 - 7600 2 75 1000', '0'),
        ('refusal 2 800 - 7600 2 75 1000', '0'),
        ('refusal 2 801 - 7600 2 75 1000', '2'))),
    ('Distance 17501 in Idriss and 20000 in Boore-Atkinson give 3.', (
        ('refusal 1 700 17500 7600 2 75 -', '0'),
        ('refusal 1 700 17501 7600 2 75 -', '3'),
        ('refusal 2 700 - 7600 2 75 17501', '0'),
        ('refusal 2 700 - 7600 2 75 19999', '0'),
        ('refusal 2 700 - 7600 2 75 20000', '3'))),
    ('Velocity 12000 and 20000 answer alike in Idriss; 20001 gives 4.', (
        ('refusal 1 700 1000 12000 2 75 -', '0'),
        ('refusal 1 700 1000 20000 2 75 -', '0'),
        ('refusal 1 700 1000 20001 2 75 -', '4'))),
    ('Refusal 6 is left with 1 to 9 and above 10000, so periods 40 and 70 [...] are now answered in both models.', (
        ('refusal 1 700 1000 7600 2 40 -', '0'),
        ('refusal 2 700 - 7600 2 40 1000', '0'),
        ('refusal 1 700 1000 7600 2 70 -', '0'),
        ('refusal 2 700 - 7600 2 70 1000', '0'),
        ('refusal 1 700 1000 7600 2 0 -', '0'),
        ('refusal 2 700 - 7600 2 0 1000', '0'),
        ('refusal 1 700 1000 7600 2 1 -', '6'),
        ('refusal 2 700 - 7600 2 1 1000', '6'),
        ('refusal 1 700 1000 7600 2 9 -', '6'),
        ('refusal 2 700 - 7600 2 9 1000', '6'),
        ('refusal 1 700 1000 7600 2 10 -', '0'),
        ('refusal 2 700 - 7600 2 10 1000', '0'),
        ('refusal 1 700 1000 7600 2 10000 -', '0'),
        ('refusal 2 700 - 7600 2 10000 1000', '0'),
        ('refusal 1 700 1000 7600 2 10001 -', '6'),
        ('refusal 2 700 - 7600 2 10001 1000', '6'),
        ('refusal 1 700 1000 7600 2 65535 -', '6'),
        ('refusal 2 700 - 7600 2 65535 1000', '6'))),
    ('answered between the two neighbouring rows of the model', (
        ('rows 1 70', 'T 50 75'),
        ('rows 2 70', 'T 50 75'),
        ('rows 1 40', 'T 40 40'),
        ('rows 2 40', 'T 30 50'),
        ('rows 1 31', 'T 30 40'),
        ('rows 2 31', 'T 30 50'),
        ('rows 1 49', 'T 40 50'),
        ('rows 2 49', 'T 30 50'),
        ('rows 1 11', 'T 10 20'),
        ('rows 2 11', 'T 10 20'),
        ('rows 1 75', 'T 75 75'),
        ('rows 2 75', 'T 75 75'),
        ('rows 1 9999', 'T 7500 10000'),
        ('rows 2 9999', 'T 7500 10000'),
        ('rows 1 10000', 'T 10000 10000'),
        ('rows 2 10000', 'T 10000 10000'),
        ('rows 1 9', 'R 6'),
        ('rows 2 10001', 'R 6'),
        ('rows 0 70', 'R 1'),
        ('rows 3 9', 'R 1'))),
    ('Period 0 uses the row 0.01. [...] Period 0 uses the row PGA.', (
        ('rows 1 0', 'T 10 10'),
        ('rows 1 10', 'T 10 10'),
        ('rows 2 0', 'T 0 0'),
        ('rows 2 10', 'T 10 10'))),
    ('Code 9: 5 by Idriss.', (
        ('refusal 1 700 1000 7600 9 75 -', '5'),
        ('refusal 2 700 - 7600 9 75 1000', '0'))),
    ('model: neither 1 nor 2', (
        ('refusal 0 700 1000 7600 2 75 1000', '1'),
        ('refusal 1 700 1000 7600 2 75 1000', '0'),
        ('refusal 2 700 1000 7600 2 75 1000', '0'),
        ('refusal 3 700 1000 7600 2 75 1000', '1'),
        ('refusal 255 700 1000 7600 2 75 1000', '1'))),
    ('A lone map byte 00 gives 9; no bytes give 7.', (
        ('read 00', 'R 9 -'),
        ('read -', 'R 7 -'))),
    ('bytes 37 01 BC 02 E8 03 02 4B 00 are Idriss, M 7.00, 10 km, 760 m/s, code 2, 0.075 s', (
        ('read 3701bc02e803024b00', 'E 1 700 1000 7600 2 75 - 9 -'),
        ('read 3701bc02e803024b00ff00', 'E 1 700 1000 7600 2 75 - 9 ff00'),
        ('write 1 700 1000 7600 2 75 - c1c2c3c4c5c6c7c8c9', 'L 9 3701bc02e803024b00'),
        ('write 1 700 1000 7600 2 75 - c1c2c3c4c5c6c7c8c9cacb', 'L 9 3701bc02e803024b00cacb'))),
    # Document 01 has `1 R 6` for the first of these; W-201 answers it.
    ('the bytes 37 01 BC 02 E8 03 02 46 00 (hexadecimal)', (
        ('read 3701bc02e803024600', 'E 1 700 1000 7600 2 70 - 9 -'),
        ('read 3701bc02e803024600ff', 'E 1 700 1000 7600 2 70 - 9 ff'),
        ('write 1 700 1000 7600 2 70 - c1c2c3c4c5c6c7c8c9cacb', 'L 9 3701bc02e803024600cacb'),
        ('read 3701bc02e803020900', 'R 6 -'),
        ('read 3701bc02e803020900ff', 'R 6 -'))),
    ('Low byte first.', (
        ('read 7b02bc024c1d03d007020155', 'E 2 700 - 7500 3 2000 258 11 55'),
        ('read 7b02bc024c1d03d0070102', 'E 2 700 - 7500 3 2000 513 11 -'),
        ('read 7b0202bc4c1d03d0070201', 'R 2 -'),
        ('read 7b02bc021d4c03d0070201', 'R 4 -'),
        ('read 7b02bc024c1d0307d00201', 'R 6 -'),
        ('read 7b02bc024c1d030201020155', 'E 2 700 - 7500 3 258 258 11 55'),
        ('read 7b02bc024c1d030102020155', 'E 2 700 - 7500 3 513 258 11 55'),
        ('read 7f02bc0201024c1d03d007020155', 'E 2 700 513 7500 3 2000 258 13 55'),
        ('read 7f02bc0202014c1d03d007010255', 'R 13 -'),
        ('write 2 700 - 7500 3 513 258 000000000000000000000055', 'L 11 7b02bc024c1d030102020155'),
        ('write 2 700 - 7500 3 2000 258 000000000000000000000055', 'L 11 7b02bc024c1d03d007020155'),
        ('write 2 700 513 7500 3 2000 258 0000000000000000000000000055', 'L 13 7f02bc0201024c1d03d007020155'),
        ('write 1 515 513 10000 4 10000 - 0000000000000000000000', 'L 11 3f01030201021027041027'),
        ('write 1 515 513 10000 4 10000 258 00000000000000000000000000', 'L 13 7f010302010210270410270201'))),
    ('An absent velocity is 7600, mechanism 9, period 0; a field with that number is never written.', (
        ('read 4302bc02e803', 'E 2 700 - 7600 9 0 1000 6 -'),
        ('read 4b02bc02b01de803', 'R 11 -'),
        ('read 5302bc0209e803', 'R 11 -'),
        ('read 6302bc020000e803', 'R 11 -'),
        ('write 2 700 - 7600 9 0 1000 ffffffffffff', 'L 6 4302bc02e803'))),
    ('lent bytes shorter than the record [...] lent bytes do not change', (
        ('write 2 700 - 7600 9 0 1000 ffffffffff', 'R 12 ffffffffff'),
        ('write 2 700 - 7600 9 0 1000 -', 'R 12 -'),
        ('write 2 700 - 7600 9 40 1000 ffffffffffffffffffff', 'L 8 6302bc022800e803ffff'),
        ('write 2 700 - 7600 9 40 1000 ffffffffffffff', 'R 12 ffffffffffffff'),
        ('write 2 700 - 7600 9 9 1000 ffffffffffffffffffff', 'R 6 ffffffffffffffffffff'),
        ('write 2 700 - 7600 9 10001 1000 -', 'R 6 -'))),
    ('Idriss needs bit 2 and Boore-Atkinson bit 6, else 9; the other may stand.', (
        ('refusal 1 700 1000 7600 2 75 -', '0'),
        ('refusal 1 700 1000 7600 2 75 999', '0'),
        ('refusal 1 700 - 7600 2 75 1000', '9'),
        ('refusal 1 700 - 7600 2 75 -', '9'),
        ('refusal 2 700 - 7600 2 75 1000', '0'),
        ('refusal 2 700 1044 7600 2 75 1000', '0'),
        ('refusal 2 700 1000 7600 2 75 -', '9'),
        ('refusal 2 700 - 7600 2 75 -', '9'),
        ('read 7701bc02e803024b00e703', 'E 1 700 1000 7600 2 75 999 11 -'),
        ('read 7301bc02024b00e803', 'R 9 -'),
        ('read 3301bc02024b00', 'R 9 -'),
        # An accepted record of Boore-Atkinson before W-202.
        ('read 3702bc02e803024b00', 'R 9 -'),
        ('read 0702bc02e803', 'R 9 -'),
        ('read 7302bc02024b00e803', 'E 2 700 - 7600 2 75 1000 9 -'),
        ('read 7702bc021404024b00e803', 'E 2 700 1044 7600 2 75 1000 11 -'),
        ('read 7702bc021404024b00e8035a', 'E 2 700 1044 7600 2 75 1000 11 5a'),
        ('read 7702bc021404024b00e8', 'R 7 -'),
        ('read 7701bc02e803024b00e7', 'R 7 -'),
        ('read 7701bc02e803024b00', 'R 7 -'),
        ('read 3302bc02024b00', 'R 9 -'),
        ('write 1 700 1000 7600 2 75 999 c1c2c3c4c5c6c7c8c9cacbcc', 'L 11 7701bc02e803024b00e703cc'),
        ('write 2 700 1044 7600 2 75 1000 c1c2c3c4c5c6c7c8c9cacbcc', 'L 11 7702bc021404024b00e803cc'),
        ('write 2 700 1044 7600 2 75 1000 c1c2c3c4c5c6c7c8c9ca', 'R 12 c1c2c3c4c5c6c7c8c9ca'),
        ('write 1 700 - 7600 2 75 1000 c1c2c3c4c5c6c7c8c9cacb', 'R 9 c1c2c3c4c5c6c7c8c9cacb'),
        ('write 2 700 1000 7600 2 75 - c1c2c3c4c5c6c7c8c9cacb', 'R 9 c1c2c3c4c5c6c7c8c9cacb'))),
    ('An absent distance has no number, not even 0', (
        ('refusal 1 700 0 7600 2 75 -', '0'),
        ('refusal 1 700 0 7600 2 75 0', '0'),
        ('refusal 2 700 - 7600 2 75 0', '0'),
        ('refusal 2 700 0 7600 2 75 0', '0'),
        # Were an absent distance 0, both of these would be 13 or 0.
        ('refusal 1 700 - 7600 2 75 0', '9'),
        ('refusal 2 700 0 7600 2 75 -', '9'),
        ('read 1701bc02000002', 'E 1 700 0 7600 2 0 - 7 -'),
        ('read 5701bc020000020000', 'E 1 700 0 7600 2 0 0 9 -'),
        ('read 4302bc020000', 'E 2 700 - 7600 9 0 0 6 -'),
        ('read 4702bc0200000000', 'E 2 700 0 7600 9 0 0 8 -'),
        ('write 1 700 0 7600 2 0 - ffffffffffffffffff', 'L 7 1701bc02000002ffff'),
        ('write 1 700 0 7600 2 0 0 ffffffffffffffffff', 'L 9 5701bc020000020000'),
        ('write 2 700 - 7600 9 0 0 ffffffffffffffffff', 'L 6 4302bc020000ffffff'),
        ('write 2 700 0 7600 9 0 0 ffffffffffffffffff', 'L 8 4702bc0200000000ff'))),
    ('In reading, 9 for bits 0 and 1 keeps its place, and 9 for the distance comes after 11.', (
        ('read 0b01bc02b01d', 'R 11 -'),
        ('read 0b01bc024c1d', 'R 9 -'),
        ('read 0b01bc02b0', 'R 7 -'),
        ('read 0b01bc024c', 'R 7 -'),
        ('read 0f02bc02e803b01d', 'R 11 -'),
        ('read 0f02bc02e8034c1d', 'R 9 -'),
        ('read 0301bc', 'R 7 -'),
        ('read 0301bc02', 'R 9 -'),
        ('read 0302bc02', 'R 9 -'),
        ('read 02bc', 'R 9 -'),
        ('read 01', 'R 9 -'),
        ('read 0a', 'R 9 -'),
        ('read 7c', 'R 9 -'))),
    ('Writing and answering begin with 9 for the distance.', (
        ('refusal 1 449 - 20001 9 9 65535', '9'),
        ('refusal 2 499 65535 1799 4 9 -', '9'),
        ('write 1 700 - 7600 2 75 - -', 'R 9 -'),
        ('write 2 499 65535 1799 4 9 - c1', 'R 9 c1'))),
    ('A model that is neither 1 nor 2 needs no distance.', (
        ('refusal 0 700 - 7600 2 75 -', '1'),
        ('refusal 3 700 - 7600 2 75 -', '1'),
        ('refusal 3 700 1000 7600 2 75 -', '1'),
        ('refusal 3 700 - 7600 2 75 1000', '1'),
        ('refusal 255 700 - 7600 2 75 -', '1'),
        ('read 0303bc02', 'R 1 -'),
        ('read 0300bc02', 'R 1 -'),
        ('read 03ffbc02', 'R 1 -'),
        ('read 0703bc02e803', 'R 1 -'),
        ('read 4303bc02e803', 'R 1 -'),
        ('write 3 700 - 7600 9 0 - -', 'R 1 -'),
        ('write 3 700 - 7600 9 0 - c1c2c3c4', 'R 1 c1c2c3c4'))),
    ('both stand and the projection distance exceeds the rupture distance [...] just before 1', (
        ('refusal 1 700 1000 7600 2 75 1000', '0'),
        ('refusal 1 700 1000 7600 2 75 1001', '13'),
        ('refusal 1 700 1000 7600 2 75 65535', '13'),
        ('refusal 1 700 0 7600 2 75 1', '13'),
        ('refusal 2 700 1000 7600 2 75 1000', '0'),
        ('refusal 2 700 999 7600 2 75 1000', '13'),
        ('refusal 2 700 0 7600 2 75 1', '13'),
        ('refusal 0 700 1000 7600 2 75 1001', '13'),
        ('refusal 3 700 1000 7600 2 75 1001', '13'),
        ('refusal 255 0 0 0 0 1 65535', '13'),
        ('refusal 1 449 17501 20001 9 9 17502', '13'),
        ('refusal 2 801 20000 1799 4 9 20001', '13'),
        ('read 7701bc02e803024b00e903', 'R 13 -'),
        ('read 7702bc02e803024b00e903', 'R 13 -'),
        ('read 4703bc02e803e903', 'R 13 -'),
        ('read 4703bc02e803e803', 'R 1 -'),
        ('read 4f01bc02e803b01de903', 'R 11 -'),
        ('read 7701bc02e803024b00e9', 'R 7 -'),
        ('write 1 700 1000 7600 2 75 1001 -', 'R 13 -'),
        ('write 3 700 1000 7600 2 75 1001 c1c2', 'R 13 c1c2'),
        ('write 2 700 999 7600 2 75 1000 c1c2c3c4c5c6c7c8c9cacb', 'R 13 c1c2c3c4c5c6c7c8c9cacb'))),
    ('The limit of refusal 3 is applied to the distance that the model reads.', (
        ('refusal 1 700 17500 7600 2 75 17500', '0'),
        ('refusal 1 700 17501 7600 2 75 17500', '3'),
        ('refusal 1 700 17501 7600 2 75 0', '3'),
        ('refusal 2 700 65535 7600 2 75 19999', '0'),
        ('refusal 2 700 17501 7600 2 75 0', '0'),
        ('refusal 2 700 20000 7600 2 75 19999', '0'),
        ('refusal 2 700 20000 7600 2 75 20000', '3'),
        ('refusal 2 700 65535 7600 2 75 20000', '3'),
        ('read 4702bc02ffff1f4e', 'E 2 700 65535 7600 9 0 19999 8 -'),
        ('write 2 700 65535 7600 9 0 19999 0000000000000000', 'L 8 4702bc02ffff1f4e'),
        ('read 4702bc02ffff204e', 'R 3 -'))),
    ('Only bit 7 is spare now.', (
        ('read 80', 'R 8 -'),
        ('read ff', 'R 8 -'),
        ('read 83', 'R 8 -'),
        ('read b701bc02e803024b00', 'R 8 -'),
        ('read f701bc02e803024b00e803', 'R 8 -'),
        ('read 40', 'R 9 -'),
        ('read 43', 'R 7 -'),
        ('read 7f', 'R 7 -'))),
)

# The table of 'The scenario', each limit and one step either side: model, refusal, accepted, turned away.
LIMITS = (
    (1, 2, (450, 451, 789, 790), (449, 791)),
    (2, 2, (500, 501, 799, 800), (499, 801)),
    (1, 3, (0, 1, 17499, 17500), (17501,)),
    (2, 3, (0, 1, 19998, 19999), (20000,)),
    (1, 4, (4500, 4501, 12000, 19999, 20000), (4499, 20001)),
    (2, 4, (1800, 1801, 12999, 13000), (1799, 13001)),
)

# The codes of 'The scenario', by model.
CODES = {1: (0, 1, 2, 3, 4), 2: (0, 1, 2, 3, 9)}

# Each period's row in Idriss and in Boore-Atkinson; 22 is none.
ROWS = (
    (0, 0, 0), (10, 0, 1), (20, 1, 2), (30, 2, 3), (40, 3, 22), (50, 4, 4), (75, 5, 5), (100, 6, 6), (150, 7, 7),
    (200, 8, 8), (250, 9, 9), (300, 10, 10), (400, 11, 11), (500, 12, 12), (750, 13, 13), (1000, 14, 14),
    (1500, 15, 15), (2000, 16, 16), (3000, 17, 17), (4000, 18, 18), (5000, 19, 19), (7500, 20, 20), (10000, 21, 21),
)

# Accepted scenarios, every field of which has to be written, but for the distance that the model does not read.
GOOD = {1: Scenario(1, 700, 1000, 7500, 2, 75, None), 2: Scenario(2, 650, None, 3600, 1, 200, 258)}
# The same with both distances.
FULL = {1: GOOD[1]._replace(projection_distance=997), 2: GOOD[2]._replace(rupture_distance=515)}
# The same, the distance to the projection the greater one.
CROSSED = {1: GOOD[1]._replace(projection_distance=1001), 2: GOOD[2]._replace(rupture_distance=257)}

# The places of the two distances, and of the one that each model reads and of the other.
RUPTURE, PROJECTION = 2, 6
OWN = {1: RUPTURE, 2: PROJECTION}
OTHER = {1: PROJECTION, 2: RUPTURE}

# For each model, numbers that are turned away by the refusals 2 to 6.
WRONG = {
    1: {2: (449, 791), 3: (17501, 65534), 4: (4499, 20001), 5: (5, 9), 6: (9, 10001)},
    2: {2: (499, 801), 3: (20000, 65535), 4: (1799, 13001), 5: (4, 10), 6: (1, 65535)},
}

# Numbers of a distance, or none: next to each other, to both limits and to the ends of the field.
DISTANCES = (None, 0, 1, 2, 999, 1000, 1001, 17499, 17500, 17501, 17502, 19998, 19999, 20000, 20001, 65534, 65535)
# Both models, those next to them, and the last number.
MODELS = (0, 1, 2, 3, 255)

# Map bytes in which bits 0 and 1 stand and 7 is clear; and those of them with the distance that a model reads.
MAPS = tuple(range(0x03, 0x80, 4))
GOOD_MAPS = {model: tuple(map_byte for map_byte in MAPS if map_byte >> OWN[model] & 1) for model in (1, 2)}
SIZES = (1, 2, 2, 2, 1, 2, 2)
DEFAULTS = {3: 7600, 4: 9, 5: 0}
# The bytes of the longest record.
WHOLE = 13
# A number of bytes that does not fit 8 bits; its low 8 bits are 3, too few for a record.
MANY = 259


# ---------------------------------------------------------------------------
# Lines and bytes
# ---------------------------------------------------------------------------

def show(data):
    """Return bytes as the programs write them."""
    return data.hex() or '-'


def taken(word):
    """Return the bytes that a word of a line stands for."""
    return b'' if word == '-' else bytes.fromhex(word)


def text(*words):
    """Return a line of words; an absent distance is a dash."""
    return ' '.join('-' if word is None else str(word) for word in words)


def scenario_of(words):
    """Return the scenario that seven words of a line stand for."""
    return Scenario(*(None if word == '-' else int(word) for word in words))


def with_fields(scenario, numbers):
    """Return a scenario with some fields, counted from 0, changed."""
    return Scenario(*[numbers.get(place, number) for place, number in enumerate(scenario)])


def place_of(model, number):
    """Return the place of the field that a refusal from 1 to 6 of a model is about."""
    return OWN[model] if number == 3 else number - 1


def raw(map_byte, scenario):
    """Return a map byte and the fields that it calls for, whatever their numbers are."""
    return bytes([map_byte]) + b''.join(
        number.to_bytes(size, 'little')
        for bit, (number, size) in enumerate(zip(scenario, SIZES)) if map_byte >> bit & 1)


def map_of(scenario):
    """Return the map byte of a scenario whose defaults and absent distances are not written."""
    absent = {**DEFAULTS, RUPTURE: None, PROJECTION: None}
    return 0x03 + sum(1 << bit for bit, number in absent.items() if scenario[bit] != number)


def as_read(map_byte, scenario):
    """Return a scenario with the absent number, or none, in each field that the map does not call for."""
    absent = {**DEFAULTS, RUPTURE: None, PROJECTION: None}
    return with_fields(scenario, {bit: number for bit, number in absent.items() if not map_byte >> bit & 1})


def rising(length):
    """Return bytes to lend: a pattern in which neighbours differ."""
    return bytes((0xc1 + 7 * place) % 256 for place in range(length))


def subsets(items, most=None):
    """Return every non-empty choice from the items, of at most so many."""
    sizes = range(1, (len(items) if most is None else most) + 1)
    return [chosen for size in sizes for chosen in combinations(items, size)]


def answer(line):
    """Return what records.py answers to a line."""
    name, *words = line.split(' ')
    if name == 'place':
        return place(int(words[0]), int(words[1]))
    if name == 'rows':
        return text(*rows(int(words[0]), int(words[1])))
    if name == 'read':
        answered = read(taken(words[0]))
        if answered[0] == 'R':
            return text('R', answered[1], show(answered[2]))
        return text('E', *answered[1], answered[2], show(answered[3]))
    scenario = scenario_of(words[:7])
    if name == 'refusal':
        return str(refusal(scenario))
    letter, number, lent = write(scenario, taken(words[7]))
    return text(letter, number, show(lent))


# ---------------------------------------------------------------------------
# Questions that are always asked
# ---------------------------------------------------------------------------

def three_ways(kind, scenario, number):
    """Ask for a scenario's refusal, write it and read it; the number is 0 or the refusal of all three."""
    front = raw(map_of(scenario), scenario)
    lent = rising(WHOLE + 2)
    yield Question(kind, text('refusal', *scenario), str(number))
    if number:
        yield Question(kind, text('write', *scenario, show(lent)), text('R', number, show(lent)))
        yield Question(kind, text('read', show(front + b'\x5a')), text('R', number, '-'))
    else:
        after = front + lent[len(front):]
        yield Question(kind, text('write', *scenario, show(lent)), text('L', len(front), show(after)))
        yield Question(kind, text('read', show(front + b'\x5a')), text('E', *scenario, len(front), '5a'))


def paper():
    """What documents 01 and 02 print, and the numbers next to their limits."""
    for words, lines in PAPER:
        for line, stated in lines:
            yield Question(f'"{words}"', line, stated)


def limits():
    """Each limit and one step either side, the least and the greatest number; with and without the other distance."""
    kind = 'limits'
    for model, number, accepted, turned_away in LIMITS:
        at = place_of(model, number)
        # The other distance is no reason for 13, whatever the distance is that the model reads.
        for other in (None, {1: 0, 2: 65535}[model]):
            base = with_fields(GOOD[model], {OTHER[model]: other})
            for value in accepted:
                yield from three_ways(kind, with_fields(base, {at: value}), 0)
            for value in turned_away + ((0, 65535) if number != 3 else (65535,)):
                yield from three_ways(kind, with_fields(base, {at: value}), number)


def codes():
    """Every mechanism code in both models, and every model, with each choice of distances."""
    for code in range(256):
        for model in (1, 2):
            number = 0 if code in CODES[model] else 5
            yield from three_ways('mechanism codes', with_fields(GOOD[model], {4: code}), number)
    choices = ((None, None), (1000, None), (None, 1000), (1000, 1000), (1000, 1001))
    for model in range(256):
        # "A model that is neither 1 nor 2 needs no distance."
        numbers = {1: (9, 0, 9, 0, 13), 2: (9, 9, 0, 0, 13)}.get(model, (1, 1, 1, 1, 13))
        for (rupture, projection), number in zip(choices, numbers):
            yield from three_ways('models', Scenario(model, 700, rupture, 7500, 2, 75, projection), number)


def distances():
    """Each two numbers of the distances, or none, in both models and in others."""
    for model, rupture, projection in product(MODELS, DISTANCES, DISTANCES):
        if (model, rupture) == (1, None) or (model, projection) == (2, None):
            number = 9
        elif None not in (rupture, projection) and rupture < projection:
            number = 13
        elif model not in (1, 2):
            number = 1
        else:
            own, last = (rupture, 17500) if model == 1 else (projection, 19999)
            number = 3 if own > last else 0
        yield from three_ways('distances', Scenario(model, 700, rupture, 7500, 2, 75, projection), number)


def combined_fields():
    """Every choice of fields that stand and of those that are absent, in both models and in others."""
    for model, map_byte in product(MODELS, MAPS):
        full = FULL.get(model, FULL[1]._replace(model=model))
        if model not in (1, 2):
            number = 1
        elif map_byte not in GOOD_MAPS[model]:
            number = 9
        else:
            # An absent mechanism is 9, which is not a code of Idriss.
            number = 5 if model == 1 and not map_byte & 0x10 else 0
        yield from three_ways('fields that stand or are absent', as_read(map_byte, full), number)


def wrong_fields(model, chosen, side):
    """Return the numbers of the fields that chosen refusals from 2 to 6 turn away, by place."""
    return {place_of(model, number): WRONG[model][number][side] for number in chosen}


def refusal_order():
    """Every choice of the refusals 1 to 6 at once, alone and with 9 or 13: 9 comes first, then 13, then the least."""
    kind = 'order of the refusals'
    for model, chosen, side in product((1, 2), subsets((2, 3, 4, 5, 6)), (0, 1)):
        wrong = wrong_fields(model, chosen, side)
        asked = [(with_fields(GOOD[model], wrong), chosen[0])]
        # With another model 1 comes first, whichever distance stands.
        asked += [(scenario._replace(model=(0, 3)[side]), 1) for scenario, _ in asked]
        asked += [(with_fields(scenario, {OWN[model]: None}), 1) for scenario, _ in asked[1:]]
        # 13, also before 1: both distances stand, and that to the projection is one more or far more.  Together with 3
        # the distance that the model reads is beyond its limit.
        own = wrong.get(OWN[model], GOOD[model][OWN[model]])
        for other in {1: (own + 1, 65535), 2: (own - 1, 0)}[model]:
            crossed = with_fields(GOOD[model], {**wrong, OTHER[model]: other})
            asked += [(crossed, 13), (crossed._replace(model=(0, 3)[side]), 13)]
        # 9 cannot meet 3: the distance that the model reads is absent.  Nor can it meet 13, for which both stand; nor
        # 1, as another model needs no distance.
        if 3 not in chosen:
            asked += [(with_fields(GOOD[model], {**wrong, OWN[model]: None, OTHER[model]: other}), 9)
                      for other in (None, 0, 65535)]
        for scenario, number in asked:
            yield from three_ways(kind, scenario, number)
            # 9, 13 and 1 to 6 come before 12.
            for room in (0, 1, 5, WHOLE - 1, WHOLE, MANY):
                lent = show(rising(room))
                yield Question(kind, text('write', *scenario, lent), text('R', number, lent))


def before_page_full():
    """9 and 13 before 12: with each room, and all else accepted."""
    for model, room in product((1, 2), (*range(WHOLE + 2), MANY)):
        for scenario, number in ((with_fields(FULL[model], {OWN[model]: None}), 9),
                                 (with_fields(GOOD[model], {OWN[model]: None}), 9), (CROSSED[model], 13)):
            for lent in (rising(room), bytes(room)):
                line = text('write', *scenario, show(lent))
                yield Question('9 and 13 before 12', line, text('R', number, show(lent)))


# The faults of a record in the order in which reading looks for them; 9 is looked for in two places.
READING = ('8', '9, bit 0', '9, bit 1', '7', '11', '9, distance', '13', '1', '2', '3', '4', '5', '6')


def faulty(model, faults, default):
    """Return a record with all of some faults; the default written out, where there is one, has this place."""
    numbers = dict(enumerate(FULL[model]))
    map_byte = 0x7f
    for fault in faults:
        if fault in ('2', '3', '4', '5', '6'):
            numbers.update(wrong_fields(model, (int(fault),), 0))
    if '13' in faults:
        numbers[OTHER[model]] = numbers[OWN[model]] + (1 if model == 1 else -1)
    elif '3' in faults and model == 2:
        # The other distance is not the lesser one.
        numbers[RUPTURE] = numbers[PROJECTION]
    if '11' in faults:
        numbers[default] = DEFAULTS[default]
    if '1' in faults:
        numbers[0] = 3
    for fault, bit in (('9, bit 0', 0), ('9, bit 1', 1), ('9, distance', OWN[model])):
        map_byte &= ~(1 << bit) if fault in faults else 0xff
    whole = raw(map_byte | (0x80 if '8' in faults else 0), Scenario(*numbers.values()))
    return whole[:-1] if '7' in faults else whole + b'\xa5'


def reading_order():
    """Every choice of up to four faults of a record: that which reading looks for first is given."""
    for model, faults in product((1, 2), subsets(READING, 4)):
        if '9, distance' in faults and {'13', '3'} & {*faults}:
            # They cannot meet: an absent distance is neither beyond a limit nor the lesser one of two.
            continue
        # Nor can 9 for the distance and 1, as another model needs no distance: 1 is given.
        due = [fault for fault in faults if not (fault == '9, distance' and '1' in faults)]
        for default in DEFAULTS if '11' in faults else (None,):
            if default is not None and str(default + 1) in faults:
                # The field that is wrong cannot hold its absent number.
                continue
            number = due[0].split(',')[0]
            yield Question('order in reading', text('read', show(faulty(model, faults, default))), f'R {number} -')


def periods():
    """The place of every period in both models, and whether periods are turned away."""
    for model in (1, 2):
        row_numbers = {period: numbers[model - 1] for period, *numbers in ROWS if numbers[model - 1] != 22}
        last = 'outside'
        for period in range(65536):
            number = row_numbers.get(period, 22)
            if number != 22:
                # What follows lies between this row and the next, but after period 0 and after the last row.
                last = 'outside' if period in (0, 10000) else f'between {number}'
            yield Question('places', text('place', model, period), last if number == 22 else f'row {number}')
            # Every tabled period, the numbers beside it and beside all other multiples of 5, and the greatest.
            if period % 5 in (0, 1, 4) and period <= 10001 or period == 65535:
                scenario = (GOOD, FULL)[period % 2][model]._replace(period=period)
                yield from three_ways('periods', scenario, 6 if 0 < period < 10 or period > 10000 else 0)


def periods_of_rows():
    """The two rows of every period in both models, and of some in every model."""
    kind = 'rows'
    for model in (1, 2):
        tabled = [period for period, *numbers in ROWS if period and numbers[model - 1] != 22]
        # Period 0: the row 0.01 of Idriss, the row PGA of Boore-Atkinson; then 1 to 9.
        first = 'T 10 10' if model == 1 else 'T 0 0'
        stated = [first, *['R 6'] * 9]
        for lower, upper in zip(tabled, tabled[1:]):
            stated += [text('T', lower, lower), *[text('T', lower, upper)] * (upper - lower - 1)]
        stated += ['T 10000 10000', *['R 6'] * 55535]
        for period, line in enumerate(stated):
            yield Question(kind, text('rows', model, period), line)
    for model in (0, *range(3, 256)):
        for period in (0, 1, 9, 10, 11, 40, 70, 75, 9999, 10000, 10001, 65535):
            yield Question(kind, text('rows', model, period), 'R 1')


def map_bytes():
    """Every map byte with every number of bytes from none to one more than the longest record has."""
    wrong = Scenario(3, 0, 65535, 0, 200, 9, 65535)
    # What stands in the fields, whether defaults are among it, and whether the distance to the projection is greater.
    contents = [(FULL[1], False, False), (FULL[2], False, False), (with_fields(FULL[2], DEFAULTS), True, False),
                (CROSSED[1], False, True), (CROSSED[2]._replace(model=255), False, True), (wrong, False, False),
                (with_fields(wrong, DEFAULTS), True, False)]
    for map_byte in range(256):
        for scenario, has_defaults, crossed in contents:
            whole = raw(map_byte & 0x7f, scenario)
            for length in range(WHOLE + 2):
                data = (bytes([map_byte]) + whole[1:] + rising(WHOLE + 1))[:length]
                yield Question('map bytes', text('read', show(data)),
                               due_for_map(map_byte, data, len(whole), scenario, has_defaults, crossed))


def due_for_map(map_byte, data, length, scenario, has_defaults, crossed):
    """Return what is due for bytes that begin with a map byte; the record has this length."""
    if not data:
        return 'R 7 -'
    if map_byte >= 0x80:
        return 'R 8 -'
    if map_byte not in MAPS:
        return 'R 9 -'
    if len(data) < length:
        return 'R 7 -'
    if has_defaults and map_byte & 0x38:
        return 'R 11 -'
    if scenario.model in (1, 2) and map_byte not in GOOD_MAPS[scenario.model]:
        return 'R 9 -'
    if crossed and map_byte & 0x44 == 0x44:
        return 'R 13 -'
    if scenario.model not in (1, 2):
        return 'R 1 -'
    # An absent mechanism is 9, which is not a code of Idriss.
    if scenario.model == 1 and not map_byte & 0x10:
        return 'R 5 -'
    return text('E', *as_read(map_byte, scenario), length, show(data[length:]))


def prefixes():
    """Each length from no bytes to a whole record and one byte more, and many bytes."""
    kind = 'prefixes'
    for model in (1, 2):
        for map_byte in GOOD_MAPS[model]:
            scenario = as_read(map_byte, FULL[model])
            whole = raw(map_byte, scenario)
            for length in range(len(whole)):
                yield Question(kind, text('read', show(whole[:length])), 'R 7 -')
            for rest in (b'', b'\xa5', rising(MANY - len(whole))):
                # An absent mechanism is 9, which is not a code of Idriss.
                unknown = model == 1 and not map_byte & 0x10
                stated = 'R 5 -' if unknown else text('E', *scenario, len(whole), show(rest))
                yield Question(kind, text('read', show(whole + rest)), stated)


def defaults():
    """Each default written out, alone and with others, and with other refusals in the same record."""
    kind = 'defaults written out'
    # Also without the distance that the model reads: 11 comes before 9 for it, and before 13.
    for model, map_byte in product((1, 2), MAPS):
        for chosen in subsets([bit for bit in DEFAULTS if map_byte >> bit & 1]):
            scenario = with_fields(FULL[model], {bit: DEFAULTS[bit] for bit in chosen})
            whole = raw(map_byte, scenario)
            yield Question(kind, text('read', show(whole)), 'R 11 -')
            yield Question(kind, text('read', show(whole + b'\xa5\x07')), 'R 11 -')
            yield Question(kind, text('read', show(whole[:-1])), 'R 7 -')
            yield Question(kind, text('read', show(raw(map_byte | 0x80, scenario))), 'R 8 -')
            yield Question(kind, text('read', show(raw(map_byte & ~0x01, scenario))), 'R 9 -')
            yield Question(kind, text('read', show(raw(map_byte & ~0x02, scenario))), 'R 9 -')
            others = {0: 3, OTHER[model]: CROSSED[model][OTHER[model]], **wrong_fields(model, (2, 3, 4, 5, 6), 0)}
            for places in subsets([place for place in others if place not in chosen], 3):
                wrong = with_fields(scenario, {place: others[place] for place in places})
                yield Question(kind, text('read', show(raw(map_byte, wrong))), 'R 11 -')


def not_defaults():
    """Numbers that resemble a default, or stand in another field; a distance has none."""
    kind = 'no defaults'
    for place, value, number in (
            (0, 9, 1), (0, 0, 1), (1, 0, 2), (1, 9, 2), (1, 7600, 2),
            (3, 0, 4), (3, 9, 4), (3, 7599, 0), (3, 7601, 0), (3, 7344, 0), (3, 7856, 0), (3, 45085, 4),
            (4, 0, 0), (4, 8, 5), (4, 176, 5), (5, 1, 6), (5, 9, 6), (5, 256, 0), (5, 7600, 0), (5, 45085, 6)):
        for model in (1, 2):
            for base in (GOOD, FULL):
                yield from three_ways(kind, with_fields(base[model], {place: value}), number)
    for model in (1, 2):
        for value in (0, 9, 7600):
            # In the distance that the model reads, in both, and in the other.
            yield from three_ways(kind, with_fields(GOOD[model], {OWN[model]: value}), 0)
            yield from three_ways(kind, with_fields(GOOD[model], {OWN[model]: value, OTHER[model]: value}), 0)
            own = {1: 17500, 2: 0}[model]
            yield from three_ways(kind, with_fields(GOOD[model], {OWN[model]: own, OTHER[model]: value}), 0)


def writing():
    """Every choice of fields that are written, with no room, too little, enough and more."""
    kind = 'writing'
    for model, map_byte in product((1, 2), MAPS):
        scenario = as_read(map_byte, FULL[model])
        front = raw(map_byte, scenario)
        for room in (*range(WHOLE + 2), 64, MANY):
            for lent in (rising(room), b'\xff' * room):
                if map_byte not in GOOD_MAPS[model]:
                    stated = text('R', 9, show(lent))
                # An absent mechanism is 9, which is not a code of Idriss.
                elif model == 1 and not map_byte & 0x10:
                    stated = text('R', 5, show(lent))
                elif room < len(front):
                    stated = text('R', 12, show(lent))
                else:
                    stated = text('L', len(front), show(front + lent[len(front):]))
                yield Question(kind, text('write', *scenario, show(lent)), stated)


def byte_order():
    """Numbers whose two bytes differ, in each field of two bytes; some are accepted either way round."""
    kind = 'low byte first'
    for model in (1, 2):
        for magnitude, own in product((511, 513, 515, 700, 770), (1, 255, 256, 258, 513, 4660, 13330)):
            for turn, (velocity, period) in enumerate(product((4864, 7500, 7601, 12345), (75, 258, 513, 1000, 10000))):
                # The other distance is absent, the same, or accepted one way round only.
                other = (None, own, {1: own // 256, 2: 256 * (own % 256) + 255}[model])[turn % 3]
                fields = {OWN[model]: own, OTHER[model]: other}
                scenario = with_fields(Scenario(model, magnitude, 0, velocity, 3, period, 0), fields)
                crossed = None not in fields.values() and scenario.projection_distance > scenario.rupture_distance
                yield from three_ways(kind, scenario, 13 if crossed else 0)


FIXED = (paper, limits, codes, distances, combined_fields, refusal_order, before_page_full, reading_order, periods,
         periods_of_rows, map_bytes, prefixes, defaults, not_defaults, writing, byte_order)


# ---------------------------------------------------------------------------
# Questions that are drawn
# ---------------------------------------------------------------------------

def some_bytes(rng, least, most):
    """Draw some bytes."""
    return rng.randbytes(rng.randint(least, most))


def draw_distances(rng, model, own):
    """Draw the two distances of an accepted scenario: that which the model reads is given, the other may be absent."""
    if model == 1:
        return own, rng.choice((None, None, own, rng.randint(0, own)))
    return rng.choice((None, None, own, rng.randint(own, 65535))), own


def accepted(rng):
    """Draw a scenario within the limits, often with defaults, and every other time with both distances."""
    model = rng.choice((1, 2))
    ends = {number: (min(values), max(values)) for limited, number, values, _ in LIMITS if limited == model}
    magnitude, own, velocity = (rng.randint(*ends[number]) for number in (2, 3, 4))
    rupture, projection = draw_distances(rng, model, own)
    if rng.randrange(3) == 0:
        velocity = 7600
    mechanism = 9 if model == 2 and rng.randrange(3) == 0 else rng.choice(CODES[model])
    tabled = [period for period, *numbers in ROWS if period and numbers[model - 1] != 22]
    # As often a tabled period as one between two rows.
    between = rng.choice([range(lower + 1, upper) for lower, upper in zip(tabled, tabled[1:])])
    period = 0 if rng.randrange(3) == 0 else rng.choice(rng.choice((tabled, between)))
    return Scenario(model, magnitude, rupture, velocity, mechanism, period, projection)


def near_limits(rng):
    """Draw a scenario some of whose fields are at a limit of either model, or one step beside it; or without some."""
    beside_tabled = [max(tabled + step, 0) for tabled, *_ in ROWS for step in (-1, 0, 1)]
    near = {0: [0, 1, 2, 3], 4: [*range(11), 255], 5: beside_tabled + [9, 10, 10000, 10001] * 5}
    for model, number, inside, outside in LIMITS:
        for place in (RUPTURE, PROJECTION) if number == 3 else (place_of(model, number),):
            near[place] = near.get(place, []) + list(inside + outside)
    for place in (RUPTURE, PROJECTION):
        near[place] = near[place] + [None] * 3
    return with_fields(accepted(rng), {place: rng.choice(near[place]) for place in near if rng.randrange(3) == 0})


def beside_each_other(rng):
    """Draw a scenario whose distances are equal or next to each other, at times with another model."""
    scenario = accepted(rng)
    own = scenario[OWN[scenario.model]]
    other = max(own + rng.choice((-2, -1, -1, 0, 1, 1, 2)), 0)
    model = rng.choice((scenario.model, scenario.model, 3 - scenario.model, rng.randrange(256)))
    return with_fields(scenario, {OTHER[scenario.model]: other, 0: model})


def uniform(rng):
    """Draw each field evenly from all its numbers, mostly with a model that is there; distances may be absent."""
    scenario = Scenario(*[rng.randrange(256 ** size) for size in SIZES])
    absent = {place: None for place in (RUPTURE, PROJECTION) if rng.randrange(4) == 0}
    return with_fields(scenario, {**absent, 0: rng.choice((1, 2, scenario.model))})


def ask_scenario(rng, scenario):
    """Draw a way to ask for a scenario."""
    way = rng.randrange(4)
    if way == 0:
        return text('refusal', *scenario)
    if way == 1:
        return text('write', *scenario, show(some_bytes(rng, WHOLE, 20)))
    map_byte = map_of(scenario)
    if way == 3:
        # Any fields may be left out, and a field that is called for may be any number.
        map_byte = rng.choice(MAPS)
        scenario = Scenario(*[rng.randrange(65536) if number is None else number for number in scenario])
    return text('read', show(raw(map_byte, scenario) + some_bytes(rng, 0, 4)))


def any_bytes(rng):
    """Draw bytes to read, every other time with a map byte in front that is not turned away."""
    data = some_bytes(rng, 0, 18)
    if data and rng.randrange(2):
        data = bytes([rng.choice(MAPS)]) + data[1:]
    return text('read', show(data))


def damaged(rng):
    """Draw a record with one byte or bit altered, or cut, or extended."""
    data = bytearray(record(accepted(rng)))
    place = rng.randrange(len(data))
    way = rng.randrange(4)
    if way == 0:
        data[place] = rng.randrange(256)
    elif way == 1:
        data[place] ^= 1 << rng.randrange(8)
    elif way == 2:
        del data[place:]
    else:
        data[place:place] = some_bytes(rng, 1, 4)
    return text('read', show(bytes(data)))


def any_room(rng):
    """Draw a scenario to write, mostly an accepted one, and any room."""
    draw = rng.choice((accepted, accepted, accepted, near_limits, beside_each_other))
    return text('write', *draw(rng), show(some_bytes(rng, 0, 24)))


def round_trip(rng):
    """Draw a scenario's record and some bytes after it."""
    return text('read', show(record(accepted(rng)) + some_bytes(rng, 0, 16)))


DRAWN = (
    ('drawn: accepted scenarios', lambda rng: ask_scenario(rng, accepted(rng))),
    ('drawn: near the limits', lambda rng: ask_scenario(rng, near_limits(rng))),
    ('drawn: distances beside each other', lambda rng: ask_scenario(rng, beside_each_other(rng))),
    ('drawn: all numbers of the fields', lambda rng: ask_scenario(rng, uniform(rng))),
    ('drawn: any bytes', any_bytes),
    ('drawn: damaged records', damaged),
    ('drawn: any room', any_room),
    ('drawn: round trips', round_trip),
)


def questions(count, seed):
    """Return the fixed questions and as many drawn ones as asked for."""
    rng = random.Random(seed)
    asked = [question for fixed in FIXED for question in fixed()]
    for turn in range(count):
        kind, draw = DRAWN[turn % len(DRAWN)]
        asked.append(Question(kind, draw(rng)))
    return asked


# ---------------------------------------------------------------------------
# The rules of records.py, against documents 01 and 02 and against themselves
# ---------------------------------------------------------------------------

def read_fault(data):
    """Return how reading contradicts writing, or None."""
    answered = read(data)
    if answered[0] == 'R':
        return None if answered[2] == b'' else 'a refused read hands back bytes'
    _, scenario, length, rest = answered
    if data != data[:length] + rest or len(data) != length + len(rest):
        return 'the record and the rest are not the bytes read'
    return None if write(scenario, bytes(length)) == ('L', length, data[:length]) else 'rewritten otherwise'


def scenario_fault(scenario):
    """Return how an accepted scenario is not read back, or None."""
    if refusal(scenario):
        return None
    front = record(scenario)
    for tail in (b'', b'\x00', rising(5)):
        if read(front + tail) != ('E', scenario, len(front), tail):
            return 'not read back'
    return None


def write_fault(scenario, lent):
    """Return what is wrong with the lent bytes afterwards, or None."""
    letter, length, after = write(scenario, lent)
    if letter == 'R':
        return None if after == lent else 'a refused write changes the lent bytes'
    if after[length:] != lent[length:] or len(after) != len(lent):
        return 'later bytes change'
    return None if read(after) == ('E', scenario, length, lent[length:]) else 'not read back'


def rules_fault(question, expected):
    """Return how records.py contradicts documents 01 and 02 or itself in a question, or None."""
    if question.stated not in (None, expected):
        return f'the documents give {question.stated}'
    name, *words = question.line.split(' ')
    if name == 'read':
        return read_fault(taken(words[0]))
    if name in ('place', 'rows'):
        return None
    scenario = scenario_of(words[:7])
    fault = scenario_fault(scenario)
    if name == 'write':
        fault = fault or write_fault(scenario, taken(words[7]))
    return fault


def stands(scenario):
    """Return which distances of a scenario stand."""
    return {(False, False): 'none', (True, False): 'rupture', (False, True): 'projection', (True, True): 'both'}[
        scenario.rupture_distance is not None, scenario.projection_distance is not None]


def outcome(question, expected):
    """Return the question's name and what its answer comes to, without lengths, bytes and most of the scenarios."""
    name, first, *_ = question.line.split(' ')
    words = expected.split(' ')
    if words[0] == 'E':
        # Which distances are read, by each model.
        return text(name, 'E', words[1], stands(scenario_of(words[1:8])))
    if name == 'read' and words[1] == '9':
        # 9 is looked for in two places.
        return text(name, 'R 9 by', 'bits' if taken(first)[0] & 3 != 3 else 'distance')
    return text(name, *words[:2 if words[0] in ('R', 'row', 'between') else 1])


def outcomes_fault(asked, answers):
    """Return which outcomes of the documents no question has, or which of them there should not be, or None."""
    wanted = {f'refusal {number}' for number in (*range(7), 9, 13)} | {f'place row {number}' for number in range(22)}
    wanted |= {f'place between {number}' for number in range(21)} | {'place outside'}
    wanted |= {'rows T', 'rows R 1', 'rows R 6'}
    # Reading never gives 10, as 9 comes first.
    wanted |= {f'read R {number}' for number in (1, 2, 3, 4, 5, 6, 7, 8, 11, 13)} | {'read R 9 by bits'}
    wanted |= {'read R 9 by distance', 'read E 1 rupture', 'read E 1 both', 'read E 2 projection', 'read E 2 both'}
    wanted |= {f'write R {number}' for number in (1, 2, 3, 4, 5, 6, 9, 12, 13)} | {'write L'}
    seen = {outcome(question, expected) for question, expected in zip(asked, answers)}
    return f'outcomes missing or too many: {sorted(seen ^ wanted)}' if seen != wanted else None


def check_rules(asked, answers):
    """Return a message for each contradiction in records.py."""
    faults = []
    for question, expected in zip(asked, answers):
        fault = rules_fault(question, expected)
        if fault:
            faults.append(f'records.py: {question.line}: {expected}: {fault} ({question.kind})')
    fault = outcomes_fault(asked, answers)
    return faults + [fault] if fault else faults


# ---------------------------------------------------------------------------
# The programs
# ---------------------------------------------------------------------------

def rests(asked, answers):
    """Return the questions for the rest of the bytes that are read, and their answers."""
    pairs = [(question, expected) for question, expected in zip(asked, answers) if question.line.startswith('read ')]
    return ([question._replace(line=question.line.replace('read', 'rest')) for question, _ in pairs],
            [expected.split(' ')[-1] for _, expected in pairs])


def check_program(program, asked, answers):
    """Return a message for each line that is not the expected one."""
    lines, faults = ask(program, [question.line for question in asked])
    return faults + [f'{question.line}: expected {expected}, got {line} ({question.kind})'
                     for question, expected, line in zip(asked, answers, lines) if line != expected]


def check_programs(host, probe, asked, answers):
    """Return the faults of a host's program, and those of the probe in places and rests."""
    faults = check_program(probe, *rests(asked, answers))
    for program, wanted in ((host, False), (probe, True)):
        part = [pair for pair in zip(asked, answers) if pair[0].line.startswith('place ') == wanted]
        faults += check_program(program, [question for question, _ in part], [expected for _, expected in part])
    return faults


def fail(faults):
    """Print the first faults; return the exit status."""
    for fault in faults[:FAILURES_SHOWN]:
        print(f'FAILED {fault}')
    print(f'failures: {len(faults)}')
    return 1


def run(host, probe, count, seed):
    """Check records.py, then the programs; return the exit status."""
    asked = questions(count, seed)
    answers = [answer(question.line) for question in asked]
    faults = check_rules(asked, answers)
    if faults:
        return fail(faults)
    faults = check_programs(host, probe, asked, answers)
    if faults:
        return fail(faults)
    names = Counter(question.line.split(' ')[0] for question in asked)
    counts = ', '.join(f'{number} {name}' for name, number in names.items())
    print(f'records: {len(asked)} answers ({counts}; {count} drawn, seed {seed}) are those of the documents')
    return 0


def main(words):
    """Read the command line and run the checks."""
    if len(words) not in (3, 4, 5) or not all(word.isdecimal() for word in words[3:]):
        print('usage: test_records.py ASK PROBE [COUNT] [SEED]', file=sys.stderr)
        return 2
    count = int(words[3]) if len(words) > 3 else COUNT
    seed = int(words[4]) if len(words) > 4 else SEED
    return run(words[1], words[2], count, seed)


if __name__ == '__main__':
    sys.exit(main(sys.argv))
