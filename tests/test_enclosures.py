"""Check the program that reads records and prints enclosures, against documents 01 and 02 and the papers.

Run as: python3 tests/test_enclosures.py PROGRAM [COUNT] [SEED]
    or: python3 tests/test_enclosures.py --store PROGRAM

PROGRAM reads records from standard input and prints `enclosures`, a line for each record and `end` with their count.
COUNT is how many records are drawn besides the fixed ones, 20,000 unless given; with 100,000 and more, every period
from 10 to 10000 is asked of both models, too.  Each line has to have the exact format, and the refusal of records.py or
ends that enclose the true values of models.py and are not too far apart; at some scenarios the ends have to meet the
formula's pairs of formula_pairs.py, too.  The ends of Idriss's sigma have to be the same at one magnitude for all
periods up to 50, and for all from 3000 on.

The stored streams are NAME.stdin with NAME.stdout beside this file, in the folder streams or in the one that the
environment variable STREAMS names.  --store writes them, from an output that passes the same checks.
"""

import math
import os
import random
import re
import subprocess
import sys
import time
from collections import Counter
from fractions import Fraction
from functools import lru_cache

import formula_pairs
import models
import streams
from exact import Pair, meets
from formula_pairs import EXACT, OUTWARD
from records import BOORE_ATKINSON, IDRISS, PERIOD, PERIODS, between_rows, read, without_other_distance
from streams import TAKEN, Stream

COUNT = 20000
# With so many records drawn, every period is asked for.
MANY = 100000
SEED = 19940117
FAULTS_SHOWN = 20
SECONDS = 60
PAUSE = 0.003
STREAMS = os.environ.get('STREAMS') or os.path.join(os.path.dirname(os.path.abspath(__file__)), 'streams')

# "One unit is 10^-9 of a natural logarithm."
UNITS = 10 ** 9
# How many units the two ends may be apart, of the median and of sigma: at period 0 and at a tabled one, demand 3 and
# "Its two ends are equal."
WIDEST = {IDRISS: (100, 10), BOORE_ATKINSON: (2000, 0)}
# Between the rows, W-201: "twice the tabled widths for the median and 20 units for sigma"; but W-205: "Idriss sigma is
# now at most 10 units wide between rows too".
SIGMA_BETWEEN = {IDRISS: 10, BOORE_ATKINSON: 20}
WIDEST_BETWEEN = {model: (2 * median, SIGMA_BETWEEN[model]) for model, (median, _) in WIDEST.items()}
NAMES = {IDRISS: 'Idriss', BOORE_ATKINSON: 'Boore-Atkinson'}
PARTS = ('median', 'sigma')

# "Ends are decimal, with a minus sign in front where negative."
END = rb'(0|-?[1-9][0-9]{0,17})'
ANSWER = re.compile(rb'(?:[1-9][0-9]*) E ' + END + b' ' + END + b' ' + END + b' ' + END)

# How many units the cut after 15 decimals can take away from a value worked out.
CUT_OFF = Fraction(1, 10 ** 6)

# True values are remembered for so many scenarios; all that is remembered is dropped after so many streams.
REMEMBERED = 10000
STREAMS_REMEMBERED = 2000


# ---------------------------------------------------------------------------
# What documents 01 and 02 print, typed in by hand; * stands for an end
# ---------------------------------------------------------------------------

E1 = ('enclosures', '1 E * * * *', 'end 1')


def refused(number):
    """Return the lines of a first record that is turned away."""
    return 'enclosures', f'1 R {number}', 'end 1'


PAPER = (
    # Document 01 has `1 R 6` for these; W-201: "periods 40 and 70 of the examples are now answered in both models".
    ('For the bytes 37 01 BC 02 E8 03 02 46 00', '3701bc02e803024600', ('enclosures', '1 E * * * *', 'end 1')),
    ('empty input prints', '', ('enclosures', 'end 0')),
    ('bytes 37 01 BC 02 E8 03 02 4B 00', '3701bc02e803024b00', ('enclosures', '1 E * * * *', 'end 1')),
    ('both of them', '3701bc02e803024b003701bc02e803024600', ('enclosures', '1 E * * * *', '2 E * * * *', 'end 2')),
    ('0.07 s, and 9 thousandths', '3701bc02e8030246003701bc02e803020900',
     ('enclosures', '1 E * * * *', '2 R 6', 'end 2')),
    ('It stops after an R', '3701bc02e8030209003701bc02e803024b00', ('enclosures', '1 R 6', 'end 1')),
    ('20001 gives 4', '3f01bc02e803214e024b00', refused(4)),
    ('magnitude 449 in Idriss', '3701c101e803024b00', refused(2)),
    ('magnitude 450 in Idriss', '3701c201e803024b00', E1),
    ('magnitude 790 in Idriss', '37011603e803024b00', E1),
    ('magnitude 791 in Idriss', '37011703e803024b00', refused(2)),
    ('magnitude 499 in Boore-Atkinson', '7302f301024b00e803', refused(2)),
    ('magnitude 500 in Boore-Atkinson', '7302f401024b00e803', E1),
    ('magnitude 800 in Boore-Atkinson', '73022003024b00e803', E1),
    ('magnitude 801 in Boore-Atkinson', '73022103024b00e803', refused(2)),
    ('distance 17500 in Idriss', '3701bc025c44024b00', E1),
    ('distance 17501 in Idriss', '3701bc025d44024b00', refused(3)),
    ('distance 19999 in Boore-Atkinson', '7302bc02024b001f4e', E1),
    ('distance 20000 in Boore-Atkinson', '7302bc02024b00204e', refused(3)),
    ('period 40 in Idriss', '3701bc02e803022800', E1),
    ('period 40 in Boore-Atkinson', '7302bc02022800e803', E1),
    ('period 70 in Idriss', '3701bc02e803024600', E1),
    ('period 70 in Boore-Atkinson', '7302bc02024600e803', E1),
    # "Refusal 6 is left with 1 to 9 and above 10000".
    ('period 1 in Idriss', '3701bc02e803020100', refused(6)),
    ('period 1 in Boore-Atkinson', '7302bc02020100e803', refused(6)),
    ('period 9 in Idriss', '3701bc02e803020900', refused(6)),
    ('period 9 in Boore-Atkinson', '7302bc02020900e803', refused(6)),
    ('period 10 in Idriss', '3701bc02e803020a00', E1),
    ('period 10 in Boore-Atkinson', '7302bc02020a00e803', E1),
    ('period 11 in Idriss', '3701bc02e803020b00', E1),
    ('period 11 in Boore-Atkinson', '7302bc02020b00e803', E1),
    ('period 9999 in Idriss', '3701bc02e803020f27', E1),
    ('period 9999 in Boore-Atkinson', '7302bc02020f27e803', E1),
    ('period 10000 in Idriss', '3701bc02e803021027', E1),
    ('period 10000 in Boore-Atkinson', '7302bc02021027e803', E1),
    ('period 10001 in Idriss', '3701bc02e803021127', refused(6)),
    ('period 10001 in Boore-Atkinson', '7302bc02021127e803', refused(6)),
    ('period 65535 in Idriss', '3701bc02e80302ffff', refused(6)),
    ('period 65535 in Boore-Atkinson', '7302bc0202ffffe803', refused(6)),
    ('code 5 in Idriss, and period 9', '3701bc02e803050900', refused(5)),
    ('period 0 in Idriss', '1701bc02e80302', E1),
    ('period 0 in Boore-Atkinson', '5302bc0202e803', E1),
    ('code 9 in Idriss, not written', '2701bc02e8034b00', refused(5)),
    ('code 9 in Idriss, written', '3701bc02e803094b00', refused(11)),
    ('code 9 in Boore-Atkinson', '4302bc02e803', E1),
    ('velocity 7600 written', '4b02bc02b01de803', refused(11)),
    ('mechanism 9 written', '5302bc0209e803', refused(11)),
    ('period 0 written', '6302bc020000e803', refused(11)),
    ('model 0', '3700bc02e803024b00', refused(1)),
    ('model 3', '3703bc02e803024b00', refused(1)),
    ('a lone map byte 00', '00', refused(9)),
    # W-202: "Bit 6 becomes the distance to the surface projection, 2 bytes, after the period."
    ('bit 6 stands', '7701bc02e803024b00e703', E1),
    ('bit 6 stands, and there are no bytes for it', '7701bc02e803024b00', refused(7)),
    ('bit 6 stands, and there is one byte for it', '7701bc02e803024b00e7', refused(7)),
    ('bit 6 stands, the others are clear', '40', refused(9)),
    ('bit 7 stands', 'b701bc02e803024b00', refused(8)),
    ('bits 6 and 7 stand', 'f701bc02e803024b00e703', refused(8)),
    ('bit 7 stands, the others are clear', '80', refused(8)),
    ('every bit stands', 'ff', refused(8)),
    # "Idriss needs bit 2 and Boore-Atkinson bit 6, else 9; the other may stand."
    ('Idriss without bit 2', '7301bc02024b00e803', refused(9)),
    ('Idriss with no distance', '3301bc02024b00', refused(9)),
    ('Boore-Atkinson with bit 2 alone, as before W-202', '3702bc02e803024b00', refused(9)),
    ('Boore-Atkinson with no distance', '3302bc02024b00', refused(9)),
    ('Boore-Atkinson with both', '7702bc021404024b00e803', E1),
    ('distance 0 in Idriss', '1701bc02000002', E1),
    ('distance 0 in Boore-Atkinson', '4302bc020000', E1),
    # "9 for the distance comes after 11."
    ('no distance and mechanism 9 written, Idriss', '1301bc0209', refused(11)),
    ('no distance and velocity 7600 written, Boore-Atkinson', '0f02bc02e803b01d', refused(11)),
    ('no distance and the last byte is wanting', '3301bc02024b', refused(7)),
    # "A model that is neither 1 nor 2 needs no distance."
    ('model 3 with no distance', '0303bc02', refused(1)),
    # "Both stand and the projection distance exceeds the rupture distance [...] just before 1".
    ('equal distances in Idriss', '7701bc02e803024b00e803', E1),
    ('equal distances in Boore-Atkinson', '7702bc02e803024b00e803', E1),
    ('one more to the projection in Idriss', '7701bc02e803024b00e903', refused(13)),
    ('one more to the projection in Boore-Atkinson', '7702bc02e703024b00e803', refused(13)),
    ('one more to the projection in model 3', '4703bc02e803e903', refused(13)),
    ('one more to the projection, and mechanism 9 written', '5701bc02e80309e903', refused(11)),
    ('17502 to the projection, 17501 to the rupture in Idriss', '5701bc025d44025e44', refused(13)),
    # "The limit of refusal 3 is applied to the distance that the model reads."
    ('65535 to the rupture, 19999 to the projection in Boore-Atkinson', '4702bc02ffff1f4e', E1),
    ('65535 to the rupture, 20000 to the projection in Boore-Atkinson', '4702bc02ffff204e', refused(3)),
    ('17501 to the rupture, 0 to the projection in Idriss', '5701bc025d44020000', refused(3)),
    ('a lone map byte', '07', refused(7)),
    ('the last byte is wanting', '3701bc02e803024b', refused(7)),
    ('two records and a map byte', '4302bc02e8034302bc02e80307',
     ('enclosures', '1 E * * * *', '2 E * * * *', '3 R 7', 'end 3')),
)

# Records whose answers have the same ends.
ALIKE = (
    # "Velocity 12000 and 20000 answer alike in Idriss".
    ('3f01bc02e803e02e024b00', '3f01bc02e803204e024b00'),
    # Each model reads its own distance: Idriss at 10 km, without a distance to the projection, with 10 km, 9.99 and 0;
    ('3701bc02e803024b00', '7701bc02e803024b00e803', '7701bc02e803024b00e703', '7701bc02e803024b000000'),
    # Boore-Atkinson at 10 km, without a distance to the rupture, with 10 km, 10.01 and 655.35.
    ('7302bc02024b00e803', '7702bc02e803024b00e803', '7702bc02e903024b00e803', '7702bc02ffff024b00e803'),
)

# The printed equations worked out with the printed coefficients on a decimal calculator, cut off after 15 decimals:
# median and sigma.
WORKED_OUT = (
    # Idriss, M 7.00, 10 km, 760 m/s, code 2, 0.075 s
    ('3701bc02e803024b00', '-0.704754243731091', '0.669340649209396'),
    # Idriss, M 6.75, 0 km, 1200 m/s, code 0, period 0
    ('1f01a3020000e02e00', '-0.734924670948224', '0.670149370425610'),
    # Idriss, M 6.76, 175 km, 450 m/s, code 4, 10 s
    ('3f01a4025c449411041027', '-6.792782961471475', '0.812851430103383'),
    # Boore-Atkinson, M 7.00, 10 km, 300 m/s, code 0, 0.2 s; p is above ln 0.09
    ('7b02bc02b80b00c800e803', '-0.475458317203253', '0.596'),
    # Boore-Atkinson, M 6.00, 70 km, 180 m/s, code 9, period 0; p is below ln 0.03
    ('4b0258020807581b', '-2.803534464746532', '0.566'),
    # Boore-Atkinson, M 6.50, 40 km, 250 m/s, code 2, 1 s; p is between
    ('7b028a02c40902e803a00f', '-2.147578578335000', '0.647'),
    # Between the rows: Idriss, M 6.75, 0 km, 1200 m/s, code 0, 0.011 s
    ('3f01a3020000e02e000b00', '-0.731212075806976', '0.670149370425610'),
    # Idriss, M 6.75, 25 km, 450 m/s, code 3, 8.75 s
    ('3f01a302c4099411032e22', '-4.576356372924163', '0.813451430103383'),
    # Idriss, M 6.76, 5 km, 560 m/s, code 1, 0.045 s
    ('3f01a402f401e015012d00', '-0.498686716858573', '0.669549370425610'),
    # Idriss, M 6.76, 175 km, 2000 m/s, code 4, 9.999 s
    ('3f01a4025c44204e040f27', '-7.367359939781978', '0.812851430103383'),
    # Boore-Atkinson, M 7.00, 10 km, 300 m/s, code 0, 0.225 s; p is above ln 0.09
    ('7b02bc02b80b00e100e803', '-0.463683104226004', '0.593888658937931'),
    # Boore-Atkinson, M 6.00, 70 km, 180 m/s, code 9, 0.04 s; p is below ln 0.03
    ('6b02580208072800581b', '-2.720994686847145', '0.584194878740889'),
    # Boore-Atkinson, M 6.50, 40 km, 250 m/s, code 2, 1.25 s; p is between
    ('7b028a02c40902e204a00f', '-2.439071997080794', '0.664610870822822'),
    # Boore-Atkinson, M 7.54, 60.65 km, 250 m/s, code 0, 0.049 s; p is 11 units from ln 0.09
    ('7b02f202c409003100b117', '-1.885125437285322', '0.588485861352859'),
    # Boore-Atkinson, M 5.50, 150 km, 1000 m/s, code 3, 6.25 s
    ('7b0226021027036a18983a', '-8.900125220846039', '0.767664607668167'),
)

# True values in units, rounded to four decimals; a number without decimals is exact.  M 7.00, 10 km, 760 m/s, code 2.
TRUE_UNITS = (
    # Idriss, 0.07 s
    ('3701bc02e803024600', '-747978464.4812', '666925898.7074'),
    # Boore-Atkinson, 0.04 s, 0.07 s and 0.011 s
    ('7302bc02022800e803', '-1313794197.8390', '583321220.3301'),
    ('7302bc02024600e803', '-1069227804.0903', None),
    ('7302bc02020b00e803', None, '566000000'),
)


# ---------------------------------------------------------------------------
# What is due
# ---------------------------------------------------------------------------

def outcomes(data):
    """Yield what is due for each record of a stream: E and its scenario, or R and the refusal."""
    rest = data[:TAKEN]
    while rest:
        letter, answer, *others = read(rest)
        yield letter, answer
        if letter == 'R':
            return
        rest = others[1]


def true_values(scenario):
    """Return pairs around the true median and the true sigma of an accepted scenario."""
    model, magnitude, rupture, velocity, mechanism, period, projection = scenario
    if model == IDRISS:
        median = models.idriss_median_at(models.table_of(magnitude), period, magnitude, rupture, velocity, mechanism)
        return median, models.idriss_sigma(period, magnitude)
    median = models.boore_atkinson_median_at(period, magnitude, projection, velocity, mechanism)
    return median, models.boore_atkinson_sigma_at(period, mechanism)


@lru_cache(maxsize=REMEMBERED)
def narrowest_ends(scenario):
    """Return, for median and sigma, the greatest low end and the least high end that enclose the true value."""
    # The ends are whole, so they enclose the true value if they enclose it rounded outward to whole units.
    return tuple((math.floor(true.low * UNITS), math.ceil(true.high * UNITS)) for true in true_values(scenario))


def widest_ends(scenario):
    """Return how many units the two ends of an accepted scenario's median and of its sigma may be apart."""
    between = between_rows(scenario.model, scenario.period)
    return (WIDEST_BETWEEN if between else WIDEST)[scenario.model]


# ---------------------------------------------------------------------------
# The checks of an output
# ---------------------------------------------------------------------------

def show(line):
    """Return a line of an output as a text for a message."""
    return repr(line[:200].decode('ascii', 'backslashreplace'))


def read_ends(line):
    """Return the four ends of a line with an answer, or None if it has another format."""
    found = ANSWER.fullmatch(line)
    return tuple(map(int, found.groups())) if found else None


def pair_fault(part, widest, ends, narrowest):
    """Return what is wrong with the two ends of the median or of sigma, or None."""
    low, high = ends
    if low > high:
        return f'the low end of the {part} is above its high end'
    if low > narrowest[0]:
        return f'the low end of the {part} is too high by {low - narrowest[0]}, to enclose the true value'
    if high < narrowest[1]:
        return f'the high end of the {part} is too low by {narrowest[1] - high}, to enclose the true value'
    if high - low > widest:
        return f'the ends of the {part} are {high - low} units apart, at most {widest} are allowed'
    return None


def formula_fault(stream, scenario, ends):
    """Return which of the formula's pairs does not meet the ends, or None."""
    for way, name, finenesses in ((EXACT, 'exact', stream.exact), (OUTWARD, 'widened', stream.outward)):
        for n in finenesses:
            pairs = formula_pairs.formula_pairs(way, scenario, n)
            for part, p, (low, high) in zip(PARTS, pairs, (ends[:2], ends[2:])):
                if not meets(Pair(Fraction(low, UNITS), Fraction(high, UNITS)), p):
                    return f"the formula's {name} pair of the {part} at n = {n} does not meet the ends"
    return None


class Tally:
    """What has been seen and found so far."""

    def __init__(self):
        self.faults = []
        self.processes = 0
        self.records = 0
        self.outcomes = Counter()
        self.periods = set()
        self.widths = Counter()
        self.held = {}
        self.compared = 0

    def full(self):
        """Say whether enough faults have been found."""
        return len(self.faults) >= FAULTS_SHOWN

    def fault(self, stream, what):
        """Note a fault of a stream."""
        data = stream.data.hex()
        self.faults.append(f'{stream.kind}: {what} (bytes {data[:40]}{"..." if len(data) > 40 else ""})')

    def answer(self, scenario, ends):
        """Note an answered scenario, and how far apart its ends are."""
        model, period = scenario.model, scenario.period
        self.periods.add((model, period))
        place = ' between rows' if between_rows(model, period) else ''
        for part, width in zip(PARTS, (ends[1] - ends[0], ends[3] - ends[2])):
            name = f'{NAMES[model]} {part}{place}'
            self.widths[name] = max(self.widths[name], width)

    def held_fault(self, scenario, sigma):
        """Return which other ends the sigma of Idriss has had where W-205 has them the same, or None."""
        # W-205: "at one magnitude all accepted periods up to 50 give the same sigma ends, as do all from 3000 on".
        period = models.held_period(scenario.period)
        if scenario.model != IDRISS or period not in models.HELD_TO:
            return None
        first, known = self.held.setdefault((scenario.magnitude, period), (scenario, sigma))
        self.compared += first.period != scenario.period
        return None if sigma == known else f'the ends of sigma are {sigma}, and {known} of {tuple(first)}'

    def greatest_widths(self):
        """Return the greatest widths that have been seen, as a text."""
        return ', '.join(f'{name} {width}' for name, width in sorted(self.widths.items())) or 'none'


def answer_fault(tally, stream, scenario, line):
    """Return what is wrong with the line of an accepted record, its position left aside, or None."""
    ends = read_ends(line)
    if ends is None:
        return 'E and four ends are due'
    tally.answer(scenario, ends)
    both = zip(PARTS, widest_ends(scenario), (ends[:2], ends[2:]), narrowest_ends(scenario))
    for part, widest, two, narrowest in both:
        wrong = pair_fault(part, widest, two, narrowest)
        if wrong:
            return wrong
    return tally.held_fault(scenario, ends[2:]) or formula_fault(stream, scenario, ends)


def line_fault(tally, stream, position, due, line):
    """Return what is wrong with the line of a record, or None."""
    letter, answer = due
    start = f'{position} {letter} '
    if letter == 'R':
        return None if line == f'{start}{answer}'.encode('ascii') else f'{start}{answer} is due'
    if not line.startswith(start.encode('ascii')):
        return f'a line that starts with {start}is due for {tuple(answer)}'
    wrong = answer_fault(tally, stream, answer, line)
    return f'{wrong}, for {tuple(answer)}' if wrong else None


def typed_fault(stream, lines):
    """Return which line is not the one that is typed in by hand, or None."""
    if len(lines) != len(stream.lines):
        return f'{len(stream.lines)} lines are due, not {len(lines)}'
    for line, typed in zip(lines, stream.lines):
        if not re.fullmatch(re.escape(typed).replace(r'\*', '-?[0-9]+').encode('ascii'), line):
            return f'the line {typed!r} is due, not {show(line)}'
    return None


def check_output(tally, stream, output):
    """Check the whole output for a stream and note its faults."""
    *lines, after = output.split(b'\n')
    if after:
        return tally.fault(stream, f'the output ends with {show(after)} and no newline')
    if stream.lines is not None:
        wrong = typed_fault(stream, lines)
        if wrong:
            return tally.fault(stream, wrong)
    due = list(outcomes(stream.data))
    wanted = len(due) + 2
    if len(lines) != wanted:
        tally.fault(stream, f'{wanted} lines are due, not {len(lines)}; the last is {show((lines or [b""])[-1])}')
    if not lines or lines[0] != b'enclosures':
        tally.fault(stream, f'the first line is not `enclosures`: {show((lines or [b""])[0])}')
    if len(lines) == wanted and lines[-1] != f'end {len(due)}'.encode('ascii'):
        tally.fault(stream, f'the line `end {len(due)}` is due, not {show(lines[-1])}')
    for position, (one, line) in enumerate(zip(due, lines[1:]), 1):
        tally.records += 1
        tally.outcomes[one if one[0] == 'R' else 'E'] += 1
        wrong = line_fault(tally, stream, position, one, line)
        if wrong:
            # What follows a wrong line is mostly wrong for the same reason.
            return tally.fault(stream, f'line {position + 1} is {show(line)}: {wrong}')
    return None


# ---------------------------------------------------------------------------
# The program
# ---------------------------------------------------------------------------

def given_in_pieces(process, stream):
    """Give a process its input in pieces with pauses; what is left goes at once."""
    place = 0
    try:
        for size in stream.pieces:
            process.stdin.write(stream.data[place:place + size])
            time.sleep(PAUSE)
            place += size
    except BrokenPipeError:
        # The program has taken all that it takes.
        place = len(stream.data)
    return stream.data[place:]


def run_program(tally, program, stream, source=None):
    """Run the program on a stream, from a file if one is given; return its output, or None after a fault."""
    tally.processes += 1
    try:
        with subprocess.Popen([program], stdin=source or subprocess.PIPE, stdout=subprocess.PIPE,
                              stderr=subprocess.PIPE, bufsize=0) as process:
            try:
                rest = None if source else given_in_pieces(process, stream)
                output, said = process.communicate(rest, timeout=SECONDS)
            except subprocess.TimeoutExpired:
                process.kill()
                return tally.fault(stream, f'the program has not ended after {SECONDS} seconds')
    except OSError as error:
        return tally.fault(stream, f'the program could not be run: {error}')
    if process.returncode != 0:
        return tally.fault(stream, f'the program ended with status {process.returncode}')
    if said:
        return tally.fault(stream, f'standard error is not empty: {show(said)}')
    return output


def ask(tally, program, stream):
    """Run the program on a stream and check its output; return the output."""
    output = run_program(tally, program, stream)
    if output is not None:
        check_output(tally, stream, output)
    return output


def first_ends(output):
    """Return the ends of the first record of an output, or None."""
    lines = (output or b'').split(b'\n')
    return read_ends(lines[1]) if len(lines) > 1 else None


def check_true_units(tally, program):
    """Check that whole ends enclose the typed true values: also the whole units next to them."""
    for digits, *values in TRUE_UNITS:
        stream = Stream('true values', bytes.fromhex(digits), E1)
        ends = first_ends(ask(tally, program, stream))
        for at, value in enumerate(values):
            if ends and value:
                low, high = ends[2 * at:2 * at + 2]
                if not (low <= math.floor(Fraction(value)) and math.ceil(Fraction(value)) <= high):
                    tally.fault(stream, f'the {PARTS[at]} is {value} units, which {low} and {high} do not enclose')


def check_typed(tally, program):
    """Check the streams that are typed in by hand, and the answers that are worked out or have to be alike."""
    for words, digits, lines in PAPER:
        ask(tally, program, Stream(f'typed in by hand, {words}', bytes.fromhex(digits), lines))
    check_true_units(tally, program)
    for digits, *values in WORKED_OUT:
        stream = Stream('worked out', bytes.fromhex(digits), E1)
        ends = first_ends(ask(tally, program, stream))
        for at, value in enumerate(values):
            units = Fraction(value) * UNITS
            low, high = ends[2 * at:2 * at + 2] if ends else (units, units)
            if not low - CUT_OFF <= units <= high + CUT_OFF:
                tally.fault(stream, f'the {PARTS[at]} is {value}, which the ends {ends} do not enclose')
    for records in ALIKE:
        alike = [first_ends(ask(tally, program, Stream('answer alike', bytes.fromhex(one), E1))) for one in records]
        if len(set(alike)) != 1:
            tally.fault(Stream('answer alike', bytes.fromhex(records[0])), f'the ends are {alike}')


# ---------------------------------------------------------------------------
# Stored streams
# ---------------------------------------------------------------------------

def path_of(name, end):
    """Return the path of a stored file."""
    return os.path.join(STREAMS, f'{name}.{end}')


def check_stored_one(tally, program, name, data):
    """Check one stored stream: its files, the program's output on it, and the stored output itself."""
    stream = Stream(f'stored stream {name}', data)
    try:
        with open(path_of(name, 'stdin'), 'rb') as file:
            given = file.read()
        with open(path_of(name, 'stdout'), 'rb') as file:
            kept = file.read()
    except OSError as error:
        return tally.fault(stream, f'a stored file cannot be read: {error}')
    if given != data:
        return tally.fault(stream, f'{name}.stdin does not hold the bytes of that stream')
    check_output(tally, stream._replace(kind=f'{stream.kind}, its stored output'), kept)
    with open(path_of(name, 'stdin'), 'rb') as file:
        output = run_program(tally, program, stream, file)
    if output is not None and output != kept:
        pairs = zip(kept.split(b'\n'), output.split(b'\n'))
        differing = next(((one, other) for one, other in pairs if one != other), (b'...', b'...'))
        return tally.fault(stream, f'the output is not the stored one: {show(differing[1])}, not {show(differing[0])}')
    return None


def stored_ends(name, data):
    """Yield each accepted scenario of a stored stream with its stored ends."""
    with open(path_of(name, 'stdout'), 'rb') as file:
        lines = file.read().split(b'\n')
    for (letter, answer), line in zip(outcomes(data), lines[1:]):
        if letter == 'E':
            yield answer, read_ends(line)


def check_stored_alike(tally):
    """Check that the stored ends do not depend on the distance that the model does not read."""
    stored = [pair for name, data in streams.stored().items() for pair in stored_ends(name, data)]
    alone = {scenario: ends for scenario, ends in stored if scenario == without_other_distance(scenario)}
    both = [(scenario, ends) for scenario, ends in stored if scenario not in alone]
    if {scenario.model for scenario, _ in both} != {IDRISS, BOORE_ATKINSON}:
        tally.faults.append('no stored records of a model with both distances')
    for scenario, ends in both:
        # Each of them stands in another stream without the other distance.
        if ends != alone.get(without_other_distance(scenario)):
            tally.faults.append(f'the stored ends {ends} of {tuple(scenario)} are not those without the other distance')


def check_stored(tally, program):
    """Check all stored streams."""
    for name, data in streams.stored().items():
        check_stored_one(tally, program, name, data)
    if not tally.faults:
        check_stored_alike(tally)


def store(program):
    """Write the stored streams if the program's output on each of them passes the checks."""
    tally = Tally()
    outputs = {}
    for name, data in streams.stored().items():
        outputs[name] = ask(tally, program, Stream(f'stream {name} to be stored', data))
    if tally.faults:
        return report(tally, 'nothing is stored')
    os.makedirs(STREAMS, exist_ok=True)
    for name, data in streams.stored().items():
        for end, kept in (('stdin', data), ('stdout', outputs[name])):
            with open(path_of(name, end), 'wb') as file:
                file.write(kept)
    print(f'enclosures: {len(outputs)} streams with {tally.records} records are stored in {STREAMS}')
    return 0


# ---------------------------------------------------------------------------
# The run
# ---------------------------------------------------------------------------

def forget():
    """Drop remembered values, so that a longer run takes no more memory."""
    for remembered in (models.real_ln, models.real_root, models.slope, models.part_of_the_way):
        remembered.cache_clear()


def check_sums(tally):
    """Check that sums and pairs that are rounded outward contain the exact ones."""
    rng = random.Random(SEED)
    scenarios = [*streams.short_idriss(rng, PERIODS[IDRISS][::6]), *streams.short_idriss(rng, (11, 70, 9999)),
                 *streams.short_boore_atkinson(rng, (0, 40))]
    for what, holds in formula_pairs.outward_checks(scenarios, (1, 2)):
        if not holds:
            tally.faults.append(f'formula_pairs.py: {what}: the pair that is rounded outward is wrong')


def check_streams(tally, program, all_streams):
    """Check streams until enough faults are found."""
    for turn, stream in enumerate(all_streams, 1):
        if tally.full():
            return
        ask(tally, program, stream)
        if turn % STREAMS_REMEMBERED == 0:
            forget()


def wanted_periods(every):
    """Return the models and periods that have to be answered: the rows and some between, or every accepted period."""
    for model in (IDRISS, BOORE_ATKINSON):
        between = range(PERIOD[0], PERIOD[1] + 1) if every else streams.untabled(model)
        yield from ((model, period) for period in (0, *PERIODS[model], *between))


def check_seen(tally, every=False):
    """Check that all kinds of outcome have been seen, and answers at all rows and between any two neighbours."""
    wanted = {'E', *(('R', number) for number in (1, 2, 3, 4, 5, 6, 7, 8, 9, 11, 13))}
    if set(tally.outcomes) != wanted:
        tally.faults.append(f'outcomes missing or too many: {set(tally.outcomes) ^ wanted}')
    missing = set(wanted_periods(every)) - tally.periods
    if missing:
        tally.faults.append(f'periods missing: {sorted(missing)[:FAULTS_SHOWN]}')
    if tally.compared < len(PERIODS[IDRISS]):
        tally.faults.append(f'only {tally.compared} ends of sigma are compared with those of another period')


def report(tally, words):
    """Print the first faults and a summary; return the exit status."""
    for fault in tally.faults[:FAULTS_SHOWN]:
        print(f'FAILED {fault}')
    refusals = sum(many for outcome, many in tally.outcomes.items() if outcome != 'E')
    print(f'enclosures: {words}, {tally.records} records ({refusals} refused) in {tally.processes} processes, '
          f'{len(tally.faults)} faults, greatest widths: {tally.greatest_widths()}')
    return 1 if tally.faults else 0


def run(program, count, seed):
    """Check the program; return the exit status."""
    tally = Tally()
    check_sums(tally)
    check_typed(tally, program)
    check_stored(tally, program)
    rng, every = random.Random(seed), count >= MANY
    check_streams(tally, program, streams.fixed(rng))
    if every:
        check_streams(tally, program, streams.written('every period', streams.every_period(rng)))
    check_streams(tally, program, streams.drawn(rng, count))
    if not tally.faults:
        check_seen(tally, every)
    return report(tally, f'seed {seed}, {count} drawn')


def main(words):
    """Read the command line and run the checks."""
    if len(words) == 3 and words[1] == '--store':
        return store(words[2])
    if len(words) not in (2, 3, 4) or words[1].startswith('-') or not all(word.isdecimal() for word in words[2:]):
        print('usage: test_enclosures.py PROGRAM [COUNT] [SEED]\n       test_enclosures.py --store PROGRAM',
              file=sys.stderr)
        return 2
    numbers = [int(word) for word in words[2:]]
    return run(words[1], *numbers, *(COUNT, SEED)[len(numbers):])


if __name__ == '__main__':
    sys.exit(main(sys.argv))
