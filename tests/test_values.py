#!/usr/bin/env python3
"""The tables of proved values against exact fractions.

Each row of values_theory/specs/Table.antt and pairs_theory/specs/Pairs.antt is read as text and worked
out by exact.py, records.py, models.py and formula_pairs.py, which were written from
document 01 and the papers alone.
"""

import os
import re
import sys
from fractions import Fraction

from exact import Pair, ln_pair, root_pair, stated
from formula_pairs import (EXACT, boore_atkinson_sigma, idriss_median, idriss_sigma, nonlinear, row_pairs,
                           slope)
from models import (BOORE_ATKINSON_PERIODS, IDRISS_PERIODS, alpha_part, beta_factor,
                    slope_pair, table_of)
from records import BOORE_ATKINSON, IDRISS, Scenario, read

HERE = os.path.dirname(os.path.abspath(__file__))
CRATES = os.path.join(HERE, '..', 'crates')

FRACTION = r'\(pos ([\d_]+) over ([\d_]+)\)'
ENDS = FRACTION + ' ' + FRACTION
LN = re.compile(r'pair_at ([\d_]+) \(ln ([\d_]+) ([\d_]+)\) ' + ENDS)
ROOT = re.compile(r'pair_at ([\d_]+) \(root ([\d_]+)\) ' + ENDS)
NUMBERS = r'\(((?:\w+ ∷ )+)\[\]\)'
# The fields of a scenario, in the record's order; an absent distance has no number.
FIELDS = r'\(((?:(?:Some [\d_]+|None) ∷ )+)\[\]\)'
READS = re.compile('reads ' + NUMBERS + ' ' + FIELDS)
VALUE = r'\((pos|neg) ([\d_]+) over ([\d_]+)\)'
LN_EVERY = re.compile(r'at_every \(ln ([\d_]+) ([\d_]+)\) ' + VALUE)
SLOPE = re.compile(r'at_every \(bnl \(boore_atkinson.row_for ([\d_]+)\)\.site ([\d_]+)\) ' + VALUE)
PART = re.compile(r'fraction \((alpha_part|beta_factor) \(idriss.row_for ([\d_]+) ([\d_]+)\) '
                  r'\(pos ([\d_]+) over 100\)\) ' + VALUE)

CUT = r'cut_at ([\d_]+) \((.*)\) \((pos|neg) ([\d_]+)\) \((pos|neg) ([\d_]+)\)'
CUT_SCENARIO = re.compile(CUT.replace('(.*)', r'(median|sigma) \(scenario_of ' + FIELDS + r'\)'))
SITE = r'bnl \(row_for ([\d_]+)\)\.site ([\d_]+)'
CUT_SLOPE = re.compile(CUT.replace('(.*)', SITE))
CUT_NONLINEAR = re.compile(CUT.replace('(.*)', r'nonlinear_part \(' + SITE + r'\) \(stated ' + VALUE + r'\)'))
# Ends are cut to so many decimal places, and so many rows have to be there.
PLACES = 60
LEAST_PAIRS = 10

# Document 01, 'Values to try', marked P: the subjects that have to be there.
WANTED = ('pair_at 1 (ln 3 1)', 'pair_at 2 (ln 2 1)', 'at_every (ln 7 7)',
          'pair_at 1 (root 18_225)',
          'fraction (alpha_part (idriss.row_for 700 10) (pos 700 over 100))',
          'fraction (beta_factor (idriss.row_for 700 10) (pos 700 over 100))',
          'fraction (alpha_part (idriss.row_for 675 10) (pos 675 over 100))',
          'fraction (beta_factor (idriss.row_for 675 10) (pos 675 over 100))',
          'at_every (bnl (boore_atkinson.row_for 200).site 1_800)',
          'at_every (bnl (boore_atkinson.row_for 200).site 3_000)',
          'at_every (bnl (boore_atkinson.row_for 200).site 7_600)',
          'reads (0x37 ∷ 0x01 ∷ 0xBC ∷ 0x02 ∷ 0xE8 ∷ 0x03 ∷ 0x02 ∷ 0x4B ∷ 0x00 ∷ [])')


def rows(file_name, name):
    """Return the rows of a table, from its name to the empty list, as text."""
    with open(os.path.join(CRATES, file_name), encoding='utf-8') as file:
        text = file.read()
    body = re.search(rf'^{name} =\n(.*?)^    \[\]$', text, re.M | re.S).group(1)
    body = re.sub(r'^\s*--.*\n', '', body, flags=re.M)
    table = [' '.join(row.split()) for row in re.split(r'∷(?![^(]*\))', body)]
    return [row for row in table if row]


def numbers(match):
    """Return the numbers of a row."""
    return [int(group.replace('_', '')) for group in match.groups()]


def stated_ends(values):
    """Return the pair that a row states in its last four numbers."""
    low, low_over, high, high_over = values[-4:]
    return Pair(Fraction(low, low_over), Fraction(high, high_over))


def stated_value(sign, top, bottom):
    """Return the fraction that a row states."""
    value = Fraction(int(top.replace('_', '')), int(bottom.replace('_', '')))
    return -value if sign == 'neg' else value


def pair_holds(match, pair_of):
    """Say whether a formula's pair has the ends that a row states at a fineness."""
    values = numbers(match)
    return pair_of(*values[1:-4], values[0]) == stated_ends(values)


def every_holds(match, pair_of):
    """Say whether a formula's pair is the number that a row states, at the first finenesses."""
    *subject, sign, top, bottom = match.groups()
    subject = [int(word.replace('_', '')) for word in subject]
    value = stated_value(sign, top, bottom)
    return all(pair_of(*subject, n) == Pair(value, value) for n in range(1, 12))


def slope_at(period, velocity, n):
    """Return the pair of the slope of a period's row at fineness n."""
    return slope_pair(BOORE_ATKINSON_PERIODS.index(period), velocity, n)


def part_holds(match):
    """Say whether a part of Idriss's median is what a row states."""
    part, table_magnitude, period, magnitude = match.groups()[:4]
    part = {'alpha_part': alpha_part, 'beta_factor': beta_factor}[part]
    period, table_magnitude, magnitude = (
        int(word.replace('_', '')) for word in (period, table_magnitude, magnitude))
    row = IDRISS_PERIODS.index(period)
    return part(table_of(table_magnitude), row, magnitude) == stated_value(*match.groups()[4:])


def fields_of(text):
    """Return the numbers of fields, None for one that is absent."""
    return [None if word == 'None' else whole(word.removeprefix('Some ')) for word in text.split(' ∷ ')[:-1]]


def reads_holds(match):
    """Say whether bytes are read as the fields that a row states."""
    record = [int(number, 0) for number in match.group(1).split(' ∷ ')[:-1]]
    kind, *values = read(bytes(record))
    return kind == 'E' and [*values[0], values[1]] == fields_of(match.group(2))


def whole(word):
    """Return a whole number of a row."""
    return int(word.replace('_', ''))


def cut_holds(match, pair):
    """Say whether the ends of a pair, cut down to whole units of the last place, are what a row states."""
    stated_signs = match.groups()[-4:]
    ends = [-whole(size) if sign == 'neg' else whole(size) for sign, size in zip(stated_signs[::2], stated_signs[1::2])]
    return ends == [(end * 10 ** PLACES).__floor__() for end in pair]


def scenario_holds(match):
    """Say whether the pair of a scenario's median or sigma is what a row states."""
    scenario = Scenario(*fields_of(match.group(3)))
    formula = {('median', IDRISS): idriss_median, ('sigma', IDRISS): idriss_sigma,
               ('sigma', BOORE_ATKINSON): boore_atkinson_sigma}[match.group(2), scenario.model]
    return cut_holds(match, formula(EXACT, scenario, whole(match.group(1))))


def site_slope(match):
    """Return the pair of the slope that a row names."""
    n, period, velocity = map(whole, match.groups()[:3])
    at = row_pairs('boore-atkinson-3', BOORE_ATKINSON_PERIODS.index(period))
    return slope(EXACT, at, velocity, n)


def nonlinear_holds(match):
    """Say whether the pair of the nonlinear part for a stated p is what a row states."""
    p = stated(stated_value(*match.groups()[3:6]))
    return cut_holds(match, nonlinear(EXACT, site_slope(match), p, whole(match.group(1))))


KINDS = ((LN, lambda match: pair_holds(match, ln_pair)),
         (ROOT, lambda match: pair_holds(match, root_pair)),
         (LN_EVERY, lambda match: every_holds(match, ln_pair)),
         (SLOPE, lambda match: every_holds(match, slope_at)),
         (PART, part_holds),
         (READS, reads_holds),
         (CUT_SCENARIO, scenario_holds),
         (CUT_SLOPE, lambda match: cut_holds(match, site_slope(match))),
         (CUT_NONLINEAR, nonlinear_holds))


def row_holds(row):
    """Say whether a row states what document 01 gives."""
    for kind, holds in KINDS:
        match = kind.fullmatch(row)
        if match:
            return holds(match)
    raise ValueError(f'a row of a kind that this test does not know: {row}')


def main():
    """Check every row."""
    table, pairs = rows('values_theory/specs/Table.antt', 'values'), rows('pairs_theory/specs/Pairs.antt', 'pairs')
    wrong = [row for row in table + pairs if not row_holds(row)]
    missing = [subject for subject in WANTED
               if not any(row.startswith(subject + ' ') for row in table)]
    missing += ['more pairs'] * (len(pairs) < LEAST_PAIRS)
    for row in wrong:
        print('wrong:', row)
    for subject in missing:
        print('missing:', subject)
    print(f'proved values: {len(table)} rows and {len(pairs)} pairs, {len(wrong)} wrong, '
          f'{len(missing)} missing')
    sys.exit(1 if wrong or missing else 0)


main()
