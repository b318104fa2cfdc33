"""Check a logarithm and a root against document 01, "What the numbers mean".

Run as: python3 tests/test_logarithm.py PROBE [COUNT]

PROBE reads lines `ln A B` or `root X` and prints one line for each: `LOW
HIGH` in units of 10^-9 for a logarithm, `R` for a root from R/131072 to
(R + 1)/131072, or `none` outside the domain of the function.  COUNT is how
many lines are sent in all, 20,000 unless given; the fixed ones among them are
always sent.
"""

import math
import random
import re
import sys
from collections import Counter
from decimal import Decimal
from fractions import Fraction
from typing import NamedTuple, Tuple

from ask import ask
from exact import Pair, ln_pair, meets, root_pair, true_ln

SEED = 20240117
COUNT = 20000

# Document 01: "One unit is 10^-9 of a natural logarithm."
UNITS = 10 ** 9
# Document 01 allows 8 units; the logarithm under test promises less.
WIDEST = 2
ROOT_STEPS = 131072
# Domains: 1 <= b <= a < END for ln, 0 <= x < END for root.
END = 2 ** 29
WORD_END = 2 ** 64

# The sums of document 01 are added up where they have few terms.
FEW_TERMS = 300
LN_FINENESS = (1, 2, 3)
ROOT_FINENESS = (1, 2, 3, 7)
FAILURES_SHOWN = 10


class Case(NamedTuple):
    """One line for the probe, and the kind of input that it belongs to."""

    kind: str
    name: str
    arguments: Tuple[int, ...]

    def line(self):
        """Return the line for the probe."""
        return ' '.join([self.name, *map(str, self.arguments)])

    def in_domain(self):
        """Tell whether the arguments are in the domain of the function."""
        if self.name == 'ln':
            a, b = self.arguments
            return 1 <= b <= a < END
        return 0 <= self.arguments[0] < END


# ---------------------------------------------------------------------------
# Inputs that are always sent
# ---------------------------------------------------------------------------

def stated_ratios():
    """Return the ratios that the formulas state."""
    return [(3000, 1800), (7600, 3000), (3, 1), (15, 10), (100, 3), (100, 9),
            (10, 1), (10, 6)]


def ends_of_formulas():
    """Return the first and last arguments of the formulas, and hinges."""
    pairs = [(1000, 100), (1001, 100), (18499, 100), (18500, 100),
             (4500, 10), (12000, 10)]
    pairs += [in_order(v, 7600) for v in (1800, 7599, 7600, 7601, 13000)]
    pairs += [in_order(t, 1000) for t in (1, 10, 999, 1000, 1001, 10000)]
    pairs += [(r * r + h * h, 10000) for r in (0, 19999) for h in (135, 453)]
    return pairs


def ends_of_ln_domain():
    """Return ratios at both ends of the domain of the logarithm."""
    last, half = END - 1, END // 2
    return [(1, 1), (2, 1), (2, 2), (3, 1), (3, 2), (last, 1), (last, 2),
            (last, 3), (last, half - 1), (last, half), (last, half + 1),
            (last, last - 1), (last, last), (last - 1, 1),
            (last - 1, last - 1), (half, 1), (half, half - 1),
            (half + 1, half), (half, half)]


def powers_of_two():
    """Return every power of two in the domain, and its neighbours."""
    return [(2 ** k + d, 1) for k in range(30) for d in (-1, 0, 1)
            if 1 <= 2 ** k + d < END]


def sixty_fourths():
    """Return every (64 + i)/64, and the ratios on both sides of it."""
    ratios = []
    for size in (1, 1000, END // 128 - 1):
        for i in range(65):
            for d in (-1, 0, 1):
                ratios.append(((64 + i) * size + d, 64 * size))
    return [(a, b) for a, b in ratios if a >= b]


def ends_of_root_domain():
    """Return numbers at both ends of the domain of the root."""
    top = math.isqrt(END - 1) ** 2
    return [0, 1, 2, 3, 4, 5, END - 2, END - 1, top - 1, top, top + 1,
            18224, 18225, 18226]


def outside_ln():
    """Return arguments just outside the domain of the logarithm."""
    huge = [END, END + 1, 2 ** 31, 2 ** 32, 2 ** 32 + 7, 2 ** 63,
            2 ** 63 + 7, WORD_END - 1]
    pairs = [(0, 0), (1, 0), (END - 1, 0), (0, 1), (1, 2), (6, 7),
             (END - 2, END - 1), (1, END - 1), (END - 1, END)]
    pairs += [(a, b) for a in huge for b in (0, 1, 7, END - 1, END)]
    pairs += [(7, b) for b in huge] + [(a, a) for a in huge]
    return pairs


def outside_root():
    """Return numbers just outside the domain of the root."""
    return [END, END + 1, 2 ** 30, 2 ** 31, 2 ** 32, 2 ** 32 + 4, 2 ** 63,
            2 ** 63 + 4, WORD_END - 2, WORD_END - 1]


def fixed_cases():
    """Return the inputs that are always sent."""
    cases = []
    for kind, pairs in [
            ('ln of a stated ratio', stated_ratios()),
            ('ln at the ends of the formulas', ends_of_formulas()),
            ('ln at the ends of the domain', ends_of_ln_domain()),
            ('ln at the powers of two', powers_of_two()),
            ('ln at every (64 + i)/64', sixty_fourths()),
            ('ln just outside the domain', outside_ln())]:
        cases += [Case(kind, 'ln', pair) for pair in pairs]
    for kind, numbers in [
            ('root at the ends of the domain', ends_of_root_domain()),
            ('root just outside the domain', outside_root())]:
        cases += [Case(kind, 'root', (x,)) for x in numbers]
    return cases


# ---------------------------------------------------------------------------
# Inputs that are drawn
# ---------------------------------------------------------------------------

def in_order(a, b):
    """Return two numbers, the greater first."""
    return max(a, b), min(a, b)


def any_size(rng, end=END):
    """Draw a number from 1 up to the end, on a logarithmic scale."""
    bits = rng.randint(1, (end - 1).bit_length())
    return rng.randrange(2 ** (bits - 1), min(2 ** bits, end))


def beyond_end(rng):
    """Draw a number from the end of the domain to 2^64 - 1."""
    shape = rng.randrange(3)
    if shape == 0:
        return rng.randrange(END, 2 ** rng.randint(30, 64))
    if shape == 1:
        # Small again if only the lower half or less is looked at.
        return 2 ** rng.randint(29, 63) + rng.randrange(2 ** 29)
    return WORD_END - any_size(rng)


def whole_domain(rng):
    """Draw two numbers of any size."""
    return in_order(any_size(rng), any_size(rng))


def distance_ratio(rng):
    """Draw (R + 1000)/100 for R from 0 to 17500."""
    return rng.randint(0, 17500) + 1000, 100


def velocity_ratio(rng):
    """Draw V/10 for V from 4500 to 12000."""
    return rng.randint(4500, 12000), 10


def site_ratio(rng):
    """Draw V/7600 for V from 7600 to 13000, or 7600/V for V below."""
    if rng.randrange(2):
        return rng.randint(7600, 13000), 7600
    return 7600, rng.randint(1000, 7599)


def square_sum(rng):
    """Draw r*r + h*h for r from 0 to 19999 and h from 135 to 453."""
    r = rng.randint(0, 19999) if rng.randrange(2) else rng.randint(0, 999)
    h = rng.randint(135, 453)
    return r * r + h * h


def square_sum_ratio(rng):
    """Draw X/10000 for X = r*r + h*h."""
    return square_sum(rng), 10000


def period_ratio(rng):
    """Draw T/1000 or 1000/T, whichever is at least one."""
    return in_order(rng.randint(1, 10000), 1000)


def next_to(rng, top, bottom):
    """Draw a ratio next to 2^k * top/bottom, on either side or equal."""
    top <<= rng.randint(0, 28)
    if rng.randrange(2):
        # Multiples of both, and a step or two aside.
        size = any_size(rng, max(END // top, 2))
        return top * size + rng.randint(-2, 2), bottom * size
    # The whole numbers around top/bottom times any b.
    b = any_size(rng)
    return b * top // bottom + rng.randint(-1, 2), b


def next_to_power(rng):
    """Draw a ratio next to a power of two."""
    return next_to(rng, 1, 1)


def next_to_64th(rng):
    """Draw a ratio next to (64 + i)/64, times a power of two."""
    return next_to(rng, 64 + rng.randint(0, 64), 64)


def next_to_4096th(rng):
    """Draw a ratio next to (4096 + j)/4096, times a power of two."""
    j = rng.randint(0, 4096) if rng.randrange(2) else rng.randint(0, 64)
    return next_to(rng, 4096 + j, 4096)


def next_to_both(rng):
    """Draw a ratio next to (64 + i)/64 * (4096 + j)/4096."""
    top = (64 + rng.randint(0, 63)) * (4096 + rng.randint(0, 64))
    return next_to(rng, top, 64 * 4096)


def close_to_unit(rng):
    """Draw a ratio whose logarithm is very close to a whole unit."""
    units = rng.randrange(rng.choice((UNITS, 10 * UNITS)))
    power = Fraction((Decimal(units) / UNITS).exp())
    ratio = power.limit_denominator(int(END / power))
    return ratio.numerator, ratio.denominator


def equals(rng):
    """Draw a = b."""
    b = any_size(rng)
    return b, b


def neighbours(rng):
    """Draw a = b + 1."""
    b = any_size(rng, END - 1)
    return b + 1, b


def near_equals(rng):
    """Draw a little above b."""
    b = any_size(rng)
    return b + rng.randint(2, FEW_TERMS // max(LN_FINENESS)), b


def end_of_domain(rng):
    """Draw a just below the end of the domain, and any b."""
    a = END - any_size(rng, 2 ** 12)
    return a, any_size(rng) if rng.randrange(2) else a - any_size(rng, 2 ** 12)


def outside_drawn(rng):
    """Draw a pair that is outside the domain of the logarithm."""
    shape = rng.randrange(5)
    if shape == 0:
        return rng.choice((any_size(rng), beyond_end(rng))), 0
    if shape == 1:
        b = any_size(rng)
        return rng.randrange(b), b
    if shape == 2:
        return beyond_end(rng), any_size(rng)
    if shape == 3:
        return any_size(rng), beyond_end(rng)
    return beyond_end(rng), beyond_end(rng)


def any_number(rng):
    """Draw a number of any size, or one evenly from the whole domain."""
    return rng.choice((any_size(rng), rng.randrange(END)))


def near_square(rng):
    """Draw a perfect square or a neighbour of one."""
    k = any_size(rng, math.isqrt(END - 1) + 1)
    return k * k + rng.randint(-1, 1)


def root_of_residue(c, bits):
    """Return s with s*s equal to c modulo 2^bits, for c of form 8m + 1."""
    s = 1
    for k in range(3, bits):
        if (s * s - c) >> k & 1:
            s += 2 ** (k - 1)
    return s


def close_to_step(rng):
    """Draw a number whose root is very close to a whole R."""
    # Then x * 131072^2 is s*s - c, with c small beside s.
    square_bits = (ROOT_STEPS ** 2).bit_length() - 1
    c = 8 * rng.randint(-400, 400) + 1
    s = rng.choice((-1, 1)) * root_of_residue(c, square_bits)
    s += rng.randrange(2) << square_bits - 1
    s %= 2 ** square_bits
    return s * s - c >> square_bits


LN_DRAWN = {
    'ln of any size': whole_domain,
    'ln of (R + 1000)/100': distance_ratio,
    'ln of V/10': velocity_ratio,
    'ln of V/7600 and 7600/V': site_ratio,
    'ln of (r*r + h*h)/10000': square_sum_ratio,
    'ln of T/1000 and 1000/T': period_ratio,
    'ln next to a power of two': next_to_power,
    'ln next to (64 + i)/64': next_to_64th,
    'ln next to (4096 + j)/4096': next_to_4096th,
    'ln next to both in turn': next_to_both,
    'ln close to a whole unit': close_to_unit,
    'ln of a = b': equals,
    'ln of a = b + 1': neighbours,
    'ln of a little above b': near_equals,
    'ln near the end of the domain': end_of_domain,
}
ROOT_DRAWN = {
    'root of any size': any_number,
    'root of squares and neighbours': near_square,
    'root of r*r + h*h': square_sum,
    'root close to a whole R': close_to_step,
}


def draw_case(rng, kind, name, draw, inside):
    """Draw until the case is inside, or outside, the domain as wanted."""
    while True:
        drawn = draw(rng)
        arguments = drawn if name == 'ln' else (drawn,)
        case = Case(kind, name, arguments)
        if case.in_domain() == inside:
            return case


def drawn_kinds():
    """Return what to draw in turn: kind, name, function, in domain."""
    kinds = [(kind, 'ln', draw, True) for kind, draw in LN_DRAWN.items()]
    kinds += [(kind, 'root', draw, True) for kind, draw in ROOT_DRAWN.items()]
    kinds.append(('ln far outside the domain', 'ln', outside_drawn, False))
    kinds.append(('root far outside the domain', 'root', beyond_end, False))
    return kinds


def make_cases(count):
    """Return the fixed cases, and drawn ones to make up the count."""
    rng = random.Random(SEED)
    cases = fixed_cases()
    kinds = drawn_kinds()
    for turn in range(count - len(cases)):
        cases.append(draw_case(rng, *kinds[turn % len(kinds)]))
    return cases


# ---------------------------------------------------------------------------
# The checks
# ---------------------------------------------------------------------------

def has_few_terms(a, b):
    """Tell whether the sums for ln(a/b) are short enough to add up."""
    return (a - b) * max(LN_FINENESS) <= FEW_TERMS


def read_numbers(answer, how_many):
    """Return the whole numbers of an answer, or None if it has others."""
    if not re.fullmatch(r'-?[0-9]{1,30}( -?[0-9]{1,30})*', answer):
        return None
    numbers = [int(word) for word in answer.split(' ')]
    return numbers if len(numbers) == how_many else None


def in_units(difference):
    """Return a text for a difference, rounded, in units."""
    return f'{float(difference * UNITS):.3g} units'


def ln_fault(a, b, low, high):
    """Return what is wrong with the ends for ln(a/b), or None."""
    if low > high:
        return 'the low end is above the high end'
    if high - low > WIDEST:
        return f'the ends are {high - low} units apart'
    if a == b and (low, high) != (0, 0):
        # "Equal a and b give 0 and 0."
        return 'equal numbers have to give 0 0'
    answer = Pair(Fraction(low, UNITS), Fraction(high, UNITS))
    true = true_ln(a, b)
    if true.low < answer.low:
        return f'the low end is {in_units(answer.low - true.low)} too high'
    if true.high > answer.high:
        return f'the high end is {in_units(true.high - answer.high)} too low'
    return sums_fault(a, b, answer) if has_few_terms(a, b) else None


def sums_fault(a, b, answer):
    """Return the fineness at which the sums do not meet the answer."""
    # "An answer encloses a formula if at every n some point lies both from
    # its low end to its high end and within the formula's pair, ends
    # included."
    for n in LN_FINENESS:
        if not meets(answer, ln_pair(a, b, n)):
            return f'the sums at n = {n} do not meet the ends'
    return None


def root_fault(x, r):
    """Return what is wrong with the answer for the root of x, or None."""
    expected = math.isqrt(x * ROOT_STEPS ** 2)
    if r != expected:
        return f'the root is {expected}'
    answer = Pair(Fraction(r, ROOT_STEPS), Fraction(r + 1, ROOT_STEPS))
    for n in ROOT_FINENESS:
        if not meets(answer, root_pair(x, n)):
            return f'the values at n = {n} do not meet the answer'
    return None


def fault(case, answer):
    """Return what is wrong with the answer to a case, or None."""
    if not case.in_domain():
        return None if answer == 'none' else 'outside the domain: none'
    if answer == 'none':
        return 'this is in the domain'
    numbers = read_numbers(answer, len(case.arguments))
    if numbers is None:
        return 'this is no answer'
    check = ln_fault if case.name == 'ln' else root_fault
    return check(*case.arguments, *numbers)


def check_all(cases, lines):
    """Return a message for each answer that is wrong."""
    faults = []
    for case, line in zip(cases, lines):
        wrong = fault(case, line)
        if wrong:
            faults.append(f'{case.line()} -> {line}: {wrong}')
    return faults


# ---------------------------------------------------------------------------
# The report
# ---------------------------------------------------------------------------

def widths(cases, lines):
    """Return the widths of all the logarithms that were answered."""
    found = []
    for case, line in zip(cases, lines):
        numbers = read_numbers(line, 2)
        if case.name == 'ln' and case.in_domain() and numbers:
            found.append(numbers[1] - numbers[0])
    return found


def print_kinds(cases, lines):
    """Print how many answers of each kind were checked."""
    checked = [case for case, _ in zip(cases, lines)]
    for kind, number in Counter(case.kind for case in checked).items():
        print(f'{number:8}  {kind}')
    few = sum(case.name == 'ln' and case.in_domain()
              and has_few_terms(*case.arguments) for case in checked)
    print(f'{len(checked):8}  in all; of these {few} against the sums too')


def print_widths(found):
    """Print the greatest and the average width of the logarithm's ends."""
    if found:
        average = sum(found) / len(found)
        print(f'width of the ends of ln: greatest {max(found)}, '
              f'average {average:.4f} units')


def run(probe, count):
    """Check the probe; return the exit status."""
    cases = make_cases(count)
    print(f'seed {SEED}, {len(cases)} inputs')
    lines, faults = ask(probe, [case.line() for case in cases])
    faults += check_all(cases, lines)
    print_kinds(cases, lines)
    print_widths(widths(cases, lines))
    for message in faults[:FAILURES_SHOWN]:
        print(f'FAILED {message}')
    print(f'failures: {len(faults)}')
    return 1 if faults else 0


def main(words):
    """Read the command line and run the checks."""
    if len(words) not in (2, 3) or not all(w.isdecimal() for w in words[2:]):
        print('usage: test_logarithm.py PROBE [COUNT]', file=sys.stderr)
        return 2
    return run(words[1], int(words[2]) if len(words) == 3 else COUNT)


if __name__ == '__main__':
    sys.exit(main(sys.argv))
