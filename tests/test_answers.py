"""Check the four ways of answering against documents 01 and 02: from fields and a record, in whole units and doubles.

Run as: python3 tests/test_answers.py ASK [COUNT] [SEED]

ASK, a host's program, reads one question from each line of its input and prints one line for each, `E` and four ends
or `R` and the number; a double is printed as the whole number that it equals:

    answer SCENARIO, and doubles with the same
    answer_record BYTES, and doubles_record with the same

SCENARIO is seven words, as in test_records.py.  A scenario with the distance that its model does not read is answered
as it is without.  COUNT is how many scenarios and how many byte strings are drawn, 4,000 of each unless given, besides
every kind of period and every refusal.
"""

import random
import sys

from ask import ask
from records import (BOORE_ATKINSON, IDRISS, NO_DISTANCES, OWN_DISTANCE, PERIODS, read, record, refusal,
                     without_other_distance)
from streams import (LONGEST, REFUSED, REFUSED_PERIODS, WHOLE, WRONG, Stream, any_distances, crossing, damaged,
                     near_limits, of_two_distances, one_uniform, sized, uniform, untabled, within)
from test_enclosures import Tally, line_fault
from test_records import text

COUNT = 4000
SEED = 19990921
MOST_BYTES = 200
FAULTS_SHOWN = 20
# The refusals of answering from fields, and from a record.
NUMBERS = {'answer': {1, 2, 3, 4, 5, 6, 9, 13}, 'answer_record': {1, 2, 3, 4, 5, 6, 7, 8, 9, 11, 13}}


def of_each_period(rng):
    """Return a scenario of each row and between any two, of period 0 and of periods that are turned away."""
    return [within(rng, model, period=period) for model in (IDRISS, BOORE_ATKINSON)
            for period in (0, *PERIODS[model], *untabled(model), *REFUSED_PERIODS)]


def turned_away():
    """Return a scenario for each refusal of answering, and those with each two distances."""
    scenarios = [WHOLE[model]._replace(**{name: number}) for model in WRONG for name, number in WRONG[model].items()]
    for model, whole in WHOLE.items():
        scenarios += [crossing(whole), crossing(whole)._replace(model=3), whole._replace(**{OWN_DISTANCE[model]: None}),
                      whole._replace(**NO_DISTANCES), whole._replace(model=0, **NO_DISTANCES)]
    return scenarios + [*of_two_distances()]


def draw_scenario(rng):
    """Draw a scenario, four times in seven an accepted one of either model, with the other distance or without."""
    way = rng.randrange(7)
    if way < 4:
        return within(rng, rng.choice((IDRISS, BOORE_ATKINSON)))
    return (near_limits, uniform, any_distances)[way - 4](rng)


def draw_bytes(rng):
    """Draw the bytes of a record with some more after it, of a damaged record, a part of a record, or any bytes."""
    way = rng.randrange(8)
    if way < 4:
        return record(within(rng, rng.choice((IDRISS, BOORE_ATKINSON)))) + rng.randbytes(rng.randrange(9))
    if way == 4:
        return record((near_limits, uniform, one_uniform, any_distances)[rng.randrange(4)](rng))
    if way == 5:
        return damaged(rng)
    if way == 6:
        whole = sized(rng.randint(6, LONGEST), rng.randrange(100))
        return whole[:rng.randrange(len(whole))]
    return rng.randbytes(rng.randrange(18))


def due_for_scenario(scenario):
    """Return what is due for a scenario: E and the scenario, or R and the number."""
    number = refusal(scenario)
    return ('R', number) if number else ('E', scenario)


def due_for_bytes(data):
    """Return what is due for bytes: E and the scenario read, or R and the number."""
    letter, *values = read(data)
    return letter, values[0]


def questions(rng, count):
    """Return pairs of questions, in whole units and in doubles, each pair with what is asked and what is due."""
    asked = []
    fixed = of_each_period(rng)
    # Each is asked for without the other distance, too.
    fixed += [without_other_distance(scenario) for scenario in fixed]
    for scenario in fixed + turned_away() + [draw_scenario(rng) for _ in range(count)]:
        words = text(*scenario)
        asked.append((f'answer {words}', f'doubles {words}', record(scenario), due_for_scenario(scenario)))
    refused = [data for _, data in REFUSED.values()]
    for data in [b'', *map(record, fixed), *refused, *(draw_bytes(rng)[:MOST_BYTES] for _ in range(count))]:
        words = data.hex() or '-'
        asked.append((f'answer_record {words}', f'doubles_record {words}', data, due_for_bytes(data)))
    return asked


class Alike:
    """The lines of scenarios without the distance that the model does not read, which is no part of an answer."""

    def __init__(self):
        self.known = {}
        self.compared = 0

    def fault(self, scenario, line):
        """Return how a line differs from that of the same scenario with another other distance, or None."""
        first, known = self.known.setdefault(without_other_distance(scenario), (scenario, line))
        self.compared += first != scenario
        return None if line == known else f'{known} is the answer to {tuple(first)}'


def seen_faults(asked, alike):
    """Yield which refusals no question has, or that no two scenarios differ in the other distance alone."""
    for name, numbers in NUMBERS.items():
        seen = {due[1] for whole, _, _, due in asked if whole.split()[0] == name and due[0] == 'R'}
        if seen != numbers:
            yield f'{name}: refusals missing or too many: {sorted(seen ^ numbers)}'
    if alike.compared < len(PERIODS[IDRISS]):
        yield f'only {alike.compared} scenarios are compared with those with another other distance'


def main(words):
    """Ask all questions and compare the answers."""
    program, count, seed = words[0], *map(int, words[1:] + [COUNT, SEED][len(words) - 1:])
    asked = questions(random.Random(seed), count)
    lines, faults = ask(program, [question for pair in asked for question in pair[:2]])
    tally, alike = Tally(), Alike()
    refused = 0
    for (whole, doubles, data, due), ends, same in zip(asked, lines[::2], lines[1::2]):
        refused += due[0] == 'R'
        wrong = line_fault(tally, Stream(whole.split()[0], data), 1, due, f'1 {ends}'.encode('ascii'))
        wrong = wrong or (alike.fault(due[1], ends) if due[0] == 'E' else None)
        if wrong:
            faults.append(f'{whole}: {ends}: {wrong}')
        if ends != same:
            faults.append(f'{doubles}: {same}, not {ends}')
    faults += seen_faults(asked, alike)
    for fault in faults[:FAULTS_SHOWN]:
        print(fault)
    print(f'answers: seed {seed}, {len(asked)} in whole units and in doubles ({refused} refused), '
          f'{len(faults)} faults, greatest widths: {tally.greatest_widths()}')
    return 1 if faults or tally.faults else 0


if __name__ == '__main__':
    sys.exit(main(sys.argv[1:]))
