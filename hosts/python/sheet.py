#!/usr/bin/env python3
"""Print a page of earthquakes for one bridge, answered in one go.

A scenario that is refused does not stop the others.
"""

import fusnoch
from fusnoch import BOORE_ATKINSON, IDRISS, Refused, Scenario

# The same throughout the page: V_S30 in 0.1 m/s, and the period in 0.001 s.
VELOCITY, PERIOD = 5200, 1000

MODELS = {IDRISS: 'Idriss 2014', BOORE_ATKINSON: 'Boore and Atkinson 2008'}
STRIKE_SLIP, NORMAL, REVERSE = 0, 1, 2
MECHANISMS = {STRIKE_SLIP: 'strike-slip', NORMAL: 'normal', REVERSE: 'reverse'}


def earthquake(model, magnitude, mechanism, **distances):
    """Return a scenario of the page: magnitude in 0.01, distances in 0.01 km."""
    return Scenario(model, magnitude, VELOCITY, mechanism, PERIOD, **distances)


PAGE = [
    earthquake(IDRISS, 700, STRIKE_SLIP, rupture_distance=1044, projection_distance=1000),
    earthquake(BOORE_ATKINSON, 700, STRIKE_SLIP, rupture_distance=1044, projection_distance=1000),
    earthquake(IDRISS, 650, REVERSE, rupture_distance=2200, projection_distance=1850),
    earthquake(BOORE_ATKINSON, 650, REVERSE, rupture_distance=2200, projection_distance=1850),
    earthquake(IDRISS, 800, STRIKE_SLIP, rupture_distance=18000),
    earthquake(BOORE_ATKINSON, 800, STRIKE_SLIP, projection_distance=18000),
    earthquake(IDRISS, 600, NORMAL, rupture_distance=1200, projection_distance=1500),
    earthquake(BOORE_ATKINSON, 600, NORMAL, rupture_distance=1200),
]


def hundredths(number):
    """Return a number of hundredths as a decimal, or - where it is absent."""
    return '-' if number is None else f'{number // 100}.{number % 100:02}'


def cells(answer):
    """Return the ends of an answer, or the refusal."""
    if isinstance(answer, Refused):
        return str(answer)
    return f'{answer.median_low:12} {answer.median_high:12} {answer.sigma_low:10} {answer.sigma_high:10}'


def heading():
    """Return the lines above the table."""
    return f'''\
A page of earthquakes for one bridge, 5 percent damped: V_S30 {VELOCITY // 10}.{VELOCITY % 10} m/s, \
period {PERIOD // 1000}.{PERIOD % 1000:03} s
median, sigma: ends in units of 10^-9; they enclose the natural logarithm of the median in g, and sigma

place | {"model":23} | {"M":>4} | rupture km | projection km | {"mechanism":11} | \
{"median low":>12} {"median high":>12} {"sigma low":>10} {"sigma high":>10}'''


def main():
    """Print the heading, a line for each scenario, and how many are answered."""
    answers = fusnoch.answer_sheet(PAGE)
    print(heading())
    for place, (scenario, answer) in enumerate(zip(PAGE, answers), 1):
        print(f'{place:5} | {MODELS[scenario.model]:23} | {hundredths(scenario.magnitude):>4} | '
              f'{hundredths(scenario.rupture_distance):>10} | {hundredths(scenario.projection_distance):>13} | '
              f'{MECHANISMS[scenario.mechanism]:11} | {cells(answer)}')
    print(f'\n{len(answers)} scenarios, {sum(not isinstance(answer, Refused) for answer in answers)} answered')


if __name__ == '__main__':
    main()
