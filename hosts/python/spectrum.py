#!/usr/bin/env python3
"""Print the spectrum of one earthquake by both models side by side.

It is a vertical strike-slip fault whose rupture begins 3 km down, at a site 10 km beside it, so that the rupture is
10.44 km away.  Below the table stand the answers that have no row of their own.
"""

from dataclasses import replace

import fusnoch
from fusnoch import Refused, Scenario

# The earthquake at the site, with both distances: each model reads its own.
EARTHQUAKE = Scenario(fusnoch.IDRISS, magnitude=700, velocity=7600, mechanism=0, period=0, rupture_distance=1044,
                      projection_distance=1000)

# In 0.001 s; 0 is peak acceleration.
PERIODS = (0, 10, 20, 30, 40, 50, 70, 75, 100, 150, 200, 250, 300, 400, 500, 750, 1000, 1500, 2000, 3000, 4000, 5000,
           7500, 10000)

MODELS = {fusnoch.IDRISS: 'Idriss 2014', fusnoch.BOORE_ATKINSON: 'Boore and Atkinson 2008'}


def hundredths(number):
    """Return a number of hundredths as a decimal."""
    return f'{number // 100}.{number % 100:02}'


def decimal(millionths):
    """Return a number of millionths as a decimal."""
    return f'{millionths // 1000000}.{millionths % 1000000:06}'


def cell(scenario):
    """Return the part of one model in a line: ends and the median in g, or the refusal."""
    try:
        ends, g = fusnoch.answer(scenario), fusnoch.millionths(scenario)
    except Refused as refused:
        return str(refused)
    return (f'{ends.median_low:12} {ends.median_high:12} {decimal(g.low):>9} {decimal(g.high):>9} '
            f'{ends.sigma_low:10} {ends.sigma_high:10}')


def heading():
    """Return the lines above the table."""
    columns = ' '.join(['  median low', ' median high', '    g low', '   g high', ' sigma low', 'sigma high'])
    return f'''\
Spectrum, 5 percent damped: M {hundredths(EARTHQUAKE.magnitude)}, strike-slip, V_S30 \
{EARTHQUAKE.velocity // 10}.{EARTHQUAKE.velocity % 10} m/s
Idriss 2014 at {hundredths(EARTHQUAKE.rupture_distance)} km from the rupture, Boore and Atkinson 2008 at \
{hundredths(EARTHQUAKE.projection_distance)} km from its surface projection
median, sigma: ends in units of 10^-9; they enclose the natural logarithm of the median in g, and sigma
g low, g high: the median in g lies between them; whole millionths of g, and a low of 0 sets no bound

{"":8} | {"Idriss 2014":67} | Boore and Atkinson 2008
period s | {columns} | {columns}'''


def lies_between(model, period):
    """Say whether an answer rests on two rows."""
    try:
        rows = fusnoch.rows(model, period)
    except Refused:
        return False
    return rows.lower != rows.upper


def main():
    """Print the heading, a line for each period, and the rows that each answer without one of its own rests on."""
    print(heading())
    for period in PERIODS:
        name = f'{period // 1000}.{period % 1000:03}' if period else 'PGA'
        idriss, boore_atkinson = (cell(replace(EARTHQUAKE, model=model, period=period)) for model in MODELS)
        print(f'{name:>8} | {idriss:67} | {boore_atkinson}')
    print('\nBetween rows: answered from the two rows named, by the logarithm of the period')
    for period in PERIODS:
        for model, title in MODELS.items():
            if lies_between(model, period):
                print(f'{title}, {fusnoch.rows_words(model, period)}')


if __name__ == '__main__':
    main()
