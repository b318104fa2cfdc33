#!/usr/bin/env python3
"""Answer lines of standard input through the safe wrapper, one line each, for the tests: see hosts/c/ask.c.

For `null` it takes null pointers by the library's own functions, and empty bytes by the wrapper.
"""

import sys
from dataclasses import astuple

import fusnoch
from fusnoch import LIBRARY, Refused, Scenario

# How many words a scenario has.
SCENARIO_WORDS = 7


def taken(text):
    """Return the bytes of a text."""
    return b'' if text == '-' else bytes.fromhex(text)


def show(data):
    """Return bytes as a text."""
    return data.hex() or '-'


def shown(answer):
    """Return an answer, or a refusal, as a text; a double that is whole is shown without a point."""
    if isinstance(answer, Refused):
        return f'R {answer.number}'
    return 'E ' + ' '.join(str(end) if isinstance(end, int) else f'{end:.17g}' for end in answer)


def ends(answer, *given):
    """Return the line of an answer."""
    try:
        return shown(answer(*given))
    except Refused as refused:
        return shown(refused)


def sheet(*words):
    """Return the line of a sheet."""
    try:
        answers = fusnoch.answer_sheet(scenarios_of(words))
    except Refused as refused:
        return shown(refused)
    return ' | '.join([f'S {len(answers)}', *map(shown, answers)])


def governing(*words):
    """Return the line of the scenario that governs."""
    try:
        position, marked = fusnoch.governing(scenarios_of(words))
    except Refused as refused:
        return shown(refused)
    return ' '.join(map(str, ['G', position, *marked]))


def periods(*words):
    """Return the line of the rows that an answer rests on."""
    try:
        return 'T {} {}'.format(*fusnoch.rows(*map(int, words)))
    except Refused as refused:
        return f'R {refused.number}'


def number(function, *given):
    """Return the number of a refusal, 0 for none."""
    try:
        function(*given)
    except Refused as refused:
        return refused.number
    return 0


def reading(data):
    """Return the line of a reading."""
    try:
        scenario, rest = fusnoch.read(data)
    except Refused as refused:
        return f'R {refused.number} -'
    numbers = ('-' if number is None else number for number in astuple(scenario))
    return ' '.join(map(str, ('E', *numbers, len(data) - len(rest), show(rest))))


def writing(scenario, lent):
    """Return the line of a writing."""
    try:
        result = f'L {fusnoch.write(scenario, lent)}'
    except Refused as refused:
        result = f'R {refused.number}'
    return f'{result} {show(lent)}'


def null():
    """Return the numbers of reading, answering from a record in both ways, and writing, with no bytes."""
    accepted = Scenario(fusnoch.IDRISS, magnitude=700, velocity=7600, mechanism=2, period=75, rupture_distance=1000)
    functions = LIBRARY.fusnoch_read, LIBRARY.fusnoch_answer_record, LIBRARY.fusnoch_answer_record_in_doubles
    numbers = [function(None, 0).number for function in functions]
    numbers.append(LIBRARY.fusnoch_write(fusnoch.c_scenario(accepted), None, 0).number)
    numbers += [number(function, b'') for function in
                (fusnoch.read, fusnoch.answer_record, fusnoch.answer_record_in_doubles)]
    numbers.append(number(fusnoch.write, accepted, bytearray()))
    return ' '.join(map(str, numbers))


def scenario_of(words):
    """Return the scenario of some words, - for an absent distance."""
    model, magnitude, rupture, velocity, mechanism, period, projection = (
        None if word == '-' else int(word) for word in words)
    return Scenario(model, magnitude, velocity, mechanism, period, rupture_distance=rupture,
                    projection_distance=projection)


def scenarios_of(words):
    """Return the scenarios of some words."""
    return [scenario_of(words[at:at + SCENARIO_WORDS]) for at in range(0, len(words), SCENARIO_WORDS)]


QUESTIONS = {
    'refusal': lambda *words: str(fusnoch.refusal(scenario_of(words))),
    'read': lambda text: reading(taken(text)),
    'write': lambda *words: writing(scenario_of(words[:-1]), bytearray(taken(words[-1]))),
    'answer': lambda *words: ends(fusnoch.answer, scenario_of(words)),
    'doubles': lambda *words: ends(fusnoch.answer_in_doubles, scenario_of(words)),
    'answer_record': lambda text: ends(fusnoch.answer_record, taken(text)),
    'doubles_record': lambda text: ends(fusnoch.answer_record_in_doubles, taken(text)),
    'millionths': lambda *words: ends(fusnoch.millionths, scenario_of(words)),
    'sheet': sheet,
    'governing': governing,
    'words': lambda text: Refused(int(text)).words,
    'rows': periods,
    'rows_words': lambda *words: fusnoch.rows_words(*map(int, words)),
    'null': null,
}


def main():
    """Answer all lines; what is no question ends it with a KeyError, TypeError or ValueError."""
    for line in sys.stdin:
        name, *words = line.split()
        print(QUESTIONS[name](*words))


if __name__ == '__main__':
    main()
