#!/usr/bin/env python3
"""The tables in the definitions against the coefficients printed in the papers.

Run as: python3 tests/test_coefficients.py [CRATES]

The tables of crates/idriss_theory/specs/Tables.antt and of crates/boore_atkinson_theory/specs/Tables.antt are read
as text and compared, number by number and in order, with tests/coefficients.txt, which has the numbers as printed;
so is what each table's constructor divides a column's digits by.
CRATES is the directory of the crates, ../crates unless given.
"""

import os
import re
import sys
from decimal import Decimal

HERE = os.path.dirname(os.path.abspath(__file__))
PRINTED = os.path.join(HERE, 'coefficients.txt')
CRATES = os.path.join(HERE, '..', 'crates')
IDRISS = os.path.join('idriss_theory', 'specs', 'Tables.antt')
BOORE_ATKINSON = os.path.join('boore_atkinson_theory', 'specs', 'Tables.antt')

# Document 01, 'The scenario', in thousandths of a second; 0 is peak acceleration.
IDRISS_PERIODS = [10, 20, 30, 40, 50, 75, 100, 150, 200, 250, 300, 400, 500, 750,
                  1000, 1500, 2000, 3000, 4000, 5000, 7500, 10000]
BOORE_ATKINSON_PERIODS = [0] + [period for period in IDRISS_PERIODS if period != 40]

# The columns of each printed table, with the decimals of each as printed.
IDRISS_COLUMNS = (('α1', 4), ('α2', 4), ('α3', 4), ('β1', 4), ('β2', 4), ('ξ', 3), ('γ', 4), ('φ', 2))
COLUMNS = {
    'idriss-2': IDRISS_COLUMNS,
    'idriss-3': IDRISS_COLUMNS,
    'boore-atkinson-3': (('blin', 3), ('b1', 3), ('b2', 2)),
    'boore-atkinson-4': (('a1', 2), ('pga_low', 2), ('a2', 2), ('V1', 0), ('V2', 0), ('Vref', 0)),
    'boore-atkinson-6': (('c1', 5), ('c2', 5), ('c3', 5), ('h', 2)),
    'boore-atkinson-7': tuple((f'e{i}', 5) for i in range(1, 8)) + (('Mh', 2),),
    'boore-atkinson-8': (('σTU', 3), ('σTM', 3)),
}
# Columns whose numbers stay whole in the definitions: h, in hundredths of a km.
WHOLE = {'boore-atkinson-6': {'h'}}
# The constructor that makes a row of the digits.
CONSTRUCTORS = {
    'idriss-2': 'row',
    'idriss-3': 'row',
    'boore-atkinson-3': 'site',
    'boore-atkinson-6': 'distance',
    'boore-atkinson-7': 'magnitude',
    'boore-atkinson-8': 'total',
}
# Where the definitions have each table.
PLACES = {
    'idriss-2': (IDRISS, 'table2', IDRISS_PERIODS),
    'idriss-3': (IDRISS, 'table3', IDRISS_PERIODS),
    'boore-atkinson-3': (BOORE_ATKINSON, 'table3', BOORE_ATKINSON_PERIODS),
    'boore-atkinson-6': (BOORE_ATKINSON, 'table6', BOORE_ATKINSON_PERIODS),
    'boore-atkinson-7': (BOORE_ATKINSON, 'table7', BOORE_ATKINSON_PERIODS),
    'boore-atkinson-8': (BOORE_ATKINSON, 'table8', BOORE_ATKINSON_PERIODS),
}
# Table 4 stands as six definitions, in the order of its columns; accelerations in hundredths of g, velocities in
# tenths of a m/s.
CONSTANTS = 'boore-atkinson-4'
CONSTANT_NAMES = ('a1', 'pga_low', 'a2', 'V1', 'V2', 'Vref')
CONSTANT_UNITS = (1, 1, 1, 10, 10, 10)

DIGITS = r'\d[\d_]*'
SIGNED = rf'\((?:pos|neg) {DIGITS}\)|{DIGITS}'
ROW = re.compile(rf'(\w+) ({DIGITS})((?: (?:{SIGNED}))+)')
PRINTED_NUMBER = re.compile(r'-?\d+(?:\.\d+)?')
LABEL = re.compile(r'PGA|value|\d+(?:\.\d+)?')


class Fault(Exception):
    """A table that cannot be compared."""


def printed_tables():
    """Return the data file's tables: for each the header's cells and then its rows' cells."""
    tables = {}
    with open(PRINTED, encoding='utf-8') as file:
        for line in file:
            if line.strip() and not line.startswith('#'):
                name, *cells = line.split()
                tables.setdefault(name, []).append(cells)
    if set(tables) != set(COLUMNS):
        raise Fault(f'the data file has the tables {list(tables)}')
    return tables


def thousandths(label):
    """Return a printed period in thousandths of a second, 0 for PGA."""
    return Decimal(0) if label == 'PGA' else Decimal(label) * 1000


def whole_numbers(name, cells):
    """Return a printed table as (label, numbers), each number times 10^k, k the decimals of its column."""
    first = 'name' if name == CONSTANTS else 'period'
    wanted = [first, *(column for column, _ in COLUMNS[name])]
    if cells[0] != wanted:
        raise Fault(f'the data file has the columns {cells[0]}')
    rows = cells[1:]
    for row in rows:
        if (len(row) != len(wanted) or not LABEL.fullmatch(row[0])
                or not all(map(PRINTED_NUMBER.fullmatch, row[1:]))):
            raise Fault(f'the data file has the row {row}')
    for place, (column, decimals) in enumerate(COLUMNS[name], 1):
        found = max((len(row[place].partition('.')[2]) for row in rows), default=0)
        if found != decimals:
            raise Fault(f'{column} has {found} decimals in the data file instead of {decimals}')
    return [(row[0], [int(Decimal(number).scaleb(decimals)) for number, (_, decimals) in zip(row[1:], COLUMNS[name])])
            for row in rows]


def definitions(path):
    """Return a file of definitions as text without comments."""
    try:
        with open(path, encoding='utf-8') as file:
            return re.sub(r'--.*', '', file.read())
    except FileNotFoundError:
        raise Fault(f'there is no {path}') from None


def number(text):
    """Return the number that `(pos N)`, `(neg N)` or `N` stands for."""
    size = int(re.search(DIGITS, text).group().replace('_', ''))
    if text.startswith('(neg') and size == 0:
        raise Fault('(neg 0): zero is printed without a minus')
    return -size if text.startswith('(neg') else size


def table_rows(text, name, maker):
    """Return the rows of a table of the definitions as (period, numbers)."""
    # The list ends at a line [] that no indented line follows: nothing can be joined to it.
    found = re.findall(rf'^{name} =[ ]*\n(.*?)^[ ]+\[\][ ]*$(?!\s*\n[ ]+\S)', text, re.M | re.S)
    if len(found) != 1 or len(re.findall(rf'^{name} (?:[^:\n]* )?=', text, re.M)) != 1:
        raise Fault(f'{name} is missing, or not one list of rows')
    *pieces, rest = (' '.join(piece.split()) for piece in found[0].split('∷'))
    matches = [ROW.fullmatch(piece) for piece in pieces]
    for piece, match in zip(pieces, matches):
        if not match:
            raise Fault(f'{name} has a row of a kind that this test does not know: {piece}')
    if rest or {match.group(1) for match in matches} != {maker}:
        raise Fault(f'{name} has a row that {maker} does not make, or a row without ∷')
    return [(number(match.group(2)), [number(signed) for signed in re.findall(SIGNED, match.group(3))])
            for match in matches]


def constants(text):
    """Return the six definitions of Boore and Atkinson's Table 4."""
    values = []
    for name in CONSTANT_NAMES:
        found = re.findall(rf'^{name} =(.*)', text, re.M)
        if len(found) != 1 or not re.fullmatch(DIGITS, found[0].strip()):
            raise Fault(f'{name} is missing, or not one number: {found}')
        values.append(number(found[0].strip()))
    return values


def constructor_faults(text, name):
    """Return the columns that a table's constructor does not divide by their printed decimals."""
    maker = CONSTRUCTORS[name]
    columns = [column for column, _ in COLUMNS[name]]
    wanted_head = ' '.join([maker, 'period', *columns]) + ' ='
    found = re.findall(rf'^{re.escape(wanted_head)}\s*record \{{(.*?)\}}', text, re.M | re.S)
    if len(found) != 1 or len(re.findall(rf'^{maker} .*=', text, re.M)) != 1:
        raise Fault(f'{maker} is missing, or does not take the columns in the order of the table')
    fields = [field for field in (' '.join(part.split()) for part in found[0].split(';')) if field]
    wanted = ['period = period']
    for column, decimals in COLUMNS[name]:
        whole = column in WHOLE.get(name, ())
        wanted.append(f'{column} = {column}' if whole else f'{column} = {column} over {10 ** decimals}')
    plain = [field.replace('_', '').replace('= pos ', '= ') for field in fields]
    return [f'{name}: {maker} has {has}, and not {wants}' for has, wants in zip(plain, wanted) if has != wants] + (
        [f'{name}: {maker} has {len(plain)} fields'] if len(plain) != len(wanted) else [])


def row_faults(name, label, printed, stated):
    """Return what is wrong with the numbers of one row."""
    if len(printed) != len(stated):
        return [f'{name} {label}: {len(stated)} numbers instead of {len(printed)}']
    return [f'{name} {label}: {column} is {has}, printed {wants} over 10^{decimals}'
            for (column, decimals), wants, has in zip(COLUMNS[name], printed, stated) if wants != has]


def table_faults(name, printed, stated, periods):
    """Return what is wrong with a table whose rows have periods."""
    faults = []
    if [thousandths(label) for label, _ in printed] != periods:
        faults.append(f'{name}: the periods of the data file are not those of document 01')
    if len(printed) != len(stated):
        faults.append(f'{name}: {len(stated)} rows instead of {len(printed)}')
    for (label, wants), (period, has) in zip(printed, stated):
        if period != thousandths(label):
            faults.append(f'{name} {label}: the row in its place has the period {period}')
        else:
            faults += row_faults(name, label, wants, has)
    return faults


def compare(name, cells, crates):
    """Return one table's faults and how many rows and numbers were compared."""
    try:
        printed = whole_numbers(name, cells)
        if name == CONSTANTS:
            if [label for label, _ in printed] != ['value']:
                raise Fault('the data file has not one row of values')
            stated = constants(definitions(os.path.join(crates, BOORE_ATKINSON)))
            faults = row_faults(name, 'value', [n * unit for n, unit in zip(printed[0][1], CONSTANT_UNITS)], stated)
        else:
            path, definition, periods = PLACES[name]
            text = definitions(os.path.join(crates, path))
            faults = table_faults(name, printed, table_rows(text, definition, CONSTRUCTORS[name]), periods)
            faults += constructor_faults(text, name)
    except Fault as fault:
        return [f'{name}: {fault}'], 0, 0
    return faults, len(printed), sum(len(numbers) for _, numbers in printed)


def main():
    """Compare every table."""
    crates = sys.argv[1] if len(sys.argv) > 1 else CRATES
    faults, tables, rows, numbers = [], 0, 0, 0
    try:
        printed = printed_tables()
    except Fault as fault:
        sys.exit(f'wrong: {fault}')
    for name, cells in printed.items():
        found, row_count, number_count = compare(name, cells, crates)
        faults += found
        tables += row_count > 0
        rows += row_count
        numbers += number_count
    for fault in faults:
        print('wrong:', fault)
    print(f'coefficients: {tables} tables, {rows} rows, {numbers} numbers, {len(faults)} wrong')
    sys.exit(1 if faults else 0)


main()
