#!/usr/bin/env python3
"""The coefficients printed in the two papers, from the papers' transcripts.

usage: tools/coefficients.py [--check] DIRECTORY

DIRECTORY holds the transcripts of Idriss 2014 (000_*.txt: Tables 2 and 3) and of Boore and Atkinson 2008 (003_*.txt:
Tables 3, 4, 6, 7 and the totals of Table 8). Writes tests/coefficients.txt; with --check it only says whether the file
is what it would write. A transcript that is not as expected here ends the run: nothing is guessed.
"""
import glob
import os
import re
import sys
from decimal import Decimal
from typing import NamedTuple, Tuple

OUTPUT = os.path.join(os.path.dirname(os.path.abspath(__file__)), "..", "tests", "coefficients.txt")

# Document 01, 'The scenario', in thousandths of a second. Boore and Atkinson have the same without 40.
PERIODS = (10, 20, 30, 40, 50, 75, 100, 150, 200, 250, 300, 400, 500, 750,
           1000, 1500, 2000, 3000, 4000, 5000, 7500, 10000)
# As the papers print them: Idriss 0.01, 0.075, 1; Boore and Atkinson 0.010, 0.075, 1.000.
IDRISS_PERIODS = tuple(f"{period / 1000:g}" for period in PERIODS)
BOORE_ATKINSON_PERIODS = ("PGV", "PGA") + tuple(f"{period / 1000:.3f}" for period in PERIODS if period != 40)
PEAK_VELOCITY = "PGV"  # out of scope, as document 01 says: read and checked, but not written

NUMBER = re.compile(r"-?\d+(?:\.\d+)?")
IDRISS_COLUMNS = ("α1", "α2", "α3", "β1", "β2", "ξ", "γ", "φ")


class Table(NamedTuple):
    """Where a table stands in its transcript, and what is expected of it."""
    name: str
    header: str  # the whole line above its first row
    caption: str  # how its caption starts
    columns: Tuple[str, ...]
    periods: Tuple[str, ...]
    lost_periods: bool = False  # the transcript has dropped the period column
    caption_above: bool = False
    repeat: bool = False  # the line under its last row repeats some columns, damaged


# The first heading of Idriss Table 2 lost a letter, and two more are misread; Table 3, with the same columns, shows them.
IDRISS_2 = Table("idriss-2", "$lpha_1$\tα_2\t<i>a</i> ₃\tβ_1\tβ_2\tځ\tγ\tφ", "Table 2. Derived coefficients",
                 IDRISS_COLUMNS, IDRISS_PERIODS, lost_periods=True, repeat=True)
IDRISS_3 = Table("idriss-3", "Period (s)\tα_1\tα_2\tα_3\tβ_1\tβ_2\tξ\tγ\tφ", "Table 3. Derived coefficients",
                 IDRISS_COLUMNS, IDRISS_PERIODS)
SITE = Table("boore-atkinson-3", "Period\tb _{lin}\tb_1\tb_2", "Table 3. Period-dependent site-amplification",
             ("blin", "b1", "b2"), BOORE_ATKINSON_PERIODS)
DISTANCE = Table("boore-atkinson-6", "Period\tc_1\tc_2\tc_3\th", "Table 6. Distance-scaling coefficients",
                 ("c1", "c2", "c3", "h"), BOORE_ATKINSON_PERIODS, caption_above=True)
MAGNITUDE = Table("boore-atkinson-7", "Period\te_1\te_2\te_3\te_4\te_5\te_6\te_7\t\\mathbf{M}_{h}",
                  "Table 7. Magnitude-scaling coefficients",
                  ("e1", "e2", "e3", "e4", "e5", "e6", "e7", "Mh"), BOORE_ATKINSON_PERIODS)
UNCERTAINTY = Table("boore-atkinson-8", "σ\t$ au_U$\tσ_{TU}\t$ au_M$\tσ_{TM}", "Table 8. Aleatory uncertainties",
                    ("σ", "τU", "σTU", "τM", "σTM"), BOORE_ATKINSON_PERIODS, lost_periods=True, repeat=True)
TOTALS = ("σTU", "σTM")

# The names of Boore and Atkinson's Table 4 are lost. The six values stand in the order of the names; the paper's text
# gives each value beside its name, and must agree.
SITE_CONSTANTS = (
    ("a1", "g", r"a_1 \(=([\d.]+) g\)"),
    ("pga_low", "g", r"pga_low \(=([\d.]+) g\)"),
    ("a2", "g", r"a_2 \(=([\d.]+) g\)"),
    ("V1", "m/s", r"\$V_1 = ([\d.]+) \\text\{ m/s\}\$"),
    ("V2", "m/s", r"\$V_2 = ([\d.]+) \\text\{ m/s\}\$"),
    ("Vref", "m/s", r"V_\{ref\} is the specified reference velocity \(=([\d.]+) m/s\)"),
)

# Columns of one sign: a lost minus sign is a common fault of a transcript. Zero is let pass.
NEVER_POSITIVE = {"β2", "ξ", "γ", "blin", "b1", "b2", "c1", "c3", "e6"}
NEVER_NEGATIVE = {"β1", "φ", "h", "e5", "e7", "Mh", "σ", "τU", "σTU", "τM", "σTM"}


def expect(holds, message):
    """End the run with the message unless the condition holds."""
    if not holds:
        sys.exit(f"tools/coefficients.py: {message}")


def transcript(directory, number):
    """Return the lines of the one transcript whose name starts with the number."""
    paths = glob.glob(os.path.join(glob.escape(directory), f"{number}_*.txt"))
    expect(len(paths) == 1, f"{len(paths)} files {number}_*.txt in {directory} instead of one")
    with open(paths[0], encoding="utf-8") as file:
        return file.read().split("\n")


def is_row(line):
    """Say whether a line is a row of a table: numbers, perhaps after the name of a peak value."""
    first, *rest = line.split("\t")
    return bool(NUMBER.fullmatch(first) or first in ("PGV", "PGA")) and all(map(NUMBER.fullmatch, rest))


def rows_in(lines, table):
    """Return a table's rows as lists of cells, and the line under the last row."""
    places = [i for i, line in enumerate(lines) if line == table.header]
    expect(len(places) == 1, f"{table.name}: its header stands {len(places)} times")
    first = end = places[0] + 1
    while end < len(lines) and is_row(lines[end]):
        end += 1
    nearby = lines[:places[0]][::-1] if table.caption_above else lines[end + table.repeat:]
    neighbour = next((line.strip() for line in nearby if line.strip()), "")
    expect(neighbour.startswith(table.caption), f"{table.name}: the line beside it is not its caption")
    return [line.split("\t") for line in lines[first:end]], lines[end]


def with_periods(rows, table):
    """Return the numbers of each period, after a check of counts and of the period column."""
    expect(len(rows) == len(table.periods), f"{table.name}: {len(rows)} rows instead of {len(table.periods)}")
    width = len(table.columns) + (not table.lost_periods)
    for row in rows:
        expect(len(row) == width, f"{table.name}: {len(row)} columns instead of {width} in {row}")
    if table.lost_periods:
        # Idriss Table 2 and Boore and Atkinson's Table 8 lost their periods in the transcript. No row is lost, so that
        # the rows follow the papers' own list, which document 01 repeats.
        rows = [[period, *row] for period, row in zip(table.periods, rows)]
    found = tuple(row[0] for row in rows)
    expect(found == table.periods, f"{table.name}: the periods are {found}")
    return {period: dict(zip(table.columns, numbers)) for period, *numbers in rows}


def correct_site(site):
    """Put back the minus sign that b2 at 0.2 s has lost."""
    # The paper prints -0.19 (document 01, 'The site term'); every other b2 is negative or 0.00.
    row = site["0.200"]
    expect(row["b2"] == "0.19", f"b2 at 0.2 s reads {row['b2']}, where the correction expects 0.19")
    row["b2"] = "-0.19"


def check_columns(name, columns, rows):
    """Check that each column has as many decimals in every row, a bare 0 apart, and the sign that it must have."""
    for column in columns:
        numbers = [row[column] for row in rows.values()]
        decimals = {len(number.partition(".")[2]) for number in numbers if number != "0"}
        expect(len(decimals) == 1, f"{name}: {column} has numbers of {sorted(decimals)} decimals")
        values = [Decimal(number) for number in numbers]
        expect(column not in NEVER_POSITIVE or max(values) <= 0, f"{name}: a positive {column}")
        expect(column not in NEVER_NEGATIVE or min(values) >= 0, f"{name}: a negative {column}")


def read_table(lines, table):
    """Return a table's rows by period and the line under them, checked."""
    rows, under = rows_in(lines, table)
    rows = with_periods(rows, table)
    if table is SITE:
        correct_site(rows)
    check_columns(table.name, table.columns, rows)
    return rows, under


def read_site_constants(lines):
    """Return Boore and Atkinson's Table 4 as its one row."""
    places = [i for i, line in enumerate(lines) if line == "Period-independent site-amplification"]
    expect(len(places) == 1, f"boore-atkinson-4: its heading stands {len(places)} times")
    heading, *cells, after = lines[places[0] + 1:places[0] + 3 + len(SITE_CONSTANTS)]
    expect(heading == "Value" and after == "", "boore-atkinson-4: not one column of six values")
    row = {}
    for cell, (name, unit, in_text) in zip(cells, SITE_CONSTANTS):
        number, _, found_unit = cell.partition(" ")
        expect(NUMBER.fullmatch(number) and found_unit == unit, f"boore-atkinson-4: {name} reads {cell}")
        stated = set(re.findall(in_text, "\n".join(lines)))
        expect(stated == {number}, f"boore-atkinson-4: {name} is {number}, but in the text {sorted(stated)}")
        row[name] = number
    return {"value": row}


def check_idriss_repeat(under, rows):
    """Check the two legible cells of the repeat under Idriss Table 2: α1 alone, then α1 and α2 without spaces."""
    cells = under.split("\t")
    for cell, columns in zip(cells[1:], (("α1",), ("α1", "α2"))):
        expect("7.0887" in cell, "idriss-2: no repeat of its columns under it")
        printed = [row[column] for row in rows.values() for column in columns]
        repeated = re.findall(r"-?\d\.\d{4}", cell)
        expect(repeated == printed, f"idriss-2: the repeat of {columns} differs")


def check_idriss_meeting(below, above):
    """Check Idriss Tables 2 and 3 against each other: both hold at M 6.75, so they have to meet there."""
    m = Decimal("6.75")
    # Each of the four numbers is rounded to 4 decimals, the two slopes are taken 6.75 times.
    widest = Decimal("0.00005") * 2 * (1 + m)
    for period, row in below.items():
        other = above[period]
        for column in ("α3", "ξ", "γ", "φ"):
            expect(row[column] == other[column], f"idriss: {column} at {period} s differs between the tables")
        for base, slope in (("α1", "α2"), ("β1", "β2")):
            ends = [Decimal(table[base]) + Decimal(table[slope]) * m for table in (row, other)]
            expect(abs(ends[0] - ends[1]) <= widest, f"idriss: {base} and {slope} at {period} s do not meet at 6.75")


def check_normal_at_10(rows):
    """Check e3 at 10 s, which the paper's text works out from the row before it."""
    last, before = ({name: Decimal(number) for name, number in rows[period].items()} for period in ("10.000", "7.500"))
    expect(last["e3"] == last["e1"] + before["e3"] - before["e1"], "boore-atkinson-7: e3 at 10 s is not as the text says")


def check_uncertainty_repeat(under, rows):
    """Check the cells of the repeat under Table 8, which skip and double rows, for rows of the table in their order."""
    cells = under.split("\t")[1:]
    expect(len(cells) == 4, "boore-atkinson-8: no repeat of its columns under it")
    for width, cell in enumerate(cells, 1):
        numbers = re.findall(r"\d\.\d{3}", cell)
        expect(numbers and len(numbers) % width == 0, f"boore-atkinson-8: the repeat of {width} columns is cut off")
        repeated = [tuple(numbers[i:i + width]) for i in range(0, len(numbers), width)]
        printed = [tuple(row.values())[:width] for row in rows.values()]
        place = 0
        for group in repeated:
            expect(group in printed[place:], f"boore-atkinson-8: {group} in the repeat is no row, or out of order")
            place = printed.index(group, place)
        unseen = [period for period, row in zip(rows, printed) if row not in repeated]
        print(f"boore-atkinson-8: the repeat up to {UNCERTAINTY.columns[width - 1]} lacks {', '.join(unseen) or 'no row'}")


def check_totals(rows):
    """Check that each total is the root of σ² + τ², and say where the rounding shows."""
    for period, row in rows.items():
        for total, part in (("σTU", "τU"), ("σTM", "τM")):
            # In decimals, not floats: σTU at 0.3 s is off by 0.002 exactly.
            off = abs((Decimal(row["σ"]) ** 2 + Decimal(row[part]) ** 2).sqrt() - Decimal(row[total]))
            expect(off <= Decimal("0.002"), f"boore-atkinson-8: {total} at {period} is off by {off:.4f}")
            if off > Decimal("0.0015"):
                print(f"boore-atkinson-8: {total} at {period} is {row[total]}, off by {off:.4f}")


def check_total_in_text(lines, rows):
    """Check Table 8's row at 0.2 s by the paper's text, since the table has lost its periods."""
    stated = re.compile(r"for a period of 0\.2 s the total aleatory uncertainty is ([\d.]+) for our equations")
    found = stated.findall("\n".join(lines))
    expect(len(found) == 1, "boore-atkinson-8: the text does not name the total at 0.2 s")
    for total in TOTALS:
        rounded = f"{Decimal(rows['0.200'][total]):.2f}"
        expect(rounded == found[0], f"boore-atkinson-8: {total} at 0.2 s is {rounded}, in the text {found[0]}")


def table_lines(name, first, columns, rows):
    """Return a table's lines for the data file."""
    lines = [" ".join((name, first, *columns))]
    lines += [" ".join((name, label, *(row[column] for column in columns)))
              for label, row in rows.items() if label != PEAK_VELOCITY]
    return lines


def data_file(directory):
    """Return the text of the data file."""
    idriss, boore_atkinson = transcript(directory, "000"), transcript(directory, "003")
    below, below_repeat = read_table(idriss, IDRISS_2)
    above, _ = read_table(idriss, IDRISS_3)
    site, distance, magnitude = (read_table(boore_atkinson, table)[0] for table in (SITE, DISTANCE, MAGNITUDE))
    uncertainty, uncertainty_repeat = read_table(boore_atkinson, UNCERTAINTY)
    check_idriss_repeat(below_repeat, below)
    check_idriss_meeting(below, above)
    check_normal_at_10(magnitude)
    check_uncertainty_repeat(uncertainty_repeat, uncertainty)
    check_totals(uncertainty)
    check_total_in_text(boore_atkinson, uncertainty)
    lines = ["# Written by tools/coefficients.py: the numbers as printed in Idriss 2014 and in Boore and Atkinson 2008.",
             "# The first line of a table names its columns; periods are in seconds."]
    for table, rows in ((IDRISS_2, below), (IDRISS_3, above), (SITE, site)):
        lines += table_lines(table.name, "period", table.columns, rows)
    names = [name for name, _, _ in SITE_CONSTANTS]
    lines += table_lines("boore-atkinson-4", "name", names, read_site_constants(boore_atkinson))
    for table, rows in ((DISTANCE, distance), (MAGNITUDE, magnitude)):
        lines += table_lines(table.name, "period", table.columns, rows)
    lines += table_lines(UNCERTAINTY.name, "period", TOTALS, uncertainty)
    return "\n".join(lines) + "\n"


def main():
    """Write the data file, or compare it."""
    arguments = sys.argv[1:]
    check = arguments[:1] == ["--check"]
    if len(arguments) != 1 + check or arguments[-1].startswith("-"):
        sys.exit(__doc__)
    text = data_file(arguments[-1])
    if not check:
        with open(OUTPUT, "w", encoding="utf-8") as file:
            file.write(text)
        return
    expect(os.path.exists(OUTPUT), "there is no tests/coefficients.txt")
    with open(OUTPUT, encoding="utf-8") as file:
        expect(file.read() == text, "tests/coefficients.txt is not what the papers give")


main()
