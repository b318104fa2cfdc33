#!/usr/bin/env python3
"""The logarithm's two tables of factors, as they stand in crates/logarithm_tables_theory and crates/logarithm_tables.

usage: tools/logarithm_tables.py [--check]

Writes the definitions' tables, the code's, and the two proofs that the code's tables are the definitions';
with --check it only says whether the files are what it would write.

A factor is a whole number `by` near top/x for the x at its place, and the logarithm of top/by in units of 10^-9/4096,
rounded down. The logarithms come from sums of midpoint values 2/(2q + 1) <= ln((q + 1)/q) along the whole numbers q,
in whole-number arithmetic, rounded down at every step: the same lower sums that the proof works out.
"""
import os
import sys

UNIT = 4_096_000_000_000  # units of 10^-9/4096 in 1
FINE = UNIT * 1_000_000  # the sums' own unit
WALK = 262_144  # the sums run over q/WALK, down from WALK

ROOT = os.path.join(os.path.dirname(os.path.abspath(__file__)), "..", "crates")


def lower_logarithms():
    """At q, from WALK down to WALK/2: a lower sum for ln(WALK/q), in units of FINE."""
    sums = {WALK: 0}
    total = 0
    for q in range(WALK - 1, WALK // 2 - 1, -1):
        total += 2 * FINE // (2 * q + 1)
        sums[q] = total
    return sums


def table(sums, top, cells, count):
    """Entry i brings x = (cells + i)/cells down to 1, or a little above: by = top/x, rounded up, and ln(top/by)."""
    rows = []
    for i in range(count):
        by = -(-top * cells // (cells + i))
        rows.append((by, sums[by * (WALK // top)] // 1_000_000))
    return rows


def grouped(n):
    return f"{n:_}" if n >= 10_000 else str(n)


def code(name, comment, rows):
    last = len(rows) - 1
    lines = ["", f"// {comment}", "#[rattlefmt::skip]"]
    lines += [f"static {name.upper()}: [Factor; {len(rows)}] = ["]
    lines += [f"    Factor {{ by: {grouped(by)}, logarithm: {grouped(logarithm)} }}," for by, logarithm in rows]
    lines += ["];", "", "// The entry at i, and past the end the last.", f"pub fn {name}(i: u64) -> Factor"]
    lines += [f"    ensures {{ result ≡ {name}_at i }}", "{", f"    let place = i.min({last}) as usize;"]
    return lines + [f"    {name.upper()}[place]", "}"]


def definition(name, comment, rows):
    by, logarithm = rows[-1]
    lines = ["", f"-- {comment}", f"abbrev pub {name} : List Factor", f"{name} ="]
    lines += [f"    factor {grouped(b)} {grouped(l)} ∷" for b, l in rows] + ["    []", ""]
    lines += ["-- the entry at i, and past the end the last", f"unfoldable pub {name}_at : ℕ → Factor"]
    return lines + [f"{name}_at i = get_or {name} i (factor {grouped(by)} {grouped(logarithm)})"]


def proof(name, rows):
    last = "factor " + " ".join(map(grouped, rows[-1]))
    return [
        "-- Written by tools/logarithm_tables.py. A place past the end is read as the last.",
        "use mathlib.Core.Path.{refl}",
        f"use Rattle.logarithm_tables_theory.specs.Tables.{{factor, {name}, {name}_at}}",
        "use Rattle.toolbox_theory.proofs.Clamped.{clamped}",
        f"use Rattle.logarithm_tables.proofs.{name}.Goals as goal",
        "",
        "pub returns : goal.returns",
        f"unfolding {name}_at",
        "returns c =",
        "    rw c.min-place.ensures",
        f"    (clamped {name} {len(rows) - 1} c.args.i (factor 0 0) ({last}) refl refl)",
    ]


CODE_HEAD = """// Written by tools/logarithm_tables.py. Two tables of factors that bring a number near 1, with the logarithm of
// each. They are static, since the compiler copies a const array to the stack at each look-up; the layout would break
// their rows. Two look-ups of a line, each into its own table: one for both would be no plainer.
#![tactic(auto)]

ghost use Rattle.std.specs.Prelude.{◌≡◌};
ghost use Rattle.logarithm_tables_theory.specs.Tables.{coarse_at, fine_at};

use logarithm_tables_theory::Factor;

// ln 2, in the same units: the last of the coarse logarithms.
pub const LN_2: u64 = LN2;"""

DEFINITION_HEAD = """-- Written by tools/logarithm_tables.py. The tables of the logarithm's factors.
use Rattle.std.specs.Prelude.{List, [], ◌∷◌, ℕ, get_or}
use Rattle.logarithm_tables_theory.specs.declared.Factor.{Factor}

abbrev pub factor : ℕ → ℕ → Factor
factor by logarithm = record { by = by; logarithm = logarithm }

-- ln 2
abbrev pub ln2 : ℕ
ln2 = LN2"""


def files():
    sums = lower_logarithms()
    tables = [
        ("coarse", "by (64 + i)/64 is 4096 or a little above; ln(4096/by). The last has by = 2048, and so ln 2.", table(sums, 4096, 64, 65)),
        ("fine", "by (4096 + i)/4096 is 16384 or a little above; ln(16384/by).", table(sums, 16384, 4096, 64)),
    ]
    ln2 = grouped(tables[0][2][-1][1])
    source = CODE_HEAD.replace("LN2", ln2).split("\n")
    definitions = DEFINITION_HEAD.replace("LN2", ln2).split("\n")
    written = {}
    for name, comment, rows in tables:
        source += code(name, comment, rows)
        definitions += definition(name, comment, rows)
        written[f"logarithm_tables/proofs/{name}/Answers.antt"] = proof(name, rows)
    written["logarithm_tables/src/lib.rt"] = source
    written["logarithm_tables_theory/specs/Tables.antt"] = definitions
    return {name: "\n".join(lines) + "\n" for name, lines in written.items()}


def main():
    check = sys.argv[1:] == ["--check"]
    if sys.argv[1:] and not check:
        sys.exit(__doc__)
    for name, text in files().items():
        path = os.path.join(ROOT, name)
        if not check:
            os.makedirs(os.path.dirname(path), exist_ok=True)
            with open(path, "w", encoding="utf-8") as f:
                f.write(text)
        elif open(path, encoding="utf-8").read() != text:
            sys.exit(f"crates/{name} is not what tools/logarithm_tables.py writes")


main()
