#!/usr/bin/env python3
"""Count the places in src/ that docs/DESIGN-PASS.md speaks of, point by point.

Run as: tools/design_pass.py [--root DIR] [--list]

With --list each place is printed, not only how many there are. DIR is the repository, the one that
the tool stands in unless given.
"""

import argparse
import collections
import glob
import os
import re

PAIRS = (('boore_atkinson', 'idriss'), ('BooreAtkinson', 'Idriss'), ('projection', 'rupture'),
         ('Projection', 'Rupture'), ('site', 'row'), ('magnitude', 'row'), ('distance', 'row'),
         ('total', 'row'), ('Site', 'Row'), ('Magnitude', 'Row'), ('Distance', 'Row'),
         ('Total', 'Row'), ('signed_hull', 'hull'), ('SignedEnds', 'Ends'), ('lesser', 'min'),
         ('greater', 'max'), ('coarse', 'fine'), ('byte', 'word'), ('part_up', 'part_down'),
         ('low', 'high'))


def sources(root):
    """Return the Rattle sources, by path."""
    out = {}
    for path in sorted(glob.glob(os.path.join(root, 'crates/*/src/*.rt'))):
        with open(path, encoding='utf-8') as f:
            out[os.path.relpath(path, root)] = f.read()
    return out


def functions(text):
    """Return (line, name, parameters, body) of each function."""
    out = []
    for m in re.finditer(r'^ *(?:pub )?(?:extern "C" )?fn (\w+)(?:<[^(]*>)?\(', text, re.M):
        depth, at = 1, m.end()
        while depth:
            depth += {'(': 1, ')': -1}.get(text[at], 0)
            at += 1
        parameters = text[m.end():at - 1]
        start = re.search(r'(?:^|\n| )\{\n', text[at:])
        if not start:
            continue
        indent = re.match(r' *', m.group(0)).group(0)
        stop = text.find('\n' + indent + '}', at + start.end() - 1)
        out.append((text.count('\n', 0, m.start()) + 1, m.group(1), parameters,
                    text[at + start.start():stop]))
    return out


def fields(parameters):
    """Split a parameter list at its outer commas."""
    out, depth, last = [], 0, ''
    for c in parameters:
        depth += {'(': 1, '<': 1, '[': 1, ')': -1, '>': -1, ']': -1}.get(c, 0)
        if c == ',' and not depth:
            out.append(last)
            last = ''
        else:
            last += c
    return [x.strip() for x in out + [last] if x.strip()]


def plain(body):
    """Return a body without the names, numbers and types in which twins differ."""
    for a, b in PAIRS:
        body = body.replace(a, b)
    body = re.sub(r'\bTABLE_\d|table_\d\b', 'TABLE', body)
    body = re.sub(r'\b[ui](8|16|32|64|size)\b', 'N', body)
    body = re.sub(r'\b\d[\d_]*\b', '0', body)
    return re.sub(r'\s+', ' ', body)


def by_lines(texts, pattern):
    """Return the lines that match."""
    return [f'{path}:{n}: {line.strip()}' for path, text in texts.items()
            for n, line in enumerate(text.split('\n'), 1)
            if not line.lstrip().startswith('//') and re.search(pattern, line)]


def structs(texts, pattern):
    """Return the structs and enums whose text matches."""
    out = []
    for path, text in texts.items():
        for m in re.finditer(r'^pub (struct|enum) (\w+)[^;{]*\{(.*?)^\}', text, re.M | re.S):
            if re.search(pattern, m.group(3)):
                out.append(f'{path}:{text.count(chr(10), 0, m.start()) + 1}: {m.group(2)}')
    return out


def twins(texts):
    """Return the functions whose bodies are alike but for a name, a number or a type."""
    groups = collections.defaultdict(list)
    for path, text in texts.items():
        for line, name, _, body in functions(text):
            if body.count('\n') > 1 or len(body) > 60:
                groups[plain(body)].append(f'{path}:{line}: {name}')
    return [' = '.join(g) for g in groups.values() if len(g) > 1]


def shared_facts(texts):
    """Return the facts that stand in the `requires` of three functions or more."""
    facts = collections.Counter()
    for text in texts.values():
        for m in re.finditer(r'requires (?:\w+ )?\{(.*?)\}\n', text, re.S):
            for fact in re.sub(r'\s+', ' ', m.group(1)).split('×'):
                facts[fact.strip(' ()')] += 1
    return [f'{n} times: {fact}' for fact, n in facts.most_common() if n > 2 and fact]


def points(root):
    """Return (title, places) of each count."""
    texts = sources(root)
    every = [(path, *f) for path, text in texts.items() for f in functions(text)]
    antt = glob.glob(os.path.join(root, 'crates/*/proofs/**/*.antt'), recursive=True)
    proofs = [os.path.relpath(p, root) for p in sorted(antt)]
    lemmas = []
    for p in proofs:
        with open(os.path.join(root, p), encoding='utf-8') as f:
            lemmas += re.findall(r'^ *(?:pub )?\w+_lem(?= :)', f.read(), re.M)
    return [
        ('1 enums with a variant that refuses, fails, is absent or outside',
         structs(texts, r'\b(Refused\(|Failed\(|Absent|Outside)')),
        ('1 a flag or a number beside a value', structs(
            texts, r'\b(number|minus|kind|position|\w*present): ')),
        ('1 functions that answer the number of a refusal',
         by_lines(texts, r'fn \w*refusal\w*\(.*-> u8')),
        ('1 numbers or flags for kinds among the parameters',
         [f'{path}:{line}: {name}' for path, line, name, ps, _ in every
          if re.search(r'\b(model|mechanism|table): u8|table_3: bool', ps)]),
        ('2 functions alike but for a name, a number or a type', twins(texts)),
        ('2 types alike but for a type', structs(texts, r'^\s*pub low: \w+,\s*pub high: \w+,\s*$')),
        ('3 while', by_lines(texts, r'^\s*while ')),
        ('3 for over an index', by_lines(texts, r'^\s*for \w+ in \w+\.\.')),
        ('4 conversions by a function', by_lines(
            texts, r'\bfn (tell\w*|told\w*|flat|as_\w+|\w+_from|fields_of|split\w*|flagged_\w+)\(')),
        ('4 equality, order, copies or printing by a function', by_lines(
            texts, r'\bfn (min|max|lesser|greater|eq|cmp|clone|print\w*|fmt)\(')),
        ('5 a buffer and a place in it as parameters', by_lines(
            texts, r'out: &mut \[u8\], at: usize|at: usize, .*out: &mut \[u8\]')),
        ('5 functions of five parameters or more',
         [f'{path}:{line}: {name} ({len(fields(ps))})' for path, line, name, ps, _ in every
          if len(fields(ps)) > 4]),
        ('5 facts in the requires of three functions or more', shared_facts(texts)),
        ('6 arrays of fixed length in types', by_lines(texts, r'\[\w+; ?\w+\]')),
        ('6 a match of ten arms or more',
         [f'{path}:{line}: {name}' for path, line, name, _, body in every
          if len(re.findall(r'=>', body)) > 9]),
        ('7 a parameter that says which step to run',
         [f'{path}:{line}: {name}' for path, line, name, ps, _ in every
          if re.search(r'\b\w+: bool\b|\bmodel: u8', ps)]),
        ('8 proofs of functions by hand, whole', [p for p in proofs if p.endswith('/Proof.antt')]),
        ('8 answers of functions', [p for p in proofs if p.endswith('/Answers.antt')]),
        ('8 lemmas named NAME_lem', lemmas),
    ]


def main():
    parser = argparse.ArgumentParser(description=__doc__)
    here = os.path.dirname(os.path.dirname(os.path.abspath(__file__)))
    parser.add_argument('--root', default=here)
    parser.add_argument('--list', action='store_true')
    args = parser.parse_args()
    for title, places in points(args.root):
        print(f'{len(places):5}  {title}')
        if args.list:
            for place in places:
                print(f'       {place}')


if __name__ == '__main__':
    main()
