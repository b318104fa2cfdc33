#!/usr/bin/env python3
"""tools/contracts and tools/edits on copies in which one thing is wrong, and tools/verdict.

Run as: python3 tests/test_contracts.py

Each case is a copy of the crates and of docs, changed in one place, that `tools/contracts --check`
must refuse for the right reason; a copy that is not changed must pass. The places are searched
for, so that crates can move. The edits are cases of a small made-up repository.
"""

import os
import re
import shutil
import subprocess
import sys
import tempfile

ROOT = os.path.normpath(os.path.join(os.path.dirname(os.path.abspath(__file__)), '..'))
READING = 'docs/READING.md'
OPEN = 'Open to callers'
TESTS = 'For tests alone'
WIDTH = 'idriss_width'

# A function that other crates see: its name, and all that stands before its body.
FUNCTION = re.compile(r'^pub (?:extern "C" )?fn (\w+)\(.*?^(?=\{)', re.M | re.S)
ENSURES = re.compile(r'^    ensures [^\n]*\n(?:        [^\n]*\n)*', re.M)
# A function of an impl that other crates see, with its promise, up to its body.
METHOD = re.compile(r'^    pub fn \w+\([^{]*\n(?:        requires [^\n]*\n)*'
                    r'        ensures \{ ([^\n]*) \}\n', re.M)
LISTED = re.compile(r'^- `(crates/\w+/specs/\w+\.antt)`$', re.M)

# A crate and its theory, as they should be; each case adds one file.
SAME = '// The same.\npub fn same(x: u64) -> u64\n    ensures { result ≡ x }\n{\n    x\n}\n'
PAIR = {
    'crates/made/src/lib.rt': SAME,
    'crates/made/proofs/same/Proof.antt': '-- a proof\n',
    'crates/made_theory/src/lib.rt': '// A type.\npub struct Made {\n    pub x: u64,\n}\n',
    'crates/made_theory/specs/Lib.antt': '',
}

# The made-up repository of the edits.
SMALL = {
    'crates/one/src/lib.rt': 'fn f(x: u64) -> u64 {\n    x + 1 - 1\n}\n',
    'crates/one/proofs/f/Proof.antt': 'text of a proof\n',
}
GOOD = '# f: two more\nfile: src/lib.rt\nold: x + 1\nnew: x + 2\nold: x + 2 - 1\nnew: x + 3\n'


class Fault(Exception):
    """A place to change that was not found."""


def read(root, path):
    """Return the text of a file."""
    with open(os.path.join(root, path), encoding='utf-8') as file:
        return file.read()


def write(root, path, text):
    """Write a file, and the folders that it stands in."""
    place = os.path.join(root, path)
    os.makedirs(os.path.dirname(place), exist_ok=True)
    with open(place, 'w', encoding='utf-8') as file:
        file.write(text)


def change(root, path, old, new):
    """Put new text in the place of old text that stands in a file; fail if nothing changes."""
    text = read(root, path)
    if old == new or old not in text:
        raise Fault(f'{path} does not have the text to change: {old}')
    write(root, path, text.replace(old, new, 1))


def crates(root, beginning=None):
    """Return the crates of crates.txt, or those of a line of READING.md."""
    if beginning is None:
        return re.findall(r'^(\w+):', read(root, 'crates.txt'), re.M)
    line = re.search(rf'^{beginning}: .*', read(root, READING), re.M)
    return re.findall(r'`(\w+)`', line[0])


def files(root, names, folder, end):
    """Return the files of some crates, in src or specs."""
    found = []
    for name in names:
        base = os.path.join(root, 'crates', name, folder)
        found += [os.path.relpath(os.path.join(place, file), root)
                  for place, _, inner in sorted(os.walk(base)) for file in sorted(inner)
                  if file.endswith(end)]
    return found


def function(root, names, least=1):
    """Return file, name and contract of the first function with so many ensures, or more."""
    for path in files(root, names, 'src', '.rt'):
        for match in FUNCTION.finditer(read(root, path)):
            if len(ENSURES.findall(match[0])) >= least:
                return path, match[1], match[0]
    raise Fault(f'no function of {names} has {least} ensures')


def leaves(root):
    """Return the crates that are neither open to callers nor for tests, and are no program."""
    others = crates(root, OPEN) + crates(root, TESTS)
    return [name for name in crates(root) if name not in others
            and not os.path.exists(os.path.join(root, 'crates', name, 'src', 'main.rt'))]


def added(root):
    """Return the path of a new file beside the first function that our own crates call."""
    return os.path.join(os.path.dirname(function(root, leaves(root))[0]), 'added.rt')


# ---- what is made wrong: each changes a copy, and returns the parts of the message to expect

def promise_deleted(root):
    """One ensures of two is left out of an entry point."""
    path, _, contract = function(root, crates(root, OPEN), least=2)
    first = ENSURES.search(contract)[0]
    change(root, path, contract, contract.replace(first, '', 1))
    return [f'  `{path}`', '-' + first.splitlines()[0]]


def every_promise_deleted(root):
    """All ensures are left out of an entry point."""
    path, name, contract = function(root, crates(root, OPEN))
    change(root, path, contract, ENSURES.sub('', contract))
    return [f'{path}:', f'{name} has no ensures']


def leaf_without_promise(root):
    """All ensures are left out of a function that our own crates call."""
    path, name, contract = function(root, leaves(root))
    change(root, path, contract, ENSURES.sub('', contract))
    return [f'{path}:', f'{name} has no ensures']


def condition_added(root):
    """An entry point gets a requires."""
    path, name, contract = function(root, crates(root, OPEN))
    change(root, path, contract, ENSURES.sub('    requires { ⊥ }\n', contract, 1)
           + ENSURES.search(contract)[0])
    return [f'{path}:', f'{name} has a requires']


def width_changed(root):
    """Demand 3's width for Idriss is ten times as wide."""
    for path in files(root, crates(root), 'specs', '.antt'):
        match = re.search(rf'^{WIDTH} = (\d+)$', read(root, path), re.M)
        if match:
            change(root, path, match[0], match[0] + '0')
            return [f'  `{path}`\n', f'-{match[0]}\n', f'+{match[0]}0\n']
    raise Fault(f'no definition {WIDTH} was found')


def definition_changed(root):
    """The first clause of the last file of definitions that READING.md lists."""
    path = LISTED.findall(read(root, READING))[-1]
    line = re.search(r'^\w.* = .*$', read(root, path), re.M)[0]
    change(root, path, line + '\n', line + ' changed\n')
    return [f'  `{path}`\n', f'-{line}\n', f'+{line} changed\n']


def import_changed(root):
    """A name of the first file of definitions that READING.md lists stands for another thing."""
    path = LISTED.findall(read(root, READING))[0]
    line = re.findall(r'^use .*$', read(root, path), re.M)[0]
    change(root, path, line, line.replace('{', '{other as ', 1))
    return ['  Imports\n', f'-- `{path}`: ', f'+- `{path}`: ']


def module_added(root):
    """A new module has a pub fn without a contract."""
    path = f'crates/{crates(root)[0]}/src/within/added.rt'
    write(root, path, 'pub fn added(x: u64) -> u64 {\n    x\n}\n')
    return [f'{path}:1: added has no ensures']


def function_not_listed(root):
    """A new pub fn with a contract is not on the page."""
    path = added(root)
    write(root, path, SAME)
    return [f'  `{path}`\n', '+pub fn same(x: u64) -> u64']


def refused(root, text, *said, path=None):
    """Add a source that the tool refuses by itself, at a line of it, and return its words."""
    path = path or added(root)
    write(root, path, text)
    return [f'{path}:{said[0]}', *said[1:]]


def method_added(root):
    """A pub fn of an impl has no contract."""
    return refused(root, 'impl Made {\n    pub fn added(x: u64) -> u64 {\n        x\n    }\n}\n',
                   '2: added has no ensures')


def trait_unsaid(root):
    """An impl of a trait does not say what it gives."""
    return refused(root, 'impl From<Made> for u64 {\n    fn from(x: Made) -> u64 {\n        x.x\n    }\n}\n',
                   '1: an impl that does not say what it gives')


def trait_without_promise(root):
    """A function of a trait has no contract."""
    return refused(root, 'pub trait Made {\n    fn added(self) -> u64;\n}\n', '2: added has no ensures')


def trait_with_requires(root):
    """A function of a trait has a requires in a crate that is open to callers."""
    return refused(root, 'pub trait Made {\n    fn added(self) -> u64\n        requires { ⊥ }\n'
                   '        ensures { result ≡ 0 };\n}\n', '2: added has a requires',
                   path=os.path.join(os.path.dirname(function(root, crates(root, OPEN))[0]), 'added.rt'))


def body_left_out(root):
    """A function that is no trait's has no body."""
    return refused(root, 'fn added(x: u64) -> u64;\n', '1: added has no body')


def form_unknown(root):
    """A function stands where the tool does not look for one."""
    return refused(root, 'macro_rules! made {\n    () => {\n        pub fn added(x: u64) -> u64 {\n'
                   '            x\n        }\n    };\n}\n',
                   '1: a form that this tool does not know: macro_rules! made {')


def function_hidden(root):
    """A function stands within a literal, as far as the tool can see."""
    return refused(root, 'const A: u8 = b"\npub fn hidden(x: u64) -> u64 {\n    x\n}\n";\n',
                   '1: 0 functions were understood', 'a plain count has 1')


def method_not_listed(root):
    """A pub fn of an impl stands in the source and not on the page."""
    path = added(root)
    write(root, path, 'impl Made {\n' + re.sub('^', '    ', SAME.strip(), flags=re.M) + '\n}\n')
    return [f'  `{path}`\n', '+    pub fn same(x: u64) -> u64']


def method_promise_changed(root):
    """The promise of a pub fn of an impl is another one."""
    for path in files(root, crates(root), 'src', '.rt'):
        match = METHOD.search(read(root, path))
        if match:
            change(root, path, match[0], match[0].replace(match[1], 'result ≡ result'))
            return [f'  `{path}`', '+        ensures { result ≡ result }']
    raise Fault('no impl has a pub fn with a promise')


def pair(root, path, text):
    """Add a crate and its theory, and a file that stands on the wrong side."""
    for place, content in PAIR.items():
        write(root, place, content)
    write(root, 'crates.txt', read(root, 'crates.txt') + 'made_theory:\nmade: made_theory\n')
    write(root, path, text)


def theory_with_function(root):
    """A theory has a function."""
    path = 'crates/made_theory/src/step.rt'
    pair(root, path, SAME.replace('pub fn', 'fn'))
    return [f'{path}:2: same is a function, and a theory has none']


def definitions_beside_theory(root):
    """A crate that is no theory has definitions of its own."""
    pair(root, 'crates/made/specs/Lib.antt', '')
    return ['crates/made/specs:1: definitions belong in a theory crate']


def law_beside_theory(root):
    """A crate that is no theory has a law of its own."""
    pair(root, 'crates/made/proofs/Laws.antt', '-- a law\n')
    return ['crates/made/proofs/Laws.antt:1: laws belong in a theory crate']


def law_below(root):
    """A crate that is no theory has a law in a folder of its proofs."""
    pair(root, 'crates/made/proofs/same/Laws.antt', '-- a law\n')
    return ['crates/made/proofs/same/Laws.antt:1: laws belong in a theory crate']


def theory_on_code(root):
    """A theory rests on a crate with functions."""
    name = next(name for name in crates(root) if name.endswith('_theory'))
    other = next(name for name in crates(root) if not name.endswith('_theory'))
    change(root, 'crates.txt', f'{name}:', f'{name}: {other}')
    return [f': {name} rests on {other}, which is no theory']


def proof_in_theory(root):
    """A theory has the proof of a function."""
    pair(root, 'crates/made_theory/proofs/same/Proof.antt', '-- a proof\n')
    return ['crates/made_theory/proofs/same/Proof.antt:1: the proof of a function']


def crate_closed(root):
    """READING.md no longer says of a crate that it is open to callers."""
    name = crates(root, OPEN)[0]
    change(root, READING, f'{OPEN}: `{name}`, ', f'{OPEN}: ')
    return [f'-{OPEN}: `{name}`, ']


def line_cut(root):
    """READING.md ends the list of crates after the first."""
    name = crates(root, OPEN)[0]
    change(root, READING, f'{OPEN}: `{name}`, ', f'{OPEN}: `{name}`. ')
    return [f'{READING}:', f'were expected after "{OPEN}:"']


def line_removed(root):
    """READING.md no longer lists a file."""
    path = LISTED.findall(read(root, READING))[0]
    change(root, READING, f'- `{path}`\n', '')
    return [f'-### `{path}`', f'  `{path}`\n']


def file_missing(root):
    """READING.md lists a file that is not there."""
    path = LISTED.findall(read(root, READING))[0]
    wrong = path.replace('.antt', 'Not.antt')
    change(root, READING, f'- `{path}`\n', f'- `{wrong}`\n')
    return [f'{READING}:', f'there is no {wrong}']


def definition_chosen(root):
    """READING.md lists one definition of a file, and no longer the others."""
    path = LISTED.findall(read(root, READING))[0]
    names = re.findall(r'^(?:unfoldable|abbrev) pub (\w+) :', read(root, path), re.M)
    change(root, READING, f'- `{path}`\n', f'- `{path}`: `{names[0]}`\n')
    return [f'+### `{path}`: `{names[0]}`', f'-### `{path}`', f'  `{path}`\n']


def definition_missing(root):
    """READING.md lists a definition that is not there."""
    path = LISTED.findall(read(root, READING))[0]
    change(root, READING, f'- `{path}`\n', f'- `{path}`: `notThere`\n')
    return [f'{READING}:', f'{path} does not have notThere']


def crate_missing(root):
    """READING.md says of a crate that is not there that it is open to callers."""
    change(root, READING, f'{OPEN}: ', f'{OPEN}: `missing`, ')
    return [f'{READING}:', 'crates.txt has no crate missing']


def crates_unnamed(root):
    """READING.md does not say which crates are open to callers."""
    change(root, READING, f'{OPEN}: ', 'Open: ')
    return [f'{READING}:1: one line has to begin with "{OPEN}:", and 0 do']


CASES = (promise_deleted, every_promise_deleted, leaf_without_promise, condition_added,
         width_changed, definition_changed, import_changed, module_added, function_not_listed,
         method_added, method_not_listed, method_promise_changed, form_unknown, trait_unsaid,
         trait_without_promise, trait_with_requires, body_left_out, function_hidden,
         theory_with_function, definitions_beside_theory, law_beside_theory, law_below,
         theory_on_code, proof_in_theory, crate_closed, line_cut, line_removed, file_missing,
         definition_chosen, definition_missing, crate_missing, crates_unnamed)

# What is wrong with an edit, and the line and the words of the message.
EDITS = (
    (GOOD.replace('new: x + 2\n', 'new: x + 2\nand more\n'), 5, "and not as 'and more' does"),
    (GOOD + '\n', 7, "and not as '' does"),
    (GOOD.replace('src/lib.rt', 'proofs/f/Proof.antt'), 2, 'proofs/f/Proof.antt is a proof'),
    (GOOD.replace('src/lib.rt', 'must-fail/e.edit'), 2, 'is not under src/ or specs/'),
    (GOOD.replace('src/lib.rt', 'src/../proofs/f/Proof.antt'), 2, 'is not under src/ or specs/'),
    (GOOD.replace('lib.rt', 'other.rt'), 2, 'the crate has no file src/other.rt'),
    (GOOD.replace('old: x + 1', 'old: x + 7'), 3, 'src/lib.rt does not have this text'),
    (GOOD.replace('old: x + 1', 'old: x'), 3, 'src/lib.rt has this text more than once'),
    (GOOD.replace('file: src/lib.rt\n', ''), 2, "there is no 'file:' before this 'old:'"),
    (GOOD.replace('new: x + 2\n', ''), 3, "its 'new:' does not follow this 'old:' directly"),
    (GOOD.replace('new: x + 2\n', '# so\nnew: x + 2\n'), 3, "does not follow this 'old:' directly"),
    (GOOD.removesuffix('new: x + 3\n'), 5, "no 'new:' follows this 'old:'"),
    (GOOD.partition('\n')[2], 1, 'no comment line says what the edit does'),
    ('# nothing\n', 1, "there is no 'old:' with its 'new:'"),
    (GOOD.replace('x + 3\n', 'x + 3\r\n'), 6, 'a carriage return'),
)

# The line that rt ci ends its own account with, and whether tools/verdict takes it.
ACCOUNT = 'rt: ok; handles allowed: none; must-fail edits: '
VERDICTS = ((ACCOUNT + '272 refused', 0), (ACCOUNT + '272 refused, 0 bad; all in this run', 0),
            (ACCOUNT + '271 refused, 1 bad', 1), (ACCOUNT + '262 refused, 10 bad; all here', 1),
            ('rt: f is not proved', 1), ('', 1))


def run(tool, root, *words):
    """Return the status of a tool on a copy, and all that it printed."""
    done = subprocess.run([os.path.join(ROOT, 'tools', tool), *words, '--root', root],
                          stdout=subprocess.PIPE, stderr=subprocess.STDOUT, encoding='utf-8',
                          check=False)
    return done.returncode, done.stdout


def faults_of(name, status, said, expected):
    """Return what is wrong where a tool should have refused a copy in these words."""
    if status != 1:
        return [f'{name}: the tool ended with {status}: {said}']
    return [f'{name}: the message does not have {part!r}: {said}'
            for part in expected if part not in said]


def copy(room):
    """Return a copy of what tools/contracts reads."""
    root = os.path.join(room, 'copy')
    shutil.rmtree(root, ignore_errors=True)
    for folder in ('crates', 'docs'):
        shutil.copytree(os.path.join(ROOT, folder), os.path.join(root, folder),
                        ignore=shutil.ignore_patterns('out', 'must-fail', 'Proof.antt'))
    shutil.copy(os.path.join(ROOT, 'crates.txt'), root)
    return root


def contract_faults(room):
    """Return what is wrong with tools/contracts."""
    status, said = run('contracts', copy(room), '--check')
    faults = [f'a copy that is not changed: {said}'] if status != 0 or said else []
    for case in CASES:
        root = copy(room)
        try:
            expected = case(root)
        except Fault as fault:
            faults.append(f'{case.__name__}: {fault}')
            continue
        faults += faults_of(case.__name__, *run('contracts', root, '--check'), expected)
    return faults


def edit_faults(room):
    """Return what is wrong with tools/edits."""
    root, path = os.path.join(room, 'small'), 'crates/one/must-fail/e.edit'
    for place, text in SMALL.items():
        write(root, place, text)
    write(root, path, GOOD)
    status, said = run('edits', root)
    good = status == 0 and said == 'edits: 1 in 1 crates, 2 replacements, all in form\n'
    faults = [] if good else [f'a good edit: {said}']
    for text, line, words in EDITS:
        write(root, path, text)
        if text == GOOD:
            faults.append(f'this edit is not wrong: {words}')
        faults += faults_of(words, *run('edits', root), [f'{path}:{line}: ', words])
    write(root, path, GOOD)
    stray = path.replace('.edit', '.edti')
    write(root, stray, GOOD)
    return faults + faults_of('a stray file', *run('edits', root), [f'{stray}:1: no edit'])


def verdict_faults(room):
    """Return what is wrong with tools/verdict."""
    path, faults = os.path.join(room, 'verdict'), []
    for line, due in VERDICTS:
        write(room, 'verdict', f'rt: a line before\n{line}\n1 passed, 0 failed\n')
        status = subprocess.run([os.path.join(ROOT, 'tools', 'verdict'), path],
                                stderr=subprocess.DEVNULL, check=False).returncode
        if status != due:
            faults.append(f'verdict: {line!r} gives {status}, not {due}')
    return faults


def main():
    """Try all cases."""
    with tempfile.TemporaryDirectory() as room:
        faults = contract_faults(room) + edit_faults(room) + verdict_faults(room)
    for fault in faults:
        print('wrong:', fault)
    print(f'contracts: {len(CASES)} wrong copies, {len(EDITS)} wrong edits and {len(VERDICTS)} verdicts tried, '
          f'{len(faults)} wrong')
    sys.exit(1 if faults else 0)


main()
