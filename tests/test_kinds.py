"""Check that neither kind of distance is taken for the other: what gives one for the other must not compile.

Run as: python3 tests/test_kinds.py HEADERS

HEADERS is the directory of fusnoch.h.  Each program is compiled once as it stands here, which has to work, and once with
each of its wrong lines, which must not, for the kind of its types.
"""

import os
import subprocess
import sys
import tempfile

HOSTS = os.path.join(os.path.dirname(os.path.abspath(__file__)), '..', 'hosts')

# W-202: "The two distances are separate quantities and no routine may be handed one for the other."
C_PROGRAM = '''\
#include "ground_motion.h"
void set(fusnoch_scenario *s, ground_motion_rupture_distance r, ground_motion_projection_distance p);
void set(fusnoch_scenario *s, ground_motion_rupture_distance r, ground_motion_projection_distance p)
{
    (void)s, (void)r, (void)p;
    LINE
}
'''
C_RIGHT = 'ground_motion_set_rupture_distance(s, r); ground_motion_set_projection_distance(s, p);'
C_WRONG = ('ground_motion_set_rupture_distance(s, p);', 'ground_motion_set_projection_distance(s, r);',
           'ground_motion_set_rupture_distance(s, r.hundredths);', 'ground_motion_set_projection_distance(s, 1000);',
           'r = p;', 'p = r;', 's->rupture_distance = r;', 's->projection_distance = p;')

RUST_PROGRAM = '''\
use fusnoch::{ProjectionDistance, RuptureDistance, Scenario};
pub fn set(mut s: Scenario, r: RuptureDistance, p: ProjectionDistance) -> Scenario {
    let _ = (r, p);
    s.model = 1;
    LINE
    s
}
'''
RUST_RIGHT = 's.rupture_distance = Some(r); s.projection_distance = Some(p);'
RUST_WRONG = ('s.rupture_distance = Some(p);', 's.projection_distance = Some(r);', 's.rupture_distance = r;',
              's.projection_distance = Some(1000);', 's.rupture_distance = s.projection_distance;',
              's.projection_distance = s.rupture_distance;', 'let _: RuptureDistance = p;', 'let _ = r == p;')
# Types that do not match: what each compiler says of them.
C_SAYS, RUST_SAYS = 'incompatible type', '[E0308]'


def compiled(command, source, text):
    """Write a source, run the compiler on it; return whether it compiles, and what is said."""
    with open(source, 'w', encoding='utf-8') as file:
        file.write(text)
    done = subprocess.run([*command, source], stdout=subprocess.PIPE, stderr=subprocess.STDOUT, text=True, check=False)
    return done.returncode == 0, done.stdout


def kinds_faults(language, command, source, program, right, wrong, says):
    """Yield the right program where it is refused, and each wrong one where it is not, or for another reason."""
    works, said = compiled(command, source, program.replace('LINE', right))
    if not works:
        yield f'{language}: the right program does not compile: {said[:1000]}'
    for line in wrong:
        works, said = compiled(command, source, program.replace('LINE', line))
        if works or says not in said:
            yield f'{language}: {line} {"compiles" if works else f"is refused otherwise: {said[:1000]}"}'


def main(words):
    """Compile all programs; return the exit status."""
    if len(words) != 2:
        print('usage: test_kinds.py HEADERS', file=sys.stderr)
        return 2
    # Under make -j a compiler would look for make's own pipe, which it is not lent.
    for name in ('MAKEFLAGS', 'MFLAGS'):
        os.environ.pop(name, None)
    with tempfile.TemporaryDirectory() as directory:
        c_source, rust_source = (os.path.join(directory, name) for name in ('kinds.c', 'kinds.rs'))
        wrapper = os.path.join(directory, 'libfusnoch.rmeta')
        subprocess.run(['rustc', '--edition', '2021', '--crate-name', 'fusnoch', '--crate-type', 'rlib', '--emit',
                        f'metadata={wrapper}', os.path.join(HOSTS, 'rust', 'src', 'lib.rs')], check=True)
        c_command = ['gcc', '-std=c99', '-Wall', '-Wextra', '-Werror', '-fsyntax-only', f'-I{words[1]}',
                     f'-I{os.path.join(HOSTS, "c")}']
        rust_command = ['rustc', '--edition', '2021', '--crate-type', 'lib', '--emit',
                        f'metadata={os.path.join(directory, "kinds.rmeta")}', '--extern', f'fusnoch={wrapper}']
        faults = [*kinds_faults('C', c_command, c_source, C_PROGRAM, C_RIGHT, C_WRONG, C_SAYS),
                  *kinds_faults('Rust', rust_command, rust_source, RUST_PROGRAM, RUST_RIGHT, RUST_WRONG, RUST_SAYS)]
    for fault in faults:
        print('FAILED', fault)
    print(f'kinds: {len(C_WRONG)} programs in C and {len(RUST_WRONG)} in Rust that give one distance for the other, '
          f'{len(faults)} faults')
    return 1 if faults else 0


if __name__ == '__main__':
    sys.exit(main(sys.argv))
