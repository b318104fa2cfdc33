"""Runs the programs over the proved libraries, and asks them, for the tests."""

import subprocess

SECONDS = 600


def run(command, given=''):
    """Run a command; return its output, and how it failed."""
    try:
        done = subprocess.run(command, input=given.encode('ascii'), stdout=subprocess.PIPE, stderr=subprocess.PIPE,
                              timeout=SECONDS, check=False)
    except (OSError, subprocess.SubprocessError) as error:
        return '', [f'could not be run: {error}']
    output, said = (data.decode('ascii', 'backslashreplace') for data in (done.stdout, done.stderr))
    failed = done.returncode != 0 or said != ''
    return output, [f'ended with status {done.returncode} and said {said[:1000]!r}'] if failed else []


def ask(command, questions):
    """Send all questions, a line each, to a command; return its lines, and how it failed."""
    output, faults = run(command, ''.join(question + '\n' for question in questions))
    # The last line has an end, too.
    *lines, after = output.split('\n')
    if len(lines) != len(questions) or after:
        faults.append(f'{len(questions)} lines sent, {len(lines)} received, and {len(after)} characters after them')
    return lines, faults
