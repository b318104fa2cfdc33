"""Check what the program does where its standard input or its standard output fails.

Run as: python3 tests/test_program_failures.py PROGRAM

PROGRAM reads records from standard input, takes the first 4,096 bytes until the input ends, and prints a page of lines.
Where reading fails, nothing is printed and one line on standard error says after how many bytes.  Where writing fails,
one line says after how many of how many bytes.  A call that is interrupted, would block or moves no byte to the output
counts as failed; a part that is read or written is gone on from.  After a good run standard error is empty.  Arguments
are ignored, and the status is 0.

The pages are those of the stored streams: NAME.stdin with NAME.stdout in the folder streams beside this file.
"""

import fcntl
import os
import resource
import signal
import subprocess
import sys
import tempfile
import termios
import threading
import time
from typing import NamedTuple

SECONDS = 20
PAUSE = 0.002
STREAMS = os.path.join(os.path.dirname(os.path.abspath(__file__)), 'streams')

# "It takes the first 4,096 bytes and ignores the rest."
TAKEN = 4096
# The smallest size of a pipe, and a page that is longer than several of them.
PIPE_SIZE = 4096
LONG = 'both_models'


class Ended(NamedTuple):
    """How a run of the program ended."""

    status: int
    output: bytes
    error: bytes


def input_failed(count):
    """Return the line for a read that failed after so many bytes."""
    return f'enclosures: standard input failed after {count} bytes\n'.encode('ascii')


def output_failed(count, whole):
    """Return the line for a write that failed after so many bytes of all."""
    return f'enclosures: standard output failed after {count} of {whole} bytes\n'.encode('ascii')


def kept(name, end):
    """Return a stored file."""
    with open(os.path.join(STREAMS, f'{name}.{end}'), 'rb') as file:
        return file.read()


def names():
    """Return the names of the stored streams."""
    return sorted(name[:-len('.stdin')] for name in os.listdir(STREAMS) if name.endswith('.stdin'))


# ---------------------------------------------------------------------------
# Runs of the program
# ---------------------------------------------------------------------------

def close(*numbers):
    """Return what closes these files of a process before the program starts."""
    return lambda: [os.close(number) for number in numbers]


def ended(program, data=b'', before=None, arguments=(), **files):
    """Run the program on some bytes, or on the files that are given; return how it ended."""
    given = {'stdout': subprocess.PIPE, 'stderr': subprocess.PIPE, **files}
    if 'stdin' not in files:
        given['input'] = data
    try:
        done = subprocess.run([program, *arguments], **given, preexec_fn=before, timeout=SECONDS, check=False)
    except subprocess.TimeoutExpired:
        return Ended(None, b'', f'the program has not ended after {SECONDS} seconds'.encode('ascii'))
    return Ended(done.returncode, done.stdout or b'', done.stderr or b'')


def small_pipe(held=b'', blocking=True):
    """Return the two ends of a pipe of 4,096 bytes that holds some already; neither end or both are blocking."""
    ends = os.pipe()
    fcntl.fcntl(ends[1], fcntl.F_SETPIPE_SZ, PIPE_SIZE)
    os.write(ends[1], held)
    for end in ends:
        os.set_blocking(end, blocking)
    return ends


def with_input_pipe(program, held, **others):
    """Run the program on a pipe that holds some bytes, is not at its end and does not block."""
    read_end, write_end = small_pipe(held, False)
    try:
        return ended(program, stdin=read_end, **others)
    finally:
        os.close(read_end)
        os.close(write_end)


def with_output_pipe(program, data, held=b''):
    """Run the program into a pipe that holds some bytes, is not read and does not block."""
    read_end, write_end = small_pipe(held, False)
    try:
        done = ended(program, data, stdout=write_end)
        return done._replace(output=os.read(read_end, 2 * PIPE_SIZE)[len(held):])
    finally:
        os.close(read_end)
        os.close(write_end)


def with_file(program, data, before):
    """Run the program into a file."""
    with tempfile.TemporaryFile() as file:
        done = ended(program, data, before, stdout=file)
        file.seek(0)
        return done._replace(output=file.read())


def with_no_reader(program, data, before=None):
    """Run the program into a pipe whose reader went away."""
    read_end, write_end = os.pipe()
    os.close(read_end)
    try:
        return ended(program, data, before, stdout=write_end)
    finally:
        os.close(write_end)


def piecewise(program, data, size, read_size):
    """Give the program its input in pieces, and take its output in pieces, with a pause after each."""
    in_read, in_write = small_pipe()
    out_read, out_write = small_pipe()

    def give():
        try:
            for at in range(0, len(data), size):
                os.write(in_write, data[at:at + size])
                time.sleep(PAUSE)
        except BrokenPipeError:
            pass
        os.close(in_write)

    with subprocess.Popen([program], stdin=in_read, stdout=out_write, stderr=subprocess.PIPE) as process:
        os.close(in_read)
        os.close(out_write)
        giver, end = threading.Thread(target=give), threading.Timer(SECONDS, process.kill)
        giver.start()
        end.start()
        pieces = []
        while not pieces or pieces[-1]:
            time.sleep(PAUSE)
            pieces.append(os.read(out_read, read_size))
        giver.join()
        os.close(out_read)
        error = process.stderr.read()
        end.cancel()
    return Ended(process.returncode, b''.join(pieces), error)


def stopped(program, data):
    """Stop the program while it waits for its output to be read, and let it go on: its write comes back with a part."""
    read_end, write_end = small_pipe()
    with subprocess.Popen([program], stdin=subprocess.PIPE, stdout=write_end, stderr=subprocess.PIPE) as process:
        os.close(write_end)
        end = threading.Timer(SECONDS, process.kill)
        end.start()
        process.stdin.write(data)
        process.stdin.close()
        held = bytearray(4)
        while int.from_bytes(held, sys.byteorder) < PIPE_SIZE and process.poll() is None:
            time.sleep(PAUSE)
            fcntl.ioctl(read_end, termios.FIONREAD, held)
        process.send_signal(signal.SIGSTOP)
        os.waitid(os.P_PID, process.pid, os.WSTOPPED | os.WEXITED | os.WNOWAIT)
        process.send_signal(signal.SIGCONT)
        pieces = []
        while not pieces or pieces[-1]:
            pieces.append(os.read(read_end, PIPE_SIZE))
        os.close(read_end)
        error = process.stderr.read()
        end.cancel()
    return Ended(process.returncode, b''.join(pieces), error)



# ---------------------------------------------------------------------------
# What is due
# ---------------------------------------------------------------------------

def good_runs(program):
    """Yield runs that are complete: a name, how the run ended, and what is due."""
    for name in names():
        yield f'stream {name}', ended(program, kept(name, 'stdin')), Ended(0, kept(name, 'stdout'), b'')
    page = Ended(0, kept('sample', 'stdout'), b'')
    data = kept('sample', 'stdin')
    for arguments in (('--help',), ('one', 'two', '-'), ('',), ('/no/such/file',)):
        yield f'arguments {arguments}', ended(program, data, arguments=arguments), page
    yield 'no input', ended(program, stdin=subprocess.DEVNULL), Ended(0, b'enclosures\nend 0\n', b'')
    with open('/dev/zero', 'rb') as zeros:
        yield 'input without end', ended(program, stdin=zeros), Ended(0, b'enclosures\n1 R 9\nend 1\n', b'')
    yield 'input byte by byte', piecewise(program, data, 1, PIPE_SIZE), page
    whole = Ended(0, kept(LONG, 'stdout'), b'')
    yield 'output in small pieces', piecewise(program, kept(LONG, 'stdin'), TAKEN, 500), whole
    yield 'output that is written in parts', stopped(program, kept(LONG, 'stdin')), whole
    yield 'both in pieces', piecewise(program, kept(LONG, 'stdin'), 100, 1000), whole
    # With 4,096 bytes there is nothing more to read, whatever the input would do then.
    first = kept('longer_than_4096', 'stdin')[:TAKEN]
    yield 'just 4,096 bytes', with_input_pipe(program, first), Ended(0, kept('longer_than_4096', 'stdout'), b'')


def failed_reads(program):
    """Yield runs in which reading fails; nothing is printed."""
    yield 'closed input', ended(program, stdin=None, before=close(0)), Ended(0, b'', input_failed(0))
    folder = os.open('/', os.O_RDONLY | os.O_DIRECTORY)
    yield 'a directory as input', ended(program, stdin=folder), Ended(0, b'', input_failed(0))
    with open('/dev/full', 'wb') as full:
        yield ('a directory as input, full output', ended(program, stdin=folder, stdout=full),
               Ended(0, b'', input_failed(0)))
        yield ('input that cannot be read', ended(program, stdin=full), Ended(0, b'', input_failed(0)))
    os.close(folder)
    yield 'both closed', ended(program, stdin=None, before=close(0, 1)), Ended(0, b'', input_failed(0))
    data = kept('longer_than_4096', 'stdin')
    for count in (0, 1, 9, 100, TAKEN - 1):
        yield (f'input that would block after {count} bytes', with_input_pipe(program, data[:count]),
               Ended(0, b'', input_failed(count)))
    yield ('input that would block, closed output', with_input_pipe(program, data[:12], before=close(1)),
           Ended(0, b'', input_failed(12)))


def failed_writes(program):
    """Yield runs in which writing fails."""
    for name in ('sample', 'empty', LONG):
        data, whole = kept(name, 'stdin'), len(kept(name, 'stdout'))
        with open('/dev/full', 'wb') as full:
            yield f'full output, {name}', ended(program, data, stdout=full), Ended(0, b'', output_failed(0, whole))
        yield f'closed output, {name}', ended(program, data, close(1)), Ended(0, b'', output_failed(0, whole))
    with open(os.devnull, 'rb') as nothing:
        yield ('output that cannot be written', ended(program, stdout=nothing), Ended(0, b'', output_failed(0, 17)))
    data, page = kept(LONG, 'stdin'), kept(LONG, 'stdout')
    yield ('output that would block', with_output_pipe(program, data),
           Ended(0, page[:PIPE_SIZE], output_failed(PIPE_SIZE, len(page))))
    yield ('output that would block at once', with_output_pipe(program, data, bytes(PIPE_SIZE)),
           Ended(0, b'', output_failed(0, len(page))))
    for limit in (0, 1, 1000, len(page) - 1):
        due = Ended(0, page[:limit], output_failed(limit, len(page)))
        yield f'a file of at most {limit} bytes', with_file(program, data, limited(limit)), due
    yield 'a file that is long enough', with_file(program, data, limited(len(page))), Ended(0, page, b'')
    # A Rattle program ignores this signal from its start on, as a Rust program does: the write fails, and is told.
    yield 'no reader', with_no_reader(program, data), Ended(0, b'', output_failed(0, len(page)))
    yield ('no reader, the signal ignored', with_no_reader(program, data, ignore(signal.SIGPIPE)),
           Ended(0, b'', output_failed(0, len(page))))
    with open('/dev/full', 'wb') as full:
        yield 'full output and full standard error', ended(program, data, stdout=full, stderr=full), Ended(0, b'', b'')
    yield 'closed standard error', ended(program, data, close(2)), Ended(0, page, b'')


def ignore(number):
    """Return what ignores a signal before the program starts."""
    return lambda: signal.signal(number, signal.SIG_IGN)


def limited(size):
    """Return what limits the size of a file before the program starts, with no signal."""
    def before():
        signal.signal(signal.SIGXFSZ, signal.SIG_IGN)
        resource.setrlimit(resource.RLIMIT_FSIZE, (size, size))
    return before


# ---------------------------------------------------------------------------
# The run
# ---------------------------------------------------------------------------

def fault(run, due):
    """Return what is wrong with a run, or None."""
    if run.error != due.error:
        return f'standard error is {run.error!r}, not {due.error!r}'
    if run.output != due.output:
        return f'{len(run.output)} bytes are printed, {run.output[:60]!r}, and not the {len(due.output)} that are due'
    if run.status != due.status:
        return f'the status is {run.status}, not {due.status}'
    return None


def main():
    """Check all runs; return the exit status."""
    program = os.path.abspath(sys.argv[1])
    count, faults = 0, 0
    for runs in (good_runs, failed_reads, failed_writes):
        for name, run, due in runs(program):
            count += 1
            wrong = fault(run, due)
            if wrong:
                faults += 1
                print(f'FAILED {name}: {wrong}')
    print(f'program failures: {count} runs, {faults} faults')
    return 1 if faults else 0


if __name__ == '__main__':
    sys.exit(main())
