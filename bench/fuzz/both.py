"""Runs random programs by plt and by a reference program, and compares what they write, byte for byte, and their
statuses. A script calls `main` with its own `program(seed, number)`, which makes the file's text and the words of a random
program.

A program that takes the reference more than some seconds is passed, and one that comes to a predicate that plt has not
built yet. The line at the end counts the programs by their ends.

The environment variable REFERENCE names the folder of the reference program: a package `pltref` in Python with
`cli.run(words, files, sink)`. PLT names the program to run, where it is not the one that the launcher keeps; PROCESSES
says how many run side by side (2, where it does not).
"""

import multiprocessing
import os
import signal
import subprocess
import sys
import tempfile
from collections import Counter

ROOT = os.path.dirname(os.path.dirname(os.path.dirname(os.path.realpath(__file__))))
SECONDS = 10

# The function that makes the programs, for the processes that are forked.
MAKERS = []


class Late(Exception):
    """The reference takes too long."""


class OneFile:
    def __init__(self, data, failed):
        self.data = data
        self.failed = failed

    def read(self, name, at, size):
        if name != 'f.pl':
            raise self.failed
        return self.data[at:at + size]


class Sink:
    def __init__(self):
        self.data = b''

    def write(self, piece):
        self.data += piece
        return len(piece)


def late(_signal, _frame):
    raise Late


def by_reference(text, words):
    """What the reference writes, and its status; None where it takes too long."""
    sys.path.insert(0, os.environ['REFERENCE'])
    from pltref import cli
    from pltref.program import Failed
    sys.path.pop(0)
    sink = Sink()
    signal.signal(signal.SIGALRM, late)
    signal.alarm(SECONDS)
    try:
        report = cli.run(words, OneFile(text.encode(), Failed), sink)
        return sink.data, report.status
    except (Late, RecursionError):
        return None
    finally:
        signal.alarm(0)


def by_plt(plt, folder, text, words):
    with open(os.path.join(folder, 'f.pl'), 'w', encoding='utf-8') as file:
        file.write(text)
    try:
        ran = subprocess.run([plt] + words, cwd=folder, stdout=subprocess.PIPE, stderr=subprocess.PIPE, timeout=6 * SECONDS)
        return ran.stdout, ran.returncode
    except subprocess.TimeoutExpired:
        return b'(no answer)', -1


def the_program():
    """The program to run, which the launcher builds where it has none."""
    if 'PLT' in os.environ:
        return os.path.realpath(os.environ['PLT'])
    launcher = os.path.join(ROOT, 'plt')
    with tempfile.TemporaryDirectory() as folder:
        open(os.path.join(folder, 'f.pl'), 'w').close()
        if subprocess.run([launcher, 'run', 'f.pl', 'true'], cwd=folder, stdout=subprocess.DEVNULL).returncode:
            sys.exit('there is no program to run')
    said = subprocess.run([launcher, '--version'], stdout=subprocess.PIPE, text=True).stdout
    kept = os.path.join(ROOT, 'crates', 'plt', 'out', 'launcher')
    return os.path.join(kept, 'proved' if 'program: proved' in said else 'unproved')


def end_of(wanted):
    """How a program ended, in a word or two."""
    written, status = wanted
    if status not in (0, 1):
        return 'halted'
    last = written.decode('utf-8', 'replace').rstrip('\n').split('\n')[-1]
    for piece in ('resource_error(inferences)', 'resource_error(cells)', 'resource_error(choices)', 'existence_error',
                  'instantiation_error', 'type_error', 'syntax error', 'error: '):
        if piece in last and last.startswith(('error', 'syntax')):
            return piece
    return 'false' if last == 'false.' else 'solved'


def compare(job):
    plt, seed, number = job
    text, words = MAKERS[0](seed, number)
    wanted = by_reference(text, words)
    if wanted is None:
        return number, None, None, 'passed: too long'
    with tempfile.TemporaryDirectory() as folder:
        got = by_plt(plt, folder, text, words)
    return number, wanted, got, end_of(wanted)


def show(seed, number, wanted, got):
    text, words = MAKERS[0](seed, number)
    print('--- program %d of seed %s: %r' % (number, seed, words))
    print(text, end='')
    print('--- reference, status %d' % wanted[1])
    print(wanted[0].decode('utf-8', 'replace'), end='')
    print('--- plt, status %d' % got[1])
    print(got[0].decode('utf-8', 'replace'), end='', flush=True)


def trial(seed, count, first):
    plt = the_program()
    ends = Counter()
    differences = 0
    with multiprocessing.Pool(int(os.environ.get('PROCESSES', '2'))) as pool:
        for number, wanted, got, end in pool.imap_unordered(compare, ((plt, seed, n) for n in range(first, first + count)), 20):
            ends[end] += 1
            if got != wanted:
                differences += 1
                show(seed, number, wanted, got)
    print(', '.join('%s %d' % e for e in ends.most_common()))
    passed = sum(n for end, n in ends.items() if end.startswith('passed'))
    print('%d programs, %d of them passed, %d differences' % (count, passed, differences))
    return 1 if differences else 0


def main(words, usage, program):
    if len(words) not in (3, 4) or words[0] not in ('trial', 'show') or (words[0] == 'show' and len(words) == 4):
        print(usage)
        return 2
    MAKERS.append(program)
    if words[0] == 'trial':
        return trial(words[1], int(words[2]), int(words[3]) if len(words) == 4 else 0)
    number, wanted, got, end = compare((the_program(), words[1], int(words[2])))
    if wanted is None:
        print(end)
        return 2
    show(words[1], number, wanted, got)
    print('--- the same' if got == wanted else '--- different')
    return 0

