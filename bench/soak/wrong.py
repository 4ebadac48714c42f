"""wrong.py PROGRAM runs one program of two consumers, and shows that the judge takes its run, and none of those runs that come of it by
a change made by hand: of the text, or of what is told of the history."""

import os
import re
import subprocess
import sys
import tempfile

from judge import Command, Wrong, judge, with_deep_stack

TEXT = """\
:- dynamic(fact/1).
:- message_queue_create(q).
fact(1).
fact(2).
consume(0) :- !.
consume(N) :- thread_get_message(q, X), write(got(X)), nl, M is N - 1, consume(M).
send(0) :- !.
send(N) :- thread_send_message(q, N), M is N - 1, send(M).
go :-
    thread_create(consume(2), A), thread_create(consume(2), B), send(4), thread_join(A, S), thread_join(B, T), write(S-T), nl,
    retract(fact(1)), findall(X, fact(X), L), write(L), nl.
"""
WORDS = ["run", "f.pl", "go"]


class Run:
    """The text that was written, and the numbers told of each engine, in the order of the lines."""

    def __init__(self, output):
        self.text, _, lines = output.partition("%% engines\n")
        self.told = [[int(word) for word in line.split()] for line in lines.split("\n")[:-1]]

    def output(self):
        return self.text + "%% engines\n" + "".join(["%d %d\n" % tuple(line) for line in self.told])

    def change_text(self, old, new):
        if self.text.count(old) != 1:
            sys.exit("wrong.py: %r stands %d times in\n%s" % (old, self.text.count(old), self.text))
        self.text = self.text.replace(old, new)

    def thread(self, nth):
        """The number of the first thread, or of the second."""
        return sorted({line[0] for line in self.told})[nth]

    def end(self, engine):
        """The line of an engine's end."""
        return next(line for line in self.told if line[0] == engine and line[1] % 4 == 2)

    def updates(self, engine):
        return [line for line in self.told if line[0] == engine and line[1] % 4 == 1]

    def swap(self, one, other):
        """Two entries change their places in the history."""
        one[1], other[1] = other[1] // 4 * 4 + one[1] % 4, one[1] // 4 * 4 + other[1] % 4


def message_lost(run):
    run.change_text("got(3)\n", "")


def message_taken_twice(run):
    first, second = re.findall(r"got\(\d\)\n", run.text)[:2]
    run.change_text(second, first)


def message_of_another(run):
    one, other = re.findall(r"got\(\d\)\n", run.text)[1:3]
    run.text = run.text.replace(one, "*").replace(other, one).replace("*", other)


def erased_clause_seen(run):
    run.change_text("[2]\n", "[1,2]\n")


def call_before_the_erasure(run):
    """The visit of the last call is told at the generation before the clause was erased."""
    erased = run.updates(1)[-1][1] // 4
    next(line for line in run.told if line[0] == 1 and line[1] == 4 * (erased + 1))[1] = 4 * erased


def call_at_an_older_generation(run):
    """A visit in the midst of the second thread's is told at the first generation."""
    [line for line in run.told if line[0] == run.thread(2)][2][1] = 0


def ends_in_another_order(run):
    """The first thread is told to have ended after it was joined."""
    run.swap(run.end(run.thread(1)), run.updates(1)[-3])


def sections_in_another_order(run):
    goal, first, second = re.split(r"(?=% thread)", run.text)
    run.text = goal + second + first


def engine_lost(run):
    run.told = [line for line in run.told if line[0] != run.thread(2)]


def update_left_out(run):
    lost = run.updates(1)[-1]
    run.told.remove(lost)


def update_made_twice(run):
    twice = run.updates(1)[-1]
    run.told.insert(run.told.index(twice), list(twice))


def update_of_another(run):
    """The message is told to have been taken by the other thread."""
    taken = run.updates(run.thread(1))[0]
    taken[0] = run.thread(2)
    run.told.sort(key=lambda line: (line[0], line[1] // 4))


def end_left_out(run):
    run.told.remove(run.end(1))


def stops_early(run):
    """The run is told to have stopped while the first engine could go on."""
    run.told = run.told[:run.told.index(run.updates(1)[-1])] + [line for line in run.told if line[0] != 1]


CHANGES = [message_lost, message_taken_twice, message_of_another, erased_clause_seen, call_before_the_erasure, call_at_an_older_generation,
           ends_in_another_order, sections_in_another_order, engine_lost, update_left_out, update_made_twice, update_of_another, end_left_out, stops_early]


def fault_of(output, status):
    try:
        judge(Command(WORDS, TEXT), output, status)
    except Wrong as wrong:
        return str(wrong)
    return None


def main():
    plt, failed = os.path.abspath(sys.argv[1]), 0
    with tempfile.TemporaryDirectory() as folder:
        with open(os.path.join(folder, "f.pl"), "w") as file:
            file.write(TEXT)
        done = subprocess.run([plt] + WORDS, cwd=folder, stdout=subprocess.PIPE, text=True)
    fault = fault_of(done.stdout, done.returncode)
    print("as it is: %s" % (fault or "taken"))
    failed += fault is not None
    for change in CHANGES:
        run = Run(done.stdout)
        change(run)
        fault = fault_of(run.output(), done.returncode)
        print("%s: %s" % (change.__name__, "TAKEN" if fault is None else fault.split("\n")[0]))
        failed += fault is None
    fault = fault_of(done.stdout, done.returncode + 1)
    print("another_status: %s" % (fault or "TAKEN"))
    return 1 if failed or fault is None else 0


sys.exit(with_deep_stack(main))
