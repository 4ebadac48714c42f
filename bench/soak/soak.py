"""soak.py PROGRAM COUNT [SEED]: runs so many random programs, the first of this seed (1 where none is given), by 1 to 16 workers in slices
of 1 to 1,000 inferences, and judges each run. KEEP names a folder in which the runs that are wrong are kept, for judge.py.

A run that does not end in time is told of too, and so is one that the program ends for want of memory or of atoms."""

import collections
import os
import random
import subprocess
import sys
import tempfile
from concurrent.futures import ProcessPoolExecutor

from judge import Command, Wrong, judge, with_deep_stack
from programs import program

SECONDS = 120
INFERENCES = 20_000


def schedule(seed):
    """The number of workers, the slots of the table of atoms, the inferences of a slice, and the turns before an engine comes home."""
    r = random.Random(-seed)
    workers = r.choice([1, 1, 2, 2, 3, 4, 4, 6, 8, 12, 16])
    slice_ = r.choice([1, 2, 3, 7, 30, 100, 300, 1000, r.randint(1, 1000)])
    thousands = r.choice([0, 1, 1, 2, 3, 64, 65])
    slots = (thousands if 1024 * thousands + slice_ >= 512 else 1) * 1024 + slice_
    return workers, slots, slice_


def run(plt, folder, seed):
    """The words and the status of a run in the folder."""
    text, goals = program(seed)
    workers, slots, _ = schedule(seed)
    words = ["run", "--inferences", str(INFERENCES), "f.pl"] + goals
    for name, content in (("f.pl", text), ("words", "\n".join(words) + "\n")):
        with open(os.path.join(folder, name), "w") as file:
            file.write(content)
    options = ["--workers", str(workers), "--atoms", str(slots)]
    with open(os.path.join(folder, "text"), "wb") as out:
        done = subprocess.run([plt, words[0]] + options + words[1:], cwd=folder, stdout=out, stderr=subprocess.PIPE, timeout=SECONDS)
    with open(os.path.join(folder, "status"), "w") as file:
        file.write("%d\n" % done.returncode)
    return Command(words, text), done


def one(task):
    """What is wrong with the run of a seed, if anything is, and what it had."""
    plt, seed, keep = task
    with tempfile.TemporaryDirectory() as folder:
        try:
            command, done = run(plt, folder, seed)
            with open(os.path.join(folder, "text"), encoding="utf-8") as file:
                text = file.read()
            replay = judge(command, text, done.returncode)
            counts = (done.returncode, replay.state.length, len(replay.engines), text.count("\n", text.index("%% engines\n")) - 1)
            return seed, None, counts
        except subprocess.TimeoutExpired:
            fault = "it does not end in %d seconds" % SECONDS
        except Wrong as wrong:
            fault = str(wrong) + done.stderr.decode()[-500:]
        except Exception as broken:
            fault = "the judge cannot tell: %s: %s" % (type(broken).__name__, broken)
        if keep:
            subprocess.run(["cp", "-r", folder, os.path.join(keep, "run%d" % seed)], check=True)
        return seed, fault, None


def in_process(task):
    return with_deep_stack(lambda: one(task))


def main():
    plt, count = os.path.abspath(sys.argv[1]), int(sys.argv[2])
    first = int(sys.argv[3]) if len(sys.argv) > 3 else 1
    tasks = [(plt, seed, os.environ.get("KEEP")) for seed in range(first, first + count)]
    wrong, statuses, workers, entries, most, visits = 0, collections.Counter(), collections.Counter(), 0, 0, 0
    with ProcessPoolExecutor(int(os.environ.get("JOBS", "2"))) as pool:
        for seed, fault, counts in pool.map(in_process, tasks):
            if fault is not None:
                wrong += 1
                print("seed %d, %d workers, %d slots, slices of %d: %s" % ((seed,) + schedule(seed) + (fault,)), flush=True)
            else:
                statuses[counts[0]] += 1
                workers[schedule(seed)[0]] += 1
                entries += counts[1]
                most = max(most, counts[2])
                visits += counts[3]
    print("%d runs, %d of them wrong; statuses %s; runs by workers %s; %d entries, %d visits and ends, at most %d engines" % (
        count, wrong, dict(sorted(statuses.items())), dict(sorted(workers.items())), entries, visits, most))
    sys.exit(1 if wrong else 0)


main()
