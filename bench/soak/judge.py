"""judge.py RUN .. says of recorded runs whether they are runs by the definitions: each is a folder with the file f.pl, the words of the
command in `words`, a line each, the text written in `text`, and the exit status in `status`.

The text ends with the numbers that trial.source tells of: the generations of each engine's visits, which of them made entries, and the
places of these. From them alone, and the program, the judge makes the history anew: it replays each engine by plain resolution
(resolution.py), answers its k-th request in the state that the fold of the history gives at its k-th generation (shared.py), and
appends the entry that follows. A run is wrong where

  - a generation falls, lies before the entry that began its engine, or past the end of the history;
  - an entry is told of where the answer makes none, or none is told of where it makes one, or two of one place, or none of it;
  - an engine asks after its end, or asks less than it has to: at the end each has ended, or its next request waits at the end of the
    history;
  - the text or the status is another than what the engines wrote, and how they ended.

Nothing here is taken from the program's own code."""

import os
import sys
import threading

from resolution import Search
from shared import State
from terms import Reader, copied, written

LOOK = ("look",)
VISIT, UPDATE, END = 0, 1, 2
KINDS = {VISIT: "a visit", UPDATE: "an update", END: "an end"}


class Wrong(Exception):
    """It is no run by the definitions, for this reason."""


class Command:
    """The words of the command, with the options that the judge knows."""

    def __init__(self, words, text):
        self.options = {"inferences": 10_000_000, "solutions": 1}
        at = 1
        while words[at].startswith("--"):
            self.options[words[at][2:]] = int(words[at + 1])
            at += 2
        self.name = words[at]
        self.items = list(Reader(text).items())
        self.words = words[at + 1:]
        self.goals = [next(Reader(word + " .").items()) for word in self.words]

    def search(self, goal, solutions, stays):
        return Search(goal, self.options["inferences"], solutions, stays)


class Engine:
    """An engine, at its next request or its end. `steps` yields its requests, is sent the replies, and returns how it ended."""

    def __init__(self, number, alias):
        self.number = number
        self.alias = alias
        self.search = None
        self.request = None
        self.how = None
        self.has_ended = False

    def begin(self, steps):
        self.steps = steps
        self.answer(None)

    def answer(self, reply):
        try:
            self.request = self.steps.send(reply)
        except StopIteration as end:
            self.request, self.how = None, end.value


def thread_steps(command, engine, goal):
    yield LOOK
    is_goal = engine.number <= len(command.words)
    engine.search = command.search(goal, command.options["solutions"] if is_goal else 1, engine.alias if is_goal else None)
    return (yield from engine.search.run())


class Main(Engine):
    """Engine 1: it takes up the items of the file, starts the further goals, and runs the first one."""

    def __init__(self, command):
        super().__init__(1, "main")
        self.command = command
        self.text = ""
        self.faults = 0
        self.directing = None
        self.refused = {}
        self.begin(self.consult())

    def consult(self):
        later = []
        for place, term, _ in self.command.items:
            yield LOOK
            if isinstance(term, tuple) and term[0] == ":-" and len(term) == 2:
                if isinstance(term[1], tuple) and term[1][0] == "initialization":
                    later.append((place, term[1][1]))
                else:
                    yield from self.direct(place, term[1])
            else:
                clause = self.command.search("true", 1, None).clause_parts(term, ("consult", 1))
                yield ("add", "last", "consult") + clause
        yield LOOK
        for place, goal in later:
            yield from self.direct(place, renamed(goal))
        yield LOOK
        for number, (_, goal, _) in enumerate(self.command.goals[1:], 2):
            reply = yield ("start", number, goal)
            if reply[0] == "refused":
                self.refused[number] = ("threw", ("error", reply[1], ("/", "consult", 1)))
        if not self.command.goals:
            return ("solved",)
        self.search = self.command.search(self.command.goals[0][1], self.command.options["solutions"], "main")
        return (yield from self.search.run())

    def direct(self, place, goal):
        search = self.command.search(goal, 1, "main")
        self.directing = (place, search)
        how = yield from search.run()
        self.text += texts(search.output)
        self.directing = None
        yield LOOK
        if how[0] in ("no_more", "threw"):
            said = "directive failed" if how[0] == "no_more" else written(how[1])
            self.text = with_line(self.text, "%s:%d: %s" % (self.command.name, place, said))
            self.faults += 1


def renamed(goal):
    return copied(goal, {}, 0)


# The text

def texts(output):
    return "".join([part for kind, part in output if kind == "text"])


def with_line(text, line):
    return text + ("" if text == "" or text.endswith("\n") else "\n") + line + "\n"


def goal_section(word, names, search, how):
    text = with_line("", "?- %s." % word)
    for kind, part in search.output if search is not None else []:
        if kind == "text":
            text += part
        else:
            shown = ["%s = %s" % (name, written(part[number], 699)) for name, number in names.items() if name[0] != "_"]
            text = with_line(text, (", ".join(shown) or "true") + ".")
    if how == ("solved",):
        return text
    return with_line(text, {"waits": "waiting.", "no_more": "false."}.get(how[0]) or with_how(how))


def with_how(how):
    if how[0] == "atom_space":
        return "error: resource_error(atom_space)."
    return "error: %s." % written(how[1]) if how[0] == "threw" else "halt(%d)." % how[1]


def thread_section(engine, how):
    output = texts(engine.search.output) if engine.search is not None else ""
    line = {"waits": lambda: "waiting.", "halted": lambda: with_how(how), "atom_space": lambda: with_how(how)}.get(how[0])
    line = line and line()
    if output == "" and line is None:
        return ""
    text = "%% thread %s\n" % (engine.number if engine.alias is None else engine.alias) + output
    return with_line(text, line) if line is not None else closed(text)


def closed(text):
    return text if text == "" or text.endswith("\n") else text + "\n"


def transcript(command, engines):
    """The text, and the status."""
    main = engines[1]
    ends = {number: ("waits",) if engine.how is None else engine.how for number, engine in engines.items()}
    ends.update(main.refused)
    text, names = closed(main.text), [1] + [n for n in sorted(engines) if n > 1]
    if main.directing is not None:
        if main.how is not None:
            raise Wrong("the first engine has ended in a directive, which the judge does not know")
        text = with_line(main.text + texts(main.directing[1].output), "%s:%d: waiting" % (command.name, main.directing[0]))
    else:
        for number, (word, (_, _, variables)) in enumerate(zip(command.words, command.goals), 1):
            search = engines[number].search if number in engines else None
            text += goal_section(word, variables, search, ends[number])
    text += "".join([thread_section(engines[n], ends[n]) for n in names if n > max(len(command.words), 1)])
    return text, status_of(command, main, [ends[n] for n in names], ends)


def status_of(command, main, in_order, ends):
    halted = [how[1] for how in in_order if how[0] == "halted"]
    if halted:
        return halted[0]
    if ("waits",) in in_order:
        return 3
    unsolved = any(ends[number] != ("solved",) for number in range(1, len(command.words) + 1))
    return 1 if unsolved or main.faults or ("atom_space",) in in_order else 0


# The history

class Replay:
    """The engines, and the history as far as it is made anew. `told` has of each engine the generations and kinds that are left.
    Where engines may end for want of atoms, one that ends before its time has to be told of as such a one in the text."""

    def __init__(self, command, told, without_atoms):
        self.command = command
        self.without_atoms = without_atoms
        self.state = State(len(command.words))
        self.told = told
        self.engines = {1: Main(command)}

    def run(self):
        while True:
            self.visits()
            entering = [number for number in self.engines if self.next_of(number)[0] == self.state.length]
            if not entering:
                break
            if len(entering) > 1:
                raise Wrong("engines %s made an entry of the one place %d" % (entering, self.state.length))
            self.enter(self.engines[entering[0]])
        for number, left in self.told.items():
            if left:
                raise Wrong("engine %d tells of %s at %d, and the history has the length %d" % (
                    number, KINDS[left[0][1]], left[0][0], self.state.length))
        for engine in self.engines.values():
            if engine.how is not None and not engine.has_ended:
                raise Wrong("engine %d has come to its end, and the history has none of it" % engine.number)
            if engine.how is None and self.state.serve(engine.number, engine.request) is not None:
                raise Wrong("engine %d has stopped, and can go on: %s" % (engine.number, engine.request[0]))

    def next_of(self, number):
        left = self.told.get(number)
        return left[0] if left else (None, None)

    def visits(self):
        """All visits at this generation that make no entry."""
        for number, engine in list(self.engines.items()):
            while self.next_of(number) == (self.state.length, VISIT):
                self.told[number].pop(0)
                reply, entry = self.served(engine)
                if entry is not None:
                    raise Wrong("engine %d tells of a visit at %d that has the entry %s" % (number, self.state.length, entry[0]))
                engine.answer(reply)

    def served(self, engine):
        if engine.request is None:
            raise Wrong("engine %d makes a visit at %d, and has come to its end" % (engine.number, self.state.length))
        found = self.state.serve(engine.number, engine.request)
        if found is None:
            raise Wrong("engine %d waits at %d: %s" % (engine.number, self.state.length, engine.request[0]))
        return found

    def enter(self, engine):
        """The entry of this place."""
        place, kind = self.told[engine.number].pop(0)
        if kind == END:
            if engine.has_ended:
                raise Wrong("engine %d ends at %d for the second time" % (engine.number, place))
            if engine.how is None:
                if not self.without_atoms:
                    raise Wrong("engine %d ends at %d, and has still to do: %s" % (engine.number, place, engine.request[0]))
                engine.request, engine.how = None, ("atom_space",)
            engine.has_ended = True
            self.state.change(engine.number, ("end", status_term(engine.how)))
            return
        reply, entry = self.served(engine)
        if entry is None:
            raise Wrong("engine %d tells of an update at %d, which %s makes none" % (engine.number, place, engine.request[0]))
        self.state.change(engine.number, entry)
        if entry[0] == "start":
            begun = Engine(entry[1], entry[3])
            self.engines[entry[1]] = begun
            begun.begin(thread_steps(self.command, begun, entry[2]))
        engine.answer(reply)


def status_term(how):
    if how[0] == "solved":
        return "true"
    if how[0] == "no_more":
        return "false"
    if how[0] == "atom_space":
        return ("exception", ("resource_error", "atom_space"))
    return ({"threw": "exception", "exited": "exited", "halted": "halted"}[how[0]], renamed(how[1]))


def judge(command, text, status):
    """Nothing, or an exception Wrong."""
    shown, mark, lines = text.partition("%% engines\n")
    if not mark:
        raise Wrong("the program has told of no engine, with status %d" % status)
    told = {}
    for line in lines.split("\n")[:-1]:
        number, code = line.split()
        told.setdefault(int(number), []).append((int(code) // 4, int(code) % 4))
    replay = Replay(command, told, "resource_error(atom_space)" in shown)
    replay.run()
    for number in told:
        if number not in replay.engines:
            raise Wrong("no entry begins engine %d" % number)
    wanted, wanted_status = transcript(command, replay.engines)
    if shown != wanted:
        raise Wrong("by the definitions the text is\n%sand not\n%s" % (wanted, shown))
    if status != wanted_status:
        raise Wrong("by the definitions the status is %d, and not %d" % (wanted_status, status))
    return replay


def read(folder):
    def content(name):
        with open(os.path.join(folder, name), encoding="utf-8") as file:
            return file.read()
    return Command(content("words").split("\n")[:-1], content("f.pl")), content("text"), int(content("status"))


def main():
    wrong = 0
    for folder in sys.argv[1:]:
        try:
            judge(*read(folder))
        except Wrong as fault:
            wrong += 1
            print("%s: %s" % (folder, fault))
    print("%d runs, %d of them wrong" % (len(sys.argv) - 1, wrong))
    return 1 if wrong else 0


def with_deep_stack(task):
    """What the task gives, in a thread whose stack suffices for long lists."""
    sys.setrecursionlimit(200_000)
    threading.stack_size(256 << 20)
    found = []
    thread = threading.Thread(target=lambda: found.append(task()))
    thread.start()
    thread.join()
    return found[0] if found else 1


if __name__ == "__main__":
    sys.exit(with_deep_stack(main))
