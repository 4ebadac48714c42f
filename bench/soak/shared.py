"""The shared state: the fold of a history, and what it answers to a request (ISO 7.5, 7.7.10, 8.9; SWI-Prolog manual, section
'Multithreaded applications').

A request is a tuple of its kind and arguments. `State.serve` answers it with a pair of the reply and the entry that it makes, or None
where the engine waits; `State.change` is the fold's step."""

from terms import Unsupported, Var, copied

MOST_ENGINES = 64


def indicator(term):
    return (term[0], len(term) - 1) if isinstance(term, tuple) else (term, 0)


def error_term(kind, *arguments):
    return (kind,) + arguments


class Clause:
    """A clause with the place of the entry that added it, and whether it was erased."""

    def __init__(self, place, head, body, variables):
        self.place = place
        self.head = head
        self.body = body
        self.variables = variables
        self.erased = False


class State:
    def __init__(self, goals):
        self.length = 0
        self.access = {}
        self.clauses = {}
        self.placed = {}
        self.unknown = "error"
        self.aliases = {"main": 1}
        self.queues = {1: []}
        self.own = {1}
        self.threads = {1: None}
        self.count = goals + 1 if goals else 2

    # Requests

    def serve(self, engine, request):
        return getattr(self, "serve_" + request[0])(engine, *request[1:])

    def serve_look(self, engine):
        return ("standing",), None

    def serve_call(self, engine, goal):
        if indicator(goal) not in self.access:
            if self.unknown == "fail":
                return ("listed", []), None
            name, arity = indicator(goal)
            return ("refused", error_term("existence_error", "procedure", ("/", name, arity))), None
        return ("listed", self.clauses_for(goal)), None

    def serve_inspect(self, engine, head):
        if self.access.get(indicator(head)) == "static":
            raise Unsupported("clause/2 of a static procedure")
        return ("listed", self.clauses_for(head)), None

    def serve_retract(self, engine, head):
        if self.access.get(indicator(head)) == "static":
            raise Unsupported("retract/1 of a static procedure")
        return ("listed", self.clauses_for(head)), None

    def serve_clear(self, engine, head):
        reply, _ = self.serve_retract(engine, head)
        return reply, None if indicator(head) in self.access else ("dynamic", [indicator(head)])

    def serve_erase(self, engine, place):
        return (("gone",), None) if self.placed[place].erased else (("done",), ("erase", place))

    def serve_add(self, engine, where, origin, head, body, variables):
        if origin == "assert" and self.access.get(indicator(head)) == "static":
            raise Unsupported("a change of a static procedure")
        return ("done",), ("add", where, origin, head, body, variables)

    def serve_dynamic(self, engine, procedures):
        return ("done",), ("dynamic", procedures)

    def serve_set_unknown(self, engine, value):
        return ("done",), ("set_unknown", value)

    def serve_collect(self, engine):
        return ("done",), None

    def serve_name(self, engine):
        return ("named", self.name_of(engine)), None

    def serve_create(self, engine, goal, alias):
        if alias is not None and alias in self.aliases:
            return ("refused", error_term("permission_error", "create", "thread", alias)), None
        number = self.count
        return self.start(number, goal, alias, ("named", number if alias is None else alias))

    def serve_start(self, engine, number, goal):
        alias = "goal%d" % number
        if alias in self.aliases:
            return ("refused", error_term("permission_error", "create", "thread", alias)), None
        return self.start(number, goal, alias, ("done",))

    def start(self, number, goal, alias, reply):
        if sum(1 for status in self.threads.values() if status is None) >= MOST_ENGINES:
            return ("refused", error_term("resource_error", "threads")), None
        return reply, ("start", number, copied(goal, {}, 0), alias)

    def serve_join(self, engine, name):
        number = self.number_of(name)
        if number not in self.threads:
            return ("refused", error_term("existence_error", "thread", name)), None
        if number == engine:
            return ("refused", error_term("permission_error", "join", "thread", name)), None
        status = self.threads[number]
        return None if status is None else (("status", status), ("join", number))

    def serve_send(self, engine, name, message):
        number = self.number_of(name)
        if number not in self.queues:
            return ("refused", error_term("existence_error", "message_queue", name)), None
        return ("done",), ("send", number, copied(message, {}, 0))

    def serve_get(self, engine, name, fits):
        return self.message_for(engine, name, fits, True)

    def serve_peek(self, engine, name, fits):
        return self.message_for(engine, name, fits, False)

    def message_for(self, engine, name, fits, taken):
        """The first message that fits, which is taken or only looked at."""
        number = engine if name is None else self.number_of(name)
        if number not in self.queues:
            return ("refused", error_term("existence_error", "message_queue", engine if name is None else name)), None
        for place, message in self.queues[number]:
            if fits(message):
                return ("message", message), ("take", place) if taken else None
        return None if taken else (("no_message",), None)

    def serve_make_queue(self, engine, alias):
        if alias is not None and alias in self.aliases:
            return ("refused", error_term("permission_error", "create", "message_queue", alias)), None
        return ("named", self.count if alias is None else alias), ("make_queue", self.count, alias)

    def serve_drop_queue(self, engine, name):
        number = self.number_of(name)
        if number not in self.queues:
            return ("refused", error_term("existence_error", "message_queue", name)), None
        if number in self.own:
            return ("refused", error_term("permission_error", "destroy", "message_queue", name)), None
        return ("done",), ("drop_queue", number)

    # Entries

    def change(self, engine, kind):
        getattr(self, "change_" + kind[0])(engine, *kind[1:])
        self.length += 1

    def change_add(self, engine, where, origin, head, body, variables):
        procedure = indicator(head)
        self.access.setdefault(procedure, "static" if origin == "consult" else "dynamic")
        clause = Clause(self.length, head, body, variables)
        self.placed[self.length] = clause
        listed = self.clauses.setdefault(procedure, [])
        listed.insert(0 if where == "first" else len(listed), clause)

    def change_erase(self, engine, place):
        clause = self.placed[place]
        clause.erased = True
        self.clauses[indicator(clause.head)].remove(clause)

    def change_dynamic(self, engine, procedures):
        for procedure in procedures:
            self.access.setdefault(procedure, "dynamic")

    def change_set_unknown(self, engine, value):
        self.unknown = value

    def change_start(self, engine, number, goal, alias):
        self.counted(number, alias)
        self.queues[number] = []
        self.own.add(number)
        self.threads[number] = None

    def change_make_queue(self, engine, number, alias):
        self.counted(number, alias)
        self.queues[number] = []

    def counted(self, number, alias):
        if alias is not None:
            self.aliases[alias] = number
        self.count = max(self.count, number + 1)

    def change_drop_queue(self, engine, number):
        del self.queues[number]
        self.forget(number)

    def change_send(self, engine, number, message):
        self.queues[number].append((self.length, message))

    def change_take(self, engine, place):
        for messages in self.queues.values():
            messages[:] = [message for message in messages if message[0] != place]

    def change_end(self, engine, status):
        del self.queues[engine]
        self.threads[engine] = status

    def change_join(self, engine, number):
        del self.threads[number]
        self.forget(number)

    # What is looked up

    def forget(self, number):
        self.aliases = {alias: named for alias, named in self.aliases.items() if named != number}

    def name_of(self, number):
        return next((alias for alias, named in self.aliases.items() if named == number), number)

    def number_of(self, name):
        return self.aliases.get(name) if isinstance(name, str) else name

    def clauses_for(self, goal):
        """The clauses that a call tries: those of the procedure but those that the first argument excludes."""
        found = self.clauses.get(indicator(goal), [])
        if not isinstance(goal, tuple):
            return list(found)
        return [clause for clause in found if not excludes(goal[1], clause.head[1])]


def excludes(first, second):
    """Whether both are no variables, and differ as constants or in name or number of arguments."""
    if isinstance(first, Var) or isinstance(second, Var):
        return False
    if isinstance(first, tuple) and isinstance(second, tuple):
        return indicator(first) != indicator(second)
    return isinstance(first, tuple) or isinstance(second, tuple) or type(first) is not type(second) or first != second
