"""The search for the solutions of a goal, by plain resolution (ISO 7.7, 7.8).

`Search.run` is a generator: it yields each request to the shared state, is sent the reply, and returns how the search ended. All clauses
that a call may try come with one reply. Nothing is known here of cells and of the budgets of cells and choice points."""

from shared import indicator
from terms import NIL, Unsupported, Var, copied, list_of, written

ARITHMETIC = {
    "+": lambda x, y: x + y, "-": lambda x, y: x - y, "*": lambda x, y: x * y, "//": lambda x, y: int(x / y), "mod": lambda x, y: x % y,
}
COMPARISONS = {
    "=:=": lambda x, y: x == y, "=\\=": lambda x, y: x != y, "<": lambda x, y: x < y, ">": lambda x, y: x > y,
    "=<": lambda x, y: x <= y, ">=": lambda x, y: x >= y,
}
# Built-in predicates that no program of the soak calls: a call of them is no call of the program's clauses.
OTHERS = {"functor", "arg", "=..", "copy_term", "op", "current_op", "abolish", "atom_length", "atom_chars", "number_codes", "sort", "msort",
          "keysort", "current_predicate", "current_prolog_flag", "sub_atom", "compare", "bagof", "setof", "forall"}


class Ball(Exception):
    """A ball on its way to the catches."""

    def __init__(self, term):
        super().__init__()
        self.term = term


class Fails(Exception):
    """The goal fails."""


class Ends(Exception):
    """The search ends so, whatever else is to be done."""

    def __init__(self, *how):
        super().__init__()
        self.how = how


def error(term, procedure):
    return Ball(("error", term, ("/",) + procedure))


class Search:
    """A search with what is to be done (a chain of pending steps), what is open (a stack of choice points) and the bindings."""

    def __init__(self, goal, inferences, solutions, stays):
        self.goal = goal
        self.most = inferences
        self.wanted = solutions
        self.stays = stays
        self.inferences = 0
        self.bindings = {}
        self.trail = []
        self.choices = []
        self.pending = None
        self.output = []
        self.given = 0
        numbers = {}
        copied(goal, numbers, 0)
        self.answer = list(numbers)
        self.next = len(numbers)

    # The search

    def run(self):
        try:
            self.pending = ("goal", self.body(self.goal, ("consult", 1)), 0, None)
        except Ball as ball:
            return "threw", ball.term
        while True:
            try:
                if self.pending is None:
                    yield ("look",)
                    self.solution()
                    if self.given >= self.wanted:
                        return ("solved",)
                    raise Fails
                yield from self.do_first()
            except Fails:
                if not (yield from self.go_back()):
                    return ("no_more",)
            except Ball as ball:
                if not self.catch(ball.term):
                    return "threw", ball.term
            except Ends as end:
                return end.how

    def solution(self):
        self.given += 1
        self.output.append(("solution", {number: self.resolved(Var(number)) for number in self.answer}))

    def do_first(self):
        kind, first, second, self.pending = self.pending
        if kind == "goal":
            yield from self.take_up(self.deref(first), second)
        elif kind == "commit":
            del self.choices[second:]
        elif kind == "refute":
            del self.choices[second:]
            raise Fails
        elif kind == "collect":
            self.choices[second][4].append(self.fresh(first))
            raise Fails

    def before(self, *steps):
        for step in reversed(steps):
            self.pending = step + (self.pending,)

    def open(self, kind, pending, *rest):
        """A choice point is made; the answer is its height."""
        self.choices.append((kind, len(self.trail), pending) + rest)
        return len(self.choices) - 1

    def undo(self, length):
        while len(self.trail) > length:
            del self.bindings[self.trail.pop()]

    def go_back(self):
        """Failure: goes back to the newest choice point; false where none is left."""
        while self.choices:
            choice = self.choices.pop()
            self.undo(choice[1])
            self.pending = choice[2]
            try:
                if choice[0] == "branch":
                    return True
                if choice[0] == "clauses":
                    yield from self.try_clause(*choice[3:])
                    return True
                if choice[0] == "findall":
                    self.unify_all((choice[3], list_of(choice[4])))
                    return True
            except Fails:
                pass
        return False

    def catch(self, ball):
        """The innermost active catch with whose catcher the ball unifies; false where none is left."""
        outer = self.pending
        while outer is not None:
            kind, _, height, outer = outer
            if kind != "leave" or height >= len(self.choices) or self.choices[height][0] != "catch":
                continue
            del self.choices[height + 1:]
            _, length, self.pending, catcher, recovery = self.choices.pop()
            self.undo(length)
            outer = self.pending
            try:
                self.unify_all((self.fresh(ball), catcher))
            except Fails:
                self.undo(length)
                continue
            try:
                self.before(("goal", self.body(recovery, ("catch", 3)), len(self.choices)))
                return True
            except Ball as other:
                ball, outer = other.term, self.pending
        return False

    # Terms

    def deref(self, term):
        while isinstance(term, Var) and term.number in self.bindings:
            term = self.bindings[term.number]
        return term

    def resolved(self, term):
        term = self.deref(term)
        if isinstance(term, tuple):
            return (term[0],) + tuple([self.resolved(argument) for argument in term[1:]])
        return term

    def fresh(self, term):
        """A copy of a term of this search with new variables."""
        return self.loaded(self.resolved(term))

    def loaded(self, term):
        """A term of the shared state, whose variables are none of this search, with new variables."""
        numbers = {}
        copy = copied(term, numbers, self.next)
        self.next += len(numbers)
        return copy

    def unify_all(self, *pairs):
        stack = list(pairs)
        while stack:
            left, right = stack.pop()
            left, right = self.deref(left), self.deref(right)
            if isinstance(left, Var) and isinstance(right, Var):
                if left.number != right.number:
                    self.bind(max(left.number, right.number), Var(min(left.number, right.number)))
            elif isinstance(left, Var):
                self.bind_checked(left.number, right)
            elif isinstance(right, Var):
                self.bind_checked(right.number, left)
            elif isinstance(left, tuple) and isinstance(right, tuple):
                if indicator(left) != indicator(right):
                    raise Fails
                stack.extend(zip(left[1:], right[1:]))
            elif type(left) is not type(right) or left != right:
                raise Fails

    def bind(self, number, term):
        self.bindings[number] = term
        self.trail.append(number)

    def bind_checked(self, number, term):
        if self.occurs(number, term):
            raise Fails
        self.bind(number, term)

    def occurs(self, number, term):
        term = self.deref(term)
        if isinstance(term, Var):
            return term.number == number
        return isinstance(term, tuple) and any(self.occurs(number, argument) for argument in term[1:])

    def body(self, term, procedure):
        """The goal that a body stands for: a variable stands for a call of it."""
        found = self.converted(term)
        if found is None:
            raise error(("type_error", "callable", self.resolved(term)), procedure)
        return found

    def converted(self, term):
        term = self.deref(term)
        if isinstance(term, Var):
            return ("call", term)
        if isinstance(term, int):
            return None
        if isinstance(term, tuple) and len(term) == 3 and term[0] in (",", ";", "->"):
            left, right = self.converted(term[1]), self.converted(term[2])
            return None if left is None or right is None else (term[0], left, right)
        return term

    def called(self, term, procedure):
        term = self.deref(term)
        if isinstance(term, Var):
            raise error("instantiation_error", procedure)
        return self.body(term, procedure)

    # Goals

    def take_up(self, goal, height):
        name, arity = indicator(goal)
        control = CONTROL.get((name, arity))
        if control is not None:
            return control(self, goal, height)
        self.inference(goal)
        if name == "call" and 1 <= arity <= 8:
            return self.call(goal)
        predicate = PREDICATES.get((name, arity))
        if predicate is not None:
            return predicate(self, goal)
        if name in OTHERS:
            raise Unsupported("%s/%d" % (name, arity))
        return self.user_call(goal)

    def inference(self, goal):
        if self.inferences >= self.most:
            raise error(("resource_error", "inferences"), indicator(goal))
        self.inferences += 1

    def user_call(self, goal):
        reply = yield ("call", self.resolved(goal))
        yield from self.listed(reply, "resolving", goal, indicator(goal))

    def listed(self, reply, purpose, term, procedure):
        if reply[0] == "refused":
            raise error(reply[1], procedure)
        if not reply[1]:
            raise Fails
        yield from self.try_clause(purpose, term, reply[1], 0)

    def try_clause(self, purpose, term, clauses, at):
        height = len(self.choices)
        if at + 1 < len(clauses):
            self.open("clauses", self.pending, purpose, term, clauses, at + 1)
        clause = clauses[at]
        first = self.next
        self.next += clause.variables
        head, body = raised(clause.head, first), raised(clause.body, first)
        if purpose == "resolving":
            self.unify_all((term, head))
            self.before(("goal", body, height))
            return
        self.unify_all((term, (":-", head, body)))
        if purpose == "retracting":
            reply = yield ("erase", clause.place)
            if reply[0] == "gone":
                raise Fails

    def call(self, goal):
        first = self.deref(goal[1])
        procedure = indicator(goal)
        if isinstance(first, Var):
            raise error("instantiation_error", procedure)
        extended = first if len(goal) == 2 else ((first,) if isinstance(first, str) else first) + goal[2:]
        self.before(("goal", self.body(extended, procedure), len(self.choices)))
        return ()

    def value(self, term):
        term = self.deref(term)
        if isinstance(term, int):
            return term
        if isinstance(term, tuple) and len(term) == 3 and term[0] in ARITHMETIC:
            return ARITHMETIC[term[0]](self.value(term[1]), self.value(term[2]))
        raise Unsupported("value of %r" % (term,))

    def clause_parts(self, term, procedure):
        """Head, body and number of variables of the clause that a term gives."""
        term = self.deref(term)
        head, body = (term[1], term[2]) if isinstance(term, tuple) and term[0] == ":-" and len(term) == 3 else (term, "true")
        head = self.deref(head)
        if isinstance(head, (Var, int)):
            raise Unsupported("a clause without a head")
        numbers = {}
        _, head, body = copied(self.resolved((":-", head, self.body(body, procedure))), numbers, 0)
        return head, body, len(numbers)


def raised(term, first):
    """A stored term with its variables, which are numbered from 0, numbered from `first`."""
    if isinstance(term, Var):
        return Var(term.number + first)
    if isinstance(term, tuple):
        return (term[0],) + tuple([raised(argument, first) for argument in term[1:]])
    return term


# Control constructs that make no inference

def conjunction(search, goal, height):
    search.before(("goal", goal[1], height), ("goal", goal[2], height))
    return ()


def cut(search, goal, height):
    del search.choices[height:]
    return ()


def disjunction(search, goal, height):
    other = ("goal", goal[2], height, search.pending)
    at = search.open("branch", other)
    left = search.deref(goal[1])
    if isinstance(left, tuple) and left[0] == "->" and len(left) == 3:
        search.before(("goal", left[1], at + 1), ("commit", None, at), ("goal", left[2], height))
    else:
        search.before(("goal", left, height))
    return ()


def if_then(search, goal, height):
    at = search.open("barrier", None)
    search.before(("goal", goal[1], at + 1), ("commit", None, at), ("goal", goal[2], height))
    return ()


CONTROL = {
    ("true", 0): lambda search, goal, height: (),
    ("!", 0): cut,
    (",", 2): conjunction,
    (";", 2): disjunction,
    ("->", 2): if_then,
}


# Control constructs and built-in predicates that make one

def fails(search, goal):
    raise Fails


def negation(search, goal):
    body = search.called(goal[1], indicator(goal))
    at = search.open("branch", search.pending)
    search.before(("goal", body, at + 1), ("refute", None, at))
    return ()


def once(search, goal):
    body = search.called(goal[1], indicator(goal))
    at = search.open("barrier", None)
    search.before(("goal", body, at + 1), ("commit", None, at))
    return ()


def catches(search, goal):
    body = search.called(goal[1], indicator(goal))
    at = search.open("catch", search.pending, goal[2], goal[3])
    search.before(("goal", body, at + 1), ("leave", None, at))
    return ()


def throws(search, goal):
    if isinstance(search.deref(goal[1]), Var):
        raise error("instantiation_error", indicator(goal))
    raise Ball(search.resolved(goal[1]))


def finds_all(search, goal):
    body = search.called(goal[2], indicator(goal))
    at = search.open("findall", search.pending, goal[3], [])
    search.before(("goal", body, at + 1), ("collect", goal[1], at))
    return ()


def exits(search, goal):
    if search.stays is not None:
        raise error(("permission_error", "exit", "thread", search.stays), indicator(goal))
    raise Ends("exited", search.resolved(goal[1]))


def halts(search, goal):
    raise Ends("halted", search.deref(goal[1]) if isinstance(goal, tuple) else 0)


def unifies(search, goal):
    search.unify_all((goal[1], goal[2]))
    return ()


def is_same(search, goal):
    if written(search.resolved(goal[1])) != written(search.resolved(goal[2])):
        raise Fails
    return ()


def evaluates(search, goal):
    search.unify_all((goal[1], search.value(goal[2])))
    return ()


def compares(search, goal):
    if not COMPARISONS[goal[0]](search.value(goal[1]), search.value(goal[2])):
        raise Fails
    return ()


def joins(search, goal):
    left, right = search.resolved(goal[1]), search.resolved(goal[2])
    if not isinstance(left, str) or not isinstance(right, str) or len(left) + len(right) > 248:
        raise Unsupported("arguments of atom_concat")
    search.unify_all((goal[3], left + right))
    return ()


def writes(search, goal):
    yield ("look",)
    search.output.append(("text", written(search.resolved(goal[1]))))


def new_line(search, goal):
    search.output.append(("text", "\n"))
    return ()


# Predicates of the shared state

def answered(search, goal, request, *places):
    """Makes the request, and unifies the term of the reply, with new variables, with the argument at the place, where there is one."""
    reply = yield request
    if reply[0] == "refused":
        raise error(reply[1], indicator(goal))
    if reply[0] == "no_message":
        raise Fails
    for place in places:
        search.unify_all((goal[place], search.loaded(reply[1])))


def asserts(where):
    def asserted(search, goal):
        return answered(search, goal, ("add", where, "assert") + search.clause_parts(goal[1], indicator(goal)))
    return asserted


def retracts(search, goal):
    head, body, _ = search.clause_parts(goal[1], indicator(goal))
    term = search.deref(goal[1])
    if not (isinstance(term, tuple) and term[0] == ":-" and len(term) == 3):
        term = (":-", term, "true")
    reply = yield ("retract", search.resolved(term[1]))
    yield from search.listed(reply, "retracting", term, indicator(goal))


def clears(search, goal):
    head = search.resolved(goal[1])
    reply = yield ("clear", head)
    for clause in reply[1]:
        first = search.next
        search.next += clause.variables
        length = len(search.trail)
        try:
            search.unify_all((head, raised(clause.head, first)))
            fits = True
        except Fails:
            fits = False
        search.undo(length)
        if fits:
            yield ("erase", clause.place)


def inspects(search, goal):
    reply = yield ("inspect", search.resolved(goal[1]))
    yield from search.listed(reply, "inspecting", (":-", goal[1], goal[2]), indicator(goal))


def makes_dynamic(search, goal):
    procedures, rest = [], [search.resolved(goal[1])]
    while rest:
        term = rest.pop()
        if term[0] == ",":
            rest += [term[2], term[1]]
        else:
            procedures.append((term[1], term[2]))
    return answered(search, goal, ("dynamic", procedures))


def sets_flag(search, goal):
    if search.deref(goal[1]) != "unknown":
        raise Unsupported("a flag")
    return answered(search, goal, ("set_unknown", search.deref(goal[2])))


def bound(search, goal, place):
    term = search.resolved(goal[place])
    if isinstance(term, Var):
        raise error("instantiation_error", indicator(goal))
    return term


def creates(search, goal):
    started, name = bound(search, goal, 1), search.resolved(goal[2])
    if isinstance(started, int):
        raise error(("type_error", "callable", started), indicator(goal))
    if not isinstance(name, Var):
        raise error(("uninstantiation_error", name), indicator(goal))
    options = search.resolved(goal[3]) if len(goal) == 4 else NIL
    alias = None
    if options != NIL:
        if options[2] != NIL or options[1][0] != "alias":
            raise Unsupported("options of thread_create")
        alias = options[1][1]
    return answered(search, goal, ("create", started, alias), 2)


def fitting(search, term):
    """The test whether a message unifies with the term."""
    term = copied(search.resolved(term), {}, 0)

    def fits(message):
        other = Search("true", 0, 0, None)
        numbers = {}
        copied(term, numbers, 0)
        try:
            other.unify_all((term, raised(message, len(numbers))))
            return True
        except Fails:
            return False
    return fits


def receives(kind, place):
    def received(search, goal):
        name = bound(search, goal, 1) if place == 2 else None
        return answered(search, goal, (kind, name, fitting(search, goal[place])), place)
    return received


def makes_queue(search, goal):
    alias = search.resolved(goal[1])
    if isinstance(alias, (int, tuple)):
        raise error(("type_error", "atom", alias), indicator(goal))
    return answered(search, goal, ("make_queue", None if isinstance(alias, Var) else alias), 1)


PREDICATES = {
    ("fail", 0): fails, ("false", 0): fails, ("\\+", 1): negation, ("once", 1): once, ("catch", 3): catches, ("throw", 1): throws,
    ("findall", 3): finds_all, ("thread_exit", 1): exits, ("halt", 0): halts, ("halt", 1): halts, ("=", 2): unifies, ("==", 2): is_same,
    ("is", 2): evaluates, ("atom_concat", 3): joins, ("write", 1): writes, ("writeq", 1): writes, ("nl", 0): new_line,
    ("asserta", 1): asserts("first"), ("assertz", 1): asserts("last"), ("assert", 1): asserts("last"), ("retract", 1): retracts,
    ("retractall", 1): clears, ("clause", 2): inspects, ("dynamic", 1): makes_dynamic, ("set_prolog_flag", 2): sets_flag,
    ("garbage_collect_atoms", 0): lambda search, goal: answered(search, goal, ("collect",)),
    ("thread_self", 1): lambda search, goal: answered(search, goal, ("name",), 1),
    ("thread_create", 2): creates, ("thread_create", 3): creates,
    ("thread_join", 2): lambda search, goal: answered(search, goal, ("join", bound(search, goal, 1)), 2),
    ("thread_send_message", 2):
        lambda search, goal: answered(search, goal, ("send", bound(search, goal, 1), search.resolved(goal[2]))),
    ("thread_get_message", 1): receives("get", 1), ("thread_get_message", 2): receives("get", 2),
    ("thread_peek_message", 1): receives("peek", 1), ("thread_peek_message", 2): receives("peek", 2),
    ("message_queue_create", 1): makes_queue,
    ("message_queue_destroy", 1): lambda search, goal: answered(search, goal, ("drop_queue", bound(search, goal, 1))),
}
PREDICATES.update({(name, 2): compares for name in COMPARISONS})
