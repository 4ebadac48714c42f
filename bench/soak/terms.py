"""Terms, and those texts of Prolog that the programs of the soak have, read and written (ISO 6.3, 7.10.5).

An integer is a Python int, an atom a str, a variable a Var with its number, and a compound term a tuple of its name and arguments."""

import re


class Unsupported(Exception):
    """The judge does not know this part of the language; such a program is no program of the soak."""


class Var:
    __slots__ = ("number",)

    def __init__(self, number):
        self.number = number

    def __repr__(self):
        return "_%d" % self.number


NIL = "[]"
TOKEN = re.compile(r"""
    (?P<space>\s+|%[^\n]*)
  | (?P<name>[a-z][A-Za-z0-9_]*)
  | (?P<var>[A-Z_][A-Za-z0-9_]*)
  | (?P<int>[0-9]+)
  | '(?P<quoted>[^'\\\n]*)'
  | (?P<end>\.(?=\s|\Z|%))
  | (?P<solo>[!;,|()\[\]])
  | (?P<symbol>[-+*/\\^<>=~:.?@\#&$]+)
""", re.VERBOSE)
INFIX = {
    ":-": (1200, 1199, 1199), ";": (1100, 1099, 1100), "->": (1050, 1049, 1050), ",": (1000, 999, 1000),
    "=": (700, 699, 699), "\\=": (700, 699, 699), "==": (700, 699, 699), "\\==": (700, 699, 699), "is": (700, 699, 699),
    "<": (700, 699, 699), ">": (700, 699, 699), "=<": (700, 699, 699), ">=": (700, 699, 699), "=:=": (700, 699, 699),
    "=\\=": (700, 699, 699), "+": (500, 500, 499), "-": (500, 500, 499), "*": (400, 400, 399), "/": (400, 400, 399),
    "//": (400, 400, 399), "mod": (400, 400, 399),
}
PREFIX = {":-": (1200, 1199), "\\+": (900, 900), "-": (200, 200)}


class Reader:
    """Reads the terms of a text, one after the other."""

    def __init__(self, text):
        self.text = text
        self.tokens = []
        at = 0
        while at < len(text):
            found = TOKEN.match(text, at)
            if found is None:
                raise Unsupported("text at %d: %r" % (at, text[at:at + 20]))
            if found.lastgroup != "space":
                self.tokens.append((found.lastgroup, found.group(found.lastgroup), found.start(), found.end()))
            at = found.end()
        self.next = 0
        self.names = {}

    def token(self):
        return self.tokens[self.next] if self.next < len(self.tokens) else ("eof", "", len(self.text), len(self.text))

    def take(self, kind, value=None):
        token = self.token()
        if token[0] != kind or (value is not None and token[1] != value):
            raise Unsupported("%s %s at %d, and not %s" % (kind, value, token[2], token[1]))
        self.next += 1
        return token

    def items(self):
        """The terms with the places of their first tokens and the names of their variables."""
        while self.token()[0] != "eof":
            self.names = {}
            place = self.token()[2]
            term = self.term(1200)
            self.take("end")
            yield place, term, dict(self.names)

    def term(self, highest):
        left, priority = self.primary(highest)
        return self.after(left, priority, highest)

    def after(self, left, priority, highest):
        while True:
            kind, value, _, _ = self.token()
            operator = INFIX.get(value) if kind in ("name", "symbol", "solo") else None
            if operator is None or operator[0] > highest or priority > operator[1]:
                return left
            self.next += 1
            left, priority = (value, left, self.term(operator[2])), operator[0]

    def primary(self, highest):
        kind, value, _, end = self.token()
        self.next += 1
        if kind == "int":
            return int(value), 0
        if kind == "var":
            return self.variable(value), 0
        if kind == "solo" and value == "(":
            inner = self.term(1200)
            self.take("solo", ")")
            return inner, 0
        if kind == "solo" and value == "[":
            return self.list(), 0
        if kind in ("name", "quoted", "symbol") or value in ("!", ";"):
            return self.named(kind, value, end, highest)
        raise Unsupported("term %r" % value)

    def named(self, kind, value, end, highest):
        following = self.token()
        if following[:2] == ("solo", "(") and following[2] == end:
            self.next += 1
            return (value,) + tuple(self.arguments(")")), 0
        if kind == "symbol" and value == "-" and following[0] == "int" and following[2] == end:
            self.next += 1
            return -int(following[1]), 0
        if kind != "quoted" and value in PREFIX and following[1] not in (",", ")", "|", "]"):
            priority, argument = PREFIX[value]
            if priority <= highest:
                return (value, self.term(argument)), priority
        return value, 0

    def arguments(self, closing):
        found = [self.term(999)]
        while self.token()[:2] == ("solo", ","):
            self.next += 1
            found.append(self.term(999))
        self.take("solo", closing)
        return found

    def list(self):
        if self.token()[:2] == ("solo", "]"):
            self.next += 1
            return NIL
        elements, tail = [self.term(999)], NIL
        while self.token()[:2] == ("solo", ","):
            self.next += 1
            elements.append(self.term(999))
        if self.token()[:2] == ("solo", "|"):
            self.next += 1
            tail = self.term(999)
        self.take("solo", "]")
        return list_of(elements, tail)

    def variable(self, name):
        if name == "_":
            number = len(self.names)
            self.names["_ %d" % number] = number
            return Var(number)
        return Var(self.names.setdefault(name, len(self.names)))


def list_of(elements, tail=NIL):
    for element in reversed(elements):
        tail = (".", element, tail)
    return tail


def copied(term, numbers, first):
    """A copy whose variables are numbered from `first` on, in order of first occurrence."""
    if isinstance(term, Var):
        return Var(numbers.setdefault(term.number, first + len(numbers)))
    if isinstance(term, tuple):
        return (term[0],) + tuple([copied(argument, numbers, first) for argument in term[1:]])
    return term


SYMBOLS = set("-+*/\\^<>=~:.?@#&$")


def written(term, highest=1200):
    """The text of a term, as write/1 and writeq/1 write those that need no quotes."""
    if isinstance(term, Var):
        return "_%d" % term.number
    if isinstance(term, int):
        return str(term)
    if isinstance(term, str):
        if not re.fullmatch(r"[a-z][A-Za-z0-9_]*|\[\]", term):
            raise Unsupported("atom %r" % term)
        return term
    if term[0] == "." and len(term) == 3:
        return written_list(term)
    if len(term) == 3 and term[0] in ("-", "+", "*", "/"):
        return written_infix(term, highest)
    return written(term[0]) + "(" + ",".join([written(argument, 999) for argument in term[1:]]) + ")"


def written_infix(term, highest):
    priority, left, right = INFIX[term[0]]
    before, after = written(term[1], left), written(term[2], right)
    text = before + (" " if before[-1] in SYMBOLS else "") + term[0] + (" " if after[0] in SYMBOLS else "") + after
    return "(" + text + ")" if priority > highest else text


def written_list(term):
    elements = []
    while isinstance(term, tuple) and term[0] == "." and len(term) == 3:
        elements.append(written(term[1], 999))
        term = term[2]
    return "[" + ",".join(elements) + ("" if term == NIL else "|" + written(term, 999)) + "]"
