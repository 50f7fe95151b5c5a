"""The grammar of query texts, read plainly from its description: what a text asks, or the place of its fault."""

import re

NAME = re.compile(rb"[a-z0-9_]+")
BARE = re.compile(rb'[^ ()\[\]"*\\]+')
QUOTED = re.compile(rb'"((?:[^"\\]|\\["\\])*)"', re.DOTALL)
WORD = re.compile(rb"[A-Za-z0-9\x80-\xff]+")
CONTROL = re.compile(r"[\x00-\x1f\x7f]")  # what no keyword may have
INTEGER = re.compile(rb"-?[0-9]+\Z")


class Fault(Exception):
    """The text is no query; `place` is in bytes from 0."""

    def __init__(self, place):
        super().__init__(place)
        self.place = place


def words(text):
    """The words of a text, lowered, as bytes."""
    return {word.lower() for word in WORD.findall(text)}


def parse(schema, text):
    """A list of (sign, primary), sign being one of "+", "-" and "". A primary is ("all",), ("group", list),
    ("is", field, text), ("begins", field, text) or ("between", field, low, high).
    """
    return _Parser(schema, text).series(0)


class _Parser:
    def __init__(self, schema, text):
        self.schema = schema
        self.text = text
        self.at = 0
        self.count = 0

    def byte(self):
        return self.text[self.at : self.at + 1]

    def series(self, depth):
        clauses = []
        while True:
            while self.byte() == b" ":
                self.at += 1
            if not self.byte():
                if depth or not clauses:
                    raise Fault(len(self.text))
                return clauses
            if self.byte() == b")":
                if not depth or not clauses:
                    raise Fault(self.at)
                return clauses
            clauses.append(self.clause(depth))
            if self.byte() not in (b"", b" ", b")"):
                raise Fault(self.at)

    def clause(self, depth):
        self.count += 1
        if self.count > 64:
            raise Fault(self.at)
        sign = ""
        if self.byte() in (b"+", b"-"):
            sign = self.byte().decode()
            self.at += 1
            if not self.byte():
                raise Fault(len(self.text))
        return sign, self.primary(depth)

    def primary(self, depth):
        if self.byte() == b"(":
            if depth == 8:
                raise Fault(self.at)
            self.at += 1
            inner = self.series(depth + 1)
            self.at += 1
            return "group", inner
        if self.byte() == b"*":
            if not self.text.startswith(b"*:*", self.at):
                raise Fault(self.at)
            self.at += 3
            return ("all",)
        name = NAME.match(self.text, self.at)
        if not name or name.group().decode() not in self.schema or self.text[name.end() : name.end() + 1] != b":":
            raise Fault(self.at)
        self.at = start = name.end() + 1
        field = name.group().decode()
        asked = self.value(start)
        if not _fits(self.schema[field], asked):
            raise Fault(start)
        return (asked[0], field, *asked[1:])

    def value(self, start):
        if self.byte() == b'"':
            return "is", self.quoted(start)
        if self.byte() == b"[":
            self.at += 1
            low = self.end(start)
            if not self.text.startswith(b" TO ", self.at):
                raise Fault(start)
            self.at += 4
            high = self.end(start)
            if self.byte() != b"]":
                raise Fault(start)
            self.at += 1
            return "between", low, high
        bare = self.bare(start)
        if self.byte() == b"*":
            self.at += 1
            return "begins", bare
        return "is", bare

    def end(self, start):
        if self.byte() == b"*":
            self.at += 1
            return None
        return self.quoted(start) if self.byte() == b'"' else self.bare(start)

    def quoted(self, start):
        found = QUOTED.match(self.text, self.at)
        if not found:
            raise Fault(start)
        self.at = found.end()
        return re.sub(rb'\\(["\\])', rb"\1", found.group(1))

    def bare(self, start):
        found = BARE.match(self.text, self.at)
        if not found:
            raise Fault(start)
        self.at = found.end()
        return found.group()


def _fits(kind, asked):
    what, *texts = asked
    if kind == "text":
        return {"is": lambda: len(WORD.findall(texts[0])) == 1, "begins": lambda: WORD.fullmatch(texts[0])}.get(
            what, lambda: False
        )()
    if kind == "number":
        return what != "begins" and all(text is None or _is_integer(text) for text in texts)
    return kind == "keyword" or what != "between"


def _is_integer(text):
    return bool(INTEGER.match(text)) and -(2**63) <= int(text) < 2**63


def matches(schema, clauses, item):
    """Whether an item of JSON values matches."""
    found = [(sign, _accepts(schema, primary, item)) for sign, primary in clauses]
    if any(sign == "-" and hit for sign, hit in found):
        return False
    musts = [hit for sign, hit in found if sign == "+"]
    return all(musts) if musts else any(hit for sign, hit in found if not sign)


def _accepts(schema, primary, item):
    if primary[0] == "all":
        return True
    if primary[0] == "group":
        return matches(schema, primary[1], item)
    what, field, *asked = primary
    value = item.get(field)
    if value is None:
        return False
    kind = schema[field]
    if kind == "text":
        return _any(what, {asked[0].lower()}, words(value.encode()))
    if kind == "facet":
        return _any(what, {asked[0]}, {label.encode() for label in value})
    read = int if kind == "number" else bytes
    own = value if kind == "number" else value.encode()
    if what == "between":
        low, high = asked
        return (low is None or read(low) <= own) and (high is None or own <= read(high))
    return own == read(asked[0]) if what == "is" else own.startswith(asked[0])


def _any(what, asked, texts):
    (text,) = asked
    return text in texts if what == "is" else any(each.startswith(text) for each in texts)
