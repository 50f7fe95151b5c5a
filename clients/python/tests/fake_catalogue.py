"""A plain stand-in for the program: the whole line protocol over lists in memory, merges and files only as far as replies go.

With the arguments `run [--threads N] [FOLDER]` a commit is kept there: a file with the head of a commit's, and beside it one in JSON that
no other program reads. With the argument `swift` every line behind the first is answered as an accepted PUT, without
being read: for speed.
"""

import json
import os
import re
import sys
from collections import Counter

import query_grammar

ID = re.compile(rb"[!-~]{1,64}\Z")
NUMBER = re.compile(r"(0|[1-9][0-9]*)\Z")
KINDS = ("text", "keyword", "number", "facet")
FILE_KINDS = {"text": 1, "keyword": 2, "number": 3, "facet": 4}


class No(Exception):
    """A refusal, by its number and what follows."""


def number(text):
    if not NUMBER.match(text) or int(text) >= 2**63:
        raise No(10)
    return int(text)


def read_schema(line):
    words = line.split(" ", 3)
    if len(words) < 4 or words[0] != "SCHEMA" or not 2 <= number(words[1]) <= 100:
        raise No(10)
    if not 1 <= number(words[2]) <= 100_000:
        raise No(10)
    fields = read_json(words[3])
    named = isinstance(fields, dict) and all(re.match(r"[a-z][a-z0-9_]{0,31}\Z", name) for name in fields)
    if not named or len(fields) > 32 or "id" in fields or not all(kind in KINDS for kind in fields.values()):
        raise No(13)
    return fields


def read_json(text):
    def refuse(_):
        raise ValueError("no JSON")

    try:
        return json.loads(text, parse_constant=refuse)
    except ValueError:
        raise No(11) from None


def check_value(kind, value):
    if value is None:
        return
    if kind == "number":
        if type(value) is not int or not -(2**63) <= value < 2**63:
            raise No(13)
    elif kind == "facet":
        if not isinstance(value, list):
            raise No(13)
        if len(value) > 64:
            raise No(15)
        for label in value:
            check_value("keyword", label)
            if not label:
                raise No(13)
    elif not isinstance(value, str):
        raise No(13)
    elif kind == "keyword":
        if len(value.encode()) > 128:
            raise No(15)
        if query_grammar.CONTROL.search(value):
            raise No(13)


class Folder:
    """Where commits are kept; without a path they aren't."""

    def __init__(self, path=None):
        if path is not None and not os.path.isdir(path):
            raise No(30)
        self.path = path

    def file(self, name, mode):
        return open(os.path.join(self.path, name), mode)

    def newest(self):
        """The number of the newest commit and what it holds, or 0 and None."""
        names = [name for name in os.listdir(self.path or ".") if name.startswith("segments_")] if self.path else []
        newest = max((int(name.partition("_")[2]) for name in names), default=0)
        if not newest:
            return 0, None
        with self.file(f"fake_{newest}.json", "r") as file:
            return newest, json.load(file)

    def keep(self, generation, text, fake):
        if self.path is None:
            return
        if not os.path.isdir(self.path):
            raise No(30)
        with self.file(f"fake_{generation}.json", "w") as file:
            json.dump([fake.fields, fake.writes, list(fake.table.items()), text], file)
        spelled = [b"CSGM\2", generation.to_bytes(8, "big"), fake.writes.to_bytes(8, "big"), (1).to_bytes(8, "big")]
        spelled += [len(text.encode()).to_bytes(4, "big"), text.encode(), len(fake.fields).to_bytes(4, "big")]
        for name, kind in sorted(fake.fields.items()):
            spelled += [len(name).to_bytes(4, "big"), name.encode(), bytes([FILE_KINDS[kind]])]
        with self.file(f"segments_{generation}", "wb") as file:
            file.write(b"".join([*spelled, bytes(4)]))

    def drop(self, generation):
        if self.path is not None:
            os.remove(os.path.join(self.path, f"segments_{generation}"))


class Fake:
    def __init__(self, fields, folder=None):
        self.fields = fields
        self.folder = Folder(folder)
        self.table = {}  # id: (number, item, source), in the order of addition
        self.writes = 0
        self.records = {0: []}
        self.holds = set()
        self.commits = {}
        self.snapshots = Counter()
        self.merging = []  # what the next MERGE lines answer
        self.asked = []  # the newest 16 queries that were answered
        self.warming = None
        self.warmed = []
        generation, kept = self.folder.newest()
        if kept:
            if kept[0] != fields:
                raise No(13)
            self.writes = kept[1]
            self.table = {name: tuple(record) for name, record in kept[2]}
            self.commits = {generation: kept[3]}
            self.records = {self.writes: list(self.table.values())}

    def answer(self, session, line):
        command, *_ = line.split(" ", 1)
        arguments = {"PUT": 1, "DEL": 1, "DELW": 1, "FIND": 5, "FACETS": 4, "GET": 2, "FILES": 2, "CLOSE": 1}
        arguments.update({"NOTE": 1, "UNSNAP": 1, "PRUNE": 1, "OPEN": line.count(" "), "COMMIT": min(1, line.count(" "))})
        rest = line.split(" ", arguments.get(command, 0))[1:]
        method = getattr(self, "do_" + command.lower(), None)
        upkeep = command in ("MERGE", "FORCE", "WARM", "SWEEP", "STAT")
        if not command.isupper() or method is None or len(rest) != arguments.get(command, 0) or (upkeep and session):
            raise No(10)
        if not arguments.get(command, 0) and " " in line:
            raise No(10)
        return method(session, *rest)

    def parse(self, text):
        try:
            return query_grammar.parse(self.fields, text.encode())
        except query_grammar.Fault as fault:
            raise No(24, fault.place) from None

    def held(self, session, token):
        if (session, token) not in self.holds:
            raise No(20)
        return self.records[token]

    def matching(self, clauses, records):
        return [record for record in records if query_grammar.matches(self.fields, clauses, record[1])]

    def write(self):
        self.writes += 1
        return [self.writes]

    def do_put(self, _, text):
        if len(text.encode()) > 8192:
            raise No(15)
        item = read_json(text)
        if not isinstance(item, dict):
            raise No(13)
        name = item.pop("id", None)
        if not isinstance(name, str) or not ID.match(name.encode()):
            raise No(14)
        for field in sorted(item, key=str.encode):
            if field not in self.fields:
                raise No(12)
            check_value(self.fields[field], item[field])
        self.table.pop(name, None)
        self.table[name] = (self.writes + 1, {**item, "id": name}, text)
        return self.write()

    def do_del(self, _, name):
        if not ID.match(name.encode()):
            raise No(14)
        self.table.pop(name, None)
        return self.write()

    def do_delw(self, _, query):
        for record in self.matching(self.parse(query), list(self.table.values())):
            del self.table[record[1]["id"]]
        return self.write()

    def do_refresh(self, _):
        if self.writes not in self.records:
            if len(self.records) == 64:
                free = [token for token in self.records if not any(held == token for _, held in self.holds)]
                if not free:
                    raise No(22)
                del self.records[min(free)]
            self.records[self.writes] = list(self.table.values())
        return [self.writes]

    def do_open(self, session, *token):
        if len(token) > 1:
            raise No(10)
        opened = number(token[0]) if token else max(self.records)
        if opened not in self.records:
            raise No(21)
        self.holds.add((session, opened))
        return [opened]

    def do_close(self, session, token):
        self.held(session, number(token))
        self.holds.discard((session, int(token)))
        return [int(token)]

    def do_find(self, session, token, count, sort, after, query):
        token, count = number(token), number(count)
        mark = None if after == "." else number(after)
        if sort != "." and not re.match(r"[+-][a-z][a-z0-9_]*\Z", sort):
            raise No(10)
        clauses = self.parse(query)
        records = self.held(session, token)
        if count > 1000:
            raise No(25)
        field = sort[1:]
        if sort != "." and self.fields.get(field) not in ("number", "keyword"):
            raise No(28)
        ordered = self.sorted(records, sort)
        numbers = [record[0] for record in ordered]
        if mark is not None and mark not in numbers:
            raise No(23)
        hits = self.matching(clauses, ordered)
        behind = set(numbers if mark is None else numbers[numbers.index(mark) + 1 :])
        shown = [record for record in hits if record[0] in behind][:count]
        keys = [record[1].get(field) if field else None for record in shown]
        spelled = ["." if key is None else f"={key}" if isinstance(key, str) else key for key in keys]
        self.note(clauses)
        return [f"{len(shown)} {len(hits)}", *(f"{r[0]} {r[1]['id']} {key}" for r, key in zip(shown, spelled))]

    def sorted(self, records, sort):
        def key(record):
            value = record[1].get(sort[1:])
            return value.encode() if isinstance(value, str) else value

        if sort == ".":
            return list(records)
        some = [record for record in records if key(record) is not None]
        return sorted(some, key=key, reverse=sort[0] == "-") + [record for record in records if key(record) is None]

    def do_facets(self, session, token, field, count, query):
        token, count = number(token), number(count)
        clauses = self.parse(query)
        hits = self.matching(clauses, self.held(session, token))
        if self.fields.get(field) != "facet":
            raise No(29)
        if count > 1000:
            raise No(25)
        labels = [set(record[1].get(field) or ()) for record in hits]
        counts = Counter(label for some in labels for label in some)
        ordered = sorted(counts.items(), key=lambda pair: (-pair[1], pair[0].encode()))
        self.note(clauses)
        return [f"{sum(map(bool, labels))} {len(counts)}", *(f"{n} {label}" for label, n in ordered[:count])]

    def do_get(self, session, token, name):
        if not ID.match(name.encode()):
            raise No(14)
        records = self.held(session, number(token))
        return [next((record[2] for record in records if record[1]["id"] == name), ".")]

    def do_files(self, session, what, which):
        if what == "t":
            names = ["_1.seg", "_1.sto"] if self.held(session, number(which)) else []
        elif number(which) in self.commits:
            names = [f"fake_{which}.json", f"segments_{which}"]
        else:
            raise No(26)
        return [len(names), *names]

    def do_commit(self, _, text=""):
        if len(text.encode()) > 256:
            raise No(15)
        if query_grammar.CONTROL.search(text):
            raise No(13)
        generation = max(self.commits, default=0) + 1
        kept = {g: note for g, note in self.commits.items() if self.snapshots[g]}
        self.folder.keep(generation, text, self)
        for gone in self.commits.keys() - kept.keys():
            self.folder.drop(gone)
        self.commits = {**kept, generation: text}
        return [generation]

    def do_note(self, _, generation):
        if number(generation) not in self.commits:
            raise No(26)
        return ["=" + self.commits[int(generation)]]

    def do_snap(self, _):
        if not self.commits:
            raise No(26)
        if self.snapshots[max(self.commits)] == 65_535:
            raise No(16)
        self.snapshots[max(self.commits)] += 1
        return [max(self.commits)]

    def do_unsnap(self, _, generation):
        if not self.snapshots[number(generation)]:
            raise No(27)
        self.snapshots[int(generation)] -= 1
        return [self.snapshots[int(generation)]]

    def do_prune(self, _, keep):
        newest = sorted(self.records)[-max(1, number(keep)) :]
        held = {token for _, token in self.holds}
        gone = [token for token in self.records if token not in newest and token not in held]
        for token in gone:
            del self.records[token]
        return [len(gone)]

    def do_merge(self, _):
        return [self.merging.pop(0) if self.merging else "idle"]

    def do_force(self, _):
        if self.merging:
            return ["busy"]
        if not self.table:
            return ["idle"]
        self.merging = [f"copied {len(self.table)}", "done"]
        return ["begun 1"]

    def note(self, clauses):
        if clauses not in self.asked:
            self.asked = [*self.asked, clauses][-16:]

    def do_warm(self, _):
        if self.warming is not None:
            self.warmed.append(self.warming)
            self.warming = None
            return ["stored"]
        missing = [clauses for clauses in self.asked if clauses not in self.warmed]
        if not self.table or not missing:
            return ["idle"]
        self.warming = missing[0]
        return ["begun"]

    def do_sweep(self, _):
        return [0]

    def do_stat(self, _):
        rows = len(self.table)
        segments = [f"1 {rows} {rows}"] if rows else []
        return [f"{self.writes} 0 {len(segments)} {len(self.records)} {len(self.warmed)} 0", *segments]


def reply(fake, line):
    try:
        text = line.decode()
        session = text.split(" ", 1)[0]
        if len(line) > 10_000 or number(session) > 9_999:
            return b"? NO 10\n"
    except (UnicodeDecodeError, No):
        return b"? NO 10\n"
    try:
        first, *more = fake.answer(int(session), text[len(session) + 1 :])
    except No as no:
        return f"{session} NO {' '.join(map(str, no.args))}\n".encode()
    return "".join([f"{session} OK {first}\n", *(f"{session} {each}\n" for each in more)]).encode()


def answer_swiftly():
    count = 0
    while True:
        data = os.read(0, 1 << 20)
        if not data:
            return
        lines = data.count(b"\n")
        os.write(1, b"".join(b"1 OK %d\n" % n for n in range(count + 1, count + lines + 1)))
        count += lines


def folder_of(words):
    """The folder of `run [--threads N] [FOLDER]`; None where there is none."""
    left = words[words.index("run") + 1 :] if "run" in words else []
    left = left[2:] if left[:1] == ["--threads"] else left
    return left[0] if left else None


def main():
    source = sys.stdin.buffer if "swift" not in sys.argv else open(0, "rb", buffering=0, closefd=False)
    out = sys.stdout.buffer
    try:
        folder = folder_of(sys.argv)
        fake = Fake(read_schema(source.readline().decode().rstrip("\n")), folder)
    except No as no:
        out.write(b"NO %d\n" % no.args[0])
        out.flush()
        sys.stderr.write("schema refused\n")
        return 2
    out.write(b"OK %d\n" % fake.writes)
    out.flush()
    if "swift" in sys.argv:
        answer_swiftly()
        return 0
    for line in source:
        line = line[:-1] if line.endswith(b"\n") else line
        out.write(reply(fake, line[:-1] if line.endswith(b"\r") else line))
        out.flush()
    return 0


if __name__ == "__main__":
    sys.exit(main())
