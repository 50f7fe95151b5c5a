"""Eight threads at once: whatever came between, each reply is that of a plain model after just the writes of its token."""

import itertools
import json
import random
import sys
import tempfile
import threading
import unittest

import fake_catalogue
import support  # before the package: it finds it
from test_query import FAULTS

import jasminedome
from jasminedome import Refusal, all_of, any_of, between, none_of, prefix, term, words
from jasminedome.awaiting import InOrder
from jasminedome.replies import Awaited

THREADS = 8
OPERATIONS = 10_000
IDS = [f"item-{n}" for n in range(60)]
BRANDS = ["Acme", "Zed", "", "Æther", 'a "quoted" one', "*:*"]
COLORS = ["red", "green", "blue", "no color", "+red"]
WORDS = ["shoe", "boot", "Red", "wool", "42", "Éclair"]


def any_item(chance):
    item = {"id": chance.choice(IDS), "price": chance.randrange(-5, 30), "brand": chance.choice(BRANDS)}
    item["color"] = chance.sample(COLORS, chance.randrange(3))
    item["title"] = " ".join(chance.choices(WORDS, k=3))
    for name in chance.sample(["price", "brand", "color", "title"], chance.randrange(2)):
        del item[name]
    return item


def any_query(chance, depth=2):
    if depth and chance.random() < 0.4:
        join = chance.choice([all_of, any_of, none_of])
        return join(*(any_query(chance, depth - 1) for _ in range(chance.randrange(4))))
    low = chance.randrange(-6, 30)
    return chance.choice(
        [
            jasminedome.EVERYTHING,
            term("brand", chance.choice(BRANDS)),
            term("color", chance.choice(COLORS)),
            prefix("title", chance.choice("srwé4")),
            words("title", " ".join(chance.choices(WORDS, k=2))),
            between("price", low, low + chance.randrange(20)),
            between("price", chance.choice([None, low]), None),
            between("brand", None, chance.choice(BRANDS)),
        ]
    )


class Told:
    """What the threads were told: each write by its number, and each read with its reply as the program spells it."""

    def __init__(self):
        self.writes = {}
        self.reads = []
        self.faults = []
        self.kinds = set()

    def wrote(self, number, *line):
        if number in self.writes:
            raise AssertionError(f"two writes have the number {number}")
        self.writes[number] = line


class Worker:
    """One thread's operations, drawn by chance."""

    def __init__(self, shop, told, seed):
        self.shop = shop
        self.told = told
        self.chance = random.Random(seed)
        self.views = []
        self.newest = 0
        self.operations = {
            self.put: 24,
            self.put_refused: 2,
            self.put_many: 3,
            self.delete: 8,
            self.delete_where: 2,
            self.refresh_and_open: 10,
            self.close: 6,
            self.find: 25,
            self.facets: 10,
            self.get: 10,
            self.tidy_up: 1,
            self.commit: 1,
        }

    def run(self, count):
        try:
            for operation in self.chance.choices(list(self.operations), list(self.operations.values()), k=count):
                operation()
                self.told.kinds.add(operation.__name__)
        except BaseException as error:
            self.told.faults.append(repr(error))
            raise

    def wrote(self, number, *line):
        if number <= self.newest:
            raise AssertionError(f"write {number} came after {self.newest}")
        self.newest = number
        self.told.wrote(number, *line)

    def put(self):
        text = json.dumps(any_item(self.chance), ensure_ascii=False)
        self.wrote(self.shop.put(text), "put", text)

    def put_refused(self):
        try:
            self.shop.put({"id": self.chance.choice(IDS), "price": 1.5})
        except jasminedome.WrongKind:
            return
        raise AssertionError("a price that is no integer was put")

    def put_many(self):
        texts = [json.dumps(any_item(self.chance)) for _ in range(self.chance.randrange(1, 30))]
        wrong = self.chance.randrange(len(texts))
        told = self.shop.put_many([*texts[:wrong], '{"id":""}', *texts[wrong:]])
        if [(each.index, type(each.error)) for each in told.refused] != [(wrong, jasminedome.BadId)]:
            raise AssertionError(told.refused)
        # A batch goes out in one piece, so nothing of another thread comes between.
        for number, text in enumerate(texts, told.last - len(texts) + 1):
            self.wrote(number, "put", text)

    def delete(self):
        id = self.chance.choice(IDS)
        self.wrote(self.shop.delete(id), "del", id)

    def delete_where(self):
        query = all_of(term("color", self.chance.choice(COLORS)), any_query(self.chance))
        self.wrote(self.shop.delete_where(query), "delw", str(query))

    def refresh_and_open(self):
        recorded = self.shop.refresh()
        view = self.shop.open()
        if not self.newest <= recorded <= view.token:
            raise AssertionError(f"{self.newest} were written, {recorded} recorded, and {view.token} was opened")
        self.views.append(view)
        if len(self.views) > 5:
            del self.views[self.chance.randrange(5)]  # forgotten, so closed by the package

    def close(self):
        if self.views:
            self.views.pop(self.chance.randrange(len(self.views))).close()

    def find(self):
        self.read(self.drawn_find)

    def drawn_find(self, view):
        query = self.chance.choice(FAULTS)[0] if self.chance.random() < 0.05 else any_query(self.chance)
        sort = self.chance.choice([None, "+price", "-price", "+brand", "-brand", "+price", "-brand", "+title"])
        marks = [hit.number for hit in view.find(count=1_000).hits]
        after = self.chance.choice([None, *marks, 10**9])
        count = self.chance.choice([0, 1, 7, 1_000, 1_001])
        arguments = [view.token, count, sort or ".", "." if after is None else after, query]

        def ask():
            page = view.find(query, sort, after, count)
            keys = ["." if hit.key is None else f"={hit.key}" if isinstance(hit.key, str) else hit.key for hit in page.hits]
            return [f"{len(page.hits)} {page.total}", *(f"{hit.number} {hit.id} {key}" for hit, key in zip(page.hits, keys))]

        return "find", arguments, ask

    def facets(self):
        self.read(self.drawn_facets)

    def drawn_facets(self, view):
        field = self.chance.choice(["color", "color", "color", "brand"])
        count, query = self.chance.choice([0, 1, 1_000]), any_query(self.chance)

        def ask():
            told = view.facets(field, query, count)
            return [f"{told.matching} {told.labels}", *(f"{each.count} {each.label}" for each in told.counts)]

        return "facets", [view.token, field, count, query], ask

    def get(self):
        self.read(self.drawn_get)

    def drawn_get(self, view):
        id = self.chance.choice(IDS)
        return "get", [view.token, id], lambda: [view.source(id) or "."]

    def read(self, draw):
        if not self.views:
            return self.refresh_and_open()
        view = self.chance.choice(self.views)
        what, arguments, ask = draw(view)
        try:
            reply = ask()
        except Refusal as refusal:
            reply = (refusal.number, refusal.place)
        self.told.reads.append((view.token, what, [str(each) for each in arguments], reply))

    def tidy_up(self):
        self.chance.choice([self.shop.merge, self.shop.force, self.shop.warm, self.shop.sweep, self.shop.stat])()

    def commit(self):
        self.shop.commit("spring")
        with self.shop.snapshot() as kept:
            self.shop.note(kept.generation)


class Turns(unittest.TestCase):
    def test_the_last_reply_is_taken_at_any_step(self):
        for step in itertools.count():
            is_last, is_taken = self.asked_while_taken(step)
            self.assertFalse(is_last)
            if not is_taken:
                break
        self.assertGreater(step, 5, "the question has more steps than that")

    def asked_while_taken(self, step):
        """What is told of another reply while the one that waits is taken before the step; and whether there is such a step."""
        order, waiting = InOrder(), Awaited(1, None)
        order.add(waiting)
        left = step

        def trace(frame, event, _):
            nonlocal left
            frame.f_trace_opcodes = True
            if event == "opcode":
                if left == 0:
                    order.came(waiting)
                left -= 1
            return trace

        sys.settrace(trace)
        try:
            is_last = order.is_last(Awaited(1, None))
        finally:
            sys.settrace(None)
        return is_last, left < 0


class Operations(support.ShopTest):
    def test_10_000_operations_of_eight_threads(self):
        self.operate(OPERATIONS)

    def test_replies_of_sessions_that_are_answered_side_by_side(self):
        with tempfile.TemporaryDirectory() as folder:
            program = [sys.executable, str(support.HERE / "side_by_side.py"), *support.PROGRAM]
            self.shop.close()
            self.shop = support.shop(program, folder=folder, threads=4)
            self.addCleanup(self.shop.close)
            self.operate(2_000)
            self.shop.close()

    def operate(self, operations):
        told = Told()
        workers = [Worker(self.shop, told, seed) for seed in range(THREADS)]
        threads = [threading.Thread(target=worker.run, args=(operations // THREADS,)) for worker in workers]
        for thread in threads:
            thread.start()
        for thread in threads:
            thread.join()
        self.assertEqual(told.faults, [])
        self.assertEqual(told.kinds, {operation.__name__ for operation in workers[0].operations})
        self.assertEqual(sorted(told.writes), list(range(1, len(told.writes) + 1)))
        self.assertEqual(self.shop.refresh(), len(told.writes))
        self.assertGreater(len(told.reads), operations // 4)
        self.compare(told, operations)

    def compare(self, told, operations):
        model = fake_catalogue.Fake(support.FIELDS)
        tokens = {token for token, *_ in told.reads}
        for number in range(len(told.writes) + 1):
            if number:
                what, argument = told.writes[number]
                self.assertEqual(getattr(model, f"do_{what}")(0, argument), [number])
            if number in tokens:
                model.records[number] = list(model.table.values())
                model.holds.add((0, number))
        seen = set()
        for _, what, arguments, reply in told.reads:
            try:
                wanted = getattr(model, f"do_{what}")(0, *arguments)
            except fake_catalogue.No as no:
                wanted = (no.args[0], no.args[1] if len(no.args) > 1 else None)
                seen.add(no.args[0])
            self.assertEqual(reply, wanted, (what, arguments))
        if operations == OPERATIONS:
            self.assertEqual(seen, {23, 24, 25, 28, 29})


if __name__ == "__main__":
    unittest.main()
