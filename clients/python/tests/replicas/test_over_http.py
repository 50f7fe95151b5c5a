"""The HTTP service over a log and its replicas: what it answers, and that a visitor's token goes on whatever dies."""

import json
import signal
import subprocess
import threading
import time
import unittest

import replicated  # first: it finds the package
from replicated import puts
from serving import PYTHON, WANTING, Server, eventually

from jasminedome.replicas import Mark

NDJSON = "application/x-ndjson"
PAGE = 20


def serves():
    """Whether the Python that serves speaks with PostgreSQL too."""
    return PYTHON and subprocess.run([PYTHON, "-c", "import psycopg2"], stderr=subprocess.DEVNULL).returncode == 0


@unittest.skipUnless(serves(), f"{WANTING}, or that Python has no psycopg2")
class OverHttp(replicated.LogTest):
    def serve(self, *arguments):
        """A service over the log, or over what the arguments name."""
        server = Server(*(arguments or ("--log", self.dsn)), "--name", self.name, fields=False)
        self.addCleanup(server.stop)
        return server

    def answered(self, status, wanted=200):
        self.assertEqual(status[0], wanted, status[1])
        return status[1]


class Writes(OverHttp):
    def setUp(self):
        super().setUp()
        self.one = self.node("one")
        self.server = self.serve()

    def ask(self, method, path, body=None, wanted=200, **headers):
        return self.answered(self.server.ask(method, path, body, **headers), wanted)

    def test_an_empty_log_is_served_and_what_is_written_is_shown_when_that_is_asked_for(self):
        self.assertIn("0 items, open on", self.server.said)
        item = {"title": "Red shoe", "color": ["red"], "price": 59}
        told = self.ask("PUT", "/items/shoe-1?show=true&commit=true", item)
        self.assertEqual((told["write"], told["commit"]), (2, 2))  # behind the first anchor
        found = self.server.search(told["token"], words="sho", facets=["color"])
        self.assertEqual([hit["item"] for hit in found["hits"]], [{"id": "shoe-1", **item}])
        self.assertEqual((found["token"], self.server.search()["total"]), (told["token"], 0))  # the newest that lasts
        self.log.refresh(keep=True)
        self.assertTrue(eventually(lambda: self.server.search()["total"]))
        self.assertEqual(self.ask("GET", "/items/shoe-1"), {"id": "shoe-1", **item})
        self.assertGreater(self.ask("DELETE", "/items/shoe-1")["write"], told["write"])
        self.assertEqual(self.server.search(self.ask("POST", "/show")["token"])["total"], 0)

    def test_those_who_want_their_writes_shown_share_the_marks_of_the_replicas(self):
        self.node("two", pulse="0.5s,30s").wait(self.log.append(puts(1)), 60)
        before, told = self.log.head().position, []

        def save(number):
            token = self.ask("PUT", f"/items/saved-{number}?show=true", {"title": "Saved"})["token"]
            told.append((number, token, [hit["id"] for hit in self.server.search(token, words="saved")["hits"]]))

        threads = [threading.Thread(target=save, args=(number,)) for number in range(8)]
        for thread in threads:
            thread.start()
        for thread in threads:
            thread.join(60)
        self.assertEqual(sorted(number for number, _, ids in told if f"saved-{number}" in ids), list(range(8)))
        marks = [batch for batch in self.log.batches(before, 100) if batch.mark.is_view]
        self.assertLess(len(marks), 8)

    def test_what_is_refused_is_told_as_by_one_catalogue(self):
        told = self.ask("PUT", "/items/a", {"price": "x", "none": 5}, 422)
        self.assertEqual((told["number"], "none is no field" in told["detail"]), (12, True))
        self.ask("PUT", "/items/a%20b", {}, 422)
        told = self.ask("POST", "/delete", {"query": "nofield:x"}, 422, content_type="application/json")
        self.assertEqual((told["number"], told["place"]), (24, 0))
        wrong = ("", "nonsense", json.dumps({"id": "b", "price": "x"}), json.dumps({"delete": "a\0b"}), json.dumps({"id": "c"}))
        body = "\n".join([json.dumps({"id": "a"}), *wrong, json.dumps({"delete": "a"})])
        told = self.ask("POST", "/items", body, content_type=NDJSON)
        self.assertEqual([each["line"] for each in told], [1, 3, 4, 5, 6, 7])
        self.assertEqual([each.get("status", 200) for each in told], [200, 422, 422, 422, 200, 200])
        self.assertIn('price is "x"', told[2]["detail"])
        found = self.server.search(self.ask("POST", "/show")["token"])
        self.assertEqual([hit["id"] for hit in found["hits"]], ["c"])
        self.assertEqual(self.ask("POST", "/commit")["commit"], self.log.head().position)
        for method, path, body in (("POST", "/commit", {"text": "spring"}), ("GET", "/backup", None)):
            self.ask(method, path, body, 409)
        self.assertEqual(self.ask("GET", "/health")["status"], "ok")
        self.assertIn(b"jasminedome_requests_total", self.ask("GET", "/metrics"))

    def test_many_lines_go_in_batches_that_a_log_may_hold(self):
        body = "".join(json.dumps({"id": f"x{n}", "title": "long " * 500, "price": n}) + "\n" for n in range(1_200))
        told = self.ask("POST", "/items", body, content_type=NDJSON)
        positions = [each["write"] for each in told]
        self.assertEqual((len(told), positions), (1_200, sorted(positions)))
        self.assertGreater(len(set(positions)), 2)  # 500 lines, and a mebibyte, are a batch's most
        found = self.server.search(self.ask("POST", "/show")["token"], sort="-price", count=1)
        self.assertEqual((found["total"], found["hits"][0]["id"]), (1_200, "x1199"))


class Tokens(OverHttp):
    def begun(self, *names):
        """Replicas that show 300 items, and a service over them."""
        nodes = [self.node(name) for name in names]
        position = self.log.append(puts(*range(300)), Mark.ANCHOR)
        for node in nodes:
            node.wait(position)
        return nodes

    def page(self, server, first, after):
        found = server.search(first["token"], sort="+price", count=PAGE, after=after, facets=["color"])
        self.assertEqual((found["total"], found["token"], found["facets"]), (first["total"], first["token"], first["facets"]))
        return found

    def test_a_visitor_pages_on_whatever_dies(self):
        one, two, three = self.begun("one", "two", "three")
        server = self.serve()
        first = self.first(server)
        seen, after = [hit["item"] for hit in first["hits"]], first["next"]

        def wait(*nodes):
            for node in nodes:
                node.wait(self.log.head().position, 60)

        deaths = (
            one.kill, two.kill_program, lambda: (one.start(), two.kill()), lambda: (two.start(), server.stop(signal.SIGKILL)),
            lambda: self.cluster.stop(), lambda: self.cluster.start(), lambda: (wait(one, two), three.kill(), one.kill()),
            lambda: (two.kill(), [node.start() for node in (one, two, three)]),
        )  # fmt: skip
        for number, death in enumerate(deaths):
            death()
            if server.process.returncode is not None:
                server = self.serve()
            if number != 4:  # then PostgreSQL is away, which readers don't ask
                position = self.answered(server.ask("PUT", f"/items/item{number:07d}", {"title": "Other"}))["write"]
                self.assertGreater(self.log.refresh(keep=True), position)
            found = self.retried(lambda: self.page(server, first, after))
            seen += [hit["item"] for hit in found["hits"]]
            after = found["next"]
        while after is not None:
            found = self.page(server, first, after)
            seen += [hit["item"] for hit in found["hits"]]
            after = found["next"]
        self.assertEqual((len(seen), len({item["id"] for item in seen})), (first["total"], first["total"]))
        self.assertNotIn("Other", {item["title"] for item in seen})
        wait(one, two, three)
        # The service learns of the newest token a little after its replicas have it.
        newest = eventually(lambda: self.having(server, len(deaths) - 1))
        self.assert_alike([one, two, three], [int(each["token"].partition("-")[0]) for each in (first, newest)])

    def first(self, server):
        first = server.search(sort="+price", count=PAGE, facets=["color"])
        self.assertEqual(first["total"], 300)
        return first

    def having(self, server, total):
        """What a search for the others tells, once it tells of so many."""
        found = self.retried(lambda: server.search(words="other", count=0))
        return found if found["total"] == total else None

    def retried(self, call, seconds=60):
        """What a call answers, once it isn't told that replicas are still coming up."""
        end = time.monotonic() + seconds
        while True:
            try:
                return call()
            except AssertionError as error:
                if "NoReplica" not in str(error) or time.monotonic() > end:
                    raise

    def test_a_token_that_left_the_window_is_told_with_the_newest_and_none_that_never_was_is_waited_for(self):
        one, two = self.begun("one", "two")
        server = self.serve()
        first = self.first(server)
        for number in range(50):
            position = self.log.append(puts(number), Mark.ANCHOR)
        for node in (one, two):
            node.wait(position)
        eventually(lambda: server.ask("GET", "/token")[1]["token"].startswith("350-"))
        eventually(lambda: server.search(count=0)["token"] != first["token"])
        begun = time.monotonic()
        past = first["token"].replace("-", "-" + "0" * 4)[:-4]
        for token in (first["token"], past, "999999", "999999-0123456789ab", "x" * 100, "300 ", "", "1-2"):
            for method, path, body in (("POST", "/search", {}), ("GET", "/items/item0000001", None)):
                told = self.answered(server.ask(method, f"{path}?token={token}".replace(" ", "%20"), body), 410)
                self.assertEqual(told["error"], "TokenGone")
                self.assertTrue(told["newest"].startswith("350-"), told)
        self.assertLess(time.monotonic() - begun, 20)

    def test_replicas_are_read_alone(self):
        one, two = self.begun("one", "two")
        addresses = f"{one.address},{two.address}"
        server = self.serve("--replicas", addresses, "--listen", "0.0.0.0:0")  # who can't write needs no key for it
        first = self.first(server)
        for method, path, body in (("PUT", "/items/a", {}), ("POST", "/show", None), ("POST", "/commit", None)):
            self.answered(server.ask(method, path, body), 409)
        one.kill()
        self.assertEqual(len(self.page(server, first, first["next"])["hits"]), PAGE)


class Told(OverHttp):
    def test_arguments_that_dont_fit(self):
        for more in (["--folder", self.room], ["--journal", self.room], ["--field", "title:text"]):
            with self.assertRaisesRegex(RuntimeError, "leave --folder"):
                self.serve("--log", self.dsn, *more)
        with self.assertRaisesRegex(RuntimeError, "no address"):
            self.serve("--replicas", "nowhere")

    def test_where_nobody_is_there_in_time_it_ends_to_be_started_again(self):
        for where in (["--replicas", "127.0.0.1:9"], ["--log", "host=127.0.0.1 port=9"], ["--log", self.dsn]):
            command = [PYTHON, "-m", "jasminedome", "serve", "--listen", "127.0.0.1:0", "--timeout", "0.2", "--name", self.name]
            environment = {"PYTHONPATH": str(replicated.PACKAGE), "LC_ALL": "C.UTF-8"}
            piped = {"stdout": subprocess.PIPE, "stderr": subprocess.PIPE, "text": True}
            told = subprocess.run([*command, *where], env=environment, **piped)
            self.assertEqual((told.returncode, told.stdout), (3, ""), told.stderr)
            self.assertTrue(told.stderr.startswith("jasminedome: "), told.stderr)


if __name__ == "__main__":
    unittest.main()
