"""The HTTP service over its wire: searches under tokens, writes, limits and refusals, keys, ends, and many visitors at once."""

import contextlib
import json
import os
import re
import shutil
import signal
import socket
import tempfile
import threading
import time
import unittest
from pathlib import Path

import support  # first: it finds the package
from serving import PYTHON, WANTING, Server, eventually

import jasminedome

NEEDS_STARLETTE = unittest.skipUnless(PYTHON, WANTING)
NDJSON = "application/x-ndjson"
ITEMS = [
    {"id": "shoe-1", "title": "Red running shoe", "brand": "Acme", "color": ["red"], "price": 59},
    {"id": "shoe-2", "title": "Blue Éclair shoe", "brand": "Zed", "color": ["blue"], "price": 80},
    {"id": "boot-1", "title": "Red <hiking> boot", "brand": "Acme", "color": ["red", "blue"], "price": 129},
    {"id": "sock/1", "title": "Wool sock", "brand": "Zed", "color": ["grey"], "price": 9},
]


def lines(*values):
    return "".join((each if isinstance(each, str) else json.dumps(each)) + "\n" for each in values)


def ids(found):
    return [hit["id"] for hit in found["hits"]]


class ServedTest(unittest.TestCase):
    """A service of its own for all tests of a class, and for each of them the same items."""

    arguments = ()

    @classmethod
    def setUpClass(cls):
        cls.server = Server(*cls.arguments)
        cls.addClassCleanup(cls.server.stop)

    def setUp(self):
        self.bulk(*ITEMS)

    def bulk(self, *values, query="?show=true", status=200):
        found, told = self.server.ask("POST", f"/items{query}", lines(*values), content_type=NDJSON)
        self.assertEqual(found, status, told)
        return told

    def refused(self, method, path, body=None, status=422, **headers):
        found, told = self.server.ask(method, path, body, **headers)
        self.assertEqual(found, status, told)
        return told


@NEEDS_STARLETTE
class Searches(ServedTest):
    def test_words_filters_sort_items_and_counts(self):
        found = self.server.search(words="red sho", sort="-price", facets=["color"], highlight=["title"])
        self.assertEqual((found["total"], ids(found), found["next"]), (1, ["shoe-1"], None))
        hit = found["hits"][0]
        self.assertEqual((hit["item"], hit["key"]), (ITEMS[0], 59))
        self.assertEqual(hit["highlights"], {"title": "<mark>Red</mark> running <mark>shoe</mark>"})
        self.assertEqual(found["facets"]["color"], {"matching": 1, "labels": 1, "counts": [{"label": "red", "count": 1}]})

    def test_counts_and_bars_are_told_without_their_own_filter(self):
        filters = {"color": ["red"], "price": {"to": 100}}
        found = self.server.search(filters=filters, facets=["color"], histograms={"price": [60, 100]})
        self.assertEqual(ids(found), ["shoe-1"])
        counts = {each["label"]: each["count"] for each in found["facets"]["color"]["counts"]}
        self.assertEqual(counts, {"red": 1, "blue": 1, "grey": 1})
        bars = [(each["from"], each["below"], each["count"]) for each in found["histograms"]["price"]]
        self.assertEqual(bars, [(None, 60, 1), (60, 100, 0), (100, None, 1)])

    def test_a_chosen_label_is_told_though_few_have_it(self):
        found = self.server.search(filters={"color": ["grey", "none"]}, facets=["color"], labels=1)
        self.assertEqual([each["label"] for each in found["facets"]["color"]["counts"][1:]], ["grey", "none"])

    def test_parts_of_a_query(self):
        acme, dear = {"field": "brand", "is": "Acme"}, {"field": "price", "from": 100}
        for query, wanted in (
            ({"all": [acme, dear]}, ["boot-1"]), ({"any": [dear, {"field": "title", "begins": "woo"}]}, ["boot-1", "sock/1"]),
            ({"none": [acme]}, ["shoe-2", "sock/1"]),
            ({"field": "color", "in": ["grey", "blue"]}, ["shoe-2", "boot-1", "sock/1"]),
            ({"field": "title", "words": "shoe red"}, ["shoe-1"]), ("+brand:Acme -title:boot", ["shoe-1"]), ({"any": []}, []),
        ):  # fmt: skip
            self.assertEqual(ids(self.server.search(query=query)), wanted, query)

    def test_pages_by_mark_hold_still_under_a_token(self):
        first = self.server.search(sort="+price", count=2)
        self.server.put({"id": "new", "price": 60})
        self.server.ask("DELETE", "/items/shoe-2?show=true")
        second = self.server.search(first["token"], sort="+price", count=2, after=first["next"])
        self.assertEqual((ids(first), ids(second)), (["sock/1", "shoe-1"], ["shoe-2", "boot-1"]))
        self.assertEqual((second["token"], second["total"]), (first["token"], 4))
        self.assertNotEqual(second["newest"], first["token"])
        newest = self.server.search(sort="+price")
        self.assertEqual((ids(newest), newest["token"]), (["sock/1", "shoe-1", "new", "boot-1"], second["newest"]))
        self.assertEqual(self.server.ask("GET", f"/items/shoe-2?token={first['token']}"), (200, ITEMS[1]))
        self.assertEqual(self.server.ask("DELETE", "/items/new?show=1")[0], 200)

    def test_a_token_that_is_gone_is_told_with_the_newest(self):
        newest = self.server.ask("GET", "/token")[1]["token"]
        number, _, run = newest.partition("-")
        for token in (f"{int(number) + 9}-{run}", f"{number}-00000000", number, "x" * 500, "", f"{number}-{run}%0A"):
            told = self.refused("POST", f"/search?token={token}", {}, 410)
            self.assertEqual((told["error"], told["newest"]), ("TokenGone", newest))
            self.refused("GET", f"/items/shoe-1?token={token}", None, 410)

    def test_what_no_search_is(self):
        for asked, status in (
            ("{", 400), ("[]", 400), ('{"count":NaN}', 400), ("[" * 60_000, 400), ({"wrods": "x"}, 422), ({"words": 5}, 422),
            ({"count": "9"}, 422), ({"count": True}, 422), ({"after": 1.5}, 422), ({"facets": "color"}, 422),
            ({"items": 1}, 422),
            ({"filters": []}, 422), ({"filters": {"color": {"has": 1}}}, 422), ({"query": {"field": "a b", "is": "c"}}, 422),
            ({"query": {"all": "x"}}, 422), ({"query": {"all": [], "any": []}}, 422),
            ({"query": "brand:a) (brand:b", "words": "x"}, 422),
            ({"histograms": {"price": [5, 1]}}, 422), ({"histograms": {"price": []}}, 422), ({"fields": ["title"] * 40}, 422),
        ):  # fmt: skip
            self.refused("POST", "/search", asked, status)

    def test_the_programs_refusals_have_their_numbers(self):
        for asked, number in (
            ({"query": "nofield:x"}, 24), ({"count": 1001}, 25), ({"sort": "+color"}, 28), ({"facets": ["brand"]}, 29),
            ({"after": 77_777}, 23),
        ):  # fmt: skip
            self.assertEqual(self.refused("POST", "/search", asked)["number"], number)
        self.assertEqual(self.refused("POST", "/search", {"query": "brand:a("})["place"], 7)
        told = self.refused("POST", "/search", {"query": "nofield:x", "filters": {"color": "red"}})
        self.assertEqual(told["query"][told["place"] :], 'nofield:x) +color:"red"')
        self.assertEqual(self.refused("POST", "/search", {"sort": "price"})["error"], "UsageError")


@NEEDS_STARLETTE
class Writes(ServedTest):
    def test_items_by_their_id(self):
        status, told = self.server.ask("PUT", "/items/a%2Fb?show=true", {"title": "A bag", "price": 5})
        self.assertEqual((status, set(told)), (200, {"write", "token"}))
        self.assertEqual(self.server.ask("GET", "/items/a%2Fb"), (200, {"id": "a/b", "title": "A bag", "price": 5}))
        self.assertEqual(self.server.ask("DELETE", "/items/a%2Fb?show=true")[1]["write"], told["write"] + 1)
        self.assertEqual(self.refused("GET", "/items/a%2Fb", None, 404)["error"], "NoItem")
        self.assertEqual(self.server.ask("GET", f"/items/a%2Fb?token={told['token']}")[0], 200)

    def test_items_that_are_refused(self):
        for item, number in (
            ({"price": "5"}, 13), ({"none": 5}, 12), ({"brand": "x" * 129}, 15), ({"color": ["x"] * 65}, 15),
            ({"title": "x" * 9_000}, 15),
        ):  # fmt: skip
            self.assertEqual(self.refused("PUT", "/items/a", item)["number"], number)
        self.assertIn('price is "5"', self.refused("PUT", "/items/a", {"price": "5"})["detail"])
        for path in ("/items/%C3%A9", "/items/" + "x" * 65, "/items/a%20b"):
            self.assertEqual(self.refused("PUT", path, {})["number"], 14)
        self.refused("PUT", "/items/a%0Ab", {}, 404), self.refused("DELETE", "/items/a%0A1%20COMMIT", None, 404)
        for body, status in (({"id": "b"}, 422), ([], 422), ("", 400)):
            self.refused("PUT", "/items/a", body, status)
        self.refused("PUT", "/items/a?show=maybe", {})

    def test_a_bulk_has_one_answer_a_line(self):
        deletes = ({"delete": "a"}, {"delete": 5})
        told = self.bulk({"id": "a", "price": 1}, "", "nonsense", {"id": "b", "price": "x"}, *deletes, [1], {"id": "ü"})
        self.assertEqual([each["line"] for each in told], [1, 3, 4, 5, 6, 7, 8])
        why = [each.get("number", each.get("error")) for each in told]
        self.assertEqual(why, [None, "UsageError", 13, None, "UsageError", "UsageError", 14])
        self.assertEqual(told[3]["write"], told[0]["write"] + 1)
        self.assertEqual(self.server.ask("GET", "/items/a")[0], 404)
        odd = ('{"id":"b","title":"\\ud800"}', {"id": "c", "title": "x" * 9_999}, {"delete": "a\r"})
        told = self.bulk({"id": "a"}, *odd, {"id": "d"})
        self.assertEqual([each.get("status", 200) for each in told], [200, 422, 422, 422, 200])
        self.server.ask("DELETE", "/items/a"), self.server.ask("DELETE", "/items/d")
        many = self.bulk(*({"id": f"many-{n}", "price": n} for n in range(2_000)))
        self.assertEqual([each["line"] for each in many], list(range(1, 2_001)))
        self.assertEqual([each["write"] - many[0]["write"] for each in many], list(range(2_000)))
        asked = {"query": {"field": "price", "from": 0, "to": 2_000}}
        self.server.ask("POST", "/delete?show=true", asked, content_type="application/json")

    def test_deletes_by_query(self):
        for asked, status in (({}, 422), ({"words": ""}, 422), ({"query": "*:*", "count": 5}, 422), ([], 422), ("", 400)):
            self.refused("POST", "/delete", asked, status, content_type="application/json")
        asked = {"words": "shoe", "filters": {"color": ["red"]}}
        self.assertEqual(self.server.ask("POST", "/delete?show=true", asked, content_type="application/json")[0], 200)
        self.assertEqual(ids(self.server.search()), ["shoe-2", "boot-1", "sock/1"])

    def test_types_paths_and_methods_that_arent_there(self):
        for path in ("/items", "/delete"):
            self.refused("POST", path, "{}", 415)
            self.refused("POST", path, "{}", 415, content_type="text/plain;charset=utf-8")
        self.assertEqual(self.refused("GET", "/none", None, 404)["error"], "NoEndpoint")
        self.refused("POST", "/items/a", {}, 405), self.refused("PUT", "/search", {}, 405)

    def test_another_name_of_this_machine_may_not_write(self):
        for method, path in (("PUT", "/items/a"), ("DELETE", "/items/shoe-1"), ("POST", "/commit"), ("GET", "/backup")):
            told = self.refused(method, path, {} if method == "PUT" else None, 403, host="elsewhere.example")
            self.assertEqual(told["error"], "WrongName")
        self.assertEqual(self.server.ask("POST", "/search", {}, host="elsewhere.example")[1]["total"], len(ITEMS))

    def test_bodies_have_limits(self):
        self.assertEqual(self.refused("POST", "/search", "x" * 70_000, 413)["error"], "TooLargeBody")
        self.refused("PUT", "/items/a", "x" * 70_000, 413)
        self.bulk({"id": "a", "title": "x" * 20_000}, status=413)
        self.assertIn(b" 413 ", self.chunked("/search", [b"x" * 1_000] * 100))

    def chunked(self, path, pieces):
        """The first line of the answer to a body that doesn't tell its size."""
        with socket.create_connection(("127.0.0.1", self.server.port), 20) as connection:
            connection.sendall(f"POST {path} HTTP/1.1\r\nHost: localhost\r\nTransfer-Encoding: chunked\r\n\r\n".encode())
            with contextlib.suppress(BrokenPipeError, ConnectionResetError):
                for piece in pieces:
                    connection.sendall(b"%x\r\n%s\r\n" % (len(piece), piece))
            return connection.recv(1_000).split(b"\n")[0]

    def test_without_a_folder_there_is_no_backup(self):
        self.assertEqual(self.refused("GET", "/backup", None, 409)["error"], "NoFolder")


@NEEDS_STARLETTE
class Told(ServedTest):
    def test_health_metrics_and_openapi(self):
        status, health = self.server.ask("GET", "/health")
        self.assertEqual((status, health["status"]), (200, "ok"))
        self.server.search()
        text = self.server.ask("GET", "/metrics")[1].decode()
        values = dict(re.findall(r"^(jasminedome_[a-z_]+(?:\{[^}]*\})?) ([0-9.]+)$", text, re.MULTILINE))
        self.assertEqual(int(values["jasminedome_writes"]), health["writes"])
        self.assertGreater(int(values['jasminedome_requests_total{endpoint="search",status="200"}']), 0)
        infinite = values['jasminedome_request_seconds_bucket{endpoint="search",le="+Inf"}']
        self.assertEqual(infinite, values['jasminedome_request_seconds_count{endpoint="search"}'])
        for line in text.splitlines():
            self.assertRegex(line, r"^(# (HELP|TYPE) jasminedome_[a-z_]+ .+|jasminedome_[a-z_]+(\{[^}]*\})? [0-9.]+)$")
        document = self.server.ask("GET", "/openapi.json")[1]
        self.assertEqual((document["openapi"], document["info"]["version"]), ("3.0.3", jasminedome.__version__))
        for path, methods in document["paths"].items():
            for method, operation in methods.items():
                body = {} if method in ("post", "put") else None
                status, _ = self.server.ask(method.upper(), path.replace("{id}", "a"), body)
                self.assertIn(str(status), operation["responses"], (method, path))
        schemas = document["components"]["schemas"]
        self.assertTrue(set(re.findall(r"#/components/schemas/(\w+)", json.dumps(document))) <= set(schemas))

    def test_no_answer_is_kept_or_sniffed(self):
        for path in ("/health", "/token", "/items/shoe-1", "/none"):
            headers = self.server.ask_bytes("GET", path)[1]
            self.assertEqual((headers["cache-control"], headers["x-content-type-options"]), ("no-store", "nosniff"))


@NEEDS_STARLETTE
class KeysOfReadersAndWriters(unittest.TestCase):
    def test_who_may_do_what(self):
        room = tempfile.TemporaryDirectory()
        self.addCleanup(room.cleanup)
        file = Path(room.name, "key")
        file.write_text("write-key-1\n")
        server = Server("--write-key-file", file, JASMINEDOME_READ_KEY="read-key-1")
        self.addCleanup(server.stop)
        none = ((None, 401, 401), ("no-key-at-all", 401, 401))
        for key, reads, writes in (*none, ("read-key-1", 200, 403), ("write-key-1", 200, 200)):
            self.assertEqual(server.ask("POST", "/search", {}, key)[0], reads, key)
            self.assertEqual(server.ask("GET", "/metrics", None, key)[0], reads, key)
            self.assertEqual(server.ask("PUT", "/items/a", {}, key)[0], writes, key)
            self.assertEqual(server.ask("POST", "/commit", None, key)[0], writes, key)
            self.assertEqual(server.ask("GET", "/backup", None, key)[0], 409 if writes == 200 else writes, key)
        self.assertEqual((server.ask("GET", "/health")[0], server.ask("GET", "/openapi.json")[0]), (200, 200))
        self.assertEqual(server.ask_bytes("POST", "/search", {})[1]["www-authenticate"], "Bearer")
        self.assertEqual(server.ask("POST", "/search", {}, authorization="Basic read-key-1")[0], 401)

    def test_other_machines_may_not_write_without_a_key(self):
        with self.assertRaisesRegex(RuntimeError, "--without-keys"):
            Server("--listen", "0.0.0.0:0")
        server = Server("--listen", "0.0.0.0:0", "--without-keys")
        self.addCleanup(server.stop)
        self.assertEqual(server.ask("PUT", "/items/a", {})[0], 200)


@NEEDS_STARLETTE
class Ends(support.FileTest):
    """What outlives which end, over folders."""

    def serve(self, *arguments, **more):
        server = Server("--folder", self.folder, *arguments, **more)
        self.addCleanup(server.stop)
        return server

    def kept(self):
        """The ids that the folder has. A program that was killed lets go of it once the system has ended it."""
        for _ in range(100):
            try:
                return sorted(item["id"] for item in self.items())
            except jasminedome.FolderInUse:
                time.sleep(0.05)
        return sorted(item["id"] for item in self.items())

    def test_a_told_end_commits_and_a_kill_keeps_what_was_committed(self):
        server = self.serve("--commit-every", "900")
        server.put({"id": "a"})
        self.assertEqual(server.stop(), 0, server.errors)
        self.assertEqual(self.kept(), ["a"])
        server = self.serve("--commit-every", "900", fields=False)
        self.assertIn("1 items, open on", server.said)
        token = server.put({"id": "b"}, commit=True)["token"]
        server.put({"id": "c"})
        os.kill(server.child(), signal.SIGKILL), server.stop(signal.SIGKILL)
        self.assertEqual(self.kept(), ["a", "b"])
        server = self.serve(fields=False)
        self.assertEqual(server.ask("POST", f"/search?token={token}", {})[0], 410)  # the number may be of other writes now
        self.assertEqual(server.stop(signal.SIGINT), 0, server.errors)

    def test_what_is_written_is_committed_in_time(self):
        server = self.serve("--commit-every", "0.2", "--show-every", "0.1")
        server.put({"id": "a"}, show=False)
        eventually(lambda: b"jasminedome_commit_time_seconds 0\n" not in server.ask("GET", "/metrics")[1])
        eventually(lambda: server.search()["total"] == 1)
        os.kill(server.child(), signal.SIGKILL), server.stop(signal.SIGKILL)
        self.assertEqual(self.kept(), ["a"])

    def test_a_program_that_was_killed_is_told_and_ends_the_service(self):
        server = self.serve()
        os.kill(server.child(), signal.SIGKILL)
        status, told = server.ask("POST", "/search", {})
        self.assertEqual((status, told["error"]), (503, "ProgramEnded"))
        self.assertEqual(server.wait(), 3)

    def test_a_program_that_stands_still_is_given_up_in_time(self):
        server = self.serve("--timeout", "0.5")
        child = server.child()
        os.kill(child, signal.SIGSTOP)
        try:
            status, told = server.ask("PUT", "/items/a", {})
        finally:
            os.kill(child, signal.SIGCONT)
        self.assertEqual((status, told["error"], told["was_sent"]), (504, "Timeout", True))
        eventually(lambda: server.ask("GET", "/health")[1].get("writes") == 1)
        self.assertEqual(server.stop(), 0, server.errors)
        self.assertEqual(self.kept(), ["a"])

    def test_who_asks_for_a_view_that_comes_much_later_is_told(self):
        server = self.serve("--show-every", "900")
        status, told = server.ask("PUT", "/items/a?show=true", {})
        self.assertEqual((status, told["error"]), (503, "NotShown"))
        self.assertEqual(server.ask("GET", "/health")[1]["writes"], 1)

    def test_a_backup_opens(self):
        server = self.serve()
        self.assertEqual(server.ask("GET", "/backup")[0], 409)  # there is no commit yet
        server.put({"id": "a", "title": "Shoe"}, commit=True)
        server.put({"id": "b"})
        status, data = server.ask("GET", "/backup")
        self.assertEqual(status, 200)
        copy = self.room / "copy"
        names = support.untar(data, copy)
        self.assertFalse([name for name in names if "/" in name])
        shutil.move(str(copy), str(self.folder.with_name("whole")))
        self.folder = self.folder.with_name("whole")
        self.assertEqual(self.items(), [{"id": "a", "title": "Shoe"}])

    def test_words_are_folded_where_that_is_said(self):
        server = self.serve("--field", "words:text", "--fold", "words=title,brand")
        server.put({"id": "a", "title": "Étui d'Été", "brand": "Søndre"})
        for typed, count in (("ETUI", 1), ("été", 1), ("sondr", 1), ("SØN", 1), ("e", 1), ("etuis", 0), ("sondr ", 0)):
            self.assertEqual(server.search(words=typed)["total"], count, typed)


@NEEDS_STARLETTE
class Many(unittest.TestCase):
    def test_visitors_page_while_staff_writes(self):
        server = Server("--show-every", "0.05")
        self.addCleanup(server.stop)
        body = lines(*({"id": f"item-{n}", "title": "A shoe", "price": n} for n in range(200)))
        server.ask("POST", "/items?show=true", body, content_type=NDJSON)
        faults, over = [], threading.Event()

        def visit():
            try:
                for _ in range(3):
                    found = server.search(words="sho", sort="+price", count=50)
                    seen = ids(found)
                    while found["next"] is not None:
                        found = server.search(found["token"], words="sho", sort="+price", count=50, after=found["next"])
                        seen += ids(found)
                    if len(seen) != found["total"] or len(set(seen)) != len(seen):
                        faults.append((len(seen), found["total"]))
            except Exception as error:
                faults.append(error)

        def write():
            number = 200
            while not over.is_set():
                server.put({"id": f"item-{number}", "title": "A shoe", "price": number}, show=False)
                server.ask("DELETE", f"/items/item-{number - 200}")
                number += 1

        visitors = [threading.Thread(target=visit) for _ in range(16)]
        writer = threading.Thread(target=write)
        for thread in (writer, *visitors):
            thread.start()
        for thread in visitors:
            thread.join(60)
        over.set()
        writer.join(20)
        self.assertEqual(faults, [])


MOUNTED = """
import sys, threading
import uvicorn
from starlette.applications import Starlette
from starlette.responses import PlainTextResponse
from starlette.routing import Mount, Route
from jasminedome import Catalogue
from jasminedome.http import Service, Settings, make_app
from jasminedome.http.serving import bound, origin, run

class Slow(Catalogue):
    gate = threading.Event()
    def delete(self, id):
        self.gate.wait(20)
        return super().delete(id)

async def own(request):
    Slow.gate.set()
    return PlainTextResponse("mine")

with Slow({"title": "text"}) as shop, Service(shop, Settings(most_waiting=2, body_seconds=0.3)) as service:
    app = Starlette(routes=[Route("/", own), Mount("/shop", make_app(service))])
    listening = bound("127.0.0.1", 0)
    run(app, service, listening, lambda: print("open on " + origin(listening), flush=True))
"""


@NEEDS_STARLETTE
class Mounted(unittest.TestCase):
    """The app within another one, under limits that are soon met."""

    def setUp(self):
        self.server = Server(code=MOUNTED)
        self.addCleanup(self.server.stop)

    def test_in_a_programs_own_app(self):
        self.assertEqual(self.server.ask("PUT", "/shop/items/a?show=1", {"title": "Shoe"})[0], 200)
        self.assertEqual(self.server.ask("POST", "/shop/search", {"words": "SHOE"})[1]["total"], 1)
        self.assertEqual(self.server.ask("GET", "/"), (200, b"mine"))
        self.assertEqual(self.server.ask("GET", "/shop/openapi.json")[1]["servers"], [{"url": "/shop"}])
        self.assertEqual(self.server.stop(), 0, self.server.errors)

    def test_who_comes_when_too_many_wait_is_told_at_once(self):
        told = []
        ask = lambda: told.append(self.server.ask("DELETE", "/shop/items/a")[0])  # noqa: E731
        waiting = [threading.Thread(target=ask) for _ in range(2)]
        for thread in waiting:
            thread.start()
        status, headers, _ = eventually(lambda: self.busy(), 15)
        self.assertEqual((status, headers["retry-after"]), (503, "1"))
        self.assertEqual(self.server.ask("GET", "/")[0], 200)
        for thread in waiting:
            thread.join(20)
        self.assertEqual(told, [200, 200])

    def busy(self):
        told = self.server.ask_bytes("GET", "/shop/token")
        return told if told[0] != 200 else None

    def test_a_body_that_comes_too_slowly_is_given_up(self):
        for path, kind in (("/shop/search", "application/json"), ("/shop/items", NDJSON)):
            with socket.create_connection(("127.0.0.1", self.server.port), 20) as connection:
                head = f"POST {path} HTTP/1.1\r\nHost: localhost\r\nContent-Type: {kind}\r\nContent-Length: 50\r\n\r\n{{"
                connection.sendall(head.encode())
                begun = time.monotonic()
                self.assertIn(b" 408 ", connection.recv(1_000).split(b"\n")[0])
                self.assertLess(time.monotonic() - begun, 10)


if __name__ == "__main__":
    unittest.main()
