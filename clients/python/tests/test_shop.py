"""The sample shop without a browser: what it finds, what its links say, and how long a visitor's view is kept."""

import contextlib
import http.client
import importlib.util
import re
import shutil
import subprocess
import sys
import tempfile
import threading
import time
import unittest
from pathlib import Path
from unittest import mock
from urllib.parse import urlencode

import support  # first: it finds the package
from serving import PYTHON, WANTING

import jasminedome
from jasminedome.http import Service, Settings

CAN_SERVE = all(importlib.util.find_spec(name) for name in ("starlette", "uvicorn"))
SHOP = support.HERE.parents[2] / "examples" / "shop"
sys.path.insert(0, str(SHOP))

import sample  # noqa: E402
from store import Store, Wish  # noqa: E402

if CAN_SERVE:
    import uvicorn
    from addresses import shop as shop_of

    from jasminedome.http.serving import bound

ITEMS = [
    sample.item("boot-1", "Hiking boot", "boot", "Acme", ["red"], 8_900),
    sample.item("scarf-1", "Wool scarf", "scarf", "Zed", ["blue"], 2_400),
    sample.item("hat-1", "Straw hat", "hat", "Zed", ["red", "blue"], 2_600),
    sample.item("dress-1", "Party dress", "shirt", "Zed", ["pink"], 12_000),
    sample.item("watch-1", "Pocket watch of brass", "bag", "Zed", ["brown"], 30_000),
]


class Elsewhere(unittest.TestCase):
    @unittest.skipIf(CAN_SERVE, "this Python can serve")
    @unittest.skipUnless(PYTHON, WANTING)
    def test_in_a_python_that_can_serve(self):
        told = subprocess.run([PYTHON, __file__], stderr=subprocess.PIPE, text=True)
        self.assertEqual(told.returncode, 0, told.stderr)


class Quiet(uvicorn.Server if CAN_SERVE else object):
    """A server in a thread of the test's."""

    def __init__(self, app):
        super().__init__(uvicorn.Config(app, lifespan="off", log_level="warning", ws="none"))
        self.socket = bound("127.0.0.1", 0)
        self.socket.listen()  # so that whoever asks before it runs waits
        self.server_port = self.socket.getsockname()[1]
        self.thread = threading.Thread(target=self.run, kwargs={"sockets": [self.socket]})
        self.thread.start()

    def install_signal_handlers(self):
        """They are the main thread's."""

    def close(self):
        self.should_exit = True
        self.thread.join()
        self.socket.close()


class Page(unittest.TestCase):
    """The pages, over HTTP."""

    def setUp(self):
        self.folder = Path(tempfile.mkdtemp())
        self.addCleanup(shutil.rmtree, self.folder)
        self.shop = jasminedome.Catalogue(sample.FIELDS, self.folder, program=support.PROGRAM)
        self.addCleanup(self.shop.close)
        self.shop.put_many(ITEMS)
        self.serve(0.0)

    def serve(self, every):
        self.service = Service(self.shop, Settings(show_every=every))
        self.addCleanup(self.service.close)
        self.store = Store(self.service)
        self.server = Quiet(shop_of(self.store))
        self.addCleanup(self.server.close)

    def ask(self, path, method="GET", form=None):
        connection = http.client.HTTPConnection("127.0.0.1", self.server.server_port, timeout=20)
        with contextlib.closing(connection):
            connection.request(method, path, None if form is None else urlencode(form))
            reply = connection.getresponse()
            return reply, reply.read().decode()

    def page(self, **asked):
        asked.setdefault("t", self.store.newest)
        reply, text = self.ask("/?" + urlencode(asked))
        self.assertEqual(reply.status, 200)
        return text

    def found(self, typed):
        return set(re.findall(r'<li data-id="([^"]+)"', self.page(q=typed)))

    def save(self, price="10"):
        form = {"do": "save", "id": "boot-1", "title": "Boot", "kind": "boot", "brand": "Acme", "color": "red", "price": price}
        reply, _ = self.ask("/staff", "POST", {**form, "back": f"/?t={self.store.newest}"})
        self.assertEqual(reply.status, 303)
        return reply

    def test_what_is_typed_in_the_plural_is_found(self):
        for typed, ids in (
            ("boot", {"boot-1"}), ("boots", {"boot-1"}), ("BOOTS", {"boot-1"}), ("hiking boots", {"boot-1"}),
            ("scarves", {"scarf-1"}), ("hats", {"hat-1"}), ("dresses", {"dress-1"}), ("dress", {"dress-1"}),
            ("watches", {"watch-1"}), ("brass", {"watch-1"}), ("boo", {"boot-1"}), ("bootss", set()), ("nothing", set()),
        ):  # fmt: skip
            self.assertEqual(self.found(typed), ids, typed)

    def test_the_longest_wish_is_a_query(self):
        chosen = tuple((group, tuple(f"{group}{n}" for n in range(8))) for group in ("kind", "color", "brand"))
        wish = Wish(" ".join(f"words{n}s" for n in range(40)), chosen, "0-25", "cheap", 1)
        self.assertEqual(self.store.shelf(self.store.view(self.store.newest), wish).total, 0)

    def test_the_service_is_there_to_be_read_and_no_more(self):
        self.assertEqual(self.ask("/api/health")[0].status, 200)
        writes = {"/api/items/a": "PUT", "/api/items/boot-1": "DELETE", "/api/commit": "POST", "/api/backup": "GET"}
        for path, method in writes.items():
            self.assertEqual(self.ask(path, method, {} if method != "GET" else None)[0].status, 401)
        self.assertEqual(len(self.found("")), len(ITEMS))

    def test_a_form_from_elsewhere_or_too_long_is_refused(self):
        self.assertEqual(self.ask("/staff", "POST", {"title": "x" * 10_000})[0].status, 413)
        port = self.server.server_port
        hosts = (("Host", f"elsewhere.example:{port}"), ("Host", "127.0.0.1"))
        for name, value in (("Origin", "http://elsewhere.example"), *hosts):
            headers = {name: value}
            with contextlib.closing(http.client.HTTPConnection("127.0.0.1", port, timeout=20)) as connection:
                connection.request("POST", "/staff", "do=delete&id=boot-1", headers)
                self.assertEqual(connection.getresponse().status, 403)
        self.assertEqual(self.found("boot"), {"boot-1"})

    def test_no_choice_leads_to_nothing(self):
        for asked in ({}, {"q": "boot"}, {"color": "red"}, {"q": "none of these"}, {"price": "0-25"}):
            text = self.page(**asked)
            for line in re.findall(r"<li><a [^>]*>.*?</li>", text):
                if "aria-current" not in line:
                    self.assertNotIn("<small>0</small>", line)
        self.assertEqual(re.findall(r'data-group="price">.*?</ul>', self.page(q="scarf"), re.DOTALL)[0].count("<li>"), 1)
        self.assertIn("<small>0</small>", self.page(q="boot", color="blue"))  # a choice that was made can be taken back

    def test_links_have_names_of_their_own(self):
        text = self.page()
        links = re.findall(r'<a [^>]*href="([^"]+)"[^>]*>(.*?)</a>', text, re.DOTALL)
        labels = {}
        for tag, href, inner in re.findall(r'(<a [^>]*href="([^"]+)"[^>]*>)(.*?)</a>', text, re.DOTALL):
            told = re.search(r'aria-label="([^"]+)"', tag)
            name = told.group(1) if told else re.sub("<[^>]+>", "", inner).strip()
            self.assertTrue(name)
            labels.setdefault(name, set()).add(href)
        self.assertGreater(len(links), 10)
        self.assertEqual({name: hrefs for name, hrefs in labels.items() if len(hrefs) > 1}, {})
        self.assertIn("Edit Hiking boot, boot-1", labels)
        self.assertIn("Only red, 2 items", labels)

    def test_head_is_get_without_a_body(self):
        token = self.store.newest
        for path in (f"/?t={token}", "/api/token", "/style.css", "/icons.svg"):
            got, body = self.ask(path)
            head, nothing = self.ask(path, "HEAD")
            self.assertEqual((head.status, nothing), (200, ""))
            self.assertEqual(head.headers["Content-Length"], str(len(body.encode())))
            self.assertEqual(head.headers["Content-Type"], got.headers["Content-Type"])
        self.assertEqual(self.ask("/", "HEAD")[0].status, 302)
        self.assertEqual(self.ask("/none", "HEAD")[0].status, 404)

    def test_whoever_comes_too_late_is_told(self):
        reply, _ = self.ask("/?t=3&q=boots")
        self.assertEqual(reply.status, 302)
        text = self.ask(reply.headers["Location"])[1]
        self.assertIn("The view of 3 isn&#x27;t kept any more: this is the newest.", text)
        self.assertEqual(set(re.findall(r'<li data-id="([^"]+)"', text)), {"boot-1"})

    def test_a_save_is_seen_in_the_form_before_it_is_in_a_view(self):
        self.serve(60.0)
        token = self.store.newest
        self.save("12.34")
        text = self.page(t=token, edit="boot-1")
        self.assertIn('name="price" inputmode="decimal" required maxlength="12" value="12.34"', text)
        self.assertEqual((self.store.newest, self.ask("/api/token")[1]), (token, f'{{"token":"{token}"}}'))
        self.ask("/staff", "POST", {"do": "delete", "id": "boot-1", "back": f"/?t={token}"})
        self.assertIn("There is no boot-1 any more.", self.ask(f"/?t={token}&edit=boot-1")[1])
        self.assertEqual(jasminedome.fields_of(self.folder), sample.FIELDS)

    def test_what_is_saved_is_saved_though_no_view_can_be_made(self):
        fails = mock.patch.object(self.service.views, "make", side_effect=jasminedome.AllHeld)
        with fails, self.assertLogs("shop") as caught:
            self.save("12.34")
        self.assertIn("64 tokens are recorded", caught.output[0])
        self.assertEqual(self.shop.stat().writes, len(ITEMS) + 1)

    def test_the_last_save_comes_into_a_view_by_itself(self):
        self.serve(1.0)
        token = self.service.view().token
        for _ in range(3):
            self.save()
        end = time.monotonic() + 10
        while self.service.view().token < token + 3:
            self.assertLess(time.monotonic(), end)
            time.sleep(0.05)

    def test_no_visitor_waits_for_a_save(self):
        with self.store._saving:  # somebody's save takes long
            saver = threading.Thread(target=self.save)
            saver.start()
            begun = time.monotonic()
            for _ in range(5):
                self.page(q="boots")
            self.assertLess(time.monotonic() - begun, 5)
            self.assertTrue(saver.is_alive())
        saver.join()


if not CAN_SERVE:
    del Page  # Elsewhere runs it


if __name__ == "__main__":
    unittest.main()
