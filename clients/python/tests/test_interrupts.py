"""Interrupts, timeouts and forks: what a call leaves that was given up, and that the catalogue can be asked again."""

import itertools
import os
import signal
import subprocess
import sys
import tempfile
import threading
import time
import unittest
from pathlib import Path

import support  # first: it finds the package

import jasminedome
from jasminedome import ProgramEnded, Timeout, UsageError, program, replies

PACKAGE = str(support.HERE.parent)
SOON = 30  # seconds, for what would last for ever: the machine may be busy
ENDLESS = """
import os, signal, sys, threading
signal.signal(signal.SIGINT, signal.default_int_handler)  # a shell's job in the background begins with it ignored
sys.path.insert(0, {package!r})
from jasminedome import Catalogue
shop = Catalogue({{"title": "text"}}, {folder!r}, program={command!r})

def items():
    for n in range(10**7):
        if n == 10_000:  # four times what the pipe to the program holds, so some are written by then
            threading.Timer(float({delay!r}), os.kill, (os.getpid(), signal.SIGINT)).start()
        yield {{"id": f"i{{n}}", "title": "red shoe " * 40}}

try:
    shop.put_many(items())
except KeyboardInterrupt:
    writes = shop.stat().writes
    print(shop.commit("what came so far"), writes)
    shop.close()
"""


def stopped(shop):
    """Stops the program, which then answers nothing until it is continued."""
    os.kill(shop.pid, signal.SIGSTOP)


def continued(shop):
    os.kill(shop.pid, signal.SIGCONT)


class Interrupts(support.ShopTest):
    def test_ctrl_c_in_put_many_loses_nothing(self):
        command = support.REAL or support.FAKE
        for delay in (0.0, 0.1, 0.3):
            with self.subTest(delay=delay), tempfile.TemporaryDirectory() as folder:
                code = ENDLESS.format(package=PACKAGE, folder=folder, command=command, delay=delay)
                told = subprocess.run([sys.executable, "-c", code], capture_output=True, text=True, timeout=600)
                self.assertEqual((told.returncode, told.stderr), (0, ""))
                generation, writes = map(int, told.stdout.split())
                self.assertEqual(generation, 1)
                self.assertGreater(writes, 0)
                with jasminedome.Catalogue({"title": "text"}, folder, program=command) as shop, shop.open() as view:
                    self.assertEqual((shop.opened_at, view.find(count=0).total), (writes, writes))

    def test_an_interrupt_at_any_step_of_a_call(self):
        writes = 0
        for step in itertools.count():
            is_raised = self.put_interrupted_at(step)
            told = self.shop.put({"id": "next"})
            self.assertIn(told - writes, (1, 2), f"step {step}")
            writes = told
            self.assertEqual(self.shop.refresh(), writes)
            if not is_raised:
                break
        self.assertGreater(step, 15, "a call has more steps than that")
        self.shop.close()
        self.assertEqual(self.shop._program._child.returncode, 0)

    def put_interrupted_at(self, step):
        """Puts an item, with an interrupt before the step: a line of the modules that send and wait. Whether one came."""
        files = {program.__file__: Path(program.__file__), replies.__file__: Path(replies.__file__)}
        lines = {name: path.read_text().splitlines() for name, path in files.items()}
        left = step

        def trace(frame, event, _):
            nonlocal left
            name = frame.f_code.co_filename
            if name not in lines:
                return trace if event == "call" else None
            # No interrupt comes between the entry of a `with` and its body, nor between its body and its exit.
            if event == "line" and not lines[name][frame.f_lineno - 1].lstrip().startswith("with "):
                left -= 1
                if left < 0:
                    sys.settrace(None)
                    raise KeyboardInterrupt
            return trace

        try:
            sys.settrace(trace)
            self.shop.put({"id": f"x{step}"})
        except KeyboardInterrupt:
            return True
        finally:
            sys.settrace(None)
        return False

    def test_half_a_line_is_never_said(self):
        # The pipe is full of a long line when the catalogue is closed: the rest of it can't go out.
        code = "import sys,time\nsys.stdin.readline()\nprint('OK 0', flush=True)\ntime.sleep(600)"
        shop = jasminedome.Catalogue(support.FIELDS, program=[sys.executable, "-c", code])
        shop.timeout = 0.3
        self.assertRaises(Timeout, shop.put_many, ({"id": "a" * 60, "title": "x" * 5_000} for _ in range(1_000)))
        shop._program.close(patience=0.2)
        self.assertEqual(shop._program._child.returncode, -signal.SIGKILL)


class Timeouts(unittest.TestCase):
    def impatient(self):
        """A catalogue whose calls wait for little, once it is open."""
        shop = support.shop()
        self.addCleanup(shop.close)
        shop.timeout = 0.3
        return shop

    def test_a_stopped_program_holds_nobody(self):
        shop = self.impatient()
        stopped(shop)
        puts = [lambda: shop.put({"id": "a"}), lambda: shop.put_many([{"id": "b"}])]
        for call in (*puts, shop.refresh, shop.stat, shop.open):
            begun = time.monotonic()
            with self.assertRaises(Timeout) as caught:
                call()
            self.assertLess(time.monotonic() - begun, SOON)
            self.assertTrue(caught.exception.was_sent)
            self.assertIsInstance(caught.exception, TimeoutError)
        continued(shop)
        shop.timeout = None
        self.assertEqual(shop.put({"id": "c"}), 3)  # what was sent is done, and each late reply went to its call
        self.assertEqual(shop.refresh(), 3)

    def test_a_view_that_is_opened_late_is_closed(self):
        shop = self.impatient()
        stopped(shop)
        self.assertRaises(Timeout, shop.open)
        continued(shop)
        shop.timeout = None
        shop.put({"id": "a"})
        shop.refresh()
        self.assertEqual(shop.prune(1), 1, "a session holds the token 0")
        taken = next(shop._sessions._fresh)
        self.assertLess(taken, 5)

    def test_what_never_went_out_is_never_done(self):
        shop = self.impatient()
        stopped(shop)
        self.assertRaises(Timeout, shop.put_many, ({"id": f"x{n}", "title": "x" * 5_000} for n in range(2_000)))
        with self.assertRaises(Timeout) as caught:
            shop.put({"id": "a"})
        self.assertFalse(caught.exception.was_sent)
        self.assertRaises(Timeout, shop.open)
        continued(shop)
        shop.timeout = None
        shop.refresh()
        with shop.open() as view:
            self.assertIsNone(view.get("a"))
            self.assertIsNotNone(view.get("x0"))
            self.assertEqual(view.find(count=0).total, shop.stat().writes)

    def test_a_late_reply_is_no_other_calls(self):
        code = "import sys,time\nsys.stdin.readline()\nprint('OK 0', flush=True)\n"
        code += "for pause in (0.6, 0, 0):\n    sys.stdin.readline()\n    time.sleep(pause)\n"
        code += "    print('1 OK', 7 if pause else 8, flush=True)"
        with jasminedome.Catalogue({}, program=[sys.executable, "-c", code]) as shop:
            shop.timeout = 0.2
            self.assertRaises(Timeout, shop.refresh)
            shop.timeout = None
            self.assertEqual((shop.refresh(), shop.refresh()), (8, 8))

    def test_a_program_that_never_opens(self):
        begun = time.monotonic()
        with self.assertRaises(Timeout):
            jasminedome.Catalogue({}, program=[sys.executable, "-c", "import time; time.sleep(600)"], timeout=0.5)
        self.assertLess(time.monotonic() - begun, SOON)

    def test_what_is_no_timeout(self):
        shop = self.impatient()
        for wrong in (0, -1, "5", True, float("nan"), float("inf"), 1e300):
            self.assertRaises(UsageError, support.shop, timeout=wrong)
            with self.assertRaises(UsageError):
                shop.timeout = wrong
        self.assertEqual(shop.timeout, 0.3)


class Forks(support.ShopTest):
    def in_fork(self, call, stays=False):
        """What a forked process says of the call; one that stays lives until the test ends."""
        ours, theirs = os.pipe()
        child = os.fork()
        if not child:
            try:
                call()
                said = "it was done"
            except BaseException as error:
                said = f"{type(error).__name__}: {error}"
            os.write(theirs, said.encode())
            os.close(theirs)
            time.sleep(60 if stays else 0)
            os._exit(0)
        os.close(theirs)
        if stays:
            self.addCleanup(os.waitpid, child, 0)
            self.addCleanup(os.kill, child, signal.SIGKILL)
        else:
            self.addCleanup(os.waitpid, child, 0)
        with os.fdopen(ours) as said:
            return said.read()

    def test_a_fork_is_told_at_once(self):
        view = self.shop.open()
        puts = [lambda: self.shop.put({"id": "a"}), lambda: self.shop.put_many([{"id": "a"}])]
        for call in (*puts, view.find, self.shop.open):
            begun = time.monotonic()
            self.assertRegex(self.in_fork(call), "^UsageError: a fork may not use the catalogue of its parent")
            self.assertLess(time.monotonic() - begun, SOON)
        self.assertEqual(self.in_fork(self.shop.close), "it was done")
        self.assertEqual((self.shop.put({"id": "b"}), view.find().total), (1, 0))

    def test_a_fork_while_another_thread_sends(self):
        is_over = threading.Event()

        def put():
            while not is_over.is_set():
                self.shop.put({"id": "a"})

        thread = threading.Thread(target=put)
        thread.start()
        try:
            for _ in range(20):
                self.assertRegex(self.in_fork(self.shop.refresh), "^UsageError: a fork")
        finally:
            is_over.set()
            thread.join()

    def test_the_program_ends_though_a_fork_lives(self):
        self.in_fork(lambda: None, stays=True)
        begun = time.monotonic()
        self.shop.close()
        self.assertLess(time.monotonic() - begun, jasminedome.program._PATIENCE)
        self.assertEqual(self.shop._program._child.returncode, 0)


class Deaths(support.ShopTest):
    def test_each_call_raises_an_exception_of_its_own(self):
        os.kill(self.shop.pid, signal.SIGKILL)
        seen = []
        for n in range(1_000):
            try:
                self.shop.put({"id": "x", "title": f"{n}" * 1_000})
            except ProgramEnded as error:
                seen.append((id(error), len(list(frames(error))), error))
        self.assertEqual(len({id(error) for *_, error in seen}), 1_000)
        self.assertEqual({depth for _, depth, _ in seen[10:]}, {seen[-1][1]})
        self.assertEqual({error.status for *_, error in seen}, {-signal.SIGKILL})


def frames(error):
    traceback = error.__traceback__
    while traceback is not None:
        yield traceback.tb_frame
        traceback = traceback.tb_next


if __name__ == "__main__":
    unittest.main()
