"""What the tests of the HTTP service share: a Python that has Starlette, and a service in a process of its own."""

import contextlib
import http.client
import json
import os
import re
import shlex
import signal
import subprocess
import sys
import time
from pathlib import Path

import support

WANTING = "there is no Starlette or no uvicorn: apt-get install python3-starlette python3-uvicorn"
KINDS = ",".join(f"{name}:{kind}" for name, kind in support.FIELDS.items())


def _python():
    """A Python that can serve: this one, or Debian's, which sees what apt-get installs."""
    for each in (sys.executable, "/usr/bin/python3"):
        with contextlib.suppress(OSError):
            if subprocess.run([each, "-c", "import starlette, uvicorn"], stderr=subprocess.DEVNULL).returncode == 0:
                return each
    return None


PYTHON = _python()


class Server:
    """A process that serves: by the command, or by a text of Python that prints the address as the command does."""

    def __init__(self, *arguments, code=None, fields=True, **environment):
        told = {"PYTHONPATH": str(support.HERE.parent), "JASMINEDOME_PROGRAM": shlex.join(support.PROGRAM), "LC_ALL": "C.UTF-8"}
        fields = ["--field", KINDS] if fields else []
        said = ["-m", "jasminedome", "serve", "--listen", "127.0.0.1:0", "--show-every", "0", *fields, *arguments]
        self.process = subprocess.Popen(
            [PYTHON, "-c", code] if code else [PYTHON, *map(str, said)], env={**os.environ, **told, **environment},
            stdout=subprocess.PIPE, stderr=subprocess.PIPE, text=True,
        )  # fmt: skip
        self.said = self.process.stdout.readline()
        self.opened = self.process.stdout.readline() if "said again" in self.said else self.said
        found = re.search(r"open on http://[^:]+:([0-9]+)$", self.opened)
        if found is None:
            self.stop()
            raise RuntimeError(f"it isn't open: {self.said!r} {self.errors!r}")
        self.port = int(found.group(1))

    def ask(self, method, path, body=None, key=None, **headers):
        """The status of an answer and its value, which is read as its type says."""
        status, told, data = self.ask_bytes(method, path, body, key, **headers)
        kind = told.get("content-type", "")
        if kind.startswith("application/json"):
            return status, json.loads(data)
        return status, [json.loads(line) for line in data.splitlines()] if "ndjson" in kind else data

    def ask_bytes(self, method, path, body=None, key=None, **headers):
        """The status of an answer, its headers by their names in small letters, and its bytes."""
        shown = {name.replace("_", "-"): value for name, value in headers.items()}
        shown.update({"authorization": f"Bearer {key}"} if key else {})
        data = body if body is None or isinstance(body, (bytes, str)) else json.dumps(body)
        with contextlib.closing(http.client.HTTPConnection("127.0.0.1", self.port, timeout=30)) as connection:
            connection.request(method, path, data.encode() if isinstance(data, str) else data, shown)
            reply = connection.getresponse()
            return reply.status, {name.lower(): value for name, value in reply.getheaders()}, reply.read()

    def search(self, token=None, **asked):
        """What a search is answered, which has to be done."""
        status, told = self.ask("POST", "/search" + ("" if token is None else f"?token={token}"), asked)
        assert status == 200, told
        return told

    def put(self, item, show=True, commit=False):
        """Puts an item; answers what was told."""
        status, told = self.ask("PUT", f"/items/{item['id']}?show={show}&commit={commit}".lower(), item)
        assert status == 200, told
        return told

    def child(self):
        """The process id of the program that it started."""
        for stat in Path("/proc").glob("[0-9]*/stat"):
            with contextlib.suppress(OSError):
                if stat.read_text().rpartition(") ")[2].split()[1] == str(self.process.pid):
                    return int(stat.parent.name)
        raise RuntimeError("it has no child")

    def wait(self, seconds=20):
        """Its exit status, once it has ended; `errors` is then what it said on standard error."""
        try:
            _, self.errors = self.process.communicate(timeout=seconds)
        except subprocess.TimeoutExpired:
            self.process.kill()
            self.process.communicate()
            raise
        return self.process.returncode

    def stop(self, number=signal.SIGTERM):
        """Ends it by a signal; answers its exit status. A second call does nothing."""
        if self.process.returncode is None:
            with contextlib.suppress(ProcessLookupError):
                self.process.send_signal(number)
            self.wait()
        return self.process.returncode


def eventually(what, seconds=10):
    """Waits until a call answers something true; answers it."""
    end = time.monotonic() + seconds
    while True:
        found = what()
        if found:
            return found
        assert time.monotonic() < end, "it didn't come"
        time.sleep(0.05)
