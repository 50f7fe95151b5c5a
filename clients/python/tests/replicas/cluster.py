"""A PostgreSQL of the tests' own, in a temporary folder, and why there may be none."""

import atexit
import functools
import glob
import os
import pwd
import shutil
import socket
import subprocess
import tempfile
from pathlib import Path

USER = "postgres"
MEMORY = "/dev/shm"


def initdb():
    """The newest initdb of this machine; None where there is none."""
    found = sorted(glob.glob("/usr/lib/postgresql/*/bin/initdb"), key=lambda path: int(path.split("/")[4]))
    return found[-1] if found else shutil.which("initdb")


def wanting():
    """What these tests need and this machine doesn't have; None where they can be run."""
    try:
        import psycopg2  # noqa: F401
    except ImportError:
        return "psycopg2 (apt-get install python3-psycopg2)"
    if initdb() is None:
        return "PostgreSQL (apt-get install postgresql)"
    if os.getuid() == 0:
        try:
            pwd.getpwnam(USER)
        except KeyError:
            return f"the user {USER}, since PostgreSQL doesn't run as root"
    return None


def free_port():
    with socket.socket() as taken:
        taken.bind(("127.0.0.1", 0))
        return taken.getsockname()[1]


class Cluster:
    """A running server; `dsn` leads to it."""

    def __init__(self, *settings, room=None):
        """`settings` are lines of postgresql.conf, `room` is the folder that its own is made in."""
        self.top = Path(tempfile.mkdtemp(prefix="jasminedome-postgres-", dir=room))
        self._as = ["runuser", "-u", USER, "--"] if os.getuid() == 0 else []
        if self._as:
            shutil.chown(self.top, USER)
        self.port = free_port()
        self.dsn = f"host=127.0.0.1 port={self.port} user={USER} dbname=postgres"
        self._run("initdb", "-D", "data", "-A", "trust", "--no-locale", "-E", "UTF8", "-U", USER, "--no-sync")
        lines = [f"port = {self.port}", "listen_addresses = '127.0.0.1'", f"unix_socket_directories = '{self.top}'"]
        with open(self.top / "data" / "postgresql.conf", "a") as out:
            out.write("\n".join([*lines, *settings, ""]))
        self.start()

    def start(self):
        self._run("pg_ctl", "-D", "data", "-l", "log", "-w", "start")

    def stop(self, mode="immediate"):
        self._run("pg_ctl", "-D", "data", "-w", "-m", mode, "stop")

    def end(self):
        """Stops it, if it runs, and deletes it."""
        try:
            self.stop()
        except subprocess.CalledProcessError:
            pass
        shutil.rmtree(self.top)

    def _run(self, what, *words):
        command = [*self._as, str(Path(initdb()).parent / what), *words]
        silent = {stream: subprocess.DEVNULL for stream in ("stdin", "stdout", "stderr")}
        subprocess.run(command, check=True, cwd=self.top, **silent)


@functools.lru_cache(maxsize=None)
def shared():
    """The one server of all tests, which is deleted in the end; in memory where there is such a folder, to be quick."""
    made = Cluster("max_wal_size = 64MB", room=MEMORY if os.access(MEMORY, os.W_OK) else None)
    me = os.getpid()
    atexit.register(lambda: os.getpid() == me and made.end())
    return made
