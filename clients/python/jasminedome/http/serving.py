"""Serves an app by uvicorn until it is told to stop, and stops within bounds."""

from __future__ import annotations

import contextlib
import signal
import socket
import threading
from typing import Any, Callable, Iterator, Optional, Tuple

import uvicorn

from ..errors import UsageError
from .service import Service

GRACE = 10.0
"""Seconds in which requests that are under way are answered, once it is told to stop."""


def address(listen: str) -> Tuple[str, int]:
    """The host and the port of HOST:PORT; an IPv6 address stands in brackets. Raises UsageError."""
    host, colon, port = listen.rpartition(":")
    if not colon or not host or not port.isdigit() or int(port) > 65_535:
        raise UsageError(f"{listen!r:.200} isn't HOST:PORT")
    return host.strip("[]"), int(port)


def bound(host: str, port: int) -> socket.socket:
    """A socket that listens there; port 0 is any free one. Raises OSError."""
    family = socket.AF_INET6 if ":" in host else socket.AF_INET
    listening = socket.socket(family, socket.SOCK_STREAM)
    try:
        listening.setsockopt(socket.SOL_SOCKET, socket.SO_REUSEADDR, 1)
        listening.bind((host, port))
    except BaseException:
        listening.close()
        raise
    return listening


def is_local(listening: socket.socket) -> bool:
    """Whether only this machine reaches the socket."""
    host = str(listening.getsockname()[0])
    return host.startswith("127.") or host == "::1"


def origin(listening: socket.socket) -> str:
    """The address of the socket, as a browser has it."""
    host, port, *_ = listening.getsockname()
    return f"http://[{host}]:{port}" if ":" in host else f"http://{host}:{port}"


def run(app: Any, service: Service, listening: socket.socket, on_open: Optional[Callable[[], object]] = None) -> bool:
    """Serves the app until SIGINT or SIGTERM comes; answers False where the service's program ended before.

    Then no connection is taken any more, and what is under way is answered within `GRACE` seconds. To be called in the
    main thread. The service is the caller's to close, and so to commit.
    """
    server = _Server(app, on_open)
    over = threading.Event()
    watch = threading.Thread(target=_watch, args=(service, server, over), name="jasminedome watch", daemon=True)
    watch.start()
    with _ignored(signal.SIGTERM):
        with contextlib.suppress(KeyboardInterrupt):
            server.run(sockets=[listening])
    over.set()
    watch.join()
    return not service.wait_for_end(0)


class _Server(uvicorn.Server):
    """A server that doesn't wait for ever for those who don't read their answers."""

    def __init__(self, app: Any, on_open: Optional[Callable[[], object]]) -> None:
        bare = {"lifespan": "off", "ws": "none", "access_log": False, "server_header": False}
        super().__init__(uvicorn.Config(app, log_level="warning", **bare))
        self._on_open = on_open

    async def startup(self, sockets: Any = None) -> None:
        await super().startup(sockets)
        if self._on_open is not None and not self.should_exit:
            self._on_open()

    async def shutdown(self, sockets: Any = None) -> None:
        force = threading.Timer(GRACE, lambda: setattr(self, "force_exit", True))
        force.daemon = True
        force.start()
        await super().shutdown(sockets)
        force.cancel()


def _watch(service: Service, server: _Server, over: threading.Event) -> None:
    while not over.is_set():
        if service.wait_for_end(0.2):
            server.should_exit = True
            return


@contextlib.contextmanager
def _ignored(number: "signal.Signals") -> Iterator[None]:
    """Has a signal do nothing before and behind a server that has a handler of its own: the last commit is to be made."""
    before = signal.signal(number, lambda *_: None)
    try:
        yield
    finally:
        signal.signal(number, signal.SIG_IGN if before == signal.SIG_DFL else before)
