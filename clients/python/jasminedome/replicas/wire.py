"""How readers speak with a replica: lines, each answered by the length of its reply, a line feed, and so many bytes.

    FIND t ..  FACETS t ..  GET t id    as the program has them, under a token or a stamp; its reply, or GONE
    HAS t                               OK and the stamp, or GONE
    STATUS                              how the replica stands, as JSON
    WAIT position seconds               the same, once the position is shown, or the time has passed
    BASE                                the oldest base, as a tar; the connection ends behind it
"""

from __future__ import annotations

import shutil
import socket
from typing import IO, List, Sequence, Tuple, Union

from ..errors import UsageError

AT_ONCE = 32
"""How many lines may wait for replies on one connection."""

GONE = b"GONE\n"
"""The reply to a line under a token that the replica doesn't hold."""

_CONNECTING = 2.0  # seconds
_BLOCK = 1 << 16


def endpoint(address: object) -> Union[str, Tuple[str, int]]:
    """Where an address leads: the path of a socket, which has a slash, or a host and a port. Raises UsageError."""
    if isinstance(address, str) and "/" in address:
        return address
    host, _, port = address.rpartition(":") if isinstance(address, str) else ("", "", "")
    if not host or not port.isdigit() or int(port) > 65_535:
        raise UsageError(f"{address!r:.200} is no address: HOST:PORT, or the path of a socket")
    return host.strip("[]"), int(port)


class Wire:
    """A connection to a replica, over TCP or a socket of Unix, for one thread at a time.

    Calls raise OSError once it is broken, or where nothing comes in time.
    """

    def __init__(self, address: str) -> None:
        """Raises UsageError for what is no address, and OSError where nobody is there."""
        self._socket = _connected(endpoint(address))
        self._file = self._socket.makefile("rb", _BLOCK)

    def close(self) -> None:
        """Ends the connection."""
        self._file.close()
        self._socket.close()

    def ask(self, lines: Sequence[bytes], patience: float) -> List[bytes]:
        """The replies to lines that end in line feeds; each may be silent for `patience` seconds."""
        self._socket.settimeout(patience)
        replies: List[bytes] = []
        for at in range(0, len(lines), AT_ONCE):
            some = lines[at : at + AT_ONCE]
            self._socket.sendall(b"".join(some))
            replies += [self._reply() for _ in some]
        return replies

    def fetch_base(self, out: IO[bytes], patience: float) -> None:
        """Writes the tar of the replica's oldest base. Nothing can be asked afterwards."""
        self._socket.settimeout(patience)
        self._socket.sendall(b"BASE\n")
        size = self._size()
        begun = out.tell()
        shutil.copyfileobj(self._file, out)
        if out.tell() - begun != size:
            raise ConnectionError("the replica's base broke off")

    def _reply(self) -> bytes:
        size = self._size()
        data: bytes = self._file.read(size)
        if len(data) != size:
            raise ConnectionError("the replica is gone")
        return data

    def _size(self) -> int:
        told = self._file.readline(32)
        if not told.endswith(b"\n") or not told[:-1].isdigit():
            raise ConnectionError("the replica is gone")
        return int(told)


def _connected(where: Union[str, Tuple[str, int]]) -> socket.socket:
    if isinstance(where, tuple):
        found = socket.create_connection(where, _CONNECTING)
        found.setsockopt(socket.IPPROTO_TCP, socket.TCP_NODELAY, 1)
        return found
    found = socket.socket(socket.AF_UNIX)
    try:
        found.settimeout(_CONNECTING)
        found.connect(where)
    except BaseException:
        found.close()
        raise
    return found
