"""Bodies of requests, read within limits of size and time."""

from __future__ import annotations

import asyncio
from typing import Any, AsyncIterator, List

from starlette.requests import Request

from .problems import Problem, unread
from .service import parsed

_MOST_LINE = 16_384  # bytes of a line of a bulk: more than any item has


def too_large(most: int) -> Problem:
    """A body or a line that passes its limit."""
    return Problem(413, "TooLargeBody", f"the body has more than {most:,} bytes")


async def chunks(request: Request, most: int, seconds: float) -> AsyncIterator[bytes]:
    """The body, piece by piece: at most `most` bytes of it, each piece within so many seconds.

    Raises Problem, 413 or 408, where it passes these.
    """
    told = request.headers.get("content-length", "")
    if told.isdigit() and int(told) > most:
        raise too_large(most)
    stream = request.stream().__aiter__()
    size = 0
    while True:
        try:
            chunk = await asyncio.wait_for(stream.__anext__(), seconds)
        except StopAsyncIteration:
            return
        except asyncio.TimeoutError:
            raise Problem(408, "TooSlow", f"nothing of the body came for {seconds:g} s") from None
        size += len(chunk)
        if size > most:
            raise too_large(most)
        yield chunk


async def json_body(request: Request, most: int, seconds: float, otherwise: Any = None) -> Any:
    """The JSON of a body, all of it within so many seconds; `otherwise` where it is empty. Raises Problem."""

    async def whole() -> bytes:
        return b"".join([chunk async for chunk in chunks(request, most, seconds)])

    try:
        body = await asyncio.wait_for(whole(), seconds)
    except asyncio.TimeoutError:
        raise Problem(408, "TooSlow", f"the body took more than {seconds:g} s") from None
    if not body.strip() and otherwise is not None:
        return otherwise
    return parsed_body(body)


def parsed_body(body: bytes) -> Any:
    """The value of a body of JSON. Raises Problem."""
    try:
        return parsed(body)
    except (ValueError, RecursionError) as error:
        raise unread(f"no JSON: {error}") from None


async def line_batches(request: Request, most: int, seconds: float, count: int) -> AsyncIterator[List[bytes]]:
    """The lines of a body, so many at a time, empty ones too. Raises Problem, also for a line that no item could fill."""
    rest, lines = b"", []
    async for chunk in chunks(request, most, seconds):
        parts = (rest + chunk).split(b"\n")
        rest = parts.pop()
        if len(rest) > _MOST_LINE or any(len(each) > _MOST_LINE for each in parts):
            raise Problem(413, "TooLargeBody", f"a line has more than {_MOST_LINE:,} bytes")
        lines += parts
        while len(lines) >= count:
            yield lines[:count]
            lines = lines[count:]
    lines += [rest] if rest else []
    if lines:
        yield lines
