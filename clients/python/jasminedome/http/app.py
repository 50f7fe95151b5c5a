"""The service as an ASGI app: its endpoints, and what stands around each of them."""

from __future__ import annotations

import asyncio
import contextlib
import functools
import json
import tempfile
import time
from concurrent.futures import ThreadPoolExecutor
from dataclasses import dataclass
from typing import Any, AsyncIterator, Awaitable, BinaryIO, Callable, Dict, Generator, List, Optional, TypeVar, cast

from starlette.applications import Starlette
from starlette.exceptions import HTTPException
from starlette.requests import ClientDisconnect, Request
from starlette.responses import Response, StreamingResponse
from starlette.routing import Route

from ..backups import tar_of
from ..errors import JasminedomeError
from . import bulk
from .bodies import json_body, line_batches
from .calls import BackupCalls
from .metrics import CONTENT, Metrics
from .openapi import document
from .problems import Problem, problem_of, wrong
from .service import Service
from .settings import READ, WRITE, Keys

NDJSON = "application/x-ndjson"

_FRESH = {"cache-control": "no-store", "x-content-type-options": "nosniff"}
_SPOOLED = 1 << 20  # bytes of answers that are kept in memory
_BLOCK = 1 << 16
_Answer = Callable[[Request], Awaitable[Response]]
_T = TypeVar("_T")


@dataclass(frozen=True)
class Endpoint:
    """A path and a method, the right that they need (none where it is empty), and what answers."""

    path: str
    method: str
    name: str
    right: str
    answer: _Answer


class App:
    """The endpoints of one service. The client's calls block, so they run in threads: some for reads, others for writes."""

    def __init__(self, service: Service, keys: Keys) -> None:
        self._service = service
        self._settings = service.settings
        self._keys = keys
        self._metrics = Metrics()
        self._readers = ThreadPoolExecutor(self._settings.readers, "jasminedome read")
        self._writers = ThreadPoolExecutor(self._settings.writers, "jasminedome write")
        self._watchers = ThreadPoolExecutor(1, "jasminedome watch")  # who asks how it goes waits for nobody
        self._waiting = 0
        self.endpoints = [
            Endpoint("/search", "POST", "search", READ, self._search),
            Endpoint("/items", "POST", "bulk", WRITE, self._bulk),
            Endpoint("/items/{id:path}", "GET", "get", READ, self._get),
            Endpoint("/items/{id:path}", "PUT", "put", WRITE, self._put),
            Endpoint("/items/{id:path}", "DELETE", "delete", WRITE, self._delete),
            Endpoint("/delete", "POST", "delete_where", WRITE, self._delete_where),
            Endpoint("/commit", "POST", "commit", WRITE, self._commit),
            Endpoint("/show", "POST", "show", WRITE, self._show),
            Endpoint("/backup", "GET", "backup", WRITE, self._backup),
            Endpoint("/token", "GET", "token", READ, self._token),
            Endpoint("/metrics", "GET", "metrics", READ, self._tell_metrics),
            Endpoint("/health", "GET", "health", "", self._health),
            Endpoint("/openapi.json", "GET", "openapi", "", self._openapi),
        ]
        self.starlette = Starlette(routes=self._routes(), exception_handlers=self._handlers())

    def _routes(self) -> List[Route]:
        return [Route(each.path, self._guarded(each), methods=[each.method], name=each.name) for each in self.endpoints]

    def _handlers(self) -> Any:
        async def refuse(_: Request, error: Exception) -> Response:
            """For a path or a method that isn't there."""
            refused = cast(HTTPException, error)
            return _problem(Problem(refused.status_code, "NoEndpoint", str(refused.detail)), refused.headers)

        async def fail(_: Request, error: Exception) -> Response:
            """For a fault of this package; Starlette logs it."""
            return _problem(Problem(500, type(error).__name__, "the service has a fault, which its log tells"))

        return {HTTPException: refuse, Exception: fail}

    # Around each endpoint

    def _guarded(self, endpoint: Endpoint) -> _Answer:
        async def answer(request: Request) -> Response:
            begun = time.perf_counter()
            status = 500
            try:
                response = await self._answer(endpoint, request)
                status = response.status_code
                return response
            finally:
                self._metrics.note(endpoint.name, status, time.perf_counter() - begun)

        return answer

    async def _answer(self, endpoint: Endpoint, request: Request) -> Response:
        self._waiting += 1
        try:
            self._admit(endpoint, request)
            return await endpoint.answer(request)
        except Problem as problem:
            return _problem(problem)
        except JasminedomeError as error:
            self._service.noticed(error)
            return _problem(problem_of(error))
        except ClientDisconnect:
            return Response(status_code=400)  # nobody is there to read it
        finally:
            self._waiting -= 1

    def _admit(self, endpoint: Endpoint, request: Request) -> None:
        """Raises Problem where the request may not be answered."""
        status = self._keys.status(endpoint.right, request.headers.get("authorization", "")) if endpoint.right else 200
        if status == 401:
            raise Problem(401, "NoKey", "the header Authorization: Bearer KEY is missing, or shows no key of this service")
        if status == 403:
            raise Problem(403, "WrongKey", "this key is for reading alone")
        if not self._keys.allows_name(endpoint.right, request.headers.get("host", "")):
            raise Problem(403, "WrongName", "without a key, what writes has to name this service by its number or as localhost")
        if not endpoint.right:
            return
        if not self._service.is_open:
            raise Problem(503, "Closed", "the service is ending, or its program has ended")
        if self._waiting > self._settings.most_waiting:
            raise Problem(503, "Busy", f"{self._settings.most_waiting:,} requests wait already")

    async def _read(self, call: Callable[..., _T], *arguments: Any) -> _T:
        return await _in_thread(self._readers, call, *arguments)

    async def _write(self, call: Callable[..., _T], *arguments: Any) -> _T:
        return await _in_thread(self._writers, call, *arguments)

    async def _watch(self, call: Callable[..., _T], *arguments: Any) -> _T:
        return await _in_thread(self._watchers, call, *arguments)

    async def _json(self, request: Request, otherwise: Any = None) -> Any:
        return await json_body(request, self._settings.most_body, self._settings.body_seconds, otherwise)

    # Reading

    async def _search(self, request: Request) -> Response:
        asked = await self._json(request, {})
        token = request.query_params.get("token")
        return await self._read(lambda: _json(self._service.search(asked, token)))  # to spell 1,000 items takes time too

    async def _get(self, request: Request) -> Response:
        id = request.path_params["id"]
        source = await self._read(self._service.source, id, request.query_params.get("token"))
        if source is None:
            raise Problem(404, "NoItem", f"there is no item {id:.64}")
        return Response(source, media_type="application/json", headers=_FRESH)

    async def _token(self, _: Request) -> Response:
        return _json({"token": self._service.views.newest})

    async def _backup(self, _: Request) -> Response:
        catalogue = self._service.catalogue
        if not isinstance(catalogue, BackupCalls) or catalogue.folder is None:
            raise Problem(409, "NoFolder", "the catalogue has no folder, and so no backup")
        pieces = tar_of(catalogue)
        first = await self._write(lambda: next(pieces))  # where there is no commit, it is told in place of a stream
        headers = {**_FRESH, "content-disposition": 'attachment; filename="jasminedome.tar"'}
        return StreamingResponse(self._pieces(first, pieces), media_type="application/x-tar", headers=headers)

    async def _pieces(self, first: bytes, pieces: "Generator[bytes, None, None]") -> AsyncIterator[bytes]:
        with contextlib.closing(pieces):  # whoever goes away gives the snapshot back
            yield first
            while True:
                piece = await self._write(lambda: next(pieces, None))
                if piece is None:
                    return
                yield piece

    # Writing

    async def _put(self, request: Request) -> Response:
        id = request.path_params["id"]
        item = await self._json(request)
        if not isinstance(item, dict) or item.get("id", id) != id:
            raise wrong("the body isn't an item with the id of the address")
        return await self._wrote(request, await self._write(self._service.put, {"id": id, **item}))

    async def _delete(self, request: Request) -> Response:
        return await self._wrote(request, await self._write(self._service.delete, request.path_params["id"]))

    async def _delete_where(self, request: Request) -> Response:
        _check_type(request, "application/json")
        asked = await self._json(request)
        return await self._wrote(request, await self._write(self._service.delete_where, asked))

    async def _wrote(self, request: Request, number: int) -> Response:
        told: Dict[str, object] = {"write": number}
        if _flag(request, "commit"):
            told["commit"] = await self._write(self._service.keep)
        if _flag(request, "show"):
            told["token"] = await self._shown()
        return _json(told)

    async def _shown(self) -> str:
        """Waits for a view of what was written, in no thread where it is one of this service; answers its token."""
        if self._service.is_shared:
            return await self._write(self._service.show)
        views, end = self._service.views, time.monotonic() + self._settings.show_seconds
        wanted = views.next
        while not await self._write(self._service.shows, wanted):
            if time.monotonic() + views.wait() > end or not self._service.is_open:
                raise Problem(503, "NotShown", f"what was written is shown later: a view is made in {views.wait():.0f} s")
            await asyncio.sleep(views.wait())
        return views.newest

    async def _bulk(self, request: Request) -> Response:
        _check_type(request, NDJSON, "application/jsonl", "application/json-lines", "application/json")
        with contextlib.ExitStack() as stack:
            # Answers wait until all lines are read: a client that sends all before it reads would wait for ever else.
            told = stack.enter_context(tempfile.SpooledTemporaryFile(_SPOOLED))
            number = 1
            count = bulk.SHARED_BATCH if self._service.is_shared else bulk.BATCH
            async for lines in line_batches(request, self._settings.most_bulk, self._settings.body_seconds, count):
                answered = await self._write(bulk.answers, self._service, lines, number)
                told.write("".join(answered).encode())
                number += len(lines)
            if _flag(request, "commit"):
                await self._write(self._service.keep)
            if _flag(request, "show"):
                await self._shown()
            told.seek(0)
            kept = stack.pop_all()
        return StreamingResponse(self._blocks(cast(BinaryIO, told), kept), media_type=NDJSON, headers=_FRESH)

    async def _blocks(self, file: BinaryIO, kept: contextlib.ExitStack) -> AsyncIterator[bytes]:
        with kept:
            while True:
                block = file.read(_BLOCK)
                if not block:
                    return
                yield block

    async def _commit(self, request: Request) -> Response:
        asked = await self._json(request, {})
        text = asked.get("text", "") if isinstance(asked, dict) else None
        if not isinstance(text, str):
            raise wrong("a commit has a text, or nothing")
        return _json({"commit": await self._write(self._service.commit, text)})

    async def _show(self, _: Request) -> Response:
        return _json({"token": await self._shown()})

    # Telling

    async def _health(self, _: Request) -> Response:
        if not self._service.is_open:
            raise Problem(503, "Closed", "the service is ending, or its program has ended")
        stat = await self._watch(self._service.stat)
        told: Dict[str, object] = {"status": "ok", "token": self._service.views.newest}
        if stat is not None:
            told["writes"] = stat.writes
        return _json(told)

    async def _tell_metrics(self, _: Request) -> Response:
        text = await self._watch(self._metrics.text, self._service, self._waiting)
        return Response(text, headers={**_FRESH, "content-type": CONTENT})

    async def _openapi(self, request: Request) -> Response:
        root = request.scope.get("root_path", "")
        return _json(document([(each.path, each.method, each.name, each.right) for each in self.endpoints], root))


async def _in_thread(threads: ThreadPoolExecutor, call: Callable[..., _T], *arguments: Any) -> _T:
    return await asyncio.get_running_loop().run_in_executor(threads, functools.partial(call, *arguments))


def _json(value: object, status: int = 200, headers: Optional[Dict[str, str]] = None) -> Response:
    text = json.dumps(value, ensure_ascii=False, separators=(",", ":"))
    try:
        data = text.encode()
    except UnicodeEncodeError:  # an item may have half of a pair, which UTF-8 can't hold
        data = json.dumps(value, separators=(",", ":")).encode()
    return Response(data, status, {**_FRESH, **(headers or {})}, "application/json")


def _problem(problem: Problem, headers: Optional[Dict[str, str]] = None) -> Response:
    more = {
        401: {"www-authenticate": "Bearer"},
        408: {"connection": "close"},
        413: {"connection": "close"},
        503: {"retry-after": "1"},
    }.get(problem.status, {})
    return _json(problem.told(), problem.status, {**(headers or {}), **more})


def _flag(request: Request, name: str) -> bool:
    value = request.query_params.get(name, "false")
    if value not in ("true", "false", "1", "0"):
        raise wrong(f"{name} is true or false")
    return value in ("true", "1")


def _check_type(request: Request, *types: str) -> None:
    # A page of somebody else may have a browser send a form here, but no body of these types.
    told = request.headers.get("content-type", "").partition(";")[0].strip().lower()
    if told not in types:
        raise Problem(415, "WrongType", f"the header Content-Type has to be {types[0]}")
