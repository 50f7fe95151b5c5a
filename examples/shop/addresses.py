"""The shop's addresses, as an app around the HTTP service: the page, its few files, and the staff's form."""

from __future__ import annotations

import re
import secrets
from decimal import Decimal, InvalidOperation
from pathlib import Path
from typing import Any, Callable, Dict, List, Optional, Tuple
from urllib.parse import parse_qs

from page import Form, address, page, price_text, writes
from sample import COLORS, KINDS, item
from starlette.applications import Starlette
from starlette.concurrency import run_in_threadpool
from starlette.requests import Request
from starlette.responses import FileResponse, PlainTextResponse, RedirectResponse, Response
from starlette.routing import Mount, Route
from store import GROUPS, PRICES, SORTS, Store, Wish

from jasminedome import JasminedomeError
from jasminedome.http import Keys, Problem, make_app
from jasminedome.http.bodies import chunks

HERE = Path(__file__).resolve().parent
FILES = {"style.css": "text/css", "page.js": "text/javascript", "icons.svg": "image/svg+xml", "icon.svg": "image/svg+xml"}

_POLICY = "default-src 'none'; img-src 'self'; style-src 'self' 'unsafe-inline'; script-src 'self'; connect-src 'self'"
_POLICY += "; form-action 'self'; base-uri 'none'; frame-ancestors 'none'"
_SAFE = {"X-Content-Type-Options": "nosniff", "Content-Security-Policy": _POLICY}
_TOKEN = re.compile(r"[0-9]{1,19}(-[0-9a-f]{8})?\Z", re.ASCII)
_NUMBER = re.compile(r"[0-9]{1,9}\Z", re.ASCII)
_MAX_FORM = 10_000  # bytes
_SECONDS = 20.0  # in which a form has to come
_MAX_TYPED = 200
_MAX_LABELS = 8  # of a group, so that no query gets too many clauses
_MAX_LABEL = 128  # bytes, as the program has it
_MAX_PRICE = Decimal(1_000_000)

_Asked = Dict[str, List[str]]


class Refused(Exception):
    """What the staff wrote can't be an item; says why."""


def shop(store: Store) -> Starlette:
    """The shop: its page, and the service below /api. There everybody may read, and nobody has the key for writing."""
    visited = _Shop(store)
    routes = [
        Route("/", visited.look),
        Route("/staff", visited.change, methods=["POST"]),
        *(Route(f"/{name}", _file(name, kind)) for name, kind in FILES.items()),
        Mount("/api", make_app(store.service, Keys(write=secrets.token_hex()))),
    ]
    return Starlette(routes=routes, exception_handlers={JasminedomeError: _failed, Problem: _refused})


class _Shop:
    """What is answered to visitors and to the staff. What waits for the catalogue does so in a thread."""

    def __init__(self, store: Store) -> None:
        self._store = store

    def look(self, request: Request) -> Response:
        """The page that is asked for."""
        return self._page(parse_qs(request.url.query))

    async def change(self, request: Request) -> Response:
        """A change by the staff, from this page and no other."""
        if not _comes_from_here(request):
            return PlainTextResponse("This form isn't from here.", 403, _SAFE)
        body = b"".join([chunk async for chunk in chunks(request, _MAX_FORM, _SECONDS)])
        asked = parse_qs(body.decode(errors="replace"), keep_blank_values=True)
        return await run_in_threadpool(self._change, asked)

    def _page(self, asked: _Asked, form: Optional[Form] = None, said: str = "") -> Response:
        wish = _wish(asked)
        told = _one(asked, "t")
        view = self._store.view(told) if _TOKEN.match(told) else None
        if view is None:
            more = {"gone": told} if _TOKEN.match(told) else {}
            return _redirect(address(self._store.newest, wish, **more))
        if _TOKEN.match(_one(asked, "gone")):
            said = f"The view of {writes(_one(asked, 'gone')):,} isn't kept any more: this is the newest."
        form = form or self._form(_one(asked, "edit"), _done(asked))
        text = page(self._store.shelf(view, wish), wish, self._store.newest, form, said)
        headers = {**_SAFE, "Cache-Control": "no-store"}
        return Response(text.encode(errors="replace"), 400 if form.is_refused else 200, headers, "text/html")

    def _form(self, id: str, said: str) -> Form:
        try:
            found = self._store.item(id) if id else None
        except JasminedomeError as error:
            return Form({}, said=str(error), is_refused=True)
        if found is None:
            return Form({}, said=f"There is no {id} any more." if id else said, is_refused=bool(id))
        values = {name: ", ".join(map(str, found.get(name) or [])) for name in GROUPS}
        cents = price_text(found.get("price")).lstrip("€").replace(",", "")
        return Form({**values, "id": id, "title": str(found.get("title", "")), "price": cents}, False, said)

    def _change(self, asked: _Asked) -> Response:
        values = {name: _one(asked, name).strip() for name in ("id", "title", "kind", "brand", "color", "price")}
        back = parse_qs(_one(asked, "back").partition("?")[2].partition("#")[0])
        is_gone = _one(asked, "do") == "delete"
        try:
            if is_gone:
                self._store.delete(values["id"])
            else:
                self._store.put(_item(values))
        except (Refused, JasminedomeError) as error:
            return self._page(back, Form(values, said=f"Not saved: {error}", is_refused=True))
        token = _one(back, "t")
        done = {"out": values["id"]} if is_gone else {"edit": values["id"], "saved": values["id"]}
        return _redirect(address(token if _TOKEN.match(token) else None, _wish(back), **done) + "#staff", 303)


def _file(name: str, kind: str) -> Callable[[Request], Response]:
    headers = {**_SAFE, "Cache-Control": "max-age=600"}
    return lambda _: FileResponse(HERE / name, media_type=kind, headers=headers)


def _redirect(to: str, status: int = 302) -> Response:
    return RedirectResponse(to, status, _SAFE)


def _comes_from_here(request: Request) -> bool:
    # A page of somebody else may send a form here too, by its address or under a name that it gave to this machine.
    host = request.headers.get("host", "")
    name, _, port = host.rpartition(":")
    server = request.scope.get("server") or ("", 0)
    is_own = name in ("127.0.0.1", "localhost") and port == str(server[1])
    return is_own and request.headers.get("origin") in (None, f"http://{host}")


def _failed(_: Request, error: Exception) -> Response:
    return PlainTextResponse(f"The catalogue doesn't answer: {error}", 503, _SAFE)


def _refused(_: Request, error: Exception) -> Response:
    assert isinstance(error, Problem)
    return PlainTextResponse(error.message, error.status, {**_SAFE, "Connection": "close"})


def _one(asked: _Asked, name: str) -> str:
    return asked.get(name, [""])[0]


def _done(asked: _Asked) -> str:
    saved, out = _one(asked, "saved"), _one(asked, "out")
    return f"{saved} is saved, for the next view." if saved else f"{out} is out, from the next view on." if out else ""


def _wish(asked: _Asked) -> Wish:
    chosen: List[Tuple[str, Tuple[str, ...]]] = []
    for group in GROUPS:
        labels = tuple(dict.fromkeys(each for each in asked.get(group, []) if _is_label(each)))[:_MAX_LABELS]
        chosen += [(group, labels)] if labels else []
    price, sort, number = (_one(asked, name) for name in ("price", "sort", "page"))
    return Wish(
        _one(asked, "q").strip()[:_MAX_TYPED],
        tuple(chosen),
        price if price in PRICES else "",
        sort if sort in SORTS else "",
        max(1, int(number)) if _NUMBER.match(number) else 1,
    )


def _is_label(text: str) -> bool:
    return text.isprintable() and len(text.encode(errors="replace")) <= _MAX_LABEL


def _item(values: Dict[str, str]) -> Dict[str, Any]:
    try:
        price = Decimal(values["price"].replace(",", "."))
    except InvalidOperation:
        raise Refused("the price is no number") from None
    if not price.is_finite() or not 0 <= price < _MAX_PRICE or price != round(price, 2):
        raise Refused("the price isn't one in euros and cents")
    if not values["title"]:
        raise Refused("the title is missing")
    if values["kind"] not in KINDS:
        raise Refused("there is no such kind")
    colors = [each.strip().lower() for each in values["color"].split(",") if each.strip()]
    unknown = [each for each in colors if each not in COLORS]
    if unknown:
        raise Refused(f"{unknown[0]} is none of {', '.join(COLORS)}")
    brand = [values["brand"]] if values["brand"] else []
    return {**item(values["id"], values["title"], values["kind"], values["brand"], colors, int(price * 100)), "brand": brand}
