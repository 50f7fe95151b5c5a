"""The document in which the service describes itself: OpenAPI 3.0."""

from __future__ import annotations

import re
from typing import Any, Dict, Iterable, Tuple

from ..version import __version__
from .settings import WRITE

_ABOUT_ALL = "Search over a catalogue whose views hold still."

_ABOUT = {
    "search": "A page of one view: hits, counts of labels, histograms. Without a token, of the newest view.",
    "bulk": "Puts the items of lines of JSON, or takes out what a line {\"delete\": id} names; one answer a line.",
    "get": "An item as it was put, of one view.",
    "put": "Puts an item in place of the one with its id.",
    "delete": "Takes an item out, if it is there.",
    "delete_where": "Takes out all that words, query and filters match together.",
    "commit": "Keeps what was written, over a loss of power too.",
    "show": "Makes a view of what was written.",
    "backup": "The newest commit, as a tar.",
    "token": "The token of the newest view.",
    "metrics": "Counts and times for Prometheus.",
    "health": "Whether the program answers.",
    "openapi": "This document.",
}

_STATUSES = {
    "400": "the request can't be read",
    "401": "no key, or none of this service",
    "403": "the key is for reading alone",
    "404": "there is no such item, or no such path",
    "408": "the body came too slowly",
    "409": "there is no folder or no commit to be copied, or the catalogue is written or kept elsewhere",
    "410": "the view isn't kept any more; newest is the token of the newest one",
    "413": "the body is too large",
    "415": "the body's type isn't the one that is asked for",
    "422": "the program or the service refuses what is asked; number is the program's",
    "503": "too many requests wait, or the program has ended",
    "504": "the program didn't answer in time; was_sent says whether it may be done yet",
    "507": "a device failed, or memory or a number was wanting",
}

_SENT = {
    "search": ("application/json", "Search"),
    "bulk": ("application/x-ndjson", "Item"),
    "put": ("application/json", "Item"),
    "delete_where": ("application/json", "Part"),
    "commit": ("application/json", "Commit"),
}

_ANSWERED = {
    "search": ("application/json", "Found"),
    "bulk": ("application/x-ndjson", "Answer"),
    "get": ("application/json", "Item"),
    "backup": ("application/x-tar", "Bytes"),
    "metrics": ("text/plain", "Bytes"),
}


def _object(**members: Any) -> Dict[str, Any]:
    return {"type": "object", "properties": members}


def _list(of: Dict[str, Any]) -> Dict[str, Any]:
    return {"type": "array", "items": of}


_TEXT = {"type": "string"}
_NUMBER = {"type": "integer"}
_NAMES = _list(_TEXT)
_ANY: Dict[str, Any] = {}

_SEARCHED = {
    "words": {**_TEXT, "description": "What a visitor typed: every word, the last one as a beginning."},
    "fields": {**_NAMES, "description": "The fields in which words are looked for."},
    "query": {"description": "A query's text, or a part: {field, is|in|begins|words|from, to}, {all}, {any}, {none}."},
    "filters": {"type": "object", "description": "By the field a value, a list of values, or {from, to}."},
}

_SCHEMAS: Dict[str, Dict[str, Any]] = {
    "Item": {"type": "object", "required": ["id"], "properties": {"id": {**_TEXT, "maxLength": 64}}},
    "Part": _object(**_SEARCHED),
    "Search": _object(
        **_SEARCHED, sort={**_TEXT, "description": "+field or -field"}, after=_NUMBER,
        count={**_NUMBER, "default": 20, "maximum": 1000}, facets=_NAMES, labels={**_NUMBER, "default": 20},
        items={"type": "boolean", "default": True}, highlight=_NAMES,
        histograms={"type": "object", "description": "By the field a list of rising edges."},
    ),
    "Found": _object(
        token=_TEXT, newest=_TEXT, total=_NUMBER,
        next={**_NUMBER, "nullable": True, "description": "The mark of the next page."},
        hits=_list(_object(id=_TEXT, number=_NUMBER, key=_ANY, item=_ANY, highlights=_ANY)),
        facets={"type": "object"}, histograms={"type": "object"},
    ),
    "Answer": _object(line=_NUMBER, write=_NUMBER, status=_NUMBER, error=_TEXT, message=_TEXT, number=_NUMBER),
    "Done": _object(write=_NUMBER, commit=_NUMBER, token=_TEXT),
    "Commit": _object(text={**_TEXT, "maxLength": 256}),
    "Problem": _object(error=_TEXT, message=_TEXT, number=_NUMBER, place=_NUMBER, detail=_TEXT, newest=_TEXT, was_sent=_ANY),
    "Bytes": {"type": "string", "format": "binary"},
}  # fmt: skip


def document(endpoints: Iterable[Tuple[str, str, str, str]], root: str = "") -> Dict[str, Any]:
    """The document for endpoints, each a path, a method, a name and the right that it needs; `root` is where they stand."""
    paths: Dict[str, Dict[str, Any]] = {}
    for path, method, name, right in endpoints:
        plain = re.sub(r"\{(\w+):\w+\}", r"{\1}", path)
        paths.setdefault(plain, {})[method.lower()] = _operation(plain, name, right)
    return {
        "openapi": "3.0.3",
        "info": {"title": "Jasminedome", "version": __version__, "description": _ABOUT_ALL},
        "servers": [{"url": root or "/"}],
        "paths": paths,
        "components": {"schemas": _SCHEMAS, "securitySchemes": {"key": {"type": "http", "scheme": "bearer"}}},
    }


def _operation(path: str, name: str, right: str) -> Dict[str, Any]:
    content, schema = _ANSWERED.get(name, ("application/json", "Done"))
    told = {"200": {"description": "done", "content": {content: {"schema": _ref(schema)}}}}
    problem = {"application/json": {"schema": _ref("Problem")}}
    told.update({status: {"description": text, "content": problem} for status, text in _STATUSES.items()})
    operation: Dict[str, Any] = {"operationId": name, "summary": _ABOUT[name], "responses": told}
    parameters = [_parameter("path", "id", "The item's id.", True)] if "{id}" in path else []
    if name in ("search", "get"):
        parameters.append(_parameter("query", "token", "The view, as an earlier answer named it."))
    if right == WRITE and name in ("put", "delete", "delete_where", "bulk"):
        parameters.append(_parameter("query", "commit", "true: commit before the answer."))
        parameters.append(_parameter("query", "show", "true: make a view of it before the answer."))
    operation.update({"parameters": parameters} if parameters else {})
    operation.update({"security": [{"key": []}]} if right else {})
    if name in _SENT:
        sent, body = _SENT[name]
        operation["requestBody"] = {"content": {sent: {"schema": _ref(body)}}}
    return operation


def _parameter(where: str, name: str, about: str, is_required: bool = False) -> Dict[str, Any]:
    return {"in": where, "name": name, "description": about, "required": is_required, "schema": _TEXT}


def _ref(schema: str) -> Dict[str, str]:
    return {"$ref": f"#/components/schemas/{schema}"}
