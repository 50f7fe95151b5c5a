"""Digests of all that a token shows, by which replicas find that one of them shows something else."""

from __future__ import annotations

import hashlib
from collections import Counter
from typing import List, Mapping

from .engine import Engine, no_more, read_ok

AUDITOR = 3
"""The session under which a digest is made."""

_HEAD = b"%d OK " % AUDITOR
_PAGE = 1_000  # hits, labels, and texts at once: readers wait for no more than that


async def digest_of(engine: Engine, token: int, fields: Mapping[str, str]) -> str:
    """A digest of every item, every order and every count under a token that the auditor's session holds.

    Items are read from their files, so that a file that has rotted is seen. Raises the Refusal of a line, which tells of
    this machine, and ProgramEnded.
    """
    digest = hashlib.sha256()
    sorts = [b".", *(b"+" + name.encode() for name, kind in sorted(fields.items()) if kind in ("number", "keyword"))]
    for sort in sorts:
        after = b"."
        while True:
            line = b"%d FIND %d %d %b %b *:*" % (AUDITOR, token, _PAGE, sort, after)
            reply = await engine.ask(line, _HEAD, lambda told: int(told.split(b" ", 1)[0]))
            read_ok(reply, _HEAD)
            digest.update(reply)
            hits = [hit.split(b" ", 3) for hit in reply.split(b"\n")[1:-1]]
            if sort == b"." and hits:
                digest.update(await _texts(engine, token, [hit[2] for hit in hits]))
            if len(hits) < _PAGE:
                break
            after = hits[-1][1]
    for name in (name.encode() for name, kind in sorted(fields.items()) if kind == "facet"):
        line = b"%d FACETS %d %b %d *:*" % (AUDITOR, token, name, _PAGE)
        reply = await engine.ask(line, _HEAD, lambda told: min(_PAGE, int(told.split(b" ")[1])))
        read_ok(reply, _HEAD)
        digest.update(reply)
    return digest.hexdigest()


async def _texts(engine: Engine, token: int, ids: List[bytes]) -> bytes:
    lines = b"".join(b"%d GET %d %b\n" % (AUDITOR, token, id) for id in ids)
    replies = await engine.say(lines, len(ids), b"", no_more)
    if replies.count(b"\n" + _HEAD) + replies.startswith(_HEAD) != len(ids):
        for reply in replies.split(b"\n")[:-1]:
            read_ok(reply, _HEAD)
    return replies


def outvoted(name: str, told: Mapping[str, str]) -> bool:
    """Whether more replicas have told one other digest than have told that of the named one."""
    if name not in told:
        return False
    votes = Counter(told.values())
    return votes[told[name]] < max(votes.values())
