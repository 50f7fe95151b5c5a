"""An audit of a log: each batch held against its seal, and what every replica shows against what the others do."""

from __future__ import annotations

import time
from dataclasses import dataclass
from typing import Dict, Optional, Tuple

from .batches import Mark, next_seal
from .log import Log

_AT_ONCE = 200  # batches
_TURN = 0.1  # seconds between two looks
_ALIVE = 60.0  # seconds since its last word in which a replica is expected to answer


@dataclass(frozen=True)
class Audit:
    """What was found: the batches that were read, the first that isn't as it should be (None: all are), and the digest of
    each replica at `last`, a checked anchor that the audit appended. `silent` are those that told none in time.
    """

    first: int
    last: int
    batches: int
    fault: Optional[str]
    digests: Dict[str, str]
    silent: Tuple[str, ...]


def audit(log: Log, patience: float) -> Audit:
    """Audits a log and its replicas, for whose digests it waits `patience` seconds. Raises what `Log`'s calls do."""
    position = log.append([], Mark.CHECKED)
    head = log.head()
    batches, fault = _sealed(log, head.cut, head.cut_seal, position)
    expected = {row.name for row in log.replicas() if row.age < _ALIVE}
    until = time.monotonic() + patience
    while True:
        digests = log.digests(position)
        silent = tuple(sorted(expected - digests.keys()))
        if not silent or time.monotonic() > until:
            return Audit(head.cut + 1, position, batches, fault, digests, silent)
        time.sleep(_TURN)


def _sealed(log: Log, position: int, seal: bytes, last: int) -> Tuple[int, Optional[str]]:
    """How many batches behind a position have their seal, and what is wrong with the next."""
    count = 0
    while position < last:
        batches = log.batches(position, _AT_ONCE)
        for batch in batches:
            position += 1
            if batch.position != position:
                return count, f"there is no batch {position:,}"
            seal = next_seal(seal, batch.mark, batch.lines)
            if seal != batch.seal:
                return count, f"batch {position:,} isn't what its seal says"
            count += 1
        if not batches:
            return count, f"there is no batch {position + 1:,}"
    return count, None
