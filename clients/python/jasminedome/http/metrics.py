"""Counts of requests, and how the catalogue stands, as Prometheus reads them: text, version 0.0.4."""

from __future__ import annotations

import threading
import time
from collections import Counter, defaultdict
from typing import Dict, Iterator, List, Optional, Tuple

from ..stats import Stat
from .service import Service

CONTENT = "text/plain; version=0.0.4; charset=utf-8"

_STEPS = (0.001, 0.0025, 0.005, 0.01, 0.025, 0.05, 0.1, 0.25, 0.5, 1.0, 2.5, 5.0, 10.0)  # seconds


class Metrics:
    """Requests by endpoint and status, and how long they took. Any thread may call."""

    def __init__(self) -> None:
        self._lock = threading.Lock()
        self._requests: Dict[Tuple[str, int], int] = Counter()
        self._seconds: Dict[str, float] = defaultdict(float)
        self._steps: Dict[Tuple[str, float], int] = Counter()
        self._begun = time.time()

    def note(self, endpoint: str, status: int, seconds: float) -> None:
        """Counts a request."""
        with self._lock:
            self._requests[endpoint, status] += 1
            self._seconds[endpoint] += seconds
            for step in _STEPS:
                if seconds <= step:
                    self._steps[endpoint, step] += 1

    def text(self, service: Service, waiting: int) -> str:
        """All of it, with `waiting` requests that aren't answered yet. Raises what `Service.stat` raises."""
        gauges: Dict[str, Tuple[str, float]] = {
            **_of(service.stat()),
            "views_kept": ("Views that visitors may come back to.", len(service.views)),
            "requests_waiting": ("Requests that aren't answered yet.", waiting),
            "start_time_seconds": ("When the service began, since 1970.", round(self._begun, 3)),
            "commit_time_seconds": ("When the last commit was made, since 1970, or 0.", round(service.committed or 0, 3)),
        }
        lines: List[str] = []
        for name, (help, value) in gauges.items():
            lines += _head(name, "gauge", help) + [f"jasminedome_{name} {value}"]
        counters = {
            "views_gone_total": ("Requests for a view that isn't kept any more.", service.views.gone),
            "upkeep_failures_total": ("Turns of the upkeep that met an error.", service.failures),
        }
        for name, (help, value) in counters.items():
            lines += _head(name, "counter", help) + [f"jasminedome_{name} {value}"]
        with self._lock:
            lines += self._request_lines()
        return "\n".join(lines) + "\n"

    def _request_lines(self) -> Iterator[str]:
        yield from _head("requests_total", "counter", "Requests that were answered.")
        for (endpoint, status), count in sorted(self._requests.items()):
            yield f'jasminedome_requests_total{{endpoint="{endpoint}",status="{status}"}} {count}'
        yield from _head("request_seconds", "histogram", "How long requests took.")
        for endpoint, seconds in sorted(self._seconds.items()):
            count = sum(many for (name, _), many in self._requests.items() if name == endpoint)
            for step in _STEPS:
                yield f'jasminedome_request_seconds_bucket{{endpoint="{endpoint}",le="{step}"}} {self._steps[endpoint, step]}'
            yield f'jasminedome_request_seconds_bucket{{endpoint="{endpoint}",le="+Inf"}} {count}'
            yield f'jasminedome_request_seconds_sum{{endpoint="{endpoint}"}} {seconds:.6f}'
            yield f'jasminedome_request_seconds_count{{endpoint="{endpoint}"}} {count}'


def _of(stat: Optional[Stat]) -> Dict[str, Tuple[str, float]]:
    if stat is None:
        return {}
    return {
        "writes": ("Number of the last write.", stat.writes),
        "items_buffered": ("Items that wait for a segment.", stat.buffered),
        "segments": ("Segments that stand.", len(stat.segments)),
        "rows": ("Rows of all segments.", stat.rows),
        "live_rows": ("Rows that aren't deleted.", stat.live),
        "views_recorded": ("Views that the program records, of 64.", stat.recorded),
        "sets_cached": ("Sets of rows that are cached.", stat.cached),
        "files_pending": ("Files that a sweep would delete.", stat.pending),
    }


def _head(name: str, kind: str, help: str) -> List[str]:
    return [f"# HELP jasminedome_{name} {help}", f"# TYPE jasminedome_{name} {kind}"]
