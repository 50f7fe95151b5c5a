"""Many writes in one request: lines of JSON, and for each line that isn't empty one that says what became of it."""

from __future__ import annotations

import json
from typing import Any, Dict, List, Mapping, Union

from ..errors import JasminedomeError, UsageError
from .problems import problem_of
from .service import Service, parsed

BATCH = 512
"""Lines that are written at once."""

SHARED_BATCH = 4_096
"""Lines that are written at once where each time means to wait for a replica."""

Read = Union[Mapping[str, Any], UsageError]


def answers(service: Service, lines: List[bytes], first: int) -> List[str]:
    """Writes what the lines say, the first of which has this number in its body, and answers a line of JSON for each.

    Empty lines are passed over. Raises ProgramEnded and Timeout: then it isn't known what was written of these lines.
    """
    numbered = [(number, _read(line)) for number, line in enumerate(lines, first) if line.strip()]
    items = [item for _, item in numbered if not isinstance(item, UsageError)]
    written = iter(service.write_many(items)) if items else iter(())
    return [_told(number, item if isinstance(item, UsageError) else next(written)) for number, item in numbered]


def _read(line: bytes) -> Read:
    try:
        item = parsed(line)
    except (ValueError, RecursionError) as error:
        return UsageError(f"no JSON: {error}")
    return item if isinstance(item, dict) else UsageError("the line is no JSON object")


def _told(number: int, became: "Union[int, JasminedomeError]") -> str:
    told: Dict[str, object] = {"line": number}
    if isinstance(became, JasminedomeError):
        problem = problem_of(became)
        told.update(status=problem.status, **problem.told())
    else:
        told["write"] = became
    return json.dumps(told) + "\n"
