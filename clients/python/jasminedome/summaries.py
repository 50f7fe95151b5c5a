"""What a load tells in the end, in lines: the fields, the ids that came again, and the lines that were refused."""

from __future__ import annotations

from collections import Counter
from typing import Dict, List, Sequence, Tuple

from .errors import JasminedomeError, Refusal, UsageError
from .loading import RefusedLine
from .plans import Plan

_SHOWN = 20  # refused lines that are told one by one
_REPEATS = 5  # ids that come again which are told


def plan_lines(plan: Plan) -> List[str]:
    """What a summary tells of the fields."""
    lines = ["fields: " + ", ".join(f"{field} {kind}" for field, kind in plan.fields.items())]
    renamed = {column: field for column, field in plan.names.items() if column != field}
    if renamed:
        lines.append("renamed: " + ", ".join(f"{column!r} to {field}" for column, field in renamed.items()))
    return lines


def repeated_lines(count: int, repeats: Sequence[Tuple[str, int, int]]) -> List[str]:
    """What a summary tells of ids that came again: how many, and some of them with both lines."""
    if not count:
        return []
    lines = [f"{count:,} {'id comes' if count == 1 else 'ids come'} again, and the last of each counts:"]
    lines += [f"  line {line:,}: {id}, as in line {first:,}" for id, first, line in repeats[:_REPEATS]]
    return lines + ([f"  and {count - _REPEATS:,} more"] if count > _REPEATS else [])


def refused_lines(refused: Sequence[RefusedLine]) -> List[str]:
    """What a summary tells of refused lines."""
    if not refused:
        return []
    reasons: Dict[str, int] = Counter(_reason(each.error) for each in refused)
    lines = [f"{len(refused):,} refused:"]
    lines += [f"  line {each.line:,}: {each.error}" for each in refused[:_SHOWN]]
    if len(refused) > _SHOWN:
        lines.append(f"  and {len(refused) - _SHOWN:,} more; in all:")
        lines += [f"  {count:,} times: {reason}" for reason, count in Counter(reasons).most_common()]
    if any(isinstance(each.error, UsageError) and "UTF-8" in str(each.error) for each in refused):
        lines.append("what isn't UTF-8 is read by --encoding: latin-1 or cp1252, say")
    return lines


def _reason(error: JasminedomeError) -> str:
    return f"{error.text} (refusal {error.number})" if isinstance(error, Refusal) else str(error).partition(": ")[0]
