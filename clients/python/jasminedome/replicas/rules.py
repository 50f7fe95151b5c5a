"""Which rules a program goes by: what its writes and reads mean. Replicas of one log have to go by the same."""

from __future__ import annotations

import re
import subprocess
from typing import Sequence

from ..version import __version__

_VERSION = re.compile(r"jasminedome ([0-9]+\.[0-9]+\.[0-9]+\S*)\Z")
_PATIENCE = 10.0  # seconds


def rules_of(version: str) -> str:
    """The rules of a version: programs of one major and minor number answer each line alike."""
    return ".".join(version.split(".")[:2])


def own_rules() -> str:
    """The rules of the programs that this package is made for."""
    return rules_of(__version__)


def program_version(command: Sequence[str]) -> str:
    """The version that the program tells of itself; this package's where it tells none."""
    try:
        told = subprocess.run(
            [*command, "--version"], stdin=subprocess.DEVNULL, stdout=subprocess.PIPE, stderr=subprocess.DEVNULL,
            timeout=_PATIENCE, check=False,
        )  # fmt: skip
    except (OSError, subprocess.TimeoutExpired):
        return __version__
    found = _VERSION.match(told.stdout.decode(errors="replace").strip())
    return found.group(1) if found and told.returncode == 0 else __version__
