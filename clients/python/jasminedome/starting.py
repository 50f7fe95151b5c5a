"""How the program is started: its command, its schema line, and what a schema line that is refused means."""

from __future__ import annotations

import os
import shlex
from pathlib import Path
from typing import List, Mapping, Optional, Sequence, Union

from .errors import DeviceFailed, FolderInUse, Refusal, UsageError
from .lines import line, number, text
from .putting import json_text

Command = Union[str, "os.PathLike[str]", Sequence[str]]
Folder = Union[str, "os.PathLike[str]"]

PROGRAM = "JASMINEDOME_PROGRAM"
"""The environment variable that names the program, with arguments as a shell would split them."""

BUNDLED = Path(__file__).with_name("bin") / "catalogue"
"""Where a wheel for Linux on x86-64 puts the program."""

MOST_THREADS = 64
"""How many threads may answer lines."""

_IN_USE = "folder in use"  # what the program says of a folder that another one has


def schema_line(fields: object, factor: object, least: object) -> str:
    """The line that opens a catalogue. Raises UsageError for what can be no schema at all."""
    if not isinstance(fields, Mapping):
        raise UsageError(f"the fields {fields!r:.200} are no mapping of names to kinds")
    kinds = {text(name, "the field"): text(kind, f"the kind of {name}") for name, kind in fields.items()}
    spelled = f"SCHEMA {number(factor, 'the factor')} {number(least, 'least')} {json_text(kinds)}"
    line(spelled)  # what can't be sent starts no program
    return spelled


def folder_path(folder: object) -> Optional[str]:
    """The path of a catalogue's folder; None where it is to be in memory. Raises UsageError for what is no path."""
    if folder is None:
        return None
    path = folder if isinstance(folder, str) else os.fspath(folder) if isinstance(folder, os.PathLike) else None
    if not isinstance(path, str) or not path or "\0" in path:
        raise UsageError(f"the folder {folder!r:.200} is no path")
    return path


def threads_of(threads: object) -> Optional[int]:
    """How many threads answer lines, 1 to 64; None where the program answers one line after another.

    Raises UsageError for another number.
    """
    if threads is None:
        return None
    count = number(threads, "the number of threads")
    if not 1 <= count <= MOST_THREADS:
        raise UsageError(f"{count} threads: 1 to {MOST_THREADS} may answer lines")
    return count


def command_for(program: object, folder: Optional[str], threads: Optional[int] = None) -> List[str]:
    """The command that starts the program over the folder, or in memory. Raises UsageError for what is no command."""
    counted = [] if threads is None else ["--threads", str(threads)]
    words = [*counted, *([] if folder is None else [folder])]
    return _command(program) + (["run", *words] if words else [])


def explained(refusal: Refusal, folder: Optional[str], fields: Mapping[str, str], last_words: str) -> Refusal:
    """A refusal of the schema line, with the folder or the fields that it is about, and why a folder doesn't open.

    `last_words` is what the program wrote to standard error.
    """
    if folder is None:
        return type(refusal)(refusal.number, None, f"the fields {dict(fields)!r:.300}")
    if not isinstance(refusal, DeviceFailed):
        return type(refusal)(refusal.number, None, f"the folder {folder}, under the fields {dict(fields)!r:.300}")
    if last_words.endswith(_IN_USE):
        return FolderInUse(refusal.number, None, folder)
    why = "isn't there" if not os.path.lexists(folder) else "is no folder" if not os.path.isdir(folder) else "can't be opened"
    return DeviceFailed(refusal.number, None, f"{folder} {why}")


def _command(program: object) -> List[str]:
    if program is None:
        try:
            named = shlex.split(os.environ.get(PROGRAM, ""))
        except ValueError as error:
            raise UsageError(f"{PROGRAM} is no command: {error}") from None
        return named or [str(BUNDLED) if BUNDLED.exists() else "catalogue"]
    if isinstance(program, os.PathLike):
        program = os.fspath(program)
    words = [program] if isinstance(program, str) else list(program) if isinstance(program, Sequence) else []
    if not words or not words[0] or not all(isinstance(word, str) for word in words):
        raise UsageError(f"the program {program!r:.200} is neither a path nor a command with arguments")
    return words
