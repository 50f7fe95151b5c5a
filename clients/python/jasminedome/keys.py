"""The keys of a dialogue, where the system has readline: a history that outlives it, and completion by the tabulator."""

from __future__ import annotations

import contextlib
import os
from pathlib import Path
from typing import Callable, Iterator, List, Optional

_LINES = 1_000  # of the history

Words = Callable[[], List[str]]


@contextlib.contextmanager
def keys(words: Words) -> Iterator[None]:
    """Has a history and completion as long as it lasts. `words` are what a line may begin with, at the time of a key."""
    try:
        import readline
    except ImportError:
        yield
        return
    complete = Completer(words, readline.get_line_buffer)
    readline.set_completer(complete)
    readline.set_completer_delims(" (+-")
    is_libedit = "libedit" in (readline.__doc__ or "")
    readline.parse_and_bind("bind ^I rl_complete" if is_libedit else "tab: complete")
    file = history_file()
    with contextlib.suppress(OSError):
        readline.read_history_file(file)
    readline.set_history_length(_LINES)
    try:
        yield
    finally:
        with contextlib.suppress(OSError):
            file.parent.mkdir(parents=True, exist_ok=True, mode=0o700)
            readline.write_history_file(file)


def history_file() -> Path:
    """Where the lines of earlier dialogues are kept: in the folder that XDG_STATE_HOME names."""
    return Path(os.environ.get("XDG_STATE_HOME") or Path.home() / ".local" / "state") / "jasminedome" / "history"


class Completer:
    """Completes the word before the cursor: a command at the beginning of a line, and the name of a field anywhere."""

    def __init__(self, words: Words, line: Callable[[], str]) -> None:
        self._words = words
        self._line = line

    def __call__(self, text: str, state: int) -> Optional[str]:
        """The possibility with this number, or None behind the last, as readline asks for them."""
        found = self.found(text)
        return found[state] if state < len(found) else None

    def found(self, text: str) -> List[str]:
        """All possibilities for a word that begins so."""
        line = self._line().lstrip()
        words = self._words()
        if line == text:
            return [word if word.endswith(":") else f"{word} " for word in words if word.startswith(text)]
        fields = [word for word in words if word.endswith(":")]
        if line.startswith((".sort", ".facets", ".fields")) and line.count(" ") == 1:
            fields = [f"{word[:-1]} " for word in fields]
        return [word for word in fields if word.startswith(text)]
