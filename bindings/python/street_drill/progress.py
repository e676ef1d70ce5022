"""How far a command is, in a line on the terminal, once more than two seconds have passed."""

import contextlib
import sys
import threading
import time
from collections.abc import Iterator

_PATIENCE, _EVERY = 2.0, 1.0
_CLEAR = "\r\x1b[K"


class Progress:
    """What is done, of how much where that is known."""

    def __init__(self, what: str, total: int = 0) -> None:
        self._what, self._total = what, total
        self._number = 0
        self._begun = time.monotonic()
        self._lock = threading.Lock()
        self._is_shown = False

    def done(self) -> None:
        """One more."""
        with self._lock:
            self._number += 1

    def say(self, text: str) -> None:
        """A line that stays."""
        with self._lock:
            print(f"{self._before()}{text}", file=sys.stderr, flush=True)
            self._is_shown = False

    def show(self) -> None:
        """The line as it is now, in place of the one before."""
        with self._lock:
            of = f"{self._number} of {self._total}, " if self._total > 1 else ""
            line = f"{self._what}: {of}{time.monotonic() - self._begun:.0f} s"
            print(f"{self._before()}{line}", end="", file=sys.stderr, flush=True)
            self._is_shown = True

    def end(self) -> None:
        """The line goes."""
        with self._lock:
            print(self._before(), end="", file=sys.stderr, flush=True)

    def _before(self) -> str:
        return _CLEAR if self._is_shown else ""


class Silence(Progress):
    """Nothing is told."""

    def say(self, text: str) -> None:
        pass


def _watch(told: Progress, ended: threading.Event) -> None:
    wait = _PATIENCE
    while not ended.wait(wait):
        told.show()
        wait = _EVERY


@contextlib.contextmanager
def progress(what: str, total: int = 0, quiet: bool = False) -> Iterator[Progress]:
    """Tells it from a thread of its own, since a run in the library cannot be asked."""
    if quiet or not sys.stderr.isatty():
        yield Silence(what, total)
        return
    told, ended = Progress(what, total), threading.Event()
    watcher = threading.Thread(target=_watch, args=(told, ended), daemon=True)
    # Where no thread can be started, nothing is told.
    with contextlib.suppress(RuntimeError):
        watcher.start()
    try:
        yield told
    finally:
        ended.set()
        if watcher.is_alive():
            watcher.join()
        told.end()
