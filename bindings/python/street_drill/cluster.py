"""Where a region's forecasts are made: on this machine's cores, or on a Dask cluster."""

import contextlib
import ctypes
import logging
import multiprocessing
import re
import signal
import threading
from collections.abc import Callable, Iterator
from concurrent.futures import BrokenExecutor, Future, ProcessPoolExecutor
from typing import Any

from .errors import Mistake
from .library import LibraryMissing
from .threads import NoWorker

# Of Linux's sys/prctl.h.
_PR_SET_PDEATHSIG = 1
_ADDRESS = re.compile(r"((tcp|tls)://)?([\w.-]+|\[[\da-f:.]+\]):\d{1,5}", re.ASCII | re.IGNORECASE)


@contextlib.contextmanager
def mapping(scheduler: str | None, workers: int) -> Iterator[Callable[..., Any]]:
    """`map` on so many processes of this machine, or on the workers of the cluster whose scheduler has that address."""
    if scheduler is None:
        with _processes(workers) as mapped:
            yield mapped
        return
    with _client(scheduler) as client:
        try:
            yield client.get_executor().map
        except (Mistake, LibraryMissing):
            raise
        except Exception as error:
            # A worker that lacks the package or is lost raises whatever it likes.
            sentence = f"{type(error).__name__} {error}".splitlines()[0]
            raise Mistake(scheduler, f"the cluster failed: {sentence}") from error


@contextlib.contextmanager
def _processes(workers: int) -> Iterator[Callable[..., Any]]:
    """One worker needs no other process."""
    if workers == 1:
        yield map
        return
    try:
        with ProcessPoolExecutor(workers, initializer=_end_with_parent) as processes:
            _start(processes)
            yield processes.map
    except BrokenExecutor as error:
        raise Mistake("--workers", "a worker ended before its forecast") from error


def _start(processes: ProcessPoolExecutor) -> None:
    """Makes a first call, since the processes and threads of the pool start with it, and some of them may not.

    Those that did would wait for ever then, and this process for them, so they are ended.
    """
    others = multiprocessing.active_children()
    started: Future[None] = Future()
    try:
        with _told_threads(started):
            processes.submit(int).add_done_callback(lambda call: started.set_result(None))
            started.result()
    except (RuntimeError, OSError) as error:
        for process in multiprocessing.active_children():
            if process not in others:
                process.kill()
        processes.shutdown(wait=False)
        raise NoWorker(str(error)) from error


@contextlib.contextmanager
def _told_threads(started: "Future[None]") -> Iterator[None]:
    """The pool's own thread starts another, and where it cannot would end by a traceback alone."""
    before, threading.excepthook = threading.excepthook, lambda told: started.set_exception(told.exc_value)
    try:
        yield
    finally:
        threading.excepthook = before


def _end_with_parent() -> None:
    """A worker whose command was ended by a signal would wait for its next call for ever."""
    ctypes.CDLL(None).prctl(_PR_SET_PDEATHSIG, signal.SIGKILL)


def _client(scheduler: str) -> Any:
    try:
        from distributed import Client
    except ImportError as error:
        raise Mistake("--scheduler", "needs the package distributed (Debian's python3-distributed)") from error
    if not _ADDRESS.fullmatch(scheduler):
        raise Mistake(scheduler, "is no address HOST:PORT")
    # A lost scheduler would be logged by several tracebacks; the mistake says it in a line.
    logging.disable(logging.ERROR)
    try:
        client = Client(scheduler, timeout=10, set_as_default=False)
    except (OSError, OverflowError) as error:
        raise Mistake(scheduler, "no Dask scheduler answers there") from error
    if not client.scheduler_info()["workers"]:
        client.close()
        raise Mistake(scheduler, "the scheduler has no workers")
    return client
