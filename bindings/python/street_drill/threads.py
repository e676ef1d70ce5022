"""Calls side by side, on threads."""

import contextlib
import os
from collections.abc import Callable, Iterator
from concurrent.futures import ThreadPoolExecutor
from typing import Any

from . import given


class NoWorker(RuntimeError):
    """No thread or process can be started."""


def starting(mapped: Callable[..., Any]) -> Callable[..., Any]:
    """An executor's `map`: its workers start as it takes the calls, and what a call raises comes later."""

    def start(*arguments: Any) -> Any:
        try:
            return mapped(*arguments)
        except (RuntimeError, OSError) as error:
            raise NoWorker(str(error)) from error

    return start


@contextlib.contextmanager
def mapping(workers: int | None) -> Iterator[Callable[..., Any]]:
    """`map` on so many threads, all cores where it is None; one worker needs no other thread."""
    number = given.workers(workers)
    if number == 1:
        yield map
        return
    with ThreadPoolExecutor(number or os.cpu_count()) as threads:
        yield starting(threads.map)
