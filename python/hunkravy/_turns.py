"""Objects whose methods threads call in turn."""

from __future__ import annotations

import contextlib
import os
import sys
import threading
from typing import Any, ContextManager, cast

from . import _native


def waited_for(lock: Any) -> ContextManager[Any]:
    """Returns a lock. It raises an error if the interpreter ends, since a thread that has the lock then never goes on."""
    if sys.is_finalizing():
        if not lock.acquire(False):
            raise RuntimeError("a method is called in another thread, and the interpreter ends")
        lock.release()
    return cast(ContextManager[Any], lock)


def process() -> tuple[int, int]:
    """Returns this process. The numbers of one and of its child can be equal: both can be the first of a container."""
    return os.getpid(), _native.forks()


class Turns:
    """An object with a lock, so that threads take turns."""

    def __init__(self) -> None:
        # By the number of forks: after one a thread of the other process may have the lock, for ever. Entering a lock whose
        # methods are C is one piece, so no exception of a signal handler keeps it locked.
        self._locks: dict[int, Any] = {}

    def _turn(self) -> ContextManager[Any]:
        """Returns the lock. There is none if `__init__` has raised, and this thread may hold it in a method beneath."""
        if waited_for is None:
            # The interpreter clears modules before it drops the last objects.
            raise RuntimeError("the interpreter ends")
        locks = vars(self).get("_locks")
        if locks is None:
            return contextlib.nullcontext()
        forks = _native.forks()
        owner = locks.get(forks) or locks.setdefault(forks, threading.RLock())
        if owner._is_owned():
            raise RuntimeError("reentrant call")
        return waited_for(owner)
