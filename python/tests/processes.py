"""Calls in a forked process, and in another thread."""

import contextlib
import os
import signal
import threading
import traceback
from collections.abc import Callable, Iterator


def returns_in_a_fork(call: Callable[[], object], fork: Callable[[], int] = os.fork) -> bool:
    """Whether the call returns there, without an exception and within a minute."""
    child = fork()
    if child == 0:
        signal.alarm(60)
        try:
            call()
        except BaseException:
            traceback.print_exc()
            os._exit(1)
        os._exit(0)
    return os.waitpid(child, 0)[1] == 0


@contextlib.contextmanager
def repeated(call: Callable[[], object]) -> Iterator[None]:
    """Makes a call again and again in another thread while a block runs."""

    def run() -> None:
        while not is_done.is_set():
            with contextlib.suppress(KeyError, RuntimeError, ValueError):
                call()

    is_done, thread = threading.Event(), threading.Thread(target=run)
    thread.start()
    try:
        yield
    finally:
        is_done.set()
        thread.join()
