"""Forks: objects with locks or threads keep working in the child.

A child has one thread, the one that forked. The other threads are gone, and locks that they held would be held for
ever. So the thread that forks first takes the locks of all parts; in the child each part then makes new locks and
restarts its threads.

A part is registered once it is complete, at the end of its `__init__`, and is forgotten when nothing else refers to it:

    class Follower:
        def __init__(self, store):
            self._lock = threading.RLock()
            ...
            _forks.register(self)

        def _fork_locks(self):
            return [self._lock]

        def _forked(self):
            self._lock = threading.RLock()
            self._start()

Code that takes such a lock again and again calls `_forks.give_way()` before `with self._lock`, which lets a fork go
first. That `with` names the lock itself: a signal handler may raise an exception at any call, also at the end of an
`__enter__` that is written in Python, and then nobody would release what that has taken.

Parts are called in the order of registration, so a store comes before what feeds it.
"""
from __future__ import annotations

import itertools
import logging
import os
import threading
import time
import weakref
from collections.abc import Iterable
from typing import Protocol

LOG = logging.getLogger("kobdzila")
PATIENCE = 10.0  # seconds that a fork waits at most for locks that are held; the child's locks are new in any case


class Lock(Protocol):
    """A lock of the module threading."""

    def acquire(self, blocking: bool = ..., timeout: float = ...) -> bool: ...
    def release(self) -> None: ...


class Part(Protocol):
    """An object that takes part in forks."""

    def _fork_locks(self) -> Iterable[Lock]:
        """Return the locks to hold during a fork, so that nothing is half done in the child.

        No thread may hold one of them while it waits for something.
        """

    def _forked(self) -> None:
        """Continue in the child: with new locks and restarted threads. No other thread runs."""


_parts: dict[int, weakref.ref[Part]] = {}
_numbers = itertools.count()
_turn = threading.RLock()  # one thread at a time takes the locks
_taken = threading.local()  # `locks`: those that this thread took for a fork
_forking = False  # whether a thread has its turn


def register(part: Part) -> None:
    """Make `part` take part in all forks from now on."""
    number = next(_numbers)
    _parts[number] = weakref.ref(part, lambda _: _parts.pop(number, None))


def give_way() -> None:
    """Wait until no fork is pending, unless this thread holds a lock that a fork waits for.

    Without that, a thread that takes a lock again at once would block the one that forks.
    """
    if _forking and not any(is_own(lock) for part in _all() for lock in part._fork_locks()):
        with _turn:
            pass


def is_own(lock: Lock) -> bool:
    """Return whether this thread holds the lock. False if it can't be known: a plain lock doesn't have an owner."""
    own: bool = getattr(lock, "_is_owned", bool)()
    return own


def _all() -> list[Part]:
    return [part for part in [it() for it in list(_parts.values())] if part is not None]


def _before() -> None:
    global _forking
    _taken.locks, end, _forking = [], time.monotonic() + PATIENCE, True
    for lock in itertools.chain([_turn], *(part._fork_locks() for part in _all())):
        if lock.acquire(timeout=max(0.0, end - time.monotonic())):
            _taken.locks.append(lock)


def _after() -> None:
    global _forking
    _forking = False
    for lock in reversed(getattr(_taken, "locks", [])):
        lock.release()
    _taken.locks = []


def _after_in_child() -> None:
    global _turn, _forking
    _turn, _forking, _taken.locks = threading.RLock(), False, []
    for part in _all():
        try:
            part._forked()
        except Exception:
            LOG.exception("%r doesn't go on in the forked process %d", part, os.getpid())


os.register_at_fork(before=_before, after_in_parent=_after, after_in_child=_after_in_child)
