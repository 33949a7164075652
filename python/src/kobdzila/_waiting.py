"""Lets coroutines wait for a publish, without a thread for each."""
from __future__ import annotations

import contextlib
from collections.abc import Callable
from typing import TYPE_CHECKING

if TYPE_CHECKING:
    from asyncio import AbstractEventLoop, Event


class Waiters:
    """The coroutines that wait until something has changed. `wake` may be called from any thread."""

    def __init__(self) -> None:
        self._events: set[tuple[AbstractEventLoop, Event]] = set()

    def wake(self) -> None:
        """Let each of them check again."""
        for loop, event in tuple(self._events):
            with contextlib.suppress(RuntimeError):  # (its loop was closed meanwhile)
                loop.call_soon_threadsafe(event.set)

    async def wait_for(self, is_there: Callable[[], bool], within: float) -> bool:
        """Wait until `is_there` returns True, for at most `within` seconds, and return its last result."""
        import asyncio

        loop, event = asyncio.get_running_loop(), asyncio.Event()
        end = loop.time() + within
        self._events.add((loop, event))
        try:
            while not is_there() and (left := end - loop.time()) > 0:
                with contextlib.suppress(asyncio.TimeoutError):
                    await asyncio.wait_for(event.wait(), left)
                event.clear()
        finally:
            self._events.discard((loop, event))
        return is_there()
