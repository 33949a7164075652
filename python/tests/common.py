"""What the tests share: threads, memory, and calls in which memory is refused."""
from __future__ import annotations

import ctypes
import gc
import importlib
import os
import resource
import threading
import unittest
from collections.abc import Callable
from pathlib import Path
from typing import Any

try:
    _testcapi: Any = importlib.import_module("_testcapi")
except ImportError:
    _testcapi = None

SANITIZED = "KOBDZILA_SANITIZED" in os.environ
OPENS = int(os.environ.get("KOBDZILA_OPENS", "100000"))


def in_threads(*works: Callable[[], object]) -> None:
    """Run the works, each in a thread of its own, to their ends."""
    threads = [threading.Thread(target=work) for work in works]
    for thread in threads:
        thread.start()
    for thread in threads:
        thread.join()


def resident() -> int:
    """The memory of this process, in bytes."""
    gc.collect()
    return int(Path("/proc/self/statm").read_text().split()[1]) * resource.getpagesize()


class MallocNumbers(ctypes.Structure):
    """What the C library's mallinfo2 returns, by the names of its manual page."""

    _fields_ = [(name, ctypes.c_size_t) for name in (
        "arena", "ordblks", "smblks", "hblks", "hblkhd", "usmblks", "fsmblks", "uordblks", "fordblks", "keepcost")]


def allocated() -> int:
    """The bytes that malloc has given out and that aren't freed. (Freed memory may stay with the process.)"""
    ask = ctypes.CDLL(None).mallinfo2
    ask.restype = MallocNumbers
    numbers = ask()
    return int(numbers.uordblks + numbers.hblkhd)


def assert_no_leak(test: unittest.TestCase, round_of: Callable[[int], None], count: int) -> None:
    """Rounds, with their numbers, leave no memory."""
    for number in range(2_000):
        round_of(number)
    before = resident()
    for number in range(count):
        round_of(number)
    test.assertLess(resident() - before, 1_000_000)


def failures_of(test: unittest.TestCase, is_well: Callable[[], bool], most: int) -> int:
    """Let each of the first allocations of Python's in a call fail in turn. The call must raise MemoryError or be well.
    Return how often it raised it.
    """
    failed = 0
    test.assertTrue(is_well())
    for number in range(most):
        _testcapi.set_nomemory(number, number + 1)
        try:
            well = is_well()
        except MemoryError:
            well, failed = True, failed + 1
        finally:
            _testcapi.remove_mem_hooks()
        test.assertTrue(well, (is_well, number))
    return failed


needs_testcapi = unittest.skipIf(_testcapi is None, "this Python has no _testcapi")
needs_freed_memory = unittest.skipIf(SANITIZED, "AddressSanitizer keeps freed memory for a while")
HAS_MALLINFO = not SANITIZED and hasattr(ctypes.CDLL(None), "mallinfo2")
needs_mallinfo = unittest.skipUnless(HAS_MALLINFO, "malloc isn't that of glibc 2.33 or later, which has mallinfo2")
