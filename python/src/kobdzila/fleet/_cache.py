"""A machine's cache: the last version that it showed, complete, in one file that is replaced atomically.

The file begins with a line that names its format, a line of JSON, and the SHA-256 of both. The MO files follow, in the
order of the JSON, which has the checksum of each.
"""
from __future__ import annotations

import contextlib
import fcntl
import hashlib
import json
import os
import stat
import time
from collections.abc import Iterable, Sequence
from pathlib import Path
from typing import NamedTuple
from urllib.parse import quote

from ._queries import Played

FORM = b"kobdzila cache 1\n"
MOST_HEADER = 1 << 28
SHARE, LONGEST = 10, 30.0  # a pause after a write: SHARE times its length, LONGEST seconds at most
PIECE = 1 << 22  # bytes that are copied at once

Pair = tuple[str, str]


class CacheRefused(Exception):
    """The cache can't be used. The machine then waits for the log."""


class Position(NamedTuple):
    """Where in a log a machine is: the epoch, the version, and the history up to it."""

    epoch: str
    version: int
    history: bytes


class Cached(NamedTuple):
    """The contents of a cache. `past` are the epochs before the position's own, and `written` is a time by the machine's
    clock."""

    position: Position
    past: Sequence[str]
    written: float
    loads: Sequence[Played]


class Piece(NamedTuple):
    """Where a file is in the cache."""

    offset: int
    length: int
    sum: bytes


class Cache:
    """The file NAME.cache in a folder. If several processes use it, one of them writes.

    `is_whole` says whether this process knows everything that the machine shows, and can write it.
    """

    def __init__(self, folder: str | os.PathLike[str], name: str) -> None:
        self.folder = Path(folder)
        self.path = self.folder / f"{quote(name, safe='')}.cache"
        self._new = self.path.with_suffix(".new")
        self._pieces: dict[Pair, Piece] = {}
        self._file = self._lock = -1
        self._pending: dict[Pair, Played] = {}
        self._is_new = False
        self._due = 0.0
        self.is_whole = True

    def read(self) -> Cached | None:
        """Return the contents of the cache, or None if there is none. CacheRefused if it isn't complete."""
        try:
            handle = os.open(self.path, os.O_RDONLY | os.O_CLOEXEC)
        except FileNotFoundError:
            return None
        except OSError as why:
            raise CacheRefused(f"{self.path}: {why.strerror}") from why
        try:
            cached, pieces = self._checked(handle)
        except (OSError, ValueError, KeyError, TypeError) as why:
            os.close(handle)
            raise CacheRefused(f"{self.path}: {why}") from why
        self._take(handle, pieces)
        return cached

    def _checked(self, handle: int) -> tuple[Cached, dict[Pair, Piece]]:
        found = os.fstat(handle)
        if found.st_uid not in (os.getuid(), 0) or stat.S_IMODE(found.st_mode) & 0o022:
            raise ValueError("another user may write to it")
        with open(handle, "rb", closefd=False) as file:
            form, text, total = file.readline(100), file.readline(MOST_HEADER), file.readline(100)
            if form != FORM or hashlib.sha256(form + text).hexdigest().encode() + b"\n" != total:
                raise ValueError("it isn't whole: its sum is another one")
            head, offset = json.loads(text), file.tell()
            loads, pieces = [], {}
            for domain, locale, digits, length in head["entries"]:
                data, wanted = file.read(length), bytes.fromhex(digits)
                if hashlib.sha256(data).digest() != wanted:
                    raise ValueError(f"it isn't whole: {domain}/{locale} has another sum")
                loads.append(Played(domain, locale, data, wanted))
                pieces[domain, locale] = Piece(offset, length, wanted)
                offset += length
        position = Position(head["epoch"], head["version"], bytes.fromhex(head["history"]))
        return Cached(position, head["past"], head["written"], loads), pieces

    def keep(self, loads: Iterable[Played], all_of_them: bool = False) -> None:
        """Remember what is new on the machine, for the next write."""
        if all_of_them:
            self._pieces, self.is_whole = {}, True
        is_ours = False
        with contextlib.suppress(OSError):  # (whoever writes later is told)
            is_ours = self.is_ours()
        if not is_ours:
            self.is_whole = False
            return
        self._pending.update(((it.domain, it.locale), it) for it in loads)
        self._is_new = True

    def is_ours(self) -> bool:
        """Whether this process is the one that writes; if so, it stays so until it ends. OSError if none can write."""
        if self._lock < 0:
            self.folder.mkdir(mode=0o700, parents=True, exist_ok=True)
            handle = os.open(self.path.with_suffix(".lock"), os.O_RDWR | os.O_CREAT | os.O_CLOEXEC, 0o600)
            try:
                fcntl.flock(handle, fcntl.LOCK_EX | fcntl.LOCK_NB)
            except OSError as why:
                os.close(handle)
                if not isinstance(why, BlockingIOError):
                    raise
            else:
                self._lock = handle
        return self._lock >= 0

    def seconds_left(self) -> float | None:
        """The seconds until there is something to write, or None."""
        return max(0.0, self._due - time.monotonic()) if self._is_new else None

    def write(self, position: Position, past: Sequence[str]) -> None:
        """Write what was kept, if it is time. OSError if that fails."""
        if not self.is_whole or self.seconds_left() != 0.0:
            return
        begun = time.monotonic()
        try:
            self._replace(position, past)
        except OSError as why:
            with contextlib.suppress(OSError):  # (others need the room)
                self._new.unlink()
            why.filename = why.filename or str(self._new)
            self._due = max(begun + 1.0, next_after(begun))
            raise
        self._pending.clear()
        self._is_new = False
        sync(self.folder)
        self._due = next_after(begun)

    def _replace(self, position: Position, past: Sequence[str]) -> None:
        handle = os.open(self._new, os.O_RDWR | os.O_CREAT | os.O_TRUNC | os.O_CLOEXEC, 0o600)
        try:
            pieces = self._fill(handle, position, past, sorted(self._pieces.keys() | self._pending.keys()))
            os.fsync(handle)
            os.replace(self._new, self.path)
        except BaseException:
            os.close(handle)
            raise
        self._take(handle, pieces)

    def _fill(self, handle: int, position: Position, past: Sequence[str], pairs: Sequence[Pair]) -> dict[Pair, Piece]:
        """Write a complete cache, and return where its files are."""
        parts = []
        for pair in pairs:
            new = self._pending.get(pair)
            length, total = (len(new.mo), new.sum) if new else self._pieces[pair][1:]
            parts.append((*pair, total.hex(), length))
        text = json.dumps({"epoch": position.epoch, "version": position.version, "history": position.history.hex(),
                           "past": list(past), "written": time.time(), "entries": parts}).encode() + b"\n"
        head = FORM + text + hashlib.sha256(FORM + text).hexdigest().encode() + b"\n"
        written(handle, head)
        pieces, offset = {}, len(head)
        for pair, (*_, digits, length) in zip(pairs, parts):
            new = self._pending.get(pair)
            if new:
                written(handle, new.mo)
            else:
                copied(self._file, self._pieces[pair], handle)
            pieces[pair] = Piece(offset, length, bytes.fromhex(digits))
            offset += length
        return pieces

    def _take(self, handle: int, pieces: dict[Pair, Piece]) -> None:
        self._release("_file")
        self._file, self._pieces = handle, pieces

    def _release(self, name: str) -> None:
        handle: int = getattr(self, name)
        if handle >= 0:
            os.close(handle)
        setattr(self, name, -1)

    def close(self) -> None:
        """Let another process write."""
        self._release("_file")
        self._release("_lock")

    def forked(self) -> None:
        """This process is a child of the one that writes, which remains the writer."""
        self.close()
        self._pending.clear()
        self._pieces, self._is_new, self.is_whole = {}, False, False


def next_after(begun: float) -> float:
    """When the next write may begin, after one that began then and has just ended."""
    done = time.monotonic()
    return done + min(LONGEST, SHARE * (done - begun))


def written(handle: int, data: bytes) -> None:
    view = memoryview(data)
    while view:
        view = view[os.write(handle, view):]


def copied(source: int, piece: Piece, to: int) -> None:
    """Append a file of the old cache to the new one."""
    offset, left = piece.offset, piece.length
    while left:
        data = os.pread(source, min(left, PIECE), offset)
        if not data:
            raise OSError("the old cache ends too early")
        written(to, data)
        offset, left = offset + len(data), left - len(data)


def sync(folder: Path) -> None:
    """Make the name of a new file survive a power cut, if the file system can."""
    handle = os.open(folder, os.O_RDONLY | os.O_DIRECTORY | os.O_CLOEXEC)
    with contextlib.suppress(OSError):
        os.fsync(handle)
    os.close(handle)
