"""Plays the log into a store: reads the log, and decides what to do."""
from __future__ import annotations

import contextlib
import hashlib
import itertools
import math
import threading
import time
from bisect import bisect_right
from collections.abc import Iterable, Sequence
from concurrent.futures import ThreadPoolExecutor

from .._catalogue import Catalogue
from .._session import Session
from ._cache import Cache, Pair, Position
from ._connect import Watched
from ._layout import check_layout
from ._queries import (
    Cut,
    Damaged,
    Found,
    Head,
    Played,
    Publish,
    asked,
    check_count,
    checked,
    epochs_of,
    head_of,
    loads_of,
)
from ._store import FollowerStore
from ._version import Version

MOST_LOADS = 256  # a machine that lacks more of the log takes the last loads, in one step
CHECKERS = 4  # threads that take the sums of files while a machine joins
PART = 16 << 20  # bytes of MO files that a Session takes in one round while a machine joins
BEAT_WITHIN = 5.0  # seconds in which a heartbeat has to be answered
FILL_EACH = 5.0
LOOK_WITHIN = 60.0  # seconds without a byte of an answer to a look
RESTORED_PAUSE = 0.2  # seconds before the next look if the log's epoch changed during one


class Difference(Exception):
    """The store or the machine isn't where the log says. Nothing more is played; the store keeps answering.

    `is_final` says that it is the store, which the follower can't repair. A log recovers with a new epoch.
    """

    def __init__(self, here: int, log: int, why: str, is_final: bool = False) -> None:
        super().__init__(here, log, why)
        self.here, self.log, self.is_final = here, log, is_final

    def __str__(self) -> str:
        return f"version {self.here} here, {self.log} in the log: {self.args[2]}"


class StoreFailed(Exception):
    """The store refused a publish of the log. Nothing more is played; the store keeps answering."""


class Lagging(Exception):
    """A standby doesn't have yet what this machine shows."""


class Player:
    """Knows where in the log the store is, and advances it.

    Only one thread plays. `playing` is held while the store changes.
    """

    def __init__(self, store: FollowerStore, cache: Cache | None, go_over: bool) -> None:
        self.store, self.cache, self.go_over = store, cache, go_over
        self.position = Position("", 0, b"")
        self.past: list[str] = []  # the log's epochs before that of the position
        self.has_joined = False
        self.is_older = False  # it shows what the cache had, and hasn't met the log yet
        self.loads = 0
        self._fill_at = 0.0  # when all loads may be asked for again, for the cache
        self.playing = threading.Lock()
        self._shown: dict[Pair, bytes] = {}  # the sum of each file of the log that the store has
        # from this version of the store on, the log's is that more, and of this epoch
        self._bases = [(store.version, -store.version, "")]

    @property
    def version(self) -> Version:
        return Version(self.position.version, self.position.epoch)

    def log_version(self, version: int) -> Version:
        """Return the log's version for a version of the store."""
        _, more, epoch = self._bases[bisect_right(self._bases, version, key=lambda base: base[0]) - 1]
        return Version(version + more, epoch)

    def shows(self, wanted: Version) -> bool:
        """Whether the machine shows this version or a later one, or is in a later epoch of the log."""
        if wanted.epoch and wanted.epoch != self.position.epoch:
            return self.has_joined and wanted.epoch in self.past
        return self.has_joined and self.position.version >= wanted

    # --- a look at the log

    def is_met(self, connection: Watched) -> bool:
        """Whether the log's head is what this machine shows. The server must answer at once: this is the heartbeat."""
        connection.limit = BEAT_WITHIN
        layout, epoch, newest, history = head_of(connection, self.position.version)
        check_layout(layout)
        return (self.has_joined and not self.is_older and (epoch, newest) == self.position[:2]
                and (newest == 0 or history == self.position.history))

    def look(self, connection: Watched, is_standby: bool) -> bool:
        """Play the next publish, or more than one if this machine is far behind, and say whether there are more."""
        connection.limit = LOOK_WITHIN
        if self.position.version == 0:
            return self._jump(connection)
        with contextlib.closing(asked(connection, "next", self.position.version, MOST_LOADS)) as rows:
            own = Publish(*next(rows).head)
            check_layout(own.layout)
            is_of_epoch = own.epoch == self.position.epoch
            if is_of_epoch:
                self._check_own(own, is_standby)
                first = next(rows, None)
                if first is None:
                    self.is_older = False
                    return False
                publish = Publish(*first.head)
                loads = self._taken(publish, itertools.chain([first], rows))
        if not is_of_epoch:
            return self._change_epoch(connection, own, is_standby)
        if loads is None:
            return self._jump(connection)
        self.show(loads, publish.version, publish.history)
        return publish.version < publish.newest

    def _check_own(self, own: Publish, is_standby: bool) -> None:
        """The log has the publish that this machine shows, after the same history."""
        here = self.position.version
        if own.version != here:
            if is_standby and own.newest < here:
                raise Lagging(f"the standby has version {own.newest}, and this machine shows {here}")
            raise Difference(here, own.newest, "the log has lost publishes that this machine shows; "
                             "kob-fleet restore begins a new epoch, which it can switch to")
        if own.history != self.position.history:
            raise Difference(here, own.version, "the log has another history up to this version; "
                             "kob-fleet restore begins a new epoch, which it can switch to")

    def _change_epoch(self, connection: Watched, own: Publish, is_standby: bool) -> bool:
        """The log has another epoch: continue in it if it has all that this machine shows, or switch to it."""
        epochs = epochs_of(connection)
        names = [epoch for epoch, _ in epochs]
        if self.position.epoch in names[:-1]:
            _, after = epochs[names.index(self.position.epoch) + 1]
            if self.position.version <= after and self._is_own(own):
                self._set_epoch(names)
                return True
        elif own.epoch in self.past:
            if is_standby:
                raise Lagging(f"the standby has epoch {own.epoch}, and this machine shows {self.position.epoch}")
            raise Difference(self.position.version, own.newest, f"the log was put back to its epoch {own.epoch}, before "
                             "that of this machine: run kob-fleet restore first, which begins a new epoch")
        elif is_standby and not self.is_older and own.newest < self.position.version:
            raise Lagging(f"the standby has epoch {own.epoch}, and this machine shows {self.position.epoch}")
        if not (self.go_over or self.is_older):
            raise Difference(self.position.version, own.newest, f"this machine is ahead of the log's epoch {own.epoch}: restart "
                        "it, or let it follow with --go-over")
        return self._jump(connection, anew=True)

    def _is_own(self, own: Publish) -> bool:
        return (own.version, own.history) == (self.position.version, self.position.history)

    def _set_epoch(self, names: Sequence[str]) -> None:
        """Continue in the newest epoch, with the same catalogues."""
        self.past, epoch = list(names[:-1]), names[-1]
        here = self.store.version
        self._bases.append((here, self.position.version - here, epoch))
        self.position, self.is_older = self.position._replace(epoch=epoch), False
        if self.cache:
            self.cache.keep(())

    def _taken(self, publish: Publish, rows: Iterable[Found]) -> list[Played] | None:
        """Return the loads of the next publish, or None if this machine must take the last loads instead."""
        if publish.newest - self.position.version > MOST_LOADS:
            return None
        try:
            return loads_of(publish, rows, self.position.version, self.position.history)
        except Cut:
            return None
        except Damaged:
            if publish.version == publish.newest:
                raise
            return None  # (later loads for these names may be whole)

    def _jump(self, connection: Watched, anew: bool = False) -> bool:
        """Take the last load of each domain and locale, and continue from the log's newest version.

        `anew` replaces everything that this machine shows: it takes all of them, and an empty catalogue for what the
        log lacks.
        """
        names = [epoch for epoch, _ in epochs_of(connection)]
        head, played = self._last(connection, 0 if anew else self.position.version)
        if names[-1:] != [head.epoch] or self.position.version and not anew and head.epoch != self.position.epoch:
            time.sleep(RESTORED_PAUSE)  # (the log was restored meanwhile)
            return True
        wanted = [it for it in played if self._shown.get((it.domain, it.locale)) != it.sum]
        if anew:
            wanted += emptied(self._shown.keys() - {(it.domain, it.locale) for it in played})
        self.past = names[:-1]
        self.show(wanted, head.version, head.history, epoch=head.epoch, jumps=True)
        return False

    def _last(self, connection: Watched, after: int) -> tuple[Head, list[Played]]:
        with contextlib.closing(asked(connection, "last", after)) as rows:
            first = next(rows)
            head = Head(*first.head)
            check_layout(head.layout)
            check_count(head, after)
            found = (row for row in itertools.chain([first], rows) if row.load[0] is not None)
            with ThreadPoolExecutor(CHECKERS) as pool:
                return head, list(pool.map(checked, found))

    # --- the store

    def show(self, loads: Sequence[Played], version: int, history: bytes, *, epoch: str | None = None,
             jumps: bool = False) -> None:
        """Load and publish; the version that the store returns must be the log's."""
        with self.playing:
            before, base = self.store.version, self._bases[-1][1]
            if before + base != self.position.version:
                raise Difference(before + base, self.position.version, "the store has loads that aren't of the log", True)
            if jumps:
                base = version - (before + len(loads))
                self._bases.append((before + len(loads), base, self.position.epoch if epoch is None else epoch))
            answered = self._load(loads, version) if loads else before
            if answered + base != version:
                raise Difference(answered + base, version, "the store answers another version", True)
            self._shown.update(((it.domain, it.locale), it.sum) for it in loads)
            self.position = Position(self.position.epoch if epoch is None else epoch, version, history)
            self.has_joined, self.is_older = True, False
            self.loads += len(loads)
        if self.cache:
            self.cache.keep(loads)

    def _load(self, loads: Sequence[Played], version: int) -> int:
        parts = [list(loads)] if self.has_joined else self._parts(loads)
        try:
            for part in parts:
                for load in part:
                    self.store.load(load.domain, load.locale, load.mo)
                answered = self.store.publish()
        except Exception as why:  # noqa: BLE001 (whatever a store raises, the service goes on)
            raise StoreFailed(f"the store refused version {version}: {type(why).__name__}: {why}") from why
        return answered

    def _parts(self, loads: Sequence[Played]) -> list[list[Played]]:
        """The loads of a machine that joins. A Session, whose rounds have a limit, gets them in several rounds."""
        if not isinstance(self.store, Session):
            return [list(loads)]
        parts: list[list[Played]] = []
        size = PART
        for load in loads:
            size += len(load.mo)
            if size > PART:
                parts.append([])
                size = len(load.mo)
            parts[-1].append(load)
        return parts

    def close(self) -> None:
        """Let another process write the cache."""
        if self.cache:
            self.cache.close()

    def forked(self) -> None:
        """This process is a child of the one that played. A Session belongs to the parent: the child gets another one,
        empty."""
        self.playing = threading.Lock()
        if self.cache:
            self.cache.forked()
        if isinstance(self.store, Session):
            self.store._start()
            self.position, self.past = Position("", 0, b""), []
            self.has_joined = self.is_older = False
            self._shown, self._bases = {}, [(0, 0, "")]

    # --- the cache

    @property
    def has_cache(self) -> bool:
        """Whether the cache is as new as what the machine shows."""
        return self.cache is not None and self.cache.seconds_left() is None

    def seconds_to_cache(self) -> float:
        """The seconds until there is something to write to the cache."""
        left = self.cache.seconds_left() if self.cache else None
        return math.inf if left is None else max(0.01, left)

    def join_from_cache(self) -> float | None:
        """Show what the cache has, and return when it was written, or None if there is none. Raise CacheRefused or
        StoreFailed."""
        cached = self.cache.read() if self.cache and not self.has_joined else None
        if cached is None:
            return None
        cache, self.cache = self.cache, None  # (which has all of this)
        try:
            self.show(cached.loads, cached.position.version, cached.position.history, epoch=cached.position.epoch, jumps=True)
        finally:
            self.cache = cache
        self.past, self.is_older = list(cached.past), True
        return cached.written

    def write_cache(self, connection: Watched) -> None:
        """Write the cache if there is something new. OSError if that fails."""
        if self.cache is None or not self.has_joined:
            return
        if not self.cache.is_whole and self.cache.is_ours() and time.monotonic() > self._fill_at:
            # (the process that wrote it has ended)
            self._fill_at = time.monotonic() + FILL_EACH
            head, played = self._last(connection, 0)
            if (head.epoch, head.version, head.history) == self.position:
                self.cache.keep(played, all_of_them=True)
        self.cache.write(self.position, self.past)


def emptied(pairs: Iterable[Pair]) -> list[Played]:
    """Return empty catalogues, which have no translations."""
    nothing = Catalogue.from_po(b"").mo_file()
    total = hashlib.sha256(nothing).digest()
    return [Played(*pair, nothing, total) for pair in sorted(pairs)]
