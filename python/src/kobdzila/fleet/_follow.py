"""A machine that follows the log: a thread that plays each publish into a store."""
from __future__ import annotations

import atexit
import contextlib
import logging
import os
import random
import select
import socket
import threading
import time
import weakref
from collections.abc import Callable, Iterator
from typing import TYPE_CHECKING, Any

import psycopg
from psycopg import conninfo

from .._closing import Closing
from .._session import Session
from .._waiting import Waiters
from ._cache import Cache, CacheRefused
from ._connect import Interrupted, Silent, Watched, connect, note_silence, parameters, polled, set_for_session
from ._health import Health, health_of
from ._layout import NO_LOG, NoLog, check_layout, layout_of
from ._player import LOOK_WITHIN, Difference, Lagging, Player, StoreFailed
from ._queries import Damaged, prepare
from ._report import Report, Reporter, abandon
from ._store import Behind, FollowerSnapshot, FollowerStore, SessionTexts
from ._version import Version, version_of

if TYPE_CHECKING:
    from typing_extensions import Self

LOG = logging.getLogger("kobdzila")
CHANNEL = "kobdzila"
LOOK_EACH = 10.0  # seconds between two looks at the log if nothing is heard
STANDBY_LOOK_EACH = 0.1  # a standby can't notify, so it is asked
POOLED_LOOK_EACH = 1.0  # and a pooler may not pass on what the server notifies
PAUSES = (0.05, 5.0)  # before the first and at most before each other attempt to connect
PATIENCE = 3.0  # how many times the usual time a server gets that may be overwhelmed by all who come back at once
CLOSE_WITHIN = 0.9
FORK_WITHIN = 10.0  # seconds that a fork waits for a store that is being changed


class Follower(Closing):
    """Plays the log's publishes into a store, in a thread of its own.

    `store` is a kobdzila.Session or another FollowerStore. Nothing else may load into it after the start; earlier loads stay
    below those of the log. `database` is a libpq connection string, as for Log. `machine` names this follower in
    `kob-fleet status`; the default is the name of the host. Several followers may have the same name.

    `cache` is a folder for the last version that the machine has shown, so that a restart needs no database. With
    `go_over` the machine switches to a log that was restored to an earlier version; without it, it stops following,
    says so, and keeps answering. A follower of a standby reports to the primary among the string's hosts, or to
    `report_to`. It checks the log every `look_each` seconds if it isn't notified, and a standby, which can't notify,
    every `standby_look_each` seconds.

    `on_version` is called with each version that is shown, and `on_trouble` with a message when there is trouble, both
    in the follower's thread. If they raise, that is logged (by the logger `kobdzila`), and the follower continues.

        with kobdzila.Session() as session, Follower(session, "host=db1,db2 dbname=texts") as follower:
            with follower.snapshot(within=30) as texts:
                print(texts.gettext("shop", "fr", "basket"))
    """

    def __init__(
        self,
        store: FollowerStore,
        database: str = "",
        machine: str | None = None,
        *,
        cache: str | os.PathLike[str] | None = None,
        go_over: bool = False,
        report_to: str | None = None,
        look_each: float = LOOK_EACH,
        standby_look_each: float = STANDBY_LOOK_EACH,
        on_version: Callable[[Version], object] = lambda version: None,
        on_trouble: Callable[[str], object] = lambda text: None,
    ) -> None:
        self.store, self.machine = store, machine or socket.gethostname()
        self._database = database
        self._look_each, self._standby_look_each = look_each, standby_look_each
        self._on_version, self._on_trouble = on_version, on_trouble
        self._player = Player(store, None if cache is None else Cache(cache, self.machine), go_over)
        self._reporter = Reporter(self.machine, report_to or primary_of(database))
        self._trouble: str | None = None
        self._cache_trouble: str | None = None
        self._unreported: str | None = None
        self._stopped: Exception | None = None
        self._refusals = self._connections = self._restarts = 0
        self._looked_at: float | None = None
        self._pause = PAUSES[0]
        self._heard = self._ending = self._has_started = False
        self._connection: Watched | None = None
        self._begin()
        FOLLOWERS.add(self)

    def _begin(self) -> None:
        """Make what belongs to one process: who waits for a version, the pipe that ends the thread's waits, and the
        thread."""
        self._changed, self._waiters = threading.Condition(), Waiters()
        self._woken, self._waker = os.pipe()
        self._thread = threading.Thread(target=self._run, name=f"fleet-{self.machine}", daemon=True)

    @property
    def version(self) -> Version:
        """The log's version that the store shows."""
        return self._player.version

    @property
    def has_joined(self) -> bool:
        """Whether the store shows a version of the log yet."""
        return self._player.has_joined

    @property
    def is_older(self) -> bool:
        """Whether the store shows what the cache had, because the log hasn't answered since the start."""
        return self._player.is_older

    @property
    def trouble(self) -> str | None:
        """Why the follower isn't following at the moment, or None."""
        return self._trouble

    @property
    def stopped(self) -> Exception | None:
        """Why nothing more is played: a Difference, or StoreFailed. None while the follower follows."""
        return self._stopped

    @property
    def has_failed(self) -> bool:
        """Whether the follower has stopped for good, since its store isn't what the log says: only a new one helps.

        A log that has lost publishes can recover with a new epoch. Then the follower continues, or switches to it.
        """
        why = self._stopped
        return why.is_final if isinstance(why, Difference) else why is not None

    @property
    def restarts(self) -> int:
        """How often an unexpected exception restarted the thread."""
        return self._restarts

    def health(self) -> Health:
        """Return the state of this machine, for load balancers and operators. It makes no query."""
        since = None if self._looked_at is None else time.monotonic() - self._looked_at
        return health_of(self.machine, self._report(), since, restarts=self._restarts, is_ready=self.has_joined,
                         is_alive=self._thread.is_alive() and not self._ending)

    def start(self) -> None:
        """Start following. In a forked child the follower restarts by itself. The end of the process closes it."""
        self._has_started = True
        self._thread.start()
        atexit.register(self.close)

    def close(self) -> None:
        """Stop following, within a second. The store keeps what it has."""
        self._ending = True
        FOLLOWERS.discard(self)
        atexit.unregister(self.close)
        if self._woken >= 0:
            os.write(self._waker, b"x")
        if self._thread.ident not in (None, threading.get_ident()):  # (the latter in a callback)
            self._thread.join(CLOSE_WITHIN)
        if not self._thread.is_alive() and self._woken >= 0:
            os.close(self._woken)
            os.close(self._waker)
            self._woken = -1

    def __enter__(self) -> Self:
        self.start()
        return self

    def wait_for(self, at_least: int | str = 0, within: float = 0.5) -> Version:
        """Wait until the machine has joined and shows at least the version `at_least`, and return the one that it
        shows.

        `at_least` is a Version or a token, or a number in whatever epoch the machine is in. A machine in a later epoch
        of the log counts as showing every version of an earlier one. Raise Behind after `within` seconds.
        """
        wanted = version_of(at_least)
        if not self._player.shows(wanted):
            with self._changed:
                if not self._changed.wait_for(lambda: self._player.shows(wanted), within):
                    raise Behind(self.version, wanted, self._trouble)
        return self.version

    async def wait_for_async(self, at_least: int | str = 0, within: float = 0.5) -> Version:
        """Do what `wait_for` does. Only this coroutine waits; it blocks neither the event loop nor a thread."""
        wanted = version_of(at_least)
        if not await self._waiters.wait_for(lambda: self._player.shows(wanted), within):
            raise Behind(self.version, wanted, self._trouble)
        return self.version

    def snapshot(self, *, at_least: int | str = 0, within: float = 0.5, **options: Any) -> FollowerSnapshot:
        """Return a context manager for look-ups in a version of at least `at_least`. Raise Behind after `within`
        seconds.

        `options` are those of the store's own `snapshot`.
        """
        self.wait_for(at_least, within)
        take = getattr(self.store, "snapshot", None)
        is_older = self.is_older
        if take is not None:
            return FollowerSnapshot(take(**options), self.log_version, is_older)
        if isinstance(self.store, Session):
            return FollowerSnapshot(SessionTexts(self.store, self.log_version, **options), self.log_version, is_older)
        raise TypeError(f"{type(self.store).__name__} has no snapshot")

    def unjoined(self, **options: Any) -> FollowerSnapshot:
        """Return look-ups in the store as it is, even if the machine hasn't joined and has only what it had before the
        start."""
        return FollowerSnapshot(self.store.snapshot(**options), self.log_version, True)  # type: ignore[attr-defined]

    def is_past(self, epoch: str) -> bool:
        """Whether this is an earlier epoch of the log than the machine's."""
        return epoch in self._player.past

    def log_version(self, version: int) -> Version:
        """Return the log's version for a version of the store.

        A store counts its own loads. A machine that joined late has fewer than the log.
        """
        return self._player.log_version(version)

    # --- the thread

    def _run(self) -> None:
        """Follow until the end. An error is reported, and after a pause the thread starts over."""
        while not self._ending:
            self._attempt()
        self._reporter.close()
        self._player.close()

    def _attempt(self) -> None:
        """Follow as long as the connection lasts, and pause after it is lost."""
        try:
            self._join_from_cache()
            with self._connected() as connection:
                self._follow(connection)
        except Interrupted:
            return
        except (psycopg.Error, OSError, NoLog) as trouble:
            has_no_log = isinstance(trouble, psycopg.errors.UndefinedTable)
            self._say(NO_LOG if has_no_log else str(trouble).strip() or type(trouble).__name__)
        except BaseException as why:  # noqa: BLE001 (a thread that ends without a word would be the worst)
            self._restarts += 1
            LOG.error("the follower of %s begins again", self.machine, exc_info=True)
            self._say(f"{type(why).__name__}: {why}")
        self._rest()

    def _rest(self) -> None:
        """Wait before the next attempt, twice as long as before, so that 200 machines don't reconnect all at once."""
        poll = select.poll()
        poll.register(self._woken, select.POLLIN)
        poll.poll(1000 * self._pause * random.uniform(0.5, 1.0))
        self._pause = min(PAUSES[1], 2 * self._pause)

    @contextlib.contextmanager
    def _connected(self) -> Iterator[Watched]:
        self._connection = connection = connect(
            self._database, "primary", wake=self._woken, patience=min(PATIENCE, self._pause / PAUSES[0]))
        self._connections += 1
        try:
            yield connection
        except Silent:
            note_silence(connection.server)
            raise
        finally:
            if self._ending:
                self._reporter.goodbye(connection)
            self._connection = None
            connection.close()

    def _follow(self, connection: Watched) -> None:
        """Play what arrives, until the connection is lost or the follower ends."""
        connection.limit = LOOK_WITHIN
        check_layout(layout_of(connection))
        if not connection.is_pooled:
            set_for_session(connection, synchronous_commit="off")  # (it writes nothing but reports)
            prepare(connection)
        connection.add_notify_handler(lambda notice: setattr(self, "_heard", True))
        is_listening, self._heard = False, True
        while not self._ending:
            if connection.is_standby:  # (which may have been promoted)
                ((connection.is_standby,),) = connection.execute("select pg_is_in_recovery()").fetchall()
            if not (is_listening or connection.is_standby or connection.is_pooled):
                connection.execute(f"listen {CHANNEL}".encode())
                is_listening = self._heard = True
            self._look_and_say(connection)
            self._write(connection)
            if not self._heard and not self._ending:
                self._wait(connection)

    def _look_and_say(self, connection: Watched) -> None:
        """Play what there is. After a notification the log is read at once; otherwise a heartbeat says whether there is
        more."""
        was_heard, self._heard = self._heard, False
        try:
            is_met = self.has_failed or not was_heard
            if is_met:
                is_met = self._player.is_met(connection) or self.has_failed
            while not is_met and not self._ending:
                is_met = not self._look(connection)
            if not self.has_failed:
                self._stopped = self._trouble = None
            self._looked_at, self._pause = time.monotonic(), PAUSES[0]
        except (Damaged, Lagging) as passing:
            self._refusals += isinstance(passing, Damaged)
            self._say(str(passing))
        except (Difference, StoreFailed) as why:
            self._refusals += self._stopped is None
            self._stopped = why
            self._say(str(why))

    def _look(self, connection: Watched) -> bool:
        before = (self.has_joined, self.version.token)
        goes_on = self._player.look(connection, connection.is_standby)
        if (self.has_joined, self.version.token) != before:
            self._show()
        return goes_on

    def _show(self) -> None:
        """Wake those who wait for a version."""
        with self._changed:
            self._changed.notify_all()
        self._waiters.wake()
        self._call(self._on_version, self.version)

    def _join_from_cache(self) -> None:
        """Before the first connection: show what this machine showed before it was restarted."""
        try:
            written = None if self._connections else self._player.join_from_cache()
        except (CacheRefused, StoreFailed) as why:
            self._cache_trouble = str(why)
            self._call(self._on_trouble, self._cache_trouble)
            return
        if written is not None:
            self._show()

    def _write(self, connection: Watched) -> None:
        """Report, and write the cache, if it is time for it."""
        report = self._report()
        if self._reporter.is_due(report):
            self._reporter.write(connection, report, self._woken)
            if self._reporter.trouble != self._unreported:
                self._unreported = self._reporter.trouble
                if self._unreported is not None:
                    self._call(self._on_trouble, f"kob-fleet status doesn't show this machine: {self._unreported}")
        try:
            self._player.write_cache(connection)
            self._cache_trouble = None if self._player.has_cache else self._cache_trouble
        except (OSError, Damaged) as why:
            text = f"the cache can't be written: {why}"
            if self._cache_trouble != text:
                self._cache_trouble = text
                self._call(self._on_trouble, text)

    def _wait(self, connection: Watched) -> None:
        """Wait for a notice, the end, or the time of the next look. Meanwhile report, and write the cache."""
        each = self._standby_look_each if connection.is_standby else self._look_each
        end = time.monotonic() + (min(each, POOLED_LOOK_EACH) if connection.is_pooled else each)
        while not self._heard and not self._ending and (left := end - time.monotonic()) > 0:
            left = min(left, self._reporter.seconds_left(self._report()), self._player.seconds_to_cache())
            is_ready, _ = polled(connection.fileno(), 1, self._woken, left)
            if is_ready:
                connection.pgconn.consume_input()
                while connection.pgconn.notifies() is not None:
                    self._heard = True
            if not self._heard and not self._ending:
                self._write(connection)

    def _say(self, text: str) -> None:
        text = " ".join(text.split())  # (libpq's texts have several lines)
        if text != self._trouble:
            self._trouble = text
            self._call(self._on_trouble, text)

    def _call(self, what: Callable[[Any], object], value: object) -> None:
        """Call a function of the program. If it raises, the follower doesn't end."""
        try:
            what(value)
        except BaseException:  # noqa: BLE001 (even SystemExit would end the thread without a word)
            LOG.error("a callback of the follower of %s failed", self.machine, exc_info=True)

    def _report(self) -> Report:
        version, trouble = self.version, self._trouble or self._cache_trouble
        if self._stopped is not None:
            state = "stopped"
        elif not self.has_joined:
            state = "joins"
        elif self.is_older:
            state = "older"
        else:
            state = "follows" if self._trouble is None else "trouble"
        reconnects = max(0, self._connections - 1)
        return Report(version, version.epoch, state, trouble, self._player.loads, self._refusals, reconnects)

    # --- a fork of this process

    def _forked(self) -> None:
        """Start over in a child: with its own thread, connection and row, from the catalogues that it has."""
        if self._connection is not None:
            abandon(self._connection)
            self._connection = None
        os.close(self._woken)
        os.close(self._waker)
        self._player.forked()
        self._reporter.forked()
        self._begin()
        if isinstance(self.store, Session):
            self._stopped, self._connections = None, 0
        if self._has_started:
            self._thread.start()


FOLLOWERS: weakref.WeakSet[Follower] = weakref.WeakSet()
taken: list[Follower] = []  # those whose stores nobody changes during a fork


def before_fork() -> None:
    """Wait until no store is being changed. This comes before the store's own locks are taken, since it was registered
    later."""
    for follower in list(FOLLOWERS):
        if follower._player.playing.acquire(timeout=FORK_WITHIN):
            taken.append(follower)


def after_fork() -> None:
    while taken:
        taken.pop()._player.playing.release()


def after_fork_in_child() -> None:
    taken.clear()
    for follower in list(FOLLOWERS):
        follower._forked()


os.register_at_fork(before=before_fork, after_in_parent=after_fork, after_in_child=after_fork_in_child)


def primary_of(database: str) -> str | None:
    """Return a connection string for the primary, if this one names several hosts."""
    given = parameters(database)
    hosts = max(given.get("host", ""), given.get("hostaddr", ""), key=lambda it: it.count(","))
    return conninfo.make_conninfo(database, target_session_attrs="read-write") if "," in hosts else None
