"""The log of loads in PostgreSQL: what adds to it, shows it and cuts it."""
from __future__ import annotations

import contextlib
import datetime
import hashlib
import os
import re
import threading
import time
import uuid
from collections.abc import Callable, Iterable, Iterator, Sequence
from functools import partial
from typing import Any, NamedTuple, TypeVar

import psycopg
from psycopg import errors

from .._catalogue import Catalogue
from .._closing import Closing
from .._session import MOST_LINES
from ._connect import Silent, Watched, connect
from ._layout import ORIGIN, Connection, NoLog, Restored, check_layout, create, create_roles, layout_of
from ._report import abandon
from ._version import Version, new_epoch, version_of

CHANNEL = "kobdzila"
NAME = re.compile(r"[A-Za-z0-9_.@+-]{1,64}", re.ASCII)
# SQLSTATE: connection lost, deadlock, server going down, server read-only, a file that compact removed meanwhile, a
# statement that was cancelled, a lock that wasn't to be had
RETRIED = re.compile("08|40|57|25006|23503|55P03")
OTHER_LAYOUT = (errors.UndefinedTable, errors.UndefinedColumn)
DAY = 86_400.0
ANSWER_WITHIN = 30.0  # seconds for what only reads
COMPACT_WITHIN = 600.0  # as long as the server lets a statement take
GRACE = 0.4  # seconds by which a server may be later than its own limits
LOOK_WITHIN = 0.5  # seconds that a look at the machines has, even if less is left
SILENT = 30.0  # seconds without a report, which comes every ten
PART = 4 << 20  # bytes of files that are sent in one statement
LONGEST = 1e6  # seconds, since a server counts milliseconds in 31 bits
MOST_CONNECTIONS = 4  # of the threads that share a Log
MOST_FOR_SESSIONS = MOST_LINES - 4096  # bytes of the lines that a Session takes in one step

Answer = TypeVar("Answer")


class Unanswered(Exception):
    """It isn't known whether the publish `id` is in the log, or whether it would survive the primary.

    The connection was lost, or the wait for the synchronous standby was cancelled or took too long. To find out,
    publish the same loads with the same id: if they are in the log, nothing is added, and the call waits for the
    standby.
    """

    id: uuid.UUID

    def __init__(self, id: uuid.UUID, why: str) -> None:
        super().__init__(id, why)
        self.id = id

    def __str__(self) -> str:
        return f"publish {self.id} may or may not be in the log: {self.args[1]}"


class RestoreUnanswered(Exception):
    """It isn't known whether the epoch `epoch` has begun, since the connection was lost. If `status` has it, it has."""

    epoch: str

    def __init__(self, epoch: str, why: str) -> None:
        super().__init__(epoch, why)
        self.epoch = epoch

    def __str__(self) -> str:
        return f"epoch {self.epoch} may or may not have begun: {self.args[1]}"


class NotReplicated(psycopg.OperationalError):
    """The server stopped waiting for the synchronous standby: the publish is only in its own log."""


class Held(errors.LockNotAvailable):
    """Another session holds the log's lock."""


class Load(NamedTuple):
    """An MO file for a text domain and a locale."""

    domain: str
    locale: str
    mo: bytes


class Row(NamedTuple):
    """A publish in the log. `pairs` are the domains and locales of those of its loads that weren't cut."""

    version: int
    id: uuid.UUID
    loads: int
    published: datetime.datetime
    note: str
    pairs: Sequence[str]


class Machine(NamedTuple):
    """The last report of a follower. `late` and `seen` are seconds; `late` is 0 if it has all publishes.

    `process` is HOST:PID:SUFFIX, and `version` is of the follower's epoch. If that isn't the log's, `behind` is at
    least 1, and `late` counts from the beginning of the log's epoch, or from an earlier publish that it lacks. `state`
    is that of Health. The counts are since the follower's start.
    """

    name: str
    version: Version
    behind: int
    late: float
    seen: float
    trouble: str | None
    process: str
    state: str
    loads: int
    refusals: int
    reconnects: int

    @property
    def is_dead(self) -> bool:
        """Whether it hasn't reported for 30 seconds, or has stopped."""
        return self.seen > SILENT or self.state == "stopped"


class Status(NamedTuple):
    """The log's version, its number of publishes, the version up to which old loads were cut, and all machines."""

    version: Version
    publishes: int
    cut: int
    machines: Sequence[Machine]


class Log(Closing):
    """The log of loads in a database: publish to it, and see what is in it.

    `database` is a libpq connection string, such as "host=db1,db2 dbname=texts user=kob". Missing parameters come from
    the environment (PGHOST and so on). Of several hosts the one that accepts writes is used; one that doesn't answer
    costs 5 seconds (connect_timeout). Threads may share a Log. `on_trouble` is called with a message when a publish has
    to be retried.

        with Log("host=db1,db2 dbname=texts") as log:
            version = log.publish([("shop", "fr", Path("fr.mo").read_bytes())])
    """

    def __init__(self, database: str = "", *, on_trouble: Callable[[str], object] = lambda text: None) -> None:
        self._database, self._on_trouble = database, on_trouble
        self._free: list[Watched] = []
        self._room = threading.BoundedSemaphore(MOST_CONNECTIONS)
        self._owner = os.getpid()

    def init(self, *, upgrade: bool = False, roles: bool = False) -> None:
        """Create the tables, in the schema `kobdzila`. Existing tables stay as they are.

        `upgrade` upgrades tables of an earlier layout; without it they are refused (NoLog). `roles` also creates the
        roles kobdzila_follower, kobdzila_publisher and kobdzila_operator, with exactly the rights that followers,
        publishers, and operators who compact and restore need.
        """
        def work(connection: Watched) -> None:
            create(connection, upgrade)
            if roles:
                create_roles(connection)

        self._once(work)

    def publish(
        self,
        loads: Iterable[tuple[str, str, bytes]],
        *,
        id: uuid.UUID | None = None,
        note: str = "",
        within: float = 30.0,
        force: bool = False,
    ) -> Version:
        """Add the loads (domain, locale, MO file) as one publish, and return the version that shows them.

        The publish is in the log exactly once if a version is returned, and on the synchronous standby if there is one.
        If the server can't be reached, is replaced by its standby, or another session holds the log's lock, publish
        retries for `within` seconds. Then it raises Unanswered, or another psycopg.Error if nothing can have been
        published. Publishing with an `id` that is in the log adds nothing, and returns its version.

        Raise ValueError if there is no load, a domain or a locale isn't a name, or the loads are too large for one
        round of a Session and `force` isn't given; Refused (a ValueError) if a file isn't a catalogue. Raise Restored
        if the log was restored from a backup, and `restore` hasn't been called.
        """
        kept = [Load(*load) for load in loads]
        if not kept:
            raise ValueError("nothing to publish")
        for load in kept:
            check_load(load)
        if not force:
            check_size(kept)
        number = id or uuid.uuid4()
        sums = [hashlib.sha256(load.mo).digest() for load in kept]
        files = {total: load.mo for total, load in zip(sums, kept)}
        pairs = [(load.domain, load.locale, total) for total, load in zip(sums, kept)]

        def work(connection: Watched) -> Version:
            keep_files(connection, files)
            lock(connection)
            return append(connection, number, pairs, note)

        return self._retry(work, number, within)

    def rollback(
        self, version: int, *, id: uuid.UUID | None = None, note: str | None = None, within: float = 30.0
    ) -> Version:
        """Publish the catalogues of an earlier version again, and return the new version.

        Only domains and locales that differ are published, all in one publish. One that had no catalogue then gets an
        empty one. If nothing differs, nothing is published, and the version is the log's. Raise ValueError if the log
        has no publish with this version, or its loads were compacted.
        """
        number = id or uuid.uuid4()
        words = f"rollback to {version}" if note is None else note

        def work(connection: Watched) -> Version:
            lock(connection)
            done = found_again(connection, number)
            if done is not None:
                return done
            last, pairs = changes_back_to(connection, version)
            return append(connection, number, pairs, words) if pairs else last

        return self._retry(work, number, within)

    def remove(
        self, pairs: Iterable[tuple[str, str]], *, id: uuid.UUID | None = None, note: str = "", within: float = 30.0
    ) -> Version:
        """Publish an empty catalogue for each of these pairs of a domain and a locale.

        Raise ValueError if the log has no catalogue for one of them.
        """
        kept, number, (nothing, empty) = sorted(set(pairs)), id or uuid.uuid4(), empty_file()

        def work(connection: Watched) -> Version:
            keep_files(connection, {empty: nothing})
            lock(connection)
            there = set_at(connection, last_of(connection))
            for pair in kept:
                if pair not in there:
                    raise ValueError(f"the log has no catalogue {'/'.join(pair)}")
            return append(connection, number, [(*pair, empty) for pair in kept], note)

        return self._retry(work, number, within)

    def version_of(self, id: uuid.UUID) -> Version | None:
        """Return the version of the publish with this id, or None if the log doesn't have it."""
        return self._once(lambda connection: version_with(connection, id))

    def history(self, last: int = 20) -> list[Row]:
        """Return the last publishes, newest first."""
        rows = self._once(lambda connection: connection.execute(
            "select p.version, p.epoch, p.id, p.loads, p.published, p.note, array(select l.domain || '/' || l.locale"
            " from kobdzila.load l where l.version > p.version - p.loads and l.version <= p.version order by l.version)"
            " from kobdzila.publish p order by p.version desc limit %s", (last,)).fetchall())
        return [Row(Version(version, epoch), *others) for version, epoch, *others in rows]

    def status(self) -> Status:
        """Return the log's version, and the last report of each machine."""
        return self._once(status_of)

    def wait_for(self, version: int | str, within: float = 60.0, seen_within: float = DAY) -> list[Machine]:
        """Wait up to `within` seconds until all machines show a version, and return those that don't.

        A number is a version of the log's epoch. Machines whose last report is older than `seen_within` seconds don't
        count. Raises psycopg.Error if the server can't be asked, or hasn't answered by then.
        """
        end, wanted = time.monotonic() + within, version_of(version)
        while True:
            found = self._once(status_of, min(ANSWER_WITHIN, max(LOOK_WITHIN, end - time.monotonic())))
            if wanted.epoch and wanted.epoch != found.version.epoch:
                raise ValueError(f"the log is in epoch {found.version.epoch}, and not in {wanted.epoch}")
            lack = [it for it in found.machines if it.seen <= seen_within
                    and (it.version.epoch != found.version.epoch or it.version < wanted or it.is_dead)]
            if not lack and found.version >= wanted or time.monotonic() >= end:
                return lack
            time.sleep(min(0.2, max(0.0, end - time.monotonic())))

    def compact(self, to: int | None = None, seen_within: float = DAY) -> int:
        """Delete loads that no machine needs, and files that no load names. Return the version up to which it is done.

        Up to that version only the last load of each domain and locale is kept. It is the version of the slowest
        machine of those that reported in the last `seen_within` seconds, or `to`, if that is less. A machine at an
        earlier version takes the last loads when it next checks. The rows of machines whose last report is older are
        deleted. It may take ten minutes, in which nothing is published.
        """
        return self._once(lambda connection: compacted(connection, to, seen_within), COMPACT_WITHIN)

    def restore(self, note: str = "", *, within: float = 30.0) -> Version:
        """Begin a new epoch, after the log was restored from a backup, and return the version in it.

        Versions of the previous epoch, which the backup may lack, are then never confused with those of the new one.
        Reports of machines from before the backup are deleted. It doesn't wait for a synchronous standby, which can't
        follow a server that was put back; a publish that is answered later is on the standby together with the epoch.

        One epoch begins, however often it is tried in `within` seconds. Then raise RestoreUnanswered, or another
        psycopg.Error if it can't have begun.
        """
        epoch = new_epoch()
        try:
            return self._retry(lambda connection: restored(connection, epoch, note), uuid.uuid4(), within)
        except Unanswered as why:
            raise RestoreUnanswered(epoch, why.args[1]) from why

    def forget(self, name: str) -> int:
        """Delete the reports of the machines with this name, and return how many there were."""
        def work(connection: Watched) -> int:
            return connection.execute("delete from kobdzila.machine where name = %s or process = %s",
                                      (name, name)).rowcount

        return self._once(work)

    def close(self) -> None:
        """Close the connections. The next call opens another one."""
        free, self._free = self._free, []
        for connection in free:
            connection.close() if self._owner == os.getpid() else abandon(connection)

    # --- connections

    @contextlib.contextmanager
    def _connected(self, end: float) -> Iterator[Watched]:
        """A connection that no other thread uses."""
        if self._owner != os.getpid():  # (a fork, whose parent uses the connections)
            self.close()
            self._room, self._owner = threading.BoundedSemaphore(MOST_CONNECTIONS), os.getpid()
        if not self._room.acquire(timeout=min(LONGEST, max(0.0, end - time.monotonic()))):
            raise psycopg.OperationalError(f"all {MOST_CONNECTIONS} connections of this Log were in use")
        try:
            connection = self._free.pop() if self._free else None
            if connection is None or connection.closed:
                connection = connect(self._database, "read-write", end=end)
                connection.add_notice_handler(partial(note_wait, connection))
            connection.end = end + GRACE
            try:
                yield connection
            except BaseException as why:
                if not isinstance(why, psycopg.Error) or why.sqlstate is None or RETRIED.match(why.sqlstate):
                    connection.close()
                raise
            finally:
                if not connection.closed:
                    self._free.append(connection)
        finally:
            self._room.release()

    def _layout_refused(self, trouble: psycopg.Error) -> Exception:
        """Return the error for a log that lacks a table or a column."""
        try:
            with self._connected(time.monotonic() + ANSWER_WITHIN) as connection:
                check_layout(layout_of(connection))
        except NoLog as why:
            return why
        return trouble

    def _once(self, work: Callable[[Watched], Answer], within: float | None = None) -> Answer:
        """Do work that may be repeated. A connection that was lost since its last use is replaced."""
        end = time.monotonic() + (ANSWER_WITHIN if within is None else within)
        while True:
            was_used = bool(self._free)
            try:
                with self._connected(end) as connection:
                    return work(connection)
            except OTHER_LAYOUT as trouble:
                raise self._layout_refused(trouble) from trouble
            except psycopg.OperationalError as trouble:
                is_over = time.monotonic() >= end # (another attempt would say that nobody answers in 0 s)
                if not was_used or is_over or trouble.sqlstate and not RETRIED.match(trouble.sqlstate):
                    raise

    def _retry(self, work: Callable[[Watched], Version], number: uuid.UUID, within: float) -> Version:
        """Do the work in a transaction until the server answers."""
        end, pause = time.monotonic() + within, 0.05
        doubts: list[str] = []
        held: Held | None = None
        while True:
            process = 0
            try:
                with self._connected(end) as connection:
                    process = connection.info.backend_pid
                    return attempt(connection, work, end, doubts)
            except OTHER_LAYOUT as trouble:
                raise self._layout_refused(trouble) from trouble
            except psycopg.Error as trouble:
                held = trouble if isinstance(trouble, Held) else held
                if not may_pass(trouble):
                    raise
                text = str(trouble).strip() or type(trouble).__name__
                if isinstance(trouble, Silent) and doubts:
                    text = self._standby_awaited(process) or text
                if doubts and doubts[-1] == "":
                    doubts[-1] = text
                if time.monotonic() + pause > end:
                    if not doubts:
                        raise held or trouble  # (an attempt that had no time left says less)
                    raise Unanswered(number, doubts[-1]) from trouble
                self._on_trouble(text)
            time.sleep(pause)
            pause = min(1.0, 2 * pause)

    def _standby_awaited(self, process: int) -> str | None:
        """Say that a process of the server waits for the synchronous standby, if it does."""
        try:
            with self._connected(time.monotonic() + LOOK_WITHIN) as connection:
                row = connection.execute(
                    "select current_setting('synchronous_standby_names') from pg_stat_activity"
                    " where pid = %s and wait_event = 'SyncRep'", (process,)).fetchone()
                server = connection.peer
        except psycopg.Error:
            return None
        return row and (f"{server} waits for its synchronous standby (synchronous_standby_names = {row[0]!r}), which hasn't "
                        "answered: start that, or let the server not wait, by an empty name")


def may_pass(trouble: psycopg.Error) -> bool:
    """Whether another attempt may have another outcome."""
    if trouble.sqlstate is None:  # (psycopg raises it: the connection was lost, or what it got can't be sent)
        return not isinstance(trouble, (psycopg.ProgrammingError, psycopg.DataError))
    return RETRIED.match(trouble.sqlstate) is not None


def attempt(connection: Watched, work: Callable[[Watched], Version], end: float, doubts: list[str]) -> Version:
    """Do the work in a transaction. A message is added to `doubts` if it may have been committed without an answer."""
    connection.is_unreplicated = False
    with naming_holders(connection), connection.transaction():
        limit_transaction(connection, end)
        version = work(connection)
        doubts.append("")
    if connection.is_unreplicated:
        raise NotReplicated("the server's wait for its synchronous standby was cancelled: the publish is in the log of the "
                            "primary, and is lost with it")
    return version


@contextlib.contextmanager
def naming_holders(connection: Watched) -> Iterator[None]:
    """Say who holds the log's lock if it isn't to be had."""
    try:
        yield
    except errors.LockNotAvailable as why:
        raise Held(holders(connection)) from why


def note_wait(connection: Watched, notice: psycopg.errors.Diagnostic) -> None:
    """A cancelled wait for the standby is only a warning, after which the commit is confirmed."""
    if notice.source_function == "SyncRepWaitForLSN":
        connection.is_unreplicated = True


def limit_transaction(connection: Connection, end: float) -> None:
    """Make the server end this transaction in time, and wait for its synchronous standby."""
    left = max(200, int(1000 * min(LONGEST, end - time.monotonic())))
    connection.execute(
        "select set_config('statement_timeout', %s, true), set_config('lock_timeout', %s, true),"
        " set_config('idle_in_transaction_session_timeout', '10000', true), set_config('synchronous_commit',"
        " case when current_setting('synchronous_commit') in ('off', 'local') then 'on'"
        " else current_setting('synchronous_commit') end, true)", (str(left + 200), str(left - 100)))


def holders(connection: Connection) -> str:
    """Describe who holds the log's lock, and doesn't wait himself. The server tells some roles less of others."""
    row = connection.execute(
        "select a.pid, a.application_name, case a.wait_event when 'SyncRep' then 'waits for the synchronous standby'"
        " else coalesce(a.state, 'user ' || a.usename) end,"
        " extract(epoch from clock_timestamp() - a.xact_start)::float8 as since"
        " from pg_stat_activity a where a.pid <> pg_backend_pid() and a.datname = current_database() and exists"
        " (select from pg_locks l where l.pid = a.pid and l.relation = to_regclass('kobdzila.log')"
        " and l.mode in ('RowShareLock', 'RowExclusiveLock')) order by exists"
        " (select from pg_locks w where w.pid = a.pid and not w.granted), since desc nulls last limit 1").fetchone()
    if row is None:
        return "the log's lock is held by a session that has ended meanwhile"
    pid, name, state, since = row
    age = "" if since is None else f", for {since:.0f} s"
    return f"the log's lock is held by process {pid} of the server ({name or 'no name'}, {state}{age})"


def check_load(load: Load) -> None:
    for name in (load.domain, load.locale):
        if not NAME.fullmatch(name):
            raise ValueError(f"not a name of a domain or a locale: {name!r}")
    Catalogue.from_mo(load.mo)


def check_size(loads: Sequence[Load]) -> None:
    """A Session publishes in one round, in which each byte of an MO file is two digits."""
    size = sum(2 * len(load.mo) + len(load.domain) + len(load.locale) + 10 for load in loads)
    if size > MOST_FOR_SESSIONS:
        raise ValueError(f"{sum(len(load.mo) for load in loads)} bytes of MO files are more than catsession takes in one "
                         f"step ({MOST_FOR_SESSIONS // 2}); if no machine feeds a Session, force it (--force)")


def one(cursor: psycopg.Cursor[Any]) -> Any:
    """Return the only row."""
    row = cursor.fetchone()
    assert row is not None
    return row


def seal_of(version: int, domain: str, locale: str, total: bytes) -> bytes:
    return hashlib.sha256(f"{version}\t{domain}\t{locale}\t".encode() + total).digest()


def history_of(before: bytes, number: uuid.UUID, seals: Iterable[bytes]) -> bytes:
    return hashlib.sha256(b"".join([before, number.bytes, *seals])).digest()


def lock(connection: Connection, is_restoring: bool = False) -> None:
    """Wait for the log's lock, which the transaction then holds until its end."""
    row = connection.execute(
        f"select layout, origin = {ORIGIN} from kobdzila.log for update".encode()).fetchone()
    check_layout(None if row is None else row[0])
    if row is not None and not row[1] and not is_restoring:
        raise Restored


def version_with(connection: Connection, number: uuid.UUID) -> Version | None:
    row = connection.execute("select version, epoch from kobdzila.publish where id = %s", (number,)).fetchone()
    return None if row is None else Version(*row)


def found_again(connection: Connection, number: uuid.UUID) -> Version | None:
    """Return the version of a publish that is in the log. Committing this waits for the standby, as the publish did."""
    done = version_with(connection, number)
    if done is not None:
        connection.execute("update kobdzila.log set touched = touched + 1")
    return done


def last_of(connection: Connection) -> int:
    """Return the log's version."""
    return int(one(connection.execute("select coalesce(max(version), 0) from kobdzila.publish"))[0])


def epoch_of(connection: Connection) -> str:
    return str(one(connection.execute("select epoch from kobdzila.epoch order by number desc limit 1"))[0])


def keep_files(connection: Connection, files: dict[bytes, bytes]) -> None:
    """Store the files that aren't there or were changed by hand, in one order for all publishers."""
    rows = connection.execute(
        "select sum from kobdzila.file where sum = any(%b) and sha256(mo) = sum", (list(files),), binary=True)
    lacking = sorted(files.keys() - {row[0] for row in rows})
    for some in in_parts(lacking, [len(files[total]) for total in lacking]):
        connection.execute(
            "insert into kobdzila.file select * from unnest(%b::bytea[], %b::bytea[])"
            " on conflict (sum) do update set mo = excluded.mo", (some, [files[total] for total in some]))


def in_parts(sums: Sequence[bytes], sizes: Sequence[int]) -> Iterator[list[bytes]]:
    """Yield the sums in lists of files of at most PART bytes together, or of one file."""
    part: list[bytes] = []
    size = 0
    for total, length in zip(sums, sizes):
        if part and size + length > PART:
            yield part
            part, size = [], 0
        part.append(total)
        size += length
    if part:
        yield part


def append(connection: Connection, number: uuid.UUID, pairs: Sequence[tuple[str, str, bytes]], note: str) -> Version:
    """Add a publish under the log's lock, unless it is there, and return its version."""
    done = found_again(connection, number)
    if done is not None:
        return done
    first, before, epoch = one(connection.execute(
        "select coalesce(max(version), 0),"
        " coalesce((select history from kobdzila.publish order by version desc limit 1), ''),"
        " (select epoch from kobdzila.epoch order by number desc limit 1) from kobdzila.publish", binary=True))
    rows = [(at, *pair, seal_of(at, *pair)) for at, pair in enumerate(pairs, first + 1)]
    version = first + len(rows)
    connection.execute(
        "with loads as (insert into kobdzila.load"
        " select * from unnest(%s::bigint[], %s::text[], %s::text[], %b::bytea[], %b::bytea[])),"
        " added as (insert into kobdzila.publish (version, id, loads, history, note, epoch)"
        " values (%s, %s, %s, %b, %s, %s)) select pg_notify(%s, %s)",
        (*map(list, zip(*rows)), version, number, len(rows), history_of(before, number, [row[4] for row in rows]), note,
         epoch, CHANNEL, str(version)))
    return Version(version, epoch)


def changes_back_to(connection: Connection, version: int) -> tuple[Version, list[tuple[str, str, bytes]]]:
    """Return the log's version, and the loads that show the catalogues of an earlier one."""
    last = last_of(connection)
    (cut,) = one(connection.execute("select cut from kobdzila.log"))
    if version != 0 and connection.execute(
            "select from kobdzila.publish where version = %s", (version,)).fetchone() is None:
        raise ValueError(f"no publish has version {version}")
    if version < cut:
        raise ValueError(f"the loads of version {version} were cut; the oldest version that is there is {cut}")
    then, now = set_at(connection, version), set_at(connection, last)
    nothing, empty = empty_file()
    wanted = {pair: then.get(pair, empty) for pair, total in now.items() if then.get(pair, empty) != total}
    if empty in wanted.values():
        keep_files(connection, {empty: nothing})
    return Version(last, epoch_of(connection)), [(*pair, total) for pair, total in sorted(wanted.items())]


def empty_file() -> tuple[bytes, bytes]:
    """Return the empty MO file, which has no translations, and its SHA-256."""
    nothing = Catalogue.from_po(b"").mo_file()
    return nothing, hashlib.sha256(nothing).digest()


def set_at(connection: Connection, version: int) -> dict[tuple[str, str], bytes]:
    """Return the sum of the file that each domain and locale has at a version."""
    rows = connection.execute(
        "select distinct on (domain, locale) domain, locale, sum from kobdzila.load where version <= %s"
        " order by domain, locale, version desc", (version,), binary=True)
    return {(domain, locale): total for domain, locale, total in rows}


def status_of(connection: Connection) -> Status:
    layout = connection.execute("select layout from kobdzila.log").fetchone()
    check_layout(None if layout is None else layout[0])
    version, publishes, cut, epoch = one(connection.execute(
        "select coalesce(max(version), 0), count(*), (select cut from kobdzila.log),"
        " (select epoch from kobdzila.epoch order by number desc limit 1) from kobdzila.publish"))
    rows = connection.execute(
        "select m.name, m.version, m.epoch, greatest((m.epoch <> %(epoch)s)::int, %(version)s - m.version),"
        " greatest(0, coalesce(extract(epoch from clock_timestamp() - least((select min(p.published)"
        " from kobdzila.publish p where p.version > m.version and p.version <= %(version)s),"
        " (select e.begun from kobdzila.epoch e where m.epoch <> %(epoch)s and e.epoch = %(epoch)s))), 0))::float8,"
        " greatest(0, extract(epoch from clock_timestamp() - m.seen))::float8, m.trouble, m.process, m.state, m.loads,"
        " m.refusals, m.reconnects from kobdzila.machine m order by m.name, m.process",
        {"version": version, "epoch": epoch})
    machines = [Machine(name, Version(number, its), *others) for name, number, its, *others in rows]
    return Status(Version(version, epoch), publishes, cut, machines)


def compacted(connection: Watched, to: int | None, seen_within: float) -> int:
    with naming_holders(connection), connection.transaction():
        lock(connection)
        version = last_of(connection)
        connection.execute("delete from kobdzila.machine where seen <= clock_timestamp() - make_interval(secs => %s)",
                           (max(SILENT, seen_within),))
        (slowest,) = one(connection.execute(
            "select coalesce(min(version), %s) from kobdzila.machine"
            " where seen > clock_timestamp() - make_interval(secs => %s)", (version, seen_within)))
        (done,) = one(connection.execute("select cut from kobdzila.log"))
        cut = max(done, min(version, slowest, version if to is None else to))
        connection.execute(
            "delete from kobdzila.load o using (select domain, locale, max(version) as version from kobdzila.load"
            " where version <= %s group by domain, locale) last where o.domain = last.domain and o.locale = last.locale"
            " and o.version < last.version", (cut,))
        connection.execute(
            "update kobdzila.log set cut = %(cut)s,"
            " kept = (select count(*) from kobdzila.load where version <= %(cut)s)", {"cut": cut})
        connection.execute(
            "delete from kobdzila.file f where not exists (select from kobdzila.load l where l.sum = f.sum)")
    return int(cut)


def restored(connection: Connection, epoch: str, note: str) -> Version:
    """Begin an epoch, unless an earlier attempt did, and don't wait for the standby."""
    lock(connection, is_restoring=True)
    connection.execute("select set_config('synchronous_commit', 'local', true)")
    version = last_of(connection)
    if epoch_of(connection) == epoch:
        return Version(version, epoch)
    connection.execute(
        "insert into kobdzila.epoch (number, epoch, after, note)"
        " select max(number) + 1, %s, %s, %s from kobdzila.epoch", (epoch, version, note))
    connection.execute(f"update kobdzila.log set origin = {ORIGIN}".encode())
    connection.execute("delete from kobdzila.machine")
    connection.execute("select pg_notify(%s, %s)", (CHANNEL, str(version)))
    return Version(version, epoch)
