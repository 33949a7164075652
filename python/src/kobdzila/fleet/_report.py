"""What a machine reports to the log's table of machines."""
from __future__ import annotations

import contextlib
import os
import secrets
import socket
import time
import weakref
from collections.abc import Iterator
from typing import NamedTuple

import psycopg

from ._connect import Interrupted, Watched, connect
from ._version import Version

REPORT_EACH = 1.0  # the least time between two reports of a machine
ANEW_EACH = 10.0  # and the most
REPORT_WITHIN = 5.0  # seconds in which a report has to be answered
FIRST_PAUSE, LAST_PAUSE = 10.0, 300.0  # between two attempts to connect to a primary that doesn't answer
GOODBYE_WITHIN = 0.3
REFUSALS = (psycopg.errors.ReadOnlySqlTransaction, psycopg.errors.InsufficientPrivilege, psycopg.errors.DiskFull)


class Report(NamedTuple):
    """The contents of a row. The counts are since the follower's start."""

    version: Version
    epoch: str
    state: str
    trouble: str | None
    loads: int
    refusals: int
    reconnects: int


class Reporter:
    """Writes the row of one follower.

    A standby accepts no writes. Then the row is written to the primary, through a connection of its own to `database`,
    unless that is None. `trouble` says why the row can't be written, or is None.
    """

    def __init__(self, machine: str, database: str | None) -> None:
        self.machine, self.database = machine, database
        self.process = process_name()
        self._connection: Watched | None = None
        self._last: Report | None = None
        self._at = self._try_at = 0.0
        self._pause = FIRST_PAUSE
        self._has_cleaned = False
        self.trouble: str | None = None
        REPORTERS.add(self)

    def is_due(self, report: Report) -> bool:
        """Whether there is something to write."""
        since = time.monotonic() - self._at
        return since >= ANEW_EACH or since >= REPORT_EACH and report != self._last

    def seconds_left(self, report: Report) -> float:
        """The seconds until there is something to write."""
        wanted = REPORT_EACH if report != self._last else ANEW_EACH
        return max(0.0, self._at + wanted - time.monotonic())

    def write(self, connection: Watched, report: Report, wake: int) -> None:
        """Write the row through the follower's connection, or through one to the primary if that is to a standby.

        psycopg.Error if the follower's own connection is lost.
        """
        self._at, self._last = time.monotonic(), report
        if not connection.is_standby:
            self.close()
            self._write(connection, report)
        elif self.database is not None and (self._connection is not None or time.monotonic() >= self._try_at):
            try:
                self._write(self._primary(wake), report)
                self._pause = FIRST_PAUSE
            except psycopg.Error as why:
                self.close()
                if not isinstance(why, Interrupted):
                    self.trouble = str(why) or type(why).__name__
                self._try_at, self._pause = time.monotonic() + self._pause, min(LAST_PAUSE, 2 * self._pause)

    def _primary(self, wake: int) -> Watched:
        if self._connection is None:
            end = time.monotonic() + REPORT_WITHIN
            self._connection = connect(self.database or "", "read-write", wake=wake, end=end)
        return self._connection

    def _write(self, connection: Watched, report: Report) -> None:
        connection.limit = REPORT_WITHIN
        try:
            with contextlib.suppress(*REFUSALS), planned_once(connection):
                if not self._has_cleaned:
                    self._clean(connection)
                connection.execute(
                    "insert into kobdzila.machine (name, process, epoch, version, state, trouble, loads, refusals,"
                    " reconnects) values (%s, %s, %s, %s, %s, %s, %s, %s, %s) on conflict (name, process) do update"
                    " set epoch = excluded.epoch, version = excluded.version, state = excluded.state,"
                    " trouble = excluded.trouble, loads = excluded.loads, refusals = excluded.refusals,"
                    " reconnects = excluded.reconnects, seen = excluded.seen",
                    (self.machine, self.process, report.epoch, int(report.version), *report[2:]))
            self.trouble = None
        except (psycopg.DataError, UnicodeEncodeError) as why:  # (the database, or UTF-8, lacks a character)
            self.trouble = str(why)

    def _clean(self, connection: Watched) -> None:
        """Delete the rows of this machine's processes that have ended."""
        host = self.process.split(":")[0]
        rows = connection.execute("select process from kobdzila.machine where name = %s and process like %s",
                                  (self.machine, host.replace("\\", r"\\").replace("%", r"\%").replace("_", r"\_") + ":%"))
        ended = [row[0] for row in rows if not is_running(row[0])]
        connection.execute("delete from kobdzila.machine where name = %s and process = any(%s)", (self.machine, ended))
        self._has_cleaned = True

    def goodbye(self, connection: Watched) -> None:
        """Delete the row: the follower was closed."""
        to = connection if not connection.is_standby else self._connection
        if to is not None and not to.closed:
            to.wake, to.end = -1, time.monotonic() + GOODBYE_WITHIN
            with contextlib.suppress(psycopg.Error, UnicodeEncodeError):
                to.execute("delete from kobdzila.machine where name = %s and process = %s", (self.machine, self.process))

    def close(self) -> None:
        if self._connection is not None:
            self._connection.close()
            self._connection = None

    def forked(self) -> None:
        """This process is a child: it has a row of its own, and the connection belongs to its parent."""
        if self._connection is not None:
            abandon(self._connection)
        self._connection, self._last, self._at, self.process = None, None, 0.0, process_name()
        self._has_cleaned = False  # (other children may have ended since the parent looked)


REPORTERS: weakref.WeakSet[Reporter] = weakref.WeakSet()


@contextlib.contextmanager
def planned_once(connection: Watched) -> Iterator[None]:
    """Make the server keep the plans of statements, unless a pooler moves them between sessions."""
    connection.prepare_threshold = None if connection.is_pooled else 0
    try:
        yield
    finally:
        connection.prepare_threshold = None


def process_name() -> str:
    return f"{socket.gethostname().replace(':', '_')}:{os.getpid()}:{secrets.token_hex(2)}"


def is_running(process: str) -> bool:
    """Whether a process of this host is running. One that can't be checked counts as running.

    In a container each process has the number of the one before the restart, which has ended.
    """
    try:
        number = int(process.split(":")[1])
        if number == os.getpid():
            return process in [it.process for it in list(REPORTERS)]
        os.kill(number, 0)
    except ProcessLookupError:
        return False
    except (OSError, ValueError, IndexError):
        return True
    return True


def abandon(connection: Watched) -> None:
    """Drop a connection that belongs to the parent, without telling the server."""
    with contextlib.suppress(OSError, psycopg.Error):
        os.close(connection.pgconn.socket)
