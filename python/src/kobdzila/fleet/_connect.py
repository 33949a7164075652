"""Connections to whichever server answers. Each host has its own timeout, and so has each wait.

libpq tries the next host by itself, but psycopg 3.1 gives up on all hosts when the first one times out. And neither
notices a server that keeps the connection open and sends nothing.
"""
from __future__ import annotations

import contextlib
import ipaddress
import math
import os
import random
import re
import select
import socket
import struct
import threading
import time
from collections.abc import Generator, Iterator
from typing import Any, NamedTuple

import psycopg
from psycopg import conninfo, pq

CONNECT_TIMEOUT = 5.0  # seconds for each address of a host
PROBE_AFTER = 4.0  # seconds without a byte, after which the server is asked by another connection whether it is there
PROBE_WITHIN = 3.0
LAST_WORDS = 0.5  # seconds that a query may still take when its thread is to end
SILENT_FOR = 60.0  # for so long a host that was silent is tried after the others
ENVIRONMENT = {"host": "PGHOST", "hostaddr": "PGHOSTADDR", "port": "PGPORT", "connect_timeout": "PGCONNECT_TIMEOUT",
               "target_session_attrs": "PGTARGETSESSIONATTRS", "load_balance_hosts": "PGLOADBALANCEHOSTS"}
PLACES = ("host", "hostaddr", "port")
ATTRIBUTES = ("any", "read-write", "read-only", "primary", "standby", "prefer-standby")
# What libpq can look for itself, among the hosts of a service
FOUND_BY_LIBPQ = ("any", "read-write", *(("primary", "standby", "read-only") if pq.version() >= 140000 else ()))
USUAL = {"keepalives_idle": "10", "keepalives_interval": "3", "keepalives_count": "3", "tcp_user_timeout": "10000",
         "fallback_application_name": "kob-fleet"}
TO_SERVER = re.compile('^connection to server (at|on socket) "[^"]*".*? failed: ')
SSL_REQUEST = struct.pack("!II", 8, 80877103)  # which every server answers by one byte
# What a session is: whether the server is a standby and takes writes, and the process that serves it
SESSION = "select pg_is_in_recovery(), current_setting('transaction_read_only')::bool, pg_backend_pid()"
# The server's own watch over this connection, in milliseconds and seconds. Its queries are short, and compiling them
# would take longer than they do: 200 machines that wake at once would wait for 200 compilations
SETTINGS = {"tcp_user_timeout": "10000", "tcp_keepalives_idle": "10", "tcp_keepalives_interval": "3",
            "tcp_keepalives_count": "3", "idle_in_transaction_session_timeout": "30000", "lock_timeout": "10000",
            "statement_timeout": "600000",
            "jit": "off"}

silent: dict[tuple[str, str], float] = {}  # hosts and ports, and when they were silent


class Silent(psycopg.OperationalError):
    """A server hasn't answered in time. The connection is closed."""


class Interrupted(psycopg.OperationalError):
    """The wait was interrupted because its thread is to stop."""


class Server(NamedTuple):
    """A server: its name or the folder of its socket, its address if known, and its port."""

    host: str
    address: str
    port: str

    def __str__(self) -> str:
        return ":".join(filter(None, (self.host or self.address or "the local server", self.port)))


class Watched(psycopg.Connection[Any]):
    """A connection whose waits end: at the time `end`, after `limit` seconds without a byte, or soon after a byte comes
    from the pipe `wake`. It is closed then.

    During a long wait, a connection of its own probes whether the server is there.
    """

    end = math.inf
    limit = math.inf
    wake = -1
    server = peer = Server("", "", "")  # as it is named, and where libpq has found it
    is_standby = is_read_only = is_pooled = False
    is_unreplicated = False  # the server has ended a wait for its standby

    def wait(self, gen: Generator[Any, Any, Any], *_: Any, **__: Any) -> Any:
        try:
            ready: Any = next(gen)
            while True:
                ready = gen.send(self._ready(ready))
        except StopIteration as done:
            return done.value
        except (Silent, Interrupted, KeyboardInterrupt):
            self.pgconn.finish()
            raise

    def _ready(self, wanted: int) -> int:
        """Wait until the socket is ready, and return for what."""
        begun = time.monotonic()
        end, probe_at = min(self.end, begun + self.limit), begun + PROBE_AFTER
        while True:
            now = time.monotonic()
            ready, is_woken = polled(self.pgconn.socket, wanted, self.wake, min(end, probe_at) - now)
            if ready:
                return ready
            now = time.monotonic()
            if is_woken:
                end = min(end, now + LAST_WORDS)
                self.wake = -1
            elif now >= end:
                late = "in time" if now >= self.end else f"in {now - begun:.1f} s"
                raise Silent(f"{self.peer} hasn't answered {late}")
            elif now >= probe_at:
                within = min(PROBE_WITHIN, max(0.0, end - now))
                if not is_there(self.peer, within, self.wake) and time.monotonic() < end:
                    note_silence(self.server)
                    raise Silent(f"{self.peer} says nothing")
                probe_at = time.monotonic() + PROBE_AFTER


def polled(handle: int, wanted: int, wake: int, seconds: float) -> tuple[int, bool]:
    """Wait for a socket to be readable (1) or writable (2). Return what it is, and whether the pipe has a byte."""
    poll = select.poll()
    poll.register(handle, (select.POLLIN if wanted & 1 else 0) | (select.POLLOUT if wanted & 2 else 0))
    if wake >= 0:
        poll.register(wake, select.POLLIN)
    ready = 0
    found = dict(poll.poll(None if seconds == math.inf else max(0, math.ceil(seconds * 1000))))
    if flags := found.get(handle, 0):
        ready = (1 if flags & select.POLLIN else 0) | (2 if flags & select.POLLOUT else 0)
        ready = ready & wanted or wanted  # (an error is found by whoever reads or writes)
    return ready, wake in found


def connect(
    database: str, attributes: str, *, wake: int = -1, end: float = math.inf, patience: float = 1.0
) -> Watched:
    """Connect to the first server that answers and has these attributes, unless the string sets others.

    `database` is a libpq connection string, and `attributes` a value of target_session_attrs. Each address gets
    `patience` times the usual timeout.
    """
    given = parameters(database)
    wanted = given.pop("target_session_attrs", attributes)
    if wanted not in ATTRIBUTES:
        raise psycopg.ProgrammingError(f'invalid target_session_attrs value: "{wanted}"')
    within = patience * timeout_in(given)
    failures: list[str] = []
    for it in ("standby", "any") if wanted == "prefer-standby" else (wanted,):
        for server in servers_of(given, wake, end, within, failures):
            try:
                return session(server, given, it, wake, min(end, time.monotonic() + within))
            except Interrupted:
                raise
            except psycopg.Error as why:
                failures.append(f"{server}: {str(why).strip() or type(why).__name__}")
            if time.monotonic() >= end:
                break
    raise psycopg.OperationalError("; ".join(dict.fromkeys(failures)) or "no server is named")


def timeout_in(given: dict[str, str]) -> float:
    """Take the time for each address out of the parameters."""
    text = given.pop("connect_timeout", CONNECT_TIMEOUT)
    try:
        seconds = float(text)
    except ValueError as why:
        raise psycopg.ProgrammingError(f'invalid value "{text}" for connect_timeout') from why
    return seconds if seconds > 0 else math.inf


def parameters(database: str) -> dict[str, str]:
    """Return the parameters of a connection string: its own, then those of the environment, then ours.

    A service of the environment counts if the string names no host. libpq reads its file, which comes before the
    environment.
    """
    given = {name: str(value) for name, value in conninfo.conninfo_to_dict(database).items() if value is not None}
    named = {name: os.environ[variable] for name, variable in ENVIRONMENT.items() if os.environ.get(variable)}
    if not given.keys() & {"host", "hostaddr"} and os.environ.get("PGSERVICE"):
        given.setdefault("service", os.environ["PGSERVICE"])
    if "service" in given:
        named = {name: value for name, value in named.items() if name not in PLACES}
    return {**USUAL, **named, **given}


def servers_of(given: dict[str, str], wake: int, end: float, within: float, failures: list[str]) -> Iterator[Server]:
    """Yield the servers that a connection string names, with each of their addresses; those that didn't answer come
    last."""
    hosts, addresses, ports = (given.get(name, "").split(",") for name in ("host", "hostaddr", "port"))
    count = max(len(hosts), len(addresses))
    if "service" in given or any(len(it) not in (1, count) for it in (hosts, addresses, ports)):
        yield Server(given.get("host", ""), given.get("hostaddr", ""), given.get("port", ""))  # (libpq says what is wrong)
        return
    hosts, addresses, ports = (it * count if len(it) == 1 else it for it in (hosts, addresses, ports))
    named = [Server(*it) for it in zip(hosts, addresses, ports)]
    if given.get("load_balance_hosts") == "random":
        random.shuffle(named)
    named.sort(key=lambda it: time.monotonic() - silent.get((it.host or it.address, it.port), -math.inf) < SILENT_FOR)
    for server in named:
        try:
            found = [server.address] if server.address else resolved(
                server.host, wake, min(end, time.monotonic() + within))
        except OSError as why:
            failures.append(f"{server}: {why}")
            continue
        yield from (server._replace(address=address) for address in found)


def resolved(host: str, wake: int, end: float) -> list[str]:
    """Return the addresses of a host, or "" for a folder of sockets. A name server that doesn't answer doesn't
    block."""
    if not host or host[0] in "/@":
        return [""]
    with contextlib.suppress(ValueError):
        return [str(ipaddress.ip_address(host))]
    answers: list[list[str] | OSError] = []
    reading, writing = os.pipe()

    def ask() -> None:
        try:
            found = socket.getaddrinfo(host, None, type=socket.SOCK_STREAM)
            answers.append(list(dict.fromkeys(str(it[4][0]) for it in found)))
        except (OSError, UnicodeError) as why:
            answers.append(why if isinstance(why, OSError) else OSError(str(why)))
        os.close(writing)

    threading.Thread(target=ask, name="kob-fleet-resolver", daemon=True).start()
    try:
        _, is_woken = polled(reading, 1, wake, end - time.monotonic())
    finally:
        os.close(reading)
    if is_woken:
        raise Interrupted("the wait was ended")
    answer = answers[0] if answers else OSError("its name server hasn't answered")
    if isinstance(answer, OSError):
        raise answer
    return answer


def session(server: Server, given: dict[str, str], attributes: str, wake: int, end: float) -> Watched:
    """Connect to one server, and check that its session has the attributes."""
    wanted = attributes if "service" in given and attributes in FOUND_BY_LIBPQ else "any"
    own = {**given, "host": server.host, "hostaddr": server.address, "port": server.port,
           "target_session_attrs": wanted,
           "client_encoding": "UTF8"}  # (a database in SQL_ASCII would give bytes for texts)
    own.pop("load_balance_hosts", None)
    text = conninfo.make_conninfo("", **{name: value for name, value in own.items() if value})
    connection = Watched(started(server, text, wake, end))
    try:
        connection.autocommit = True
        # (whoever has waited for the log's lock has to see what was added meanwhile)
        connection.isolation_level = psycopg.IsolationLevel.READ_COMMITTED
        connection.prepare_threshold = None  # (a pooler gives each statement another session)
        connection.server, connection.wake, connection.end = server, wake, end
        info = connection.info
        connection.peer = Server(info.host, server.address or info.hostaddr, str(info.port))
        row = connection.execute(SESSION).fetchone()
        assert row is not None
        connection.is_standby, connection.is_read_only = row[0], row[1]
        connection.is_pooled = row[2] != connection.info.backend_pid
        check_attributes(connection, attributes)
        if not connection.is_pooled:
            set_for_session(connection, **unless_given(SETTINGS, given))
    except BaseException:
        connection.close()
        raise
    connection.end = math.inf
    silent.pop((server.host or server.address, server.port), None)
    return connection


def started(server: Server, text: str, wake: int, end: float) -> pq.abc.PGconn:
    """Return a connection of libpq that is ready."""
    made, begun = pq.PGconn.connect_start(text.encode()), time.monotonic()
    try:
        while True:
            status = made.connect_poll()
            if status == pq.PollingStatus.OK:
                made.nonblocking = 1
                return made
            if made.status == pq.ConnStatus.BAD or status == pq.PollingStatus.FAILED:
                raise psycopg.OperationalError(f"connection failed: {reason_of(made)}")
            wanted = 1 if status == pq.PollingStatus.READING else 2
            ready, is_woken = polled(made.socket, wanted, wake, end - time.monotonic())
            if is_woken:
                raise Interrupted("the wait was ended")
            if not ready:
                note_silence(server)
                raise Silent(f"no answer in {time.monotonic() - begun:.1f} s")
    except BaseException:
        made.finish()
        raise


def reason_of(made: pq.abc.PGconn) -> str:
    """Return why libpq couldn't connect, without the server, which is named already.

    pq.error_message cuts at the first colon, even if that is in an address or after "invalid sslmode value".
    """
    said = made.error_message.decode(errors="replace").strip()
    return TO_SERVER.sub("", said) or "no reason is known"


def check_attributes(connection: Watched, attributes: str) -> None:
    """OperationalError if the session isn't what target_session_attrs requires."""
    wrong = {"read-write": connection.is_read_only and "it takes no writes",
             "read-only": not connection.is_read_only and "it takes writes",
             "primary": connection.is_standby and "it is a standby",
             "standby": not connection.is_standby and "it is no standby"}.get(attributes, False)
    if wrong:
        raise psycopg.OperationalError(str(wrong))


def unless_given(settings: dict[str, str], given: dict[str, str]) -> dict[str, str]:
    """Return the settings that the connection string doesn't have in its own `options`, nor PGOPTIONS."""
    options = given.get("options", os.environ.get("PGOPTIONS", ""))
    return {name: value for name, value in settings.items() if not re.search(rf"\b{name}\b", options)}


def set_for_session(connection: Watched, **settings: str) -> None:
    calls = ", ".join("set_config(%s, %s, false)" for _ in settings)
    connection.execute(f"select {calls}".encode(), [word for setting in settings.items() for word in setting])


def note_silence(server: Server) -> None:
    silent[server.host or server.address, server.port] = time.monotonic()


def is_there(server: Server, within: float, wake: int) -> bool:
    """Whether a server responds when it is asked whether it supports TLS. True if the wait was ended before that."""
    end = time.monotonic() + within
    try:
        with begun_to(server, within) as made:
            for wanted in (2, 1):  # (it is connected, and has answered)
                ready, is_woken = polled(made.fileno(), wanted, wake, max(0.0, end - time.monotonic()))
                if is_woken or not ready:
                    return is_woken
                if wanted == 2:
                    made.sendall(SSL_REQUEST)
            return bool(made.recv(1))
    except (OSError, ValueError):
        return False


def begun_to(server: Server, within: float) -> socket.socket:
    """Return a socket that doesn't block, and has begun to connect to a server."""
    port = server.port or "5432"
    if server.address:
        family, kind, _, _, address = socket.getaddrinfo(
            server.address, int(port), type=socket.SOCK_STREAM, flags=socket.AI_NUMERICHOST)[0]
        made = socket.socket(family, kind)
        made.setblocking(False)
        made.connect_ex(address)
        return made
    path = server.host or "/var/run/postgresql"
    made = socket.socket(socket.AF_UNIX)
    try:  # (where its queue is full, only a call that blocks waits for room)
        made.settimeout(max(0.01, within))
        made.connect(f"{path}/.s.PGSQL.{port}" if path[0] == "/" else f"\0{path[1:]}/.s.PGSQL.{port}")
        made.setblocking(False)
    except OSError:
        made.close()
        raise
    return made
