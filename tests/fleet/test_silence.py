"""Servers, connections and sessions that are silent: nobody waits for longer than they were told to."""
from __future__ import annotations

import math
import os
import shutil
import signal
import subprocess
import tempfile
import threading
import time
import unittest
import uuid
from collections import Counter
from collections.abc import Iterator
from pathlib import Path
from typing import Any
from unittest import mock

import psycopg

import kobdzila
import proxies
import servers
from cases import LogCase
from kobdzila.fleet import Behind, Difference, Follower, Log, NoLog, Unanswered, _connect, _player, _report
from stores import NO_SESSION, Catalogues, has_catsession, loads, mo, until

SLOW = 3.0  # seconds that a busy machine may add
CANCELS = int(os.environ.get("KOBDZILA_FLEET_CANCELS", "5"))


class HostsTest(LogCase):
    """A silent host costs its own time, and not that of all."""

    def setUp(self) -> None:
        super().setUp()
        _connect.silent.clear()
        self.addCleanup(_connect.silent.clear)

    def check(self, opened: Any) -> None:
        port, sockets = opened
        self.addCleanup(lambda: [it.close() for it in sockets])
        address = proxies.before(port, servers.shared()) + " connect_timeout=2"
        begun = time.monotonic()
        with Log(address) as log:
            version = log.publish(loads(1), within=20)
        self.assertGreater(time.monotonic() - begun, 1.5)
        follower = Follower(Catalogues(), address, "m")
        with follower:
            self.assertEqual(follower.wait_for(version, 100), version)
        # (the host is known to be silent, so the next connection doesn't pay for it)
        found = _connect.servers_of(_connect.parameters(address), -1, math.inf, 5.0, [])
        self.assertEqual([it.port for it in found], [str(servers.shared().port), str(port)])

    def test_a_host_that_accepts_and_says_nothing(self) -> None:
        self.check(proxies.silent_port())

    def test_hosts_with_names(self) -> None:
        """The time for a silent host isn't that for the name of the next one."""
        port, sockets = proxies.silent_port()
        self.addCleanup(lambda: [it.close() for it in sockets])
        address = f"host=localhost,localhost port={port},{servers.shared().port} user=postgres dbname=postgres"
        with Log(f"{address} connect_timeout=2") as log:
            self.assertEqual(log.publish(loads(1), within=60), 2)

    def test_a_host_that_drops_packets(self) -> None:
        self.check(proxies.dropping_port())

    def test_within_is_kept(self) -> None:
        port, sockets = proxies.silent_port()
        self.addCleanup(lambda: [it.close() for it in sockets])
        begun = time.monotonic()
        with Log(f"host=127.0.0.1 port={port} user=postgres") as log, self.assertRaises(psycopg.OperationalError):
            log.publish(loads(1), within=1)
        self.assertLess(time.monotonic() - begun, SLOW + 2)
        follower = Follower(Catalogues(), f"host=127.0.0.1 port={port} user=postgres", "m")
        follower.start()
        time.sleep(0.3)
        begun = time.monotonic()
        follower.close()
        self.assertLess(time.monotonic() - begun, SLOW + 1)
        until(lambda: not follower._thread.is_alive(), SLOW + 1)

    def test_a_name_server_that_is_silent(self) -> None:
        asked = threading.Event()
        self.addCleanup(asked.set)
        with mock.patch("socket.getaddrinfo", side_effect=lambda *_, **__: [] if asked.wait(20) else []):
            begun = time.monotonic()
            with Log("host=db1.invalid user=postgres") as log, self.assertRaises(psycopg.OperationalError) as caught:
                log.publish(loads(1), within=1)
        self.assertLess(time.monotonic() - begun, SLOW + 2)
        self.assertIn("name server", str(caught.exception))

    def test_why_there_is_no_connection(self) -> None:
        """The reason is libpq's, whole, also if a colon is in it."""
        nowhere = f"host=127.0.0.1 port={servers.free_port()}"
        for address, said in ((nowhere, "Connection refused"), ("sslmode=x", 'invalid sslmode value: "x"'),
                              ("port=99999", 'invalid port number: "99999"'), ("host=/none", "No such file"),
                              (f"{self.address} password=secret dbname=x:y", 'FATAL:  database "x:y" does not exist')):
            with self.assertRaises(psycopg.OperationalError) as caught, Log(address) as log:
                log.status()
            self.assertIn(f": connection failed: {said}", str(caught.exception))
            self.assertNotIn("secret", str(caught.exception))

    @unittest.skipUnless(servers.has_ipv6(), "no IPv6")
    def test_why_there_is_no_connection_over_ipv6(self) -> None:
        with self.assertRaisesRegex(psycopg.OperationalError, "connection failed: Connection refused"):
            Log(f"host=::1 port={servers.free_port()}").status()

    def test_attributes_of_sessions(self) -> None:
        address = servers.shared().address
        for attributes, is_right in (("any", True), ("read-write", True), ("primary", True), ("prefer-standby", True),
                                     ("standby", False), ("read-only", False)):
            with self.subTest(attributes):
                try:
                    _connect.connect(f"{address} target_session_attrs={attributes}", "any").close()
                except psycopg.OperationalError:
                    self.assertFalse(is_right)
                else:
                    self.assertTrue(is_right)

    @unittest.skipUnless(shutil.which("openssl"), "no openssl")
    def test_a_certificate_is_checked_by_the_name(self) -> None:
        """The address is looked up before; the certificate has to be that of the host's name all the same."""
        with servers.folder() as room, servers.primary() as server:
            certificate, key = server.folder / "server.crt", server.folder / "server.key"
            made = ["openssl", "req", "-new", "-x509", "-days", "2", "-nodes", "-subj", "/CN=localhost", "-addext",
                    "subjectAltName=DNS:localhost", "-newkey", "ec", "-pkeyopt", "ec_paramgen_curve:prime256v1",
                    "-keyout", str(key), "-out", str(certificate)]
            subprocess.run([*servers.as_user(), *made], check=True, capture_output=True, timeout=200)
            key.chmod(0o600)
            shutil.copy(certificate, room / "root.crt")
            server.set("ssl = on")
            server.stop()
            server.start()
            secure = f"user=postgres dbname=postgres port={server.port} sslmode=verify-full sslrootcert={room}/root.crt"
            with Log(f"host=localhost {secure}") as log:
                log.init()
                self.assertEqual(log.publish(loads(1)), 2)
            with Log(f"host=127.0.0.1 {secure}") as log, self.assertRaisesRegex(psycopg.OperationalError, "certificate"):
                log.status()
            self.assertTrue(_connect.is_there(_connect.Server("localhost", "127.0.0.1", str(server.port)), 10, -1))

    def test_the_server_watches_too(self) -> None:
        with _connect.connect(servers.shared().address, "any") as connection:
            for name in ("statement_timeout", "lock_timeout", "idle_in_transaction_session_timeout", "tcp_user_timeout",
                         "tcp_keepalives_idle"):
                self.assertNotIn(connection.execute(f"show {name}").fetchone()[0], ("0", "7200"), name)

    def test_settings_of_the_connection_string(self) -> None:
        """They override ours."""
        query = "select current_setting('lock_timeout'), current_setting('statement_timeout'), current_setting('jit')"
        given = f"{self.address} options='-c statement_timeout=77s -c deadlock_timeout=2s'"
        with Log(given) as log:
            self.assertEqual(log._once(lambda it: it.execute(query).fetchone()), ("10s", "77s", "off"))
        with mock.patch.dict(os.environ, PGOPTIONS="-c lock_timeout=3s"), Log(self.address) as log:
            self.assertEqual(log._once(lambda it: it.execute(query).fetchone()), ("3s", "10min", "off"))

    def test_no_query_is_compiled(self) -> None:
        """A query that is compiled costs the server more than it does, for each of the machines that wake at once."""
        with _connect.connect(servers.shared().address, "any") as connection:
            self.assertEqual(connection.execute("show jit").fetchone()[0], "off")


class ServiceTest(LogCase):
    """Servers that a service file names: libpq reads it, and tries its hosts."""

    def service(self, *ports: int) -> None:
        """Write a service `texts` of servers on these ports."""
        folder = tempfile.TemporaryDirectory()
        self.addCleanup(folder.cleanup)
        path = Path(folder.name, "services")
        hosts, named = ",".join("127.0.0.1" for _ in ports), ",".join(map(str, ports))
        path.write_text(f"[texts]\nhost={hosts}\nport={named}\nuser=postgres\ndbname=postgres\n", encoding="utf-8")
        environment = mock.patch.dict(os.environ, PGSERVICEFILE=str(path))
        environment.start()
        self.addCleanup(environment.stop)

    def each_way(self) -> Iterator[str]:
        """Name the service in the connection string, and then in the environment."""
        yield "service=texts"
        with mock.patch.dict(os.environ, PGSERVICE="texts", PGHOST="none.invalid", PGPORT="1"):
            yield ""

    def test_a_wait_asks_the_server_that_libpq_has_found(self) -> None:
        port = servers.shared().port
        self.service(port)
        for database in self.each_way():
            with (self.subTest(database), mock.patch.object(_connect, "PROBE_AFTER", 0.2),
                  _connect.connect(database, "read-write") as connection):
                self.assertEqual(connection.execute("select 1 from pg_sleep(0.7)").fetchone(), (1,))
                self.assertEqual(str(connection.peer), f"127.0.0.1:{port}")

    def test_the_host_that_takes_writes_is_found(self) -> None:
        with servers.primary("default_transaction_read_only = on") as other:
            self.service(other.port, servers.shared().port)
            for number, database in enumerate(self.each_way(), 1):
                with self.subTest(database), Log(database) as log:
                    self.assertEqual(log.publish(loads(number), within=20), 2 * number)

    @unittest.skipUnless(psycopg.pq.version() >= 140000, "libpq before 14 doesn't know a primary")
    def test_the_primary_is_found(self) -> None:
        with servers.pair() as (first, second):
            self.service(second.port, first.port)
            for database in self.each_way():
                with self.subTest(database), _connect.connect(database, "primary") as connection:
                    self.assertEqual(connection.info.port, first.port)

    def test_hosts_of_the_string_come_first(self) -> None:
        self.service(1)
        with mock.patch.dict(os.environ, PGSERVICE="texts"), Log(self.address) as log:
            self.assertEqual(log.publish(loads(1), within=20), 2)
            found = _connect.servers_of(_connect.parameters("host=::1,::2"), -1, math.inf, 5.0, [])
            self.assertEqual([it.host for it in found], ["::1", "::2"])


class SilenceTest(LogCase):
    """Connections that fall silent while they are used."""

    def setUp(self) -> None:
        super().setUp()
        self.proxy = proxies.Proxy(servers.shared().port)
        self.addCleanup(self.proxy.close)
        self.addCleanup(_connect.silent.clear)

    def test_a_publish_goes_on_elsewhere(self) -> None:
        """The primary falls silent, as a frozen machine does, and another one is there."""
        address = proxies.before(self.proxy.port, servers.shared())
        with Log(address) as log:
            log.publish(loads(1))
            self.proxy.freeze()
            begun = time.monotonic()
            self.assertEqual(log.publish(loads(2), within=30), 4)
            self.assertLess(time.monotonic() - begun, 15)
        self.assertEqual(self.log.status().publishes, 2)

    def test_a_follower_goes_on_elsewhere(self) -> None:
        with mock.patch.object(_player, "BEAT_WITHIN", 3.0):
            follower = Follower(Catalogues(), proxies.before(self.proxy.port, servers.shared()), "m", look_each=0.5)
            with follower:
                follower.wait_for(self.log.publish(loads(1)), 100)
                self.proxy.freeze()
                self.assertEqual(follower.wait_for(self.log.publish(loads(2)), 100), 4)

    def test_a_silence_is_said_and_close_ends_it(self) -> None:
        follower = Follower(Catalogues(), self.proxy.address, "m", look_each=0.3)
        with mock.patch.object(_player, "BEAT_WITHIN", 3.0), follower:
            follower.wait_for(self.log.publish(loads(1)), 100)
            self.proxy.freeze()
            self.assertIn("hasn't answered", str(until(lambda: follower.trouble)))
            begun = time.monotonic()
            follower.close()
            self.assertLess(time.monotonic() - begun, SLOW + 1)
            until(lambda: not follower._thread.is_alive(), SLOW + 1)
            self.proxy.thaw()

    def test_close_while_a_silent_server_is_asked(self) -> None:
        """A follower that asks by another connection whether its server is there ends as soon as others."""
        with (mock.patch.multiple(_connect, PROBE_AFTER=0.3, PROBE_WITHIN=60.0),
              mock.patch.object(_player, "BEAT_WITHIN", 60.0), mock.patch.object(_report, "REPORT_WITHIN", 60.0)):
            follower = Follower(Catalogues(), self.proxy.address, "m", look_each=0.3)
            follower.start()
            follower.wait_for(self.log.publish(loads(1)), 100)
            self.proxy.freeze()
            time.sleep(3)
            begun = time.monotonic()
            follower.close()
            self.assertLess(time.monotonic() - begun, SLOW + 1)
            until(lambda: not follower._thread.is_alive(), SLOW + 1)
            self.proxy.thaw()

    def test_a_wait_for_machines_is_kept(self) -> None:
        """By a connection that falls silent, and by a new one."""
        with Log(self.proxy.address) as log:
            self.assertEqual(log.wait_for(0, within=60), [])
            self.proxy.freeze()
            for silence in ("hasn't answered", "no answer in"):
                begun = time.monotonic()
                with self.assertRaisesRegex(psycopg.OperationalError, silence):
                    log.wait_for(1, within=0.5)
                self.assertLess(time.monotonic() - begun, SLOW + 1)
            self.proxy.thaw()

    def test_a_process_of_the_server_that_hangs(self) -> None:
        """The server itself answers; the process that serves a follower doesn't."""
        with mock.patch.object(_player, "BEAT_WITHIN", 3.0):
            follower = self.follower(look_each=0.5)
            follower.wait_for(self.log.publish(loads(1)), 100)
            pid = until(lambda: [it for it, in self.sql(
                "select pid from pg_stat_activity where query like '%%kobdzila.machine%%' and state = 'idle'"
                " or query like 'execute kobdzila_%%' and state = 'idle'")])[0]
            os.kill(pid, signal.SIGSTOP)
            self.addCleanup(os.kill, pid, signal.SIGCONT)
            self.assertEqual(follower.wait_for(self.log.publish(loads(2)), 100), 4)

    def test_close_while_a_query_hangs(self) -> None:
        with mock.patch.object(_player, "BEAT_WITHIN", 60.0):
            follower = self.follower(look_each=0.2)
            follower.wait_for(self.log.publish(loads(1)), 100)
            (pid,) = until(lambda: [it for it, in self.sql(
                "select pid from pg_stat_activity where query like 'execute kobdzila_%%' and state = 'idle'")])
            os.kill(pid, signal.SIGSTOP)
            self.addCleanup(os.kill, pid, signal.SIGCONT)
            time.sleep(0.6)
            begun = time.monotonic()
            follower.close()
            self.assertLess(time.monotonic() - begun, SLOW + 1)
            until(lambda: not follower._thread.is_alive(), SLOW + 1)


class SharedTest(LogCase):
    """Publishers that share a Log, or wait for each other."""

    def test_threads_share_a_log(self) -> None:
        self.check_threads()

    def test_threads_share_a_log_in_a_database_of_another_isolation(self) -> None:
        """A publisher sees what was added while it waited for the lock."""
        self.sql("alter database postgres set default_transaction_isolation = 'repeatable read'")
        self.addCleanup(self.sql, "alter database postgres reset default_transaction_isolation")
        self.check_threads()

    def check_threads(self) -> None:
        answers: dict[uuid.UUID, int] = {}
        failures: Counter[str] = Counter()

        def work(which: int) -> None:
            for number in range(10):
                name = uuid.uuid4()
                try:
                    answers[name] = self.log.publish([("app", "fr", mo(100 * which + number))], id=name)
                except Exception as why:  # noqa: BLE001
                    failures[repr(why)] += 1

        threads = [threading.Thread(target=work, args=[which], daemon=True) for which in range(6)]
        for thread in threads:
            thread.start()
        for thread in threads:
            thread.join(60)
        self.assertEqual(([it.is_alive() for it in threads], dict(failures)), ([False] * 6, {}))
        self.assertEqual({row.id: row.version for row in self.log.history(1000)}, answers)
        self.assertEqual(sorted(answers.values()), list(range(1, 61)))
        self.assertEqual(self.sql("select count(*) from pg_stat_activity where state like 'idle in%%'"), [(0,)])

    def test_a_lock_that_somebody_holds(self) -> None:
        with psycopg.connect(servers.shared().address, application_name="an operator") as other:
            other.execute("select layout from kobdzila.log for update")
            begun = time.monotonic()
            with self.assertRaisesRegex(psycopg.OperationalError, "lock is held by process .*an operator, idle in tr"):
                self.log.publish(loads(1), within=4)
            self.assertLess(time.monotonic() - begun, SLOW + 5)
            with self.assertRaisesRegex(psycopg.OperationalError, "lock is held by process .*an operator, idle in tr"):
                self.log.restore(within=1)
            threading.Timer(0.5, other.rollback).start()
            self.assertEqual(self.log.publish(loads(1), within=20), 2)
        self.assertEqual(self.sql("select count(*) from kobdzila.epoch"), [(1,)])

    def test_who_waits_for_the_lock_does_not_hold_it(self) -> None:
        """Though his transaction is the older one."""
        query, address = "select layout from kobdzila.log for update", servers.shared().address
        with psycopg.connect(address, application_name="waits") as one, psycopg.connect(
                address, application_name="holds") as two:
            one.execute("select")
            two.execute(query)
            waiting = threading.Thread(target=one.execute, args=[query], daemon=True)
            waiting.start()
            until(lambda: self.sql("select 1 from pg_stat_activity where wait_event_type = 'Lock'"))
            with self.assertRaisesRegex(psycopg.OperationalError, r"lock is held by process \d+ .*\(holds, idle"):
                self.log.publish(loads(1), within=0.5)
            two.rollback()
            waiting.join(60)

    def test_a_lock_that_another_user_holds(self) -> None:
        """The server says no more of him than his name, his process and his program."""
        self.log.init(roles=True)
        self.sql("do $$ begin create role pub login; exception when duplicate_object then null; end $$")
        self.sql("grant kobdzila_publisher to pub")
        address = servers.shared().address
        with psycopg.connect(address, application_name="an operator") as other:
            other.execute("select layout from kobdzila.log for update")
            with Log(address.replace("user=postgres", "user=pub")) as log, self.assertRaisesRegex(
                    psycopg.OperationalError, r"of the server \(an operator, user postgres\)\Z"):
                log.publish(loads(1), within=0.5)

    def test_a_publisher_that_is_stopped_lets_go_of_the_lock(self) -> None:
        """The server ends its transaction after ten seconds of silence; here after less."""
        with mock.patch.object(Log, "close", lambda self: None), Log(servers.shared().address) as log:
            from kobdzila.fleet import _log

            def stuck(connection: Any) -> Any:
                _log.lock(connection)
                connection.execute("select set_config('idle_in_transaction_session_timeout', '300', true)")
                threading.Event().wait(1)
                raise AssertionError("it got no further")

            thread = threading.Thread(
                target=lambda: self.assertRaises(AssertionError, log._retry, stuck, uuid.uuid4(), 5.0), daemon=True)
            thread.start()
            time.sleep(0.2)
            begun = time.monotonic()
            self.assertEqual(self.log.publish(loads(1), within=20), 2)
            thread.join(60)


class ReplicatedTest(unittest.TestCase):
    """An answered publish is on the synchronous standby, whatever somebody cancels."""

    def test_a_wait_for_the_standby_that_is_cancelled(self) -> None:
        with servers.pair() as (first, second), Log(first.address) as log:
            log.init()
            self.assertEqual(log.publish(loads(1)), 2)
            second.stop()
            doubtful = [self.cancelled(first, log, "cancel") for _ in range(CANCELS)]
            doubtful.append(self.cancelled(first, log, "terminate"))
            with Follower(Catalogues(), first.address, "m") as follower:  # (the primary shows them, and says so)
                self.assertGreaterEqual(follower.wait_for(4, 100), 4)
            second.start()
            first.wait_for_copy("standby")
            again = [log.publish(loads(2), id=it, within=30) for it in doubtful]
            self.assertEqual(len(set(again)), len(doubtful))
            with psycopg.connect(second.address) as standby:
                rows = dict(standby.execute("select id, version from kobdzila.publish").fetchall())
            self.assertEqual({it: rows.get(it) for it in doubtful}, dict(zip(doubtful, again)))
            self.assertEqual(len(rows), 1 + len(doubtful))

    def cancelled(self, server: servers.Server, log: Log, how: str) -> uuid.UUID:
        """Publish, cancel the waits for the standby, and return the id: nobody can say that it is safe."""
        ending = threading.Event()

        def cancel() -> None:
            with psycopg.connect(server.address, autocommit=True) as connection:
                while not ending.wait(0.01):
                    connection.execute(f"select pg_{how}_backend(pid) from pg_stat_activity where wait_event = 'SyncRep'")

        thread, number = threading.Thread(target=cancel, daemon=True), uuid.uuid4()
        thread.start()
        with self.assertRaises(Unanswered) as caught:
            self.publish_soon(log, number)
        ending.set()
        thread.join()
        self.assertEqual(caught.exception.id, number)
        return number

    def publish_soon(self, log: Log, number: uuid.UUID) -> None:
        """Publish within a second. A machine that is too busy even to connect is tried again: nothing was sent."""
        for _ in range(30):
            begun = time.monotonic()
            try:
                log.publish(loads(2), id=number, within=0.6)
                return
            except psycopg.OperationalError as trouble:
                if "no answer in" not in str(trouble):
                    raise
            finally:
                self.assertLess(time.monotonic() - begun, SLOW + 2)

    def test_a_standby_that_is_awaited_is_named(self) -> None:
        with servers.pair() as (first, second), Log(first.address) as log:
            log.init()
            log.publish(loads(1))
            second.stop()
            with self.assertRaises(Unanswered) as caught:
                log.publish(loads(2), within=3)
            self.assertIn(f"log: 127.0.0.1:{first.port} waits for its synchronous standby (synchronous_standby_names ="
                          " 'standby'), which hasn't answered: start that", str(caught.exception))
            with self.assertRaisesRegex(psycopg.OperationalError, "by process .*kob-fleet, waits for the synchronous"):
                log.restore(within=3)

    def test_a_restore_does_not_wait_for_the_standby(self) -> None:
        """Nothing stays behind that holds the log's lock: machines report, and one epoch has begun."""
        with servers.pair() as (first, second), Log(first.address) as log:
            log.init()
            log.publish(loads(1))
            with Follower(Catalogues(), first.address, "m") as follower:
                follower.wait_for(2, 100)
                second.stop()
                begun = log.restore("the first one", within=20)
                self.assertEqual(follower.wait_for(begun.token, 100).token, begun.token)
                until(lambda: [it.version.token for it in log.status().machines] == [begun.token])
            with psycopg.connect(first.address) as connection:
                self.assertEqual(connection.execute("select count(*) from kobdzila.epoch").fetchone(), (2,))
            second.start()
            first.wait_for_copy("standby")
            version = log.publish(loads(2), within=60)
            with psycopg.connect(second.address) as standby:
                self.assertEqual(standby.execute("select epoch from kobdzila.epoch order by number").fetchall()[1:],
                                 [(version.epoch,)])

    def test_a_role_that_waits_for_nothing(self) -> None:
        with servers.pair() as (first, second), Log(first.address) as log:
            with psycopg.connect(first.address, autocommit=True) as connection:
                connection.execute("alter role postgres set synchronous_commit = 'off'")
            log.init()
            self.assertEqual(log.publish(loads(1)), 2)
            second.stop()
            with self.assertRaises(Unanswered):
                self.publish_soon(log, uuid.uuid4())


class ThreadTest(LogCase):
    """The thread of a follower doesn't end without a word."""

    def test_callbacks_that_fail(self) -> None:
        def fails(*_: object) -> None:
            raise RuntimeError("logging is down")

        def ends(*_: object) -> None:
            raise SystemExit

        followers = [self.follower(machine=f"m{at}", on_trouble=it, on_version=it) for at, it in enumerate((fails, ends))]
        self.log.publish(loads(1))
        with self.assertLogs("kobdzila"):
            for follower in followers:
                follower.wait_for(2, 100)
            self.sql("select pg_terminate_backend(pid) from pg_stat_activity where application_name = 'kob-fleet'"
                     " and pid <> pg_backend_pid()")
            version = Log(self.address).publish(loads(2))
            for follower in followers:
                self.assertEqual(follower.wait_for(version, 100), 4)
                self.assertTrue(follower.health().is_alive)

    def test_closed_by_a_callback(self) -> None:
        follower = Follower(Catalogues(), self.address, "m", on_version=lambda version: follower.close())
        with self.assertNoLogs("kobdzila"):
            follower.start()
            until(lambda: not follower._thread.is_alive())
        self.assertEqual((follower.health().is_alive, self.log.status().machines), (False, []))
        follower.close()
        self.assertEqual(follower._woken, -1)

    def test_what_nobody_foresaw(self) -> None:
        follower = self.follower(look_each=0.1)
        self.log.publish(loads(1))
        follower.wait_for(2, 100)
        with self.assertLogs("kobdzila"), mock.patch.object(_player, "head_of", side_effect=MemoryError("no room")):
            until(lambda: follower.restarts > 1)
        self.assertEqual(follower.wait_for(self.log.publish(loads(2)), 100), 4)
        self.assertGreater(follower.health().restarts, 1)
        until(lambda: follower.trouble is None)

    def test_a_fork(self) -> None:
        self.check_fork(Catalogues())

    @unittest.skipUnless(has_catsession(), NO_SESSION)
    def test_a_fork_with_a_session(self) -> None:
        """The child gets a catsession of its own, and joins anew."""
        with kobdzila.Session() as session:
            self.check_fork(session)
            self.followers[-1].close()

    def check_fork(self, store: Any) -> None:
        follower = self.follower(store, "parent")
        self.log.publish(loads(1))
        follower.wait_for(2, 100)
        until(lambda: [it.version for it in self.log.status().machines] == [2])
        reading, writing = os.pipe()
        child = os.fork()
        if child == 0:
            said = b"?"
            try:
                follower.wait_for(4, 100)
                said = self.text(follower).encode()
                until(lambda: len(self.log.status().machines) == 2)
                follower.close()
            except BaseException as why:  # noqa: BLE001
                said = repr(why).encode()
            os.write(writing, said)
            os._exit(0)
        os.close(writing)
        version = self.log.publish(loads(2))
        follower.wait_for(version, 100)
        self.assertEqual(os.read(reading, 1000), b"k1 at 2")
        os.close(reading)
        os.waitpid(child, 0)
        self.assertEqual(follower.wait_for(self.log.publish(loads(3)), 100), 6)
        self.assertIsNone(follower.trouble)

    def test_children_that_end(self) -> None:
        """A child deletes what those before it left: the workers of a server end, and others are forked in their place."""
        follower = self.follower(machine="parent")
        until(lambda: self.log.status().machines)
        for _ in range(2):
            child = os.fork()
            if child == 0:
                try:
                    until(lambda: follower._reporter.process in [it.process for it in self.log.status().machines])
                finally:
                    os._exit(0)
            os.waitpid(child, 0)
        found = {int(it.process.split(":")[1]) for it in self.log.status().machines}
        self.assertEqual(found, {os.getpid(), child})

    def test_attempts_become_rare(self) -> None:
        """Without a log, and for a role that may read nothing, a follower doesn't connect ten times a second."""
        self.sql("do $$ begin create role nobody2 login; exception when duplicate_object then null; end $$")
        self.log.publish(loads(1))
        for role, has_log in (("nobody2", True), ("postgres", False)):
            if not has_log:
                self.sql("drop schema kobdzila cascade")
            proxy = proxies.Proxy(servers.shared().port)
            with Follower(Catalogues(), proxy.address.replace("user=postgres", f"user={role}"), "m") as follower:
                time.sleep(4)
                self.assertIsNotNone(follower.trouble)
                with self.assertRaises(Behind) as caught:
                    follower.wait_for(1, 0.1)
                self.assertIn(str(follower.trouble), str(caught.exception))
            self.assertLess(proxy.accepted, 14)
            proxy.close()

    def test_looks_become_rare(self) -> None:
        """A log whose epoch is another one at each look isn't asked without a pause."""
        version = self.log.publish(loads(1))
        with (mock.patch.object(_player, "epochs_of", return_value=[("0" * 16, 0)]),
              mock.patch.object(_player.Player, "_last", autospec=True, side_effect=_player.Player._last) as last):
            begun, follower = time.monotonic(), self.follower()
            until(lambda: last.call_count)
            time.sleep(2)
            self.assertLess(last.call_count, 3 + 8 * (time.monotonic() - begun))
            self.assertFalse(follower.has_joined)
        self.assertEqual(follower.wait_for(version, 100), version)

    def test_a_later_layout(self) -> None:
        self.log.publish(loads(1))
        self.sql("update kobdzila.log set layout = 99")
        follower = self.follower()
        self.assertIn("layout 99", str(until(lambda: follower.trouble)))
        with self.assertRaisesRegex(NoLog, "layout 99"):
            self.log.publish(loads(2))
        self.assertFalse(follower.has_joined)
        self.sql("update kobdzila.log set layout = 2")
        follower.wait_for(2, 100)
        self.sql("update kobdzila.log set layout = 99")  # (while it is followed)
        self.sql("notify kobdzila")
        self.assertIn("layout 99", str(until(lambda: follower.trouble)))
        self.assertNotIsInstance(follower.stopped, Difference)


if __name__ == "__main__":
    unittest.main()
