"""The log and its followers, over one server: what is published is shown, whole, in order, as it was written."""
from __future__ import annotations

import hashlib
import os
import pickle
import threading
import time
import unittest
import uuid
from typing import Any
from unittest import mock

import psycopg

import kobdzila
from cases import LogCase
from kobdzila.fleet import (
    Behind,
    CacheRefused,
    Damaged,
    Difference,
    Follower,
    Log,
    NoLog,
    RestoreUnanswered,
    Restored,
    StoreFailed,
    Unanswered,
    Version,
    _log,
)
from stores import NO_SESSION, PAIRS, Catalogues, Readers, has_catsession, loads, mo, until


class LogTest(LogCase):
    @staticmethod
    def append(connection: Any, number: int) -> None:
        """Add both pairs with this number in the connection's transaction."""
        total = hashlib.sha256(mo(number)).digest()
        _log.keep_files(connection, {total: mo(number)})
        _log.append(connection, uuid.uuid4(), [(*pair, total) for pair in PAIRS], "")

    # --- publishing

    def test_versions_count_loads(self) -> None:
        self.assertEqual(self.log.publish(loads(1)), 2)
        self.assertEqual(self.log.publish([("app", "fr", mo(2))], note="second"), 3)
        self.log.init()
        rows = self.log.history()
        self.assertEqual([(row.version, row.loads, row.note, row.pairs) for row in rows],
                         [(3, 1, "second", ["app/fr"]), (2, 2, "", ["app/fr", "mail/fr"])])

    def test_each_file_is_kept_once(self) -> None:
        for _ in range(3):
            self.log.publish(loads(1))
        self.assertEqual(self.sql("select count(*) from kobdzila.file"), [(1,)])

    def test_an_id_is_published_once(self) -> None:
        number = uuid.uuid4()
        self.assertEqual([self.log.publish(loads(1), id=number) for _ in range(3)], [2, 2, 2])
        self.assertEqual(self.log.status().publishes, 1)

    def test_what_is_refused_is_not_written(self) -> None:
        for wrong in ([("a b", "fr", mo(1))], [("app", "x" * 65, mo(1))], [("app", "fr", b"no catalogue")],
                      [("app", "fr", mo(1)), ("app", "de", mo(1)[:-2])], []):
            with self.assertRaises(ValueError):
                self.log.publish(wrong)
        self.assertEqual((self.log.status().version, self.sql("select count(*) from kobdzila.file")), (0, [(0,)]))

    def test_what_psycopg_refuses_is_not_tried_again(self) -> None:
        troubles: list[str] = []
        wrong = ("hots=db1", f"{self.address} target_session_attrs=primry", f"{self.address} connect_timeout=5s")
        for address, note in (*((it, "") for it in wrong), (self.address, "a\0b")):
            with (Log(address, on_trouble=troubles.append) as log,
                  self.assertRaises((psycopg.ProgrammingError, psycopg.DataError))):
                log.publish(loads(1), note=note, within=3)
        self.assertEqual((troubles, self.log.status().version), ([], 0))

    def test_the_name_of_the_program(self) -> None:
        """The connection string or the environment may give another one, as to any program of libpq."""
        here, own = {"PGAPPNAME": "here"}, f"{self.address} application_name=own"
        for name, variables, address in (("kob-fleet", {}, self.address), ("here", here, self.address), ("own", here, own)):
            with mock.patch.dict(os.environ, variables), Log(address) as log:
                self.assertEqual(log._once(lambda it: it.execute("show application_name").fetchone()), (name,))

    def test_no_timeout(self) -> None:
        """A timeout that is zero or negative is none, as for libpq."""
        for seconds in ("0", "-1"):
            with Log(f"{self.address} connect_timeout={seconds}") as log:
                self.assertEqual(log.status().version, 0)

    @unittest.skipUnless(has_catsession(), NO_SESSION)
    def test_names_are_those_of_a_session(self) -> None:
        with kobdzila.Session() as session:
            for name in ("a" * 64, "a" * 65, "fr_CA.UTF-8@x+y", "", "a/b", "é", "a b", "a\n"):
                taken = True
                try:
                    session.load(name, "fr", mo(1))
                    session.publish()
                except (ValueError, kobdzila.LoadRefused):
                    taken = False
                try:
                    self.log.publish([(name, "fr", mo(1))])
                except ValueError:
                    self.assertFalse(taken, name)
                else:
                    self.assertTrue(taken, name)

    def test_no_log(self) -> None:
        self.sql("drop schema kobdzila cascade")
        follower = self.follower()
        with self.assertRaises(NoLog) as caught:
            self.log.publish(loads(1))
        self.assertEqual(until(lambda: follower.trouble), str(caught.exception))
        self.log.init()
        self.assertEqual(follower.wait_for(self.log.publish(loads(1)), 100), 2)

    def test_a_database_without_an_encoding(self) -> None:
        """As initdb makes it if LANG isn't set. What the environment asks for changes nothing."""
        self.sql("drop database if exists bytes with (force)")
        self.sql("create database bytes template template0 encoding 'SQL_ASCII'")
        address = self.address.replace("dbname=postgres", "dbname=bytes")
        with mock.patch.dict(os.environ, PGCLIENTENCODING="SQL_ASCII"), Log(address) as log:
            log.init()
            version = log.publish(loads(1), note="zdjęcia")
            self.assertEqual([(row.version, row.note, row.pairs) for row in log.history()],
                             [(version, "zdjęcia", ["app/fr", "mail/fr"])])
            with Follower(Catalogues(), address, "żółw") as follower:
                self.assertEqual(follower.wait_for(version.token, 100), version)
                self.assertEqual(self.text(follower), "k1 at 1")
                until(lambda: [(it.name, it.version) for it in log.status().machines] == [("żółw", version)])

    def test_names_that_the_database_lacks_characters_for(self) -> None:
        """Such a machine follows without pause, and says why nobody sees it."""
        self.sql("drop database if exists latin with (force)")
        self.sql("create database latin template template0 encoding 'LATIN1'")
        latin = self.address.replace("dbname=postgres", "dbname=latin")
        for address, name, why in ((latin, "żółw", "has no equivalent in encoding \"LATIN1\""),
                                   (latin, "m\udcff", "can't encode"), (self.address, "m\0", "cannot contain NUL")):
            said: list[str] = []
            with Log(address) as log:
                log.init()
                with Follower(Catalogues(), address, name, on_trouble=said.append) as follower:
                    for number in (1, 2):
                        follower.wait_for(log.publish(loads(number)), 100)
                    until(lambda: said)
                    time.sleep(0.5)
                    health = follower.health()
            self.assertEqual((len(said), health.state, health.restarts, health.reconnects), (1, "follows", 0, 0), said)
            self.assertRegex(said[0], f"\\Akob-fleet status doesn't show this machine: .*{why}")

    def test_two_publishers_at_once(self) -> None:
        versions: list[list[int]] = [[], []]
        follower = self.follower()
        readers = Readers(follower)
        self.addCleanup(readers.close)

        def publish(which: int) -> None:
            with Log(self.address) as log:
                for _ in range(40):
                    versions[which].append(log.publish(loads(0)))

        threads = [threading.Thread(target=publish, args=[it], daemon=True) for it in (0, 1)]
        for thread in threads:
            thread.start()
        for thread in threads:
            thread.join()
        follower.wait_for(160, 100)
        readers.close()
        self.assertEqual(sorted(versions[0] + versions[1]), list(range(2, 161, 2)))
        self.assertEqual([sorted(it) == it for it in versions], [True, True])
        self.assertEqual(
            (follower.version, follower.log_version(follower.store.version), readers.wrong), (160, 160, []))

    # --- following

    def test_each_publish_is_played_whole(self) -> None:
        seen: list[int] = []
        shown: list[tuple[int, set[str]]] = []

        class Noting(Catalogues):
            def publish(self) -> int:
                version = super().publish()
                shown.append((version, self.snapshot().numbers()))
                return version

        follower = self.follower(Noting(), on_version=seen.append)
        self.assertEqual((follower.wait_for(0, 100), self.text(follower)), (0, "k1"))
        for number in range(1, 11):
            version = self.log.publish(loads(number))
            self.assertEqual(self.text(follower, at_least=version), f"k1 at {number}")
        self.assertEqual(seen, [0, *range(2, 21, 2)])
        self.assertEqual(shown, [(2 * number, {str(number)}) for number in range(1, 11)])

    @unittest.skipUnless(has_catsession(), NO_SESSION)
    def test_a_session_is_fed(self) -> None:
        for number in range(1, 4):
            self.log.publish(loads(number))
        with kobdzila.Session() as session:
            follower = self.follower(session)
            for number in range(4, 7):
                version = self.log.publish(loads(number))
                with follower.snapshot(at_least=version, within=100) as texts:
                    answers = texts.ask("mail", "fr_CA", ("gettext", "k0"), ("gettext", "k2"))
                    self.assertEqual(answers, [(version, f"k0 at {number}"), (version, f"k2 at {number}")])
                    self.assertEqual(texts.version, version)
            self.assertLess(session.version, follower.version)
            follower.close()

    def test_joining_late_takes_the_last_loads_and_counts_on(self) -> None:
        early = self.follower()
        for number in range(1, 6):
            early.wait_for(self.log.publish(loads(number)), 100)
        self.log.publish([("mail", "fr", mo(6))])
        late = self.follower(machine="late")
        self.assertEqual((self.text(late, at_least=11), self.text(late, "mail")), ("k1 at 5", "k1 at 6"))
        self.assertEqual((late.version, late.store.version), (11, 2))
        version = self.log.publish(loads(7))
        for follower in (early, late):
            self.assertEqual((self.text(follower, at_least=version), follower.version), ("k1 at 7", 13))
        self.assertEqual((late.store.version, early.store.version), (4, 13))

    def test_a_store_with_loads_of_its_own(self) -> None:
        store = Catalogues()
        store.load("app", "de", mo(99))
        store.publish()
        self.log.publish(loads(1))
        follower = self.follower(store)
        follower.wait_for(2, 100)
        with follower.snapshot() as texts:
            self.assertEqual((texts.version, texts.gettext("app", "de", "k1")), (2, "k1 at 99"))

    def test_far_behind(self) -> None:
        follower = self.follower()
        self.log.publish(loads(1))
        follower.wait_for(2, 100)
        with psycopg.connect(self.address) as connection:  # (in one transaction: the follower sees all at once)
            for number in range(2, 202):
                self.append(connection, number)
        self.assertEqual(self.text(follower, at_least=402), "k1 at 201")
        self.assertEqual((follower.version, follower.store.version), (402, 4))

    def test_at_least(self) -> None:
        follower = self.follower()
        self.log.publish(loads(1))
        follower.wait_for(2, 100)
        with self.assertRaises(Behind) as caught:
            follower.snapshot(at_least=4, within=0.1)
        self.assertEqual((caught.exception.version, caught.exception.at_least), (2, 4))
        timer = threading.Timer(0.2, self.log.publish, [loads(2)])
        timer.start()
        self.assertEqual(self.text(follower, at_least=4), "k1 at 2")
        timer.join()

    def test_a_standby_that_takes_no_reports_or_a_reader_without_rights(self) -> None:
        self.sql("do $$ begin create role reader login; exception when duplicate_object then null; end $$")
        self.sql("grant usage on schema kobdzila to reader")
        self.sql("grant select on kobdzila.log, kobdzila.epoch, kobdzila.file, kobdzila.publish, kobdzila.load to reader")
        self.log.publish(loads(1))
        follower = Follower(Catalogues(), self.address.replace("user=postgres", "user=reader"), "m")
        with follower:
            self.assertEqual((self.text(follower, at_least=2), self.log.status().machines), ("k1 at 1", []))

    # --- what isn't as it was written

    def refused(self, change: str, *values: object) -> str:
        """Change by hand what comes next: the follower says so and keeps the old texts. Return what it says."""
        follower = self.follower(look_each=0.1)
        self.log.publish(loads(1))
        follower.wait_for(2, 100)
        with psycopg.connect(self.address) as connection:
            self.append(connection, 2)
            connection.execute(change, values)
        trouble = str(until(lambda: follower.trouble))
        self.assertEqual([self.text(follower), self.text(follower, "mail")], ["k1 at 1", "k1 at 1"])
        self.assertEqual(follower.version, 2)
        late = self.follower(machine="late", look_each=0.1)
        until(lambda: late.trouble)
        self.assertFalse(late.has_joined)
        return trouble

    def test_a_file_that_was_changed(self) -> None:
        trouble = self.refused("update kobdzila.file set mo = %b where sum = (select sum from kobdzila.load where"
                               " version = 4)", mo(66))
        self.assertIn("load 3 of the log, app/fr: its file has another sum", trouble)

    def test_a_row_that_was_changed(self) -> None:
        trouble = self.refused("update kobdzila.load set domain = 'other' where version = 4")
        self.assertIn("load 4 of the log, other/fr: its row was changed", trouble)

    def test_a_row_that_was_deleted(self) -> None:
        self.assertIn("has 1 of its 2 loads", self.refused("delete from kobdzila.load where version = 4"))

    def test_publishing_anew_heals_a_file(self) -> None:
        follower = self.follower(look_each=0.1)
        self.log.publish(loads(1))
        follower.wait_for(2, 100)
        self.sql("update kobdzila.file set mo = 'x'")
        late = self.follower(machine="late", look_each=0.1)
        until(lambda: late.trouble)
        version = self.log.publish(loads(1))
        for it in (late, follower):
            self.assertEqual(self.text(it, at_least=version), "k1 at 1")
            until(lambda it=it: it.trouble is None)

    def test_a_later_publish_replaces_what_was_changed(self) -> None:
        self.refused("update kobdzila.load set seal = 'x' where version = 3")
        followers = [it for it in self.followers if it.machine in ("m", "late")]
        version = self.log.publish(loads(3))
        self.assertEqual([self.text(it, at_least=version) for it in followers], ["k1 at 3", "k1 at 3"])

    def test_other_loads_in_the_store_stop_the_follower(self) -> None:
        follower = self.follower()
        self.log.publish(loads(1))
        follower.wait_for(2, 100)
        follower.store.load("app", "de", mo(5))
        follower.store.publish()
        self.log.publish(loads(2))
        stopped = until(lambda: follower.stopped)
        self.assertIsInstance(stopped, Difference)
        self.assertEqual((stopped.here, stopped.log, self.text(follower)), (3, 2, "k1 at 1"))
        machine = until(lambda: [it for it in self.log.status().machines if it.trouble])[0]
        self.assertIn("version 3 here, 2 in the log", machine.trouble)

    def test_a_store_that_answers_another_version(self) -> None:
        class Wrong(Catalogues):
            def publish(self) -> int:
                return super().publish() + 1

        follower = self.follower(Wrong())
        self.log.publish(loads(1))
        stopped = until(lambda: follower.stopped)
        self.assertEqual((type(stopped), stopped.here, stopped.log), (Difference, 3, 2))

    def test_a_store_that_refuses(self) -> None:
        class Refusing(Catalogues):
            def load(self, domain: str, locale: str, data: bytes) -> None:
                if domain == "mail":
                    raise ValueError("no")
                super().load(domain, locale, data)

        follower = self.follower(Refusing())
        self.log.publish(loads(1))
        self.assertIsInstance(until(lambda: follower.stopped), StoreFailed)
        self.assertEqual(follower.store.version, 0)

    def test_another_log_stops_the_follower(self) -> None:
        follower = self.follower(look_each=0.1)
        self.log.publish(loads(1))
        self.log.publish(loads(2))
        follower.wait_for(4, 100)
        with psycopg.connect(self.address) as connection:
            connection.execute("delete from kobdzila.load")
            connection.execute("delete from kobdzila.publish")
        stopped = until(lambda: follower.stopped)
        self.assertEqual((type(stopped), stopped.here, stopped.log), (Difference, 4, 0))
        other = self.follower(machine="other", look_each=0.1)
        self.log.publish(loads(3))
        other.wait_for(2, 100)
        with psycopg.connect(self.address) as connection:
            connection.execute("update kobdzila.publish set history = '\\x00'")
        self.assertIn("another history", str(until(lambda: other.stopped)))
        self.assertEqual(self.text(other), "k1 at 3")

    def test_a_clock_that_was_put_back(self) -> None:
        follower = self.follower()
        for number in range(1, 5):
            self.log.publish(loads(number))
            self.sql("update kobdzila.publish set published = published - make_interval(days => version::int)")
        self.assertEqual(self.text(follower, at_least=8), "k1 at 4")
        late = self.follower(machine="late")
        self.assertEqual(self.text(late, at_least=8), "k1 at 4")
        until(lambda: [it.version for it in self.log.status().machines] == [8, 8])
        self.sql("insert into kobdzila.machine select 'other', process, epoch, version, state, trouble, loads, refusals,"
                 " reconnects, seen + interval '1 day' from kobdzila.machine")
        self.assertEqual({it.seen for it in self.log.status().machines if it.name == "other"}, {0.0})

    # --- rollback, compact, status

    def test_rollback(self) -> None:
        follower = self.follower()
        self.log.publish(loads(1))
        self.log.publish([("app", "fr", mo(2)), ("new", "fr", mo(2))])
        self.log.publish([("mail", "fr", mo(1))])
        self.assertEqual(self.log.rollback(2), 7)  # mail/fr is as it was
        self.assertEqual([self.text(follower, domain, 7) for domain in ("app", "mail", "new")],
                         ["k1 at 1", "k1 at 1", "k1"])
        self.assertEqual(self.log.rollback(2), 7)
        self.assertEqual(self.log.rollback(4), 9)
        self.assertEqual([self.text(follower, domain, 9) for domain in ("app", "new")], ["k1 at 2", "k1 at 2"])
        for wrong in (3, 99, -1):
            with self.assertRaisesRegex(ValueError, "no publish has version"):
                self.log.rollback(wrong)
        self.assertEqual(self.log.history(1)[0].note, "rollback to 4")

    def test_compact(self) -> None:
        goes_on = threading.Event()
        self.addCleanup(goes_on.set)
        held = threading.Event()

        def hold(version: int) -> None:
            if version == 4:
                held.set()
                goes_on.wait(60)

        follower, slow = self.follower(), self.follower(machine="slow", on_version=hold)
        self.log.publish(loads(1))
        slow.wait_for(2, 100)
        until(lambda: [it for it in self.log.status().machines if (it.name, it.version) == ("slow", 2)])
        self.log.publish(loads(1))
        held.wait(40)
        for number in range(2, 7):
            self.log.publish(loads(number))
        follower.wait_for(14, 100)
        until(lambda: [it for it in self.log.status().machines if (it.name, it.version) == ("m", 14)])
        self.assertEqual(self.log.compact(), 2)
        self.assertEqual(self.log.compact(seen_within=0), 14)
        self.assertEqual(self.sql("select count(*) from kobdzila.load"), [(2,)])
        self.assertEqual(self.sql("select count(*) from kobdzila.file"), [(1,)])
        with self.assertRaisesRegex(ValueError, "were cut"):
            self.log.rollback(4)
        late = self.follower(machine="late")
        version = self.log.publish([("app", "fr", mo(7))])
        self.assertEqual(slow.version, 4)
        goes_on.set()
        for it in (follower, late, slow):
            texts = (self.text(it, at_least=version), self.text(it, "mail"))
            self.assertEqual(texts, ("k1 at 7", "k1 at 6"), it.machine)
        self.assertEqual([row.pairs for row in self.log.history(2)], [["app/fr"], ["app/fr", "mail/fr"]])
        self.assertEqual(slow.store.version, 6)  # (four loads one by one, then the last two)
        self.sql("delete from kobdzila.load where version = 14")
        last = self.follower(machine="last")
        self.assertIn("the log has 1 loads after 0 up to 14, and not 2", until(lambda: last.trouble))

    def test_compact_of_many_loads(self) -> None:
        """It takes as long as there are loads, and not as there are pairs of them, in whatever order the rows are."""
        self.log.publish([(f"d{at}", "fr", mo(1)) for at in range(4)])
        self.sql("insert into kobdzila.load select it, 'd' || it %% 4, locale, sum, seal from kobdzila.load,"
                 " generate_series(80000, 5, -1) it where version = 1")
        self.sql("insert into kobdzila.publish select 80000, gen_random_uuid(), 79996, history, note, published, epoch"
                 " from kobdzila.publish")
        self.sql("analyze kobdzila.load")
        begun = time.monotonic()
        self.assertEqual(self.log.compact(), 80000)
        self.assertLess(time.monotonic() - begun, 15)
        last = self.sql("select version from kobdzila.load order by 1")
        self.assertEqual(last, [(it,) for it in range(79997, 80001)])

    def test_a_compact_that_takes_long(self) -> None:
        """It has more time than what only reads."""
        self.log.publish(loads(1))
        self.log.publish(loads(2))
        self.sql("create function kobdzila.wait() returns trigger language plpgsql as"
                 " 'begin perform pg_sleep(1); return old; end'")
        self.sql("create trigger slow before delete on kobdzila.file for each row execute function kobdzila.wait()")
        with mock.patch.object(_log, "ANSWER_WITHIN", 0.3):
            self.assertEqual(self.log.compact(), 4)
        self.assertEqual(self.sql("select count(*) from kobdzila.file"), [(1,)])

    def test_status(self) -> None:
        follower, other = self.follower(machine="one"), self.follower(machine="two")
        self.log.publish(loads(1))
        follower.wait_for(2, 100)
        other.wait_for(2, 100)
        until(lambda: [it.version for it in self.log.status().machines] == [2, 2])
        with mock.patch.object(other._reporter, "goodbye"):  # (as if it had been killed)
            other.close()
        self.log.publish(loads(2))
        until(lambda: [it.version for it in self.log.status().machines] == [4, 2])
        found = self.log.status()
        self.assertEqual((found.version, found.publishes), (4, 2))
        self.assertEqual([(it.name, it.behind, it.trouble) for it in found.machines],
                         [("one", 0, None), ("two", 2, None)])
        self.assertEqual((found.machines[0].late, 0 < found.machines[1].late < 60), (0, True))

    # --- lost connections

    def test_a_connection_that_is_cut(self) -> None:
        follower = self.follower(look_each=60)
        self.log.publish(loads(1))
        follower.wait_for(2, 100)
        for number in range(2, 6):
            self.sql("select pg_terminate_backend(pid) from pg_stat_activity where datname = current_database()"
                     " and query ilike 'listen%%' or query ilike '%%kobdzila.machine%%' and pid <> pg_backend_pid()")
            self.assertEqual(self.text(follower, at_least=self.log.publish(loads(number))), f"k1 at {number}")

    def test_nothing_is_asked_while_nothing_is_published(self) -> None:
        follower = self.follower()
        self.log.publish(loads(1))
        follower.wait_for(2, 100)
        until(lambda: [it.version for it in self.log.status().machines] == [2])
        until(lambda: {state for _, state, _ in self.connections()} == {"idle"})
        before = self.connections()
        threading.Event().wait(2)
        self.assertEqual(self.connections(), before)

    def connections(self) -> list[Any]:
        """What the followers and publishers did last, and when."""
        return self.sql("select pid, state, state_change from pg_stat_activity where application_name = 'kob-fleet'"
                        " order by pid")


class ExceptionsTest(unittest.TestCase):
    def test_pickled(self) -> None:
        """Each exception can go from the process that raised it to the one that waits for its result."""
        here, there = Version(1, "0" * 16), Version(2, "0" * 16)
        for raised in (Restored(), NoLog("a"), Difference(1, 2, "a", True), Damaged("a"), StoreFailed("a"),
                       CacheRefused("a"), Behind(here, there, "a"), Unanswered(uuid.uuid4(), "a"),
                       RestoreUnanswered("0" * 16, "a"), kobdzila.Refused(101, 2, "a"), kobdzila.SessionEnded("a"),
                       kobdzila.LoadRefused(1, [kobdzila.Refusal("app", "fr", 101, 2)])):
            got = pickle.loads(pickle.dumps(raised))
            self.assertEqual((type(got), str(got), vars(got)), (type(raised), str(raised), vars(raised)))


if __name__ == "__main__":
    unittest.main()
