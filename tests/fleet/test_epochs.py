"""Logs that were restored from a backup, and machines that start while the database is away."""
from __future__ import annotations

import hashlib
import json
import os
import tempfile
import time
import unittest
from pathlib import Path
from typing import Any
from unittest import mock
from wsgiref.util import setup_testing_defaults

import psycopg

import proxies
import servers
from cases import LogCase
from kobdzila.fleet import Behind, CacheRefused, Difference, Follower, Log, Restored, Version, WSGIMiddleware, _cache
from kobdzila.fleet._queries import Played
from stores import Catalogues, loads, mo, until


class RestoredCase(LogCase):
    """Each test has a database of its own, which it can restore."""

    def setUp(self) -> None:
        super().setUp()
        self.server = servers.shared()
        self.drop("texts", "backup")
        self.sql("create database texts")
        self.texts = self.server.address.replace("dbname=postgres", "dbname=texts")
        self.log = Log(self.texts)
        self.addCleanup(self.log.close)
        self.log.init()
        self.followers = []

    def drop(self, *names: str) -> None:
        for name in names:
            self.sql(f"drop database if exists {name} with (force)")

    def back_up(self) -> None:
        self.log.close()
        self.sql("select pg_terminate_backend(pid) from pg_stat_activity where datname = 'texts'")
        until(lambda: self.sql("select count(*) from pg_stat_activity where datname = 'texts'") == [(0,)])
        self.sql("create database backup template texts")

    def restore(self) -> None:
        """As pg_restore does it: into a new database."""
        self.log.close()
        self.drop("texts")
        self.sql("create database texts template backup")

    def follows(self, machine: str, **options: Any) -> Follower:
        made = Follower(Catalogues(), self.texts, machine, look_each=0.3, **options)
        made.start()
        self.addCleanup(made.close)
        return made


class EpochsTest(RestoredCase):
    def test_a_version_means_one_text(self) -> None:
        """The case of a log that goes on after a restore: nothing of a lost version is confused with what came after."""
        for number in range(1, 3):
            self.log.publish(loads(number))
        self.back_up()
        for number in range(3, 5):
            answered = self.log.publish(loads(number))
        self.assertEqual((answered, len(answered.epoch)), (8, 16))
        old, willing = self.follows("old"), self.follows("willing", go_over=True)
        for it in (old, willing):
            it.wait_for(answered, 100)
        self.restore()
        with self.assertRaises(Restored):  # (until somebody says so)
            self.log.publish(loads(66))
        self.assertIsInstance(until(lambda: old.stopped), Difference)
        self.assertEqual((self.text(old, at_least=answered.token), old.version.token), ("k1 at 4", answered.token))
        begun = self.log.restore("from a test")
        self.assertEqual(begun, 4)
        self.assertNotEqual(begun.epoch, answered.epoch)
        self.assertEqual(willing.wait_for(begun, 100).token, begun.token)
        self.assertEqual(self.text(willing), "k1 at 2")
        for number in (13, 14):
            version = self.log.publish(loads(number))
        self.assertEqual((version, version.epoch), (8, begun.epoch))
        new = self.follows("new")
        for it in (new, willing):
            self.assertEqual(self.text(it, at_least=version.token), "k1 at 14")
            self.assertEqual(self.text(it, at_least=answered.token), "k1 at 14")  # (of an epoch before)
            self.assertIsNone(it.stopped)
        self.assertIn("ahead of the log", str(until(lambda: old.stopped and "ahead" in str(old.stopped) and old.stopped)))
        with self.assertRaises(Behind):
            old.wait_for(version, 0.2)
        self.assertEqual(self.text(old, at_least=answered.token), "k1 at 4")
        found = until(lambda: {it.name: it for it in self.log.status().machines
                               if (it.name, it.state) in (("old", "stopped"), ("willing", "follows"))}
                      if len(self.log.status().machines) == 3 else None)
        self.assertEqual((found["old"].version.epoch, found["old"].is_dead), (answered.epoch, True))

    def test_a_machine_of_a_lost_epoch_is_later_and_later(self) -> None:
        self.log.publish(loads(1))
        self.back_up()
        self.log.publish(loads(2))
        old = self.follows("old")
        old.wait_for(4, 100)
        self.restore()
        self.log.restore()
        with psycopg.connect(self.texts, autocommit=True) as connection:
            connection.execute("update kobdzila.epoch set begun = begun - interval '1 hour' where number = 2")
        (found,) = until(lambda: self.log.status().machines)
        self.assertEqual((found.version, found.behind), (4, 1))
        self.assertTrue(3600 < found.late < 3900, found.late)

    def test_a_log_that_was_put_back_by_an_epoch(self) -> None:
        """No machine switches to an epoch that ended; each asks for restore first."""
        first = self.log.publish(loads(1))
        self.back_up()
        old, willing = self.follows("old"), self.follows("willing", go_over=True)
        for it in (old, willing):
            it.wait_for(first, 100)
        self.log.restore()
        second = self.log.publish(loads(2))
        for it in (old, willing):
            it.wait_for(second.token, 100)
        self.restore()
        for it in (old, willing):
            self.assertIn(f"the log was put back to its epoch {first.epoch}, before that of this machine: run "
                          "kob-fleet restore first", str(until(lambda it=it: it.stopped)))
        third = self.log.restore()
        self.assertEqual(willing.wait_for(third.token, 100).token, third.token)
        until(lambda: "restart it" in str(old.stopped))

    def test_what_is_not_ahead_goes_on(self) -> None:
        follower = self.follows("m")
        first = self.log.publish(loads(1))
        follower.wait_for(first, 100)
        second = self.log.restore()
        self.assertEqual((second, follower.wait_for(second.token, 100).token), (2, second.token))
        self.assertEqual((self.text(follower), follower.store.version), ("k1 at 1", 2))
        follower.wait_for(self.log.publish(loads(2)).token, 100)
        self.assertEqual((self.text(follower), follower.store.version, follower.stopped), ("k1 at 2", 4, None))

    def test_what_the_restored_log_lacks_is_emptied(self) -> None:
        self.log.publish([("app", "fr", mo(1))])
        self.back_up()
        self.log.publish([("new", "fr", mo(2)), ("app", "fr", mo(2))])
        follower = self.follows("m", go_over=True)
        follower.wait_for(3, 100)
        self.restore()
        follower.wait_for(self.log.restore().token, 100)
        self.assertEqual([self.text(follower, it) for it in ("app", "new")], ["k1 at 1", "k1"])

    def test_tokens(self) -> None:
        epoch = "0123456789abcdef"
        version = Version(9, epoch)
        self.assertEqual((version, version.token, f"{version}", json.dumps(version)), (9, f"{epoch}.9", "9", "9"))
        self.assertEqual((Version.parse(version.token).epoch, Version.parse("9").epoch, Version.parse("9")), (epoch, "", 9))
        for wrong in ("", "x", "-1", "1.2", f"{epoch}.", f"{epoch.upper()}.1", "9" * 19, "٣"):
            with self.assertRaises(ValueError):
                Version.parse(wrong)

    def test_visitors(self) -> None:
        """A cookie of a lost version doesn't shut its visitor out, nor is it satisfied by a machine that is older."""
        self.log.publish(loads(1))
        self.back_up()
        self.log.publish(loads(2))
        old = self.follows("old")
        old.wait_for(4, 100)
        cookie = self.visit(old)[1]
        self.assertRegex(cookie, r"kobdzila_version=[0-9a-f]{16}\.4\Z")
        self.restore()
        self.log.restore()
        new = self.follows("new")
        new.wait_for(2, 100)
        status, newer, text = self.visit(new, cookie)
        self.assertEqual((status, text), (200, "k1 at 1"))
        self.assertEqual(self.visit(old, newer)[0], 503)
        self.assertEqual(self.visit(old, cookie)[::2], (200, "k1 at 2"))

    def visit(self, follower: Follower, cookie: str = "") -> tuple[int, str, str]:
        def page(environ: dict[str, Any], start_response: Any) -> list[bytes]:
            start_response("200 OK", [("Content-Type", "text/plain")])
            return [environ["kobdzila.snapshot"].gettext("app", "fr", "k1").encode()]

        environ: dict[str, Any] = {"HTTP_COOKIE": cookie}
        setup_testing_defaults(environ)
        said: list[Any] = []
        application = WSGIMiddleware(page, follower, within=0.2)
        body = b"".join(application(environ, lambda status, headers: said.extend([int(status[:3]), dict(headers)])))
        return said[0], said[1].get("Set-Cookie", cookie).partition(";")[0], body.decode()


class CacheTest(LogCase):
    def setUp(self) -> None:
        super().setUp()
        room = tempfile.TemporaryDirectory()
        self.addCleanup(room.cleanup)
        self.folder = Path(room.name) / "cache"
        self.proxy = proxies.Proxy(servers.shared().port)
        self.addCleanup(self.proxy.close)

    def machine(self, address: str | None = None, store: Any = None, **options: Any) -> Follower:
        made = Follower(Catalogues() if store is None else store, address or self.proxy.address, "m", cache=self.folder,
                        look_each=0.3, **options)
        made.start()
        self.addCleanup(made.close)
        return made

    def written(self, version: int) -> Follower:
        """A machine that has shown a version, and has written it."""
        made = self.machine()
        made.wait_for(version, 100)
        until(lambda: self.cached() == version)
        return made

    def cached(self) -> int | None:
        cache = _cache.Cache(self.folder, "m")
        found = cache.read()
        cache.close()
        return found and found.position.version

    def test_a_restart_while_the_database_is_away(self) -> None:
        self.log.publish(loads(1))
        self.log.publish([("app", "fr", mo(2))])
        self.written(3).close()
        seen: list[int] = []
        nowhere = f"host=127.0.0.1 port={servers.free_port()} user=postgres"
        again = self.machine(nowhere, on_version=seen.append)
        self.assertEqual(again.wait_for(3, 100), 3)
        with again.snapshot() as texts:
            self.assertEqual((texts.version, texts.is_older, texts.gettext("app", "fr", "k1"),
                              texts.gettext("mail", "fr", "k1")), (3, True, "k1 at 2", "k1 at 1"))
        self.assertEqual((again.health().state, again.health().status, seen), ("older", 200, [3]))
        again.close()
        back = self.machine()
        until(lambda: not back.is_older)
        self.assertEqual(back.wait_for(self.log.publish(loads(4)), 100), 5)
        self.assertEqual((self.text(back), back.store.version, back.health().state), ("k1 at 4", 4, "follows"))
        until(lambda: self.cached() == 5)

    def test_what_it_says_in_answers(self) -> None:
        self.log.publish(loads(1))
        self.written(2).close()
        again = self.machine(f"host=127.0.0.1 port={servers.free_port()} user=postgres")
        again.wait_for(2, 100)
        until(lambda: again.trouble)
        status, headers, text = visit(WSGIMiddleware(page, again, health="/health"))
        self.assertEqual((status, headers["Kobdzila-Older"], text), (200, "1", "k1 at 1"))
        status, headers, text = visit(WSGIMiddleware(page, again, health="/health"), "/health")
        said = json.loads(text)
        self.assertEqual((status, said["state"], said["is_ready"], headers["Content-Type"]),
                         (200, "older", True, "application/json"))
        self.assertIn("connection failed", said["trouble"])

    def test_an_epoch_that_ended_meanwhile(self) -> None:
        self.log.publish(loads(1))
        self.log.publish(loads(2))
        self.written(4).close()
        self.sql("delete from kobdzila.load where version > 2")
        self.sql("delete from kobdzila.publish where version > 2")
        version = self.log.restore()
        again = self.machine()
        self.assertEqual(again.wait_for(version.token, 100).token, version.token)
        self.assertEqual((self.text(again), again.stopped), ("k1 at 1", None))

    def test_what_is_not_whole_is_not_used(self) -> None:
        self.log.publish(loads(1))
        self.written(2).close()
        whole = (path := self.folder / "m.cache").read_bytes()
        for wrong in (whole[:-1], whole[:40], whole.replace(b"k1 at 1", b"k1 at 7"), whole.replace(b'"version": 2', b'"version": 3'),
                      b"", whole.replace(b"cache 1", b"cache 2")):
            path.write_bytes(wrong)
            with self.assertRaises(CacheRefused):
                _cache.Cache(self.folder, "m").read()
        said: list[str] = []
        again = self.machine(f"host=127.0.0.1 port={servers.free_port()} user=postgres", on_trouble=said.append)
        until(lambda: len(said) > 1)
        self.assertIn("m.cache: it isn't whole", said[0])
        self.assertFalse(again.has_joined)
        path.write_bytes(whole)
        path.chmod(0o666)
        with self.assertRaisesRegex(CacheRefused, "another user may write to it"):
            _cache.Cache(self.folder, "m").read()

    def test_a_cache_that_cannot_be_written(self) -> None:
        said: list[str] = []
        self.log.publish(loads(1))
        with mock.patch.object(os, "fsync", side_effect=OSError(28, "No space left on device")):
            machine = self.machine(on_trouble=said.append)
            machine.wait_for(2, 100)
            until(lambda: said)
            self.assertIn("the cache can't be written", said[0])
            self.assertIn("No space left", str(machine.health().trouble))
            machine.wait_for(self.log.publish(loads(2)), 100)
        until(lambda: self.cached() == 4)
        until(lambda: machine.health().trouble is None)

    def test_a_cache_whose_folder_cannot_be_made(self) -> None:
        """The machine follows, and says that a restart would find nothing."""
        self.log.publish(loads(1))
        self.folder.write_text("", encoding="utf-8")
        self.folder = self.folder / "deeper"
        said: list[str] = []
        machine = self.machine(on_trouble=said.append)
        machine.wait_for(2, 100)
        text = until(lambda: next((it for it in said if it.startswith("the cache can't be written: ")), None))
        self.assertIn(str(self.folder), text)
        until(lambda: [it.trouble for it in self.log.status().machines] == [text])
        self.folder.parent.unlink()
        until(lambda: self.cached() == 2)
        until(lambda: machine.health().trouble is None)
        self.assertEqual(said.count(text), 1)

    def test_what_did_not_fit(self) -> None:
        """It is removed, since others need the room, and is tried again after a pause that is longer than a write."""
        def failing(handle: int) -> None:
            time.sleep(0.2)
            raise OSError(28, "No space left on device")

        cache = _cache.Cache(self.folder, "m")
        self.addCleanup(cache.close)
        cache.keep([Played("app", "fr", b"x", hashlib.sha256(b"x").digest())])
        with mock.patch.object(os, "fsync", failing), self.assertRaisesRegex(OSError, "No space .*/m.new"):
            cache.write(_cache.Position("e", 1, b"h"), [])
        self.assertEqual([path.name for path in self.folder.iterdir()], ["m.lock"])
        self.assertGreater(cache.seconds_left(), 1.5)

    def test_one_process_writes_and_another_takes_its_place(self) -> None:
        self.log.publish(loads(1))
        first = self.written(2)
        second = self.machine()
        second.wait_for(self.log.publish([("app", "fr", mo(2))]), 100)
        until(lambda: self.cached() == 3)
        first.close()
        second.wait_for(self.log.publish([("mail", "fr", mo(3))]), 100)
        until(lambda: self.cached() == 4)
        found = _cache.Cache(self.folder, "m").read()
        self.assertEqual(sorted((it.domain, it.mo) for it in found.loads), [("app", mo(2)), ("mail", mo(3))])

    def test_many_files_and_names_of_machines(self) -> None:
        cache = _cache.Cache(self.folder, "../a b")
        made = [Played(f"d{at}", "fr", os.urandom(at), bytes(32)) for at in range(50)]
        made = [it._replace(sum=hashlib.sha256(it.mo).digest()) for it in made]
        cache.keep(made)
        cache.write(_cache.Position("e", 50, b"h"), ["p"])
        self.assertEqual([it.name for it in self.folder.iterdir() if it.suffix == ".cache"], ["..%2Fa%20b.cache"])
        cache.keep(made[:1])
        cache._due = 0
        cache.write(_cache.Position("e", 51, b"i"), ["p"])
        found = _cache.Cache(self.folder, "../a b").read()
        self.assertEqual((found.position, found.past), (("e", 51, b"i"), ["p"]))
        self.assertEqual(sorted(found.loads), sorted(made))
        self.assertLess(abs(time.time() - found.written), 60)
        cache.close()


class UnjoinedTest(unittest.TestCase):
    """What a site can show that has no cache, and whose database has never answered."""

    def test_the_texts_that_came_with_the_program(self) -> None:
        store = Catalogues()
        store.load("app", "fr", mo(7))
        store.publish()
        with Follower(store, f"host=127.0.0.1 port={servers.free_port()}", "m") as follower:
            self.assertEqual(visit(WSGIMiddleware(page, follower, within=0.1))[0], 503)
            status, headers, text = visit(WSGIMiddleware(page, follower, within=0.1, serve_older=True))
            self.assertEqual((status, headers["Kobdzila-Older"], text), (200, "1", "k1 at 7"))
            self.assertEqual(follower.health().status, 503)
            with self.assertRaises(Behind) as caught:
                follower.wait_for(within=0.1)
            self.assertIn("connection failed", str(caught.exception))


def page(environ: dict[str, Any], start_response: Any) -> list[bytes]:
    start_response("200 OK", [("Content-Type", "text/plain")])
    return [environ["kobdzila.snapshot"].gettext("app", "fr", "k1").encode()]


def visit(application: Any, path: str = "/") -> tuple[int, dict[str, str], str]:
    environ: dict[str, Any] = {"PATH_INFO": path}
    setup_testing_defaults(environ)
    said: list[Any] = []
    body = b"".join(application(environ, lambda status, headers: said.extend([int(status[:3]), dict(headers)])))
    return said[0], said[1], body.decode()


if __name__ == "__main__":
    unittest.main()
