"""What happens to a fleet when something dies: servers, followers, connections, disks.

KOBDZILA_FLEET_PAUSE is for how many seconds a machine is paused (2).
"""
from __future__ import annotations

import contextlib
import os
import random
import signal
import subprocess
import sys
import threading
import time
import unittest
import uuid
from collections.abc import Iterator
from pathlib import Path
from typing import Any

import psycopg

import kobdzila
import servers
from kobdzila.fleet import Difference, Follower, Log, Unanswered
from stores import NO_SESSION, PAIRS, Catalogues, Readers, has_catsession, loads, until

PUBLISHES = 200
PAUSE = float(os.environ.get("KOBDZILA_FLEET_PAUSE", "2"))
MEGABYTE = 1 << 20


class Machine:
    """A process kob-fleet follow, which is asked."""

    def __init__(self, address: str, name: str) -> None:
        command = [sys.executable, "-m", "kobdzila.fleet._command", "-d", address, "follow", "-m", name]
        self.process = subprocess.Popen(command, stdin=subprocess.PIPE, stdout=subprocess.PIPE)

    def ask(self) -> tuple[int, list[str]]:
        """The version, and the text k1 of each pair."""
        assert self.process.stdin is not None and self.process.stdout is not None
        questions = "".join(f"ask\t0\t{domain}\t{locale}\tgettext\tk1\n" for domain, locale in PAIRS)
        self.process.stdin.write(f"{questions}go\n".encode())
        self.process.stdin.flush()
        lines = [self.process.stdout.readline().decode().rstrip("\n").split("\t") for _ in range(1 + len(PAIRS))]
        assert {line[1] for line in lines} == {lines[0][1]}, lines
        return int(lines[0][1]), [line[2] for line in lines[1:]]

    def reaches(self, version: int, number: int) -> None:
        """It comes to a version, and its texts are those of a publish."""
        until(lambda: self.ask()[0] >= version)
        assert self.ask() == (version, [f"k1 at {number}"] * len(PAIRS)), self.ask()

    def close(self) -> None:
        self.process.kill()
        self.process.communicate()


class FailuresTest(unittest.TestCase):
    def opened(self, manager: Any) -> Any:
        made = manager.__enter__()
        self.addCleanup(manager.__exit__, None, None, None)
        return made

    def follower(self, address: str, machine: str = "m", **options: Any) -> Follower:
        return self.opened(Follower(Catalogues(), address, machine, **options))

    def log(self, address: str) -> Log:
        log = self.opened(Log(address))
        log.init()
        return log

    @unittest.skipUnless(has_catsession(), NO_SESSION)
    def test_a_machine_that_is_killed_or_paused(self) -> None:
        server = self.opened(servers.primary())
        log = self.log(server.address)
        log.publish(loads(1))
        machines = [Machine(server.address, name) for name in ("killed", "paused", "whole")]
        for machine in machines:
            self.addCleanup(machine.close)
            machine.reaches(2, 1)
        killed, paused, whole = machines
        paused.process.send_signal(signal.SIGSTOP)
        end, number = time.monotonic() + PAUSE, 1
        while time.monotonic() < end:
            number += 1
            version = log.publish(loads(number))
            if number == 5:
                killed.close()
                killed = Machine(server.address, "killed")
                self.addCleanup(killed.close)
            whole.reaches(version, number)
        killed.reaches(version, number)
        paused.process.send_signal(signal.SIGCONT)
        paused.reaches(version, number)
        version = log.publish(loads(number + 1))
        for machine in (killed, paused, whole):
            machine.reaches(version, number + 1)

    def test_the_server_restarts(self) -> None:
        server = self.opened(servers.primary(fsync=True))
        log = self.log(server.address)
        follower = self.follower(server.address)
        log.publish(loads(1))
        follower.wait_for(2, 100)
        server.kill()
        self.assertTrue(until(lambda: follower.trouble))
        with follower.snapshot() as texts:
            self.assertEqual((texts.version, texts.numbers()), (2, {"1"}))
        timer = threading.Timer(0.5, server.start)
        timer.start()
        self.assertEqual(log.publish(loads(2), within=100), 4)
        timer.join()
        follower.wait_for(4, 100)
        until(lambda: follower.trouble is None)
        server.stop()
        number = uuid.uuid4()
        with self.assertRaises(psycopg.OperationalError):  # (nothing was sent, so nothing is in doubt)
            log.publish(loads(3), id=number, within=0.3)
        server.start()
        self.assertIsNone(log.version_of(number))

    def test_the_primary_is_killed_at_random_points(self) -> None:
        """Two hundred publishes, and two kills: whatever was answered is there once, and nobody went back."""
        seed = random.randrange(10**6)
        first, second = self.opened(servers.pair())
        address = servers.both(first, second)
        log = self.log(address)
        followers = [self.follower(address, f"m{at}", look_each=1) for at in range(3)]
        readers = Readers(*followers)
        self.addCleanup(readers.close)
        answered: dict[uuid.UUID, int] = {}
        kill_at = random.Random(seed).uniform(20, 160)
        killer = threading.Thread(target=fail_over, args=[first, second, lambda: len(answered) >= kill_at, seed],
                                  daemon=True)
        killer.start()
        with self.subTest(seed=seed):
            for number in range(1, PUBLISHES + 1):
                name = uuid.uuid4()
                answered[name] = log.publish(loads(number), id=name)
            killer.join()
            for follower in followers:
                follower.wait_for(2 * PUBLISHES, 100)
            readers.close()
            rows = {row.id: row.version for row in log.history(10**6)}
            self.assertEqual({name: rows.get(name) for name in answered}, answered)
            self.assertEqual(len(rows), PUBLISHES)
            self.assertEqual([(it.version, it.store.snapshot().numbers(), it.stopped) for it in followers],
                             [(2 * PUBLISHES, {str(PUBLISHES)}, None)] * 3)
            self.assertEqual(readers.wrong, [])
            self.assertGreater(readers.looks, 300)

    def test_publishes_that_a_failover_lost(self) -> None:
        """Without a synchronous standby a machine may show what the log has lost: it stops, and says both numbers."""
        first, second = self.opened(servers.pair("synchronous_standby_names = ''"))
        address = servers.both(first, second)
        log, follower = self.log(address), self.follower(address)
        log.publish(loads(1))
        follower.wait_for(2, 100)
        with psycopg.connect(second.address, autocommit=True) as standby:
            until(lambda: standby.execute("select to_regclass('kobdzila.publish')::text").fetchone() != (None,))
            until(lambda: standby.execute("select max(version) from kobdzila.publish").fetchone() == (2,))
            standby.execute("select pg_wal_replay_pause()")
        second.kill()
        self.assertEqual(log.publish(loads(2)), 4)
        follower.wait_for(4, 100)
        first.kill()
        second.start()
        second.promote()
        with Log(address) as again:
            self.assertEqual(again.publish(loads(3), within=100), 4)
        stopped = until(lambda: follower.stopped)
        self.assertIsInstance(stopped, Difference)
        self.assertEqual(stopped.here, 4)
        with follower.snapshot() as texts:
            self.assertEqual(texts.numbers(), {"2"})

    def test_a_follower_of_a_standby(self) -> None:
        first, second = self.opened(servers.pair())
        log = self.log(first.address)
        follower = self.follower(second.address + " target_session_attrs=any")
        for number in range(1, 4):
            follower.wait_for(log.publish(loads(number)), 100)
        first.kill()
        second.promote()
        with Log(second.address) as again:
            follower.wait_for(again.publish(loads(4), within=100), 100)
            until(lambda: [it.version for it in again.status().machines] == [8])

    def test_a_catalogue_of_60_megabytes(self) -> None:
        server = self.opened(servers.primary("max_wal_size = 2GB"))
        log, follower = self.log(server.address), self.follower(server.address)
        text = "".join(f'msgid "k{at}"\nmsgstr "{"x" * 480} {at}"\n\n' for at in range(118_000)).encode()
        large = kobdzila.Catalogue.from_po(text).mo_file()
        self.assertGreater(len(large), 60_000_000)
        log.publish(loads(1))
        version = log.publish([("app", "fr", large)], within=200, force=True)
        follower.wait_for(version, 100)
        late = self.follower(server.address, "late")
        for it in (follower, late):
            with it.snapshot(at_least=version, within=100) as texts:
                self.assertEqual(texts.gettext("app", "fr", "k117999"), "x" * 480 + " 117999")
                self.assertEqual(texts.gettext("mail", "fr", "k1"), "k1 at 1")

    def test_a_full_disk(self) -> None:
        with full_disk(self) as (server, disk):
            log, follower = self.log(server.address), self.follower(server.address)
            log.publish(loads(1))
            follower.wait_for(2, 100)
            filler = disk / "filler"
            left = os.statvfs(disk).f_bavail * os.statvfs(disk).f_frsize
            filler.write_bytes(b"\0" * (left - 2 * MEGABYTE))
            text = f'msgid "k1"\nmsgstr "{uuid.uuid4().hex * 100_000}"\n'.encode()
            large = kobdzila.Catalogue.from_po(text).mo_file()
            with self.assertRaises((psycopg.Error, Unanswered)):
                log.publish([("app", "fr", large)], within=1)
            with follower.snapshot() as texts:
                self.assertEqual((texts.version, texts.numbers()), (2, {"1"}))
            filler.unlink()
            with contextlib.suppress(servers.NoServer):  # (PostgreSQL ends if it can't write its log)
                server.start()
            version = log.publish(loads(2), within=100)
            follower.wait_for(version, 100)
            self.assertEqual((version, follower.store.snapshot().numbers(), follower.stopped), (4, {"2"}, None))


def fail_over(first: Any, second: Any, ready: Any, seed: int) -> None:
    """Kill the primary when it is time, and promote its standby."""
    until(ready, 60)
    time.sleep(random.Random(seed).uniform(0, 0.02))
    first.kill()
    second.promote()


@contextlib.contextmanager
def full_disk(test: unittest.TestCase) -> Iterator[tuple[Any, Path]]:
    """A server on a disk of 160 MB."""
    with servers.folder() as room:
        disk = room / "disk"
        disk.mkdir()
        owner = room.stat()
        options = f"size=160m,uid={owner.st_uid},gid={owner.st_gid},mode=755"
        command = ["mount", "-t", "tmpfs", "-o", options, "tmpfs", str(disk)]
        made = subprocess.run(command, capture_output=True, text=True, check=False)
        if made.returncode != 0:
            test.skipTest("no small disk can be mounted: " + made.stderr.strip()[:80])
        server = servers.Server(disk / "primary")
        try:
            server.create("max_wal_size = 64MB", "min_wal_size = 32MB")
            server.start()
            yield server, disk
        finally:
            server.stop()
            subprocess.run(["umount", "-l", str(disk)], check=False)


if __name__ == "__main__":
    unittest.main()
