#!/usr/bin/env python3
"""Publishes without a pause, while all but one server is killed or silent, and checks what came of it.

    tests/fleet/soak.py [SECONDS [SEED]]    600 seconds by default; the seed is printed

Two servers take turns as primary and standby, each behind a proxy that can fall silent. Four machines follow, each with
a cache, and a reader who looks up all the time in texts that carry their number; their stores are of all kinds.
Connections are cut, waits and queries cancelled, primaries silenced for good, and the log restored to an earlier
version, after which an epoch begins. Machines are killed and started again while no server answers: their caches do.

In the end every publish that was answered, and that no restore took away, has to be in the log once. All machines have
to be at its version with one set of texts, and no reader may have gone back within an epoch, or seen half of a publish.
Ten minutes have to check 10,000,000 look-ups.

bench/fleet/run soak runs it in an environment with the wheel and psycopg.
"""
from __future__ import annotations

import json
import random
import shutil
import signal
import subprocess
import sys
import tempfile
import threading
import time
import uuid
from collections import Counter
from itertools import cycle
from pathlib import Path

import psycopg

import proxies
import servers
from kobdzila.fleet import Log
from stores import kinds, loads, until

MACHINES = 4
LOOKS = 10_000_000  # look-ups that ten minutes have to check
FAIL_OVER = 15.0  # seconds from the silence of a primary to the next publish


class Machine:
    def __init__(self, name: str, kind: str, address: str, room: Path) -> None:
        self.name, self.kind, self.address, self.cache = name, kind, address, room / name
        self.looks = 0
        self.wrong: list[str] = []
        self.start()

    def start(self) -> None:
        command = [sys.executable, str(Path(__file__).with_name("machine.py")), self.name, self.kind,
                   self.address, str(self.cache)]
        self.process = subprocess.Popen(command, stdin=subprocess.PIPE, stdout=subprocess.PIPE, text=True)

    def ask(self) -> tuple[int, str, list[str]]:
        """Its version, epoch, and the numbers of its texts; what its readers found is kept."""
        assert self.process.stdin is not None and self.process.stdout is not None
        self.process.stdin.write("?\n")
        self.process.stdin.flush()
        line = self.process.stdout.readline()
        version, epoch, numbers, self._looks, wrong, self.stopped, self.is_older = json.loads(line)
        self.wrong += wrong
        return version, epoch, numbers

    def kill(self) -> None:
        """End the process, after its readers' findings were taken."""
        self.ask()
        self.looks += self._looks
        self.process.kill()
        self.process.communicate()


class Soak:
    def __init__(self, room: Path, seconds: float, seed: int) -> None:
        self.room, self.random, self.end = room, random.Random(seed), time.monotonic() + seconds
        self.events: Counter[str] = Counter()
        self.answered: dict[uuid.UUID, int] = {}
        self.number = self.copies = 0
        self.wrong: list[str] = []
        self.slowest = 0.0  # seconds from a silence to the next publish
        self.ending, self.publishing = threading.Event(), threading.Lock()
        self.primary, self.standby = servers.Server(room / "first"), servers.Server(room / "second")
        self.proxies = {it.port: proxies.Proxy(it.port) for it in (self.primary, self.standby)}
        ports = ",".join(str(it.port) for it in self.proxies.values())
        self.address = f"host=127.0.0.1,127.0.0.1 port={ports} user=postgres dbname=postgres"
        self.primary.create("synchronous_commit = remote_apply")
        self.primary.start()
        self.attach()
        with Log(self.address) as log:
            log.init()
        caches = Path(tempfile.mkdtemp(dir=room))
        self.machines = [Machine(f"m{at}", kind, self.address, caches)
                         for at, kind in zip(range(MACHINES), cycle(kinds()))]

    def attach(self) -> None:
        """Make the standby anew, and let the primary wait for it from now on."""
        self.copies += 1
        name = f"copy{self.copies}"
        self.standby.copy_of(self.primary, name)
        self.standby.start()
        self.sql(f"alter system set synchronous_standby_names = '{name}'", "select pg_reload_conf()")
        self.primary.wait_for_copy(name)

    def sql(self, *texts: str) -> None:
        """Run statements on the primary itself."""
        with psycopg.connect(self.primary.address, autocommit=True) as connection:
            for text in texts:
                connection.execute(text)

    def publish(self) -> None:
        with Log(self.address) as log:
            while not self.ending.is_set():
                with self.publishing:
                    self.number += 1
                    name = uuid.uuid4()
                    self.answered[name] = log.publish(loads(self.number), id=name, within=120)
                time.sleep(0.001)  # (so that whoever waits for the lock gets it)

    # --- what happens

    def kill_machine(self) -> None:
        machine = self.random.choice(self.machines)
        machine.kill()
        machine.start()

    def pause_machine(self) -> None:
        machine = self.random.choice(self.machines)
        machine.process.send_signal(signal.SIGSTOP)
        time.sleep(self.random.uniform(0.5, 3))
        machine.process.send_signal(signal.SIGCONT)

    def cut_connections(self) -> None:
        with psycopg.connect(self.primary.address, autocommit=True) as connection:
            connection.execute("select pg_terminate_backend(pid) from pg_stat_activity"
                               " where backend_type = 'client backend' and pid <> pg_backend_pid() and random() < 0.6")

    def kill_standby(self) -> None:
        self.standby.kill()
        time.sleep(self.random.uniform(0, 1))
        self.standby.start()

    def cancel(self) -> None:
        """Cancel what runs, and the waits for a standby that is away; then let the standby have all of it."""
        self.standby.kill()
        end = time.monotonic() + self.random.uniform(0.3, 1.5)
        while time.monotonic() < end:
            self.sql("select pg_cancel_backend(pid) from pg_stat_activity where backend_type = 'client backend'"
                     " and pid <> pg_backend_pid()")
            time.sleep(0.02)
        self.standby.start()
        self.primary.wait_for_copy(f"copy{self.copies}")
        with psycopg.connect(self.primary.address, autocommit=True) as connection:
            (last,) = connection.execute("select pg_current_wal_insert_lsn()").fetchone()
            until(lambda: connection.execute("select bool_or(replay_lsn >= %s) from pg_stat_replication",
                                             (last,)).fetchone()[0], 60)

    def silence(self) -> None:
        """The primary says nothing for a while."""
        proxy = self.proxies[self.primary.port]
        proxy.freeze()
        time.sleep(self.random.uniform(0.5, 7))
        proxy.thaw()

    def kill_primary(self) -> None:
        self.primary.kill()
        self.fail_over()

    def silence_primary(self) -> None:
        """The primary says nothing more, and the standby takes over: publishes go on within fifteen seconds."""
        proxy, before, begun = self.proxies[self.primary.port], len(self.answered), time.monotonic()
        proxy.freeze()
        self.standby.promote()
        with psycopg.connect(self.standby.address, autocommit=True) as connection:
            connection.execute("alter system reset synchronous_standby_names")
            connection.execute("select pg_reload_conf()")
        until(lambda: len(self.answered) > before + 1, 60)
        self.slowest = max(self.slowest, time.monotonic() - begun)
        self.primary.kill()
        proxy.cut()
        self.fail_over(is_promoted=True)

    def fail_over(self, is_promoted: bool = False) -> None:
        """Let the standby be the primary, and make a new standby in the place of the old primary."""
        if not is_promoted:
            self.standby.promote()
            with psycopg.connect(self.standby.address, autocommit=True) as connection:
                connection.execute("alter system reset synchronous_standby_names")
                connection.execute("select pg_reload_conf()")
        port = self.primary.port
        shutil.rmtree(self.primary.folder)
        self.primary, self.standby = self.standby, servers.Server(self.room / f"server{self.copies}")
        self.standby.port = port
        time.sleep(self.random.uniform(0, 1))
        self.attach()

    def restore(self) -> None:
        """The log is as it was some publishes ago, and an epoch begins."""
        with self.publishing, psycopg.connect(self.primary.address) as connection:
            (last,) = connection.execute("select coalesce(max(version), 0) from kobdzila.publish").fetchone()
            version = max(0, last - 2 * self.random.randrange(8))
            connection.execute("delete from kobdzila.load where version > %s", (version,))
            connection.execute("delete from kobdzila.publish where version > %s", (version,))
            connection.execute("delete from kobdzila.machine")
            connection.commit()
            time.sleep(self.random.uniform(0, 2))  # (somebody has to run the command)
            with Log(self.primary.address) as log:
                log.restore()
            self.answered = {name: it for name, it in self.answered.items() if it <= version}

    def restart_alone(self) -> None:
        """A machine starts while no server answers: it shows what its cache has."""
        machine = self.random.choice(self.machines)
        for proxy in self.proxies.values():
            proxy.freeze()
        machine.kill()
        machine.start()
        try:
            if list(machine.cache.glob("*.cache")):
                until(lambda: machine.ask()[0] > 0 and machine.is_older, 30)
        except AssertionError:
            self.wrong.append(f"{machine.name} has a cache, and shows {machine.ask()}")
        for proxy in self.proxies.values():
            proxy.thaw()

    def run(self) -> list[str]:
        publisher = threading.Thread(target=self.publish)
        publisher.start()
        events = [self.kill_machine, self.pause_machine, self.cut_connections, self.kill_standby, self.kill_primary,
                  self.cancel, self.silence, self.silence_primary, self.restore, self.restart_alone]
        self.random.shuffle(events)
        first = list(events)  # (each of them comes once, if there is time)
        while time.monotonic() < self.end:
            time.sleep(self.random.uniform(0.1, 1.5))
            event = first.pop() if first else self.random.choice(events)
            event()
            self.events[event.__name__] += 1
        self.ending.set()
        publisher.join()
        return self.judge()

    def judge(self) -> list[str]:
        with Log(self.address) as log:
            rows = {row.id: row.version for row in log.history(10**9)}
            version = log.status().version
        wanted, wrong = (int(version), version.epoch, [str(self.number)]), self.wrong
        for machine in self.machines:
            try:
                until(lambda machine=machine: machine.ask() == wanted and machine.stopped is None, 60)
            except AssertionError:
                wrong.append(f"{machine.name} is at {machine.ask()}, {machine.stopped}, and the log at {wanted}")
            machine.kill()
            wrong += machine.wrong
        wrong += [f"publish {name} was answered {version}, and the log has {rows.get(name)}"
                  for name, version in self.answered.items() if rows.get(name) != version]
        if len(rows) != len(self.answered):
            wrong.append(f"{len(self.answered)} publishes, and the log has {len(rows)}")
        if self.slowest > FAIL_OVER:
            wrong.append(f"after the silence of a primary the next publish came after {self.slowest:.1f} s")
        return wrong

    def close(self) -> None:
        self.ending.set()
        for machine in self.machines:
            machine.process.kill()
        for proxy in self.proxies.values():
            proxy.close()
        self.standby.stop()
        self.primary.stop()


def main(seconds: float, seed: int) -> int:
    print(f"{seconds:g} seconds, seed {seed}", flush=True)
    with servers.folder() as room:
        soak = Soak(room, seconds, seed)
        try:
            wrong = soak.run()
        finally:
            soak.close()
    looks = sum(machine.looks for machine in soak.machines)
    print(f"{soak.number} publishes, {looks} look-ups in {', '.join(it.kind for it in soak.machines)}; "
          f"{dict(soak.events)}; {soak.slowest:.1f} s from a silence to the next publish")
    if seconds >= 600 and looks < LOOKS:
        wrong.append(f"{looks} look-ups were checked, and not {LOOKS}")
    print("\n".join(wrong[:20]) or "all as it has to be")
    return bool(wrong)


if __name__ == "__main__":
    sys.exit(main(float(sys.argv[1]) if len(sys.argv) > 1 else 600.0,
                  int(sys.argv[2]) if len(sys.argv) > 2 else random.randrange(10**6)))
