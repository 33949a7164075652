#!/usr/bin/env python3
"""Times a fleet: one primary, one synchronous standby, and followers that are a process each. Run by bench/fleet/run.

    latency    two catalogues of 0.5 MB are published, in the middle of 200: from the return of publish until the last
               follower shows them
    rate       publishes of two small catalogues, 100 a second, and how long after each one the last follower shows it
    joining    the log has 100,000 loads of 200 catalogues of 0.5 MB: from the start of a follower until it shows them
    catalogues the log has 10,000 catalogues of 1 kB: from the start of a follower until it shows them
    crowd      200 followers: from the return of publish until the last one shows two small catalogues, and the
               processor time of the server while nothing is published

The store of a follower is catsession, then kobdzila.Store, then a dict of kobdzila.Catalogue; --kind picks one. Each
line says whether the goal is met, and the status is 1 if one isn't.
"""
import argparse
import bisect
import hashlib
import multiprocessing
import os
import statistics
import sys
import time
import uuid

import psycopg

import kobdzila
import servers
from kobdzila.fleet import Follower, Log, _log
from stores import kinds, mo, opened

LARGE, COUNT = 500_000, 200
LOADS = 100_000
JOINS = 3
# goals
MEDIAN, WORST = 0.050, 0.200  # of the latency, in seconds
SHARE, LATE = 0.99, 1.0  # of the rate, and how late a follower may be at any time
JOINED = 2.0
MANY, MANY_JOINED = 10_000, 3.0
CROWD, CROWD_PROCESSES, CROWD_LATE, AT_REST = 200, 8, 1.0, 0.02


def large(number):
    """An MO file of 0.5 MB."""
    text = "".join(f'msgid "message {at}"\nmsgstr "{number} {"x" * 66} {at}"\n\n' for at in range(LARGE // 102))
    return kobdzila.Catalogue.from_po(text.encode()).mo_file()


def follow(kind, address, at, versions, pipe):
    """A follower's process. It notes when it shows each version, and sends that at its end."""
    shown = []

    def note(version):
        shown.append((version, time.monotonic()))
        versions[at] = version

    with Follower(opened(kind), address, f"m{at}", on_version=note) as follower:
        pipe.recv()
        if follower.stopped:
            print(f"m{at} stopped: {follower.stopped}", flush=True)
    pipe.send(shown)


class Fleet:
    """Followers in processes of their own."""

    def __init__(self, kind, address, count):
        self.versions = multiprocessing.RawArray("q", [-1] * count)
        self.pipes, self.processes = [], []
        for at in range(count):
            mine, other = multiprocessing.Pipe()
            process = multiprocessing.Process(target=follow, args=[kind, address, at, self.versions, other],
                                              daemon=True)
            process.start()
            self.pipes.append(mine)
            self.processes.append(process)

    def wait(self, version):
        """Wait until the last follower shows a version."""
        end = time.monotonic() + 60
        while min(self.versions) < version:
            assert time.monotonic() < end, f"the followers are at {list(self.versions)}, and not at {version}"
            time.sleep(0.001)

    def close(self, publishes):
        """End the followers, and return how long after each of these publishes the last one showed it."""
        lags = [0.0] * len(publishes)
        for pipe in self.pipes:
            pipe.send(None)
        for pipe, process in zip(self.pipes, self.processes):
            shown = pipe.recv()
            versions = [version for version, _ in shown]
            for at, (version, done) in enumerate(publishes):
                lags[at] = max(lags[at], shown[bisect.bisect_left(versions, version)][1] - done)
            process.join(10)
        return lags


def milliseconds(times):
    return f"median {statistics.median(times) * 1e3:.1f} ms, worst {max(times) * 1e3:.1f} ms of {len(times)}"


def verdict(text, is_met):
    """Print a line, and return whether the goal is met."""
    print(f"{text}: {'met' if is_met else 'MISSED'} (load {os.getloadavg()[0]:.1f})", flush=True)
    return is_met


def latency(kind, address, options):
    files = [large(number) for number in range(4)]
    with Log(address) as log:
        log.init()
        version = 0
        for first in range(0, COUNT, 20):
            version = log.publish([(f"app{at}", "fr", files[0]) for at in range(first, first + 20)])
        fleet = Fleet(kind, address, options.followers)
        fleet.wait(version)
        publishing, publishes = [], []
        for number in range(options.publishes):
            pair = [("app99", "fr", files[number % 4]), ("app100", "fr", files[(number + 1) % 4])]
            begun = time.monotonic()
            version = log.publish(pair)
            publishes.append((version, time.monotonic()))
            publishing.append(publishes[-1][1] - begun)
            fleet.wait(version)
            time.sleep(0.05)
    lags = fleet.close(publishes)
    print(f"{kind}: publish itself, two files of {len(files[0])} bytes: {milliseconds(publishing)}")
    return verdict(f"{kind}: {options.followers} followers, from commit to the last one: {milliseconds(lags)}",
                   statistics.median(lags) <= MEDIAN and max(lags) <= WORST)


def rate(kind, address, options):
    files = [mo(number, 20) for number in range(50)]
    publishes = []
    with Log(address) as log:
        log.init()
        fleet = Fleet(kind, address, options.followers)
        fleet.wait(0)
        begun = time.monotonic()
        while time.monotonic() < begun + options.seconds:
            count = len(publishes)
            version = log.publish([("app", "fr", files[count % 50]), ("mail", "fr", files[count % 50])])
            publishes.append((version, time.monotonic()))
            time.sleep(max(0.0, begun + (count + 1) / options.rate - time.monotonic()))
        fleet.wait(version)
    reached = len(publishes) / (publishes[-1][1] - begun)
    lags = fleet.close(publishes)
    return verdict(f"{kind}: {options.followers} followers, {reached:.1f} publishes a second, "
                   f"from each commit to the last one: {milliseconds(lags)}",
                   reached >= SHARE * options.rate and max(lags) <= LATE)


def joining(kind, address, options):
    with Log(address) as log:
        log.init()
    with psycopg.connect(address) as connection:
        files = {hashlib.sha256(it).digest(): it for it in map(large, range(COUNT))}
        size = sum(map(len, files.values())) // COUNT
        _log.keep_files(connection, files)
        sums = list(files)
        for number in range(LOADS // COUNT):
            pairs = [(f"app{at}", "fr", sums[(at + number) % COUNT]) for at in range(COUNT)]
            _log.append(connection, uuid.uuid4(), pairs, "")
    with psycopg.connect(address, autocommit=True) as connection:
        connection.execute("vacuum analyze")
    times = []
    for _ in range(JOINS):
        store = opened(kind)
        begun = time.monotonic()
        with Follower(store, address, "late") as follower:
            version = follower.wait_for(LOADS, 60)
            times.append(time.monotonic() - begun)
        getattr(store, "close", lambda: None)()
    return verdict(f"{kind}: a machine joins at version {version} with {COUNT} catalogues of {size} bytes in "
                   + ", ".join(f"{it:.2f} s" for it in times), max(times) <= JOINED)


def catalogues(kind, address, options):
    text = "".join(f'msgid "k{at}"\nmsgstr "%d {at} {"x" * 40}"\n\n' for at in range(14))
    files = [kobdzila.Catalogue.from_po((text.replace("%d", str(number))).encode()).mo_file() for number in range(MANY)]
    with Log(address) as log:
        log.init()
        log.publish([(f"d{at % 100}", f"l{at // 100}", it) for at, it in enumerate(files)], within=600)
    times, used = [], []
    for _ in range(JOINS):
        store, begun, spent = opened(kind), time.monotonic(), time.process_time()
        with Follower(store, address, "late") as follower:
            follower.wait_for(MANY, 300)
            times.append(time.monotonic() - begun)
            used.append(time.process_time() - spent)
        getattr(store, "close", lambda: None)()
    return verdict(f"{kind}: a machine joins with {MANY} catalogues of {len(files[0])} bytes in "
                   + ", ".join(f"{it:.2f} s" for it in times)
                   + f", of which it computes {min(used):.2f} s", min(times) <= MANY_JOINED)


def follow_many(kind, address, first, count, versions, pipe):
    """A process with some of the followers of a crowd."""
    def note(at):
        return lambda version: versions.__setitem__(at, (int(version)))

    made = [Follower(opened(kind), address, f"m{at}", on_version=note(at)) for at in range(first, first + count)]
    for follower in made:
        follower.start()
    pipe.recv()
    for follower in made:
        follower.close()


def spent_by(server):
    """The processor time of a server and all its processes, in seconds."""
    ticks = 0
    for pid in server.processes():
        try:
            with open(f"/proc/{pid}/stat") as file:
                ticks += sum(map(int, file.read().rpartition(")")[2].split()[11:13]))
        except FileNotFoundError:
            pass
    return ticks / os.sysconf("SC_CLK_TCK")


def crowd(kind, options):
    """Followers that are threads of eight processes, as eight workers of a web server have them."""
    with servers.primary("max_connections = 300") as server:
        with Log(server.address) as log:
            log.init()
            versions, pipes = multiprocessing.RawArray("q", [-1] * CROWD), []
            for first in range(0, CROWD, CROWD // CROWD_PROCESSES):
                mine, other = multiprocessing.Pipe()
                arguments = [kind, server.address, first, CROWD // CROWD_PROCESSES, versions, other]
                multiprocessing.Process(target=follow_many, args=arguments, daemon=True).start()
                pipes.append(mine)
            times = []
            for number in range(options.publishes):
                version = log.publish([("app", "fr", mo(number)), ("mail", "fr", mo(number))], within=60)
                done = time.monotonic()
                while min(versions) < version:
                    assert time.monotonic() < done + 300, f"a follower is at {min(versions)}, and not at {version}"
                    time.sleep(0.001)
                times.append(time.monotonic() - done)
                time.sleep(0.2)
            time.sleep(3)
            before, begun = spent_by(server), time.monotonic()
            time.sleep(options.seconds)
            share = (spent_by(server) - before) / (time.monotonic() - begun)
            for pipe in pipes:
                pipe.send(None)
    is_quick = verdict(f"{kind}: {CROWD} followers, from the answer to the last one: {milliseconds(times[1:])}",
                       max(times[1:]) <= CROWD_LATE)
    return verdict(f"{kind}: at rest the server uses {100 * share:.2f} % of a core", share <= AT_REST) and is_quick


WORKS = {"latency": latency, "rate": rate, "joining": joining, "catalogues": catalogues, "crowd": crowd}


def main():
    parser = argparse.ArgumentParser(description="Time a fleet.")
    parser.add_argument("--followers", type=int, default=16)
    parser.add_argument("--publishes", type=int, default=60, help="of latency")
    parser.add_argument("--seconds", type=float, default=20, help="of rate")
    parser.add_argument("--rate", type=float, default=100, help="publishes a second")
    parser.add_argument("--kind", action="append", choices=kinds(), help="of store; all that are there")
    parser.add_argument("only", nargs="*", metavar="WORK", help=", ".join(WORKS))
    options = parser.parse_args()
    are_met = []
    for name in options.only or WORKS:
        if name == "crowd":
            are_met.append(crowd((options.kind or ["Store"])[0], options))
            continue
        for kind in options.kind or kinds():
            with servers.pair("max_wal_size = 4GB", "shared_buffers = 256MB") as (first, second):
                are_met.append(WORKS[name](kind, servers.both(first, second), options))
    return 0 if all(are_met) else 1


if __name__ == "__main__":
    sys.exit(main())
