#!/usr/bin/env python3
"""Times requests while catalogues are replaced 100 times a second, and says whether that makes one slow. Run by
bench/python/run.

    store.py [ROUNDS [SECONDS]]      of each kind (10; a verdict needs 5), and of each round (2)

8 threads each begin a request every 10 ms: a snapshot and 50 look-ups in it. It is timed from the moment when it should
begin, so the time that its thread waits for the interpreter counts. In rounds of the first kind nothing is published.
In the second, a thread loads and publishes a catalogue of 4,000 messages 100 times a second. In the third, it reads
that catalogue with Python's gettext instead, and puts it into a dict that the requests look up in. The kinds take
turns, and all rounds count.

A busy machine makes requests slow by itself: their threads wait for a processor. So the verdict compares the second
kind with the first. It is "slower", and the status 1, if chance alone would give the second kind's rounds that
share of the requests above 5 ms in fewer than 1 of 100 runs.
"""
import gettext
import io
import os
import random
import sys
import threading
import time
from typing import NamedTuple

import kobdzila

THREADS, PAUSE, LOOK_UPS, RATE, LIMIT, BY_CHANCE = 8, 0.01, 50, 100, 0.005, 0.01
HEADER = 'msgid ""\nmsgstr "Content-Type: text/plain; charset=UTF-8\\nPlural-Forms: nplurals=2; plural=n>1;\\n"\n\n'


def mo(number):
    """A catalogue whose texts carry a number."""
    text = "".join(f'msgid "message {k}"\nmsgstr "{"traduction " * 8}{k} at {number}"\n\n' for k in range(4000))
    return kobdzila.Catalogue.from_po((HEADER + text).encode()).mo_file()


MESSAGES = [f"message {k * 79}" for k in range(LOOK_UPS)]
FILES = [mo(number) for number in range(4)]


class Request(NamedTuple):
    """The parts of a request, in seconds: until its thread ran, until it had a snapshot, and its look-ups."""

    waiting: float
    entering: float
    looking: float


class Live:
    """A Store."""

    def __init__(self):
        self.store = kobdzila.Store("shop")
        self.replace(FILES[0])

    def replace(self, file):
        self.store.load("shop", "fr", file)
        self.store.publish()

    def request(self):
        """The numbers of the texts, and when the snapshot was there."""
        with self.store.snapshot("fr-CA, en;q=0.5") as texts:
            entered = time.perf_counter()
            return {texts.gettext(message).rpartition(" ")[2] for message in MESSAGES}, entered


class Dict:
    """Python's gettext, and a dict."""

    def __init__(self):
        self.shown = {}
        self.replace(FILES[0])

    def replace(self, file):
        self.shown = {"fr": gettext.GNUTranslations(io.BytesIO(file))}

    def request(self):
        texts, entered = self.shown["fr"], time.perf_counter()
        return {texts.gettext(message).rpartition(" ")[2] for message in MESSAGES}, entered


def ask(texts, due, end, requests):
    """Make a request every 10 ms."""
    while due < end:
        time.sleep(max(0.0, due - time.perf_counter()))
        begun = time.perf_counter()
        numbers, entered = texts.request()
        ended = time.perf_counter()
        requests.append(Request(begun - due, entered - begun, ended - entered))
        if len(numbers) != 1:
            raise SystemExit(f"a request of several versions: {numbers}")
        due = max(due + PAUSE, ended)


def measure(texts, seconds, publishes):
    """Return the requests of a round, and how often the catalogue was replaced."""
    begun, requests, count = time.perf_counter(), [], 0
    end = begun + seconds
    threads = [threading.Thread(target=ask, args=[texts, begun + PAUSE * number / THREADS, end, requests])
               for number in range(THREADS)]
    for thread in threads:
        thread.start()
    while publishes and time.perf_counter() < end:
        texts.replace(FILES[count % len(FILES)])
        count += 1
        time.sleep(max(0.0, begun + count / RATE - time.perf_counter()))
    for thread in threads:
        thread.join()
    return requests, count


def slow_of(requests):
    return [it for it in requests if sum(it) > LIMIT]


def show(what, requests, publishes):
    times, slow = sorted(map(sum, requests)), slow_of(requests)
    at = {name: times[min(len(times) - 1, int(len(times) * part))] * 1e3 for name, part in
          (("median", 0.5), ("99 %", 0.99), ("99.9 %", 0.999), ("slowest", 1.0))}
    figures = ", ".join(f"{name} {it:.2f} ms" for name, it in at.items())
    print(f"{what}, {publishes:.0f} publishes a second: {len(times)} requests, {figures}, {len(slow)} above 5 ms")
    if slow:
        parts = ", ".join(f"{sum(it) / sum(map(sum, slow)):.0%} {name}" for name, it in
                          zip(("waiting for its thread", "for its snapshot", "in look-ups"), zip(*slow)))
        print(f"  the slow ones spent {parts}", flush=True)


def chance_of(without, publishing):
    """How often the second list has its sum, or more, if all numbers are dealt out to the two lists by lot.

    Its numbers are those of rounds and not of requests, since requests that wait for one thing are slow together.
    """
    numbers, wanted, lot = without + publishing, sum(publishing), random.Random(1)
    sums = (sum(lot.sample(numbers, len(publishing))) for _ in range(10_000))
    return sum(it >= wanted for it in sums) / 10_000


def verdict(without, publishing):
    """Print whether publishes make requests slow, and return the status. The arguments are the requests of rounds."""
    before, after = ([len(slow_of(requests)) for requests in rounds] for rounds in (without, publishing))
    chance = chance_of(before, after)
    is_slower = chance < BY_CHANCE
    print(f"verdict: {'slower' if is_slower else 'no slower'} for the publishes: above 5 ms were {sum(after)} of "
          f"{sum(map(len, publishing))} requests with them and {sum(before)} of {sum(map(len, without))} without "
          f"(by chance: {chance})")
    return int(is_slower)


def main(rounds, seconds):
    print(f"Python {sys.version.split()[0]}, {THREADS} threads, {LOOK_UPS} look-ups a request, {len(FILES[0])} bytes; "
          f"load {os.getloadavg()[0]:.1f} on {os.cpu_count()} processors")
    live, other = Live(), Dict()
    kinds = {"a store": (live, False), "a store, replaced": (live, True), "gettext in a dict, replaced": (other, True)}
    done = {name: [] for name in kinds}
    counts = dict.fromkeys(kinds, 0)
    for _ in range(rounds):
        for name, (texts, publishes) in kinds.items():
            requests, count = measure(texts, seconds, publishes)
            done[name].append(requests)
            counts[name] += count
    for name, requests in done.items():
        show(name, sum(requests, []), counts[name] / seconds / rounds)
    return verdict(done["a store"], done["a store, replaced"])


if __name__ == "__main__":
    sys.exit(main(int(sys.argv[1]) if len(sys.argv) > 1 else 10, float(sys.argv[2]) if len(sys.argv) > 2 else 2.0))
