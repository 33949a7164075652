#!/usr/bin/env python3
"""Times the package kobdzila next to Python's gettext, and Babel's if it is installed. Run by bench/python/run.

    bench.py [ROUNDS]              opening, gettext, ngettext, and the memory of 100 catalogues
    bench.py memory READER FILE..  the memory that a reader takes for these catalogues, before and after each message of
                                   them was asked for, in kB
    bench.py turns READER FILE     the time of gettext for all messages in turn, which the standard input has, in ns;
                                   and the memory that the reader takes for the catalogue when it was opened, after one
                                   turn and after ten, in kB

A look-up is timed in a loop, without the loop's own time. Readers take turns, and the best round of each counts.
"""
import gettext
import io
import subprocess
import sys
import time
from pathlib import Path

import kobdzila

READERS = {"kobdzila": kobdzila.GNUTranslations, "gettext": gettext.GNUTranslations}
try:
    from babel.support import Translations

    READERS["Babel"] = lambda file: Translations(file, "app")
except ImportError:
    pass
CALLS = 2000


def sizes():
    """The installed catalogues that both readers read, the largest ones first, with their sizes."""
    names = sorted(Path("/usr/share/locale").glob("*/LC_MESSAGES/*.mo"), key=lambda path: (-path.stat().st_size, path))
    for path in names:
        try:
            kobdzila.Catalogue.open(path)
            with path.open("rb") as file:
                gettext.GNUTranslations(file)
        except Exception:  # noqa: BLE001 (whatever Python's reader raises)
            continue
        yield path, path.stat().st_size


def best_of(rounds, works):
    """The least time of each work, in seconds; the works take turns."""
    best = dict.fromkeys(works, float("inf"))
    for _ in range(rounds):
        for name, work in works.items():
            begun = time.perf_counter()
            work()
            best[name] = min(best[name], time.perf_counter() - begun)
    return best


def show(what, times, unit, scale):
    ours = times["kobdzila"]
    others = ", ".join(f"{name} {it * scale:.1f} {unit} ({it / ours:.2f})" for name, it in times.items()
                       if name != "kobdzila")
    print(f"{what}: kobdzila {ours * scale:.1f} {unit}; {others}", flush=True)


def opening(path, rounds):
    def work(reader):
        def opens():
            with open(path, "rb") as file:
                reader(file)
        return opens

    show(f"open {path.stat().st_size} bytes", best_of(rounds * 5, {k: work(v) for k, v in READERS.items()}), "ms", 1e3)


def empty_loop(messages):
    for message in messages:
        pass


def gettext_loop(translations, messages):
    for message in messages:
        translations.gettext(message)


def ngettext_loop(translations, messages):
    for message in messages:
        translations.ngettext(message, message, 5)


def look_ups(what, looping, data, messages, rounds):
    works = {name: lambda it=reader(io.BytesIO(data)): looping(it, messages) for name, reader in READERS.items()}
    times = best_of(rounds * 5, works | {"": lambda: empty_loop(messages)})
    own = times.pop("")
    show(f"{what}", {name: (it - own) / len(messages) for name, it in times.items()}, "ns", 1e9)


def resident():
    with open("/proc/self/statm", encoding="ascii") as file:
        return int(file.read().split()[1]) * 4


def warm_up(reader):
    """Let the reader's code, which takes memory once, be there."""
    small = kobdzila.Catalogue.from_po(b'msgid "a"\nmsgstr "b"\n').mo_file()
    READERS[reader](io.BytesIO(small)).gettext("a")


def memory(reader, names):
    warm_up(reader)
    before = resident()
    opened = []
    for name in names:
        with open(name, "rb") as file:
            opened.append(READERS[reader](file))
    after = resident()
    for name, it in zip(names, opened):
        for entry in kobdzila.Catalogue.open(name).entries():
            if entry.context is None and entry.plural is None:
                it.gettext(entry.msgid)
    print(after - before, resident() - before)


def memory_of_all(names):
    taken = {}
    for reader in READERS:
        command = [sys.executable, __file__, "memory", reader, *map(str, names)]
        done = subprocess.run(command, capture_output=True, text=True, check=True)
        taken[reader] = [int(field) for field in done.stdout.split()]
    for k, what in enumerate(("opened", "and every message asked for")):
        show(f"memory of {len(names)} catalogues, {what}", {name: it[k] for name, it in taken.items()}, "MB", 1e-3)


def turns(reader, name):
    messages, taken = sys.stdin.read().split("\0"), []
    warm_up(reader)
    before = resident()
    with open(name, "rb") as file:
        it = READERS[reader](file)
    for count in (0, 1, 9):
        for _ in range(count):
            gettext_loop(it, messages)
        taken.append(resident() - before)
    times = best_of(20, {"": lambda: empty_loop(messages), "look-ups": lambda: gettext_loop(it, messages)})
    print((times["look-ups"] - times[""]) / len(messages) * 1e9, *taken)


def turns_of(path, messages, rounds):
    """Time and memory of one catalogue, each reader in a process of its own."""
    measured = {reader: [] for reader in READERS}
    for _ in range(rounds):
        for reader, runs in measured.items():
            done = subprocess.run([sys.executable, __file__, "turns", reader, str(path)], input="\0".join(messages),
                                  capture_output=True, text=True, check=True)
            runs.append([float(field) for field in done.stdout.split()])
    best = {reader: list(map(min, *runs, runs[0])) for reader, runs in measured.items()}
    print(f"{path.parts[4]}/{path.stem}, {path.stat().st_size} bytes, its {len(messages)} messages in turn")
    for k, (what, unit) in enumerate((("gettext", "ns"), ("memory, opened", "kB"), ("memory, after one turn", "kB"),
                                      ("memory, after ten", "kB"))):
        show(f"  {what}", {reader: it[k] for reader, it in best.items()}, unit, 1)


def messages_of(path):
    """The messages of a catalogue without a context, those without plural forms and those with them."""
    entries = [it for it in kobdzila.Catalogue.open(path).entries() if it.context is None and it.msgid]
    return [it.msgid for it in entries if it.plural is None], [it.msgid for it in entries if it.plural is not None]


def chosen(found):
    """The catalogue with a dozen plural messages whose size is nearest to 0.5 MB."""
    for path, _ in sorted(found, key=lambda it: (abs(it[1] - 500_000), it[0])):
        if len(messages_of(path)[1]) >= 12:
            return path
    raise SystemExit("no catalogue with plural messages")


def several(found):
    """The largest catalogue, the one with the most messages, and those nearest to 0.1 MB and to 0.01 MB."""
    most = max(found[:200], key=lambda it: kobdzila.Catalogue.open(it[0]).count)
    nearest = [min(found, key=lambda it: abs(it[1] - size)) for size in (100_000, 10_000)]
    return [path for path, _ in (found[0], most, *nearest)]


def main(rounds):
    found = list(sizes())
    print(f"Python {sys.version.split()[0]}, {len(found)} catalogues; in brackets, as multiples of kobdzila's")
    path = chosen(found)
    plain, plural = messages_of(path)
    opening(path, rounds)
    data = path.read_bytes()
    for count in (100, 1000):
        few = plain[:: max(1, len(plain) // count)][:count]
        look_ups(f"gettext, {len(few)} messages", gettext_loop, data, few * (CALLS // len(few) or 1), rounds)
    look_ups("gettext, not found", gettext_loop, data, ["no such message"] * CALLS, rounds)
    look_ups(f"ngettext, {len(plural)} messages", ngettext_loop, data, plural * (CALLS // len(plural)), rounds)
    for it in (path, *several(found)):
        turns_of(it, messages_of(it)[0], 3)
    memory_of_all([name for name, _ in found[:100]])


if __name__ == "__main__":
    if sys.argv[1:2] == ["memory"]:
        memory(sys.argv[2], sys.argv[3:])
    elif sys.argv[1:2] == ["turns"]:
        turns(sys.argv[2], sys.argv[3])
    else:
        main(int(sys.argv[1]) if len(sys.argv) > 1 else 7)
