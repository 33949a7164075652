#!/usr/bin/env python3
"""Times each way to look up a message, next to Python's gettext, and what `import kobdzila` takes. Run by
bench/python/run ways.

    ways.py [ROUNDS]               (31)

The messages are those of the shop's French catalogue and of one with 1,000 messages, each with the `str` objects of a
program. The ways take turns, and the median of the rounds counts, in processor time and without the loop's own. A look-up
by the module's functions finds the files of the text domain each time, as a program does that has called textdomain and
bindtextdomain.
"""
import gettext
import os
import statistics
import subprocess
import sys
import tempfile
import time
from pathlib import Path

import kobdzila

HEADER = 'msgid ""\nmsgstr "Content-Type: text/plain; charset=UTF-8\\nPlural-Forms: nplurals=2; plural=n>1;\\n"\n\n'
CALLS = 2000
IMPORT = "import time; begun = time.process_time(); import {}; print(time.process_time() - begun)"


def catalogue(count):
    """A catalogue of messages, each also with plural forms."""
    text = "".join(f'msgid "message number {k}"\nmsgstr "le message numéro {k}"\n\nmsgid "%d file of {k}"\n'
                   f'msgid_plural "%d files of {k}"\nmsgstr[0] "%d fichier de {k}"\nmsgstr[1] "%d fichiers de {k}"\n\n'
                   for k in range(count))
    return kobdzila.Catalogue.from_po((HEADER + text).encode()).mo_file()


def loop(call, messages):
    for message in messages:
        call(message)


def plural_loop(call, messages):
    for message in messages:
        call(message, message, 5)


def empty_loop(messages):
    for message in messages:
        pass


def spent(work, *words):
    begun = time.process_time()
    work(*words)
    return time.process_time() - begun


def ways_of(file, room):
    """Each way: an object with gettext and ngettext."""
    folder = Path(room, "fr", "LC_MESSAGES")
    folder.mkdir(parents=True, exist_ok=True)
    (folder / "app.mo").write_bytes(file)
    os.environ["LANGUAGE"] = "fr"
    gettext.bindtextdomain("app", room)
    gettext.textdomain("app")
    store = kobdzila.Store("app")
    store.load("app", "fr", file)
    store.publish()
    snapshot = store.snapshot("fr")
    with open(folder / "app.mo", "rb") as opened:
        standard = gettext.GNUTranslations(opened)
    return {
        "gettext's functions": gettext,
        "kobdzila's functions": kobdzila,
        "gettext.GNUTranslations": standard,
        "kobdzila.GNUTranslations": kobdzila.GNUTranslations(file),
        "Snapshot": snapshot,
        "LazyTranslations": kobdzila.LazyTranslations(lambda: snapshot),
        "LazyTranslations, current": kobdzila.LazyTranslations(),
    }, snapshot


def medians(rounds, ways, looping, name, messages):
    """The median time of a look-up by each way, in ns."""
    taken = {way: [] for way in ways}
    for _ in range(rounds):
        own = spent(empty_loop, messages)
        for way, it in ways.items():
            call = getattr(it, name)
            # (the slow ones answer a tenth of them)
            asked = messages[: len(messages) // 10] if it in (gettext, kobdzila) else messages
            taken[way].append((spent(looping, call, asked) - own * len(asked) / len(messages)) / len(asked) * 1e9)
    return {way: statistics.median(them) for way, them in taken.items()}


def show(what, times):
    print(what)
    for way, ns in times.items():
        print(f"  {way:26} {ns:9.0f} ns; {times['''gettext's functions'''] / ns:7.1f} times gettext's functions, "
              f"{times['gettext.GNUTranslations'] / ns:6.2f} times gettext.GNUTranslations", flush=True)


def import_times(rounds):
    """Print how long each module's import takes, in processor time, each in a process of its own."""
    taken = {"gettext": [], "kobdzila": []}
    for _ in range(rounds):
        for name, them in taken.items():
            done = subprocess.run([sys.executable, "-c", IMPORT.format(name)], capture_output=True, text=True, check=True)
            them.append(float(done.stdout))
    for name, them in taken.items():
        print(f"import {name}: {statistics.median(them) * 1e3:.1f} ms of the processor")


def main(rounds):
    print(f"Python {sys.version.split()[0]}, {rounds} rounds, load {os.getloadavg()[0]:.1f} on {os.cpu_count()} processors")
    for count in (40, 1000):
        with tempfile.TemporaryDirectory() as room:
            ways, snapshot = ways_of(catalogue(count), room)
            singular = [f"message number {k}" for k in range(count)] * (CALLS // count)
            plural = [f"%d file of {k}" for k in range(count)] * (CALLS // count)
            with kobdzila.using(snapshot):
                show(f"gettext, {count} messages", medians(rounds, ways, loop, "gettext", singular))
                show(f"ngettext, {count} messages", medians(rounds, ways, plural_loop, "ngettext", plural))
    import_times(rounds)


if __name__ == "__main__":
    main(int(sys.argv[1]) if len(sys.argv) > 1 else 31)
