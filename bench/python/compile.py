#!/usr/bin/env python3
"""Times `python -m kobdzila compile` next to pybabel and Django's compilemessages, on Django's own PO files. Run by
bench/python/run compile.

    compile.py [ROUNDS]

The PO files are those of the installed Django, in a folder of their own. Each program compiles all of them, after the MO
files were removed, and the programs take turns; the best round counts, by the clock and by the processor's time. pybabel
takes one folder and one domain at a time: it is called for each of them in one process, so that it starts once.
"""
import importlib.util
import os
import resource
import shutil
import subprocess
import sys
import tempfile
import time
from pathlib import Path

PYBABEL = """
import logging, sys, warnings
warnings.simplefilter("ignore")
from babel.messages import frontend
for words in map(str.split, sys.argv[1:]):
    frontend.CommandLineInterface().run(["pybabel", "-q", "compile", *words])
"""


def catalogues(room):
    """Copy Django's PO files, and return how many there are, and their folders of locales."""
    top = Path(importlib.util.find_spec("django").submodule_search_locations[0])
    count, folders = 0, set()
    for path in top.rglob("*.po"):
        to = room / path.relative_to(top)
        to.parent.mkdir(parents=True, exist_ok=True)
        shutil.copy(path, to)
        count += 1
        folders.add((to.parents[2], to.stem))
    return count, sorted(folders)


def timed(room, command):
    """Run a command without MO files, and return its time by the clock and by the processor, and what it made."""
    for path in room.rglob("*.mo"):
        path.unlink()
    before, begun = resource.getrusage(resource.RUSAGE_CHILDREN), time.perf_counter()
    subprocess.run(command, cwd=room, check=False, stdout=subprocess.DEVNULL, stderr=subprocess.DEVNULL)
    took, after = time.perf_counter() - begun, resource.getrusage(resource.RUSAGE_CHILDREN)
    spent = after.ru_utime + after.ru_stime - before.ru_utime - before.ru_stime
    return took, spent, sum(1 for _ in room.rglob("*.mo"))


def main(rounds):
    with tempfile.TemporaryDirectory() as name:
        room = Path(name)
        count, folders = catalogues(room)
        words = [f"-d {folder} -D {domain}" for folder, domain in folders]
        own = [sys.executable, "-m", "kobdzila", "compile", "-q"]
        commands = {"kobdzila": own, "kobdzila --check": [*own, "--check"]}
        if importlib.util.find_spec("babel"):
            commands["pybabel"] = [sys.executable, "-c", PYBABEL, *words]
        if shutil.which("msgfmt"):
            commands["compilemessages"] = [sys.executable, "-W", "ignore", "-m", "django", "compilemessages", "-v", "0"]
        best = {}
        for _ in range(rounds):
            for it, command in commands.items():
                now = timed(room, command)
                best[it] = tuple(map(min, now[:2], best.get(it, now)[:2])) + now[2:]
        print(f"{count} PO files of {sum(path.stat().st_size for path in room.rglob('*.po'))} bytes, on "
              f"{os.cpu_count()} processors")
        for it, (took, spent, made) in best.items():
            print(f"{it}: {took * 1e3:.0f} ms, {spent * 1e3:.0f} ms of processors, {made} MO files; "
                  f"{took / best['kobdzila'][0]:.1f} times kobdzila, {took / best['kobdzila --check'][0]:.1f} times with --check")


if __name__ == "__main__":
    main(int(sys.argv[1]) if len(sys.argv) > 1 else 5)
