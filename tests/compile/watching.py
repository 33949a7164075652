#!/usr/bin/env python3
"""Edits PO files while `kob-compile --watch` runs, as editors do, and waits after each edit until the MO files are right.

    tests/compile/watching.py KOB_COMPILE MSGFMT EDITS

An edit writes one PO file, or two at once, in one of the ways in which editors save. What an MO file has to be is what
MSGFMT writes for the text. A text that it refuses has to leave the MO file as it was, and a line is waited for. Prints a
line `ok compile, NAME` or `FAILED compile, NAME: WHY` for each rule.
"""
import json
import os
import random
import shutil
import signal
import subprocess
import sys
import threading
import time
from pathlib import Path

COMPILER, MSGFMT, EDITS = sys.argv[1], sys.argv[2], int(sys.argv[3])
ROOM = Path("watched")
LANGUAGES = ("de", "fr", "nl", "pl")
HEADER = 'msgid ""\nmsgstr "Content-Type: text/plain; charset=UTF-8\\n"\n\n'
PATIENCE = 20.0 * int(os.environ.get("SLOWER", "1"))  # seconds


def text_of(number: int, is_refused: bool) -> bytes:
    """A PO text that differs from all others; a refused one has a message twice."""
    messages = "".join(f'msgid "m{it}"\nmsgstr "{number} {it}"\n\n' for it in range(number % 50 + 1))
    return (HEADER + messages + ('msgid "m0"\nmsgstr "again"\n' if is_refused else "")).encode()


def wanted_for(text: bytes) -> bytes:
    Path("edit.po").write_bytes(text)
    subprocess.run([MSGFMT, "-o", "edit.mo", "edit.po"], check=True)
    return Path("edit.mo").read_bytes()


def save_by_rename(path: Path, text: bytes) -> None:
    """gedit, Poedit, sed -i: a new file takes the place of the old one."""
    beside = path.with_name(f".{path.name}.tmp")
    beside.write_bytes(text)
    os.replace(beside, path)


def save_by_backup(path: Path, text: bytes) -> None:
    """vim with `backup`: the old file gets another name, and a new one is written."""
    if path.exists():
        os.replace(path, path.with_name(path.name + "~"))
    path.write_bytes(text)


def save_by_truncating(path: Path, text: bytes) -> None:
    """Emacs, nano, the shell: the file is emptied and written."""
    path.write_bytes(text)


def save_in_steps(path: Path, text: bytes) -> None:
    """A slow writer: a part at a time."""
    with open(path, "wb", buffering=0) as file:
        for at in range(0, len(text), 200):
            file.write(text[at : at + 200])
            time.sleep(0.001)


def save_by_link(path: Path, text: bytes) -> None:
    """A file that is linked into its place, after the old one was removed."""
    beside = path.with_name("linked")
    beside.write_bytes(text)
    path.unlink(missing_ok=True)
    os.link(beside, path)
    beside.unlink()


def save_an_old_file(path: Path, text: bytes) -> None:
    """git stash pop, cp -p: the file that comes is older than the MO file."""
    beside = path.with_name("older")
    beside.write_bytes(text)
    os.utime(beside, (1_000_000_000, 1_000_000_000))
    os.replace(beside, path)


WAYS = (save_by_rename, save_by_backup, save_by_truncating, save_in_steps, save_by_link, save_an_old_file)


class Watching:
    """A run of `kob-compile --watch`, and the lines that it has printed."""

    def __init__(self, *places: str) -> None:
        self.lines: list[str] = []
        self.run = subprocess.Popen([COMPILER, "--watch", "--no-gnu", *places], stdout=subprocess.PIPE,
                                    stderr=subprocess.STDOUT, text=True)
        threading.Thread(target=self.read, daemon=True).start()

    def read(self) -> None:
        for line in self.run.stdout:
            self.lines.append(line.rstrip("\n"))

    def stop(self) -> int:
        self.run.send_signal(signal.SIGINT)
        return self.run.wait(PATIENCE)


def waits_for(condition) -> bool:
    end = time.monotonic() + PATIENCE
    while time.monotonic() < end:
        if condition():
            return True
        time.sleep(0.002)
    return False


def has(path: Path, mo: bytes) -> bool:
    try:
        return path.read_bytes() == mo
    except FileNotFoundError:
        return False


def edit(watching: Watching, chosen: random.Random, number: int, right: dict[str, bytes]) -> str:
    """Makes one edit, and waits for what has to follow. Why it doesn't, or nothing."""
    languages = chosen.sample(LANGUAGES, 2 if chosen.random() < 0.25 else 1)
    is_refused = chosen.random() < 0.1
    text, way, before = text_of(number, is_refused), chosen.choice(WAYS), len(watching.lines)
    for it in languages:
        way(ROOM / f"{it}.po", text)
    if is_refused:
        lines = [f"{ROOM}/{it}.po:" for it in languages]
        if not waits_for(lambda: all(any(said.startswith(it) and said.endswith(": duplicate message")
                                         for said in watching.lines[before:]) for it in lines)):
            return f"edit {number}, {way.__name__}: no line for a refusal, but {watching.lines[before:]}"
    else:
        right.update(dict.fromkeys(languages, wanted_for(text)))
    for it, mo in right.items():
        if not waits_for(lambda: has(ROOM / f"{it}.mo", mo)):
            return f"edit {number}, {way.__name__}: {it}.mo isn't right; {watching.lines[before:][:3]}"
    return ""


def judge(name: str, wrong: str) -> None:
    print(f"FAILED compile, --watch, {name}: {wrong}" if wrong else f"ok compile, --watch, {name}")


def look_at_edits(watching: Watching) -> None:
    chosen = random.Random(20261128)
    right: dict[str, bytes] = {}
    wrong = ""
    for number in range(EDITS):
        wrong = edit(watching, chosen, number, right)
        if wrong:
            break
    judge(f"{EDITS} edits", wrong)


def look_at_folders() -> None:
    """A folder that is made, and made anew; one that is renamed into the project; and a language that LINGUAS gets."""
    text = text_of(7, False)
    mo = wanted_for(text)
    made = ROOM / "app/locale/fr/LC_MESSAGES"
    made.mkdir(parents=True)
    (made / "app.po").write_bytes(text)
    judge("a new folder", "" if waits_for(lambda: has(made / "app.mo", mo)) else "no MO file")
    shutil.rmtree(made)
    time.sleep(0.2)
    made.mkdir()
    (made / "app.po").write_bytes(text)
    judge("a folder that comes back", "" if waits_for(lambda: has(made / "app.mo", mo)) else "no MO file")
    Path("moved/po").mkdir(parents=True)
    Path("moved/po/fr.po").write_bytes(text)
    Path("moved/po/LINGUAS").write_bytes(b"fr\n")
    os.replace("moved", ROOM / "moved")
    judge("a folder that comes", "" if waits_for(lambda: has(ROOM / "moved/po/fr.mo", mo)) else "no MO file")
    (ROOM / "moved/po/nl.po").write_bytes(text)
    (ROOM / "moved/po/LINGUAS").write_bytes(b"fr nl\n")
    judge("LINGUAS", "" if waits_for(lambda: has(ROOM / "moved/po/nl.mo", mo)) else "no MO file")
    (ROOM / "moved/po/de.po").write_bytes(text)
    time.sleep(0.2)
    (ROOM / "moved/po/LINGUAS").unlink()
    judge("LINGUAS goes", "" if waits_for(lambda: has(ROOM / "moved/po/de.mo", mo)) else "no MO file")


def look_at_names() -> None:
    """A file whose name has more dots and slashes than it needs."""
    folder = Path("named")
    folder.mkdir()
    (folder / "fr.po").write_bytes(text_of(1, False))
    (folder / "de.po").write_bytes(text_of(1, False))
    watching = Watching("./named//fr.po", "named/./de.po")
    waits_for(lambda: (folder / "fr.mo").exists() and (folder / "de.mo").exists())
    wrong = ""
    for number, it in ((2, "fr"), (3, "de")):
        text, file = text_of(number, False), folder / f"{it}.mo"
        mo = wanted_for(text)
        save_by_rename(folder / f"{it}.po", text)
        if not wrong and not waits_for(lambda: has(file, mo)):
            wrong = f"{it}.mo isn't right; {watching.lines[:3]}"
    watching.stop()
    judge("names of files with dots and slashes", wrong)


def look_at_places() -> None:
    """Arguments that are taken away and come back, as where git changes to a branch without them, or that come late."""
    place, text = Path("place"), text_of(4, False)
    mo = wanted_for(text)

    def save() -> None:
        place.mkdir()
        save_by_rename(place / "fr.po", text)

    save()
    watching = Watching("place", "late/fr.po")
    waits_for(lambda: has(place / "fr.mo", mo))
    time.sleep(0.2)
    shutil.rmtree(place)
    save()
    judge("a folder that is made anew", "" if waits_for(lambda: has(place / "fr.mo", mo)) else "no MO file")
    time.sleep(0.2)
    os.replace(place, "elsewhere")
    time.sleep(0.2)
    save()
    judge("a folder that takes the place of another", "" if waits_for(lambda: has(place / "fr.mo", mo)) else "no MO file")
    Path("late").mkdir()
    save_by_rename(Path("late/fr.po"), text)
    judge("a file that comes late", "" if waits_for(lambda: has(Path("late/fr.mo"), mo)) else "no MO file")
    watching.stop()


def look_at_collisions() -> None:
    """A file that is saved while another one has its MO file, so that nothing is compiled, and again after that."""
    file, other = Path("collided/fr.po"), Path("collided/other/fr.po")
    file.parent.mkdir()
    watching = Watching("-o", "placed", "-d", "x", "collided")
    save_by_rename(file, text_of(5, False))
    waits_for(lambda: Path("placed/fr/LC_MESSAGES/x.mo").exists())
    other.parent.mkdir()
    save_by_rename(other, text_of(5, False))
    waits_for(lambda: any("would both be" in it for it in watching.lines))
    save_by_rename(file, text_of(6, False))
    waits_for(lambda: sum("would both be" in it for it in watching.lines) > 1)
    time.sleep(0.2)
    shutil.rmtree(other.parent)
    text = text_of(7, False)
    mo = wanted_for(text)
    save_by_rename(file, text)
    wrong = "" if waits_for(lambda: has(Path("placed/fr/LC_MESSAGES/x.mo"), mo)) else f"no MO file; {watching.lines}"
    judge("two PO files with one MO file, and one of them goes", wrong)
    watching.stop()


def look_at_machines() -> None:
    """A PO file that is refused, in JSON and SARIF of a later round, in which another one is compiled."""
    folder = Path("machines-watched")
    folder.mkdir()
    (folder / "fr.po").write_bytes(text_of(1, True))
    (folder / "de.po").write_bytes(text_of(2, False))
    watching = Watching("--json", "--sarif=watched.sarif", str(folder))

    def rounds() -> list[dict]:
        return [json.loads(it) for it in list(watching.lines) if it.startswith("{")]

    waits_for(rounds)
    save_by_rename(folder / "de.po", text_of(3, False))
    waits_for(lambda: len(rounds()) > 1)
    last = rounds()[-1]
    outcomes = [(it["outcome"], it.get("why")) for it in last["catalogues"]]
    (run,) = json.loads(Path("watched.sarif").read_text(encoding="utf-8"))["runs"]
    wrong = f"{last}, {run['results']}"
    if outcomes == [("compiled", None), ("refused", "duplicate message")] and last["status"] == len(run["results"]) == 1:
        wrong = ""
    judge("JSON and SARIF of a round, and what was refused before", wrong)
    save_by_rename(folder / "LINGUAS", b"de fr nl\n")
    waits_for(lambda: len(rounds()) > 2)
    watching.stop()
    said = sum(it.endswith(": duplicate message") for it in watching.lines)
    judge("what was refused before is told once", "" if said == 1 else str(watching.lines))
    status = rounds()[-1]["status"]
    judge("JSON of a round in which a file is missing", "" if status == 3 else f"status {status}")


def main() -> None:
    signal.signal(signal.SIGINT, signal.SIG_DFL)  # (ignored in a background job of a shell, and so in its children)
    shutil.rmtree(ROOM, ignore_errors=True)
    ROOM.mkdir()
    watching = Watching(str(ROOM))
    time.sleep(0.2)
    look_at_edits(watching)
    look_at_folders()
    status = watching.stop()
    judge("it ends by SIGINT", "" if status == 0 else f"status {status}")
    left = [str(it) for it in ROOM.rglob(".*") if it.name not in (".", "..")]
    judge("no leftover", "" if not left else str(left))
    look_at_names()
    look_at_places()
    look_at_collisions()
    look_at_machines()


if __name__ == "__main__":
    main()
