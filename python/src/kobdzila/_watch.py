"""A thread that loads the catalogues of a folder into a store, and reloads them when they change."""
from __future__ import annotations

import atexit
import contextlib
import hashlib
import logging
import os
import stat
import threading
import time
from collections.abc import Callable, Container, Iterable, Iterator
from pathlib import Path
from typing import TYPE_CHECKING, NamedTuple

from . import _forks
from ._catalogue import Catalogue
from ._closing import Closing
from ._refused import Fault, Refused

if TYPE_CHECKING:
    from ._store import Store

LOG = logging.getLogger("kobdzila")
EMPTY = "it has no messages, and those that were loaded stay: remove the file, or watch with allow_empty"
PATIENCE = 5.0  # seconds that a file which keeps changing delays the others


class FileRefused(NamedTuple):
    """A file that was refused. `line` is 0 if the fault has none. `fault` is None if it wasn't the library that refused
    the file: it can't be read, or it no longer has messages.
    """

    path: Path
    line: int
    fault: Fault | None
    text: str

    def __str__(self) -> str:
        return f"{self.path}:{self.line}: {self.text}" if self.line else f"{self.path}: {self.text}"


class Stamp(NamedTuple):
    """What changes when a file does."""

    modified: int
    size: int
    number: int
    changed: int


class File(NamedTuple):
    """A file that was looked at."""

    stamp: Stamp
    digest: bytes


class Watch(Closing):
    """Loads the catalogues of a folder, FOLDER/LOCALE/LC_MESSAGES/DOMAIN.mo and .po, and reloads them when they change.

    The catalogues that are there are loaded and published before the call returns. From then on a thread checks every
    `every` seconds, and publishes everything that has changed in one step. A file counts as complete once its size and
    times are the same at two checks, `settle` seconds apart; if writing takes longer, write another file and rename it.
    If there are both an MO file and a PO file, the one that was modified last is used, and the other one if that is
    removed. A file that is removed stays loaded if it was the only one. A file without messages doesn't replace one
    that has some, since it is often a mistake, such as a shell's `>`; with `allow_empty` it does.

    `refused` is called with a FileRefused for each refused file, in the watching thread; the translations loaded before
    stay. Without it, the file, the line and the reason are logged as a warning by the logger `kobdzila`. `domains`
    limits the text domains. `checked` and `use_fuzzy` are those of Catalogue.from_po.

    `stop` stops the thread, and so do the end of a `with` and the end of the process. A forked child keeps watching,
    with a thread of its own, unless the watch was stopped before the fork.

        watch = store.watch("locale", refused=lambda file: print(file))
    """

    def __init__(
        self,
        store: Store,
        folder: str | os.PathLike[str],
        *,
        refused: Callable[[FileRefused], object] | None = None,
        every: float = 1.0,
        settle: float = 0.1,
        domains: Iterable[str] | None = None,
        checked: bool = False,
        use_fuzzy: bool = False,
        allow_empty: bool = False,
    ) -> None:
        if isinstance(domains, str):  # (whose letters would be text domains, which no file has)
            raise TypeError(f"domains is a list of text domains, not a str: write [{domains!r}]")
        self.store, self.folder = store, Path(folder).absolute()  # (a server may change its working directory)
        self._report: Callable[[FileRefused], object] = refused or (lambda file: LOG.warning("%s", file))
        self._every, self._settle = every, settle
        self._domains = None if domains is None else frozenset(domains)
        self._options, self._allow_empty = (checked, use_fuzzy), allow_empty
        self._seen: dict[str, File] = {}  # what was loaded or refused, by path
        self._unread: dict[str, tuple[Stamp, str]] = {}  # what couldn't be read at the last look, and why, by path
        self._shown: dict[tuple[str, str], str] = {}  # the file that was loaded last, by domain and locale
        self._filled: set[tuple[str, str]] = set()  # those domains and locales that have messages
        self._looking, self._end = threading.RLock(), threading.Event()
        os.listdir(self.folder)  # (raises an exception if there is no such folder)
        self.look()
        self._start()
        atexit.register(self.stop)
        _forks.register(self)

    def look(self) -> int | None:
        """Check now. Return the version that was published, or None if nothing has changed.

        Any thread may call it, and waits for the result. So may a signal handler, also one that interrupts a look.
        """
        refusals: list[FileRefused] = []
        try:
            with self._looking:
                changed = self._steady()
                return self._load(changed, refusals) if changed else None
        finally:
            for file in refusals:  # (now that the next look may begin, which a callback may make or wait for)
                self._call(file)

    def stop(self) -> None:
        """Stop the thread, and wait until it has ended. The store keeps what was loaded. `look` still looks.

        A signal handler may call it, too. If it interrupts a look or a publish, the thread ends after that.
        """
        self._end.set()
        # (in a child that was forked without Python's knowledge, as uWSGI does, the thread is the parent's)
        is_here = threading.current_thread() is not self._thread and self._process == os.getpid()
        if is_here and not any(map(_forks.is_own, (self._looking, self.store._lock))):
            self._thread.join()
        atexit.unregister(self.stop)

    close = stop

    def _start(self) -> None:
        self._thread = threading.Thread(target=self._run, name=f"kobdzila watches {self.folder}", daemon=True)
        self._thread.start()
        self._process = os.getpid()

    def _fork_locks(self) -> tuple[()]:
        return ()  # (a look may take long; what it shows and what it has seen change under the store's lock)

    def _forked(self) -> None:
        self._process = os.getpid()
        self._looking, was_stopped, self._end = threading.RLock(), self._end.is_set(), threading.Event()
        if was_stopped:
            self._end.set()
        elif threading.current_thread() is not self._thread:
            self._start()

    def _run(self) -> None:
        while not self._end.wait(self._every):
            try:
                self.look()
                getattr(self.store, "retained", 0)  # (this frees what no snapshot has any more)
            except (Exception, SystemExit):  # (sys.exit in a callback would end the thread, and say nothing)
                LOG.exception("a look at %s failed, and is made again", self.folder)

    def _steady(self) -> dict[str, Stamp]:
        """Return the files that have changed, once they are complete, so that all of them are one publish."""
        before = self._changed()
        end = time.monotonic() + PATIENCE
        while before and not self._is_ended_meanwhile():
            after = self._changed()
            steady = {path: stamp for path, stamp in after.items() if before.get(path) == stamp}
            if len(steady) == len(after) or time.monotonic() > end:
                return steady
            before = after
        return {}

    def _is_ended_meanwhile(self) -> bool:
        """Wait until the files may be checked again. Return whether this is the watch's thread, which was stopped."""
        if threading.current_thread() is getattr(self, "_thread", None):
            return self._end.wait(self._settle)
        time.sleep(self._settle)
        return False

    def _changed(self) -> dict[str, Stamp]:
        found = {}
        for path in self._paths():
            stamp = stamp_of(path)
            if stamp and (path not in self._seen or self._seen[path].stamp != stamp):
                found[path] = stamp
        for path in list(self._shown.values()):
            other = other_of(path)
            stamp = stamp_of(other) if path in self._seen and stamp_of(path) is None else None
            if stamp:
                found[other] = stamp
        return found

    def _paths(self) -> Iterator[str]:
        for locale in listed(self.folder):
            folder = os.path.join(self.folder, locale, "LC_MESSAGES")
            for name in listed(folder):
                domain, end = os.path.splitext(name)
                if end in (".mo", ".po") and not name.startswith("."):
                    if self._domains is None or domain in self._domains:
                        yield os.path.join(folder, name)

    def _load(self, changed: dict[str, Stamp], refusals: list[FileRefused]) -> int | None:
        """Load these files, the one that was modified last at the end, and publish them. Add what is refused to
        `refusals`."""
        loads: list[tuple[str, str, Catalogue]] = []
        files: list[tuple[str, File]] = []
        for path, stamp in sorted(changed.items(), key=lambda it: place_of(*it)):
            catalogue, file = self._opened(path, stamp, refusals)
            if file and catalogue:
                loads.append((*names_of_path(path), catalogue))
                files.append((path, file))
            elif file:
                self._seen[path] = file
                if stamp_of(other_of(path)) is None:  # (this one was tried in its place, once)
                    self._seen.pop(other_of(path), None)
        if not loads:
            return None
        _forks.give_way()
        with self.store._lock:  # (so a forked child has both or neither)
            version, refused = self.store._publish_all(loads)
            self._note(loads, files, refused)
        refusals += (refusal_of(files[number][0], it) for number, it in refused.items())
        return version if len(refused) < len(loads) else None

    def _note(
        self, loads: list[tuple[str, str, Catalogue]], files: list[tuple[str, File]], refusals: Container[int]
    ) -> None:
        """Note what was loaded."""
        self._seen.update(files)
        for number, ((domain, locale, catalogue), (path, _)) in enumerate(zip(loads, files)):
            if number not in refusals:
                self._shown[domain, locale] = path
                (self._filled.add if has_messages(catalogue) else self._filled.discard)((domain, locale))

    def _opened(
        self, path: str, stamp: Stamp, refusals: list[FileRefused]
    ) -> tuple[Catalogue | None, File | None]:
        """Return the file's catalogue, unless it is refused or unchanged, and what was read.

        A file that has changed again meanwhile is neither, and is checked next time. So is one that can't be read now,
        as if descriptors have run out.
        """
        if self._is_older(path, stamp):
            return None, File(stamp, b"")
        try:
            data = Path(path).read_bytes()
        except OSError as fault:
            why = fault.strerror or str(fault)
            if stamp_of(path) == stamp and self._unread.get(path) != (stamp, why):
                self._unread[path] = stamp, why
                refusals.append(FileRefused(Path(path), 0, None, why))
            return None, None
        self._unread.pop(path, None)
        if stamp_of(path) != stamp:
            return None, None
        file = File(stamp, hashlib.sha256(data).digest())
        if self._is_shown(path, file):
            return None, file
        try:
            made = Catalogue.from_mo(data) if path.endswith(".mo") else Catalogue.from_po(data, *self._options)
        except Refused as refused:
            refusals.append(refusal_of(path, refused))
            return None, file
        if not self._allow_empty and names_of_path(path) in self._filled and not has_messages(made):
            refusals.append(FileRefused(Path(path), 0, None, EMPTY))
            return None, file
        return made, file

    def _is_shown(self, path: str, file: File) -> bool:
        """Return whether the file has the bytes that it had, and no file of the other format was loaded after it."""
        return path in self._seen and self._seen[path].digest == file.digest and other_of(path) not in self._seen

    def _is_older(self, path: str, stamp: Stamp) -> bool:
        """Return whether the file in the other format is shown, and was modified after this one."""
        other = other_of(path)
        found = stamp_of(other) if self._shown.get(names_of_path(path)) == other else None
        return found is not None and place_of(other, found) > place_of(path, stamp)

    def _call(self, file: FileRefused) -> None:
        try:
            self._report(file)
        except Exception:
            LOG.exception("the callback for %s failed", file)


def refusal_of(path: str, refused: Refused) -> FileRefused:
    return FileRefused(Path(path), refused.line, refused.fault, refused.text)


def other_of(path: str) -> str:
    """Return the path of the file in the other format."""
    return path[:-3] + (".po" if path.endswith(".mo") else ".mo")


def place_of(path: str, stamp: Stamp) -> tuple[int, bool]:
    """Return the place of a file in the order of loads, in which the last one counts."""
    return stamp.modified, path.endswith(".mo")


def names_of_path(path: str) -> tuple[str, str]:
    """Return the text domain and the locale of a file."""
    return Path(path).stem, Path(path).parts[-3]


def has_messages(catalogue: Catalogue) -> bool:
    """Return whether a catalogue has anything but a header."""
    return catalogue.count > 1 or catalogue.count == 1 and not catalogue.forms("")


def listed(folder: str | os.PathLike[str]) -> list[str]:
    """Return the names in a folder, or none if it can't be read."""
    with contextlib.suppress(OSError):
        return os.listdir(folder)
    return []


def stamp_of(path: str) -> Stamp | None:
    """Return a regular file's stamp, or None if there is no such file."""
    with contextlib.suppress(OSError):
        status = os.stat(path)
        if stat.S_ISREG(status.st_mode):
            return Stamp(status.st_mtime_ns, status.st_size, status.st_ino, status.st_ctime_ns)
    return None
