"""Catalogues that carry their number, a store in the process, and readers who check what they see."""
from __future__ import annotations

import contextlib
import threading
import time
from collections.abc import Callable
from typing import Any

import kobdzila
from kobdzila.fleet import Behind, Follower

PAIRS = (("app", "fr"), ("mail", "fr"))
KEYS = ("k0", "k1", "k2")
ROUNDS = 4  # how often a reader looks up all keys in a snapshot
NO_SESSION = "no catsession in the package nor on the PATH"


def has_catsession() -> bool:
    with contextlib.suppress(FileNotFoundError):
        kobdzila.Session().close()
        return True
    return False


def mo(number: int, messages: int = 3) -> bytes:
    """A catalogue whose translations carry a number."""
    text = "".join(f'msgid "k{at}"\nmsgstr "k{at} at {number}"\n\n' for at in range(messages))
    return kobdzila.Catalogue.from_po(text.encode()).mo_file()


def loads(number: int) -> list[tuple[str, str, bytes]]:
    """Both pairs with this number."""
    return [(*pair, mo(number)) for pair in PAIRS]


class View:
    """The catalogues of one version."""

    def __init__(self, version: int, shown: dict[tuple[str, str], kobdzila.Catalogue]) -> None:
        self.version, self._shown = version, shown

    def gettext(self, domain: str, locale: str, text: str) -> str:
        found = self._shown.get((domain, locale))
        return text if found is None else found.gettext(text)

    def numbers(self) -> set[str]:
        """The numbers that the texts of all pairs carry."""
        return {self.gettext(*pair, key).rpartition(" ")[2] for key in KEYS for pair in PAIRS}

    def __enter__(self) -> View:
        return self

    def __exit__(self, *exception: object) -> None:
        pass


class Catalogues:
    """A store of the process: a dict that is replaced."""

    def __init__(self) -> None:
        self._pending: list[tuple[tuple[str, str], kobdzila.Catalogue]] = []
        self._view = View(0, {})

    @property
    def version(self) -> int:
        return self._view.version

    def load(self, domain: str, locale: str, data: bytes) -> None:
        self._pending.append(((domain, locale), kobdzila.Catalogue.from_mo(data)))

    def publish(self) -> int:
        count, shown = len(self._pending), {**self._view._shown, **dict(self._pending)}
        self._pending, self._view = [], View(self._view.version + count, shown)
        return self._view.version

    def snapshot(self) -> View:
        return self._view


class NumberedSnapshot(kobdzila.Snapshot):
    """A snapshot of a kobdzila.Store, which tells its numbers."""

    __slots__ = ()

    def numbers(self) -> set[str]:
        """The numbers that the texts of all pairs carry."""
        return {self.dgettext(domain, key).rpartition(" ")[2] for key in KEYS for domain, _ in PAIRS}


class NumberedStore(kobdzila.Store):
    """A kobdzila.Store whose snapshots tell their numbers."""

    def snapshot(self, *_: Any, **__: Any) -> NumberedSnapshot:
        return NumberedSnapshot(self, *PAIRS[0])


class Asked:
    """What a session answers to the questions of one round, which are for one domain."""

    def __init__(self, session: kobdzila.Session, domain: str) -> None:
        self._session, self._domain, self.version = session, domain, session.version

    def numbers(self) -> set[str]:
        """The numbers that the texts of one pair carry."""
        answers = self._session.ask(self._domain, "fr", *(("gettext", key) for key in KEYS))
        return {answer.text.rpartition(" ")[2] for answer in answers}

    def __enter__(self) -> Asked:
        return self

    def __exit__(self, *exception: object) -> None:
        pass


class NumberedSession(kobdzila.Session):
    """A session whose snapshots tell their numbers, of one domain after the other."""

    asked = 0

    def snapshot(self) -> Asked:
        self.asked += 1
        return Asked(self, PAIRS[self.asked % len(PAIRS)][0])


STORES = {"catsession": NumberedSession, "Store": NumberedStore, "catalogues": Catalogues}


def kinds() -> list[str]:
    """The kinds of stores that this package has."""
    return [kind for kind in STORES if kind != "catsession" or has_catsession()]


def opened(kind: str) -> Any:
    """A store of a kind."""
    return STORES[kind]()


class Readers:
    """Threads that look up in a follower's store while it follows, and note what must not be."""

    def __init__(self, *followers: Follower) -> None:
        self.wrong: list[str] = []
        self.looks = 0
        self._end = threading.Event()
        self._threads = [threading.Thread(target=self._read, args=[it], daemon=True) for it in followers]
        for thread in self._threads:
            thread.start()

    def _read(self, follower: Follower) -> None:
        is_session = isinstance(follower.store, kobdzila.Session)
        last_version, last_number, epoch = 0, 0, ""
        while not self._end.wait(0.0005):
            try:
                with follower.snapshot(within=0.2) as texts:
                    version, seen = texts.version, [texts.numbers() for _ in range(ROUNDS)]
            except Behind:
                continue
            if version == 0 or is_session and follower.version.epoch != version.epoch:
                continue  # (a session has no snapshots: its answers may be of the next epoch)
            self.looks += ROUNDS * len(KEYS) * (1 if is_session else len(PAIRS))
            if any(len(numbers) != 1 for numbers in seen):
                self.wrong.append(f"{follower.machine}: half of a publish at {version}: {seen}")
                continue
            found = [int(numbers.pop()) for numbers in seen]
            if not is_session and len(set(found)) != 1:  # (a session has no snapshots: each round is of its version)
                self.wrong.append(f"{follower.machine}: a snapshot changed at {version}: {found}")
            if version.epoch != epoch:  # (the log was restored: its versions are others)
                last_version, last_number, epoch = 0, 0, version.epoch
            if version < last_version or sorted([last_number, *found]) != [last_number, *found]:
                before = f"{last_version} ({last_number})"
                self.wrong.append(f"{follower.machine}: back from {before} to {version} ({found})")
            last_version, last_number = version, found[-1]

    def close(self) -> None:
        self._end.set()
        for thread in self._threads:
            thread.join()


def until(what: Callable[[], Any], seconds: float = 100.0) -> Any:
    """Wait until something is so, and return it."""
    end = time.monotonic() + seconds
    while not (found := what()):
        if time.monotonic() > end:
            raise AssertionError("it didn't come to that in time")
        time.sleep(0.005)
    return found
