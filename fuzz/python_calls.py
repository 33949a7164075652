"""Calls of the extension module that bytes choose: which function of which object, with which arguments. The arguments
are texts, numbers and buffers, objects of wrong types, and objects whose methods call the module again in the middle of
a call (`__index__`, `__fspath__`, finalizers that the garbage collector runs).

A call may raise what its documentation says, and what Python raises for wrong arguments. Anything else ends the run.
"""
from __future__ import annotations

import copy
import gc
import io
import os
import sys
from importlib.machinery import BuiltinImporter, ModuleSpec
from typing import Any


class Builtin:
    """Finds the extension module in the program itself, where Python looks only for modules outside of packages."""

    @staticmethod
    def find_spec(name: str, path: object = None, target: object = None) -> ModuleSpec | None:
        return ModuleSpec(name, BuiltinImporter, origin="built-in") if name == "kobdzila._kobdzila" else None


sys.meta_path.insert(0, Builtin)

import kobdzila  # noqa: E402
from kobdzila import _kobdzila  # noqa: E402

ALLOWED = (TypeError, ValueError, OverflowError, AttributeError, LookupError, OSError, MemoryError, BufferError,
           RecursionError, RuntimeError, kobdzila.Refused)
MOST_STEPS = 60
MOST_NESTED = 3
KEPT = 8

HEADER = b'msgid ""\nmsgstr "Content-Type: text/plain; charset=UTF-8\\nPlural-Forms: nplurals=%d; plural=n%%%d;\\n"\n'
TEXTS = ("", "hi", "file", "files", "menu", "Open", "menu\4Open", "a\0b", "\udc80", "\u00e9\U0001f600", "x" * 300)
NUMBERS = (0, 1, 2, 5, -1, 2**31, 2**63, 2**64 - 1, 2**64, 2**200, True, 1.5)
NAMES = ("shop", "fr", "fr_CA", "fr_CA:de", "", "C", "a/b", "..", "x" * 65, "de")




def unraisable(raised: Any) -> None:
    """An exception in a finalizer: only one that the module must not raise counts."""
    if not isinstance(raised.exc_value, ALLOWED) or isinstance(raised.exc_value, SystemError):
        print(repr(raised.exc_value), file=sys.stderr)
        os.abort()


sys.unraisablehook = unraisable


class Text(str):
    """A str of a class of its own."""


class Number(int):
    """An int of a class of its own."""


def po_of(forms: int) -> bytes:
    """A PO text with this number of forms."""
    lines = [HEADER % (forms, forms), b'msgid "hi"\nmsgstr "salut"\n',
             b'msgctxt "menu"\nmsgid "Open"\nmsgstr "Ouvrir"\n', b'msgid "file"\nmsgid_plural "files"\n']
    return b"".join(lines + [b'msgstr[%d] "form %d"\n' % (it, it) for it in range(forms)])


class Session:
    """One input: what isn't used of it yet, and the objects so far."""

    def __init__(self, data: bytes) -> None:
        self.data, self.at, self.depth, self.steps = data, 0, 0, 0
        self.catalogues: list[Any] = [_kobdzila.Catalogue.from_po(po_of(2)), kobdzila.GNUTranslations()]
        self.stores: list[Any] = [_kobdzila.Store()]
        self.snapshots: list[Any] = []
        self.files: list[bytes] = [self.catalogues[0].mo_file()]

    # -- what the input chooses

    def byte(self) -> int:
        self.at += 1
        return self.data[self.at - 1] if self.at <= len(self.data) else 0

    def choice(self, among: Any) -> Any:
        return among[self.byte() % len(among)]

    def rest(self) -> bytes:
        """Some of the next bytes."""
        count = self.byte()
        self.at += count
        return self.data[self.at - count : self.at]

    def text(self) -> Any:
        kind = self.byte()
        if kind < 200:
            return TEXTS[kind % len(TEXTS)]
        return self.rest().decode(errors="surrogateescape") if kind < 230 else Text("hi") if kind < 245 else self.odd()

    def name(self) -> Any:
        kind = self.byte()
        return NAMES[kind % len(NAMES)] if kind < 230 else self.text()

    def number(self) -> Any:
        kind = self.byte()
        return NUMBERS[kind % len(NUMBERS)] if kind < 230 else Number(kind) if kind < 240 else self.odd()

    def buffer(self) -> Any:
        kind = self.byte()
        if kind < 100:
            return self.choice(self.files)
        data = self.rest() if kind < 150 else po_of(1 + kind % 30)
        return bytearray(data) if kind % 3 == 0 else memoryview(data)[::2] if kind % 17 == 0 else data

    def odd(self) -> Any:
        """An object of the wrong type, or one that calls the module in the middle of a call."""
        return self.choice((None, 3, "text", b"bytes", [], object(), self, Again(self), self.choice(self.catalogues)))

    def catalogue(self) -> Any:
        return self.choice(self.catalogues) if self.byte() < 240 else self.odd()

    # -- what is called

    def keep(self, pool: list[Any], made: Any) -> None:
        if len(pool) >= KEPT:
            del pool[self.byte() % KEPT]
        pool.append(made)

    def open(self) -> None:
        kind = self.choice((_kobdzila.Catalogue, kobdzila.Catalogue, kobdzila.GNUTranslations))
        how = self.byte() % 5
        if how == 0:
            made = kind.from_mo(self.buffer())
        elif how == 1:
            made = kind.from_po(self.buffer(), bool(self.byte() % 2), use_fuzzy=bool(self.byte() % 2))
        elif how == 2:
            made = kobdzila.GNUTranslations(io.BytesIO(bytes(self.buffer())))
        elif how == 3:
            made = self.catalogue()._share()
        else:
            path = self.choice((os.devnull, "/nowhere/x.mo", Again(self), b"/dev/null", 5))
            made = kind.open(path, po=bool(self.byte() % 2))
        self.keep(self.catalogues, made)

    def ask(self, of: Any) -> None:
        name = self.choice(("gettext", "pgettext", "ngettext", "npgettext"))
        words = [self.text() for _ in range({"gettext": 1, "pgettext": 2, "ngettext": 2, "npgettext": 3}[name])]
        if name.startswith("n"):
            words.append(self.number())
        if self.byte() > 250:
            words.append(self.odd())
        said = getattr(of, name)(*words)
        assert isinstance(said, str) or any(said is it for it in words) or of._fallback is not None, (name, said)

    def fall_back(self, of: Any, to: Any) -> None:
        """Give a catalogue a fallback, unless they would be a circle. A look-up in a circle recurses up to Python's
        limit; if a finalizer does so while Python makes the RecursionError, Python 3.11 ends (`Cannot recover from
        stack overflow`), and it does so for functions in Python as well."""
        it = to
        while isinstance(it, _kobdzila.Catalogue) and it is not of:
            it = it._fallback
        if it is not of:
            of._fallback = to

    def look(self) -> None:
        of = self.choice(self.catalogues)
        what = self.byte() % 8
        if what == 0:
            assert of.count >= 0
        elif what == 1:
            self.keep(self.files, of.mo_file())
        elif what == 2:
            context, msgid, plural, forms = of._entry(self.number())
            assert isinstance(msgid, str) and isinstance(forms, tuple) and forms
        elif what == 3:
            of._read_mo(self.buffer())
        elif what == 4:
            self.fall_back(of, self.choice((None, self.choice(self.catalogues), self.odd())))
        elif what == 5 and isinstance(of, kobdzila.Catalogue):
            for entry in of.entries():
                assert of._fallback is not None or "\0" in entry.msgid or of.forms(entry.msgid, entry.context)
        elif what == 6:
            self.keep(self.catalogues, copy.copy(of))
        else:
            of.__init__(*([io.BytesIO(bytes(self.buffer()))] if isinstance(of, kobdzila.GNUTranslations) else []))

    def store(self) -> None:
        store = self.choice(self.stores)
        what = self.byte() % 6
        if what == 0:
            store._load(self.name(), self.name(), self.catalogue())
        elif what == 1:
            assert store._publish() == store.version or self.depth
        elif what == 2:
            assert store.pending >= 0 and store.retained >= 0
        elif what == 3:
            self.keep(self.stores, self.choice((_kobdzila.Store, kobdzila.Store))())
        else:
            self.keep(self.snapshots, _kobdzila.Snapshot(store if what == 4 else self.odd(), self.name(), self.name()))

    def snapshot(self) -> None:
        if not self.snapshots:
            return
        of = self.choice(self.snapshots)
        what = self.byte() % 6
        if what == 0:
            of.close()
        elif what == 1:
            of.find(self.name(), self.name(), self.text(), self.choice((None, "menu", self.odd())), self.number())
        elif what == 2:
            assert of.version >= 0 and isinstance(of.domain, str) and isinstance(of.languages, str)
        elif what == 3:
            name = self.choice(("gettext", "ngettext", "pgettext", "npgettext"))
            words = [self.text() for _ in range(3 if name == "npgettext" else 1 if name == "gettext" else 2)]
            getattr(of, "d" + name)(self.name(), *words, *([self.number()] if name.startswith("n") else []))
        else:
            name = self.choice(("gettext", "ngettext"))
            getattr(of, name)(self.text(), *([self.text(), self.number()] if name == "ngettext" else []))

    def collect(self) -> None:
        """A cycle of garbage whose finalizer calls the module, and how soon it is collected."""
        gc.set_threshold(1 + self.byte() % 12)
        for _ in range(self.byte() % 4):
            it = Again(self)
            it.cycle = it

    def forget(self) -> None:
        pool = self.choice((self.catalogues, self.stores, self.snapshots, self.files))
        if len(pool) > 1 or pool is self.snapshots:
            del pool[self.byte() % max(1, len(pool)) :][:1]

    def step(self) -> None:
        """One call, and what it may raise."""
        self.steps += 1
        what = self.byte() % 16
        try:
            if what < 3:
                self.open()
            elif what < 6:
                self.ask(self.choice(self.catalogues))
            elif what < 10:
                self.look()
            elif what < 12:
                self.store()
            elif what < 14:
                self.snapshot()
            elif what == 14:
                self.collect()
            else:
                self.forget()
        except ALLOWED as raised:
            raised.__traceback__ = None

    def nested(self) -> None:
        """A call in the middle of another one."""
        if self.depth < MOST_NESTED and self.steps < MOST_STEPS:
            self.depth += 1
            self.step()
            self.depth -= 1


class Again:
    """An object whose methods call the module."""

    def __init__(self, session: Session) -> None:
        self.session = session

    def __index__(self) -> int:
        self.session.nested()
        return 1

    def __fspath__(self) -> str:
        self.session.nested()
        return os.devnull

    def __eq__(self, other: object) -> bool:
        self.session.nested()
        return True

    def __hash__(self) -> int:
        self.session.nested()
        return 1

    def __bool__(self) -> bool:
        self.session.nested()
        return True

    def gettext(self, message: Any) -> Any:
        self.session.nested()
        return message

    def ngettext(self, one: Any, more: Any, n: Any) -> Any:
        self.session.nested()
        return one

    def __del__(self) -> None:
        self.session.nested()


def run(data: bytes) -> None:
    """The calls that these bytes choose."""
    gc.set_threshold(700, 10, 10)
    session = Session(data)
    while session.at < len(data) and session.steps < MOST_STEPS:
        session.step()
    session.steps = MOST_STEPS
    gc.set_threshold(700, 10, 10)
    session.catalogues.clear()
    session.stores.clear()
    session.snapshots.clear()
