"""Look-ups through a catsession process, from any number of threads, while catalogues are replaced."""
from __future__ import annotations

import os
import re
import shutil
import subprocess
import threading
from binascii import hexlify
from collections.abc import Callable, Sequence
from pathlib import Path
from typing import NamedTuple

from . import _forks
from ._closing import Closing

MOST_LINES = 67_108_864 - len(b"go\n")  # the bytes that a round may have before its `go`
TEXTS = {"gettext": 1, "pgettext": 2, "ngettext": 3, "npgettext": 4}
ESCAPES = str.maketrans({"\\": r"\\", "\n": r"\n", "\t": r"\t"})
UNESCAPED = {"n": "\n", "t": "\t"}
MO_MAGIC = (b"\xde\x12\x04\x95", b"\x95\x04\x12\xde")  # no text in UTF-8 begins so
FORKED = "the process catsession is the parent's: start a session in the forked child"
BUNDLED = Path(__file__).with_name("bin") / "catsession"


class Answer(NamedTuple):
    """An answer, and its version."""

    version: int
    text: str


class Refusal(NamedTuple):
    """Why a load was refused. `fault` is None if the domain or the locale isn't a name."""

    domain: str
    locale: str
    fault: int | None
    line: int | None


class LoadRefused(Exception):
    """Some loads of a publish were refused. The others are published, as `version`."""

    version: int
    refusals: Sequence[Refusal]

    def __init__(self, version: int, refusals: Sequence[Refusal]) -> None:
        super().__init__(version, refusals)
        self.version, self.refusals = version, refusals
        self.fault, self.line = refusals[0].fault, refusals[0].line

    def __str__(self) -> str:
        return "; ".join(f"{it.locale} in {it.domain}: fault {it.fault}, line {it.line}" for it in self.refusals)


class SessionEnded(Exception):
    """The process has ended. The text is what it wrote to standard error."""


class Calls:
    """The four calls of gettext, each asked by `ask`."""

    def ask(self, domain: str, languages: str, *questions: tuple[str | int, ...]) -> list[Answer]:
        """Return the answers to several questions."""
        raise NotImplementedError

    def gettext(self, domain: str, languages: str, text: str) -> Answer:
        """Return the translation of `text`."""
        return self.ask(domain, languages, ("gettext", text))[0]

    def pgettext(self, domain: str, languages: str, context: str, text: str) -> Answer:
        """Return the translation of `text` in `context`."""
        return self.ask(domain, languages, ("pgettext", context, text))[0]

    def ngettext(self, domain: str, languages: str, text: str, plural: str, n: int) -> Answer:
        """Return the plural form for `n`."""
        return self.ask(domain, languages, ("ngettext", text, plural, n))[0]

    def npgettext(self, domain: str, languages: str, context: str, text: str, plural: str, n: int) -> Answer:
        """Return the plural form for `n` of a message in `context`."""
        return self.ask(domain, languages, ("npgettext", context, text, plural, n))[0]


class Session(Closing, Calls):
    """A catsession process. Any number of threads may look up in it.

    `program` is the path of catsession. The default is the one in this package, or else the one on the PATH.

    A name with a tab or an LF, a number that isn't from 0 to 2**64 - 1, and a PO text that isn't UTF-8 raise
    ValueError. Nothing is sent then, and the session stays usable. In a forked child the session has ended, since the
    process belongs to the parent. Start another one there.

        with kobdzila.Session() as session:
            session.load("shop", "fr", Path("fr.po").read_bytes())
            session.publish()
            print(session.gettext("shop", "fr_CA:de", "basket").text)
    """

    def __init__(self, program: str | os.PathLike[str] | None = None) -> None:
        self._program = program
        self._start()
        _forks.register(self)

    def _start(self) -> None:
        """Start the process, which has no catalogues yet."""
        self._process = subprocess.Popen(
            [self._program or _program(), "--workers", "1"],
            stdin=subprocess.PIPE,
            stdout=subprocess.PIPE,
            stderr=subprocess.PIPE,
        )
        assert self._process.stdin is not None and self._process.stdout is not None
        self._to, self._from = self._process.stdin, self._process.stdout
        self._lock = threading.Lock()
        self._loads: list[tuple[str, str, bytes]] = []  # for the next publish: domain, locale, and the lines
        self._size = 0  # bytes of these lines
        self._ended: str | None = None
        self._version = 0

    def _fork_locks(self) -> list[threading.Lock]:
        return [self._lock]  # (so no round is under way, and the pipes' buffers are empty)

    def _forked(self) -> None:
        """Leave the pipes to the parent, which owns the process. `_start` gives the child one of its own."""
        self._lock = threading.Lock()
        if self._ended is None:
            self._ended = FORKED
            nowhere = os.open(os.devnull, os.O_RDWR)
            for pipe in (self._process.stdin, self._process.stdout, self._process.stderr):
                if pipe is not None:
                    os.dup2(nowhere, pipe.fileno(), inheritable=False)
            os.close(nowhere)
            self._process.returncode = 0  # (nobody waits for another's child)

    @property
    def version(self) -> int:
        """The number of loads published so far; refused ones don't count."""
        return self._version

    def load(self, domain: str, locale: str, po: bytes, options: str = "-") -> None:
        """Keep a PO text, or an MO file, for the next publish.

        `options` is for a PO text: `-`, `c` (checked), `f` (with fuzzy messages) or `cf`.
        """
        if options not in ("-", "c", "f", "cf"):
            raise ValueError(f"no such options: {options}")
        if po.startswith(MO_MAGIC):
            self.load_mo(domain, locale, po)
            return
        text = po if po.endswith(b"\n") or not po else po + b"\n"
        text.decode()
        self._keep(domain, locale, _line("load", domain, locale, options, text.count(b"\n")) + text)

    def load_mo(self, domain: str, locale: str, mo: bytes) -> None:
        """Keep an MO file for the next publish."""
        self._keep(domain, locale, b"%s\t%s\n" % (_fields("loadmo", domain, locale), hexlify(mo)))

    def publish(self) -> int:
        """Publish the loads that were kept, in one step, and return the version. LoadRefused lists the refused ones."""
        with self._lock:
            loads, self._loads, self._size = self._loads, [], 0
            *reported, (_, version) = self._play([lines for _, _, lines in loads], len(loads) + 1)
            self._version = int(version)
        refusals = [_refusal(load, line) for load, line in zip(loads, reported) if line[0].startswith("refused")]
        if refusals:
            raise LoadRefused(int(version), refusals)
        return int(version)

    def ask(self, domain: str, languages: str, *questions: tuple[str | int, ...]) -> list[Answer]:
        """Return the answers to several questions, all of one version, such as ("ngettext", "file", "files", 2)."""
        lines = [_question(domain, languages, *question) for question in questions]
        _check_size(sum(map(len, lines)))
        _, reported = self._answer(lines)
        return [Answer(int(version), _unescaped(text)) for _, version, text in reported]

    def close(self) -> None:
        """End the process."""
        with self._lock:
            if self._ended is None:
                self._end("closed")

    def _keep(self, domain: str, locale: str, lines: bytes) -> None:
        with self._lock:
            size = self._size + len(lines)
            _check_size(size)
            self._loads.append((domain, locale, lines))
            self._size = size

    def _answer(self, lines: list[bytes]) -> tuple[int, list[list[str]]]:
        """Send a round of questions, and return the version and the fields of each answer."""
        with self._lock:
            (_, version), *reported = self._play(lines, 1 + len(lines))
        return int(version), reported

    def _play(self, lines: list[bytes], count: int) -> list[list[str]]:
        """Send a round, and return the fields of the `count` lines that it writes."""
        if self._ended is not None:
            raise SessionEnded(self._ended)
        try:
            self._to.write(b"".join([*lines, b"go\n"]))
            self._to.flush()
            reported = [self._from.readline() for _ in range(count)]
        except BrokenPipeError:
            reported = [b""]
        except BaseException:
            self._end("interrupted in a round", self._process.kill)
            raise
        if not reported[-1].endswith(b"\n"):
            raise SessionEnded(self._end("it ended"))
        return [line[:-1].decode().split("\t") for line in reported]

    def _end(self, why: str, first: Callable[[], object] = lambda: None) -> str:
        first()
        _, text = self._process.communicate()
        self._ended = text.decode(errors="replace").strip() or why
        return self._ended


def _program() -> str:
    """Return the path of catsession."""
    found = str(BUNDLED) if os.access(BUNDLED, os.X_OK) else shutil.which("catsession")
    if found is None:
        raise FileNotFoundError("no catsession: it is neither in this package nor on the PATH")
    return found


def _check_size(size: int) -> None:
    if size > MOST_LINES:
        raise ValueError(f"more than {MOST_LINES} bytes for one round")


def _fields(*fields: str | int) -> bytes:
    texts = [str(field) for field in fields]
    if any("\t" in text or "\n" in text for text in texts):
        raise ValueError(f"a tab or an LF in a name: {texts}")
    return "\t".join(texts).encode()


def _line(*fields: str | int) -> bytes:
    return _fields(*fields) + b"\n"


def _question(domain: str, languages: str, call: str | int, *texts: str | int) -> bytes:
    call = str(call)
    if len(texts) != TEXTS[call]:
        raise ValueError(f"{call} takes {TEXTS[call]} texts")
    n = texts[-1]
    if call in ("ngettext", "npgettext"):
        if not (isinstance(n, int) and 0 <= n < 2**64):
            raise ValueError(f"{n} is not a number from 0 to 2^64 - 1")
        texts = *texts[:-1], int(n)  # (True and the members of an enum have other texts)
    return _line("ask", 0, domain, languages, call, *(str(text).translate(ESCAPES) for text in texts))


def _unescaped(text: str) -> str:
    return re.sub(r"\\(.)", lambda found: UNESCAPED.get(found[1], found[1]), text)


def _refusal(load: tuple[str, str, bytes], line: list[str]) -> Refusal:
    numbers = [None if field == "name" else int(field) for field in line[1:]]
    fault, line_number = [*numbers, None, None][:2]
    return Refusal(load[0], load[1], fault, line_number)
