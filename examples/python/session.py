"""gettext and related look-ups by one process `catsession`, from any number of threads.

    with Session() as session:
        session.load("shop", "fr", open("fr.po", "rb").read())
        session.publish()
        answer = session.gettext("shop", "fr_CA:de", "basket")
        print(answer.text, answer.version)

A name with a tab or an LF, a negative number and a PO text that isn't UTF-8 raise a ValueError. Nothing of them is sent, and
the session goes on.
"""
from __future__ import annotations

import re
import subprocess
import threading
from typing import NamedTuple

MOST_LINES = 67_108_864 - len(b"go\n")  # the bytes that a round may have before its `go`
TEXTS = {"gettext": 1, "pgettext": 2, "ngettext": 3, "npgettext": 4}
ESCAPES = str.maketrans({"\\": r"\\", "\n": r"\n", "\t": r"\t"})


class Answer(NamedTuple):
    version: int  # how many loads were published
    text: str


class Refusal(NamedTuple):
    domain: str
    locale: str
    fault: int | None  # its number; None if the domain or the locale isn't a name
    line: int | None  # of a PO text


class LoadRefused(Exception):
    """Some loads of a publish were refused. The others are published, as `version`."""

    def __init__(self, version, refusals):
        super().__init__("; ".join(f"{it.locale} in {it.domain}: fault {it.fault}, line {it.line}" for it in refusals))
        self.version, self.refusals = version, refusals
        self.fault, self.line = refusals[0].fault, refusals[0].line


class SessionEnded(Exception):
    """The process has ended; the message is what it wrote to standard error."""


class Session:
    def __init__(self, program="catsession"):
        pipe = subprocess.PIPE
        self._process = subprocess.Popen([program, "--workers", "1"], stdin=pipe, stdout=pipe, stderr=pipe)
        self._lock = threading.Lock()
        self._loads = []  # what waits for `publish`: domain, locale, and the lines that load it
        self._ended = None

    def load(self, domain, locale, po, options="-"):
        """Keeps a PO text for the next publish. The options: `-`, `c` (check it), `f` (use fuzzy messages) or `cf`."""
        if options not in ("-", "c", "f", "cf"):
            raise ValueError(f"no such options: {options}")
        text = po if po.endswith(b"\n") or not po else po + b"\n"
        text.decode()
        self._keep(domain, locale, _line("load", domain, locale, options, text.count(b"\n")) + text)

    def load_mo(self, domain, locale, mo):
        """Keeps an MO file for the next publish."""
        self._keep(domain, locale, _line("loadmo", domain, locale, mo.hex()))

    def _keep(self, domain, locale, lines):
        with self._lock:
            _see_size([*(kept for _, _, kept in self._loads), lines])
            self._loads.append((domain, locale, lines))

    def publish(self):
        """Publishes the loads that were kept, in one step, and returns their version. LoadRefused names those refused."""
        with self._lock:
            loads, self._loads = self._loads, []
            *told, (_, version) = self._play([lines for _, _, lines in loads], len(loads) + 1)
        refusals = [_refusal(load, line) for load, line in zip(loads, told) if line[0].startswith("refused")]
        if refusals:
            raise LoadRefused(int(version), refusals)
        return int(version)

    def ask(self, domain, languages, *questions):
        """Answers several questions, all from one version. A question is ("ngettext", "file", "files", 2)."""
        asks = [_question(domain, languages, *question) for question in questions]
        _see_size(asks)
        with self._lock:
            _, *told = self._play(asks, 1 + len(asks))
        return [Answer(int(version), _unescaped(text)) for _, version, text in told]

    def gettext(self, domain, languages, text):
        return self.ask(domain, languages, ("gettext", text))[0]

    def pgettext(self, domain, languages, context, text):
        return self.ask(domain, languages, ("pgettext", context, text))[0]

    def ngettext(self, domain, languages, text, plural, n):
        return self.ask(domain, languages, ("ngettext", text, plural, n))[0]

    def npgettext(self, domain, languages, context, text, plural, n):
        return self.ask(domain, languages, ("npgettext", context, text, plural, n))[0]

    def _play(self, lines, count):
        """Sends a round, and returns the fields of the `count` lines that it writes."""
        if self._ended is not None:
            raise SessionEnded(self._ended)
        try:
            self._process.stdin.write(b"".join([*lines, b"go\n"]))
            self._process.stdin.flush()
            told = [self._process.stdout.readline() for _ in range(count)]
        except BrokenPipeError:
            told = [b""]
        except BaseException:
            self._end("interrupted in a round", self._process.kill)
            raise
        if not told[-1].endswith(b"\n"):
            self._end("it ended")
            raise SessionEnded(self._ended)
        return [line[:-1].decode().split("\t") for line in told]

    def _end(self, why, first=lambda: None):
        first()
        _, said = self._process.communicate()
        self._ended = said.decode(errors="replace").strip() or why

    def close(self):
        with self._lock:
            if self._ended is None:
                self._end("closed")

    def __enter__(self):
        return self

    def __exit__(self, *_):
        self.close()


def _see_size(lines):
    if sum(map(len, lines)) > MOST_LINES:
        raise ValueError(f"more than {MOST_LINES} bytes for one round")


def _line(*fields):
    texts = [str(field) for field in fields]
    if any("\t" in text or "\n" in text for text in texts):
        raise ValueError(f"a tab or an LF in a name: {texts}")
    return "\t".join(texts).encode() + b"\n"


def _question(domain, languages, call, *texts):
    if len(texts) != TEXTS[call]:
        raise ValueError(f"{call} takes {TEXTS[call]} texts")
    if call in ("ngettext", "npgettext") and not 0 <= texts[-1] < 2**64:
        raise ValueError(f"{texts[-1]} is no number from 0 to 2^64 - 1")
    return _line("ask", 0, domain, languages, call, *(str(text).translate(ESCAPES) for text in texts))


def _unescaped(text):
    return re.sub(r"\\(.)", lambda found: {"n": "\n", "t": "\t"}.get(found[1], found[1]), text)


def _refusal(load, line):
    numbers = [None if field == "name" else int(field) for field in line[1:]]
    return Refusal(load[0], load[1], *numbers, *[None] * (2 - len(numbers)))
