"""Compiles PO files to MO files: one at a time, or all of a project."""
from __future__ import annotations

import os
import re
import stat
from collections import namedtuple
from collections.abc import Iterator, Sequence

from . import _kobdzila
from ._catalogue import Catalogue
from ._processes import MOST_PIECES, done_by
from ._refused import Fault, Refused

TYPE_CHECKING = False  # (the module typing takes longer to import than some projects to compile)
if TYPE_CHECKING:
    from typing import NamedTuple

    class Job(NamedTuple):
        """A PO file, and the MO file to write."""

        po: str
        mo: str

    class Options(NamedTuple):
        """How to compile PO files."""

        checked: bool = False
        use_fuzzy: bool = False
        statistics: bool = False
        dry_run: bool = False

    class CountFields(NamedTuple):
        messages: int
        translated: int
        fuzzy: int

    class DoneFields(NamedTuple):
        job: Job
        line: int = 0
        fault: str = ""
        counts: Counts | None = None

    Plain = tuple[int, str, tuple[int, int, int] | None]
else:
    Job = namedtuple("Job", "po mo")
    Options = namedtuple("Options", "checked use_fuzzy statistics dry_run", defaults=(False,) * 4)
    CountFields = namedtuple("CountFields", "messages translated fuzzy")
    DoneFields = namedtuple("DoneFields", "job line fault counts", defaults=(0, "", None))

BYTE_ORDER_MARK = b"\xef\xbb\xbf"
LEAST_JOBS, MOST_AT_ONCE = 16, 32  # files for which a process is started, and that it takes at a time
TOKEN = re.compile(rb'"(?:[^"\\\n]|\\.)*"|#[^\n]*|\bmsgid\b(?!_)')


def compile_po(data: _kobdzila.Buffer, *, checked: bool = False, use_fuzzy: bool = False) -> bytes:
    """Compile a PO file, given as the bytes-like object `data`, and return the bytes of its MO file.

    `checked` runs the checks of `msgfmt -c`, and compares the arguments of messages flagged python-format or
    python-brace-format with those of their translations. `use_fuzzy` also keeps fuzzy messages. Raise Refused, with the
    fault, its line and a description, if the file is refused.

    >>> import kobdzila
    >>> file = kobdzila.compile_po('msgid "basket"\\nmsgstr "panier"\\n'.encode())
    >>> kobdzila.GNUTranslations(file).gettext("basket")
    'panier'
    >>> try:
    ...     kobdzila.compile_po(b'#, python-format\\nmsgid "%(n)d"\\nmsgstr "%(m)d"\\n', checked=True)
    ... except kobdzila.Refused as refused:
    ...     print(refused)
    line 2: msgstr takes 'm', which the message doesn't
    """
    return compiled(data, checked, use_fuzzy).mo_file()


def compiled(data: _kobdzila.Buffer, checked: bool, use_fuzzy: bool) -> Catalogue:
    """Return the catalogue of a PO file that passes all checks."""
    if bytes(memoryview(data)[:3]) == BYTE_ORDER_MARK:
        raise Refused(Fault.PO_BAD_WORD, 1, "the file begins with a byte order mark: save it as UTF-8 without one")
    catalogue = Catalogue.from_po(data, checked, use_fuzzy)
    if checked:
        from ._formats import first_mismatch

        wrong = first_mismatch(bytes(data), use_fuzzy)
        if wrong:
            raise Refused(Fault.PO_FORMAT_MISMATCH, wrong.line, wrong.text)
    return catalogue


class Counts(CountFields):
    """How many messages a PO file has, not counting the header, and how many are translated and fuzzy."""

    __slots__ = ()

    def __str__(self) -> str:
        part = self.translated * 100 // self.messages if self.messages else 0
        fuzzy = f", {self.fuzzy} fuzzy" if self.fuzzy else ""
        return f"{self.translated} of {self.messages} messages ({part}%) translated{fuzzy}"


class Done(DoneFields):
    """The result of a job: `fault` says why there is no new MO file, with the line if there is one."""

    __slots__ = ()

    def __str__(self) -> str:
        return f"{self.job.po}:{self.line}: {self.fault}" if self.line else f"{self.job.po}: {self.fault}"


def compile_all(jobs: Sequence[Job], options: Options, processes: int) -> Iterator[Done]:
    """Compile PO files, each once, in up to this many processes, and yield the results as they come.

    A few files are compiled in this process, since starting others takes longer. Ended if another process is ended.
    """
    processes = min(processes, len(jobs) // LEAST_JOBS)
    if processes < 2:
        for job in jobs:
            yield compile_file(job, options)
        return
    size = max(1, min(MOST_AT_ONCE, len(jobs) // (16 * processes)), -(-len(jobs) // MOST_PIECES))
    pieces = [jobs[at:at + size] for at in range(0, len(jobs), size)]

    def work(number: int) -> list[Plain]:
        return [plain(compile_file(job, options)) for job in pieces[number]]

    for number, results in done_by(processes, len(pieces), work):
        for job, it in zip(pieces[number], results):
            yield done_of(job, it)


def plain(done: Done) -> Plain:
    """Return what a job resulted in by plain tuples, which go to another process."""
    counts = done.counts
    return done.line, done.fault, counts and (counts.messages, counts.translated, counts.fuzzy)


def done_of(job: Job, found: Plain) -> Done:
    line, fault, counts = found
    return Done(job, line, fault, counts and Counts(*counts))


def compile_file(job: Job, options: Options) -> Done:
    """Compile a PO file. If it is refused, the MO file stays as it is."""
    try:
        with open(job.po, "rb") as file:
            data = file.read()
        catalogue = compiled(data, options.checked, options.use_fuzzy)
        if not options.dry_run:
            replace(job.mo, catalogue.mo_file())
        return Done(job, counts=counts_of(data, options.use_fuzzy, catalogue) if options.statistics else None)
    except Refused as refused:
        return Done(job, refused.line, refused.text)
    except OSError as fault:
        name = f"{fault.filename}: " if fault.filename not in (None, job.po) else ""
        return Done(job, 0, f"{name}{fault.strerror or fault}")
    except MemoryError:
        return Done(job, 0, "out of memory")


def replace(path: str, data: bytes) -> None:
    """Write a file. A new or regular one is replaced in one step, also by a link to it, and keeps its mode. A pipe or a
    device is written as it is."""
    try:
        old = os.stat(path)
    except FileNotFoundError:
        old = None
    if old is None or stat.S_ISREG(old.st_mode):
        replace_regular(os.path.realpath(path) if os.path.islink(path) else path, data, old)
    else:
        write_all(os.open(path, os.O_WRONLY | os.O_CLOEXEC | os.O_NOCTTY), data)


def replace_regular(path: str, data: bytes, old: os.stat_result | None) -> None:
    folder, name = os.path.split(path)
    # (no process number: a killed run, or one of another container, may have had the same)
    new = os.path.join(folder, f".{name}.{os.urandom(8).hex()}.new")
    try:
        mode = 0o666 if old is None else 0o600  # (the latter until it has that of the old file)
        write_all(os.open(new, os.O_WRONLY | os.O_CREAT | os.O_EXCL | os.O_CLOEXEC, mode), data)
        if old is not None:
            dress(new, old)
        os.replace(new, path)
    except BaseException as fault:
        try:
            os.unlink(new)
        except OSError:
            pass
        if isinstance(fault, OSError):
            fault.filename = path  # (nobody has heard of the other one)
        raise


def dress(path: str, old: os.stat_result) -> None:
    """Give a file the owner, the group and the mode of the one that it replaces, as far as this process may."""
    now, mode = os.stat(path), stat.S_IMODE(old.st_mode)
    if (now.st_uid, now.st_gid) != (old.st_uid, old.st_gid):
        try:
            os.chown(path, old.st_uid, old.st_gid)
        except OSError:
            mode = mode_without_owner(path, old, mode & 0o777)
    os.chmod(path, mode)


def mode_without_owner(path: str, old: os.stat_result, mode: int) -> int:
    """Give a file the group of the one that it replaces. If this process may not, the new group may do what everybody
    may."""
    try:
        os.chown(path, -1, old.st_gid)
    except OSError:
        return mode & (0o707 | (mode & 0o7) << 3)
    return mode


def write_all(file: int, data: bytes) -> None:
    """Write an open file, and close it."""
    try:
        rest = memoryview(data)
        while rest:
            rest = rest[os.write(file, rest):]
    finally:
        os.close(file)


def counts_of(data: bytes, use_fuzzy: bool, catalogue: Catalogue) -> Counts:
    """Return the counts of a PO file that compiles."""
    messages = sum(token == b"msgid" for token in TOKEN.findall(data))
    header = 1 if catalogue.forms("") or re.search(rb'^msgid\s+""\s*\nmsgstr', data, re.M) else 0
    own = catalogue.count - len(catalogue.forms("")[:1])
    if use_fuzzy:
        plain = Catalogue.from_po(data)
        return Counts(messages - header, own, own - (plain.count - len(plain.forms("")[:1])))
    whole = Catalogue.from_po(data, use_fuzzy=True)
    return Counts(messages - header, own, whole.count - len(whole.forms("")[:1]) - own)
