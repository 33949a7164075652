"""`python -m kobdzila compile`: compiles the PO files of a project, with the options of pybabel and of Django."""
from __future__ import annotations

import argparse
import contextlib
import os
import re
import sys
import time
from collections.abc import Iterable, Iterator, Sequence

from . import _kobdzila
from ._compile import Done, Job, Options, compile_all
from ._processes import Ended

TYPE_CHECKING = False
if TYPE_CHECKING:
    from typing import Any, TextIO

    Listed = os.DirEntry[str]

PROGRAM = "python -m kobdzila"
FOLDER, END, END_OF_MO = "LC_MESSAGES", ".po", ".mo"
WIDTH, PAUSE = 30, 0.05  # of the progress bar: its columns, and the seconds between two pictures of it
EPILOG = """\
examples:
  python -m kobdzila compile                        every locale/LOCALE/LC_MESSAGES/*.po below this folder,
                                                    as Django's compilemessages
  python -m kobdzila compile -d locale -D shop      locale/LOCALE/LC_MESSAGES/shop.po, as pybabel compile
  python -m kobdzila compile -i fr.po -o fr.mo      one file
  python -m kobdzila compile --check -n fr.po       only check it

A file that is refused is reported at the end, as FILE:LINE: REASON. Its MO file stays as it was, and the status is 1.
"""


class Usage(Exception):
    """Options that don't fit together, or that name nothing."""


def main(words: Sequence[str] | None = None) -> int:
    """Run a command and return its status: 0, 1 if a file was refused, or 2 for wrong options."""
    parser = argparse.ArgumentParser(prog=PROGRAM, description="Message catalogues of GNU gettext.")
    parser.add_argument("--version", action="version", version=f"kobdzila {_kobdzila.version}")
    command = add_compile(parser.add_subparsers(dest="command", required=True, metavar="compile", prog=parser.prog))
    asked = parser.parse_args(words)
    try:
        jobs = sorted(set(jobs_of(asked)))
    except Usage as usage:
        command.error(str(usage))
    try:
        return run(jobs, asked)
    except Ended:
        why = "a process that compiled was ended from outside: if memory ran out, try --jobs 1"
        printed(sys.stderr, [f"{PROGRAM}: {why}"])
        return 1
    except KeyboardInterrupt:
        return 130


def add_compile(commands: Any) -> argparse.ArgumentParser:
    parser: argparse.ArgumentParser = commands.add_parser(
        "compile", help="compile PO files to MO files", description="Compile PO files to MO files, in parallel.",
        epilog=EPILOG, formatter_class=argparse.RawDescriptionHelpFormatter)
    add = parser.add_argument
    add("files", nargs="*", metavar="FILE.po", help="PO files, each compiled next to itself")
    add("-d", "--directory", type=not_empty, metavar="DIR", help=f"compile DIR/LOCALE/{FOLDER}/*.po")
    add("-D", "--domain", type=not_empty, action="append", default=[],
        help="only these domains, separated by spaces or commas")
    add("-l", "--locale", type=not_empty, action="append", default=[], help="only this locale; may be repeated")
    add("-x", "--exclude", action="append", default=[], metavar="LOCALE", help="not this locale; may be repeated")
    add("-i", "--input-file", action="append", default=[], metavar="FILE",
        help="one PO file, with -o, or with -d and -l; without these the same as --ignore")
    add("--ignore", action="append", default=[], metavar="PATTERN", help="skip folders with such names")
    add("-o", "--output-file", type=not_empty, metavar="FILE", help="the MO file, for -i")
    add("-f", "--use-fuzzy", action="store_true", help="also compile fuzzy messages")
    add("--check", action="store_true", help="run the checks of msgfmt -c, and those of Python's formats")
    add("--statistics", action="store_true", help="print the number of translated messages of each file")
    add("-n", "--dry-run", action="store_true", help="write nothing")
    add("-j", "--jobs", type=int, default=os.cpu_count() or 1, metavar="N", help="files at a time (default: processors)")
    add("-q", "--quiet", action="store_true", help="print refusals only")
    add("-v", "--verbose", action="store_true", help="print the name of each file")
    return parser


def not_empty(text: str) -> str:
    """Return the value of an option. An empty one, as of a variable that isn't set, would be taken for no option."""
    if not text.strip(", "):
        raise argparse.ArgumentTypeError("it is empty")
    return text


# --- which files ------------------------------------------------------------------------------------------------------


def jobs_of(asked: argparse.Namespace) -> Iterator[Job]:
    """Yield the jobs that the options name. Usage if there are none, or if an option would be ignored."""
    if asked.jobs < 1:
        raise Usage("-j takes a number of files from 1 on")
    if asked.output_file or asked.input_file and asked.directory:
        return iter([named_job(asked)])
    if asked.files:
        refuse_options(asked, "are for folders, and not for FILE.po", "directory", "domain", "locale", "exclude",
                       "input_file", "ignore")
        return (Job(path, f"{os.path.splitext(path)[0]}.mo") for path in asked.files)
    found = list(jobs_in(folders_of(asked), asked))
    if not found:
        where = asked.directory or "a folder named locale here or below"
        given = {it: ",".join(getattr(asked, it)) for it in ("domain", "locale", "exclude")}
        chosen = " and ".join(f"--{it} {names}" for it, names in given.items() if names)
        where += f" for {chosen}" if chosen else ""
        raise Usage(f"no PO files in {where}: name the folder with -d DIR, in which DIR/LOCALE/{FOLDER}/DOMAIN.po are")
    return iter(found)


def refuse_options(asked: argparse.Namespace, why: str, *names: str) -> None:
    """Raise Usage if one of these options was given."""
    given = ["--" + name.replace("_", "-") for name in names if getattr(asked, name)]
    if given:
        raise Usage(f"{' and '.join(given)} {why}")


def named_job(asked: argparse.Namespace) -> Job:
    """Return the job of pybabel's -i."""
    inputs = [*asked.input_file, *asked.files]
    if len(inputs) != 1:
        raise Usage("-o, or -i with -d, is for one PO file: name it with -i FILE")
    refuse_options(asked, "are for folders, and not for one file", "exclude", "ignore")
    if asked.output_file:
        return Job(inputs[0], asked.output_file)
    domains = domains_of(asked.domain) or ["messages"]
    if len(asked.locale) != 1 or len(domains) != 1:
        raise Usage("-i and -d name the MO file with one -l LOCALE and one -D DOMAIN, or give its name with -o FILE")
    return Job(inputs[0], os.path.join(asked.directory, asked.locale[0], FOLDER, f"{domains[0]}.mo"))


def domains_of(words: Iterable[str]) -> list[str]:
    return [name for word in words for name in re.split("[, ]+", word) if name]


def folders_of(asked: argparse.Namespace) -> Iterable[str]:
    """Return the folders of locales: the one given, or those that Django searches."""
    if asked.directory:
        if not os.path.isdir(asked.directory):
            raise Usage(f"there is no folder {asked.directory}")
        return [asked.directory]
    ignored = [pattern[:-2] if pattern.endswith("/*") else pattern for pattern in [*asked.input_file, *asked.ignore]]
    found, below = {"conf/locale", "locale", *paths_of_django()}, ["."]
    for where in below:
        folders = [it for it in listed(where)[0] if it.name != FOLDER and not is_ignored(where, it.name, ignored)]
        found.update(it.path for it in folders if it.name == "locale")
        below += (it.path for it in folders if not it.is_symlink())
    return sorted({os.path.normpath(it) for it in found if os.path.isdir(it)})


def listed(folder: str) -> tuple[list[Listed], list[Listed]]:
    """Return the folders in a folder, and its other entries: none if it can't be read. (os.walk takes twice the time.)"""
    folders: list[Listed] = []
    others: list[Listed] = []
    try:
        with os.scandir(folder) as entries:
            for it in entries:
                (folders if is_folder(it) else others).append(it)
    except OSError:
        pass
    return folders, others


def is_folder(entry: Listed) -> bool:
    try:
        return entry.is_dir()
    except OSError:
        return False


def is_ignored(where: str, name: str, patterns: Sequence[str]) -> bool:
    if not patterns:
        return False
    import fnmatch

    path = os.path.normpath(os.path.join(where, name))
    return any(fnmatch.fnmatchcase(name, it) or fnmatch.fnmatchcase(path, it) for it in patterns)


def paths_of_django() -> list[str]:
    """Return LOCALE_PATHS of the Django settings that the environment names."""
    if not os.environ.get("DJANGO_SETTINGS_MODULE"):
        return []
    import importlib

    sys.path.insert(0, os.getcwd())
    try:
        settings: Any = getattr(importlib.import_module("django.conf"), "settings")
        return [os.fspath(it) for it in settings.LOCALE_PATHS]
    except Exception as fault:  # (the settings are a program, which may raise any)
        why = f"{type(fault).__name__}: {fault}"
        raise Usage(f"DJANGO_SETTINGS_MODULE is set, and its settings can't be read: {why}") from None


def jobs_in(folders: Iterable[str], asked: argparse.Namespace) -> Iterator[Job]:
    domains, locales = domains_of(asked.domain), set(asked.locale)
    for folder in folders:
        for locale in sorted(it.name for it in listed(folder)[0]):
            if locale in asked.exclude or locales and locale not in locales:
                continue
            for path, domain in po_files_in(os.path.join(folder, locale, FOLDER)):
                if not domains or domain in domains:
                    yield Job(path, f"{path[:-len(END)]}{END_OF_MO}")


def po_files_in(folder: str) -> Iterator[tuple[str, str]]:
    """Yield the PO files in a folder and below, each with its name without the ending."""
    below = [folder]
    for where in below:
        folders, others = listed(where)
        below += (it.path for it in folders if not it.is_symlink())
        for it in others:
            domain, end = os.path.splitext(it.name)
            if end == END:
                yield it.path, domain


# --- running ----------------------------------------------------------------------------------------------------------


class Bar:
    """A progress bar on standard error, if that is a terminal."""

    def __init__(self, count: int, is_shown: bool) -> None:
        self.count, self.done, self.drawn = count, 0, 0.0
        self.is_shown = is_shown and sys.stderr.isatty()

    def step(self) -> None:
        self.done += 1
        if self.is_shown and (time.monotonic() - self.drawn > PAUSE or self.done == self.count):
            self.drawn, filled = time.monotonic(), WIDTH * self.done // self.count
            bar = "#" * filled + "." * (WIDTH - filled)
            print(f"\r[{bar}] {self.done}/{self.count}", end="", file=sys.stderr, flush=True)

    def clear(self) -> None:
        if self.is_shown:
            print("\r\x1b[K", end="", file=sys.stderr, flush=True)


def run(jobs: Sequence[Job], asked: argparse.Namespace) -> int:
    """Compile, and report. Return the status."""
    options = Options(asked.check, asked.use_fuzzy, asked.statistics, asked.dry_run)
    bar, done = Bar(len(jobs), not asked.quiet), []
    try:
        for it in compile_all(jobs, options, asked.jobs):
            done.append(it)
            bar.step()
    finally:
        bar.clear()
    done.sort()
    is_told = report(done, asked)
    return 0 if is_told and not any(it.fault for it in done) else 1


def report(done: Sequence[Done], asked: argparse.Namespace) -> bool:
    """Print what was requested to standard output, and then all refusals to standard error. Return whether that was
    possible."""
    refused = [it for it in done if it.fault]
    lines, refusals = [], list(map(str, refused))
    for it in done:
        if it.counts and not it.fault:
            lines.append(f"{it.counts} in {it.job.po}")
        elif asked.verbose and not it.fault:
            lines.append(f"{it.job.po}: accepted" if asked.dry_run else f"{it.job.po} -> {it.job.mo}")
    if not asked.quiet:
        verb = "checked" if asked.dry_run else "compiled"
        lines.append(f"{len(done) - len(refused)} {'file' if len(done) - len(refused) == 1 else 'files'} {verb}")
    if refused and not asked.quiet:
        stay = "" if asked.dry_run else "; their MO files stay as they were"
        refusals.append(f"{len(refused)} of {len(done)} files refused{stay}")
    fault = printed(sys.stdout, lines)
    if fault and not isinstance(fault, BrokenPipeError):
        refusals.append(f"{PROGRAM}: can't write to standard output: {fault.strerror}")
    return not printed(sys.stderr, refusals) and not fault


def printed(stream: TextIO | None, lines: Iterable[str]) -> OSError | None:
    """Print lines, if the stream isn't closed, and return why that failed, or None.

    What its encoding doesn't have, such as a part of a file's name, is escaped.
    """
    if stream is None:
        return None
    try:
        for line in lines:
            try:
                print(line, file=stream)
            except UnicodeEncodeError:
                print(line.encode(stream.encoding, "backslashreplace").decode(stream.encoding), file=stream)
        stream.flush()
    except OSError as fault:
        with contextlib.suppress(OSError):  # (or else Python writes the rest at its end, and fails again)
            file = os.open(os.devnull, os.O_WRONLY)
            os.dup2(file, stream.fileno())
            os.close(file)
        return fault
    return None
