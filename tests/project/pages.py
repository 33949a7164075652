#!/usr/bin/env python3
"""Types what the pages show, as someone who has just installed Kobdzila: the blocks of a page in their order, in one
empty folder for each page, with the examples/ of the sources in it.

    tests/project/pages.py PREFIX PAGE..

PREFIX is the installation; pages name it /usr/local. A page is Markdown, or a man page, of which EXAMPLES is typed.
Prints `ok pages, PAGE: ..` or `FAILED pages, PAGE:LINE: ..` for each page, and `skipped` for what is missing here.

| Block | What is done |
| --- | --- |
| four spaces, or ```sh | a shell runs it, which remembers folders and variables from block to block; it has to succeed |
| with lines `$ COMMAND` | each command prints the lines below it |
| ```text | what the block before it has printed |
| ```python | with `>>>` a session; otherwise a program, whose comments say what its lines are or print |
| ```c | a program is kept as a file; what is no program becomes a part of one, after the parts before it |
| any other language | a file |

A line above a block may name the file (Save this as `NAME`:), say that the block can't be typed
(<!-- not run: REASON -->), or what its section needs (<!-- needs: COMMAND.. -->).
"""
from __future__ import annotations

import ast
import contextlib
import doctest
import functools
import io
import multiprocessing
import os
import re
import shutil
import subprocess
import sys
import tempfile
from collections.abc import Iterator
from pathlib import Path
from typing import Any, NamedTuple

TOP = Path(__file__).resolve().parents[2]
SECONDS = 60  # for one command
LEAST_REASON = 10  # letters of a reason
FILES = {"cmake", "diff", "ini", "make", "meson", "po", "toml", "yaml"}
# pages whose programs need more than an installation: other scripts type them
ELSEWHERE = {
    "docs/guide/fleet.md": "tests/fleet/fleet.sh",
    "docs/guide/fleet-operating.md": "tests/fleet/fleet.sh",
    "docs/guide/python.md": "tests/python/python.sh",
    "docs/guide/python-servers.md": "tests/python/python.sh",
    "docs/guide/python-frameworks.md": "tests/python/python.sh",
    "docs/guide/rattle.md": "tests/project/callers.sh",
    "docs/guide/rattle-store.md": "tests/project/callers.sh",
    "docs/guide/rattle-serve.md": "tests/project/callers.sh",
    "docs/guide/rust.md": "tests/rust/rust.sh",
    "docs/guide/rust-servers.md": "tests/rust/rust.sh",
}
FENCE = re.compile(r"```(\w*)\S*$")
SAVED = re.compile(r"Save (?:this|it) as `?([\w./-]*\w)`?:")
NOT_RUN = re.compile(r"<!-- not run: (.*?) -->", re.S)
NEEDS = re.compile(r"<!-- needs: (.*?) -->", re.S)
# what a comment says of its line: a value of Python, or what is printed
VALUE = re.compile(r"\s*(Answer\(.*?\)|\d+)(?=$|[:,;. ])")


class Block(NamedTuple):
    """A block of a page: the line of its first line, its language, the paragraph above it, and its text."""

    line: int
    language: str
    above: str
    text: str


class Wrong(Exception):
    """What a page shows isn't so."""


# --- blocks -----------------------------------------------------------------------------------------------------------


def blocks_of_markdown(page: str) -> Iterator[Block | str]:
    """The blocks of a page, and its headings, which begin a new section."""
    lines, number, above, is_list = [*page.split("\n"), "", ""], 0, [], False
    while number < len(lines):
        line = lines[number]
        if fence := FENCE.match(line):
            first = number = number + 1
            while number < len(lines) and lines[number] != "```":
                number += 1
            yield Block(first + 1, fence[1] or "nothing", " ".join(above), "".join(it + "\n" for it in lines[first:number]))
            above = []
        elif line.startswith("    ") and not is_list and not lines[number - 1].strip():
            first = number
            while lines[number + 1].startswith("    ") or not lines[number + 1].strip() and (
                    "".join(lines[number + 2 : number + 3]).startswith("    ")):
                number += 1
            text = "".join(it[4:] + "\n" for it in lines[first : number + 1])
            yield Block(first + 1, "console" if text.startswith("$ ") else "sh", " ".join(above), text)
            above = []
        elif line.startswith("#"):
            yield line.lstrip("# ")
            above, is_list = [], False
        elif line.strip():
            if not lines[number - 1].strip():
                above = []
                is_list = re.match(r"(?:[-*]|\d+\.) |  ", line) is not None
            above.append(line)
        number += 1


def blocks_of_man(page: str) -> Iterator[Block | str]:
    """The examples of a man page: its commands in bold, and what is filled by nobody."""
    found = re.search(r'^\.SH EXAMPLES\n(.*?)(?=^\.SH|\Z)', page, re.M | re.S)
    if not found:
        return
    first = page[: found.start(1)].count("\n") + 1
    above, lines, number = [], found[1].split("\n"), 0
    while number < len(lines):
        line, start = lines[number], number
        if line in (".EX", ".nf"):
            number += 1
            while lines[number] not in (".EE", ".fi"):
                number += 1
            yield man_block(first + start + 1, above, lines[start + 1 : number])
            above = []
        elif line == ".TP" and lines[number + 1].startswith(".B "):
            number += 1
            yield man_block(first + number, above, [lines[number][3:]])
            above = []
        elif line.startswith('.\\" '):
            above.append(f"<!-- {line[4:]} -->")
        else:
            above.append(line)
        number += 1


def man_block(line: int, above: list[str], lines: list[str]) -> Block:
    text = "".join(it + "\n" for it in lines)
    for written, meant in (("\\-", "-"), ("\\(aq", "'"), ("\\&", ""), ("\\e", "\\")):
        text = text.replace(written, meant)
    language = "c" if text.startswith("#include") else "console" if text.startswith("$ ") else "sh"
    return Block(line, language, re.sub(r"\\f.|\\(?=-)", "", " ".join(above)), text)


# --- a page -----------------------------------------------------------------------------------------------------------


class Typist:
    """Someone who types the blocks of one page, in this process's folder."""

    def __init__(self, prefix: Path) -> None:
        self.prefix, self.printed = prefix, None
        self.parts: list[str] = []  # of a program in C
        self.wanted: list[str] = []  # what it prints
        self.names: dict[str, Any] = {"__name__": "__main__"}  # of Python

    def type(self, block: Block) -> None:
        text = block.text.replace("/usr/local", str(self.prefix))
        saved = SAVED.search(block.above)
        if block.language == "c":
            self.c(text, saved[1] if saved else None)
        elif saved:
            Path(saved[1]).write_text(text, encoding="utf-8")
        elif block.language == "sh":
            self.printed = self.shell(text)
        elif block.language == "console":
            self.console(text)
        elif block.language == "text":
            same("the block before it prints", self.printed, text)
        elif block.language == "python":
            self.python(text, block.line)
        elif block.language in FILES:
            raise Wrong(f"a file ({block.language}) without a name: the line above says Save this as `NAME`:")
        else:
            raise Wrong(f"a block of {block.language}, which nobody can type")

    def shell(self, text: str, is_checked: bool = True) -> str:
        """Runs commands, in the folder and with the variables that the commands before them have left."""
        state = self.prefix.parent / f"state.{os.getpid()}"
        script = f"[ ! -f '{state}' ] || . '{state}'\n{'set -e' if is_checked else ''}\n{text}\n" \
            f"{{ printf 'cd %q\\n' \"$PWD\"; declare -px; }} > '{state}'\n"
        done = subprocess.run(["bash", "-c", script], text=True, timeout=SECONDS, check=False, stdin=subprocess.DEVNULL,
                              stdout=subprocess.PIPE, stderr=subprocess.STDOUT)
        if is_checked and done.returncode:
            raise Wrong(f"status {done.returncode} of '{text.strip()[:80]}', which printed '{done.stdout[-300:]}'")
        return done.stdout

    def console(self, text: str) -> None:
        for part in re.split(r"^\$ ", text, flags=re.M)[1:]:
            command, _, wanted = part.partition("\n")
            same(f"'{command}' prints", self.shell(command, is_checked=False), wanted)

    def c(self, text: str, name: str | None) -> None:
        if "int main(" in text:
            name = name or "example.c"
            Path(name).write_text(text, encoding="utf-8")
            self.parts, self.wanted, self.printed = [], [], None
            self.compile(name, "-fsyntax-only")
            return
        self.parts.append(text)
        self.wanted += [it[1] for it in re.finditer(r"\bputs\(.*\); /\* (.*) \*/", text)]
        includes = "".join(f"#include <{it}>\n" for it in ("kobdzila.h", "pthread.h", "stdio.h", "string.h"))
        body = "".join("{\n" + part for part in self.parts) + "}\n" * len(self.parts)
        Path("parts.c").write_text(f"{includes}int main(void) {{\n{body}return 0;\n}}\n", encoding="utf-8")
        self.compile("parts.c", "-o", "parts")
        self.printed = self.shell("./parts")
        same("the program prints", self.printed, "".join(line + "\n" for line in self.wanted))

    def compile(self, name: str, *words: str) -> None:
        flags = "$(pkg-config --cflags --libs kobdzila)"
        self.shell(f"cc -Wall -Wextra -Werror -Wno-unused -pthread {' '.join(words)} {name} {flags}")

    def python(self, text: str, line: int) -> None:
        if text.startswith(">>> "):
            test = doctest.DocTestParser().get_doctest(text, self.names, "page", None, line)
            said: list[str] = []
            with contextlib.redirect_stdout(io.StringIO()):
                failed = doctest.DocTestRunner(verbose=False).run(test, out=said.append, clear_globs=False).failed
            self.names.update(test.globs)
            if failed:
                raise Wrong(" ".join("".join(said).split())[:300])
            return
        lines, out = text.split("\n"), io.StringIO()
        with contextlib.redirect_stdout(out):
            for statement in ast.parse(text).body:
                self.statement(statement, lines[statement.end_lineno - 1][statement.end_col_offset :], out)
        self.printed = out.getvalue()

    def statement(self, statement: ast.stmt, comment: str, out: io.StringIO) -> None:
        """Does a statement, and compares its value, or what it prints, with the comment after it."""
        before, said = len(out.getvalue()), VALUE.match(comment.lstrip(" #"))
        if isinstance(statement, ast.Expr):
            got = eval(compile(ast.Expression(statement.value), "page", "eval"), self.names)  # noqa: S307
            if said:
                same(f"'{ast.unparse(statement)}' is", repr(got), said[1])
            elif got is None and comment.lstrip().startswith("# ") and len(out.getvalue()) > before:
                same(f"'{ast.unparse(statement)}' prints", out.getvalue()[before:], comment.lstrip(" #"))
        else:
            exec(compile(ast.Module([statement], []), "page", "exec"), self.names)  # noqa: S102


def counted(page: str) -> str:
    """The line for a page that another script types."""
    parts = [part for part in blocks_of_markdown((TOP / page).read_text(encoding="utf-8")) if not isinstance(part, str)]
    left = sum(NOT_RUN.search(part.above) is not None for part in parts)
    script = ELSEWHERE[page]
    if not (TOP / script).is_file():
        return f"FAILED pages, {page}: there is no {script}, which types it"
    return f"ok pages, {page}: {len(parts) - left} typed by {script}" + (f", {left} can't be" if left else "")


def same(what: str, got: str | None, wanted: str) -> None:
    if (got or "").rstrip("\n") != wanted.rstrip("\n"):
        raise Wrong(f"{what} '{got}' and not '{wanted}'")


def typed(prefix: Path, page: Path) -> list[str]:
    """The lines to print for a page."""
    name = str(page.relative_to(TOP)) if page.is_relative_to(TOP) else page.name
    parts = list((blocks_of_markdown if page.suffix == ".md" else blocks_of_man)(page.read_text(encoding="utf-8")))
    run = left = 0
    said, section, missing = [], "", []
    typist = Typist(prefix)
    with tempfile.TemporaryDirectory(dir=prefix.parent) as room:
        os.chdir(room)
        os.environ["HOME"], sys.path[0] = room, ""  # (as in a session of Python: modules of this folder, not of tests/)
        shutil.copytree(TOP / "examples", "examples", ignore=shutil.ignore_patterns("__pycache__", "target"))
        for part in parts:
            if isinstance(part, str):
                section, missing = part, []
                continue
            if needs := NEEDS.search(part.above):
                missing = [it for it in needs[1].split() if shutil.which(it) is None]
                said += [f"skipped pages, {name}, {section}: no {' and no '.join(missing)}"] if missing else []
            reason = NOT_RUN.search(part.above)
            if reason and len(reason[1]) < LEAST_REASON:
                return [f"FAILED pages, {name}:{part.line}: not run, without a reason"]
            if reason:
                left += 1
            elif not missing:
                try:
                    typist.type(part)
                except Exception as wrong:  # noqa: BLE001 (whatever a page raises is a fault of the page)
                    why = wrong if isinstance(wrong, Wrong) else repr(wrong)
                    return [*said, f"FAILED pages, {name}:{part.line}: {' '.join(str(why).split())[:400]}"]
                run += 1
    count = [f"{run} typed"] * (run > 0) + [f"{left} can't be"] * (left > 0)
    return said + ([f"ok pages, {name}: {', '.join(count)}"] if count else [])


def main() -> None:
    prefix = Path(sys.argv[1]).resolve()
    if os.environ.get("LD_LIBRARY_PATH") != f"{prefix}/lib":  # (the dynamic linker reads it when a program starts)
        environment = {**os.environ, "LD_LIBRARY_PATH": f"{prefix}/lib"}
        os.execve(sys.executable, [sys.executable, "-B", *sys.argv], environment)
    os.environ.update({
        "PATH": f"{prefix}/bin:{os.environ['PATH']}", "LC_ALL": "C.UTF-8",
        "PKG_CONFIG_PATH": f"{prefix}/lib/pkgconfig",
    })
    pages = [page for page in sys.argv[2:] if page not in ELSEWHERE]
    for page in sys.argv[2:]:
        if page in ELSEWHERE:
            print(counted(page))
    with multiprocessing.Pool(maxtasksperchild=1) as pool:
        for lines in pool.imap(functools.partial(typed, prefix), [Path(it).resolve() for it in pages], chunksize=1):
            print("".join(line + "\n" for line in lines), end="", flush=True)


if __name__ == "__main__":
    main()
