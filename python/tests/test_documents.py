"""The examples of the docstrings, and of the pages of docs/guide for Python, typed as they are into an empty folder."""
from __future__ import annotations

import contextlib
import doctest
import importlib.util
import os
import re
import shutil
import socket
import subprocess
import sys
import tempfile
import threading
import unittest
from collections.abc import Iterator
from pathlib import Path

import kobdzila
from kobdzila import (
    _catalogue, _command, _compile, _formats, _gettext, _languages, _lazy, _negotiation, _refused, _scripts, _session,
    _store, _waiting, _watch, _web,
)

GUIDE = Path(__file__).parents[2] / "docs" / "guide"
MODULES = (kobdzila, _catalogue, _command, _compile, _formats, _gettext, _languages, _negotiation, _refused, _scripts,
           _session, _store, _waiting, _watch, _web)
BLOCK = re.compile(r"(?P<before>[^\n]*)\n\n```(?P<kind>\w+)\n(?P<text>.*?)^```$", re.M | re.S)
SAVED = re.compile(r"Save this as `([^`]+)`:$")
# what a section needs besides the package: a module, or a program
NEEDED = {"Jinja2": "jinja2", "Babel": "babel", "Flask": "flask", "Starlette and FastAPI": "fastapi uvicorn"}


def is_there(name: str) -> bool:
    return importlib.util.find_spec(name) is not None


def sections(text: str) -> str:
    """The page without the sections whose program or package isn't there."""
    parts = re.split(r"\n(?=##+ )", text)
    missing = [title for title, names in NEEDED.items() if not all(map(is_there, names.split()))]
    if shutil.which("curl") is None:
        missing += ["Flask", "Starlette and FastAPI"]
    try:
        _session._program()
    except FileNotFoundError:
        missing.append("A store in a process of its own")
    return "\n".join(part for part in parts if part.split("\n")[0].lstrip("# ") not in missing)


@contextlib.contextmanager
def in_folder() -> Iterator[Path]:
    before = os.getcwd()
    with tempfile.TemporaryDirectory(ignore_cleanup_errors=True) as room:
        os.chdir(room)
        try:
            yield Path(room)
        finally:
            os.chdir(before)


class Typist:
    """Someone who types a page: its commands into a shell, its sessions into Python, its programs into files."""

    def __init__(self, test: unittest.TestCase, page: Path) -> None:
        self.test, self.page, self.printed = test, page, ""
        self.names: dict[str, object] = {}
        with socket.socket() as free:
            free.bind(("127.0.0.1", 0))
            self.port = str(free.getsockname()[1])  # (in place of 8000, since tests run side by side)
        Path("bin").mkdir()
        Path("bin", "python3").write_text(f'#!/bin/sh\nexec "{sys.executable}" "$@"\n', encoding="utf-8")
        Path("bin", "python3").chmod(0o755)

    def type(self, before: str, kind: str, text: str) -> None:
        saved, text = SAVED.search(before), text.replace("8000", self.port)
        if saved:
            Path(saved[1]).write_text(text, encoding="utf-8")
        elif kind == "sh":
            self.printed = self.shell(text)
        elif kind == "text":
            self.test.assertEqual(self.printed.rstrip("\n"), text.rstrip("\n"), self.page)
        elif kind == "python":
            test = doctest.DocTestParser().get_doctest(text, self.names, self.page.name, str(self.page), 0)
            self.test.assertTrue(test.examples, text)
            self.test.assertEqual(doctest.DocTestRunner(verbose=False).run(test, clear_globs=False).failed, 0)
            self.names.update(test.globs)
        else:
            self.test.assertIn(kind, ("diff", "yaml"), text)

    @staticmethod
    def shell(text: str) -> str:
        environment = {**os.environ, "PATH": f"{os.getcwd()}/bin:{os.environ['PATH']}", "LC_ALL": "C.UTF-8"}
        done = subprocess.run(["bash", "-e", "-c", text], env=environment, text=True, timeout=300, check=False,
                              stdin=subprocess.DEVNULL, stdout=subprocess.PIPE, stderr=subprocess.STDOUT)
        return done.stdout


class DocumentsTest(unittest.TestCase):
    def test_docstrings(self) -> None:
        tried = 0
        for module in MODULES:
            result = doctest.testmod(module, verbose=False)
            self.assertEqual(result.failed, 0, module)
            tried += result.attempted
        self.assertGreater(tried, 60)

    def typed(self, name: str, least: int = 8) -> None:
        page = GUIDE / name
        blocks = list(BLOCK.finditer(sections(page.read_text(encoding="utf-8"))))
        self.assertGreaterEqual(len(blocks), least)  # (without the sections of frameworks that are missing)
        with in_folder():
            # (python3 is the one of this environment, in which the package is)
            typist = Typist(self, page)
            try:
                for block in blocks:
                    typist.type(block["before"], block["kind"], block["text"])
            finally:
                kobdzila.textdomain("messages")  # (the page sets another one)
        self.assertEqual([it.name for it in threading.enumerate() if it.name.startswith("kobdzila")], [])

    @unittest.skipIf("KOBDZILA_SANITIZED" in os.environ, "the pages need no second run over AddressSanitizer")
    def test_basics(self) -> None:
        self.typed("python.md")

    @unittest.skipIf("KOBDZILA_SANITIZED" in os.environ, "the pages need no second run over AddressSanitizer")
    def test_servers(self) -> None:
        self.typed("python-servers.md")

    @unittest.skipIf("KOBDZILA_SANITIZED" in os.environ, "the pages need no second run over AddressSanitizer")
    def test_web_frameworks(self) -> None:
        self.typed("python-frameworks.md", 1)

    def test_all_blocks(self) -> None:
        """No example of the pages is outside of what the typist takes."""
        for name in ("python.md", "python-servers.md", "python-frameworks.md"):
            text = (GUIDE / name).read_text(encoding="utf-8")
            self.assertEqual(len(BLOCK.findall(text)), len(re.findall(r"^```\w", text, re.M)), name)


if __name__ == "__main__":
    unittest.main()
