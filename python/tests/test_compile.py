"""compile_po and `python -m kobdzila compile`: next to GNU msgfmt, pybabel and Django, and as a hook of pre-commit."""
from __future__ import annotations

import contextlib
import errno
import importlib.util
import io
import os
import pty
import shutil
import signal
import subprocess
import sys
import tempfile
import time
import tty
import unittest
from pathlib import Path
from typing import Any
from unittest import mock

import kobdzila
from common import needs_testcapi, failures_of
from kobdzila import Fault, Refused, compile_po
from kobdzila._command import main
from kobdzila._compile import replace, write_all
from kobdzila._formats import braces, percents
from texts import ARABIC, FRENCH, HEADER

TOP = Path(__file__).parents[2]
GNU = shutil.which("msgfmt")
MSGUNFMT = shutil.which("msgunfmt")
BROKEN = 'msgid "a"\nmsgstr "b\n'
# a flag, a message, its translation: those that fit, and those that don't
FITTING = [
    ("python-format", "%d files", "%d fichiers"), ("python-format", "%(n)d of %(m)s", "%(m)s: %(n)d"),
    ("python-format", "100 %", "cent %"), ("python-format", "%s", "%r"), ("python-format", "%d", "%x"),
    ("python-format", "%(a)s %(a)s", "%(a)s"), ("python-format", "%(a(b))s", "le %(a(b))s"),
    ("python-format", "%5.2f%%", "%f %%"), ("python-format", "%d", ""),
    ("python-format", "%*d", "%*d"), ("python-format", "a", "b"), ("python-format", "%c", "%c"),
    ("python-brace-format", "{n} of {m}", "{m}: {n}"), ("python-brace-format", "{n.x} {m[0]}", "{m[0]} {n.x}"),
    ("python-brace-format", "{n:>{width}}", "{n:{width}}"), ("python-brace-format", "{{n}}", "n"),
    ("python-brace-format", "{}", "{1}"), ("python-brace-format", "{} of {}", "{1} de {0}"),
    ("python-brace-format", "{}", "{0}"),
    ("python-brace-format", "{n}", "{n} }"),
    ("c++-format", "{n}", "{m}"), ("no-python-format", "%d", "%s"),
]
REFUSED = [
    ("python-format", "%d files", "fichiers"), ("python-format", "%d files", "%s fichiers"),
    ("python-format", "%(n)d", "%(m)d"), ("python-format", "%(n)d", "%d"), ("python-format", "%d", "%(n)d"),
    ("python-format", "%(n)d", "%(n)s"), ("python-format", "%s", "%s %s"), ("python-format", "%d", "%"),
    ("python-format", "%(n)d %(m)d", "%(n)d"), ("python-format", "%s", "%y"), ("python-format", "%s", "%(n)s %s"),
    ("python-format", "%c", "%d"), ("python-format", "%f", "%d"), ("python-format", "a", "%d"),
    ("python-brace-format", "{n}", "{m}"), ("python-brace-format", "{n}", "n"), ("python-brace-format", "n", "{n}"),
    ("python-brace-format", "{n}", "{n"),
    ("python-brace-format", "{n.x}", "{n}"), ("python-brace-format", "{a:d}", "{a}"),
    ("python-brace-format", "{n:{w}}", "{n}"),
    ("python-brace-format", "{0} of {1}", "{} de {}"), ("python-brace-format", "{a}", "{a!r}"),
    ("python-format", "%(a(b))s", "%(a(c))s"), ("python-format", "%(a)s", "%(a(b))s"),
]


def entry(flag: str, message: str, translation: str) -> bytes:
    return f'#, {flag}\nmsgid "{message}"\nmsgstr "{translation}"\n'.encode()


def is_refused(text: bytes) -> str:
    try:
        compile_po(text, checked=True)
    except Refused as refused:
        return str(refused)
    return ""


class CompileTest(unittest.TestCase):
    def test_bytes(self) -> None:
        for text in (FRENCH, ARABIC, ""):
            self.assertEqual(compile_po(text.encode()), kobdzila.Catalogue.from_po(text.encode()).mo_file())
        self.assertEqual(compile_po(memoryview(FRENCH.encode()), checked=True), compile_po(bytearray(FRENCH.encode())))
        self.assertNotIn(b"x", compile_po(b'#, fuzzy\nmsgid "a"\nmsgstr "x"\n'))
        self.assertIn(b"x", compile_po(b'#, fuzzy\nmsgid "a"\nmsgstr "x"\n', use_fuzzy=True))

    def test_refusals(self) -> None:
        rows: list[tuple[bytes, bool, Fault, int]] = [
            (BROKEN.encode(), False, Fault.PO_OPEN_STRING, 2),
            (b'msgid "a\\n"\nmsgstr "b"\n', True, Fault.PO_NEWLINE_MISMATCH, 1),
            (b"\xef\xbb\xbf" + FRENCH.encode(), False, Fault.PO_BAD_WORD, 1),
            (b'\n\n#: x\n#, python-format\n#: y\nmsgid "%d"\nmsgstr "%s"\n', True, Fault.PO_FORMAT_MISMATCH, 6),
        ]
        for text, checked, fault, line in rows:
            with self.assertRaises(Refused) as caught:
                compile_po(text, checked=checked)
            self.assertEqual((caught.exception.fault, caught.exception.line), (fault, line))
        self.assertIn("byte order mark", is_refused(b"\xef\xbb\xbf"))
        self.assertRaises(TypeError, compile_po, "text")
        self.assertRaises(TypeError, compile_po, b"", True)

    def test_formats(self) -> None:
        for row in FITTING:
            self.assertEqual(is_refused(entry(*row)), "", row)
            compile_po(entry(*row))
        for row in REFUSED:
            self.assertIn("line 2: msgstr ", is_refused(entry(*row)), row)
            compile_po(entry(*row))
            self.assertEqual(is_refused(entry(f"fuzzy, {row[0]}", *row[1:])), "")

    def test_words(self) -> None:
        for flag, message, form, said in (
            ("python-format", "%(n)d", "%(m)d", "takes 'm', which the message doesn't"),
            ("python-format", "%(n)d", "%(n)s", "takes a text for 'n', and the message an integer"),
            ("python-format", "%(n)d", "%d", "takes its arguments by position, and the message by name"),
            ("python-format", "%s", "%s %s", "takes 2 arguments, and the message 1"),
            ("python-format", "%s", "%y", "has '%y', which is no directive of '%'"),
            ("python-format", "%(a(b))s", "%(a(c))s", "takes 'a(c)', which the message doesn't"),
            ("python-brace-format", "{n}", "n", "doesn't take 'n', which the message does"),
            ("python-brace-format", "{a:d}", "{a}", "takes other arguments than the message"),
        ):
            self.assertEqual(is_refused(entry(flag, message, form)), f"line 2: msgstr {said}")

    def test_layouts(self) -> None:
        """However an entry is written, it is compared; texts that only look like one are not."""
        for text, refused in (
            (b'#, c-format\n#, python-format\nmsgctxt "x"\nmsgid "%(a)d"\nmsgstr "%(b)d"\n', True),
            (b'#,python-format,x\n  msgid\n"%("\n"a)d"\n\n msgstr ""\n"%(b"\n")d"\n', True),
            (b'#, python-format\nmsgid "%d"\nmsgstr "\\045s"\n', True),
            (b'#, python-format\n#| msgid "%s"\n#. x\nmsgid "%d"\nmsgstr "%d"\n', False),
            (b'#~ #, python-format\n#~ msgid "%d"\n#~ msgstr "%s"\n', False),
            (b'#, python-format\n#~ msgid "%d"\n#~ msgstr "%s"\n\nmsgid "%d"\nmsgstr "%s"\n', False),
            (b'# python-format\nmsgid "%d"\nmsgstr "%s"\n', False),
            (b'msgid "\\n#, python-format\\n%d"\nmsgstr "\\n#, python-format\\n%s"\n', False),
            (b'#, python-format\nmsgid "%d"\nmsgstr "%d"\nmsgid "%s"\nmsgstr "%d"\n', False),
        ):
            self.assertEqual(bool(is_refused(text)), refused, text)

    def test_many_entries(self) -> None:
        """What is wrong with the last of many entries is found in about a second, and not in minutes."""
        text = b"".join(entry("python-format", f"%d of {number}", f"%d de {number}") for number in range(40_000))
        begun = time.monotonic()
        said = is_refused(text + entry("python-format", "%(a)d", "%(b)d"))
        self.assertLess(time.monotonic() - begun, 10)
        self.assertEqual(said, "line 120002: msgstr takes 'b', which the message doesn't")

    def test_plurals(self) -> None:
        """A form for few numbers may leave the number out, as for GNU msgfmt."""
        other, one = HEADER.replace("n>1", "n!=1"), "un fichier de %(who)s"
        many = "%(n)d fichiers de %(who)s"
        polish = HEADER.replace("nplurals=2; plural=n>1", "nplurals=3; plural=n==1 ? 0 : n%10==2 ? 1 : 2")
        for header, forms, refused in (
            (HEADER, [one, many], False), (other, [one, many], False), (other, ["un fichier", many], False),
            (other, [many, one], True), (HEADER, [many, "des fichiers de %(who)s"], True), (other, ["%(x)d", many], True),
            (HEADER, [many, many], False), (polish, [one, many, many], False), (polish, [many, one, many], True),
            (HEADER.replace("n>1", "n>3"), [one, many], False), (HEADER.replace("n>1", "n>4"), [one, many], True),
        ):
            text = header + '\n#, python-format\nmsgid "a file of %(who)s"\nmsgid_plural "%(n)d files of %(who)s"\n'
            text += "".join(f'msgstr[{number}] "{form}"\n' for number, form in enumerate(forms))
            self.assertEqual(bool(is_refused(text.encode())), refused, (header, forms))
            if GNU:
                self.assertEqual(self.is_refused_by_gnu(text.encode()), refused, (header, forms))

    @staticmethod
    def is_refused_by_gnu(text: bytes) -> bool:
        command = [str(GNU), "-c", "-o", os.devnull, "-"]
        return subprocess.run(command, input=text, capture_output=True, check=False).returncode != 0

    @unittest.skipUnless(GNU, "no GNU msgfmt")
    def test_formats_of_gnu(self) -> None:
        """GNU msgfmt accepts and refuses the same."""
        for rows, refused in ((FITTING, False), (REFUSED, True)):
            for row in rows:
                self.assertEqual(self.is_refused_by_gnu(HEADER.encode() + b"\n" + entry(*row)), refused, row)

    def test_parsers(self) -> None:
        self.assertEqual(percents("%-5.3s %%").unnamed, ["a text"])
        self.assertEqual(percents("%(a b)s").named, {"a b": "a text"})
        self.assertEqual(list(braces("{} {a.b!r:{c}}").named), ["", "a.b", "c"])
        for text in ("%", "%(a", "%z", "%(a)s %(a)d"):
            self.assertRaises(ValueError, percents, text)

    @needs_testcapi
    def test_memory(self) -> None:
        text, wanted = FRENCH.encode(), compile_po(FRENCH.encode())
        self.assertGreater(failures_of(self, lambda: compile_po(text) == wanted, 60), 0)


class CommandTest(unittest.TestCase):
    def setUp(self) -> None:
        room = tempfile.TemporaryDirectory()
        self.addCleanup(room.cleanup)
        self.room = Path(room.name)
        self.addCleanup(os.chdir, os.getcwd())
        os.chdir(self.room)
        for name in ("locale/fr/LC_MESSAGES/shop.po", "locale/fr/LC_MESSAGES/messages.po",
                     "locale/pt_BR/LC_MESSAGES/shop.po", "app/locale/fr/LC_MESSAGES/django.po",
                     "node_modules/x/locale/fr/LC_MESSAGES/django.po", "locale/README"):
            self.put(name, FRENCH)

    def put(self, name: str, text: str) -> None:
        Path(name).parent.mkdir(parents=True, exist_ok=True)
        Path(name).write_text(text, encoding="utf-8")

    def call(self, *words: str) -> tuple[int, str, str]:
        """Run the command, and return its status and what it printed."""
        out, err = io.StringIO(), io.StringIO()
        with contextlib.redirect_stdout(out), contextlib.redirect_stderr(err):
            try:
                status = main(["compile", *words])
            except SystemExit as end:
                status = int(str(end.code))
        return status, out.getvalue(), err.getvalue()

    def made(self) -> list[str]:
        """Return the MO files that there are, and remove them."""
        found = sorted(map(str, Path(".").rglob("*.mo")))
        for name in found:
            os.unlink(name)
        self.assertEqual([it for it in Path(".").rglob("*.new")], [])
        return found

    def test_which(self) -> None:
        shop = ["locale/fr/LC_MESSAGES/shop.mo", "locale/pt_BR/LC_MESSAGES/shop.mo"]
        own = ["locale/fr/LC_MESSAGES/messages.mo", *shop]
        app, node = "app/locale/fr/LC_MESSAGES/django.mo", "node_modules/x/locale/fr/LC_MESSAGES/django.mo"
        rows: list[tuple[list[str], list[str]]] = [
            ([], [app, *own, node]),
            (["-d", "locale"], own),
            (["-d", "locale", "-D", "shop"], shop),
            (["-d", "locale", "-D", "shop,messages", "--jobs", "1"], own),
            (["-d", "locale", "-D", "shop messages"], own),
            (["--directory=locale", "--domain=shop", "--locale=fr"], shop[:1]),
            (["-l", "pt_BR"], shop[1:]),
            (["-l", "pt_BR", "-l", "fr", "-x", "fr"], shop[1:]),
            (["-x", "fr"], shop[1:]),
            (["-i", "node_modules"], [app, *own]),
            (["--ignore", "node_*", "-i", "app/*"], own),
            (["-i", "locale/fr/LC_MESSAGES/shop.po", "-o", "x.mo"], ["x.mo"]),
            (["-i", "locale/fr/LC_MESSAGES/shop.po", "-d", "locale", "-l", "fr"], own[:1]),
            (["-i", "locale/fr/LC_MESSAGES/shop.po", "-d", "locale", "-l", "fr", "-D", "shop"], shop[:1]),
            (["locale/fr/LC_MESSAGES/shop.po", "app/locale/fr/LC_MESSAGES/django.po"], [app, shop[0]]),
            (["-n"], []),
        ]
        for words, files in rows:
            status, out, err = self.call(*words)
            self.assertEqual((status, err), (0, ""), words)
            self.assertEqual(self.made(), files, words)
            if files:
                self.assertIn(f"{len(files)} file", out)

    def test_settings(self) -> None:
        """LOCALE_PATHS of Django's settings."""
        if not importlib.util.find_spec("django"):
            self.skipTest("no Django")
        self.put("elsewhere/fr/LC_MESSAGES/django.po", FRENCH)
        self.put("settings_of_test.py", "LOCALE_PATHS = ['elsewhere']\n")
        command = [sys.executable, "-m", "kobdzila", "compile", "-v"]
        done = subprocess.run(command, env={**os.environ, "DJANGO_SETTINGS_MODULE": "settings_of_test"}, text=True,
                              capture_output=True, check=False)
        self.assertEqual((done.returncode, done.stderr), (0, ""))
        self.assertIn("elsewhere/fr/LC_MESSAGES/django.po -> ", done.stdout)
        self.assertEqual(len(self.made()), 6)
        done = subprocess.run(command, env={**os.environ, "DJANGO_SETTINGS_MODULE": "no_such_module"}, text=True,
                              capture_output=True, check=False)
        self.assertEqual((done.returncode, self.made()), (2, []))

    def test_unreadable_settings(self) -> None:
        if not importlib.util.find_spec("django"):
            self.skipTest("no Django")
        for number, text in enumerate(("1 // 0\n", "LOCALE_PATHS = [None]\n", "def", "LOCALE_PATHS = 5\n")):
            self.put(f"broken{number}.py", text)
            variables = {**os.environ, "DJANGO_SETTINGS_MODULE": f"broken{number}"}
            done = subprocess.run([sys.executable, "-m", "kobdzila", "compile"], env=variables, text=True,
                                  capture_output=True, check=False)
            self.assertEqual((done.returncode, "Traceback" in done.stderr, self.made()), (2, False, []), text)
            self.assertIn("can't be read: ", done.stderr)

    def test_not_printable(self) -> None:
        """Where nothing can be printed, the files are compiled, and refusals are told."""
        self.put("broken.po", BROKEN)
        name = os.fsdecode(b"a\xff.po")
        self.put(name, FRENCH)
        closed, writing = os.pipe()
        os.close(closed)
        variables = {**os.environ, "PYTHONIOENCODING": "utf-8:strict"}
        with open("/dev/full", "wb") as full:
            rows: list[tuple[Any, Any, list[str]]] = [
                (full, subprocess.PIPE, ["broken.po:2: ", "1 of 2 files refused", "standard output: No space left"]),
                (writing, subprocess.PIPE, ["broken.po:2: ", "1 of 2 files refused"]),
                (subprocess.PIPE, subprocess.PIPE, ["broken.po:2: ", "1 of 2 files refused"]),
                (subprocess.DEVNULL, full, []), (full, full, []),
            ]
            for out, err, said in rows:
                command = [sys.executable, "-m", "kobdzila", "compile", "-v", name, "broken.po"]
                done = subprocess.run(command, env=variables, stdout=out, stderr=err, check=False)
                lines = (done.stderr or b"").decode().splitlines()
                self.assertEqual((done.returncode, len(lines)), (1, len(said)), lines)
                for line, part in zip(lines, said):
                    self.assertIn(part, line)
                if out == subprocess.PIPE:
                    self.assertEqual(done.stdout, b"a\\udcff.po -> a\\udcff.mo\n1 file compiled\n")
                self.assertEqual(self.made(), [name[:-3] + ".mo"])
            others: list[tuple[Any, int]] = [(full, 1), (writing, 1), (None, 0)]
            for out, status in others:
                closing = "exec >&-; exec \"$@\"" if out is None else "exec \"$@\""
                command = ["sh", "-c", closing, "sh", sys.executable, "-m", "kobdzila", "compile", name]
                done = subprocess.run(command, env=variables, stdout=out, stderr=subprocess.PIPE, check=False)
                self.assertEqual((done.returncode, b"Traceback" in done.stderr), (status, False), done.stderr)
        os.close(writing)

    def test_wrong_options(self) -> None:
        for words, said in ((["-d", "none"], "there is no folder none"), (["-o", "x.mo"], "-i FILE"),
                            (["-i", "a.po", "-d", "locale"], "-l LOCALE"),
                            (["-D", "none", "-d", "locale"], "in locale for --domain none:"),
                            (["-l", "xx", "-x", "fr"], "below for --locale xx and --exclude fr:"),
                            (["--jobs", "x"], "invalid int"), (["--none"], "--none"),
                            (["-i", "a.po", "-o", "x.mo", "b.po"], "one PO file"), (["-j", "0"], "from 1 on"),
                            (["-j", "-5"], "from 1 on"), (["-o", "x.mo", "a.po", "b.po"], "one PO file"),
                            (["a.po", "-d", "none", "-l", "de", "-D", "zz"], "--directory and --domain and --locale"),
                            (["a.po", "-x", "de"], "--exclude"), (["a.po", "-i", "b.po"], "--input-file"),
                            (["a.po", "--ignore", "b"], "--ignore"),
                            (["-i", "a.po", "-o", "x.mo", "-x", "de"], "--exclude"),
                            (["-i", "a.po", "-d", "locale", "b.po", "-l", "de"], "one PO file"),
                            (["-i", "a.po", "-d", "locale", "-l", "de", "-D", "a,b"], "one -D DOMAIN"),
                            (["-d", ""], "-d/--directory: it is empty"), (["-l", ""], "-l/--locale: it is empty"),
                            (["-d", "locale", "-D", " "], "-D/--domain: it is empty"),
                            (["-i", "locale/fr/LC_MESSAGES/shop.po", "-o", ""], "-o/--output-file: it is empty")):
            status, out, err = self.call(*words)
            self.assertEqual((status, out), (2, ""), words)
            self.assertIn(said, err, words)
        self.assertEqual(self.made(), [])

    def test_refusals(self) -> None:
        """Each one is told at the end, with its file and line, and leaves the old MO file."""
        self.put("locale/fr/LC_MESSAGES/shop.mo", "old")
        self.put("locale/fr/LC_MESSAGES/shop.po", BROKEN)
        self.put("locale/xx/LC_MESSAGES/shop.po", "\n\nmsg")
        Path("locale/yy/LC_MESSAGES/shop.po").mkdir(parents=True)
        status, out, err = self.call("-d", "locale", "-D", "shop")
        self.assertEqual((status, out), (1, "1 file compiled\n"))
        self.assertEqual(err.splitlines(), [
            "locale/fr/LC_MESSAGES/shop.po:2: string not closed", "locale/xx/LC_MESSAGES/shop.po:3: unknown word",
            "2 of 3 files refused; their MO files stay as they were"])
        self.assertEqual(Path("locale/fr/LC_MESSAGES/shop.mo").read_text(), "old")
        status, _, err = self.call("none.po", "locale/pt_BR/LC_MESSAGES/shop.po")
        self.assertEqual((status, err.splitlines()[0]), (1, "none.po: No such file or directory"))
        status, out, err = self.call("-q", "-n", "locale/fr/LC_MESSAGES/shop.po")
        self.assertEqual((status, out, len(err.splitlines())), (1, "", 1))
        self.put("format.po", '#, python-format\nmsgid "%d"\nmsgstr "%s"\n')
        self.assertEqual(self.call("format.po")[0], 0)
        self.assertEqual(self.call("--check", "format.po")[0], 1)

    def many(self, count: int) -> list[str]:
        names = [f"many/l{number:03}/LC_MESSAGES/shop.po" for number in range(count)]
        for name in names:
            self.put(name, FRENCH)
        return names

    def test_processes(self) -> None:
        """Many files are compiled by several processes, and refused in their order."""
        names = self.many(100)
        for number in (3, 50, 99):
            self.put(names[number], "\n" * number + "msg")
        for jobs in ("1", "4", "99"):
            status, out, err = self.call("-d", "many", "-j", jobs, "--statistics")
            self.assertEqual((status, out.splitlines()[-1]), (1, "97 files compiled"))
            self.assertEqual(out.splitlines()[0], f"4 of 4 messages (100%) translated in {names[0]}")
            self.assertEqual(err.splitlines()[:3], [f"{names[it]}:{it + 1}: unknown word" for it in (3, 50, 99)])
            self.assertEqual(len(self.made()), 97)

    def test_limited_processes(self) -> None:
        """Where the system allows no more processes, those that there are compile all files, or the first one does."""
        self.many(64)
        fork, files = os.fork, sorted(os.listdir("/proc/self/fd"))
        for most in (0, 1, 3):
            started: list[int] = []

            def forks() -> int:
                if len(started) == most:
                    raise BlockingIOError(errno.EAGAIN, "Resource temporarily unavailable")
                started.append(0)
                return fork()

            with mock.patch("os.fork", forks):
                self.assertEqual(self.call("-d", "many", "-j", "4"), (0, "64 files compiled\n", ""))
            self.assertEqual((len(started), len(self.made())), (most, 64))
        self.assertEqual(sorted(os.listdir("/proc/self/fd")), files)

    def test_ended(self) -> None:
        """A process that is killed ends the run, with a reason and without a wait."""
        names = self.many(64)
        os.unlink(names[0])
        os.mkfifo(names[0])  # (nobody writes to it)
        command = [sys.executable, "-m", "kobdzila", "compile", "-d", "many", "-j", "2"]
        with subprocess.Popen(command, stderr=subprocess.PIPE, stdout=subprocess.DEVNULL, text=True) as running:
            end, children = time.monotonic() + 300, Path(f"/proc/{running.pid}/task/{running.pid}/children")
            while len(children.read_text().split()) < 2 or len(list(Path("many").rglob("*.mo"))) < 40:
                self.assertLess(time.monotonic(), end)
                time.sleep(0.05)
            os.kill(int(children.read_text().split()[0]), signal.SIGKILL)
            _, said = running.communicate(timeout=300)
        self.assertEqual((running.returncode, "Traceback" in said), (1, False))
        self.assertIn("ended from outside", said)

    def test_left_over(self) -> None:
        """What a killed run has left is in nobody's way, also if this process has the number of that one."""
        script = 'touch "locale/fr/LC_MESSAGES/.shop.mo.$$.new" && exec "$@"'
        command = [sys.executable, "-m", "kobdzila", "compile", "-q", "locale/fr/LC_MESSAGES/shop.po"]
        done = subprocess.run(["sh", "-c", script, "sh", *command], stderr=subprocess.PIPE, check=False)
        self.assertEqual((done.returncode, done.stderr), (0, b""))
        for left in Path("locale/fr/LC_MESSAGES").glob(".*.new"):
            left.unlink()
        self.assertEqual(self.made(), ["locale/fr/LC_MESSAGES/shop.mo"])

    def test_not_writable(self) -> None:
        Path("x").write_text("")
        status, _, err = self.call("-i", "locale/fr/LC_MESSAGES/shop.po", "-o", "x/y.mo")
        self.assertEqual((status, err.splitlines()[0]), (1, "locale/fr/LC_MESSAGES/shop.po: x/y.mo: Not a directory"))
        with mock.patch("os.write", side_effect=OSError(errno.ENOSPC, "No space left")):
            status, _, err = self.call("locale/fr/LC_MESSAGES/shop.po")
        said = "locale/fr/LC_MESSAGES/shop.po: locale/fr/LC_MESSAGES/shop.mo: No space left"
        self.assertEqual((status, err.splitlines()[0], self.made()), (1, said, []))

    def test_temporary(self) -> None:
        """A temporary file has no more readers than the old file, and is removed if it can't take its place."""
        modes = []

        def note(file: int, data: bytes) -> None:
            modes.append(os.fstat(file).st_mode & 0o777)
            write_all(file, data)

        Path("x.mo").write_bytes(b"old")
        os.chmod("x.mo", 0o640)
        with mock.patch("kobdzila._compile.write_all", note):
            replace("x.mo", b"new")
        self.assertEqual((modes, os.stat("x.mo").st_mode & 0o777), ([0o600], 0o640))
        write = os.write
        with mock.patch("os.write", lambda file, some: write(file, some[:1])):  # (as on a disk that is nearly full)
            replace("x.mo", b"new")
        with mock.patch("os.replace", side_effect=OSError(errno.ENOSPC, "full")), self.assertRaises(OSError):
            replace("x.mo", b"newer")
        self.assertEqual(Path("x.mo").read_bytes(), b"new")
        self.assertEqual(self.made(), ["x.mo"])

    def test_unreadable_folder(self) -> None:
        """A folder of locales that can't be read is passed over, as other folders are."""
        os.chmod(".", 0o755)
        os.chmod("node_modules/x/locale", 0)
        before = os.geteuid()
        try:
            if before == 0:
                os.seteuid(65534)  # (root reads it)
            self.assertEqual(self.call("-n"), (0, "4 files checked\n", ""))
            status, _, err = self.call("-n", "-d", "node_modules/x/locale")
            self.assertEqual((status, "no PO files in node_modules/x/locale" in err), (2, True))
        finally:
            os.seteuid(before)
            os.chmod("node_modules/x/locale", 0o755)

    def test_another_group(self) -> None:
        if os.geteuid():
            self.skipTest("only root gives a file away")
        def give_group(path: str, user: int, group: int) -> None:
            if user != -1:
                raise PermissionError

        def refuse(path: str, user: int, group: int) -> None:
            raise PermissionError

        for give, mode, left in ((refuse, 0o644, 0o644), (refuse, 0o640, 0o600), (give_group, 0o6750, 0o750)):
            Path("x.mo").write_bytes(b"old")
            os.chown("x.mo", 12345, 12345)
            os.chmod("x.mo", mode)
            with mock.patch("os.chown", give):
                replace("x.mo", b"new")
            self.assertEqual(os.stat("x.mo").st_mode & 0o7777, left)

    def test_permissions(self) -> None:
        before = os.umask(0o027)
        try:
            self.call("-i", "locale/fr/LC_MESSAGES/shop.po", "-o", "x.mo")
        finally:
            os.umask(before)
        self.assertEqual(os.stat("x.mo").st_mode & 0o777, 0o640)
        os.chmod("x.mo", 0o600)
        self.assertEqual(self.call("-i", "locale/fr/LC_MESSAGES/shop.po", "-o", "x.mo")[0], 0)
        self.assertEqual(os.stat("x.mo").st_mode & 0o777, 0o600)

    def test_links(self) -> None:
        """The file that a link names is replaced, and the link stays, also one whose file isn't there yet."""
        wanted = compile_po(FRENCH.encode())
        for there in (b"old", None):
            Path("far").mkdir(exist_ok=True)
            if there:
                Path("far/shop.mo").write_bytes(there)
            link = Path("locale/fr/LC_MESSAGES/shop.mo")
            link.symlink_to("../../../far/shop.mo")
            self.assertEqual(self.call("locale/fr/LC_MESSAGES/shop.po")[0], 0)
            self.assertEqual((link.is_symlink(), Path("far/shop.mo").read_bytes()), (True, wanted))
            self.assertEqual(len(self.made()), 2)
        Path("loop.mo").symlink_to("loop.mo")
        status, _, err = self.call("-i", "locale/fr/LC_MESSAGES/shop.po", "-o", "loop.mo")
        self.assertEqual((status, "loop.mo: Too many levels" in err), (1, True))
        os.unlink("loop.mo")

    def test_streams(self) -> None:
        """A pipe or a device is written, also by a link to it, and stays what it is. A folder is refused."""
        wanted = compile_po(FRENCH.encode())
        os.mkfifo("pipe")
        Path("link").symlink_to("pipe")
        parent, child = pty.openpty()
        tty.setraw(child)
        self.addCleanup(os.close, parent)
        self.addCleanup(os.close, child)
        reader = os.open("pipe", os.O_RDONLY | os.O_NONBLOCK)
        self.addCleanup(os.close, reader)
        for name, file in (("pipe", reader), ("link", reader), (os.ttyname(child), parent)):
            before = os.lstat(name)
            self.assertEqual(self.call("-i", "locale/fr/LC_MESSAGES/shop.po", "-o", name)[0], 0)
            self.assertEqual(os.read(file, len(wanted) + 1), wanted)
            self.assertEqual((os.lstat(name).st_ino, os.lstat(name).st_mode), (before.st_ino, before.st_mode))
        Path("folder").mkdir()
        status, _, err = self.call("-i", "locale/fr/LC_MESSAGES/shop.po", "-o", "folder")
        self.assertEqual((status, "folder: Is a directory" in err), (1, True))
        self.assertEqual(self.made(), [])

    def test_statistics(self) -> None:
        self.put("a.po", HEADER + 'msgid "a"\nmsgstr "b"\n\n#, fuzzy\nmsgid "c"\nmsgstr "d"\n\nmsgid "e" msgstr ""\n\n'
                 'msgid "msgid \\"x\\""\nmsgstr "# msgid"\n\n# msgid "y"\n#~ msgid "z"\n#~ msgstr "z"\n')
        self.put("b.po", "")
        self.put("c.po", 'msgid "a"\nmsgid_plural "as"\nmsgstr[0] "b"\nmsgstr[1] "bs"\n')
        for option, said in (((), "2 of 4 messages (50%) translated, 1 fuzzy in a.po"),
                             (("-f",), "3 of 4 messages (75%) translated, 1 fuzzy in a.po")):
            self.assertEqual(self.call("--statistics", *option, "a.po")[1].splitlines()[0], said)
        self.assertEqual(self.call("--statistics", "-n", "b.po", "c.po")[1].splitlines(), [
            "0 of 0 messages (0%) translated in b.po", "1 of 1 messages (100%) translated in c.po", "2 files checked"])

    def test_bar(self) -> None:
        """A terminal shows the progress; nothing of it is left at the end."""
        parent, child = pty.openpty()
        done = subprocess.run([sys.executable, "-m", "kobdzila", "compile"], stdout=subprocess.PIPE, stderr=child,
                              check=False)
        os.close(child)
        said = b""
        with contextlib.suppress(OSError):
            while part := os.read(parent, 4096):
                said += part
        os.close(parent)
        self.assertEqual((done.returncode, done.stdout), (0, b"5 files compiled\n"))
        self.assertIn(b"] 5/5", said)
        self.assertTrue(said.endswith(b"\r\x1b[K"), said)

    @unittest.skipUnless(MSGUNFMT, "no msgunfmt of GNU gettext")
    def test_file_of_gnu(self) -> None:
        """GNU msgunfmt reads the same from this file as from GNU msgfmt's."""
        self.call("-i", "locale/fr/LC_MESSAGES/shop.po", "-o", "ours.mo")
        subprocess.run([str(GNU), "-o", "theirs.mo", "locale/fr/LC_MESSAGES/shop.po"], check=True)
        read = [subprocess.run([str(MSGUNFMT), it], capture_output=True, check=True).stdout for it in
                ("ours.mo", "theirs.mo")]
        self.assertEqual(read[0], read[1])

    @unittest.skipUnless(importlib.util.find_spec("babel"), "no Babel")
    def test_as_pybabel(self) -> None:
        """Options have the meaning that they have there: each MO file is in its place, with its texts."""
        for words in (["-d", "locale", "-D", "shop"], ["-d", "locale", "-D", "shop", "-l", "fr", "-f"],
                      ["-i", "locale/fr/LC_MESSAGES/shop.po", "-o", "x.mo", "--statistics"],
                      ["-i", "locale/fr/LC_MESSAGES/shop.po", "-d", "locale", "-l", "pt_BR", "-D", "shop"]):
            subprocess.run([sys.executable, "-W", "ignore", "-m", "babel.messages.frontend", "compile", *words],
                           check=True, capture_output=True)
            theirs = {str(it): kobdzila.GNUTranslations(it) for it in Path(".").rglob("*.mo")}
            names = self.made()
            self.assertEqual(self.call(*words)[0], 0)
            for name in names:
                ours = kobdzila.GNUTranslations(name)
                self.assertEqual([ours.gettext("basket"), ours.npgettext("menu", "%d item", "", 2)],
                                 [theirs[name].gettext("basket"), theirs[name].npgettext("menu", "%d item", "", 2)])
            self.assertEqual(self.made(), names, words)

    @unittest.skipUnless(importlib.util.find_spec("django") and GNU, "no Django, or no GNU msgfmt")
    def test_as_django(self) -> None:
        """compilemessages makes the same files."""
        for options in ("", "-l fr", "-x pt_BR", "-i node_modules -i app", "-f --locale=pt_BR"):
            words = options.split()
            django = [sys.executable, "-W", "ignore", "-m", "django", "compilemessages", *words]
            subprocess.run(django, check=True, capture_output=True)
            names = self.made()
            self.assertEqual(self.call(*words)[0], 0)
            self.assertEqual(self.made(), names, words)

    @unittest.skipUnless(shutil.which("pre-commit") and shutil.which("git"), "no pre-commit, or no git")
    def test_hook(self) -> None:
        """A repository of someone with the hook: a PO file with a fault isn't committed."""
        hooks = self.room / "hooks"
        hooks.mkdir()
        shutil.copy(TOP / ".pre-commit-hooks.yaml", hooks)
        (self.room / "bin").mkdir()
        (self.room / "bin" / "python3").write_text(f'#!/bin/sh\nexec "{sys.executable}" "$@"\n')
        (self.room / "bin" / "python3").chmod(0o755)
        site = self.room / "site"
        site.mkdir()
        named = {f"GIT_{who}_{what}": "x" for who in ("AUTHOR", "COMMITTER") for what in ("NAME", "EMAIL")}
        variables = {**os.environ, **named, "PRE_COMMIT_HOME": str(self.room / "home"), "HOME": str(self.room),
                     "PATH": f"{self.room}/bin:{os.environ['PATH']}"}

        def run(folder: Path, *command: str, status: int = 0) -> str:
            done = subprocess.run(command, cwd=folder, env=variables, text=True, check=False, stdout=subprocess.PIPE,
                                  stderr=subprocess.STDOUT)
            self.assertEqual(done.returncode, status, done.stdout)
            return done.stdout

        for folder in (hooks, site):
            run(folder, "git", "init", "-q", "-b", "main")
        run(hooks, "git", "add", ".")
        run(hooks, "git", "commit", "-q", "-m", "hooks")
        revision = run(hooks, "git", "rev-parse", "HEAD").strip()
        (site / ".pre-commit-config.yaml").write_text(
            f"repos:\n  - repo: {hooks}\n    rev: {revision}\n    hooks:\n      - id: check-po\n")
        (site / "fr.po").write_text(FRENCH, encoding="utf-8")
        run(site, "git", "add", ".")
        run(site, "pre-commit", "install")
        run(site, "git", "commit", "-q", "-m", "well")
        (site / "fr.po").write_text(FRENCH.replace('"panier"', '"panier'), encoding="utf-8")
        line = FRENCH[:FRENCH.index('"panier"')].count("\n") + 1
        run(site, "git", "add", ".")
        said = run(site, "git", "commit", "-q", "-m", "broken", status=1)
        self.assertIn(f"fr.po:{line}: string not closed", said)


if __name__ == "__main__":
    unittest.main()
