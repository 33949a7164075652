"""A folder of catalogues that changes while a store is watched over it."""
from __future__ import annotations

import contextlib
import errno
import os
import subprocess
import sys
import tempfile
import threading
import time
import unittest
from collections.abc import Callable
from pathlib import Path
from typing import Any
from unittest import mock

import kobdzila
from common import allocated, needs_mallinfo
from kobdzila import Catalogue, Fault, FileRefused, Store, Watch

END_OF_PROCESS = """
import sys, kobdzila
store = kobdzila.Store("shop")
watch = store.watch(sys.argv[1], every=0.01)
print(store.version, flush=True)
"""

SIGNALS = """
import os, signal, sys, threading, time, kobdzila
from pathlib import Path
file, looks = Path(sys.argv[1]), []
watch = kobdzila.Store("shop").watch(file.parents[2], every=30, settle=0.3)
signal.signal(signal.SIGHUP, lambda *_: looks.append(watch.look()))
file.write_bytes(file.read_bytes() + b"# new")
threading.Timer(0.1, os.kill, [os.getpid(), signal.SIGHUP]).start()
os.kill(os.getpid(), signal.SIGHUP)
while len(looks) < 2:
    time.sleep(0.01)
print(looks)
"""

# the thread of the watch waits for the look that is interrupted
STOPS_IN_HANDLER = """
import os, signal, sys, threading, kobdzila
from pathlib import Path
file = Path(sys.argv[1])
watch = kobdzila.Store("shop").watch(file.parents[2], every=0.02, settle=0.5)
signal.signal(signal.SIGTERM, lambda *_: watch.stop())
file.write_bytes(file.read_bytes() + b"# new")
threading.Timer(0.25, os.kill, [os.getpid(), signal.SIGTERM]).start()
watch.look()
print("stopped")
"""


def po(text: str) -> bytes:
    return f'msgid "a"\nmsgstr "{text}"\n'.encode()


def mo(text: str) -> bytes:
    return Catalogue.from_po(po(text)).mo_file()


class WatchTest(unittest.TestCase):
    def setUp(self) -> None:
        room = tempfile.TemporaryDirectory()
        self.addCleanup(room.cleanup)
        self.folder, self.store = Path(room.name, "locale"), Store("shop")
        self.folder.mkdir()
        self.refused: list[FileRefused] = []

    def watch(self, every: float = 0.02, settle: float = 0.03, **options: Any) -> Watch:
        watch = self.store.watch(self.folder, refused=self.refused.append, every=every, settle=settle, **options)
        self.addCleanup(watch.stop)
        return watch

    def path(self, locale: str, name: str = "shop.po") -> Path:
        folder = self.folder / locale / "LC_MESSAGES"
        folder.mkdir(parents=True, exist_ok=True)
        return folder / name

    def put(self, path: Path, data: bytes) -> None:
        """Write a file as programs do that take care: under another name, which is then renamed."""
        path.with_suffix(".new").write_bytes(data)
        os.replace(path.with_suffix(".new"), path)

    def text(self, locale: str = "fr", domain: str = "shop") -> str:
        with self.store.snapshot(locale, domain) as texts:
            return texts.gettext("a")

    def until(self, what: Callable[[], object]) -> None:
        end = time.monotonic() + 30
        while not what():
            self.assertLess(time.monotonic(), end, "it didn't come to that in time")
            time.sleep(0.005)

    def test_what_is_there(self) -> None:
        self.put(self.path("fr"), po("f1"))
        self.put(self.path("de", "shop.mo"), mo("d1"))
        self.put(self.path("de", "mail.mo"), mo("m1"))
        self.put(self.path("sv", "mail.new"), mo("no"))
        self.put(self.path("sv", ".hidden.po"), po("no"))
        (self.folder / "shop.po").write_bytes(po("no"))
        self.path("it").mkdir()
        os.mkfifo(self.path("it", "mail.po"))
        self.watch()
        self.assertEqual((self.text("fr"), self.text("de"), self.text("de", "mail")), ("f1", "d1", "m1"))
        self.assertEqual((self.store.version, self.refused), (3, []))

    def test_renamed(self) -> None:
        self.put(self.path("fr"), po("f1"))
        self.watch()
        for number in range(2, 6):
            self.put(self.path("fr"), po(f"f{number}"))
            self.until(lambda: self.text() == f"f{number}")
        self.put(self.path("fr", "mail.mo"), mo("m"))
        self.put(self.path("sv"), po("s"))
        self.until(lambda: self.text("fr", "mail") == "m" and self.text("sv") == "s")
        self.assertEqual(self.refused, [])

    def test_written_in_place(self) -> None:
        """A file that is written piece by piece is loaded once, when it is complete."""
        self.put(self.path("fr"), po("f1"))
        self.watch(settle=0.4)
        with self.path("fr").open("wb") as file:
            for number in range(130):
                file.write(b'msgid "m%d"\nmsgstr "x"\n\n' % number)
                file.flush()
                time.sleep(0.01)
                self.assertEqual(self.store.version, 1)
            file.write(po("f2"))
        self.until(lambda: self.text() == "f2")
        self.assertEqual((self.store.version, self.refused), (2, []))

    def test_one_publish(self) -> None:
        """Files that change together are shown together."""
        locales, end, wrong = ("fr", "de", "sv", "it"), threading.Event(), []
        for locale in locales:
            self.put(self.path(locale), po("1"))
        self.watch(settle=0.2)

        def read() -> None:
            while not end.is_set():
                with self.store.snapshot("fr") as texts:
                    seen = {texts.find("shop", locale, "a") for locale in locales}
                if len(seen) != 1:
                    wrong.append(seen)

        thread = threading.Thread(target=read)
        thread.start()
        for number in range(2, 8):
            for locale in locales:
                self.put(self.path(locale), po(f"{number}"))
            self.until(lambda: self.text("it") == f"{number}")
        end.set()
        thread.join()
        self.assertEqual((wrong[:3], self.store.version), ([], 7 * len(locales)))

    def test_refused(self) -> None:
        self.put(self.path("fr"), po("f1"))
        self.put(self.path("de"), po("d1"))
        self.watch()
        self.put(self.path("fr"), b'msgid "a"\n\nmsgstr "f\\y"\n')
        self.put(self.path("de"), po("d2"))
        self.until(lambda: self.text("de") == "d2" and self.refused)  # (it is reported once the other is shown)
        self.assertEqual(self.text("fr"), "f1")
        self.assertEqual(self.refused, [(self.path("fr"), 3, Fault.PO_BAD_ESCAPE, "bad escape")])
        self.assertEqual(str(self.refused[0]), f"{self.path('fr')}:3: bad escape")
        self.put(self.path("fr", "shop.mo"), mo("f2")[:-3])
        self.put(self.path("fr", "a b.po"), po("x"))
        self.until(lambda: len(self.refused) == 3)
        self.assertEqual({(it.path.name, it.line, it.fault) for it in self.refused[1:]},
                         {("shop.mo", 0, Fault.MO_BOUNDS), ("a b.po", 0, Fault.BAD_NAME)})
        self.put(self.path("fr"), po("f3"))
        self.until(lambda: self.text("fr") == "f3")
        self.assertEqual(len(self.refused), 3)  # (each one was reported once)

    def test_options(self) -> None:
        self.put(self.path("fr"), b'#, c-format\nmsgid "%d"\nmsgstr "%s"\n')
        self.put(self.path("de"), b'#, fuzzy\nmsgid "a"\nmsgstr "d"\n')
        self.put(self.path("de", "mail.po"), po("m"))
        self.watch(checked=True, use_fuzzy=True, domains=["shop"])
        self.assertEqual([it.fault for it in self.refused], [Fault.PO_FORMAT_MISMATCH])
        self.assertEqual((self.text("de"), self.text("de", "mail"), self.store.version), ("d", "a", 1))
        with self.assertRaisesRegex(TypeError, r"write \['shop'\]"):
            self.watch(domains="shop")

    def test_both_formats(self) -> None:
        """The file that was modified last is shown, in either order."""
        self.put(self.path("fr", "shop.mo"), mo("old"))
        self.put(self.path("fr"), po("new"))
        self.put(self.path("de", "shop.mo"), mo("new"))
        self.put(self.path("de"), po("old"))
        os.utime(self.path("fr", "shop.mo"), (1, 1))
        os.utime(self.path("de"), (1, 1))
        self.watch()
        self.assertEqual((self.text("fr"), self.text("de")), ("new", "new"))
        self.put(self.path("fr", "shop.mo"), mo("newest"))
        self.until(lambda: self.text("fr") == "newest")
        os.utime(self.path("de"))
        self.until(lambda: self.text("de") == "old")

    def test_older_beside_the_other(self) -> None:
        """A file that arrives with an older time, as by `rsync -a`, isn't shown, as for a watch that starts then."""
        watches = [self.watch(every=30)]
        for number, (name, other) in enumerate((("shop.mo", "shop.po"), ("shop.po", "shop.mo")), 1):
            self.put(self.path("fr", name), mo(f"f{number}") if name == "shop.mo" else po(f"f{number}"))
            watches[0].look()
            self.put(self.path("fr", other), po("old") if name == "shop.mo" else mo("old"))
            os.utime(self.path("fr", other), (number, number))
            self.assertEqual((watches[0].look(), self.text()), (None, f"f{number}"))
            watches.append(self.watch(every=30))
            self.assertEqual(self.text(), f"f{number}")
            os.utime(self.path("fr", other))
            self.assertIsNotNone(watches[0].look())
            self.assertEqual(self.text(), "old")
            self.path("fr", other).unlink()
            watches[0].look()
            self.assertEqual((self.text(), self.refused), (f"f{number}", []))

    def test_removed_beside_the_other(self) -> None:
        """When the file that is shown is removed, the one in the other format is shown."""
        self.put(self.path("fr", "shop.mo"), mo("mo"))
        self.put(self.path("fr"), po("po"))
        os.utime(self.path("fr", "shop.mo"), (1, 1))
        watch = self.watch(every=30)
        self.assertEqual(self.text(), "po")
        self.path("fr").unlink()
        self.assertEqual((watch.look(), self.text()), (3, "mo"))
        self.assertIsNone(watch.look())
        self.put(self.path("fr"), po("po"))
        self.assertEqual((watch.look(), self.text()), (4, "po"))
        self.path("fr", "shop.mo").unlink()
        self.assertIsNone(watch.look())
        self.path("fr").unlink()
        self.assertIsNone(watch.look())
        self.assertEqual((self.text(), self.refused), ("po", []))

    def test_removed_beside_a_refused_one(self) -> None:
        """A file that is refused in place of the one that was removed is reported once, until it changes."""
        for data, name, fault in ((b"message", "shop.po", Fault.PO_BAD_WORD), (b"# nothing\n", "shop.po", None),
                                  (mo("x")[:-3], "shop.mo", Fault.MO_BOUNDS)):
            shown, other = self.path("fr", "shop.mo" if name == "shop.po" else "shop.po"), self.path("fr", name)
            self.put(shown, mo("f1") if name == "shop.po" else po("f1"))
            self.put(other, data)
            os.utime(other, (1, 1))
            with self.watch(every=30) as watch:
                shown.unlink()
                self.refused.clear()
                self.assertEqual([watch.look() for _ in range(3)], [None] * 3)
                self.assertEqual([(it.path, it.fault) for it in self.refused], [(other, fault)])
                self.put(other, mo("f2") if name == "shop.mo" else po("f2"))
                watch.look()
                self.assertEqual((self.text(), len(self.refused)), ("f2", 1))
            other.unlink()

    def test_empty(self) -> None:
        """A file without a message replaces none that has messages, unless that is wanted."""
        header = b'msgid ""\nmsgstr "Language: fr\\n"\n'
        self.put(self.path("fr"), po("f1"))
        self.put(self.path("de"), header)
        watch = self.watch(every=30)
        self.assertEqual(self.store.version, 2)
        for number, data in enumerate((b"", header, header + b'\nmsgid "a"\nmsgstr ""\n', b"# nothing\n"), 1):
            self.put(self.path("fr"), data)
            self.put(self.path("de"), data + b"# %d\n" % number)
            self.assertEqual((watch.look(), self.text()), (2 + number, "f1"))
            self.assertIsNone(watch.look())
            self.assertEqual(len(self.refused), number)
        self.assertEqual((self.refused[0].path, self.refused[0].fault), (self.path("fr"), None))
        self.assertIn("no messages", str(self.refused[0]))
        self.put(self.path("fr", "shop.mo"), Catalogue.from_po(header).mo_file())
        self.assertEqual((watch.look(), self.text(), len(self.refused)), (None, "f1", 5))
        self.put(self.path("fr"), po("f2"))
        watch.look()
        self.assertEqual(self.text(), "f2")
        watch.stop()
        allowing = self.watch(every=30, allow_empty=True)
        self.put(self.path("fr"), b"")
        allowing.look()
        self.assertEqual(self.text(), "a")

    def test_nothing_new(self) -> None:
        """A file that has other times and the bytes it had isn't loaded; one that is gone stays loaded."""
        self.put(self.path("fr"), po("f"))
        self.put(self.path("de"), b"message")
        watch = self.watch(every=30)
        os.utime(self.path("fr"))
        os.utime(self.path("de"))
        self.assertIsNone(watch.look())
        self.path("fr").unlink()
        self.assertIsNone(watch.look())
        self.assertEqual((self.store.version, len(self.refused), self.text()), (1, 1, "f"))
        self.put(self.path("fr"), po("g"))
        self.assertEqual((watch.look(), self.text()), (2, "g"))

    def test_old_time(self) -> None:
        """Other bytes are loaded, also with the size and the time that the old ones had."""
        self.put(self.path("fr"), po("f1"))
        watch = self.watch(every=30)
        before = os.stat(self.path("fr"))
        self.path("fr").write_bytes(po("f2"))
        os.utime(self.path("fr"), ns=(before.st_atime_ns, before.st_mtime_ns))
        watch.look()
        self.assertEqual(self.text(), "f2")

    def test_restless(self) -> None:
        """A file that changes all the time delays the others, but not for ever."""
        self.put(self.path("fr"), po("f1"))
        watch = self.watch(every=30)
        end = threading.Event()

        def change() -> None:
            begun, number = time.monotonic(), 0
            while not end.is_set() and time.monotonic() - begun < 20:
                self.put(self.path("de"), po(f"d{number}"))
                number += 1

        restless = threading.Thread(target=change)
        restless.start()
        try:
            self.until(self.path("de").exists)
            self.put(self.path("fr"), po("f2"))
            with mock.patch("kobdzila._watch.PATIENCE", 0.3):
                watch.look()
            self.assertTrue(restless.is_alive())
        finally:
            end.set()
            restless.join()
        self.assertEqual(self.text(), "f2")

    @needs_mallinfo
    def test_memory(self) -> None:
        """A watch frees a replaced version once its last snapshot is closed, though nothing is published."""
        text = b'msgid "m%d"\nmsgstr "%01000d"\n\n'
        self.store.load("shop", "fr", b"".join(text % (number, number) for number in range(10000)))
        self.store.publish()
        self.watch()
        texts = self.store.snapshot("fr")
        self.store.load("shop", "fr", po("f1"))
        self.store.publish()
        before = allocated()
        time.sleep(0.2)
        self.assertGreater(allocated(), before - 1_000_000)
        texts.close()
        self.until(lambda: allocated() < before - 9_000_000)

    def test_no_file(self) -> None:
        """A folder that can't be read, or a link to nothing, changes nothing."""
        watch = self.watch(every=30)
        self.path("fr").symlink_to("none")
        (self.folder / "de").write_bytes(b"no folder")
        self.assertIsNone(watch.look())
        self.folder.rename(self.folder.with_name("other"))
        self.assertIsNone(watch.look())
        self.folder.with_name("other").rename(self.folder)
        (self.path("fr").parent / "none").write_bytes(po("f"))
        self.assertEqual((watch.look(), self.text(), self.refused), (1, "f", []))
        for folder in ("none", "de"):
            with self.assertRaises(OSError):
                self.store.watch(self.folder / folder)

    def test_working_directory(self) -> None:
        """A program that goes to another directory, as a daemon does, goes on watching the folder that it named."""
        self.put(self.path("fr"), po("f1"))
        self.addCleanup(os.chdir, os.getcwd())
        os.chdir(self.folder.parent)
        watch = self.store.watch("locale", refused=self.refused.append, every=30, settle=0.01)
        self.addCleanup(watch.stop)
        os.chdir("/")
        self.put(self.path("fr"), po("f2"))
        self.assertEqual((watch.look(), self.text()), (2, "f2"))
        self.put(self.path("fr"), b"msg")
        watch.look()
        self.assertEqual([str(it) for it in self.refused], [f"{self.path('fr')}:1: unknown word"])

    def test_unreadable(self) -> None:
        """A file whose bytes can't be read (by root neither, so it is the memory of this process) is reported."""
        self.path("fr").symlink_to("/proc/self/mem")
        watch = self.watch(every=30)
        self.assertEqual([(it.path, it.fault, it.line) for it in self.refused], [(self.path("fr"), None, 0)])
        self.put(self.path("fr"), po("f"))
        self.assertEqual((watch.look(), self.text()), (1, "f"))

    def test_unreadable_for_a_while(self) -> None:
        """A file that can't be read when it has changed is reported once, and loaded as soon as it can be read."""
        self.put(self.path("fr"), po("f1"))
        watch = self.watch(every=30, settle=0.01)
        self.put(self.path("fr"), po("f2"))
        with mock.patch.object(Path, "read_bytes", side_effect=OSError(errno.EMFILE, "Too many open files")):
            self.assertEqual((watch.look(), watch.look(), self.text()), (None, None, "f1"))
        self.assertEqual([str(it) for it in self.refused], [f"{self.path('fr')}: Too many open files"])
        self.assertEqual((watch.look(), self.text(), len(self.refused)), (2, "f2", 1))

    def test_callback_that_exits(self) -> None:
        """A callback that calls sys.exit ends the call of `watch`. In the thread it is logged, and the watch stays."""
        self.put(self.path("fr"), po("f1"))
        watch = self.store.watch(self.folder, refused=lambda file: sys.exit(1), every=0.02, settle=0.02)
        self.addCleanup(watch.stop)
        with self.assertLogs("kobdzila") as logged:
            self.put(self.path("fr"), b"message")
            self.until(lambda: logged.output)
        self.assertIn("SystemExit", logged.output[0])
        self.put(self.path("fr"), po("f2"))
        self.until(lambda: self.text() == "f2")
        self.put(self.path("fr"), b"message")
        with self.assertRaises(SystemExit):
            self.store.watch(self.folder, refused=lambda file: sys.exit(1))

    def test_trouble(self) -> None:
        """Neither a callback nor a store that fails ends the thread."""
        self.put(self.path("fr"), b"message")
        with self.assertLogs("kobdzila") as logged:
            watch = self.store.watch(self.folder, refused=lambda file: 1 / 0, every=0.02, settle=0.02)
            self.addCleanup(watch.stop)
        self.assertIn("ZeroDivisionError", logged.output[0])
        with mock.patch.object(self.store, "_publish", side_effect=MemoryError):
            with self.assertLogs("kobdzila") as logged:
                self.put(self.path("fr"), po("f1"))
                self.until(lambda: logged.output)
            self.assertIn("MemoryError", logged.output[0])
            self.assertEqual(self.text(), "a")
        with contextlib.suppress(AssertionError), self.assertLogs("kobdzila"):
            self.until(lambda: self.text() == "f1")

    def test_logged(self) -> None:
        self.put(self.path("fr"), b"\n\nmessage")
        with self.assertLogs("kobdzila", "WARNING") as logged, self.store.watch(self.folder):
            pass
        self.assertEqual(logged.output, [f"WARNING:kobdzila:{self.path('fr')}:3: unknown word"])

    def test_stop(self) -> None:
        with self.watch() as watch:
            self.put(self.path("fr"), po("f1"))
            self.until(lambda: self.text() == "f1")
        self.put(self.path("fr"), po("f2"))
        time.sleep(0.2)
        self.assertEqual((self.text(), [it for it in threading.enumerate() if "kobdzila" in it.name]), ("f1", []))
        watch.stop()
        self.assertEqual((watch.look(), self.text()), (2, "f2"))

    def test_stop_from_callback(self) -> None:
        stopped = threading.Event()

        def stop(file: FileRefused) -> None:
            watch.stop()
            stopped.set()

        watch = self.store.watch(self.folder, refused=stop, every=0.01, settle=0.01)
        self.put(self.path("fr"), b"message")
        self.assertTrue(stopped.wait(30))

    def test_callback_of_a_look(self) -> None:
        """In any thread a callback may look again, or stop the watch, whose own thread waits for its turn to look."""
        for every in (30, 0.001):
            ended: list[object] = []
            watch = self.store.watch(self.folder, refused=lambda _: ended.append(work()), every=every, settle=0.01)

            def stop() -> None:
                time.sleep(0.1)
                watch.stop()

            work: Callable[[], object] = watch.look if every == 30 else stop
            self.put(self.path("fr"), b"message %f" % every)
            thread = threading.Thread(target=watch.look, daemon=True)
            thread.start()
            thread.join(30)
            self.assertFalse(thread.is_alive(), "the callback waits forever")
            self.until(lambda: ended)
            watch.stop()
            self.path("fr").unlink()

    def test_look_of_a_signal_handler(self) -> None:
        """The handler of a signal that comes twice looks within its own look."""
        self.put(self.path("fr"), po("f"))
        done = subprocess.run([sys.executable, "-W", "error", "-c", SIGNALS, str(self.path("fr"))], timeout=60,
                              capture_output=True, text=True, check=False)
        self.assertEqual((done.returncode, done.stdout, done.stderr), (0, "[2, None]\n", ""))

    def test_stop_of_a_signal_handler(self) -> None:
        """A handler that stops the watch may interrupt a look, for which the thread waits."""
        self.put(self.path("fr"), po("f"))
        done = subprocess.run([sys.executable, "-W", "error", "-c", STOPS_IN_HANDLER, str(self.path("fr"))], timeout=30,
                              capture_output=True, text=True, check=False)
        self.assertEqual((done.returncode, done.stdout, done.stderr), (0, "stopped\n", ""))

    def test_end_of_process(self) -> None:
        self.put(self.path("fr"), po("f"))
        begun = time.monotonic()
        done = subprocess.run([sys.executable, "-W", "error", "-c", END_OF_PROCESS, str(self.folder)], timeout=60,
                              capture_output=True, text=True, check=False)
        self.assertEqual((done.returncode, done.stdout, done.stderr), (0, "1\n", ""))
        self.assertLess(time.monotonic() - begun, 20)


if __name__ == "__main__":
    unittest.main()
