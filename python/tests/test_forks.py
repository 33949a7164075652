"""Servers that fork: what a forked child does with its parent's store, watch and session."""
from __future__ import annotations

import contextlib
import importlib.util
import itertools
import os
import re
import signal
import socket
import subprocess
import sys
import tempfile
import threading
import time
import traceback
import unittest
import urllib.request
import warnings
from collections.abc import Callable, Iterator
from pathlib import Path

import kobdzila
from common import SANITIZED
from kobdzila import Session, SessionEnded, Store, _forks

# (a child whose parent had threads may wait for GCC's allocator under AddressSanitizer, which isn't held in a fork)
if SANITIZED:
    raise unittest.SkipTest("AddressSanitizer's allocator isn't held in a fork")

FORKS = int(os.environ.get("KOBDZILA_FORKS", "120"))
MOST_SECONDS = 60  # after which a child counts as one that hangs

APPLICATION = """
import os, sys, kobdzila

store = kobdzila.Store("shop")
store.watch({folder!r}, every=0.05, settle=0.02)
loaded_by = os.getpid()


def page(environ, start_response):
    texts = environ["kobdzila.snapshot"]
    start_response("200 OK", [("Content-Type", "text/plain"), ("Connection", "close")])
    return [f"{{loaded_by == os.getpid()}} {{os.getpid()}} {{texts.gettext('a')}}".encode()]


application = kobdzila.WSGIMiddleware(page, store)
"""


# Forks as servers written in C do (uWSGI): they call fork, and in the child what Python does after it.
FORKS_OF_C = """
import ctypes, test_forks

after = ctypes.cast(ctypes.pythonapi.PyOS_AfterFork_Child, ctypes.c_void_p)
ctypes.CDLL(None).__register_atfork(None, None, after, None)
test_forks.StoreTest().beside_publishes(test_forks.publishes, ctypes.PyDLL(None).fork)
"""

# What a worker of uWSGI does with a watch of its master: it was forked without Python's knowledge, and ends.
STOPS_IN_WORKER = """
import ctypes, os, signal, sys, kobdzila

watch = kobdzila.Store("shop").watch(sys.argv[1], every=0.05)
child = ctypes.PyDLL(None).fork()
if not child:
    signal.alarm(int(sys.argv[2]))
    watch.stop()
    os._exit(0)
print(os.waitpid(child, 0)[1])
"""


def po(text: str, count: int = 1) -> bytes:
    return f'msgid "a"\nmsgstr "{text}"\n'.encode() + b"".join(
        b'\nmsgid "m%d"\nmsgstr "%s"\n' % (number, text.encode()) for number in range(1, count))


def forked(work: Callable[[], object], fork: Callable[[], int] = os.fork) -> int:
    """Fork, and return the number of the child, which ends with status 0 if the work was done."""
    with warnings.catch_warnings():
        warnings.simplefilter("ignore", DeprecationWarning)  # (Python 3.12 and later warn of threads)
        child = fork()
    if child:
        return child
    try:
        signal.signal(signal.SIGALRM, signal.SIG_DFL)
        signal.alarm(MOST_SECONDS)
        work()
        os._exit(0)
    except BaseException:
        traceback.print_exc()
        os._exit(1)


def end_of(child: int) -> str:
    """How a child ended: "" if it did its work."""
    _, status = os.waitpid(child, 0)
    if os.WIFSIGNALED(status):
        return "it hung" if os.WTERMSIG(status) == signal.SIGALRM else f"signal {os.WTERMSIG(status)}"
    return f"status {os.WEXITSTATUS(status)}" if status else ""


def text(store: Store) -> str:
    with store.snapshot("fr") as texts:
        return texts.gettext("a")


def publishes(store: Store) -> None:
    assert store.version > 0 and text(store) in ("one", "two")
    store.load("shop", "fr", po("three"))
    store.publish()
    assert text(store) == "three"


def until(what: Callable[[], object]) -> None:
    end = time.monotonic() + MOST_SECONDS
    while not what():
        assert time.monotonic() < end, "it didn't come to that in time"
        time.sleep(0.005)


@contextlib.contextmanager
def in_background(*works: Callable[[], object]) -> Iterator[None]:
    """Do each work again and again, in a thread of its own."""
    ended = threading.Event()

    def run(work: Callable[[], object]) -> None:
        while not ended.wait(0.0005):  # (so that it leaves some of a slow machine to the children)
            work()

    threads = [threading.Thread(target=run, args=[work]) for work in works]
    for thread in threads:
        thread.start()
    try:
        yield
    finally:
        ended.set()
        for thread in threads:
            thread.join()


class Folder(unittest.TestCase):
    def setUp(self) -> None:
        room = tempfile.TemporaryDirectory()
        self.addCleanup(room.cleanup)
        self.folder = Path(room.name, "locale")
        (self.folder / "fr" / "LC_MESSAGES").mkdir(parents=True)

    def put(self, data: bytes) -> None:
        path = self.folder / "fr" / "LC_MESSAGES" / "shop.po"
        path.with_suffix(".new").write_bytes(data)
        os.replace(path.with_suffix(".new"), path)


class StoreTest(unittest.TestCase):
    def test_goes_on(self) -> None:
        """The child's store goes on from its version, and what is pending at the fork is so in both."""
        store = Store("shop")
        store.load("shop", "fr", po("one"))
        store.publish()
        before = store.snapshot("fr")
        store.load("shop", "fr", po("two"))

        def work() -> None:
            assert (store.version, store.pending, text(store)) == (1, 1, "one")
            assert store.publish() == 2 and text(store) == "two"
            store.load("shop", "fr", po("three"))
            assert store.publish() == 3 and text(store) == "three"
            assert (before.gettext("a"), before.version) == ("one", 1)
            assert store.snapshot("fr", at_least=3, within=1).version == 3

        self.assertEqual(end_of(forked(work)), "")
        self.assertEqual((store.version, store.pending, text(store)), (1, 1, "one"))
        self.assertEqual((store.publish(), text(store)), (2, "two"))

    def beside_publishes(self, work: Callable[[Store], object], fork: Callable[[], int] = os.fork) -> None:
        store, files = Store("shop"), [kobdzila.Catalogue.from_po(po(name, 2_000)) for name in ("one", "two")]
        store.load("shop", "fr", files[0])
        store.publish()

        def replaces(number: int) -> Callable[[], object]:
            def loads() -> object:
                store.load("shop", "fr", files[number])
                return store.publish(), store.version, text(store)

            return loads

        ends: dict[str, int] = {}
        with in_background(replaces(0), replaces(1)):
            for _ in range(FORKS):
                end = end_of(forked(lambda: work(store), fork))
                ends[end] = ends.get(end, 0) + 1
                self.assertLess(ends.get("it hung", 0), 3)
        self.assertEqual(ends, {"": FORKS})

    def test_beside_publishes(self) -> None:
        """Every call of a store works in a child, whatever the other threads of the parent did at the fork."""
        def work(store: Store) -> None:
            version = store.version
            assert version > 0 and store.pending <= 2
            texts = [store.snapshot("fr") for _ in range(4)]  # (more than the parent has readers)
            assert {it.gettext("m1999") for it in texts} <= {"one", "two"}
            assert len({it.version for it in texts}) == 1
            pending = store.pending
            store.load("shop", "fr", po("three"))
            assert store.publish() == store.version == version + pending + 1 and text(store) == "three"
            other = Store("shop")
            other.load("shop", "fr", po("four"))
            assert other.publish() == 1 and text(other) == "four"

        self.beside_publishes(work)

    @unittest.skipIf(sys.version_info >= (3, 13), "from Python 3.13 on an interpreter survives no fork but its own")
    def test_forks_of_c(self) -> None:
        """The library's locks are free in the child, though no thread of Python's knew of the fork."""
        paths = os.pathsep.join([str(Path(__file__).parent), *sys.path])
        done = subprocess.run([sys.executable, "-c", FORKS_OF_C], env={**os.environ, "PYTHONPATH": paths},
                              capture_output=True, text=True, timeout=10 * MOST_SECONDS)
        self.assertEqual((done.returncode, done.stderr), (0, ""))

    def test_groups(self) -> None:
        """A group of loads that belongs together is whole in each child."""
        store = Store("shop")
        groups = [[("shop", locale, kobdzila.Catalogue.from_po(po(name))) for locale in ("fr", "de", "sv", "it")]
                  for name in ("one", "two")]
        store._publish_all(groups[0])

        def work() -> None:
            assert store.pending == 0
            store.publish()
            with store.snapshot("fr") as texts:
                assert len({texts.find("shop", locale, "a") for locale in ("fr", "de", "sv", "it")}) == 1

        with in_background(*(lambda group=group: store._publish_all(group) for group in groups)):
            self.assertEqual({end_of(forked(work)) for _ in range(FORKS // 3)}, {""})

    def test_forks_in_children(self) -> None:
        store = Store("shop")
        store.load("shop", "fr", po("one"))
        store.publish()

        def child() -> None:
            store.load("shop", "fr", po("two"))
            store.publish()
            assert end_of(forked(lambda: grandchild())) == ""
            assert text(store) == "two"

        def grandchild() -> None:
            assert (store.version, text(store)) == (2, "two")
            store.load("shop", "fr", po("three"))
            store.publish()

        self.assertEqual((end_of(forked(child)), text(store)), ("", "one"))

    def test_threads_that_fork(self) -> None:
        store = Store("shop")
        store.load("shop", "fr", po("one"))
        store.publish()
        ends: list[str] = []

        def work() -> None:
            for _ in range(FORKS // 12):
                ends.append(end_of(forked(lambda: store.publish() == 1 and text(store))))

        threads = [threading.Thread(target=work) for _ in range(4)]
        for thread in threads:
            thread.start()
        for thread in threads:
            thread.join()
        self.assertEqual(set(ends), {""})

    def test_only_what_lives(self) -> None:
        """A store that is gone takes no part, and locks are free after a fork."""
        before = len(_forks._parts)
        stores = [Store() for _ in range(10)]
        self.assertEqual(len(_forks._parts), before + 10)
        self.assertEqual(end_of(forked(lambda: [store.publish() for store in stores])), "")
        threads = [threading.Thread(target=store.publish) for store in stores]
        for thread in threads:
            thread.start()
        for thread in threads:
            thread.join(MOST_SECONDS)
            self.assertFalse(thread.is_alive())
        del stores, threads, thread
        self.assertEqual(len(_forks._parts), before)

    def test_failed_part(self) -> None:
        """A part that can't go on is logged, and the others go on."""
        class Part:
            def _fork_locks(self) -> list[threading.Lock]:
                return []

            def _forked(self) -> None:
                raise OSError("no more of it")

        part, store = Part(), Store("shop")
        _forks.register(part)
        setattr(store, "_forked", None)  # (one that isn't callable fails as well)
        later = Store("shop")
        changed = later._changed

        def work() -> None:
            assert later._changed is not changed
            later.publish()

        with tempfile.TemporaryFile() as file:
            saved = os.dup(2)
            os.dup2(file.fileno(), 2)
            try:
                end = end_of(forked(work))
            finally:
                os.dup2(saved, 2)
                os.close(saved)
            file.seek(0)
            self.assertIn(b"no more of it", file.read())
        self.assertEqual(end, "")


class WatchTest(Folder):
    def test_follows(self) -> None:
        """A child goes on watching, also one that is forked while the parent loads."""
        self.put(po("one"))
        store = Store("shop")
        with store.watch(self.folder, every=0.02, settle=0.01):
            child = forked(lambda: until(lambda: text(store) == "two"))
            self.put(po("two"))
            until(lambda: text(store) == "two")
            self.assertEqual(end_of(child), "")
            for number in range(FORKS // 10):
                self.put(po(f"v{number}", 2_000))
                time.sleep(0.01 * (number % 4))
                child = forked(lambda: until(lambda: text(store) == f"v{number}"))
                self.assertEqual(end_of(child), "", number)

    @unittest.skipIf(sys.version_info >= (3, 13), "from Python 3.13 on an interpreter survives no fork but its own")
    def test_stopped_in_worker(self) -> None:
        """A child of a fork that Python doesn't know of, which has no thread of the watch, waits for none."""
        command = [sys.executable, "-c", STOPS_IN_WORKER, str(self.folder), str(MOST_SECONDS)]
        done = subprocess.run(command, capture_output=True, text=True, timeout=2 * MOST_SECONDS)
        self.assertEqual((done.stdout, done.stderr), ("0\n", ""))

    def test_stopped(self) -> None:
        self.put(po("one"))
        store = Store("shop")
        watch = store.watch(self.folder, every=0.01, settle=0.01)
        self.assertEqual(end_of(forked(watch.stop)), "")  # (in the child alone)
        self.put(po("two"))
        until(lambda: text(store) == "two")
        watch.stop()

        def work() -> None:
            assert threading.active_count() == 1
            watch.stop()
            assert watch.look() is None and text(store) == "two"

        self.assertEqual(end_of(forked(work)), "")

    def test_own_thread_forks(self) -> None:
        """A callback of the watch forks: its thread is the child's only one, and goes on."""
        self.put(po("one"))
        ends: list[str] = []
        with Store("shop").watch(self.folder, every=0.01, settle=0.01,
                                 refused=lambda file: ends.append(end_of(forked(lambda: None)))):
            self.put(b"message")
            until(lambda: ends)
        self.assertEqual(ends, [""])


class SessionTest(unittest.TestCase):
    def test_is_the_parents(self) -> None:
        """A child doesn't write into its parent's process, and doesn't keep it alive."""
        try:
            session = Session()
        except FileNotFoundError as missing:
            self.skipTest(str(missing))
        waits, goes = os.pipe()

        def work() -> None:
            os.close(goes)
            for call in (lambda: session.gettext("shop", "fr", "a"), session.publish):
                try:
                    call()
                except SessionEnded as ended:
                    assert "parent" in str(ended)
                else:
                    raise AssertionError("it was answered")
            session.close()
            os.read(waits, 1)

        with session:
            session.load("shop", "fr", po("one"))
            session.publish()
            with in_background(lambda: self.assertEqual(session.gettext("shop", "fr", "a").text, "one")):
                children = [forked(work) for _ in range(5)]
            session.close()  # (which waits for the end of the process, while the children live)
        os.close(goes)
        os.close(waits)
        self.assertEqual({end_of(child) for child in children}, {""})


class AllTest(Folder):
    def test_again_and_again(self) -> None:
        """A process with a store, a watch and a session, in use by other threads, forks again and again. Each child
        answers, looks at its folder, and goes on from there.
        """
        self.put(po("one"))
        store, sessions = Store("shop"), []
        watch = store.watch(self.folder, every=0.01, settle=0.002)
        self.addCleanup(watch.stop)
        with contextlib.suppress(FileNotFoundError):  # (without catsession)
            sessions.append(Session())
            self.addCleanup(sessions[0].close)
            sessions[0].load("shop", "fr", po("one"))
            sessions[0].publish()
        title = kobdzila.lazy_gettext("a")

        def work() -> None:
            assert text(store) in ("one", "two")
            for session in sessions:
                with contextlib.suppress(SessionEnded):
                    raise AssertionError(session.gettext("shop", "fr", "a"))
            watch.look()
            version = store.version
            store.load("shop", "de", po("drei"))
            assert store.publish() > version and threading.active_count() == 2  # (the watch's thread is back)
            with kobdzila.using(store.snapshot("de")):
                assert str(title) == "drei"

        def asks() -> None:
            assert text(store) in ("one", "two")
            for session in sessions:
                assert session.gettext("shop", "fr", "a").text == "one"

        names = itertools.cycle(("two", "one"))

        def replaces() -> None:
            self.put(po(next(names), 500))
            watch.look()

        ends: dict[str, int] = {}
        with in_background(asks, replaces):
            for _ in range(FORKS):
                end = end_of(forked(work))
                ends[end] = ends.get(end, 0) + 1
                self.assertLess(ends.get("it hung", 0), 3)
        self.assertEqual(ends, {"": FORKS})


def free_port() -> int:
    with socket.socket() as it:
        it.bind(("127.0.0.1", 0))
        return int(it.getsockname()[1])


@unittest.skipUnless(importlib.util.find_spec("gunicorn"), "no gunicorn")
class GunicornTest(Folder):
    def pages(self, port: int, count: int) -> set[str]:
        found = set()
        for _ in range(count):
            request = urllib.request.Request(f"http://127.0.0.1:{port}/", headers={"Accept-Language": "fr"})
            with contextlib.suppress(OSError), urllib.request.urlopen(request, timeout=MOST_SECONDS) as answer:
                found.add(answer.read().decode())
        return found

    def serve(self, *options: str) -> None:
        """Two workers, which follow what is put into the folder."""
        self.put(po("one"))
        room, port = self.folder.parent, free_port()
        (room / "application.py").write_text(APPLICATION.format(folder=str(self.folder)))
        log = (room / "log").open("w+b")
        self.addCleanup(log.close)
        server = subprocess.Popen(
            [sys.executable, "-W", "ignore", "-m", "gunicorn", "--workers", "2", "--bind", f"127.0.0.1:{port}",
             *options, "application"], cwd=room, stderr=log, stdout=log)
        self.addCleanup(server.wait)
        self.addCleanup(server.terminate)
        workers: set[str] = set()

        def all_have(name: str) -> bool:
            found = self.pages(port, 6)
            workers.update(re.findall(r" (\d+) ", " ".join(found)))
            self.assertIsNone(server.poll(), "gunicorn ended")
            return len(workers) == 2 and {it.split()[2] for it in found} == {name}

        until(lambda: all_have("one"))
        self.assertEqual({page.split()[0] for page in self.pages(port, 4)}, {str("--preload" not in options)})
        for name in ("two", "three"):
            self.put(po(name))
            until(lambda: all_have(name))

    def test_in_workers(self) -> None:
        self.serve()

    def test_preloaded(self) -> None:
        self.serve("--preload")


if __name__ == "__main__":
    unittest.main()
