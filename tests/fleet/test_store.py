"""A follower that feeds a kobdzila.Store, and the middleware over it: a visitor who moves sees nothing older."""
from __future__ import annotations

import threading
import time
import unittest
from typing import Any
from wsgiref.util import setup_testing_defaults

import kobdzila
from cases import LogCase
from kobdzila.fleet import Behind, Follower, WSGIMiddleware
from stores import loads, mo

PUBLISHES = 100


class Held(kobdzila.Store):
    """A store whose publishes wait until it is released."""

    def __init__(self, domain: str) -> None:
        super().__init__(domain)
        self.released = threading.Event()

    def publish(self) -> int:
        self.released.wait()
        return super().publish()


def page(environ: dict[str, Any], start_response: Any) -> list[bytes]:
    texts = environ["kobdzila.snapshot"]
    start_response("200 OK", [("Content-Type", "text/plain")])
    return [f'{texts.gettext("k1")}, {texts.dgettext("mail", "k1")}'.encode()]


class Visitor:
    """Somebody with a browser, which keeps the cookie of the last answer."""

    def __init__(self) -> None:
        self.cookie = ""

    def visits(self, application: WSGIMiddleware, languages: str = "fr-CA, en;q=0.5") -> tuple[int, str]:
        environ: dict[str, Any] = {"HTTP_ACCEPT_LANGUAGE": languages, "HTTP_COOKIE": self.cookie}
        setup_testing_defaults(environ)
        said: list[Any] = []
        body = application(environ, lambda status, headers: said.extend([int(status[:3]), dict(headers)]))
        text = b"".join(body).decode()
        self.cookie = said[1].get("Set-Cookie", self.cookie).partition(";")[0]
        return said[0], text


class StoreTest(LogCase):
    def follower_of_store(self, machine: str = "m", store: kobdzila.Store | None = None) -> Follower:
        return self.follower(store or kobdzila.Store("app"), machine)

    def publishing(self, environ: dict[str, Any], start_response: Any) -> list[bytes]:
        """A page that publishes."""
        version = self.log.publish(loads(2))
        start_response("200 OK", [("Content-Type", "text/plain"), ("Kobdzila-Version", str(version))])
        return [b"published"]

    def test_a_store_is_fed(self) -> None:
        follower = self.follower_of_store()
        for number in range(1, 4):
            version = self.log.publish(loads(number))
            with follower.snapshot(at_least=version, within=100, languages="fr_CA") as texts:
                self.assertEqual((texts.version, texts.gettext("k1")), (version, f"k1 at {number}"))
                self.assertEqual(texts.dgettext("mail", "k2"), f"k2 at {number}")

    def test_a_snapshot_keeps_its_version(self) -> None:
        for number in range(1, 4):
            self.log.publish(loads(number))
        late = self.follower_of_store()
        with late.snapshot(within=100, languages="fr") as old:
            self.assertEqual((old.version, old.gettext("k1"), late.store.version), (6, "k1 at 3", 2))
            version = self.log.publish([("app", "fr", mo(4))])
            with late.snapshot(at_least=version, within=100, languages="fr") as new:
                self.assertEqual((new.version, new.gettext("k1"), new.dgettext("mail", "k1")),
                                 (7, "k1 at 4", "k1 at 3"))
            self.assertEqual((old.version, old.gettext("k1")), (6, "k1 at 3"))

    def test_a_store_with_loads_of_its_own(self) -> None:
        store = kobdzila.Store("app")
        store.load("app", "de", mo(99))
        store.publish()
        self.log.publish(loads(1))
        with self.follower_of_store(store=store).snapshot(at_least=2, within=100, languages="de:fr") as texts:
            self.assertEqual((texts.version, texts.gettext("k1"), texts.dgettext("mail", "k1")),
                             (2, "k1 at 99", "k1 at 1"))

    def test_readers_see_whole_publishes_in_order(self) -> None:
        follower = self.follower_of_store()
        self.log.publish(loads(0))
        follower.wait_for(2, 100)
        wrong: list[tuple[int, str, str]] = []
        counts = [0, 0]

        def read(which: int) -> None:
            last = -1
            while last < PUBLISHES:
                with follower.snapshot(languages="fr") as texts:
                    first, second = texts.gettext("k1"), texts.dgettext("mail", "k1")
                    number = int(first.rpartition(" ")[2])
                    if first != second or number < last or texts.version != 2 * number + 2:
                        wrong.append((texts.version, first, second))
                last = number
                counts[which] += 1
                time.sleep(0.0005)

        threads = [threading.Thread(target=read, args=[which], daemon=True) for which in range(2)]
        for thread in threads:
            thread.start()
        for number in range(1, PUBLISHES + 1):
            self.log.publish(loads(number))
        for thread in threads:
            thread.join(30)
        self.assertEqual((wrong, [thread.is_alive() for thread in threads]), ([], [False, False]))
        self.assertGreater(min(counts), 20)

    def test_a_visitor_who_moves_sees_nothing_older(self) -> None:
        first, held = self.follower_of_store("first"), Held("app")
        second = self.follower_of_store("second", held)
        near, far = WSGIMiddleware(page, first, within=100), WSGIMiddleware(page, second, within=0.2)
        held.released.set()
        self.log.publish(loads(1))
        visitor, other = Visitor(), Visitor()
        for follower in (first, second):
            follower.wait_for(2, 100)
        self.assertEqual(visitor.visits(near), (200, "k1 at 1, k1 at 1"))
        self.assertEqual(visitor.visits(far), (200, "k1 at 1, k1 at 1"))
        held.released.clear()
        self.assertEqual(visitor.visits(WSGIMiddleware(self.publishing, second)), (200, "published"))
        self.assertEqual(visitor.visits(near), (200, "k1 at 2, k1 at 2"))
        begun = time.monotonic()
        self.assertEqual(visitor.visits(far)[0], 503)
        self.assertGreaterEqual(time.monotonic() - begun, 0.2)
        self.assertEqual(other.visits(far), (200, "k1 at 1, k1 at 1"))
        with self.assertRaises(Behind):
            second.snapshot(at_least=4, within=0.1)
        timer = threading.Timer(0.1, held.released.set)
        timer.start()
        self.assertEqual(visitor.visits(WSGIMiddleware(page, second, within=100)), (200, "k1 at 2, k1 at 2"))
        timer.join()
        self.assertEqual(visitor.visits(near, "en, fr;q=0.5"), (200, "k1, k1"))


if __name__ == "__main__":
    unittest.main()
