"""The middleware, by a server of wsgiref and by calls as an ASGI server makes them."""
from __future__ import annotations

import asyncio
import io
import json
import tempfile
import threading
import unittest
import urllib.request
from collections.abc import Callable, Iterable, Iterator
from pathlib import Path
from typing import Any
from wsgiref.simple_server import WSGIRequestHandler, WSGIServer, make_server
from wsgiref.util import FileWrapper
from wsgiref.validate import validator

import kobdzila
from kobdzila import ASGIMiddleware, LazyTranslations, Snapshot, Store, WSGIMiddleware
from kobdzila._web import ASGIApplication, Message, Scope, described
from texts import FRENCH


Environ = dict[str, Any]
UNUSED: Any = None  # in place of a callable of the server's that nothing calls


class Quiet(WSGIRequestHandler):
    def log_message(self, *words: object) -> None:
        pass


def shop() -> Store:
    store = Store("shop")
    store.load("shop", "fr", FRENCH.encode())
    store.load("mail", "fr", b'msgid "basket"\nmsgstr "corbeille"\n')
    store.publish()
    return store


def replace(store: Store, text: str) -> None:
    store.load("shop", "fr", f'msgid "basket"\nmsgstr "{text}"\n'.encode())
    store.publish()


def is_closed(snapshot: Snapshot) -> bool:
    try:
        return snapshot.version < 0
    except ValueError:
        return True


class WSGITest(unittest.TestCase):
    def setUp(self) -> None:
        self.store = shop()
        self.seen: list[Snapshot] = []

    def application(self, environ: Environ, start_response: Callable[..., Any]) -> Iterator[bytes]:
        """Say a word before and after a publish, in one response."""
        texts = environ["kobdzila.snapshot"]
        self.seen.append(texts)
        start_response("200 OK", [("Content-Type", "text/plain; charset=utf-8")])
        yield texts.gettext("basket").encode()
        replace(self.store, f"panier {self.store.version}")
        yield f" {texts.gettext('basket')} {texts.version}".encode()

    def get(self, server: WSGIServer, **headers: str) -> str:
        threading.Thread(target=server.handle_request).start()
        request = urllib.request.Request(f"http://127.0.0.1:{server.server_port}/", headers=headers)
        with urllib.request.urlopen(request, timeout=30) as page:
            text: str = page.read().decode()
            return text

    def test_server(self) -> None:
        for checked in (lambda it: it, validator):
            application = validator(WSGIMiddleware(checked(self.application), self.store))
            with make_server("127.0.0.1", 0, application, handler_class=Quiet) as server:
                version = self.store.version
                text = "panier" if version == 2 else f"panier {version - 1}"
                page = self.get(server, **{"Accept-Language": "fr-CA, en;q=0.5"})
                self.assertEqual(page, f"{text} {text} {version}")
                self.assertEqual(self.get(server), f"basket basket {version + 1}")
            self.assertTrue(all(map(is_closed, self.seen)))

    def test_options(self) -> None:
        made = WSGIMiddleware(lambda environ, start: [environ["kobdzila.snapshot"].gettext("basket").encode()],
                              self.store, "mail", lambda environ: [environ["QUERY_STRING"]])
        self.assertEqual(list(made({"QUERY_STRING": "fr"}, UNUSED)), [b"corbeille"])

    def test_errors(self) -> None:
        """The snapshot is closed if the application fails, and if its body does."""
        def fails(environ: Environ, start_response: object) -> list[bytes]:
            self.seen.append(environ["kobdzila.snapshot"])
            raise KeyError

        class Body(list[bytes]):
            def close(self) -> None:
                raise KeyError

        environ: Environ = {}
        with self.assertRaises(KeyError):
            WSGIMiddleware(fails, self.store)(environ, UNUSED)
        body: Any = WSGIMiddleware(lambda *_: Body(), self.store)(environ, UNUSED)
        with self.assertRaises(KeyError):
            body.close()
        self.seen.append(environ["kobdzila.snapshot"])
        self.assertEqual([is_closed(it) for it in self.seen], [True, True])


class HeadersTest(unittest.TestCase):
    """RFC 9110, sections 8.5 and 12.5.5: what a cache has to know of a page that depends on its reader's languages."""

    def test_described(self) -> None:
        both = ["Accept-Language", "Cookie"]
        rows: list[tuple[list[tuple[str, str]], list[str], str | None, list[tuple[str, str]]]] = [
            ([], both, "fr", [("Vary", "Accept-Language, Cookie"), ("Content-Language", "fr")]),
            ([("Vary", "accept-LANGUAGE")], both[:1], None, [("Vary", "accept-LANGUAGE")]),
            ([("vary", "Origin"), ("Vary", "Cookie")], both, None, [("Vary", "Origin, Cookie, Accept-Language")]),
            ([("Vary", "*")], both, None, [("Vary", "*")]),
            ([("Vary", "")], both[:1], None, [("Vary", "Accept-Language")]),
            ([("content-language", "de, fr")], [], "en", [("content-language", "de, fr")]),
            ([("X", "y")], [], None, [("X", "y")]),
        ]
        for before, vary, lang, after in rows:
            self.assertEqual(described(list(before), vary, lang), after, before)

    def wsgi(self, headers: list[tuple[str, str]], environ: Environ, **options: Any) -> dict[str, str]:
        said: list[tuple[str, str]] = []

        def application(environ: Environ, start_response: Callable[..., Any]) -> list[bytes]:
            start_response("200 OK", headers)
            return [b""]

        body = WSGIMiddleware(application, shop(), **options)(environ, lambda status, headers: said.extend(headers))
        getattr(body, "close", lambda: None)()
        return dict(said)

    def asgi(self, headers: list[tuple[bytes, bytes]], scope: Scope, **options: Any) -> dict[str, str]:
        said: list[Message] = []

        async def application(scope: Scope, receive: Any, send: Any) -> None:
            await send({"type": "http.response.start", "status": 200, "headers": headers})
            await send({"type": "http.response.body", "body": b""})

        async def send(message: Message) -> None:
            said.append(message)

        asyncio.run(ASGIMiddleware(application, shop(), **options)({"type": "http", **scope}, UNUSED, send))
        return {name.decode(): value.decode() for name, value in said[0]["headers"]}

    def test_wsgi(self) -> None:
        french = {"HTTP_ACCEPT_LANGUAGE": "fr-CA, de;q=0.5"}
        self.assertEqual(self.wsgi([], french), {"Vary": "Accept-Language", "Content-Language": "fr"})
        self.assertEqual(self.wsgi([], {}), {"Vary": "Accept-Language", "Content-Language": "en"})
        self.assertEqual(self.wsgi([("Vary", "Cookie")], french)["Vary"], "Cookie, Accept-Language")
        chosen = self.wsgi([], {"HTTP_COOKIE": "lang=fr"}, languages=lambda it: it["HTTP_COOKIE"][5:])
        self.assertEqual(chosen, {"Vary": "Accept-Language, Cookie", "Content-Language": "fr"})
        chosen = self.wsgi([], {"QUERY_STRING": "fr"}, languages=lambda it: it["QUERY_STRING"], vary=[])
        self.assertEqual(chosen, {"Content-Language": "fr"})
        self.assertEqual(self.wsgi([("Content-Language", "sv")], french)["Content-Language"], "sv")

    def test_asgi(self) -> None:
        french = {"headers": [(b"accept-language", b"fr-CA, de;q=0.5")]}
        self.assertEqual(self.asgi([], french), {"vary": "Accept-Language", "content-language": "fr"})
        self.assertEqual(self.asgi([(b"Vary", b"Cookie")], {"headers": []}),
                         {"vary": "Cookie, Accept-Language", "content-language": "en"})
        chosen = self.asgi([], {"headers": [], "path": "fr"}, languages=lambda it: it["path"], vary=["Cookie"])
        self.assertEqual(chosen, {"vary": "Cookie", "content-language": "fr"})

    def test_no_list(self) -> None:
        """A request that names a list of locales gets none of them, not even through a function of the application."""
        own: list[dict[str, Any]] = [{}, {"languages": lambda it: it.get("HTTP_ACCEPT_LANGUAGE", "")}]
        for options in own:
            self.assertEqual(self.wsgi([], {"HTTP_ACCEPT_LANGUAGE": "de:fr"}, **options)["Content-Language"], "en")


class FileTest(unittest.TestCase):
    """A server recognizes its own file wrapper (PEP 3333, "Optional Platform-Specific File Handling")."""

    def answer(self, wrapper: object) -> tuple[Iterable[bytes], list[Snapshot]]:
        seen = []

        def application(environ: Environ, start_response: object) -> Iterable[bytes]:
            seen.append(environ["kobdzila.snapshot"])
            body: Iterable[bytes] = environ["wsgi.file_wrapper"](io.BytesIO(b"x" * 10), 4)
            return body

        return WSGIMiddleware(application, shop())({"wsgi.file_wrapper": wrapper}, UNUSED), seen

    def test_class(self) -> None:
        body, seen = self.answer(FileWrapper)
        self.assertIsInstance(body, FileWrapper)
        self.assertEqual((list(body), is_closed(seen[0])), ([b"xxxx", b"xxxx", b"xx"], True))

    def test_function(self) -> None:
        """uWSGI has a function, and compares the body with what it returned."""
        made = []

        def wrapper(file: io.BytesIO, size: int) -> io.BytesIO:
            made.append(file)
            return file

        body, seen = self.answer(wrapper)
        self.assertIs(body, made[0])
        self.assertTrue(is_closed(seen[0]))

    def test_length(self) -> None:
        """A server writes the length of a body of one block, with the middleware as without."""
        def application(environ: Environ, start_response: Callable[..., Any]) -> list[bytes]:
            start_response("200 OK", [("Content-Type", "text/plain")])
            return [environ["kobdzila.snapshot"].gettext("basket").encode()]

        with make_server("127.0.0.1", 0, WSGIMiddleware(application, shop()), handler_class=Quiet) as server:
            threading.Thread(target=server.handle_request).start()
            with urllib.request.urlopen(f"http://127.0.0.1:{server.server_port}/", timeout=30) as page:
                self.assertEqual((page.headers["Content-Length"], page.read()), ("6", b"basket"))


class LifespanTest(unittest.TestCase):
    """The lifespan protocol of ASGI, by a server that isn't one."""

    def setUp(self) -> None:
        room = tempfile.TemporaryDirectory()
        self.addCleanup(room.cleanup)
        self.folder = Path(room.name, "locale")
        file = self.folder / "fr" / "LC_MESSAGES" / "shop.po"
        file.parent.mkdir(parents=True)
        file.write_text(FRENCH, encoding="utf-8")
        self.store = Store("shop")
        self.said: list[tuple[str, str, int]] = []

    async def live(self, application: ASGIApplication, folder: Path) -> None:
        """Start and end the application. `said` gets its answers, the texts and the threads that watch at each."""
        asked = iter(["lifespan.startup", "lifespan.shutdown"])

        async def receive() -> Message:
            return {"type": next(asked)}

        async def send(message: Message) -> None:
            watching = [it for it in threading.enumerate() if it.name.startswith(f"kobdzila watches {self.folder}")]
            self.said.append((message["type"], self.store.snapshot("fr").gettext("basket"), len(watching)))

        await ASGIMiddleware(application, self.store, watch=folder)({"type": "lifespan"}, receive, send)

    @staticmethod
    async def knows(scope: Scope, receive: Any, send: Any) -> None:
        for _ in range(2):
            await send({"type": (await receive())["type"] + ".complete"})

    @staticmethod
    async def ignores(scope: Scope, receive: Any, send: Any) -> None:
        raise ValueError("this application answers HTTP alone")

    @staticmethod
    async def returns(scope: Scope, receive: Any, send: Any) -> None:
        if scope["type"] != "http":
            return

    def test_watch(self) -> None:
        """The catalogues are there before the application starts, and are watched until it has ended."""
        for application in (self.knows, self.ignores, self.returns):
            self.store, self.said = Store("shop"), []
            asyncio.run(self.live(application, self.folder))
            self.assertEqual(self.said, [("lifespan.startup.complete", "panier", 1),
                                         ("lifespan.shutdown.complete", "panier", 1)])
        self.assertEqual([it.name for it in threading.enumerate() if "kobdzila watches" in it.name], [])

    def test_no_folder(self) -> None:
        for application in (self.knows, self.ignores, self.returns):
            self.said = []
            with self.assertRaises(FileNotFoundError):
                asyncio.run(self.live(application, self.folder / "none"))
            self.assertEqual(self.said, [("lifespan.startup.failed", "basket", 0)])

    def test_failing_application(self) -> None:
        async def fails(scope: Scope, receive: Any, send: Any) -> None:
            await receive()
            raise KeyError

        with self.assertRaises(KeyError):
            asyncio.run(self.live(fails, self.folder))
        self.assertEqual([it.name for it in threading.enumerate() if "kobdzila watches" in it.name], [])


class AsyncTest(unittest.TestCase):
    def test_waiting(self) -> None:
        """A thousand coroutines wait for a version without a thread of their own, and one publish wakes them."""
        store = shop()

        async def waits() -> str:
            with await store.snapshot_async("fr", at_least=4, within=60) as texts:
                return f"{texts.gettext('basket')} {texts.version}"

        async def all_at_once() -> list[str]:
            waiting = [asyncio.create_task(waits()) for _ in range(1000)]
            await asyncio.sleep(0.05)
            before = threading.active_count()
            await asyncio.to_thread(replace, store, "un")
            await asyncio.sleep(0.05)
            self.assertFalse(any(it.done() for it in waiting))
            await asyncio.to_thread(replace, store, "deux")
            self.assertLess(before, 10)
            return await asyncio.gather(*waiting)

        self.assertEqual(set(asyncio.run(all_at_once())), {"deux 4"})
        self.assertEqual(store._waiters._events, set())

    def test_late(self) -> None:
        store = shop()

        async def late() -> None:
            self.assertEqual((await store.snapshot_async("fr")).version, 2)
            self.assertEqual((await store.snapshot_async("fr", at_least=2)).version, 2)
            for within in (0.0, 0.05):
                with self.assertRaises(TimeoutError):
                    await store.snapshot_async("fr", at_least=3, within=within)

        asyncio.run(late())
        self.assertEqual(store._waiters._events, set())

    def test_cancelled(self) -> None:
        store = shop()

        async def cancelled() -> None:
            with self.assertRaises(asyncio.TimeoutError):
                await asyncio.wait_for(store.snapshot_async("fr", at_least=3, within=60), 0.05)

        asyncio.run(cancelled())
        replace(store, "un")
        self.assertEqual(store._waiters._events, set())


class ASGITest(unittest.TestCase):
    def test_requests(self) -> None:
        store = shop()
        seen: list[Snapshot | None] = []
        sent: list[Message] = []

        async def application(scope: Scope, receive: Any, send: Any) -> None:
            texts = scope.get("kobdzila.snapshot")
            seen.append(texts)
            if texts is None:
                return
            first = texts.gettext("basket")
            await asyncio.sleep(0.01)
            replace(store, f"panier {store.version}")
            await send({"type": "http.response.start", "status": 200, "headers": []})
            await send({"type": "http.response.body", "body": json.dumps([first, texts.gettext("basket")]).encode()})

        async def send(message: Message) -> None:
            sent.append(message)

        made = ASGIMiddleware(application, store)
        headers = [(b"host", b"x"), (b"accept-language", b"sv"), (b"accept-language", b"fr;q=0.5")]
        scopes: list[Scope] = [{"type": "http", "headers": headers}, {"type": "websocket", "headers": []},
                               {"type": "http", "headers": [(b"accept-language", b"fr")]}]

        async def all_at_once() -> None:
            await asyncio.gather(*(made(scope, UNUSED, send) for scope in scopes))
            await made({"type": "lifespan"}, UNUSED, send)

        asyncio.run(all_at_once())
        bodies = [json.loads(message["body"]) for message in sent if "body" in message]
        self.assertEqual(bodies, [["panier", "panier"], ["basket", "basket"], ["panier", "panier"]])
        self.assertNotIn("kobdzila.snapshot", scopes[0])
        self.assertIsNone(seen.pop())
        self.assertEqual([it is not None and is_closed(it) for it in seen], [True] * 3)
        self.assertEqual(store.snapshot("fr").gettext("basket"), "panier 4")

    def test_options(self) -> None:
        said = []

        async def application(scope: Scope, receive: Any, send: Any) -> None:
            said.append(scope["kobdzila.snapshot"].gettext("basket"))

        made = ASGIMiddleware(application, shop(), "mail", lambda scope: str(scope["path"]))
        asyncio.run(made({"type": "http", "path": "fr", "headers": []}, UNUSED, UNUSED))
        self.assertEqual(said, ["corbeille"])


class CurrentTest(unittest.TestCase):
    """Lazy texts look up in the snapshot of the request, which the middleware makes the current one."""

    TITLE = kobdzila.lazy_gettext("basket")

    def texts(self) -> str:
        return f"{self.TITLE} {kobdzila.LazyTranslations().gettext('basket')}"

    def test_wsgi(self) -> None:
        said: list[str] = []

        class Body:
            def __init__(self, number: int) -> None:
                self.numbers = range(number)

            def __iter__(body) -> Iterator[bytes]:
                return (self.texts().encode() for _ in body.numbers)

            def close(body) -> None:
                said.append(self.texts())

        class Sized(Body):
            def __len__(self) -> int:
                return len(self.numbers)

        def stream() -> Iterator[bytes]:
            yield from Body(2)

        store = shop()
        bodies: list[tuple[Callable[[], Iterable[bytes]], int]] = [
            (lambda: [self.texts().encode()] * 2, 0), (stream, 0), (lambda: Body(2), 1), (lambda: Sized(2), 1)]
        for body, closed in bodies:
            said.clear()
            made = WSGIMiddleware(lambda environ, start: body(), store)
            answers: list[Any] = [made({"HTTP_ACCEPT_LANGUAGE": it}, UNUSED) for it in ("fr", "en")]
            blocks = list(zip(*answers))  # (the server goes on with both in turn)
            self.assertEqual(blocks, [(b"panier panier", b"basket basket")] * 2)
            self.assertIsNone(kobdzila.current_snapshot.get(None))
            for it in answers:
                it.close()
            self.assertEqual(said, ["panier panier", "basket basket"] * closed)
            self.assertIsNone(kobdzila.current_snapshot.get(None))

    def test_inner(self) -> None:
        """A snapshot that was the current one before is so again, also after an application that fails."""
        def fails(environ: Environ, start_response: object) -> list[bytes]:
            raise KeyError(self.texts())

        store = shop()
        with kobdzila.using(store.snapshot("fr")), self.assertRaises(KeyError) as caught:
            WSGIMiddleware(fails, store)({"HTTP_ACCEPT_LANGUAGE": "sv"}, UNUSED)
        self.assertEqual(caught.exception.args, ("basket basket",))
        with kobdzila.using(store.snapshot("fr")):
            with self.assertRaises(KeyError):
                WSGIMiddleware(fails, store)({"HTTP_ACCEPT_LANGUAGE": "sv"}, UNUSED)
            self.assertEqual(self.texts(), "panier panier")

    def test_asgi(self) -> None:
        """Each of the requests of a loop has its own, and so do its tasks and threads."""
        said: dict[str, list[str]] = {}

        async def application(scope: Scope, receive: Any, send: Any) -> None:
            mine = said[scope["path"]] = [self.texts()]
            await asyncio.sleep(0.01)
            mine.append(await asyncio.create_task(asyncio.to_thread(self.texts)))
            await asyncio.sleep(0.01)
            mine.append(self.texts())

        made = ASGIMiddleware(application, shop(), languages=lambda scope: str(scope["path"]))

        async def both() -> None:
            await asyncio.gather(*(made({"type": "http", "path": it, "headers": []}, UNUSED, UNUSED)
                                   for it in ("fr", "en")))
            self.assertIsNone(kobdzila.current_snapshot.get(None))

        asyncio.run(both())
        self.assertEqual(said, {"fr": ["panier panier"] * 3, "en": ["basket basket"] * 3})


class LazyTest(unittest.TestCase):
    def test_calls(self) -> None:
        store = shop()
        texts = LazyTranslations(lambda: store.snapshot("fr"))
        self.assertEqual((texts.gettext("basket"), texts.pgettext("verb", "order")), ("panier", "commander"))
        self.assertEqual(texts.ngettext("%d file", "", 2), "%d fichiers supprimés")
        self.assertEqual(texts.npgettext("menu", "%d item", "", 2), "%d articles")
        replace(store, "corbeille")
        self.assertEqual(texts.gettext("basket"), "corbeille")


if __name__ == "__main__":
    unittest.main()
