"""The middleware: each request gets texts that are no older than what its visitor has seen, or 503."""
from __future__ import annotations

import asyncio
import itertools
import threading
import time
import unittest
from collections.abc import Iterator
from typing import Any
from unittest import mock
from wsgiref.util import setup_testing_defaults
from wsgiref.validate import validator

import kobdzila
from kobdzila.fleet import ASGIMiddleware, Follower, Version, WSGIMiddleware
from kobdzila.fleet._queries import Played
from kobdzila.fleet._web import MOST_WAITING
from stores import PAIRS, Catalogues, mo, until


def page(environ: dict[str, Any], start_response: Any) -> list[bytes]:
    start_response("200 OK", [("Content-Type", "text/plain")])
    return [environ["kobdzila.snapshot"].gettext("app", "fr", "k1").encode()]


async def async_page(scope: Any, receive: Any, send: Any) -> None:
    text = scope["kobdzila.snapshot"].gettext("app", "fr", "k1") if scope["type"] == "http" else "none"
    await send({"type": "http.response.start", "status": 200, "headers": [(b"content-type", b"text/plain")]})
    await send({"type": "http.response.body", "body": text.encode()})


EPOCH = "0123456789abcdef"
TITLE = kobdzila.lazy_gettext("k1")


class Case(unittest.TestCase):
    within = 0.3

    def setUp(self) -> None:
        self.follower = Follower(self.store(), "host=none.invalid")  # (it isn't started)
        self.addCleanup(self.follower.close)

    def store(self) -> Any:
        return Catalogues()

    def shows(self, number: int) -> None:
        """The follower plays a publish."""
        made = [Played(*pair, mo(number), b"") for pair in PAIRS]
        jumps = not self.follower.has_joined
        self.follower._player.show(made, self.follower.version + 2, b"", epoch=EPOCH, jumps=jumps)
        self.follower._show()

    def check(self, answers: Any) -> None:
        """What both kinds do; `answers` gives status, headers and text for the headers of a request."""
        status, headers, _ = answers({})
        self.assertEqual((status, headers.get("retry-after")), (503, "1"))  # (it hasn't joined)
        self.shows(1)
        status, headers, text = answers({})
        self.assertEqual((status, headers["kobdzila-version"], text), (200, f"{EPOCH}.2", "k1 at 1"))
        self.assertEqual((headers["vary"], headers.get("content-language")), ("Cookie, Kobdzila-Version", None))
        cookie = headers["set-cookie"].partition(";")[0]
        self.assertEqual(cookie, f"kobdzila_version={EPOCH}.2")
        for seen in ({"cookie": f"a=b; {cookie}"}, {"kobdzila-version": "2"}, {"cookie": "kobdzila_version=x"},
                     {"kobdzila-version": "-5"}, {"cookie": "kobdzila_version=" + "9" * 30}, {"cookie": "=;;\""}):
            self.assertEqual(answers(seen)[::2], (200, "k1 at 1"), seen)
        begun = time.monotonic()
        self.assertEqual(answers({"cookie": "kobdzila_version=4"})[0], 503)
        self.assertGreater(time.monotonic() - begun, 0.2)
        self.within = 60.0
        timer = threading.Timer(0.1, self.shows, [2])
        timer.start()
        self.assertEqual(answers({"cookie": "kobdzila_version=4", "kobdzila-version": "3"})[::2], (200, "k1 at 2"))
        timer.join()


class WSGITest(Case):
    def answers(self, headers: dict[str, str], **options: Any) -> tuple[int, dict[str, str], str]:
        environ: dict[str, Any] = {f"HTTP_{name.upper().replace('-', '_')}": text for name, text in headers.items()}
        environ["QUERY_STRING"] = ""
        setup_testing_defaults(environ)
        got: list[Any] = []

        def start_response(status: str, headers: list[tuple[str, str]], *more: Any) -> Any:
            got[:] = [int(status.split()[0]), {name.lower(): text for name, text in headers}]
            return lambda data: None

        body = validator(WSGIMiddleware(page, self.follower, within=self.within, **options))(environ, start_response)
        text = b"".join(body).decode()
        body.close()
        return got[0], got[1], text

    def test_versions(self) -> None:
        self.check(self.answers)

    def test_older_texts(self) -> None:
        self.assertEqual(self.answers({}, serve_older=True)[0], 503)
        self.shows(1)
        status, headers, text = self.answers({"kobdzila-version": "9"}, serve_older=True, cookie="v")
        self.assertEqual((status, headers["kobdzila-version"], text), (200, f"{EPOCH}.2", "k1 at 1"))
        self.assertTrue(headers["set-cookie"].startswith(f"v={EPOCH}.2;"))

    def test_languages_of_the_request(self) -> None:
        asked: list[object] = []

        class Speaking(Catalogues):
            def snapshot(self, languages: str = "", domain: str | None = None) -> Any:
                asked.append((languages, domain))
                return super().snapshot()

        self.follower.store = Speaking()
        self.shows(1)
        environ: dict[str, Any] = {"HTTP_ACCEPT_LANGUAGE": "fr, de;q=0.5"}
        setup_testing_defaults(environ)
        b"".join(WSGIMiddleware(page, self.follower, "shop")(environ, mock.Mock()))
        scope = {"type": "http", "headers": [(b"accept-language", b"fr"), (b"accept-language", b"de")]}
        asyncio.run(ASGIMiddleware(async_page, self.follower, "shop")(scope, mock.AsyncMock(), mock.AsyncMock()))
        self.assertEqual(asked, [("fr, de;q=0.5", "shop"), ("fr,de", "shop")])
        # (a stranger's header is never a list of locales)
        self.assertEqual({type(languages) for languages, _ in asked}, {kobdzila.AcceptLanguage})

    def test_other_cookies(self) -> None:
        """Whatever another cookie looks like, that of the version is read, and of several the latest."""
        made = WSGIMiddleware(page, self.follower)
        cookie = f"kobdzila_version={EPOCH}.9"
        for others in ("a=b", 'prefs={"theme":"dark"}', "who=Ann Lee", "list[0]=1", "path=/x", "version=2", "flag",
                       "name=caf\xe9", 'half="', "a==b", "", "kobdzila_version=x", f"kobdzila_version={EPOCH}.8"):
            for cookies in (f"{others}; {cookie}", f"{cookie}; {others}", f"{others};{cookie};{others}"):
                self.assertEqual(made.wanted("", cookies).token, f"{EPOCH}.9", cookies)
        self.assertEqual(made.wanted("", f'kobdzila_version="{EPOCH}.9"').token, f"{EPOCH}.9")
        self.assertEqual(made.wanted(" 9 ", "kobdzila_version=8").token, "9")
        for cookies in (f"x{cookie}", f"a={cookie}", "kobdzila_version", "kobdzila_version=-1", "=9", "9"):
            self.assertEqual(made.wanted("", cookies), 0, cookies)

    def test_few_wait(self) -> None:
        self.shows(1)
        made = WSGIMiddleware(page, self.follower, within=60)
        one = threading.BoundedSemaphore(1)
        with mock.patch.object(made, "_waiting", one):
            first = threading.Thread(target=made.snapshot, args=[Version(9), ""], daemon=True)
            first.start()
            until(lambda: getattr(one, "_value") == 0)
            begun = time.monotonic()
            self.assertIsNone(made.snapshot(Version(9), ""))
            self.assertEqual(made.snapshot(Version(2), "").version, 2)
            self.assertLess(time.monotonic() - begun, 30)
            for number in range(2, 6):
                self.shows(number)  # (up to version 10: the first waits for 9)
            first.join()


class ASGITest(Case):
    def answers(self, headers: dict[str, str], kind: str = "http") -> tuple[int, dict[str, str], str]:
        sent: list[Any] = []

        async def send(message: Any) -> None:
            sent.append(message)

        async def receive() -> Any:
            return {"type": "http.request"}

        scope = {"type": kind, "headers": [(name.encode(), text.encode()) for name, text in headers.items()]}
        asyncio.run(ASGIMiddleware(async_page, self.follower, within=self.within)(scope, receive, send))
        named = {name.decode(): text.decode() for name, text in sent[0]["headers"]}
        return sent[0]["status"], named, sent[1]["body"].decode()

    def test_versions(self) -> None:
        self.check(self.answers)

    def test_a_page_that_publishes(self) -> None:
        self.shows(1)

        async def publishing(scope: Any, receive: Any, send: Any) -> None:
            written = [(b"content-type", b"text/plain"), (b"kobdzila-version", scope["path"].encode())]
            await send({"type": "http.response.start", "status": 200, "headers": written})

        for written, version in (("7", "7"), ("1", "2"), ("x", "2"), (f"{EPOCH}.7", "7")):
            send = mock.AsyncMock()
            scope = {"type": "http", "headers": [], "path": written}
            asyncio.run(ASGIMiddleware(publishing, self.follower)(scope, mock.AsyncMock(), send))
            headers = send.await_args.args[0]["headers"]
            self.assertEqual([value for name, value in headers if name == b"kobdzila-version"][-1],
                             f"{EPOCH}.{version}".encode())
            self.assertTrue(dict(headers)[b"set-cookie"].startswith(f"kobdzila_version={EPOCH}.{version};".encode()))

    def test_waiting_takes_no_threads(self) -> None:
        """Somebody else's work isn't held up, more requests than may wait are answered at once, and one that is
        cancelled makes room."""
        self.shows(1)
        app = ASGIMiddleware(async_page, self.follower, within=10)
        scope = {"type": "http", "headers": [(b"kobdzila-version", b"4")]}

        async def status() -> int:
            send = mock.AsyncMock()
            await app(scope, mock.AsyncMock(), send)
            return int(send.await_args_list[0].args[0]["status"])

        async def main() -> None:
            requests = [asyncio.create_task(status()) for _ in range(MOST_WAITING + 8)]
            await asyncio.wait_for(asyncio.to_thread(lambda: None), 5)
            self.assertEqual([it.result() for it in requests if it.done()], [503] * 8)
            waiting = [it for it in requests if not it.done()]
            waiting[0].cancel()
            await asyncio.sleep(0.1)
            waiting[0] = asyncio.create_task(status())
            await asyncio.to_thread(self.shows, 2)
            self.assertEqual(await asyncio.gather(*waiting), [200] * MOST_WAITING)
            self.assertEqual(getattr(app._waiting, "_value"), MOST_WAITING)

        asyncio.run(main())

    def test_what_is_not_http(self) -> None:
        self.assertEqual(self.answers({}, "lifespan")[::2], (200, "none"))

    def test_websockets(self) -> None:
        for version, sent in (("2", "websocket.accept"), ("4", "websocket.close")):
            if self.follower.version == 0:
                self.shows(1)
            seen: list[Any] = []

            async def application(scope: Any, receive: Any, send: Any) -> None:
                seen.append(scope["kobdzila.snapshot"].version)
                await send({"type": "websocket.accept"})

            send = mock.AsyncMock()
            scope = {"type": "websocket", "headers": [(b"cookie", f"kobdzila_version={version}".encode())]}
            asyncio.run(ASGIMiddleware(application, self.follower, within=0.1)(scope, mock.AsyncMock(), send))
            self.assertEqual([call.args[0]["type"] for call in send.await_args_list], [sent])
            self.assertEqual(seen, [2] if version == "2" else [])


class CurrentTest(Case):
    """A store that takes languages: its snapshot is the current one of the request, as with kobdzila's middleware."""

    VARY = "Accept-Language, Cookie, Kobdzila-Version"

    def store(self) -> Any:
        return kobdzila.Store("app")

    def setUp(self) -> None:
        super().setUp()
        self.shows(1)
        self.assertEqual(str(TITLE), "k1")
        self.addCleanup(lambda: self.assertEqual(str(TITLE), "k1"))

    def test_lazy_texts_of_a_list(self) -> None:
        start = mock.Mock()
        environ = {"HTTP_ACCEPT_LANGUAGE": "fr-CA"}
        for written, lang in (([], "fr"), ([("content-language", "de")], "de")):
            def application(environ: Any, start_response: Any) -> list[bytes]:
                start_response("200 OK", written)
                return [str(TITLE).encode()]

            body = WSGIMiddleware(application, self.follower)(environ, start)
            self.assertEqual(b"".join(body), b"k1 at 1")
            headers = [(name.lower(), text) for name, text in start.call_args.args[1]]
            self.assertEqual([text for name, text in headers if name == "content-language"], [lang])
            self.assertEqual(dict(headers)["vary"], self.VARY)

    def test_lazy_texts_of_pieces(self) -> None:
        said: list[str] = []

        class Pieces:
            def __iter__(self) -> Iterator[bytes]:
                for _ in range(2):
                    yield str(TITLE).encode()

            def close(self) -> None:
                said.append(str(TITLE))

        def application(environ: Any, start_response: Any) -> Any:
            start_response("200 OK", [])
            return Pieces()

        for count in (3, 1):  # (the second reader goes before the end)
            body: Any = WSGIMiddleware(application, self.follower)({"HTTP_ACCEPT_LANGUAGE": "fr"}, mock.Mock())
            for block in itertools.islice(body, count):
                self.assertEqual((block, str(TITLE)), (b"k1 at 1", "k1"))
            body.close()
        self.assertEqual(said, ["k1 at 1"] * 2)

    def test_lazy_texts_in_asgi(self) -> None:
        async def application(scope: Any, receive: Any, send: Any) -> None:
            await send({"type": "http.response.start", "status": 200, "headers": []})
            await send({"type": "http.response.body", "body": str(TITLE).encode()})

        async def main() -> list[Any]:
            send = mock.AsyncMock()
            scope = {"type": "http", "headers": [(b"accept-language", b"fr")]}
            await ASGIMiddleware(application, self.follower)(scope, mock.AsyncMock(), send)
            self.assertEqual(str(TITLE), "k1")
            return [call.args[0] for call in send.await_args_list]

        begun, body = asyncio.run(main())
        headers = dict(begun["headers"])
        self.assertEqual((body["body"], headers[b"content-language"], headers[b"vary"]),
                         (b"k1 at 1", b"fr", self.VARY.encode()))


if __name__ == "__main__":
    unittest.main()
