"""Frameworks and servers as they are run: Starlette, FastAPI, uvicorn, gunicorn, if they are installed."""
from __future__ import annotations

import asyncio
import contextlib
import importlib.util
import os
import shutil
import signal
import socket
import subprocess
import sys
import tempfile
import time
import unittest
import urllib.request
import warnings
from collections.abc import AsyncIterator, Callable, Iterator
from pathlib import Path
from typing import Any

import kobdzila
from texts import FRENCH

TOP = Path(__file__).parents[2]
SANITIZED = "KOBDZILA_SANITIZED" in os.environ
TITLE = kobdzila.lazy_gettext("basket")


def there(*names: str) -> bool:
    return all(importlib.util.find_spec(name) for name in names)


async def iter_of(first: str, others: AsyncIterator[str]) -> AsyncIterator[str]:
    yield first
    async for it in others:
        yield it


def put(path: Path, text: str) -> None:
    path.parent.mkdir(parents=True, exist_ok=True)
    path.with_suffix(".new").write_text(text, encoding="utf-8")
    os.replace(path.with_suffix(".new"), path)


class Case(unittest.TestCase):
    def setUp(self) -> None:
        room = tempfile.TemporaryDirectory(ignore_cleanup_errors=True)
        self.addCleanup(room.cleanup)
        self.room = Path(room.name)
        self.file = self.room / "locale" / "fr" / "LC_MESSAGES" / "shop.po"
        put(self.file, FRENCH)
        self.store = kobdzila.Store("shop")
        self.store.load("shop", "fr", FRENCH.encode())
        self.store.publish()
        quiet = warnings.catch_warnings()  # (of what the frameworks import)
        quiet.__enter__()
        self.addCleanup(quiet.__exit__, None, None, None)
        warnings.simplefilter("ignore")


@unittest.skipUnless(there("starlette", "httpx"), "no Starlette with its test client")
class StarletteTest(Case):
    def routes(self) -> list[Any]:
        from starlette.background import BackgroundTask
        from starlette.requests import Request
        from starlette.responses import PlainTextResponse, StreamingResponse
        from starlette.routing import Route, WebSocketRoute
        from starlette.websockets import WebSocket

        async def page(request: Request) -> PlainTextResponse:
            return PlainTextResponse(request.scope["kobdzila.snapshot"].gettext("basket"))

        def lazy(request: Request) -> StreamingResponse:  # (which Starlette calls in a thread)
            async def blocks() -> AsyncIterator[str]:
                for _ in range(2):
                    await asyncio.sleep(0)
                    yield f" {TITLE}"

            later = BackgroundTask(lambda: self.later.append(str(TITLE)))
            return StreamingResponse(iter_of(str(TITLE), blocks()), background=later)

        async def talk(socket: WebSocket) -> None:
            await socket.accept()
            await socket.send_text(f"{socket.scope['kobdzila.snapshot'].gettext('basket')} {TITLE}")
            await socket.close()

        return [Route("/", page), Route("/lazy", lazy), WebSocketRoute("/talk", talk)]

    def applications(self) -> Iterator[Any]:
        from starlette.applications import Starlette
        from starlette.middleware import Middleware

        added = Starlette(routes=self.routes())
        added.add_middleware(kobdzila.ASGIMiddleware, store=self.store)
        yield added
        yield Starlette(routes=self.routes(), middleware=[Middleware(kobdzila.ASGIMiddleware, store=self.store)])
        yield kobdzila.ASGIMiddleware(Starlette(routes=self.routes()), self.store)

    def test_ways(self) -> None:
        from starlette.testclient import TestClient

        for application in self.applications():
            client = TestClient(application)
            for accepted, text, lang in (("fr-CA, de;q=0.5", "panier", "fr"), ("sv", "basket", "en")):
                page = client.get("/", headers={"Accept-Language": accepted})
                self.assertEqual((page.status_code, page.text), (200, text))
                self.assertEqual((page.headers["vary"], page.headers["content-language"]), ("Accept-Language", lang))
            with client.websocket_connect("/talk", headers={"Accept-Language": "fr"}) as socket:
                self.assertEqual(socket.receive_text(), "panier panier")
            self.later: list[str] = []
            for accepted, text in (("fr", "panier"), ("sv", "basket")):
                page = client.get("/lazy", headers={"Accept-Language": accepted})
                self.assertEqual((page.text, self.later.pop()), (f"{text} {text} {text}", text))

    def test_lifespan(self) -> None:
        from starlette.applications import Starlette
        from starlette.testclient import TestClient

        store = kobdzila.Store("shop")
        application = Starlette(routes=self.routes())
        application.add_middleware(kobdzila.ASGIMiddleware, store=store, watch=self.room / "locale")
        with TestClient(application) as client:
            self.assertEqual(client.get("/", headers={"Accept-Language": "fr"}).text, "panier")
            put(self.file, FRENCH.replace("panier", "corbeille"))
            end = time.monotonic() + 300
            while client.get("/", headers={"Accept-Language": "fr"}).text != "corbeille":
                self.assertLess(time.monotonic(), end)
                time.sleep(0.05)


@unittest.skipUnless(there("fastapi", "httpx"), "no FastAPI with its test client")
class FastAPITest(Case):
    def test_requests(self) -> None:
        from fastapi import FastAPI, Request
        from fastapi.testclient import TestClient

        application = FastAPI()
        application.add_middleware(kobdzila.ASGIMiddleware, store=self.store)

        def page(request: Request) -> str:
            return str(request.scope["kobdzila.snapshot"].gettext("basket"))

        page.__annotations__["request"] = Request  # (the class isn't in this module's names)
        application.get("/")(page)
        answer = TestClient(application).get("/", headers={"Accept-Language": "fr"})
        self.assertEqual((answer.json(), answer.headers["content-language"]), ("panier", "fr"))


@unittest.skipIf(SANITIZED, "servers need no second run over AddressSanitizer")
class ServersTest(Case):
    @contextlib.contextmanager
    def serving(self, *command: str, **variables: str) -> Iterator[str]:
        """Start a server on a free port, and wait until it answers. Its process group is ended at the end."""
        with socket.socket() as free:
            free.bind(("127.0.0.1", 0))
            port = free.getsockname()[1]
        words = [it.format(port=port) for it in command]
        with (self.room / "log").open("wb") as log:
            server = subprocess.Popen(words, stdout=log, stderr=log, cwd=self.room, start_new_session=True,
                                      env={**os.environ, "PYTHONWARNINGS": "default", **variables})
        try:
            self.until(lambda: self.get(f"http://127.0.0.1:{port}/1"), server)
            yield f"http://127.0.0.1:{port}"
        finally:
            os.killpg(server.pid, signal.SIGTERM)
            server.wait(300)

    def get(self, address: str, accepted: str = "fr") -> tuple[str, dict[str, str]]:
        request = urllib.request.Request(address, headers={"Accept-Language": accepted})
        with urllib.request.urlopen(request, timeout=300) as page:
            return page.read().decode(), {name.lower(): value for name, value in page.headers.items()}

    def until(self, works: Callable[[], object], server: subprocess.Popen[bytes]) -> None:
        end = time.monotonic() + 300
        while True:
            try:
                works()
                return
            except (OSError, AssertionError) as fault:
                log = (self.room / "log").read_text(encoding="utf-8", errors="replace")
                self.assertLess(time.monotonic(), end, f"{fault}: {log[-2000:]}")
                self.assertIsNone(server.poll(), log[-2000:])
                time.sleep(0.1)

    @unittest.skipUnless(there("uvicorn", "fastapi"), "no uvicorn with FastAPI")
    def test_uvicorn(self) -> None:
        """The example, with two workers that each watch the folder."""
        shutil.copytree(TOP / "examples" / "shop" / "locale", self.room / "catalogues")
        file = self.room / "catalogues" / "fr" / "LC_MESSAGES" / "shop.po"
        command = [sys.executable, "-m", "uvicorn", "--port", "{port}", "--workers", "2", "shop:app"]
        with self.serving(*command, LOCALEDIR="catalogues", PYTHONPATH=str(TOP / "examples" / "fastapi")) as address:
            body, headers = self.get(f"{address}/3", "fr-CH, en;q=0.5")
            self.assertEqual(body, '{"text":"3 pommes dans le panier","lang":"fr","version":4}')
            self.assertEqual((headers["vary"], headers["content-language"]), ("Accept-Language", "fr"))
            put(file, file.read_text(encoding="utf-8").replace("pommes", "poires"))
            end = time.monotonic() + 300
            while not all('"3 poires' in self.get(f"{address}/3")[0] for _ in range(20)):
                self.assertLess(time.monotonic(), end)
                time.sleep(0.1)

    @unittest.skipUnless(there("gunicorn"), "no gunicorn")
    def test_gunicorn(self) -> None:
        """A page, a stream and a file: the file is sent by the server's own wrapper."""
        (self.room / "site.py").write_text(SITE, encoding="utf-8")
        command = [sys.executable, "-m", "gunicorn", "-b", "127.0.0.1:{port}", "-w", "2", "--chdir", str(self.room),
                   "site_of_test:app"]
        os.rename(self.room / "site.py", self.room / "site_of_test.py")
        with self.serving(*command) as address:
            body, headers = self.get(f"{address}/1")
            self.assertEqual((body, headers["content-language"], headers["content-length"]), ("panier", "fr", "6"))
            self.assertEqual(self.get(f"{address}/stream")[0], "panier " * 3)
            body, headers = self.get(f"{address}/file")
            self.assertEqual((body, headers["content-length"]), (FRENCH, str(len(FRENCH.encode()))))
            self.assertEqual(self.get(f"{address}/seen")[0], "True")


SITE = """
import os
import gunicorn.http.wsgi
import kobdzila

store = kobdzila.Store("shop")
store.watch("locale")
FILE = "locale/fr/LC_MESSAGES/shop.po"
sent = []
write_file = gunicorn.http.wsgi.Response.write_file
gunicorn.http.wsgi.Response.write_file = lambda self, wrapper: (open("sent", "w").close(), write_file(self, wrapper))[1]


def site(environ, start_response):
    texts = environ["kobdzila.snapshot"]
    headers = [("Content-Type", "text/plain; charset=utf-8")]
    if environ["PATH_INFO"] == "/file":
        start_response("200 OK", [*headers, ("Content-Length", str(os.path.getsize(FILE)))])
        return environ["wsgi.file_wrapper"](open(FILE, "rb"))
    if environ["PATH_INFO"] == "/stream":
        start_response("200 OK", headers)
        return (f"{texts.gettext('basket')} ".encode() for _ in range(3))
    page = str(os.path.exists("sent")).encode() if environ["PATH_INFO"] == "/seen" else texts.gettext("basket").encode()
    start_response("200 OK", [*headers, ("Content-Length", str(len(page)))])
    return [page]


app = kobdzila.WSGIMiddleware(site, store)
"""

if __name__ == "__main__":
    unittest.main()
