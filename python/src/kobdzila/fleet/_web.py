"""Middleware for WSGI and ASGI: each request gets a snapshot no older than what its visitor has seen."""
from __future__ import annotations

import contextlib
import inspect
import threading
from collections.abc import Awaitable, Callable, Iterable, Iterator, MutableMapping
from http import HTTPStatus
from typing import Any, Generic, TypeVar

from .._negotiation import AcceptLanguage
from .._web import Body, current, described
from ._follow import Follower
from ._store import Behind, FollowerSnapshot
from ._version import Version

COOKIE = "kobdzila_version"
HEADER = "Kobdzila-Version"
OLDER = "Kobdzila-Older"
KEY = "kobdzila.snapshot"
COOKIE_SECONDS = 3600
TRY_AGAIN_LATER = 1013  # a close code of WebSockets
OLD = b"the texts of this machine are older than those that you have seen\n"
MOST_WAITING = 32  # requests that wait at once; others are answered at once

Environment = dict[str, Any]
StartResponse = Callable[..., Any]
Application = Callable[[Environment, StartResponse], Iterable[bytes]]
Message = MutableMapping[str, Any]
Receive = Callable[[], Awaitable[Message]]
Send = Callable[[Message], Awaitable[None]]
ASGIApplication = Callable[[Message, Receive, Send], Awaitable[None]]
App = TypeVar("App")


class Middleware(Generic[App]):
    """The common part of both kinds.

    A request's version is that of its header `Kobdzila-Version` or its cookie, whichever is greater. The request waits
    up to `within` seconds until this machine shows that version. If it doesn't, the response is 503, so that a load
    balancer tries another machine; with `serve_older` the application is called nevertheless, even with what the store
    had before the start. The version of the response is in its header and its cookie, as a token (EPOCH.NUMBER). If the
    translations are those of the machine's cache, the response also has a header `Kobdzila-Older: 1`. An application
    that publishes sets its own header `Kobdzila-Version` to the token of the new version: its visitor then sees that
    version everywhere.

    A request for the path `health` is answered with the follower's health as JSON: with status 200 if the machine has
    translations, and 503 if not.

    If the store's `snapshot` takes languages, they come from the Accept-Language header, and `domain` is its domain. It
    is then also the current snapshot of the request, which lazy messages use, and the response gets a Content-Language
    header, unless the application has set one.
    """

    def __init__(
        self, app: App, follower: Follower, domain: str | None = None, *, within: float = 0.5,
        serve_older: bool = False, cookie: str = COOKIE, health: str | None = None,
    ) -> None:
        self.app, self.follower, self.domain, self.health = app, follower, domain, health
        self.within, self.serve_older, self.cookie = within, serve_older, cookie
        take = getattr(follower.store, "snapshot", None)
        self._takes_languages = take is not None and "languages" in inspect.signature(take).parameters
        self._waiting = threading.BoundedSemaphore(MOST_WAITING)
        self._varies = [*(["Accept-Language"] if self._takes_languages else []), "Cookie", HEADER]

    def wanted(self, header: str, cookies: str) -> Version:
        """Return the version that a request has seen, or 0.

        Cookies are split as RFC 6265, section 5.4, joins them. SimpleCookie refuses all of them if one has a space or a
        quote.
        """
        pairs = (it.partition("=") for it in cookies.split(";"))
        seen = [value.strip().strip('"') for name, _, value in pairs if name.strip() == self.cookie]
        return self.latest(*map(parsed, [header, *seen]))

    def latest(self, *versions: Version) -> Version:
        """Return the greatest version of the latest epoch: one that isn't a past epoch of this machine."""
        return max(versions, key=lambda it: (bool(it.epoch) and not self.follower.is_past(it.epoch), it))

    def is_ready(self, at_least: Version) -> bool:
        """Whether a snapshot of this version is available at once."""
        try:
            self.follower.wait_for(at_least, 0)
        except Behind:
            return False
        return True

    def snapshot(self, at_least: Version, accepted: str) -> FollowerSnapshot | None:
        """Return a snapshot, or None if the request must be answered with 503. `accepted` is its Accept-Language."""
        if not self._waiting.acquire(blocking=False):
            return self._taken(at_least, 0, accepted)
        try:
            return self._taken(at_least, self.within, accepted)
        finally:
            self._waiting.release()

    def _taken(self, at_least: Version, within: float, accepted: str) -> FollowerSnapshot | None:
        options = {"languages": AcceptLanguage(accepted), "domain": self.domain} if self._takes_languages else {}
        for version in [at_least, Version()] if self.serve_older else [at_least]:
            with contextlib.suppress(Behind):
                return self.follower.snapshot(at_least=version, within=within, **options)
        return self.follower.unjoined(**options) if self.serve_older and self.follower.store.version else None

    def as_current(self, snapshot: Any) -> contextlib.AbstractContextManager[None]:
        """Make a snapshot the current one in a `with`, if its look-ups need no language."""
        return current(snapshot) if self._takes_languages else contextlib.nullcontext()

    def headers(self, snapshot: FollowerSnapshot, written: Iterable[tuple[str, str]]) -> list[tuple[str, str]]:
        """Return the headers of a response for which the application has set these."""
        versions, others, varies = [snapshot.version], [], [*self._varies]
        for name, value in written:
            if name.lower() == HEADER.lower() and (given := parsed(value)):
                versions.append(given if given.epoch else Version(given, versions[0].epoch))
            elif name.lower() == "vary":
                varies += [word.strip() for word in value.split(",")]
            else:
                others.append((name, value))
        token = self.latest(*versions).token
        kept = f"{self.cookie}={token}; Max-Age={COOKIE_SECONDS}; Path=/; SameSite=Lax; HttpOnly"
        older = [(OLDER, "1")] if snapshot.is_older else []
        made = [*others, (HEADER, token), *older, ("Vary", joined(varies)), ("Set-Cookie", kept)]
        return described(made, (), getattr(snapshot, "lang", None) if self._takes_languages else None)

    def refusal(self, path: str) -> tuple[int, list[tuple[str, str]], bytes]:
        """Return status, headers and body of the response if there is no snapshot, or if the path is that of the
        health."""
        if path == self.health:
            health = self.follower.health()
            return health.status, [("Content-Type", "application/json"), ("Cache-Control", "no-store")], health.json().encode()
        return 503, [("Content-Type", "text/plain"), ("Retry-After", "1"), ("Vary", joined(self._varies))], OLD


def parsed(text: str) -> Version:
    """Return the version of a header or a cookie, or 0."""
    with contextlib.suppress(ValueError):
        return Version.parse(text)
    return Version()


def joined(names: Iterable[str]) -> str:
    """Return a Vary header with each name once."""
    kept = {name.lower(): name for name in reversed([*names])}
    return "*" if "*" in kept else ", ".join(reversed(kept.values()))


class WSGIMiddleware(Middleware[Application]):
    """Puts a FollowerSnapshot into the environment of each request, as `kobdzila.snapshot`.

        application = WSGIMiddleware(application, follower)
    """

    def __call__(self, environ: Environment, start_response: StartResponse) -> Iterable[bytes]:
        path = environ.get("PATH_INFO", "")
        at_least = self.wanted(environ.get("HTTP_KOBDZILA_VERSION", ""), environ.get("HTTP_COOKIE", ""))
        made = None if path == self.health else self.snapshot(at_least, environ.get("HTTP_ACCEPT_LANGUAGE", ""))
        if made is None:
            status, headers, body = self.refusal(path)
            start_response(f"{status} {HTTPStatus(status).phrase}", headers)
            return [body]
        return self._answered(made, environ, start_response)

    def _answered(self, made: FollowerSnapshot, environ: Environment, start_response: StartResponse) -> Iterator[bytes]:
        with made as snapshot:
            def start(status: str, headers: list[tuple[str, str]], *more: Any) -> Any:
                return start_response(status, self.headers(snapshot, headers), *more)

            texts: Any = snapshot  # (with the methods of the store's)
            environ[KEY] = texts
            with self.as_current(texts):
                body = self.app(environ, start)
            try:
                yield from Body(body, texts) if self._takes_languages else body
            finally:
                with self.as_current(texts):
                    getattr(body, "close", lambda: None)()


class ASGIMiddleware(Middleware[ASGIApplication]):
    """Puts a FollowerSnapshot into the scope of each HTTP request and WebSocket, as `kobdzila.snapshot`.

    A WebSocket whose version isn't there in time is closed with the code 1013, "try again later".

        application = ASGIMiddleware(application, follower)
    """

    async def __call__(self, scope: Message, receive: Receive, send: Send) -> None:
        if scope["type"] not in ("http", "websocket"):
            await self.app(scope, receive, send)
            return
        made = None if scope.get("path", "") == self.health else await self._made(scope)
        if made is None:
            await self._refuse(scope, send)
            return
        with made as snapshot, self.as_current(snapshot):
            async def sends(message: Message) -> None:
                if message["type"] == "http.response.start":
                    written = ((name.decode("latin-1"), value.decode("latin-1"))
                               for name, value in message.get("headers", []))
                    message = {**message, "headers": [(name.lower().encode("latin-1"), value.encode("latin-1"))
                                                      for name, value in self.headers(snapshot, written)]}
                await send(message)

            await self.app({**scope, KEY: snapshot}, receive, sends)

    async def _made(self, scope: Message) -> FollowerSnapshot | None:
        """Return a snapshot for a request, without blocking the event loop or a thread of its executor."""
        def named(wanted: bytes, joint: str) -> str:
            return joint.join(value.decode("latin-1") for name, value in scope["headers"] if name.lower() == wanted)

        at_least = self.wanted(named(HEADER.lower().encode(), ","), named(b"cookie", "; "))
        accepted = named(b"accept-language", ",")
        if not self.is_ready(at_least) and self._waiting.acquire(blocking=False):
            try:
                with contextlib.suppress(Behind):
                    await self.follower.wait_for_async(at_least, self.within)
            finally:
                self._waiting.release()
        return self._taken(at_least, 0, accepted)

    async def _refuse(self, scope: Message, send: Send) -> None:
        if scope["type"] == "websocket":
            await send({"type": "websocket.close", "code": TRY_AGAIN_LATER})
            return
        status, written, body = self.refusal(scope.get("path", ""))
        headers = [(name.lower().encode(), value.encode()) for name, value in written]
        await send({"type": "http.response.start", "status": status, "headers": headers})
        await send({"type": "http.response.body", "body": body})
