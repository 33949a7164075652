"""Middleware for WSGI and ASGI: each request uses one version of a store, and one language."""
from __future__ import annotations

from collections.abc import Awaitable, Callable, Iterable, Iterator, MutableMapping, Sequence
from contextlib import contextmanager
from typing import TYPE_CHECKING, Any

from ._lazy import current_snapshot, using
from ._negotiation import AcceptLanguage

if TYPE_CHECKING:
    import os

    from ._store import Snapshot, Store
    from ._watch import Watch

Start = Callable[..., Any]
Application = Callable[[dict[str, Any], Start], Iterable[bytes]]
Scope = MutableMapping[str, Any]
Message = MutableMapping[str, Any]
Receive = Callable[[], Awaitable[Message]]
Send = Callable[[Message], Awaitable[None]]
ASGIApplication = Callable[[Scope, Receive, Send], Awaitable[None]]
Headers = list[tuple[str, str]]

KEY = "kobdzila.snapshot"
FILE_WRAPPER = "wsgi.file_wrapper"
ACCEPT_LANGUAGE = "Accept-Language"


def described(headers: Headers, vary: Iterable[str], lang: str | None) -> Headers:
    """Return the headers of a response that depends on these headers of the request, and is in this language.

    Missing names are added to `Vary` (RFC 9110, section 12.5.5). A `Content-Language` (section 8.5) that the
    application has set stays.

    >>> described([("Vary", "Cookie")], ["Accept-Language", "Cookie"], "fr")
    [('Vary', 'Cookie, Accept-Language'), ('Content-Language', 'fr')]
    """
    written = [value for name, value in headers if name.lower() == "vary"]
    known = {it.strip().lower() for value in written for it in value.split(",")}
    lacking = [] if "*" in known else [it for it in vary if it.lower() not in known]
    if lacking:
        headers = [it for it in headers if it[0].lower() != "vary"]
        headers.append(("Vary", ", ".join([*filter(None, written), *lacking])))
    if lang and not any(name.lower() == "content-language" for name, _ in headers):
        headers = [*headers, ("Content-Language", lang)]
    return headers


@contextmanager
def current(snapshot: Snapshot) -> Iterator[None]:
    """Make `snapshot` the current one in a `with`, without closing it."""
    token = current_snapshot.set(snapshot)
    try:
        yield
    finally:
        current_snapshot.reset(token)


class Middleware:
    """The common part of both kinds: the store, and the headers of a request on which the choice of its language
    depends."""

    def __init__(self, store: Store, domain: str | None, vary: Sequence[str] | None, is_header: bool) -> None:
        self.store, self.domain = store, domain
        self.vary = tuple(vary) if vary is not None else (ACCEPT_LANGUAGE,) if is_header else (ACCEPT_LANGUAGE, "Cookie")

    def snapshot(self, wanted: str | Iterable[str]) -> Snapshot:
        """Return the snapshot of a request. Here a string is never a list, since a stranger may have written it."""
        return self.store.snapshot(AcceptLanguage(wanted) if isinstance(wanted, str) else wanted, self.domain)


class WSGIMiddleware(Middleware):
    """Puts a Snapshot into the environment of each request, as `kobdzila.snapshot`.

    It is also the current snapshot of the request, which lazy messages use. Its language is chosen by the
    Accept-Language header, or by what `languages` returns for the environment: a language or a header for one language,
    or a list of locales to search in turn. The response gets a Content-Language header, unless the application has set
    one, and `Vary` names the headers of `vary`. By default these are Accept-Language and, if there is a function
    `languages`, Cookie. The snapshot is closed when the server closes the response.

        application = kobdzila.WSGIMiddleware(application, store)
    """

    def __init__(
        self,
        app: Application,
        store: Store,
        domain: str | None = None,
        languages: Callable[[dict[str, Any]], str | Iterable[str]] | None = None,
        *,
        vary: Sequence[str] | None = None,
    ) -> None:
        super().__init__(store, domain, vary, languages is None)
        self.app, self.languages = app, languages or (lambda it: str(it.get("HTTP_ACCEPT_LANGUAGE", "")))

    def __call__(self, environ: dict[str, Any], start_response: Start) -> Iterable[bytes]:
        snapshot = environ[KEY] = self.snapshot(self.languages(environ))
        files: list[object] = []

        def start(status: str, headers: Headers, *more: Any) -> Any:
            return start_response(status, described(headers, self.vary, snapshot.lang), *more)

        try:
            with current(snapshot):
                self._note_files(environ, files)
                return self._closing(self.app(environ, start), snapshot, environ.get(FILE_WRAPPER), files)
        except BaseException:
            snapshot.close()
            raise

    @staticmethod
    def _note_files(environ: dict[str, Any], files: list[object]) -> None:
        """Append to `files` what the server's file wrapper makes, if the wrapper is a function and not a class."""
        wrapper: Any = environ.get(FILE_WRAPPER, type)
        if isinstance(wrapper, type):
            return

        def noted(*words: Any) -> Any:
            files.append(wrapper(*words))
            return files[-1]

        environ[FILE_WRAPPER] = noted

    @staticmethod
    def _closing(body: Iterable[bytes], snapshot: Snapshot, wrapper: object, files: list[object]) -> Iterable[bytes]:
        """Return a body at whose end the snapshot is closed.

        A server sends a file faster if the body is its own object (PEP 3333, "Optional Platform-Specific File
        Handling"). A file has no messages, so the snapshot is closed at once.
        """
        if isinstance(wrapper, type) and isinstance(body, wrapper) or any(body is it for it in files):
            snapshot.close()
            return body
        return SizedBody(body, snapshot) if hasattr(body, "__len__") else Body(body, snapshot)


class Body:
    """The body of a response, at whose end a snapshot is closed. While a block is produced, the snapshot is the current
    one."""

    def __init__(self, body: Iterable[bytes], snapshot: Snapshot) -> None:
        self._body, self._snapshot = body, snapshot

    def __iter__(self) -> Iterator[bytes]:
        return iter(self._body) if isinstance(self._body, (list, tuple)) else self._blocks()

    def _blocks(self) -> Iterator[bytes]:
        with current(self._snapshot):
            blocks = iter(self._body)
        while True:
            with current(self._snapshot):
                try:
                    block = next(blocks)
                except StopIteration:
                    return
            yield block

    def close(self) -> None:
        try:
            with current(self._snapshot):
                getattr(self._body, "close", lambda: None)()
        finally:
            self._snapshot.close()


class SizedBody(Body):
    """A body with a known number of blocks. A server writes Content-Length for a single block (PEP 3333)."""

    def __len__(self) -> int:
        size: int = getattr(self._body, "__len__")()
        return size


class ASGIMiddleware(Middleware):
    """Puts a Snapshot into the scope of each HTTP request and WebSocket, as `kobdzila.snapshot`.

    Languages and headers are as for WSGIMiddleware; `languages` is called with the scope. If `watch` is a folder, its
    catalogues are loaded when the server starts, and watched until it stops: the lifespan of ASGI, in each worker
    process. If the folder can't be read, the server doesn't start.

        application = kobdzila.ASGIMiddleware(application, store)
        application.add_middleware(kobdzila.ASGIMiddleware, store=store, watch="locale")  # Starlette, FastAPI
    """

    def __init__(
        self,
        app: ASGIApplication,
        store: Store,
        domain: str | None = None,
        languages: Callable[[Scope], str | Iterable[str]] | None = None,
        *,
        vary: Sequence[str] | None = None,
        watch: str | os.PathLike[str] | None = None,
    ) -> None:
        super().__init__(store, domain, vary, languages is None)
        self.app, self.languages, self.folder = app, languages or languages_of, watch

    async def __call__(self, scope: Scope, receive: Receive, send: Send) -> None:
        if scope["type"] == "lifespan" and self.folder is not None:
            await self._live(scope, receive, send)
        elif scope["type"] in ("http", "websocket"):
            await self._answer(scope, receive, send)
        else:
            await self.app(scope, receive, send)

    async def _answer(self, scope: Scope, receive: Receive, send: Send) -> None:
        with using(self.snapshot(self.languages(scope))) as snapshot:
            lang = snapshot.lang

            async def sends(message: Message) -> None:
                if message["type"] in ("http.response.start", "websocket.accept"):
                    message = {**message, "headers": self._headers(message.get("headers") or [], lang)}
                await send(message)

            await self.app({**scope, KEY: snapshot}, receive, sends)

    def _headers(self, headers: Iterable[tuple[bytes, bytes]], lang: str | None) -> list[tuple[bytes, bytes]]:
        written = [(name.decode("latin-1"), value.decode("latin-1")) for name, value in headers]
        return [(name.lower().encode("latin-1"), value.encode("latin-1"))
                for name, value in described(written, self.vary, lang)]

    async def _live(self, scope: Scope, receive: Receive, send: Send) -> None:
        """Watch the folder while the application lives. An application without a lifespan gets no events of it."""
        watches: list[Watch] = []
        asked = False

        async def receives() -> Message:
            nonlocal asked
            asked, message = True, await receive()
            if message["type"] == "lifespan.startup":
                watches.append(await self._watched(send))
            return message

        try:
            try:
                await self.app(scope, receives, send)
            except Exception:
                if asked:
                    raise
            if not asked:
                for answer in ("lifespan.startup.complete", "lifespan.shutdown.complete"):
                    await receives()
                    await send({"type": answer})
        finally:
            for watch in watches:
                watch.stop()

    async def _watched(self, send: Send) -> Watch:
        import asyncio

        try:
            return await asyncio.to_thread(self.store.watch, self.folder or "")
        except Exception as fault:
            await send({"type": "lifespan.startup.failed", "message": f"kobdzila can't watch the catalogues: {fault}"})
            raise


def languages_of(scope: Scope) -> str:
    """Return the Accept-Language header of a request, which may have several lines."""
    return ",".join(value.decode("latin-1") for name, value in scope["headers"] if name == b"accept-language")
