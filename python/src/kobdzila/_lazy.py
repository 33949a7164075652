"""Messages that are looked up when they are used, in the current snapshot."""
from __future__ import annotations

from collections.abc import Callable, Iterator
from contextlib import contextmanager
from contextvars import ContextVar
from gettext import NullTranslations
from typing import TYPE_CHECKING, Any, Protocol, TypeVar

from . import _kobdzila

if TYPE_CHECKING:
    from ._store import Snapshot
    from .fleet._store import FollowerSnapshot

    AnySnapshot = TypeVar("AnySnapshot", bound=Snapshot | FollowerSnapshot)


class Texts(Protocol):
    """The value of `current_snapshot`: a Snapshot or, with kobdzila.flask and kobdzila.django, the framework's
    translations."""

    def gettext(self, message: str) -> str: ...
    def pgettext(self, context: str, message: str) -> str: ...
    def ngettext(self, msgid1: str, msgid2: str, n: int) -> str: ...
    def npgettext(self, context: str, msgid1: str, msgid2: str, n: int) -> str: ...


Answer = TypeVar("Answer")
NO_TEXTS = NullTranslations()
current_snapshot: ContextVar[Texts] = ContextVar("kobdzila.current_snapshot")
"""The snapshot of the request, the task or the thread that runs. WSGIMiddleware, ASGIMiddleware, kobdzila.flask and
kobdzila.django set it in each request, and `using` in a `with`. Elsewhere there is none: its `get()` is a LookupError."""


@contextmanager
def using(snapshot: AnySnapshot) -> Iterator[AnySnapshot]:
    """Make `snapshot` the current one in a `with`, at whose end it is closed.

    >>> import kobdzila
    >>> store = kobdzila.Store("shop")
    >>> store.load("shop", "fr", 'msgid "basket"\\nmsgstr "panier"\\n'.encode())
    >>> store.publish()
    1
    >>> title = kobdzila.lazy_gettext("basket")
    >>> with kobdzila.using(store.snapshot("fr")):
    ...     print(title)
    panier
    >>> print(title)
    basket
    """
    with snapshot:
        texts: Any = snapshot
        token = current_snapshot.set(texts)
        try:
            yield snapshot
        finally:
            current_snapshot.reset(token)


class LazyTranslations(_kobdzila.LazyTranslations):
    """Translations that get a snapshot from `current` at each call, for objects that are set up before any request
    arrives.

    By default `current` returns the current snapshot of the context: see `using`.

        environment.install_gettext_translations(
            kobdzila.LazyTranslations(lambda: request.environ["kobdzila.snapshot"]), newstyle=True)
    """

    def __init__(self, current: Callable[[], Any] = current_snapshot.get) -> None:
        self.current = current


class LazyText:
    """A message that is looked up whenever it is used as a str: by `str`, in a format, a template or a comparison.

    lazy_gettext and the other lazy functions make it.
    """

    __slots__ = ("_call", "_words")

    def __init__(self, call: str, words: tuple[Any, ...]) -> None:
        self._call, self._words = call, words

    def __str__(self) -> str:
        snapshot: Any = current_snapshot.get(None)
        return str(getattr(snapshot or NO_TEXTS, self._call)(*self._words))

    def __repr__(self) -> str:
        return f"lazy_{self._call}({', '.join(map(repr, self._words))})"

    def __format__(self, how: str) -> str:
        return format(str(self), how)

    def __getattr__(self, name: str) -> Any:
        if name.startswith("__"):
            raise AttributeError(name)
        return getattr(str(self), name)

    def __len__(self) -> int:
        return len(str(self))

    def __iter__(self) -> Iterator[str]:
        return iter(str(self))

    def __contains__(self, part: str) -> bool:
        return part in str(self)

    def __getitem__(self, index: Any) -> str:
        part: str = str(self)[index]
        return part

    def __add__(self, other: Any) -> str:
        return self._by(lambda own, text: own + text, other)

    def __radd__(self, other: Any) -> str:
        return self._by(lambda own, text: text + own, other)

    def __mul__(self, times: int) -> str:
        return str(self) * times

    __rmul__ = __mul__

    def __mod__(self, values: Any) -> str:
        text: str = str(self) % values
        return text

    def __hash__(self) -> int:
        return hash(str(self))

    def __eq__(self, other: object) -> bool:
        return str(self) == (str(other) if isinstance(other, LazyText) else other)

    def __lt__(self, other: Any) -> bool:
        return self._by(str.__lt__, other)

    def __le__(self, other: Any) -> bool:
        return self._by(str.__le__, other)

    def __gt__(self, other: Any) -> bool:
        return self._by(str.__gt__, other)

    def __ge__(self, other: Any) -> bool:
        return self._by(str.__ge__, other)

    def _by(self, work: Callable[[str, str], Answer], other: object) -> Answer:
        """Return what an operator answers for another text. With anything else it isn't implemented, as for a str."""
        if not isinstance(other, (str, LazyText)):
            return NotImplemented
        return work(str(self), str(other) if isinstance(other, LazyText) else other)

    def __reduce__(self) -> tuple[Any, ...]:
        return type(self), (self._call, self._words)

    def deconstruct(self) -> tuple[str, tuple[Any, ...], dict[str, Any]]:
        """Return the call that makes this text, as Django writes it into migrations."""
        return f"kobdzila.lazy_{self._call}", self._words, {}


def lazy_gettext(message: str) -> LazyText:
    """Return a lazy translation of `message`: it is looked up, when it is used, in the snapshot that is current
    then."""
    return LazyText("gettext", (message,))


def lazy_pgettext(context: str, message: str) -> LazyText:
    """Return a lazy translation of `message` in `context`, like lazy_gettext."""
    return LazyText("pgettext", (context, message))


def lazy_ngettext(msgid1: str, msgid2: str, n: int) -> LazyText:
    """Return a lazy plural form for `n`, like lazy_gettext."""
    return LazyText("ngettext", (msgid1, msgid2, n))


def lazy_npgettext(context: str, msgid1: str, msgid2: str, n: int) -> LazyText:
    """Return a lazy plural form for `n` of a message in `context`, like lazy_gettext."""
    return LazyText("npgettext", (context, msgid1, msgid2, n))
