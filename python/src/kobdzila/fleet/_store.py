"""The stores that a follower can feed, and what their readers get."""
from __future__ import annotations

from collections.abc import Callable
from contextlib import AbstractContextManager
from typing import TYPE_CHECKING, Any, Protocol

from .._closing import Closing
from .._session import Answer, Calls, Session
from ._version import Version, version_of

if TYPE_CHECKING:
    from typing_extensions import Self


class FollowerStore(Protocol):
    """A store that a Follower can feed: it shows its loads all at once, and counts them.

    kobdzila.Session is one. If a store also has a method `snapshot`, readers of the follower get its snapshots.
    """

    @property
    def version(self) -> int:
        """The number of loads published so far; refused ones don't count."""

    def load(self, domain: str, locale: str, data: bytes, /) -> object:
        """Keep an MO file for the next publish. Raise an exception if it is refused."""

    def publish(self) -> int:
        """Show all loads since the last publish in one step, and return the version."""


class Behind(Exception):
    """The machine hasn't reached a version in the time given.

    `version` is the one that it has, and `trouble` says why it isn't following, or is None.
    """

    version: Version
    at_least: Version
    trouble: str | None

    def __init__(self, version: int, at_least: int, trouble: str | None = None) -> None:
        super().__init__(version, at_least, trouble)
        self.version, self.at_least, self.trouble = version_of(version), version_of(at_least), trouble

    def __str__(self) -> str:
        why = "" if self.trouble is None else f": {self.trouble}"
        return f"version {self.version.token}, and {self.at_least.token} was asked for{why}"


class FollowerSnapshot:
    """A snapshot of the follower's store, with its methods.

    `version` is the log's. `is_older` says that the translations are those of the machine's cache, because the log
    hasn't answered since the start. If the store is a Session, the methods are those of SessionTexts.
    """

    def __init__(
        self, made: AbstractContextManager[Any], log_version: Callable[[int], Version], is_older: bool = False
    ) -> None:
        self._made, self._log_version, self.is_older = made, log_version, is_older
        self._texts: Any = made

    @property
    def version(self) -> Version:
        """The log's version of the translations."""
        return self._log_version(int(self._texts.version))

    def __getattr__(self, name: str) -> Any:
        if name.startswith("_"):
            raise AttributeError(name)
        return getattr(self._texts, name)

    def __enter__(self) -> Self:
        self._texts = self._made.__enter__()
        return self

    def __exit__(self, *why: Any) -> None:
        self._made.__exit__(*why)


class SessionTexts(Closing, Calls):
    """Look-ups in a Session that a follower feeds. The versions of the answers are the log's.

    All answers to one `ask` are of one version. A later `ask` may return a later one.
    """

    def __init__(self, session: Session, log_version: Callable[[int], Version]) -> None:
        self._session, self._log_version = session, log_version
        self.version = session.version  # (the session's; FollowerSnapshot turns it into the log's)

    def close(self) -> None:
        """Do nothing: the session belongs to the follower."""

    def ask(self, domain: str, languages: str, *questions: tuple[str | int, ...]) -> list[Answer]:
        """Return the answers to several questions, all of one version, such as ("ngettext", "file", "files", 2)."""
        answers = self._session.ask(domain, languages, *questions)
        self.version = max([self.version, *(answer.version for answer in answers)])
        return [Answer(self._log_version(answer.version), answer.text) for answer in answers]
