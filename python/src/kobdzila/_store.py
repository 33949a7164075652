"""A live store: catalogues that are replaced while the threads of the process use them."""
from __future__ import annotations

import os
import threading
from collections.abc import Callable, Iterable
from functools import lru_cache
from typing import TYPE_CHECKING, Any, NoReturn

from . import _forks, _kobdzila
from ._catalogue import Catalogue, fields_of, rule_of
from ._closing import Closing
from ._languages import NO_SITE, answer_of
from ._negotiation import Site, direction
from ._refused import Refused
from ._waiting import Waiters

if TYPE_CHECKING:
    from ._watch import FileRefused, Watch

MO_MAGICS = (b"\xde\x12\x04\x95", b"\x95\x04\x12\xde")
MANY = 1000  # a plural rule has shown all its forms before this number


class Snapshot(_kobdzila.Snapshot, Closing):
    """Look-ups in one version of a store, made by Store.snapshot.

    gettext, pgettext, ngettext and npgettext look up in `domain`, and dgettext, dpgettext, dngettext and dnpgettext in
    the domain that you pass, as in the standard module gettext. `languages` are the locales to search, in order.
    Threads may share a snapshot.

    Use it in a `with`, or call `close` when the request is done: after that, a look-up raises ValueError. A snapshot
    without references closes itself. While it is open, the store keeps the catalogues of its version.
    """

    __slots__ = ("_lang",)
    _lang: str | None  # of what the reader gets: a catalogue's, or that of the msgids

    def info(self, domain: str | None = None) -> dict[str, str]:
        """Return the header fields of the first catalogue that these languages have, with their names in lower case as
        keys."""
        return fields_of(self.find(self.domain if domain is None else domain, self.languages, "") or "")

    @property
    def language(self) -> str | None:
        """The language of the first catalogue that these languages have in `domain`, by its header or its name."""
        for locale in self.languages.split(":"):
            header = self.find(self.domain, locale, "")
            if header is not None:
                return fields_of(header).get("language") or locale
        return None

    @property
    def lang(self) -> str | None:
        """The language tag of the page (RFC 5646), for the attribute `lang` of HTML and the header Content-Language.

        It is the tag of the chosen locale, or of the msgids' language if there is no catalogue. None if that isn't
        known either.

        >>> import kobdzila
        >>> store = kobdzila.Store("shop")
        >>> store.load("shop", "pt_BR", b'msgid "basket"\\nmsgstr "cesta"\\n')
        >>> version = store.publish()
        >>> store.snapshot("pt-BR, en;q=0.5").lang, store.snapshot("sv").lang
        ('pt-BR', 'en')
        """
        return getattr(self, "_lang", None)

    @property
    def dir(self) -> str:
        """The direction of that language, "ltr" or "rtl", for the attribute `dir` of HTML."""
        return direction(self.lang or "")

    def _other_number(
        self, domain: str, context: str | None, key: str | None, msgid1: str, msgid2: str, n: Any
    ) -> str:
        """Answer for an `n` that isn't an int from 0 to 2**64 - 1, as the standard module does.

        `key` is the text of msgid1, or None if no text is equal to it.
        """
        found = self._by_rule(domain, self.languages, key, context, n)
        return found if found is not None else msgid1 if n == 1 else msgid2

    def _counted(self, domain: str, languages: str, message: str, context: str | None, n: Any) -> str | None:
        """Return the plural form for any `n` in languages that are the same str object at each call, or None."""
        if isinstance(n, int) and 0 <= n < 1 << 64:
            return self._recall(domain, languages, message, context, n)
        return self._by_rule(domain, languages, message, context, n)

    def _by_rule(self, domain: str, languages: str, message: str | None, context: str | None, n: Any) -> str | None:
        """Return the plural form that Python's rule chooses, or None if there is no translation.

        Each catalogue's rule is asked in turn, also without a message: it may refuse `n`.
        """
        for locale in languages.split(":"):
            rule = rule_in(self.find(domain, locale, "") or "")
            number = rule(n)
            if message is not None and self.find(domain, locale, message, context) is not None:
                same = next((other for other in range(MANY) if rule(other) == number), 0)
                return self.find(domain, locale, message, context, same)
        return None


class Store(_kobdzila.Store):
    """A live store of catalogues, each for a text domain and a locale.

    `domain` is the default text domain of snapshots. `source` is the language of the msgids, or None, and `default` the
    locale for a reader whose languages the store doesn't have, instead of untranslated messages: see `snapshot`. Any
    number of threads may use a store. A forked child has a store of its own, which continues from its parent's version.

    >>> import kobdzila
    >>> store = kobdzila.Store("shop")
    >>> store.load("shop", "fr", 'msgid "basket"\\nmsgstr "panier"\\n'.encode())
    >>> store.publish()
    1
    >>> with store.snapshot(languages="fr-CA, en;q=0.5") as texts:
    ...     store.load("shop", "fr", 'msgid "basket"\\nmsgstr "corbeille"\\n'.encode())
    ...     version = store.publish()
    ...     print(version, texts.version, texts.gettext("basket"))
    2 1 panier
    >>> store.snapshot("fr").gettext("basket")
    'corbeille'
    """

    domain: str
    source: str | None
    default: str | None

    def __init__(self, domain: str = "messages", *, source: str | None = "en", default: str | None = None) -> None:
        self.domain, self.source, self.default = domain, source, default
        self._lock = threading.RLock()  # held while a publish is under way
        self._changed = threading.Condition(self._lock)
        self._waiters = Waiters()
        self._shown = 0  # the version of the last publish that has ended
        self._loaded: dict[str, set[str]] = {}  # locales of the loads that are pending, by their domains
        self._sites: dict[str, Site] = {}  # the published ones, by their domains
        _forks.register(self)

    def __reduce__(self) -> NoReturn:
        raise TypeError("a store can't be copied or pickled")

    def load(
        self,
        domain: str,
        locale: str,
        data: _kobdzila.Buffer | _kobdzila.Catalogue,
        *,
        checked: bool = False,
        use_fuzzy: bool = False,
    ) -> None:
        """Keep an MO file, a PO text or a Catalogue for the next publish.

        The options are those of Catalogue.from_po. Raise Refused, with the fault and the line, if the catalogue or a
        name is refused. The store is then unchanged.

        >>> import kobdzila
        >>> store = kobdzila.Store()
        >>> try:
        ...     store.load("shop", "fr", b'msgid "basket"\\nmsgstr "pan\\\\y"\\n')
        ... except kobdzila.Refused as refused:
        ...     print(refused.line, refused.fault.name, store.pending)
        2 PO_BAD_ESCAPE 0
        """
        self._load(domain, locale, opened(data, checked, use_fuzzy))

    def publish(self) -> int:
        """Show all loads since the last publish in one step, and return the version: the number of loads published so
        far.

        It doesn't wait for snapshots. Raise MemoryError if memory runs out: nothing is published, and the loads are
        still pending.
        """
        _forks.give_way()
        with self._lock:
            version = self._publish()
            for domain, locales in self._loaded.items():
                known = self._sites.get(domain, NO_SITE).names
                if not locales <= known:
                    self._sites[domain] = Site(known | locales, self.source)
            self._loaded.clear()
            self._shown = version
            self._changed.notify_all()
        self._waiters.wake()
        return version

    def _load(self, domain: str, locale: str, catalogue: _kobdzila.Catalogue) -> None:
        with self._lock:
            super()._load(domain, locale, catalogue)
            self._loaded.setdefault(domain, set()).add(locale)

    def snapshot(
        self,
        languages: str | Iterable[str] | None = None,
        domain: str | None = None,
        *,
        at_least: int = 0,
        within: float = 0.0,
    ) -> Snapshot:
        """Return a snapshot of the newest version, which is never older than one that a publish has returned.

        `languages` is the name of a language, or an Accept-Language header: the reader gets one language for all
        messages, chosen as `negotiate` does from those that the store has, including the language of the msgids. If
        none matches, it is the store's `default`, or the language of the msgids.

        `languages` may also be a list of locales or language tags, or a string of them separated by colons. Each
        message is then looked up in all of them in turn, as for the variable LANGUAGE. None means the environment
        variables LANGUAGE, LC_ALL, LC_MESSAGES and LANG. Wrap a header in AcceptLanguage so that it is never taken for
        a list.

        If the version is less than `at_least`, wait up to `within` seconds for a publish, and then raise TimeoutError.
        """
        if at_least > self._shown:
            with self._lock:
                if not self._changed.wait_for(lambda: self._shown >= at_least, within):
                    raise self._late(at_least)
        where = self.domain if domain is None else domain
        # (a locale that is published stays so: each of these is in the version that the snapshot enters next)
        answer = answer_of(languages, self._sites.get(where, NO_SITE), self.default, self.source)
        made = Snapshot(self, where, answer.locales)
        made._lang = answer.lang
        return made

    async def snapshot_async(
        self,
        languages: str | Iterable[str] | None = None,
        domain: str | None = None,
        *,
        at_least: int = 0,
        within: float = 0.0,
    ) -> Snapshot:
        """Return what `snapshot` does. Only this coroutine waits; it blocks neither the event loop nor a thread.

        >>> import asyncio, kobdzila
        >>> store = kobdzila.Store("shop")
        >>> async def request():
        ...     with await store.snapshot_async("fr", at_least=1, within=5) as texts:
        ...         return texts.gettext("basket")
        >>> async def both():
        ...     waiting = asyncio.create_task(request())
        ...     store.load("shop", "fr", b'msgid "basket"\\nmsgstr "panier"\\n')
        ...     await asyncio.to_thread(store.publish)
        ...     return await waiting
        >>> asyncio.run(both())
        'panier'
        """
        if not await self._waiters.wait_for(lambda: self._shown >= at_least, within):
            raise self._late(at_least)
        return self.snapshot(languages, domain)

    def locales(self, domain: str | None = None) -> list[str]:
        """Return the locales whose catalogues are published in a text domain, in order."""
        return sorted(self._sites.get(self.domain if domain is None else domain, NO_SITE).names)

    def _late(self, at_least: int) -> TimeoutError:
        return TimeoutError(f"the store is at version {self.version}, and {at_least} was asked for")

    def watch(
        self,
        folder: str | os.PathLike[str],
        *,
        refused: Callable[[FileRefused], object] | None = None,
        every: float = 1.0,
        settle: float = 0.1,
        domains: Iterable[str] | None = None,
        checked: bool = False,
        use_fuzzy: bool = False,
        allow_empty: bool = False,
    ) -> Watch:
        """Load the catalogues of a folder, and reload them when they change: see Watch for the options."""
        from ._watch import Watch

        return Watch(
            self, folder, refused=refused, every=every, settle=settle, domains=domains, checked=checked,
            use_fuzzy=use_fuzzy, allow_empty=allow_empty,
        )

    def _fork_locks(self) -> list[_forks.Lock]:
        return [self._lock]

    def _forked(self) -> None:
        self._lock = threading.RLock()
        self._changed = threading.Condition(self._lock)
        self._waiters = Waiters()

    def _publish_all(self, loads: Iterable[tuple[str, str, Catalogue]]) -> tuple[int, dict[int, Refused]]:
        """Publish these loads in one step. Return the version, and the loads that were refused."""
        refusals: dict[int, Refused] = {}
        _forks.give_way()
        with self._lock:
            for number, load in enumerate(loads):
                try:
                    self._load(*load)
                except Refused as refused:
                    refusals[number] = refused
            return self.publish(), refusals


@lru_cache(64)
def rule_in(header: str) -> Callable[[int], int]:
    return rule_of(fields_of(header))


def opened(data: _kobdzila.Buffer | _kobdzila.Catalogue, checked: bool, use_fuzzy: bool) -> _kobdzila.Catalogue:
    """Return the catalogue of an MO file, recognized by its magic number, or of a PO text."""
    if isinstance(data, _kobdzila.Catalogue):
        return data
    if bytes(memoryview(data)[:4]) in MO_MAGICS:
        return Catalogue.from_mo(data)
    return Catalogue.from_po(data, checked, use_fuzzy)
