"""The functions of the standard module gettext, with the catalogues of this package.

The text domain and its folders are shared with the standard module, so each module sees what the other has set: the
messages of argparse, optparse and getopt, which import the standard one, are in the domain that textdomain has set.
"""
from __future__ import annotations

import errno
import operator
import os
from gettext import NullTranslations, find

from ._catalogue import INDEX_IS_INT, PRIVATE, GNUTranslations, warn_of

TYPE_CHECKING = False
if TYPE_CHECKING:
    from collections.abc import Callable, Container, Iterable
    from io import BufferedReader
    from typing import Any, Literal, TypeVar, overload

    AnyTranslations = TypeVar("AnyTranslations", bound=NullTranslations)

_translations: dict[tuple[Callable[[Any], Any], str], Any] = {}
_chains: dict[tuple[str, ...], tuple[list[Any], Any]] = {}  # by the names of files: those of _translations, and a chain
_localedirs: dict[str, str] = PRIVATE._localedirs


if TYPE_CHECKING:
    @overload
    def translation(
        domain: str, localedir: str | os.PathLike[str] | None = None, languages: Iterable[str] | None = None,
        class_: None = None, fallback: Literal[False] = False,
    ) -> GNUTranslations: ...
    @overload
    def translation(
        domain: str, localedir: str | os.PathLike[str] | None = None, languages: Iterable[str] | None = None, *,
        class_: Callable[[BufferedReader], AnyTranslations], fallback: Literal[False] = False,
    ) -> AnyTranslations: ...
    @overload
    def translation(
        domain: str, localedir: str | os.PathLike[str] | None, languages: Iterable[str] | None,
        class_: Callable[[BufferedReader], AnyTranslations], fallback: Literal[False] = False,
    ) -> AnyTranslations: ...
    @overload
    def translation(
        domain: str, localedir: str | os.PathLike[str] | None = None, languages: Iterable[str] | None = None,
        class_: Callable[[BufferedReader], NullTranslations] | None = None, fallback: bool = False,
    ) -> NullTranslations: ...


def translation(
    domain: str,
    localedir: str | os.PathLike[str] | None = None,
    languages: Iterable[str] | None = None,
    class_: Callable[[Any], Any] | None = None,
    fallback: bool = False,
) -> Any:
    """Return the translations of a text domain: those of the first language, with the others as fallbacks.

    The arguments are those of gettext.translation. Each file is read once.

    >>> import kobdzila
    >>> kobdzila.translation("no-such-domain", fallback=True).gettext("basket")
    'basket'
    """
    names = find(domain, localedir, languages, all=True)
    if not names:
        if fallback:
            return NullTranslations()
        raise FileNotFoundError(errno.ENOENT, "No translation file found for domain", domain)
    return _chain([_opened(class_ or GNUTranslations, name) for name in names])


def _chain(found: Iterable[Any]) -> Any:
    """Return copies of translations, each the fallback of those before it."""
    import copy

    first, *others = [copy.copy(it) for it in found]
    for other in others:
        first.add_fallback(other)
    return first


def _opened(class_: Callable[[Any], Any], name: str) -> Any:
    key = class_, name if os.path.isabs(name) else os.path.abspath(name)
    found = _translations.get(key)
    if found is None:
        with open(name, "rb") as file:
            found = _translations.setdefault(key, class_(file))
    return found


Catalog = translation


def install(
    domain: str, localedir: str | os.PathLike[str] | None = None, *, names: Container[str] | None = None
) -> None:
    """Install `_`, and the functions in `names`, as builtins."""
    translation(domain, localedir, fallback=True).install(names)


def textdomain(domain: str | None = None) -> str:
    """Set the text domain of gettext and its variants, unless `domain` is None, and return it.

    >>> import kobdzila
    >>> kobdzila.textdomain()
    'messages'
    """
    set_or_read: str = PRIVATE.textdomain(domain)
    return set_or_read


def bindtextdomain(domain: str, localedir: str | os.PathLike[str] | None = None) -> str:
    """Set the folder of a text domain's catalogues, unless `localedir` is None, and return it."""
    set_or_read: str = PRIVATE.bindtextdomain(domain, localedir)
    return set_or_read


class _Untranslated(NullTranslations):
    """The translations of a text domain without catalogues. As in Python 3.13, an `n` that isn't an int is a
    warning."""

    def ngettext(self, msgid1: str, msgid2: str, n: int) -> str:
        if not hasattr(n, "__index__"):
            warn_of(n)
        elif INDEX_IS_INT:
            n = operator.index(n)
        return msgid1 if n == 1 else msgid2

    def npgettext(self, context: str, msgid1: str, msgid2: str, n: int) -> str:
        return self.ngettext(msgid1, msgid2, n)


def _translations_of(domain: str) -> Any:
    """Return the translations of a text domain, only for look-ups: they are shared."""
    if translation is not Catalog:  # (a program has set another function)
        try:
            return translation(domain, PRIVATE._localedirs.get(domain))
        except OSError:
            return _Untranslated()
    names = tuple(find(domain, PRIVATE._localedirs.get(domain), all=True))
    try:
        found = [_opened(GNUTranslations, name) for name in names]
    except OSError:
        found = []
    if len(found) < 2:
        return found[0] if found else _Untranslated()
    known = _chains.get(names)
    if known is None or known[0] != found:
        known = _chains[names] = found, _chain(found)
    return known[1]


def dgettext(domain: str, message: str) -> str:
    """Return the translation of `message` in a text domain.

    >>> import kobdzila
    >>> kobdzila.dgettext("no-such-domain", "basket")
    'basket'
    """
    text: str = _translations_of(domain).gettext(message)
    return text


def dngettext(domain: str, msgid1: str, msgid2: str, n: int) -> str:
    """Return the plural form for `n` in a text domain."""
    text: str = _translations_of(domain).ngettext(msgid1, msgid2, n)
    return text


def dpgettext(domain: str, context: str, message: str) -> str:
    """Return the translation of `message` in `context`, in a text domain."""
    text: str = _translations_of(domain).pgettext(context, message)
    return text


def dnpgettext(domain: str, context: str, msgid1: str, msgid2: str, n: int) -> str:
    """Return the plural form for `n` of a message in `context`, in a text domain."""
    text: str = _translations_of(domain).npgettext(context, msgid1, msgid2, n)
    return text


def gettext(message: str) -> str:
    """Return the translation of `message` in the text domain of textdomain."""
    return dgettext(textdomain(), message)


def ngettext(msgid1: str, msgid2: str, n: int) -> str:
    """Return the plural form for `n` in the text domain of textdomain."""
    return dngettext(textdomain(), msgid1, msgid2, n)


def pgettext(context: str, message: str) -> str:
    """Return the translation of `message` in `context`, in the text domain of textdomain."""
    return dpgettext(textdomain(), context, message)


def npgettext(context: str, msgid1: str, msgid2: str, n: int) -> str:
    """Return the plural form for `n` of a message in `context`, in the text domain of textdomain."""
    return dnpgettext(textdomain(), context, msgid1, msgid2, n)
