"""GNU gettext's message catalogues through libkobdzila, with the interface of the standard module gettext.

>>> import kobdzila
>>> french = kobdzila.Catalogue.from_po(b'''
... msgid ""
... msgstr "Content-Type: text/plain; charset=UTF-8\\\\nPlural-Forms: nplurals=2; plural=n>1;\\\\n"
...
... msgid "%d file"
... msgid_plural "%d files"
... msgstr[0] "%d fichier"
... msgstr[1] "%d fichiers"
... ''')
>>> french.ngettext("%d file", "%d files", 2) % 2
'2 fichiers'
"""
from __future__ import annotations

import gettext as _standard
import sys as _sys
from gettext import NullTranslations, find
from types import ModuleType as _ModuleType

from . import _gettext
from ._catalogue import Catalogue, Entry, GNUTranslations
from ._gettext import (
    Catalog,
    bindtextdomain,
    dgettext,
    dngettext,
    dnpgettext,
    dpgettext,
    gettext,
    install,
    ngettext,
    npgettext,
    pgettext,
    textdomain,
    translation,
)
from ._kobdzila import version as _version
from ._refused import Fault, Refused

TYPE_CHECKING = False
if TYPE_CHECKING:
    from typing import Any

    from ._compile import compile_po
    from ._lazy import (
        LazyText,
        LazyTranslations,
        current_snapshot,
        lazy_gettext,
        lazy_ngettext,
        lazy_npgettext,
        lazy_pgettext,
        using,
    )
    from ._negotiation import AcceptLanguage, accepted, direction, language_tag, negotiate
    from ._session import Answer, LoadRefused, Refusal, Session, SessionEnded
    from ._store import Snapshot, Store
    from ._watch import FileRefused, Watch
    from ._web import ASGIMiddleware, WSGIMiddleware

Translations = GNUTranslations
__version__ = _version

__all__ = [
    "ASGIMiddleware",
    "AcceptLanguage",
    "Answer",
    "Catalog",
    "Catalogue",
    "Entry",
    "Fault",
    "FileRefused",
    "GNUTranslations",
    "LazyText",
    "LazyTranslations",
    "LoadRefused",
    "NullTranslations",
    "Refusal",
    "Refused",
    "Session",
    "SessionEnded",
    "Snapshot",
    "Store",
    "Translations",
    "WSGIMiddleware",
    "Watch",
    "accepted",
    "bindtextdomain",
    "compile_po",
    "current_snapshot",
    "dgettext",
    "direction",
    "dngettext",
    "dnpgettext",
    "dpgettext",
    "find",
    "gettext",
    "install",
    "language_tag",
    "lazy_gettext",
    "lazy_ngettext",
    "lazy_npgettext",
    "lazy_pgettext",
    "negotiate",
    "ngettext",
    "npgettext",
    "pgettext",
    "textdomain",
    "translation",
    "using",
]

# the modules that are imported when one of their names is used, so that `import kobdzila` is short
_LATER = {
    "_compile": ("compile_po",),
    "_lazy": ("LazyText", "LazyTranslations", "current_snapshot", "lazy_gettext", "lazy_ngettext", "lazy_npgettext",
              "lazy_pgettext", "using"),
    "_negotiation": ("AcceptLanguage", "accepted", "direction", "language_tag", "negotiate"),
    "_session": ("Answer", "LoadRefused", "Refusal", "Session", "SessionEnded"),
    "_store": ("Snapshot", "Store"),
    "_watch": ("FileRefused", "Watch"),
    "_web": ("ASGIMiddleware", "WSGIMiddleware"),
}
_MODULES = {name: module for module, names in _LATER.items() for name in names}
# what programs set, and read by the functions: names of the standard module, and names of _gettext
_STATE = ("_localedirs", "_current_domain", "_default_localedir", "_expand_lang")
_USED = ("_translations", "find", "GNUTranslations", "NullTranslations", "translation", "textdomain", "dgettext",
         "dngettext", "dpgettext", "dnpgettext")


if not TYPE_CHECKING:  # (a checker would take it for a promise of any name)
    def __getattr__(name: str) -> Any:
        """Return a name of a module that is imported later, or a private name of the standard module gettext."""
        if name in _MODULES:
            from importlib import import_module

            value = globals()[name] = getattr(import_module(f"{__name__}.{_MODULES[name]}"), name)
            return value
        if name == "_translations":
            return _gettext._translations
        if name == "c2py" or name.startswith("_") and not name.startswith("__"):
            return getattr(_standard, name)
        raise AttributeError(f"module {__name__!r} has no attribute {name!r}")


def __dir__() -> list[str]:
    return sorted({*globals(), *_MODULES})


class _Module(_ModuleType):
    """The package in place of the module gettext, of which some programs, and tests with mock, set names."""

    def __setattr__(self, name: str, value: Any) -> None:
        home = _home_of(name)
        if home:
            setattr(home, name, value)
        if name not in (*_STATE, "_translations"):
            super().__setattr__(name, value)

    def __delattr__(self, name: str) -> None:
        home = _home_of(name)
        if home:
            delattr(home, name)
        if name in vars(self):
            super().__delattr__(name)
        elif not home:
            raise AttributeError(name)


def _home_of(name: str) -> _ModuleType | None:
    """Return the module whose functions read a name that programs set, or None."""
    return _standard if name in _STATE else _gettext if name in _USED else None


_sys.modules[__name__].__class__ = _Module
