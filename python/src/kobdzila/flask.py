"""Flask-Babel over a live store.

    from flask import Flask
    from flask_babel import Babel
    import kobdzila, kobdzila.flask

    app = Flask(__name__)
    babel = Babel(app)
    store = kobdzila.Store("messages")
    store.watch("translations")
    kobdzila.flask.init_app(app, store)

From then on `flask_babel.gettext` and its variants, lazy strings and Jinja2's `_` and `trans` look up in the store, in
the locale that Flask-Babel has chosen, and in no file. So do kobdzila's own lazy messages. A request has one version.
"""
from __future__ import annotations

from collections.abc import Callable
from functools import cached_property
from typing import Any

import flask
import flask_babel
from babel.support import NullTranslations

from ._catalogue import charset_in, fields_of, rule_of
from ._languages import names_of
from ._lazy import LazyText, current_snapshot
from ._store import Snapshot, Store

KEY = "kobdzila.flask"


def init_app(app: Any, store: Store) -> None:
    """Make the application's text domain a live one. Call it after `Babel(app)`."""
    extension = app.extensions.get("babel")
    if extension is None:
        raise RuntimeError("there is no Flask-Babel in this application: call flask_babel.Babel(app) first")
    # (since Flask-Babel 3 the extension is a configuration, and all else needs an application context)
    babel = getattr(extension, "instance", extension)
    names = babel.domain if babel is extension else extension.default_domain
    domain = vars(babel)["domain_instance"] = Domain(store, names.partition(";")[0])
    texts = Current(domain)
    # (before the functions of the application, of which one may answer the request)
    app.before_request_funcs.setdefault(None, []).insert(0, texts.begin)
    app.teardown_request(_drop)
    provider: Any = getattr(app, "json", None)  # (since Flask 2.2)
    if hasattr(provider, "default"):
        provider.default = _jsonable(provider.default)


def _jsonable(default: Callable[[Any], Any]) -> Callable[[Any], Any]:
    """Return what makes JSON of an object that isn't JSON, also of a lazy text: for a session, as `flash` writes it."""
    return lambda it: str(it) if isinstance(it, LazyText) else default(it)


class Domain(flask_babel.Domain):  # type: ignore[misc]
    """A text domain of Flask-Babel that looks up in a store."""

    def __init__(self, store: Store, name: str) -> None:
        super().__init__([], name)
        self.store, self.name = store, name  # (the attribute `domain` is a list since Flask-Babel 3)

    def get_translations(self) -> Translations:
        """Return the translations for the locale of the request."""
        return Translations(self._snapshot(), self.name, flask_babel.get_locale())

    def _snapshot(self) -> Snapshot:
        if not flask.has_request_context():
            return self.store.snapshot("", self.name)
        kept = _kept()
        found = kept.get(id(self.store))
        if found is None:
            found = kept.setdefault(id(self.store), self.store.snapshot("", self.name))
        return found


class Current:
    """The translations of the current request, in the locale that Flask-Babel has chosen at the time of the call."""

    def __init__(self, domain: Domain) -> None:
        self._domain = domain

    def begin(self) -> None:
        """Make this what lazy messages look up in. It may stay so: between requests there is no locale, and no
        translation."""
        _kept()  # (here asks the request's own context, before any copy of it can)
        current_snapshot.set(self)

    def gettext(self, message: str) -> str:
        return self._domain.get_translations().gettext(message)

    def pgettext(self, context: str, message: str) -> str:
        return self._domain.get_translations().pgettext(context, message)

    def ngettext(self, msgid1: str, msgid2: str, n: int) -> str:
        return self._domain.get_translations().ngettext(msgid1, msgid2, n)

    def npgettext(self, context: str, msgid1: str, msgid2: str, n: int) -> str:
        return self._domain.get_translations().npgettext(context, msgid1, msgid2, n)


def _kept() -> dict[int, Snapshot]:
    """Return the snapshots of the request. Copies of its context, as other threads have them, share these. The context
    that asks first drops them at its end."""
    environ = flask.request.environ
    found: dict[int, Snapshot] | None = environ.get(KEY)
    if found is None:
        found = environ.setdefault(KEY, {})
        setattr(flask.g, KEY, found)
    return found


def _drop(fault: BaseException | None) -> None:
    if flask.g.pop(KEY, None) is not None:
        flask.request.environ.pop(KEY, {}).clear()  # (a snapshot closes itself when no thread looks up in it any more)


class Translations(NullTranslations):  # type: ignore[misc]
    """Look-ups in a snapshot, with the interface of Babel's translations.

    Flask-Babel gets one for each look-up, so what it rarely asks for is made when it is read.
    """

    _fallback: Any = None
    _output_charset = None  # (which lgettext of Python 3.10 reads)

    def __init__(self, snapshot: Snapshot, domain: str, locale: Any) -> None:
        self._snapshot, self.domain = snapshot, domain
        self._locales = "" if locale is None else _locales_of(str(locale))

    def gettext(self, message: str) -> str:
        """Return the translation of `message`."""
        found = self._snapshot._recall(self.domain, self._locales, message)
        return found if found is not None else self._missed("gettext", message, message)

    def pgettext(self, context: str, message: str) -> str:
        """Return the translation of `message` in `context`."""
        found = self._snapshot._recall(self.domain, self._locales, message, context)
        return found if found is not None else self._missed("pgettext", message, context, message)

    def ngettext(self, msgid1: str, msgid2: str, n: Any) -> str:
        """Return the plural form for `n`."""
        found = self._snapshot._counted(self.domain, self._locales, msgid1, None, n)
        return found if found is not None else self._missed("ngettext", msgid1 if n == 1 else msgid2, msgid1, msgid2, n)

    def npgettext(self, context: str, msgid1: str, msgid2: str, n: Any) -> str:
        """Return the plural form for `n` of a message in `context`."""
        found = self._snapshot._counted(self.domain, self._locales, msgid1, context, n)
        own = msgid1 if n == 1 else msgid2
        return found if found is not None else self._missed("npgettext", own, context, msgid1, msgid2, n)

    def _missed(self, call: str, own: str, *words: Any) -> str:
        """Return the fallback's answer, or `own` if there is no fallback."""
        answer: str = getattr(self._fallback, call)(*words) if self._fallback else own
        return answer

    ugettext, ungettext, upgettext, unpgettext = gettext, ngettext, pgettext, npgettext

    @cached_property
    def _info(self) -> dict[str, str]:
        return fields_of(self._snapshot.find(self.domain, self._locales, "") or "")

    @cached_property
    def _charset(self) -> str | None:
        return charset_in(self._info)

    @cached_property
    def plural(self) -> Callable[[int], int]:
        """The plural rule of the first catalogue."""
        return rule_of(self._info)

    @cached_property
    def files(self) -> list[str]:
        """The files that Babel has read: none."""
        return []

    @cached_property
    def _catalog(self) -> dict[Any, Any]:
        return {}

    @cached_property
    def _domains(self) -> dict[str, Any]:
        return {}


_known: dict[str, str] = {}


def _locales_of(locale: str) -> str:
    """Return the locales for Babel's locale, the same str object each time."""
    found = _known.get(locale)
    if found is None:
        found = _known[locale] = ":".join(names_of(locale))
    return found
