"""The translations of a request: those of the stores, and after them Django's own."""
from __future__ import annotations

import os
import threading
from contextvars import ContextVar
from typing import Any

from django.conf import settings
from django.core.exceptions import ImproperlyConfigured
from django.core.handlers.asgi import ASGIHandler
from django.core.signals import request_finished, request_started, setting_changed
from django.utils import translation as django_texts
from django.utils.module_loading import import_string
from django.utils.translation import to_locale, trans_real

from .._languages import names_of
from .._lazy import current_snapshot
from .._store import Snapshot, Store

DOMAIN = "django"
SEPARATOR: str = trans_real.CONTEXT_SEPARATOR

_stores: list[Store] | None = None  # the texts of the first one come before those of the others
_watches: list[Any] = []
_making = threading.Lock()


class Pins(dict[int, Snapshot]):
    """The snapshots of a request, by their stores. Tasks and threads that go on after it also have them."""

    are_over = False


_pinned: ContextVar[Pins | None] = ContextVar("kobdzila.django", default=None)
_answer: Any = None  # ASGIHandler's own method


def start() -> None:
    """Make Django's translations live from now on."""
    global _answer
    trans_real.translation = translation
    trans_real._default = None  # (an application that is ready earlier may have looked something up)
    if _answer is None:
        _answer, ASGIHandler.__call__ = ASGIHandler.__call__, _answer_pinned
    request_started.connect(_begin, dispatch_uid="kobdzila")
    request_finished.connect(_end, dispatch_uid="kobdzila")
    setting_changed.connect(_changed, dispatch_uid="kobdzila")
    current_snapshot.set(django_texts)  # (for commands; threads of a server have none before their first request)


def translation(language: str) -> Live:
    """Return what Django calls a translation object, for a language code. There is one for each."""
    known: dict[str, Any] = trans_real._translations
    found = known.get(language)
    if isinstance(found, Live):
        return found
    made = known[language] = Live(language)
    return made


def stores() -> list[Store]:
    """Return the stores. The first look-up makes them, so a command without translations watches nothing."""
    global _stores
    if _stores is None:
        with _making:
            if _stores is None:
                _stores = _made()
    return _stores


def is_in_stores(language: str) -> bool:
    """Return whether a store has translations for a language."""
    return any(name in store.locales(DOMAIN) for store in stores() for name in names_of(to_locale(language)))


def _made() -> list[Store]:
    given = getattr(settings, "KOBDZILA_STORE", None)
    if given is not None:
        store = import_string(given) if isinstance(given, str) else given
        if not isinstance(store, Store):
            raise ImproperlyConfigured(f"KOBDZILA_STORE is no kobdzila.Store: {store!r}")
        return [store]
    options = {"domains": [DOMAIN], **getattr(settings, "KOBDZILA_WATCH", {})}
    made = []
    for folder in settings.LOCALE_PATHS:
        store = Store(DOMAIN)
        try:
            _watches.append(store.watch(folder, **options))
        except FileNotFoundError:  # (Django takes no notice of such a folder, either)
            continue
        made.append(store)
    return made


async def _answer_pinned(handler: Any, scope: Any, receive: Any, send: Any) -> None:
    """Answer an ASGI request. Since Django 5.0 the receivers of its signals run in tasks of their own, so what they set
    isn't set in the request."""
    _begin()
    try:
        await _answer(handler, scope, receive, send)
    finally:
        _end()


def _begin(**ignored: Any) -> None:
    _pinned.set(Pins())
    # (this may stay so: outside of requests Django's functions answer as well)
    current_snapshot.set(django_texts)


def _end(**ignored: Any) -> None:
    pins = _pinned.get()
    if pins is not None:
        pins.are_over = True
        pins.clear()  # (a snapshot closes itself when no thread looks up in it any more)
        _pinned.set(None)


def _changed(setting: str, **ignored: Any) -> None:
    """Start over when a test changes the settings."""
    global _stores
    if setting in ("LOCALE_PATHS", "KOBDZILA_STORE", "KOBDZILA_WATCH"):
        _end()
        _stores = None
        trans_real._translations = {}
        trans_real._default = None
        while _watches:
            _watches.pop().stop()


def _snapshot(store: Store) -> Snapshot:
    """Return the snapshot of the request, or the newest one outside of requests."""
    pins = _pinned.get()
    if pins is None or pins.are_over:
        return store.snapshot("", DOMAIN)
    found = pins.get(id(store))
    if found is None:
        found = pins.setdefault(id(store), store.snapshot("", DOMAIN))
    return found


def _forked() -> None:
    """Let a child make the stores, which a thread of its parent may be making."""
    global _making
    _making = threading.Lock()


os.register_at_fork(after_in_child=_forked)


class Live(trans_real.DjangoTranslation):  # type: ignore[misc]
    """The translation object of a language: its translations in the stores, and then Django's."""

    def __init__(self, language: str) -> None:
        super().__init__(language)
        self._locales = ":".join(names_of(to_locale(language)))

    def _add_local_translations(self) -> None:
        """Read the folders of the settings only if they aren't those of the stores."""
        if getattr(settings, "KOBDZILA_STORE", None) is not None:
            super()._add_local_translations()
        # (Django wants the default language to have a file, which may be one of a store)
        own: Any = self
        if own._catalog is None and is_in_stores(own.language()):
            own._catalog, own._info = trans_real.TranslationCatalog(), {}

    def gettext(self, message: str) -> str:
        """Return the translation of a message, which may have its context and byte 4 before it."""
        context, msgid = parted(message)
        for store in stores() if message else ():
            found = _snapshot(store)._recall(DOMAIN, self._locales, msgid, context)
            if found is not None:
                return found
        own: str = super().gettext(message)
        return own

    def ngettext(self, singular: str, plural: str, number: Any) -> str:
        """Return the plural form for `number`."""
        context, msgid = parted(singular)
        for store in stores():
            found = _snapshot(store)._counted(DOMAIN, self._locales, msgid, context, number)
            if found is not None:
                return found
        own: str = super().ngettext(singular, plural, number)
        return own

    def __repr__(self) -> str:
        return f"<live {super().__repr__()}>"


def parted(message: str) -> tuple[str | None, str]:
    """Return the context and the msgid of what Django looks up.

    >>> parted("verb\x04order"), parted("order")
    (('verb', 'order'), (None, 'order'))
    """
    context, separator, msgid = message.partition(SEPARATOR)
    return (context, msgid) if separator else (None, message)
