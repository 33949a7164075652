"""An application's use of the package, as mypy sees it: tests/python/python.sh checks this folder with `mypy --strict`.
Here each call has the type that it promises. Nobody runs this file.
"""
from __future__ import annotations

import gettext
from collections.abc import Iterable
from pathlib import Path
from typing import Any

import kobdzila
import kobdzila.fleet
from kobdzila import Catalogue, FileRefused, LazyText, Refused, Session, Snapshot, Store, Watch
from typing_extensions import assert_type


def catalogues(path: Path) -> None:
    assert_type(kobdzila.__version__, str)
    assert_type(kobdzila.GNUTranslations(path), kobdzila.GNUTranslations)
    standard: gettext.GNUTranslations = kobdzila.GNUTranslations(b"")
    assert_type(standard.gettext("a"), str)
    catalogue = Catalogue.open(path, checked=True)
    assert_type(catalogue, Catalogue)
    assert_type(catalogue.ngettext("a", "b", 2), str)
    assert_type(catalogue.forms("a"), tuple[str, ...])
    assert_type([it.msgid for it in catalogue.entries()], list[str])
    assert_type(kobdzila.compile_po(b"", checked=True), bytes)
    try:
        Catalogue.from_po(memoryview(b""))
    except Refused as refused:
        assert_type((refused.line, refused.fault, refused.text), tuple[int, kobdzila.Fault, str])


def misspelt() -> None:
    """A name that the package doesn't have is a mistake, also where modules are imported when one of theirs is used."""
    kobdzila.getext("a")  # type: ignore[attr-defined]
    kobdzila.fleet.Folower  # type: ignore[attr-defined]
    assert_type(kobdzila.fleet.Version(1).token, str)


class Own(kobdzila.GNUTranslations):
    pass


def folders(path: Path) -> None:
    """Each function of the standard module that takes a folder also takes it as a path."""
    assert_type(kobdzila.bindtextdomain("shop", path), str)
    assert_type(kobdzila.find("shop", path), str | None)
    made = kobdzila.translation("shop", path)
    assert_type(made, kobdzila.GNUTranslations)
    made.getext("a")  # type: ignore[attr-defined]
    assert_type(kobdzila.translation("shop", path, fallback=True), gettext.NullTranslations)
    assert_type(kobdzila.translation("shop", path, class_=Own), Own)
    assert_type(kobdzila.translation("shop", path, ["fr"], gettext.GNUTranslations), gettext.GNUTranslations)
    assert_type(kobdzila.translation("shop", path, class_=Own, fallback=True), gettext.NullTranslations)
    kobdzila.translation("shop", path, class_=print)  # type: ignore[type-var]
    kobdzila.install("shop", path)


def stores() -> None:
    store = Store("shop", source=None, default="fr")
    store.load("shop", "fr", b"", use_fuzzy=True)
    store.load("shop", "de", Catalogue.from_po(b""))
    assert_type(store.publish(), int)
    with store.snapshot("fr-CA, en;q=0.5", at_least=1, within=0.5) as texts:
        assert_type(texts, Snapshot)
        assert_type(texts.dnpgettext("shop", "menu", "a", "b", 2), str)
        assert_type(texts.find("shop", "fr", "a", n=2), str | None)
        assert_type((texts.lang, texts.dir, texts.version), tuple[str | None, str, int])
    assert_type(store.locales(), list[str])

    def report(file: FileRefused) -> None:
        assert_type((file.path, file.line, file.text), tuple[Path, int, str])

    with store.watch("locale", refused=report, every=2.0, domains=["shop"], allow_empty=True) as watch:
        assert_type(watch, Watch)
        assert_type(watch.look(), int | None)


async def coroutine(store: Store) -> None:
    with await store.snapshot_async("fr", within=1) as texts:
        assert_type(texts.gettext("a"), str)


def lazy(store: Store, follower: kobdzila.fleet.Follower) -> None:
    assert_type(kobdzila.lazy_gettext("a"), LazyText)
    with kobdzila.using(store.snapshot("fr")) as texts:
        assert_type(texts, Snapshot)
        assert_type(kobdzila.current_snapshot.get().gettext("a"), str)
    with kobdzila.using(follower.snapshot(languages="fr")) as followed:
        assert_type(followed, kobdzila.fleet.FollowerSnapshot)
    assert_type(kobdzila.LazyTranslations().pgettext("menu", "a"), str)


def page(environ: dict[str, Any], start_response: Any) -> Iterable[bytes]:
    texts: Snapshot = environ["kobdzila.snapshot"]
    return [texts.gettext("a").encode()]


application = kobdzila.WSGIMiddleware(page, Store(), languages=lambda environ: str(environ["QUERY_STRING"]), vary=["Cookie"])


def sessions() -> None:
    with Session() as session:
        session.load("shop", "fr", b"")
        assert_type(session.publish(), int)
        assert_type(session.gettext("shop", "fr", "a").text, str)
    assert_type(kobdzila.negotiate("de, en;q=0.5", ["en", "de"]), str | None)
    assert_type(kobdzila.accepted("de"), list[str])
