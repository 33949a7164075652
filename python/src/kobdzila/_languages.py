"""Which locales a reader gets: by a list, by the environment, or by a request's Accept-Language header."""
from __future__ import annotations

import os
import re
from collections.abc import Iterable
from functools import lru_cache
from typing import NamedTuple

from ._negotiation import LONGEST_HEADER, MODIFIERS, MOST_LANGUAGES, AcceptLanguage, Site, cut, language_tag

VARIABLES = ("LANGUAGE", "LC_ALL", "LC_MESSAGES", "LANG")
NO_SITE = Site(())
# what locales call a script: by a modifier, or by a country where it is used
SCRIPT_MODIFIERS = {script: modifier for modifier, script in MODIFIERS.items() if modifier != "iqtelif"}
COUNTRIES = {("zh", "Hans"): "CN", ("zh", "Hant"): "TW"}


class Answer(NamedTuple):
    """The locales to search, in order, separated by colons, and the language tag of the page."""

    locales: str
    lang: str | None


def answer_of(
    languages: str | Iterable[str] | None, site: Site = NO_SITE, default: str | None = None, source: str | None = None
) -> Answer:
    """Return the locales of a site for a reader of these languages.

    A string with a colon is a list of locales, unless it is an AcceptLanguage; so are None, which means the
    environment, and any other iterable. Each message is looked up in the whole list. Any other string is an
    Accept-Language header, or the name of one language: it selects one language, or `default` if the site doesn't have
    it. `source` is the language of messages without a translation, which every site has.

    >>> site = Site(["pt", "pt_BR", "fr"], source="en")
    >>> answer_of("pt-BR, fr;q=0.5", site)
    Answer(locales='pt_BR:pt', lang='pt-BR')
    >>> answer_of(["fr_CA", "pt"], site)
    Answer(locales='fr_CA:fr:pt', lang='fr')
    >>> answer_of("sv, en;q=0.5", site, default="fr", source="en").locales
    'en'
    """
    if isinstance(languages, str):
        if ":" not in languages or isinstance(languages, AcceptLanguage):
            return _of_header(str(cut(languages, ",")), site, default, source)
        return _of_list(cut(languages, ":"), site, source)
    if languages is None:
        return _of_list(next(filter(None, map(os.environ.get, VARIABLES)), ""), site, source)
    return _of_list(tuple(languages), site, source)


@lru_cache(256)
def _of_list(languages: str | tuple[str, ...], site: Site, source: str | None) -> Answer:
    names = languages.split(":")[:MOST_LANGUAGES] if isinstance(languages, str) else languages
    locales = list(dict.fromkeys(name for tag in names if tag for name in names_of(tag)))
    return Answer(":".join(locales), tag_of(next((name for name in locales if name in site.names), source)))


@lru_cache(1024)
def _of_header(header: str, site: Site, default: str | None, source: str | None) -> Answer:
    is_name = not any(mark in header for mark in ",;:")
    if is_name and header in site.names:
        chosen: str | None = header
    else:
        chosen = site.choice((language_tag(header) or header) if is_name else header)
    if chosen is None and default is None and is_name and header:
        return Answer(":".join(names_of(header)), tag_of(source))
    chosen = chosen or default or source
    return Answer(":".join(kin_of(chosen, site)) if chosen else "", tag_of(chosen))


def kin_of(name: str, site: Site) -> list[str]:
    """Return a locale, and those that fill its gaps: less specific ones of the same language."""
    return list(dict.fromkeys([*site.chain(name), *names_of(name)]))


def tag_of(name: str | None) -> str | None:
    return None if name is None else language_tag(name)


def names_of(tag: str) -> list[str]:
    """Return the locales in which a language tag or the name of a locale is looked up, closest one first.

    >>> names_of("pt-BR")
    ['pt-BR', 'pt_BR', 'pt']
    >>> names_of("sr-Latn-RS")
    ['sr-Latn-RS', 'sr_RS@latin', 'sr@latin', 'sr_RS', 'sr']
    >>> names_of("fr_CA.UTF-8")
    ['fr_CA.UTF-8', 'fr_CA', 'fr']

    A look-up in `en_au` continues with `en`, so the usual spelling with the country comes before it:

    >>> names_of("en_au")
    ['en_AU', 'en', 'en_au']
    """
    name, _, modifier = tag[:LONGEST_HEADER].partition("@")
    language, *parts = re.split("[-_]", name.partition(".")[0])
    language, country, names = language if language in ("C", "POSIX") else language.lower(), "", [tag]
    for part in parts:
        if len(part) == 1:  # (what follows isn't about the language: -u-, -x-)
            break
        if len(part) == 4 and part.isalpha():
            modifier = modifier or SCRIPT_MODIFIERS.get(part.title(), "")
            names += [f"{language}_{part.title()}"]
            country = country or COUNTRIES.get((language, part.title()), "")
        elif len(part) in (2, 3):
            country = part.upper()
        else:
            modifier = modifier or part.lower()
    territory = [f"{language}_{country}"] if country else []
    modified = [f"{name}@{modifier}" for name in (*territory, language)] if modifier else []
    scripts = [] if modifier else names[1:]
    others = [*scripts, *modified, *territory, language]
    usual = {*names[1:], *others}
    is_other_case = "_" in tag and tag not in usual and tag.lower() in map(str.lower, usual)
    return list(dict.fromkeys([*others, tag] if is_other_case else [tag, *others]))
