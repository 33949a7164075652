"""Which of a site's languages a reader gets: the lookup of RFC 4647, section 3.4, over the names of locales.

docs/reference/negotiation.md has the rules, and tests/python/negotiation.tsv a table of cases, for any implementation.
"""
from __future__ import annotations

import re
from collections.abc import Iterable
from functools import lru_cache

from ._scripts import RIGHT_TO_LEFT, likely_country, likely_script

LONGEST_HEADER = 500  # characters that are read of a header, which a stranger has written
MOST_LANGUAGES = 20  # that are read of a header
RANGE = re.compile(r"[A-Za-z]{1,8}(?:[-_][A-Za-z0-9]{1,8})*")
WEIGHT = re.compile(r"\s*[qQ]=(0(?:\.\d{0,3})?|1(?:\.0{0,3})?)\s*")
VARIANT = re.compile(r"[a-z0-9]{5,8}|[0-9][a-z0-9]{3}")
# what the modifiers of locales mean: a script, or nothing that a language tag has
MODIFIERS = {"arabic": "Arab", "cyrillic": "Cyrl", "devanagari": "Deva", "iqtelif": "Latn", "latin": "Latn"}
CURRENCIES = {"euro", "preeuro"}


class AcceptLanguage(str):
    """The value of a header Accept-Language, for Store.snapshot.

    Any other string that has a colon is a list of locales. A value of this type never is, whatever a stranger has
    written into it.
    """

    __slots__ = ()


def accepted(header: str) -> list[str]:
    """Return the languages of a header Accept-Language that are wanted, the best ones first (RFC 9110, section 12.5.4).

    `*`, and whatever breaks the rules of the header, is left out. Of a header with more than 500 characters the
    languages up to there count, and of more than 20 languages the first 20.

    >>> accepted("da, en-GB;q=0.8, en;q=0.7, fr;q=0")
    ['da', 'en-GB', 'en']
    """
    found: list[tuple[float, str]] = []
    for part in cut(header, ",").split(","):
        tag, semicolon, parameter = part.strip().partition(";")
        weight = WEIGHT.fullmatch(parameter) if semicolon else None
        value = float(weight[1]) if weight else 0.0 if semicolon else 1.0
        if value > 0 and RANGE.fullmatch(tag.strip()):
            found.append((-value, tag.strip()))
        if len(found) == MOST_LANGUAGES:
            break
    return [tag for _, tag in sorted(found, key=lambda it: it[0])]


def cut(text: str, separator: str) -> str:
    """Return the text as far as it is read: whole parts, in LONGEST_HEADER characters."""
    return text if len(text) <= LONGEST_HEADER else text[:LONGEST_HEADER].rpartition(separator)[0]


def negotiate(header: str, available: Iterable[str], default: str | None = None) -> str | None:
    """Return the one of the names in `available` that answers a header Accept-Language best, or `default`.

    It is the lookup of RFC 4647, section 3.4. The names may be those of locales (`pt_BR`, `sr_RS@latin`), of CLDR and
    Babel (`zh_Hant_TW`), of Django (`pt-br`) or language tags, in any case.

    >>> negotiate("fr-CH, fr;q=0.9, en;q=0.8", ["de", "fr"])
    'fr'
    >>> negotiate("sr-Latn-RS, en;q=0.5", ["sr", "sr@latin"])
    'sr@latin'
    >>> negotiate("zh-CN, en;q=0.5", ["zh_Hans", "zh_Hant"])
    'zh_Hans'
    >>> negotiate("sv", ["de", "fr"], default="de")
    'de'
    """
    return Site(available).choice(header) or default


@lru_cache(1024)
def language_tag(name: str) -> str | None:
    """Return the language tag (RFC 5646, in its usual case) of a locale's name, or None if it names no language.

    That is what the attribute `lang` of HTML and the header Content-Language want.

    >>> language_tag("pt_BR.UTF-8"), language_tag("sr_RS@latin"), language_tag("zh-hant-tw"), language_tag("C")
    ('pt-BR', 'sr-Latn-RS', 'zh-Hant-TW', None)
    """
    bare, _, modifier = name.partition("@")
    bare, modifier = bare.partition(".")[0], modifier.lower()
    if not RANGE.fullmatch(bare) or bare.upper() in ("C", "POSIX"):
        return None
    parts = re.split("[-_]", bare.lower())
    script = MODIFIERS.get(modifier)
    if script and not has_script(parts):
        parts.insert(1, script.lower())
    elif not script and modifier not in CURRENCIES and VARIANT.fullmatch(modifier) and modifier not in parts:
        parts.append(modifier)
    return "-".join(cased(parts))


def direction(name: str) -> str:
    """Return "rtl" if a language is written from right to left, and otherwise "ltr", for the attribute `dir` of HTML.

    >>> direction("ar"), direction("he_IL"), direction("pa_PK"), direction("pa"), direction("az-Arab")
    ('rtl', 'rtl', 'rtl', 'ltr', 'rtl')
    """
    return "rtl" if script_of((language_tag(name) or "").lower()) in RIGHT_TO_LEFT else "ltr"


class Site:
    """The languages that a site has: the names of its catalogues, and the language that needs none, if there is one."""

    __slots__ = ("names", "_by_tag", "_by_likely")

    def __init__(self, names: Iterable[str], source: str | None = None) -> None:
        self.names = frozenset(names)
        self._by_tag: dict[str, str] = {}  # in lower case
        self._by_likely: dict[str, str] = {}  # with the script that is left out
        for name in [*sorted(self.names, key=lambda it: (len(it), it)), *([source] if source else [])]:
            tag = language_tag(name)
            if tag is not None:
                self._by_tag.setdefault(tag.lower(), name)
        for tag, name in self._by_tag.items():
            self._by_likely.setdefault(with_script(tag), name)

    def choice(self, header: str) -> str | None:
        """Return the name that answers a header Accept-Language best, or None."""
        return next(filter(None, map(self.lookup, accepted(header))), None)

    def lookup(self, wanted: str) -> str | None:
        """Return the name that answers one language range, or None."""
        tag = wanted.lower().replace("_", "-")
        for candidate in candidates(tag):
            if candidate in self._by_tag:
                return self._by_tag[candidate]
        for candidate in [*shorter(with_script(tag)), with_country(tag)]:
            if candidate in self._by_likely:
                return self._by_likely[candidate]
        return None

    def chain(self, name: str) -> list[str]:
        """Return a name, and those after it that fill its gaps: of shorter tags."""
        others = map(self._by_tag.get, shorter((language_tag(name) or "").lower())[1:])
        return [name, *(other for other in others if other is not None)]


def candidates(tag: str) -> list[str]:
    """Return the tags that answer a range, the nearest one first: those of RFC 4647, and those with its likely script.

    A script that isn't the usual one of its language comes before the bare language: zh-Hant before zh, for zh-TW.
    """
    plain, parts = shorter(tag), tag.split("-")
    if has_script(parts) or not (script := script_of(tag)):
        return plain
    written = [it for it in shorter(with_script(tag)) if it != parts[0]]
    return [*plain, *written] if script == script_of(parts[0]) else [*plain[:-1], *written, plain[-1]]


def shorter(tag: str) -> list[str]:
    """Return a range, and what is left of it step by step (RFC 4647, section 3.4).

    >>> shorter("zh-hant-cn-x-private1-private2")
    ['zh-hant-cn-x-private1-private2', 'zh-hant-cn-x-private1', 'zh-hant-cn', 'zh-hant', 'zh']
    """
    parts, found = tag.split("-"), []
    while parts:
        found.append("-".join(parts))
        parts.pop()
        while parts and len(parts[-1]) == 1:
            parts.pop()
    return found


def has_script(parts: list[str]) -> bool:
    """Return whether the parts of a tag name a script: four letters, after the language and its extensions."""
    for part in parts[1:]:
        if len(part) == 4 and part.isalpha():
            return True
        if len(part) != 3 or not part.isalpha():
            return False
    return False


def script_of(tag: str) -> str:
    """Return the script of a tag, in lower case: the one that it names, or the likely one, or "" if none is known."""
    parts = tag.split("-")
    if has_script(parts):
        return next(part for part in parts[1:] if len(part) == 4)
    return likely_script(parts[0], country_of(parts)).lower()


def country_of(parts: list[str]) -> str:
    """Return the country or region of a tag's parts, in capitals, or ""."""
    for part in parts[1:]:
        if len(part) == 2 and part.isalpha() or len(part) == 3 and part.isdigit():
            return part.upper()
        if len(part) == 1:
            break
    return ""


def with_script(tag: str) -> str:
    """Return a tag with its likely script, if it names none and one is known."""
    parts = tag.split("-")
    if has_script(parts) or not (script := script_of(tag)):
        return tag
    return "-".join([parts[0], script, *parts[1:]])


def with_country(tag: str) -> str:
    """Return a tag of a language and a script with the country where that is usual, if there is one."""
    parts = tag.split("-")
    if len(parts) != 2 or not has_script(parts):
        return tag
    return "-".join(filter(None, [*parts, likely_country(parts[0], parts[1].title()).lower()]))


def cased(parts: list[str]) -> list[str]:
    """Return the parts of a tag in their usual case (RFC 5646, section 2.1.1)."""
    found, is_extension = parts[:1], False
    for part in parts[1:]:
        is_extension = is_extension or len(part) == 1
        if is_extension or part.isdigit() or len(part) not in (2, 4):
            found.append(part)
        elif part.isalpha():
            found.append(part.upper() if len(part) == 2 else part.title())
        else:
            found.append(part)
    return found
