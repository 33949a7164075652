"""In which scripts languages are written: from Babel's copy of CLDR's likely subtags, if Babel is installed.

The tables here are a part of that data, for the languages whose script decides what a reader can read.
"""
from __future__ import annotations

import importlib
from functools import lru_cache
from typing import Any

RIGHT_TO_LEFT = frozenset("adlm arab aran hebr mand mend nkoo rohg samr syrc thaa yezi".split())
# the likely script of a language, and of a language in countries where it is another one
SCRIPTS = {
    "ar": "Arab", "arc": "Armi", "az": "Latn", "bal": "Arab", "bs": "Latn", "ckb": "Arab", "dv": "Thaa", "fa": "Arab",
    "glk": "Arab", "ha": "Latn", "he": "Hebr", "iw": "Hebr", "ji": "Hebr", "kk": "Cyrl", "ks": "Arab", "ku": "Latn",
    "ky": "Cyrl", "lrc": "Arab", "mn": "Cyrl", "ms": "Latn", "mzn": "Arab", "nqo": "Nkoo", "pa": "Guru", "ps": "Arab",
    "sd": "Arab", "sr": "Cyrl", "syr": "Syrc", "tg": "Cyrl", "tt": "Cyrl", "ug": "Arab", "ur": "Arab", "uz": "Latn",
    "yi": "Hebr", "yue": "Hant", "zh": "Hans",
}
IN_COUNTRIES = {
    "az": {"Arab": "IQ IR", "Cyrl": "RU"},
    "ha": {"Arab": "CM SD"},
    "kk": {"Arab": "AF CN IR MN"},
    "ku": {"Arab": "LB"},
    "ky": {"Arab": "CN", "Latn": "TR"},
    "ms": {"Arab": "CC"},
    "mn": {"Mong": "CN"},
    "pa": {"Arab": "PK"},
    "sd": {"Deva": "IN"},
    "sr": {"Latn": "ME RO RU TR"},
    "tg": {"Arab": "PK"},
    "ug": {"Cyrl": "KZ MN"},
    "uz": {"Arab": "AF", "Cyrl": "CN"},
    "yue": {"Hans": "CN"},
    "zh": {"Hant": "AU BN GB GF HK ID MO PA PF PH SR TH TW US VN"},
}
COUNTRIES = {("sr", "Latn"): "RS", ("zh", "Hans"): "CN", ("zh", "Hant"): "TW"}


@lru_cache(None)
def subtags_of_babel() -> dict[str, str]:
    """Return CLDR's likely subtags, such as zh_TW: zh_Hant_TW, or an empty dict without Babel."""
    try:
        core: Any = importlib.import_module("babel.core")
    except ImportError:
        return {}
    return dict(core.get_global("likely_subtags"))


def likely(language: str, *more: str) -> list[str]:
    """Return the language, script and country that Babel has for a language and a country or script, or []."""
    return subtags_of_babel().get("_".join([language, *more]), "").split("_")


def likely_script(language: str, country: str = "") -> str:
    """Return the script in which a language is usually written in a country (anywhere, if it is ""), or "".

    >>> likely_script("zh"), likely_script("zh", "TW"), likely_script("sr", "ME")
    ('Hans', 'Hant', 'Latn')
    """
    for script, countries in IN_COUNTRIES.get(language, {}).items():
        if country in countries.split():
            return script
    for found in (likely(language, country) if country else [], likely(language)):
        if len(found) == 3:
            return found[1]
    return SCRIPTS.get(language, "")


def likely_country(language: str, script: str) -> str:
    """Return the country where a language is usually written in a script, or "".

    >>> likely_country("zh", "Hant")
    'TW'
    """
    found = likely(language, script)
    return found[2] if len(found) == 3 else COUNTRIES.get((language, script), "")
