"""Which language a reader gets: the table of tests/python/negotiation.tsv, by hand after RFC 4647, with and without Babel."""
from __future__ import annotations

import importlib
import importlib.util
import unittest
import warnings
from pathlib import Path
from unittest import mock

import kobdzila
from kobdzila import AcceptLanguage, Store, accepted, direction, language_tag, negotiate
from kobdzila import _languages, _scripts
from kobdzila._negotiation import Site, shorter

TABLE = Path(__file__).parents[2] / "tests" / "python" / "negotiation.tsv"
HAS_BABEL = importlib.util.find_spec("babel") is not None


def rows() -> list[list[str]]:
    lines = TABLE.read_text(encoding="utf-8").splitlines()
    return [line.split("\t") for line in lines if not line.startswith("#")]


def store_of(*locales: str, source: str | None = "en", default: str | None = None) -> Store:
    """A store whose message `a` is the name of each locale, and `only NAME` is in one of them."""
    store = Store("d", source=source, default=default)
    for locale in locales:
        store.load("d", locale, f'msgid "a"\nmsgstr "{locale}"\nmsgid "only {locale}"\nmsgstr "!"\n'.encode())
    store.publish()
    return store


def without_babel() -> mock._patch[object]:
    return mock.patch.object(_scripts, "subtags_of_babel", dict)


class TableTest(unittest.TestCase):
    def test_spelling_of_a_country(self) -> None:
        """A locale in lower case, as Django has them, is found in the country's usual spelling, before its language."""
        store = kobdzila.Store("shop")
        for locale in ("en", "en_AU", "sr@latin", "sr"):
            store.load("shop", locale, f'msgid "a"\nmsgstr "{locale}"\n'.encode())
        store.publish()
        for asked, found in (("en_au", "en_AU"), ("en_nz", "en"), ("en_AU", "en_AU"), ("sr_latn", "sr@latin"), ("SR", "sr")):
            self.assertEqual(store.snapshot([asked]).gettext("a"), found, asked)

    def test_rows(self) -> None:
        self.assertGreater(len(rows()), 60)
        for header, available, answer, *_ in rows():
            names = available.split()
            wanted = None if answer == "-" else answer
            self.assertEqual(negotiate(header, names), wanted, (header, names))
            self.assertEqual(negotiate(header, reversed(names), "xx"), wanted or "xx", (header, names))
            with without_babel():
                self.assertEqual(negotiate(header, names), wanted, (header, names))

    def test_rows_in_a_store(self) -> None:
        """A snapshot for the header answers in that language, or not at all; its tag is that of what is shown."""
        for header, available, answer, *_ in rows():
            store = store_of(*available.split(), source=None)
            with store.snapshot(AcceptLanguage(header)) as texts:
                self.assertEqual(texts.gettext("a"), "a" if answer == "-" else answer, header)
                self.assertEqual(texts.lang, None if answer == "-" else language_tag(answer), header)

    def test_source(self) -> None:
        """The language of the msgids is one that the site has."""
        for header, lang in (("en-US, en;q=0.9, fr;q=0.8", "en"), ("sv", "en"), ("sv, fr;q=0.1, en;q=0.05", "fr"),
                             ("en-GB, en;q=0.9", "en-GB"), ("", "en"), ("*", "en")):
            with store_of("en_GB", "fr").snapshot(AcceptLanguage(header)) as texts:
                self.assertEqual(texts.lang, lang, header)
                self.assertEqual(texts.gettext("a"), {"en": "a", "en-GB": "en_GB"}.get(lang, lang), header)

    def test_default(self) -> None:
        store = store_of("de", "fr", default="de")
        for header, text in (("sv, da;q=0.5", "de"), ("sv", "de"), ("", "de"), ("*", "de"), ("fr", "fr"), ("en", "a")):
            with store.snapshot(AcceptLanguage(header)) as texts:
                self.assertEqual((texts.gettext("a"), texts.lang), (text, "en" if text == "a" else text), header)

    def test_one_language(self) -> None:
        """WCAG 2.2, success criteria 3.1.1 and 3.1.2: what the page's language lacks isn't shown in another one."""
        store = store_of("pt", "pt_BR", "fr")
        with store.snapshot("pt-BR, fr;q=0.5") as texts:
            self.assertEqual([texts.gettext(it) for it in ("only pt_BR", "only pt", "only fr")], ["!", "!", "only fr"])
        with store.snapshot(["pt_BR", "fr"]) as texts:  # (a list is taken as LANGUAGE is)
            self.assertEqual(texts.gettext("only fr"), "!")
            self.assertEqual(texts.lang, "pt-BR")


class LimitsTest(unittest.TestCase):
    def test_cut(self) -> None:
        """A header ends after 500 characters and after 20 languages, in whole languages."""
        self.assertEqual(accepted("de-" + "a1234567-" * 60 + "b, fr"), [])
        self.assertEqual(accepted("sv," + "x" * 600 + ", fr"), ["sv"])
        many = ",".join(f"{a}{b}" for a in "abcdefgh" for b in "xyz")
        self.assertEqual(accepted(many), many.split(",")[:20])
        self.assertEqual(accepted("zz;q=0.1," + many)[-1], "zz")
        whole = "fr," + " " * 495 + "de"
        self.assertEqual((accepted(whole), accepted(whole + "x")), (["fr", "de"], ["fr"]))
        self.assertEqual(accepted("de;q=0," * 20 + "fr"), ["fr"])

    def test_no_list(self) -> None:
        """A header is no list of locales, whatever it has; a string is one if it has a colon."""
        store = store_of("de", "fr")
        for header in ("fr:de", "de:fr", ":fr", "fr:", "fr:de, de:fr;q=0.5", ":".join(["fr"] * 9000)):
            with store.snapshot(AcceptLanguage(header)) as texts:
                self.assertEqual((texts.gettext("a"), texts.languages), ("a", "en"), header[:20])
        with store.snapshot("de:fr") as texts:
            self.assertEqual((texts.gettext("only fr"), texts.languages), ("!", "de:fr"))

    def test_what_is_kept(self) -> None:
        """Long headers leave no more in the caches than short ones."""
        _languages._of_header.cache_clear()
        _languages._of_list.cache_clear()
        store = store_of("fr")
        for number in range(50):
            text = ":".join(f"l{number}x{it}" for it in range(20_000))
            for header in (text, AcceptLanguage(text), text.replace(":", ","), AcceptLanguage(text.replace(":", ";"))):
                store.snapshot(header).close()
        for cache in (_languages._of_header, _languages._of_list):
            self.assertLess(cache.cache_info().currsize, 1100)
        texts = store.snapshot(":".join(f"l{it}" for it in range(20_000)))
        self.assertLess(len(texts.languages), 600)

    def test_hostile(self) -> None:
        for header in ("\0", "é", "fr;q=\u0661", "fr\n", "-", "_", ";", ",", "a" * 9, "fr--CA", "x", "x-", "fr-x", "und",
                       "fr@", "@fr", "fr.UTF-8", "*-CH", "\ud800", "de;q=1;q=0", "art-x-" + "a-" * 300):
            self.assertIn(negotiate(header, ["fr", "de"]), (None, "fr"), header)
            store_of("fr").snapshot(AcceptLanguage(header)).close()


class NamesTest(unittest.TestCase):
    def test_shorter(self) -> None:
        """RFC 4647, section 3.4, has the first one."""
        self.assertEqual(shorter("zh-hant-cn-x-private1-private2"), [
            "zh-hant-cn-x-private1-private2", "zh-hant-cn-x-private1", "zh-hant-cn", "zh-hant", "zh"])
        self.assertEqual(shorter("de-u-co-phonebk"), ["de-u-co-phonebk", "de-u-co", "de"])

    def test_tags(self) -> None:
        """RFC 5646, section 2.1.1, has the case of the parts; appendix A has the last four."""
        for name, tag in (("pt_BR", "pt-BR"), ("sr@latin", "sr-Latn"), ("sr_RS@latin", "sr-Latn-RS"), ("zh_TW", "zh-TW"),
                          ("zh_Hant_TW", "zh-Hant-TW"), ("de_DE.UTF-8@euro", "de-DE"), ("ca_ES@valencia", "ca-ES-valencia"),
                          ("be@tarask", "be-tarask"), ("de@1996", "de-1996"), ("en@quot", "en"), ("C", None),
                          ("POSIX", None), ("C.UTF-8", None), ("", None), ("..", None), ("sr_Cyrl_RS@latin", "sr-Cyrl-RS"),
                          ("ES_419", "es-419"), ("tt_RU@iqtelif", "tt-Latn-RU"), ("pt-br", "pt-BR"),
                          ("SR-LATN-rs", "sr-Latn-RS"), ("sl-rozaj-biske", "sl-rozaj-biske"),
                          ("DE-CH-1901", "de-CH-1901"), ("en-a-MYEXT-b-ANOTHER", "en-a-myext-b-another"),
                          ("zh-cmn-hans-CN", "zh-cmn-Hans-CN")):
            self.assertEqual(language_tag(name), tag, name)

    def test_direction(self) -> None:
        for name, wanted in (("ar", "rtl"), ("fa_IR", "rtl"), ("he", "rtl"), ("pa_PK", "rtl"), ("pa", "ltr"),
                             ("uz_AF", "rtl"), ("az_Latn_IR", "ltr"), ("dv", "rtl"), ("C", "ltr"), ("fr", "ltr"), ("yi", "rtl")):
            self.assertEqual(direction(name), wanted, name)
            with without_babel():
                self.assertEqual(direction(name), wanted, name)

    @unittest.skipUnless(HAS_BABEL, "no Babel")
    def test_scripts_of_babel(self) -> None:
        """The tables have the scripts and directions that CLDR has, by Babel's copy of it."""
        with warnings.catch_warnings():
            warnings.simplefilter("ignore")
            core, data = importlib.import_module("babel.core"), importlib.import_module("babel.localedata")
        likely = core.get_global("likely_subtags")
        tried = 0
        with without_babel():
            for name, whole in likely.items():
                parts = name.split("_")
                if parts[0] in _scripts.SCRIPTS and (len(parts) == 1 or len(parts[1]) == 2):
                    self.assertEqual(_scripts.likely_script(*parts), whole.split("_")[1], name)
                    tried += 1
            for name in data.locale_identifiers():
                if "_" in name and len(name.split("_")[-1]) == 2 and name[:2] not in ("pa", "uz", "az"):
                    continue  # (a country changes the script of few languages)
                self.assertEqual(direction(name), core.Locale.parse(name).text_direction, name)
        self.assertGreater(tried, 70)

    def test_store_has(self) -> None:
        store = store_of("fr", "pt_BR")
        store.load("mail", "de", b'msgid "a"\nmsgstr "b"\n')
        self.assertEqual((store.locales(), store.locales("mail")), (["fr", "pt_BR"], []))
        store.publish()
        self.assertEqual((store.locales(), store.locales("mail"), store.locales("no")), (["fr", "pt_BR"], ["de"], []))
        with self.assertRaises(kobdzila.Refused):
            store.load("mail", "b/d", b'msgid "a"\nmsgstr "b"\n')
        store.publish()
        self.assertEqual(store.locales("mail"), ["de"])

    def test_other_domains(self) -> None:
        """A chosen language counts in each text domain; there a shorter name may have it."""
        store = store_of("fr_CA")
        store.load("mail", "fr", b'msgid "a"\nmsgstr "courriel"\n')
        store.publish()
        with store.snapshot("fr-CA, en;q=0.5") as texts:
            self.assertEqual((texts.gettext("a"), texts.dgettext("mail", "a")), ("fr_CA", "courriel"))


if __name__ == "__main__":
    unittest.main()
