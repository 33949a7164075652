"""examples/shop: the page in each language, catalogues that are edited while it runs, clients and a browser."""
from __future__ import annotations

import contextlib
import importlib.util
import os
import re
import shutil
import subprocess
import sys
import tempfile
import threading
import time
import unittest
import urllib.request
from collections.abc import Callable
from pathlib import Path
from typing import Any

WIDTHS = (320, 768, 1280)  # of a small phone (WCAG 2.2, success criterion 1.4.10), a tablet and a screen
OPTIONS = ("--headless=new", "--no-sandbox", "--disable-gpu", "--disable-dev-shm-usage", "--hide-scrollbars",
           "--no-first-run", "--force-color-profile=srgb")
EXAMPLE = Path(__file__).parents[2] / "examples" / "shop"
BROWSER = shutil.which("chromium") or shutil.which("chromium-browser") or shutil.which("google-chrome")
SECONDS = float(os.environ.get("KOBDZILA_CLIENTS", "4"))  # that the clients ask for pages
# the title, the lines for 1, 2, 3 and 5 apples, and the button
TEXTS = {
    "en": ("Fruit shop", "1 apple in the basket", "2 apples in the basket", "3 apples in the basket",
           "5 apples in the basket", "Order"),
    "de": ("Obstladen", "1 Apfel im Korb", "2 Äpfel im Korb", "3 Äpfel im Korb", "5 Äpfel im Korb", "Bestellen"),
    "fr": ("Fruiterie", "1 pomme dans le panier", "2 pommes dans le panier", "3 pommes dans le panier",
           "5 pommes dans le panier", "Commander"),
    "sl": ("Trgovina s sadjem", "V košarici je 1 jabolko", "V košarici sta 2 jabolki", "V košarici so 3 jabolka",
           "V košarici je 5 jabolk", "Naroči"),
    "ar": ("متجر الفواكه", "تفاحة في السلة: 1", "تفاحتان في السلة: 2", "3 تفاحات في السلة", "5 تفاحات في السلة",
           "اطلب"),
}
VERSION = re.compile(r"<footer>\D*(\d+)</footer>")


def version_of(page: str) -> int:
    """The version that a page names."""
    found = VERSION.search(page)
    assert found, page
    return int(found[1])


@unittest.skipUnless(importlib.util.find_spec("flask"), "no Flask")
class ShopTest(unittest.TestCase):
    def setUp(self) -> None:
        room = tempfile.TemporaryDirectory(ignore_cleanup_errors=True)
        self.addCleanup(room.cleanup)
        self.room = Path(room.name)
        shutil.copytree(EXAMPLE / "locale", self.room / "locale")
        command = [sys.executable, str(EXAMPLE / "app.py"), "--port", "0", "--every", "0.02"]
        with (self.room / "log").open("wb") as log:
            command += ["--folder", str(self.room / "locale")]
            server = subprocess.Popen(command, stdout=subprocess.PIPE, stderr=log)
        self.addCleanup(server.communicate)
        self.addCleanup(server.terminate)
        assert server.stdout is not None
        self.address = server.stdout.readline().decode().strip()
        self.assertRegex(self.address, "^http", self.log())

    def log(self) -> str:
        return (self.room / "log").read_text(encoding="utf-8")

    def path(self, language: str) -> Path:
        return self.room / "locale" / language / "LC_MESSAGES" / "shop.po"

    def put(self, language: str, text: str) -> None:
        new = self.path(language).with_suffix(".new")
        new.write_text(text, encoding="utf-8")
        os.replace(new, self.path(language))

    def get(self, query: str = "", **headers: str) -> str:
        request = urllib.request.Request(f"{self.address}{query}", headers=headers)
        with urllib.request.urlopen(request, timeout=60) as page:
            text: str = page.read().decode()
            return text

    def until(self, what: Callable[[], object]) -> None:
        end = time.monotonic() + 60
        while not what():
            self.assertLess(time.monotonic(), end, self.log())
            time.sleep(0.02)

    def test_languages(self) -> None:
        for language, texts in TEXTS.items():
            for page in (self.get(f"?lang={language}"), self.get(**{"Accept-Language": f"{language}-ZZ, it;q=0.5"})):
                for text in texts:
                    self.assertIn(f">{text}<", page)
                direction = "rtl" if language == "ar" else "ltr"
                self.assertIn(f'<html lang="{language}" dir="{direction}">', page)
                self.assertEqual(version_of(page), 4)
        self.assertIn("Fruit shop", self.get(**{"Accept-Language": "en-GB, de;q=0.9"}))

    def test_edited(self) -> None:
        """A text that is edited is on the next page, with a new version; one that is refused leaves the old texts."""
        before = self.path("fr").read_text(encoding="utf-8")
        self.put("fr", before.replace("Fruiterie", "Fruits du jour"))
        self.until(lambda: "Fruits du jour" in self.get("?lang=fr"))
        self.assertEqual(version_of(self.get("?lang=fr")), 5)
        broken = before.replace('msgstr "Fruiterie"', 'msgstr "Fruiterie')
        line = broken[:broken.index('msgstr "Fruiterie')].count("\n") + 1
        self.put("fr", broken)
        self.put("de", self.path("de").read_text(encoding="utf-8").replace("Obstladen", "Obst"))
        self.until(lambda: "Obst<" in self.get("?lang=de") and "the old texts stay" in self.log())
        self.assertIn(f"{self.path('fr')}:{line}: ", self.log())
        page = self.get("?lang=fr")
        self.assertIn("Fruits du jour", page)
        self.assertEqual(version_of(page), 6)

    def test_clients(self) -> None:
        """8 clients, while both catalogues are replaced: each page is of one version, and versions don't go back."""
        wrong: list[object] = []
        versions: set[int] = set()
        counts = [0] * 8
        originals = {it: self.path(it).read_text(encoding="utf-8") for it in ("fr", "sl")}
        end = time.monotonic() + SECONDS

        def ask(client: int) -> None:
            language, last = ("fr", "sl")[client % 2], 0
            while time.monotonic() < end:
                try:
                    page = self.get(f"?lang={language}")
                except OSError as fault:
                    wrong.append(fault)
                    return
                # (each message but the footer carries the number of its catalogue)
                numbers, version = re.findall(r"@(\d+)", page), version_of(page)
                if len(set(numbers)) > 1 or len(numbers) not in (0, 9) or version < last:
                    wrong.append((version, last, numbers))
                last = version
                versions.add(version)
                counts[client] += 1

        threads = [threading.Thread(target=ask, args=[client]) for client in range(8)]
        for thread in threads:
            thread.start()
        number = 0
        while time.monotonic() < end:
            number += 1
            for language, text in originals.items():
                # (the last character of each text, but for the header and the footer)
                lines = [f'{it[:-1]} @{number}"' if it.startswith("msgstr") and len(it) > 12 and "(version)" not in it
                         else it for it in text.split("\n")]
                self.put(language, "\n".join(lines))
            time.sleep(0.3)
        for thread in threads:
            thread.join()
        self.assertEqual(wrong[:3], [])
        self.assertTrue(all(counts), counts)
        self.assertGreater(len(versions), 2)
        print(f"{sum(counts)} pages of {len(versions)} versions by 8 clients", file=sys.stderr)

    def test_headers(self) -> None:
        """What a cache and a search engine see (RFC 9110, sections 8.5 and 12.5.5)."""
        for query, accepted, lang in (("", "sl, en;q=0.5", "sl"), ("?lang=ar", "sl", "ar"), ("?lang=xx", "de-AT", "de"),
                                      ("?lang=de:fr", "fr:de", "en")):
            request = urllib.request.Request(f"{self.address}{query}", headers={"Accept-Language": accepted})
            with urllib.request.urlopen(request, timeout=60) as page:
                self.assertEqual((page.headers["Content-Language"], page.headers["Vary"]), (lang, "Accept-Language"))
        page = self.get("?lang=de")
        for language in TEXTS:
            self.assertIn(f'<link rel="alternate" hreflang="{language}" href="{self.address}?lang={language}">', page)
        self.assertIn(f'<link rel="alternate" hreflang="x-default" href="{self.address}">', page)

    @unittest.skipUnless(importlib.util.find_spec("html5lib"), "no html5lib")
    def test_markup(self) -> None:
        """A strict parser of HTML finds no fault in the page."""
        html5lib = importlib.import_module("html5lib")
        for language in TEXTS:
            html5lib.HTMLParser(strict=True).parse(self.get(f"?lang={language}"))

    @unittest.skipIf("KOBDZILA_SANITIZED" in os.environ, "the browser needs no second run over AddressSanitizer")
    @unittest.skipUnless(BROWSER, "no Chromium")
    def test_browser(self) -> None:
        """A browser shows a page, and the new texts when it is loaded again."""
        page = self.browse("?lang=ar", "--dump-dom")
        for text in TEXTS["ar"]:
            self.assertIn(f">{text}<", page)
        self.put("de", self.path("de").read_text(encoding="utf-8").replace("Obstladen", "Obst vom Markt"))
        self.until(lambda: "Obst vom Markt" in self.get("?lang=de"))
        page = self.browse("?lang=de", "--dump-dom")
        self.assertIn("Obst vom Markt", page)
        self.assertEqual(version_of(page), 5)

    def browse(self, query: str, *options: str) -> str:
        command = [str(BROWSER), *OPTIONS, f"--user-data-dir={self.room}/browser", *options, f"{self.address}{query}"]
        done = subprocess.run(command, capture_output=True, timeout=600, check=False)
        return done.stdout.decode(errors="replace")

    @unittest.skipIf("KOBDZILA_SANITIZED" in os.environ, "the browser needs no second run over AddressSanitizer")
    @unittest.skipUnless(BROWSER and shutil.which("chromedriver") and importlib.util.find_spec("selenium"),
                         "no Chromium with its driver and Selenium")
    def test_looked_at(self) -> None:
        """The page in each language and at three widths, by the rules of RULES. There is no axe-core in Debian.

        KOBDZILA_PICTURES names a folder that keeps a picture of each.
        """
        from selenium import webdriver
        from selenium.webdriver.chrome.options import Options
        from selenium.webdriver.chrome.service import Service

        options: Any = Options()
        for it in (*OPTIONS, f"--user-data-dir={self.room}/driven"):
            options.add_argument(it)
        driver = webdriver.Chrome(service=Service(str(shutil.which("chromedriver"))), options=options)
        driver.set_page_load_timeout(600)
        try:
            pictures = {self.looked_at(driver, language, width) for language in TEXTS for width in WIDTHS}
        finally:
            driver.quit()
        self.assertEqual(len(pictures), len(TEXTS) * len(WIDTHS))

    def looked_at(self, driver: Any, language: str, width: int) -> bytes:
        """Look at a page, and return its picture."""
        # (a window of Chromium has a least width, a device's picture hasn't)
        metrics = {"width": width, "height": 700, "deviceScaleFactor": 1, "mobile": False}
        driver.execute_cdp_cmd("Emulation.setDeviceMetricsOverride", metrics)
        driver.get(f"{self.address}?lang={language}")
        self.assertEqual(driver.execute_script("return innerWidth"), width)
        for rule, script in RULES.items():
            self.assertEqual(driver.execute_script(HELPERS + script), [], (language, width, rule))
        driver.execute_script("document.activeElement.blur(); scrollTo(0, 0)")
        picture: bytes = driver.get_screenshot_as_png()
        with contextlib.suppress(KeyError):
            Path(os.environ["KOBDZILA_PICTURES"], f"shop-{language}-{width}.png").write_bytes(picture)
        return picture


# What is looked at, by the success criteria of WCAG 2.2 and what HTML asks for. Each script returns what is wrong.
HELPERS = """
const all = (selector) => [...document.querySelectorAll(selector)];
const name = (it) => it.outerHTML.slice(0, 80);
const channel = (it) => (it /= 255) <= 0.04045 ? it / 12.92 : ((it + 0.055) / 1.055) ** 2.4;
const light = (color) => {
  const [r, g, b] = color.match(/[\\d.]+/g).map(Number);
  return 0.2126 * channel(r) + 0.7152 * channel(g) + 0.0722 * channel(b);
};
const behind = (it) => {
  for (; it; it = it.parentElement) {
    const color = getComputedStyle(it).backgroundColor;
    if (!/, 0\\)$/.test(color)) return color;
  }
  return "rgb(255, 255, 255)";
};
const contrast = (it) => {
  const [a, b] = [light(getComputedStyle(it).color), light(behind(it))].sort((x, y) => y - x);
  return (a + 0.05) / (b + 0.05);
};
const texts = all("body *").filter((it) => [...it.childNodes].some((kid) => kid.nodeType === 3 && kid.data.trim()));
"""
RULES = {
    "1.3.1, landmarks: one main, one navigation with a name, and all texts in one of them": """
        const outside = texts.filter((it) => !it.closest("main, nav, footer"));
        return [...(all("main").length === 1 ? [] : ["main"]),
                ...(all("nav").length === 1 && all("nav[aria-label]").length === 1 ? [] : ["nav"]), ...outside.map(name)]""",
    "1.3.1, headings: one of the first level, and none that skips a level": """
        const levels = all("h1, h2, h3, h4, h5, h6").map((it) => Number(it.tagName[1]));
        return levels.filter((it, k) => k ? it > levels[k - 1] + 1 : it !== 1)
          .concat(levels.filter((it) => it === 1).length === 1 ? [] : ["h1"])""",
    "1.3.2: what follows in the document follows on the page, from the reader's side": """
        const sign = document.documentElement.dir === "rtl" ? -1 : 1;
        const boxes = all("nav a").map((it) => it.getBoundingClientRect());
        return boxes.slice(1).map((it, k) => [boxes[k], it]).filter(([a, b]) =>
          b.top < a.top - 1 || Math.abs(b.top - a.top) <= 1 && sign * (b.left - a.left) <= 0).map(() => "order")""",
    "1.3.2: the page begins at the reader's side": """
        const box = document.querySelector("h1 ").getBoundingClientRect(), style = getComputedStyle(document.querySelector("h1"));
        return style.direction === document.documentElement.dir && ["start", document.documentElement.dir === "rtl" ?
          "right" : "left"].includes(style.textAlign) && box.width > 0 ? [] : [style.direction + " " + style.textAlign]""",
    "1.4.3: a contrast of 4.5 to 1": "return texts.filter((it) => contrast(it) < 4.5).map(name)",
    "1.4.4, 1.4.10: no sideways scrolling, and nothing outside of the window": """
        const wide = document.documentElement.scrollWidth > innerWidth ? ["scrolls"] : [];
        return wide.concat(all("body *").filter((it) => {
          const box = it.getBoundingClientRect();
          return box.width && (box.left < 0 || box.right > innerWidth + 0.5);
        }).map(name))""",
    "1.4.4: a viewport that may be enlarged": """
        const content = document.querySelector("meta[name=viewport]")?.content ?? "";
        return /width=device-width/.test(content) && !/user-scalable|maximum-scale/.test(content) ? [] : [content]""",
    "1.4.12: with wider spacing nothing is cut off": """
        const style = document.createElement("style");
        style.textContent = "* { line-height: 1.5 !important; letter-spacing: 0.12em !important; word-spacing: 0.16em !important }";
        document.head.append(style);
        const wrong = texts.filter((it) => it.scrollWidth > it.clientWidth + 1 && getComputedStyle(it).display !== "inline");
        const wide = document.documentElement.scrollWidth > innerWidth ? ["scrolls"] : [];
        style.remove();
        return wrong.map(name).concat(wide)""",
    "2.4.2: a title": "return document.title.trim() ? [] : ['no title']",
    "2.4.4, 4.1.2: links and buttons have a name": """
        return all("a, button").filter((it) => !(it.getAttribute("aria-label") ?? it.textContent).trim()).map(name)""",
    "2.4.7: the focus is seen": """
        return all("a, button").filter((it) => {
          it.focus({ focusVisible: true });
          return document.activeElement !== it || getComputedStyle(it).outlineStyle === "none";
        }).map(name)""",
    "2.4.8: one link is the page itself": """
        const current = all("nav [aria-current=page]");
        return current.length === 1 && current[0].hreflang === document.documentElement.lang ? [] : current.map(name).concat("current")""",
    "2.5.8: targets of 24 by 24 pixels": """
        return all("a, button").filter((it) => {
          const box = it.getBoundingClientRect();
          return box.width < 24 || box.height < 24;
        }).map(name)""",
    "3.1.1: the page's language and direction": """
        const wanted = new URLSearchParams(location.search).get("lang"), page = document.documentElement;
        return page.lang === wanted && page.dir === (wanted === "ar" ? "rtl" : "ltr") ? [] : [page.lang + page.dir]""",
    "3.1.2: each link in another language says so": """
        return all("nav a").filter((it) => !it.lang || it.hreflang !== it.lang || it.dir !== (it.lang === "ar" ? "rtl" : "ltr"))
          .map(name)""",
    "HTML: no id twice": """
        const ids = all("[id]").map((it) => it.id);
        return ids.filter((it, k) => ids.indexOf(it) !== k)""",
    "HTML: one link for each language, and one for all others": """
        const links = all("link[rel=alternate]").map((it) => it.hreflang);
        return all("nav a").map((it) => it.hreflang).concat("x-default").filter((it) => !links.includes(it))""",
}


if __name__ == "__main__":
    unittest.main()
