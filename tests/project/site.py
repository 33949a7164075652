#!/usr/bin/env python3
"""What tests/project/site.sh asks of the site that Sphinx has made.

    tests/project/site.py names FOLDER   the names and words that its search finds, a line each
    tests/project/site.py links FOLDER   links inside it that lead nowhere, a line each
    tests/project/site.py all FILE       the names in the list __all__ of a module
    tests/project/site.py frames FOLDER  a page that opens each page in a frame, as wide as its address says after `?`, and lists
                                 those that are wider
"""
import ast
import json
import re
import sys
from html.parser import HTMLParser
from pathlib import Path
from urllib.parse import unquote, urlsplit


def names(folder):
    text = (folder / "searchindex.js").read_text(encoding="utf-8")
    # (the index is a call of JavaScript, whose keys of one word have no quotes)
    found = re.search(r"Search\.setIndex\((.*)\)", text, re.S)[1]
    index = json.loads(re.sub(r"([{,])([A-Za-z_]\w*|\d+):", r'\1"\2":', found))
    for prefix, objects in index["objects"].items():
        for it in objects:
            name = it[4] if isinstance(it, list) else it
            yield name
            yield f"{prefix}.{name}" if prefix else name
    yield from index["titleterms"]
    yield from index["terms"]


class Page(HTMLParser):
    def __init__(self, text):
        super().__init__()
        self.links, self.places = [], set()
        self.feed(text)

    def handle_starttag(self, tag, attributes):
        found = dict(attributes)
        self.places |= {found[it] for it in ("id", "name") if found.get(it)}
        self.links += [found[it] for it in ("href", "src") if found.get(it)]


def links(folder):
    # (rustdoc's pages have scripts that make their links; its own tests look at them)
    pages = {it: Page(it.read_text(encoding="utf-8")) for it in folder.rglob("*.html") if "rust" not in it.relative_to(folder).parts}
    for path, page in sorted(pages.items()):
        for link in page.links:
            parts = urlsplit(link)
            if parts.scheme or parts.netloc or link.startswith("data:"):
                continue
            to = (path.parent / unquote(parts.path)).resolve() if parts.path else path
            place = unquote(parts.fragment)
            if not to.exists() or place and to in pages and place not in pages[to].places:
                yield f"{path.relative_to(folder)}: {link}"


def listed(path):
    for node in ast.parse(path.read_text(encoding="utf-8")).body:
        if isinstance(node, ast.Assign) and getattr(node.targets[0], "id", "") == "__all__":
            yield from ast.literal_eval(node.value)


FRAMES = """<!doctype html>
<meta charset="utf-8">
<ul></ul>
<script>
const pages = PAGES, width = Number(location.search.slice(1)), list = document.querySelector("ul");
const say = text => list.append(Object.assign(document.createElement("li"), { textContent: text }));
async function look(page) {
  const frame = Object.assign(document.createElement("iframe"), { src: page, width: width, height: 800 });
  document.body.append(frame);
  await new Promise(done => frame.addEventListener("load", done));
  const wide = frame.contentDocument.documentElement.scrollWidth;
  if (wide > width) say(`wide: ${page} takes ${wide}`);
  frame.remove();
}
(async () => { for (const page of pages) await look(page); say(`pages: ${pages.length}`); })();
</script>
"""


def frames(folder):
    pages = [str(it.relative_to(folder)) for it in sorted(folder.rglob("*.html"))]
    yield FRAMES.replace("PAGES", json.dumps([it for it in pages if not it.startswith("rust/")]))


def main(words):
    for line in {"names": names, "links": links, "all": listed, "frames": frames}[words[0]](Path(words[1]).resolve()):
        print(line)


if __name__ == "__main__":
    main(sys.argv[1:])
