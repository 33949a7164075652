"""How the rules of documents.py read a page: its sections, tables, links, paragraphs and pictures, in the folder of the
command line.
"""
import re
import sys
from pathlib import Path

TOP = Path(sys.argv[1] if len(sys.argv) > 1 else ".")


def read(name):
    return (TOP / name).read_text(encoding="utf-8")


def page(name):
    """A man page as plain words: without requests, fonts and line ends."""
    text = re.sub(r'^\.[A-Z]+ ?', "", read(name), flags=re.M).replace("\\-", "-")
    return " ".join(re.sub(r'\\f[A-Z]|"', "", text).split())


def section(name, title):
    """A part of a page of Markdown, from its heading to the next one."""
    found = re.search(rf"^## {re.escape(title)}$(.*?)(?=^## |\Z)", read(name), re.M | re.S)
    return found[1] if found else ""


def rows(text):
    """The cells of each row of the tables in a text of Markdown."""
    lines = [line for line in text.splitlines() if line.startswith("|")]
    return [[cell.strip() for cell in line.strip("|").split(" | ")] for line in lines]


def differences(what, found, wanted):
    """Nothing where two sets or lists are the same, else why not."""
    if found == wanted:
        return []
    if isinstance(found, (set, frozenset)):
        return [f"{what}: too many {sorted(found - wanted)}, missing {sorted(wanted - found)}"]
    return [f"{what}: {found}, and the code has {wanted}"]


def plain(name):
    return page(name) if name.endswith((".1", ".3")) else " ".join(read(name).split())


def pages():
    """All pages of Markdown."""
    return sorted([*TOP.glob("*.md"), *TOP.glob(".github/*.md"), *TOP.glob("docs/**/*.md")])


def prose(text):
    """A text of Markdown without its programs."""
    return re.sub(r"^```.*?^```$", "", text, flags=re.M | re.S)


def anchors(text):
    """What a link to a page may name after `#`: its headings as web pages spell them, and its own anchors."""
    heads = re.findall(r"^#+ (.*)$", prose(text), re.M)
    spelled = {re.sub(r"[^\w\- ]", "", head.lower()).replace(" ", "-") for head in heads}
    return spelled | set(re.findall(r'<a id="([\w-]+)">', text))


def links(path):
    """The places that a page links to: each with its file and what follows `#`."""
    for it in re.findall(r"\]\(([^)\s:]+)\)", prose(path.read_text(encoding="utf-8"))):
        name, _, anchor = it.partition("#")
        yield it, (path.parent / name).resolve() if name else path.resolve(), anchor


def paragraphs(text):
    """The paragraphs and items of a text of Markdown with their lines; no headings, tables, programs or quotations."""
    found, words, first, in_program = [], [], 0, False
    for number, line in enumerate([*text.split("\n"), ""], 1):
        bare = re.sub(r"<!--.*?-->", "", line).strip()
        if bare.startswith("```"):
            in_program, bare = not in_program, ""
        if in_program or line.startswith("    ") or bare.startswith(("|", "#", ">")):
            bare = ""
        item = re.match(r"(?:[-*]|\d+\.) ", bare)
        if words and (not bare or item):
            found.append((first, " ".join(words)))
            words = []
        if bare:
            first = first if words else number
            words.append(bare[item.end() :] if item else bare)
    return found


def boxes_outside(path):
    """The boxes of a picture that its edge cuts off."""
    text = path.read_text(encoding="utf-8")
    width, height = map(float, re.search(r'viewBox="0 0 ([\d.]+) ([\d.]+)"', text).groups())
    boxes = re.findall(r'<rect [^>]*\bx="(-?[\d.]+)" y="(-?[\d.]+)" width="([\d.]+)" height="([\d.]+)"', text)
    return [it for it in boxes for x, y, wide, high in [map(float, it)]
            if x < 0 or y < 0 or x + wide > width or y + high > height]
