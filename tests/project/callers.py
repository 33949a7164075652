#!/usr/bin/env python3
"""Checks that the pages quote the sources: each program, from a file that its page names, and each clause
of the tables of docs/guide/rattle.md and docs/internals/proofs.md. Prints `ok callers`, or a line for what isn't there.
"""
import re
import sys
from pathlib import Path

REFUSED = "// does not compile: "  # such a program is tests/msgfmt/refused_programs.sh's
BLOCK = re.compile(r"^```rust\n(.*?)^```$", re.M | re.S)
SOURCE = re.compile(r"`(crates/[\w/]+\.rt)`")
USE = re.compile(r"^(?:ghost )?use ([^;]*);\n", re.M)
CLAUSE = re.compile(r"^\|(?: [^|`]* \|)? `(\w+)` \| `([^`]*)` \|", re.M)


def words_of_uses(text):
    """What `use` lines bring in: each name by its whole path."""
    words = set()
    for use in USE.findall(text):
        path, _, listed = " ".join(use.split()).partition("{")
        words |= {path + name.strip() for name in listed.rstrip("}").split(",") if name.strip()} or {path}
    return words


def source(name):
    """A source that a page names. Its own crate is called by its name there."""
    path = Path(name)
    return re.sub(r"\buse crate::", f"use {path.parts[1]}::", path.read_text(encoding="utf-8")) if path.exists() else ""


def parts(block):
    """The items of a program, one after another, without the `use` lines."""
    return [part.strip("\n") for part in USE.sub("", block).split("\n\n") if part.strip()]


def missing_programs(page):
    """For each program of a page, the first line of what isn't in a source that the page names."""
    text = page.read_text(encoding="utf-8")
    sources = [source(name) for name in SOURCE.findall(text)]
    uses = set().union(*map(words_of_uses, sources))
    for block in BLOCK.findall(text):
        if block.startswith(REFUSED):
            continue
        yield from (f"use {word}" for word in sorted(words_of_uses(block) - uses))
        for part in parts(block):
            if not any(f"\n{part}\n" in it for it in sources):
                yield part.split("\n", 1)[0]


def contracts(name, text):
    """The heads, up to their bodies, of the functions of this name, each on one line."""
    return [" ".join(head.split()) for head in re.findall(rf"fn {name}\b.*?\n\s*\{{", text, re.S)]


def missing_clauses(page):
    """The clauses of a page's tables that no function of the name next to them has."""
    sources = [path.read_text(encoding="utf-8") for path in Path("crates").glob("*/src/*.rt")]
    quoted = CLAUSE.findall(page.read_text(encoding="utf-8"))
    if not quoted:
        yield "a table of clauses"
    for name, clause in quoted:
        if not any(clause in head for text in sources for head in contracts(name, text)):
            yield f"{name}: {clause}"


def main():
    # (what the guides for Rust quote is Rust, which tests/rust/rust.sh compiles and runs)
    pages = [Path("README.md"), *sorted(it for it in Path("docs").glob("**/*.md") if not it.name.startswith("rust"))]
    missing = [f"{page}: {what}" for page in pages for what in missing_programs(page)]
    for name in ("docs/guide/rattle.md", "docs/internals/proofs.md"):
        missing += [f"{name}: {what}" for what in missing_clauses(Path(name))]
    for what in missing:
        print(f"FAILED callers: not in the sources: {what}")
    if not missing:
        print("ok callers")
    return bool(missing)


if __name__ == "__main__":
    sys.exit(main())
