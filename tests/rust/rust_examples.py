#!/usr/bin/env python3
"""Prints each public item of a crate's sources whose documentation has no example.

    tests/rust/rust_examples.py FOLDER
"""
import re
import sys
from pathlib import Path

ITEM = re.compile(r"^\s*pub (?:const )?(?:fn|struct|enum|trait) (\w+)")
METHOD = re.compile(r"^    fn (\w+)")
MACRO = re.compile(r"^macro_rules! (\w+)")
PRIVATE = ("/sys.rs", "/inotify.rs")
# what the macros expand to: hidden in the documentation, since nobody calls it by itself
HIDDEN = {"Number", "Message", "placeholders", "text"}


def above(lines, number):
    """The documentation and the attributes above a line."""
    found = []
    while number and re.match(r"\s*(///|#\[|\)\]|\]\))", lines[number - 1]):
        number -= 1
        found.append(lines[number].strip())
    return found


def items(path):
    """Each public item of a file, with the number of its line."""
    in_trait = False
    for number, line in enumerate(path.read_text(encoding="utf-8").split("\n")):
        in_trait = line.startswith("pub trait ") or in_trait and line != "}"
        found = ITEM.match(line) or MACRO.match(line) or in_trait and METHOD.match(line)
        if found:
            yield number, found[1], line


def main():
    for path in sorted(Path(sys.argv[1]).rglob("*.rs")):
        if str(path).endswith(PRIVATE):
            continue
        lines = path.read_text(encoding="utf-8").split("\n")
        for number, name, line in items(path):
            said = above(lines, number)
            is_public = not line.startswith("macro_rules!") or "#[macro_export]" in said and "#[doc(hidden)]" not in said
            is_hidden = path.name == "messages.rs" and (name in HIDDEN or name == "number")
            if is_public and not is_hidden and not any("```" in it for it in said):
                print(f"{path.name}:{number + 1}: {name}")


main()
