#!/usr/bin/env python3
"""Compares kobdzila.h with tests/library/c_interface.txt, which has all that the last release promised to programs in C, and with
the version script and the shared library: a declaration that went or changed, and a function that isn't shown, is a line
of the output, and the status is then 1.

    tests/library/c_interface.py [LIBRARY]   compares; LIBRARY is a shared library whose symbols are to be looked at
    tests/library/c_interface.py --keep      writes tests/library/c_interface.txt anew, as a release does: what is new is then promised
"""

import re
import subprocess
import sys
from pathlib import Path

TOP = Path(__file__).resolve().parents[2]
HEADER, MAP, PROMISED = TOP / "include/kobdzila.h", TOP / "c/library/kobdzila.map", TOP / "tests/library/c_interface.txt"


def code_of(path: Path) -> str:
    """A file of C without its comments."""
    return re.sub(r"/\*.*?\*/", " ", path.read_text(encoding="utf-8"), flags=re.S)


def declarations() -> list[str]:
    """What the header declares: a line for each function, each type, and each number of an enum."""
    code = re.sub(r'^ *#.*$|extern "C" \{', "", code_of(HEADER), flags=re.M)
    found = []
    for whole in re.findall(r"(?:[^;{}]|\{[^{}]*\})+;", code):
        line = re.sub(r"(?<=[(*]) | (?=[(),;])", "", " ".join(re.sub(r"([(){}*,])", r" \1 ", whole).split()))
        if numbers := re.fullmatch(r"enum (\w+) \{ (.*?),? \};", line):
            following = 0
            for name, _, number in (it.strip().partition(" = ") for it in numbers[2].split(",")):
                following = int(number) if number else following
                found.append(f"enum {numbers[1]}: {name} = {following}")
                following += 1
        else:
            found.append(line)
    return sorted(found)


def functions(lines: list[str]) -> set[str]:
    return {name for line in lines for name in re.findall(r"\b(kob_\w+)\(", line)}


def versions_of_the_map() -> dict[str, str]:
    """The functions of the version script, each with the version that it is below."""
    blocks = re.findall(r"(KOBDZILA_[\d.]+) \{(.*?)\}", code_of(MAP), re.S)
    return {name: version for version, block in blocks for name in re.findall(r"\b(kob_\w+);", block)}


def versions_of(library: str) -> dict[str, str]:
    """The functions that a shared library shows, each with its version."""
    said = subprocess.run(["readelf", "-W", "--dyn-syms", library], capture_output=True, text=True, check=True).stdout
    return dict(re.findall(r" (?!UND)\S+ (kob_\w+)@@(\S+)", said))


def main(words: list[str]) -> int:
    lines = declarations()
    if words == ["--keep"]:
        PROMISED.write_text("".join(f"{it}\n" for it in lines), encoding="utf-8")
        return 0
    promised = PROMISED.read_text(encoding="utf-8").splitlines()
    wrong = [f"kobdzila.h has no more: {it}" for it in promised if it not in lines]
    listed = versions_of_the_map()
    wrong += [f"{it} is in one of kobdzila.h and kobdzila.map alone" for it in sorted(functions(lines) ^ set(listed))]
    if words:
        shown = versions_of(words[0])
        wrong += [f"{it} is {shown.get(it)} in the library, and {listed.get(it)} in kobdzila.map"
                  for it in sorted(set(shown) | set(listed)) if shown.get(it) != listed.get(it)]
    print("\n".join(wrong) if wrong else f"{len(listed)} functions, {len(lines) - len(promised)} new declarations")
    return 1 if wrong else 0


if __name__ == "__main__":
    sys.exit(main(sys.argv[1:]))
