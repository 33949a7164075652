#!/usr/bin/env python3
"""Runs of identical lines in sources and tests that docs/internals/duplicates.md doesn't list, and rows without a run.

    duplicates.py [FOLDER]      the repository in FOLDER, or in the current folder

A run is eight lines that are neither blank nor an #include, without their indentation. Where one stands twice, a row of
the page's first table has to name each file that has it.
"""

import re
import subprocess
import sys
from collections import defaultdict
from itertools import chain
from pathlib import Path

PAGE = "docs/internals/duplicates.md"
FOLDERS = ("bench", "c", "crates", "examples", "fuzz", "include", "packaging", "python", "rust", "tests", "tools")
ENDINGS = (".c", ".h", ".py", ".pyi", ".rs", ".rt", ".sh")
LENGTH = 8
NAMED = 4  # findings that the line of a rule names


def sources(top: Path) -> list[str]:
    """The files that git tracks, or all files where there is no git repository."""
    if (top / ".git").exists():
        told = subprocess.run(["git", "ls-files", *FOLDERS], cwd=top, capture_output=True, text=True, check=True)
        found = told.stdout.splitlines()
    else:
        every = chain.from_iterable((top / it).rglob("*") for it in FOLDERS)
        found = [str(it.relative_to(top)) for it in every if it.is_file()]
    return sorted(it for it in found if is_source(top / it))


def is_source(path: Path) -> bool:
    """Whether it has the ending of a source, or is a script without one."""
    if not path.is_file() or path.suffix:
        return path.is_file() and path.name.endswith(ENDINGS)
    with path.open("rb") as file:
        return file.read(2) == b"#!"


def repeated(top: Path) -> dict[frozenset[str], str]:
    """For each set of files that share a run, the file and the line of its first one."""
    places: dict[tuple[str, ...], list[tuple[str, int]]] = defaultdict(list)
    for name in sources(top):
        text = (top / name).read_text(encoding="utf-8", errors="replace")
        lines = [(at, line.strip()) for at, line in enumerate(text.splitlines(), 1) if line.strip()]
        lines = [it for it in lines if not it[1].startswith("#include")]
        for start in range(len(lines) - LENGTH + 1):
            run = lines[start : start + LENGTH]
            places[tuple(line for _, line in run)].append((name, run[0][0]))
    found: dict[frozenset[str], str] = {}
    for at in places.values():
        if len(at) > 1:
            found.setdefault(frozenset(name for name, _ in at), f"{at[0][0]}:{at[0][1]}, {at[1][0]}:{at[1][1]}")
    return found


def listed(top: Path) -> list[frozenset[str]]:
    """The files of each row of the page's first table."""
    table = (top / PAGE).read_text(encoding="utf-8").partition("## Runs of lines")[2].partition("\n## ")[0]
    rows = [line.split("|")[1] for line in table.splitlines() if line.startswith("| `")]
    return [frozenset(re.findall(r"`([^`]+)`", row)) for row in rows]


def report(rule: str, found: list[str]) -> None:
    more = f" and {len(found) - NAMED} more" if len(found) > NAMED else ""
    print(f"FAILED duplicates: {rule}: {'; '.join(found[:NAMED])}{more}" if found else f"ok duplicates: {rule}")


def main() -> None:
    top = Path(sys.argv[1] if len(sys.argv) > 1 else ".")
    runs, rows = repeated(top), listed(top)
    report(
        f"{PAGE} lists each run of {LENGTH} lines that stands twice",
        sorted(at for files, at in runs.items() if not any(files <= row for row in rows)),
    )
    idle = [row for row in rows if row != set(chain.from_iterable(files for files in runs if files <= row))]
    report(f"each row of {PAGE} names files that share a run", sorted(", ".join(sorted(row)) for row in idle))


if __name__ == "__main__":
    main()
