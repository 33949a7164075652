#!/usr/bin/env python3
"""Prints which table of likely scripts in preferences.rs isn't that of the Python package, whose tests compare it with CLDR's."""
from __future__ import annotations

import ast
import re
from pathlib import Path
from typing import Any

PYTHON = Path("python/src/kobdzila/_scripts.py").read_text(encoding="utf-8")
RUST = Path("rust/src/preferences.rs").read_text(encoding="utf-8")


def of_python(name: str) -> Any:
    found = re.search(rf"^{name} = (\{{.*?^\}})", PYTHON, re.M | re.S)
    return ast.literal_eval(found[1] if found else "{}")


def of_rust(name: str) -> list[tuple[str, ...]]:
    found = re.search(rf"const {name}: [^=]* = &\[(.*?)\];", RUST, re.S)
    rows = re.findall(r"\((.*?)\)", found[1] if found else "")
    return [tuple(re.findall(r'"(.*?)"', row)) for row in rows]


scripts = {language: script.lower() for language, script in of_python("SCRIPTS").items()}
if not scripts or scripts != {language: script for script, them in of_rust("SCRIPTS") for language in them.split()}:
    print("SCRIPTS")
there = {(language, script.lower(), countries.lower()) for language, its in of_python("IN_COUNTRIES").items()
         for script, countries in its.items()}
if not there or there != set(of_rust("SCRIPTS_IN")):
    print("SCRIPTS_IN")
