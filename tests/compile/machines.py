#!/usr/bin/env python3
"""Reads what kob-compile wrote as JSON and as SARIF of the folder json/, and compares it with the files and with msgfmt.

    tests/compile/machines.py JSON SARIF MSGFMT

Prints a line `ok compile, NAME` or `FAILED compile, NAME: WHY` for each rule.
"""
import json
import os
import re
import shutil
import subprocess
import sys
from pathlib import Path
from urllib.parse import unquote_to_bytes

FIELDS = {"po", "mo", "language", "outcome"}
COUNTS = ("translated", "fuzzy", "untranslated")


def judge(name: str, wrong: list[str]) -> None:
    print(f"FAILED compile, {name}: {wrong[0]}" if wrong else f"ok compile, {name}")


def said_by(msgfmt: str, path: bytes) -> tuple[int, str]:
    """The status of msgfmt -c --statistics, and its last line."""
    shutil.copy(path, b"edit.po")  # (msgfmt takes names in UTF-8 alone)
    words = [msgfmt, "-c", "--statistics", "-o", "wanted.mo", "edit.po"]
    run = subprocess.run(words, stderr=subprocess.PIPE, check=False)
    lines = run.stderr.decode(errors="replace").splitlines()
    return run.returncode, lines[-1]


def catalogue_faults(it: dict, msgfmt: str) -> list[str]:
    """What is wrong with the object of one catalogue."""
    path = os.fsencode(it["po"])
    status, line = said_by(msgfmt, path)
    if not FIELDS <= it.keys() or not os.path.exists(path):
        return [f"{it['po']!r}: no such file, or not all members"]
    if status != 0:
        number, text = re.search(r":(\d+): (.*)$", line).groups()
        found = (it["outcome"], it.get("line"), it.get("why"))
        return [] if found == ("refused", int(number), text) else [f"{path!r}: {found}"]
    wanted = {name: int(n) for n, name in re.findall(r"(\d+) (translated|fuzzy|untranslated)", line)}
    found = {name: it[name] for name in COUNTS if it[name] != 0 or name == "translated"}
    if found != wanted or it["bytes"] != os.path.getsize("wanted.mo") or it["by"] != "Kobdzila":
        return [f"{path!r}: {found} and not {wanted}"]
    return [] if Path("wanted.mo").read_bytes() == Path(os.fsdecode(os.fsencode(it["mo"]))).read_bytes() else ["bytes"]


def look_at_json(name: str, msgfmt: str) -> None:
    text = Path(name).read_text(encoding="utf-8")
    done = json.loads(text)
    found = sorted(os.fsencode(it["po"]) for it in done["catalogues"])
    wanted = sorted(bytes(it) for it in map(os.fsencode, Path("json").glob("*.po")))
    judge("JSON: one line, and the status", [] if text.count("\n") == 1 and done["status"] == 1 else [text[:100]])
    judge("JSON: all PO files, also with other names", [] if found == wanted else [f"{found} and not {wanted}"])
    judge("JSON: each as msgfmt says", [it for one in done["catalogues"] for it in catalogue_faults(one, msgfmt)])
    lacks = [it for it in done["catalogues"] if it["po"] == "json/fields.po"][0]
    judge("JSON: missing fields", [] if len(lacks["missing_fields"]) == 7 and lacks["header_line"] == 1 else [str(lacks)])


def result_faults(result: dict, rules: list[dict]) -> list[str]:
    """What SARIF 2.1.0 asks of a result, and the files and lines that it names."""
    if rules[result["ruleIndex"]]["id"] != result["ruleId"] or result["level"] not in ("error", "warning"):
        return [f"the rule of {result}"]
    if not isinstance(result["message"]["text"], str):
        return [f"the message of {result}"]
    (place,) = result["locations"]
    where = place["physicalLocation"]
    path = unquote_to_bytes(where["artifactLocation"]["uri"])
    line = where["region"]["startLine"]
    if not os.path.exists(path) or not 1 <= line <= Path(os.fsdecode(path)).read_bytes().count(b"\n"):
        return [f"the place of {result}"]
    return []


# Of the schema of SARIF 2.1.0: what an object has to have, and what each of its properties is, among those that are used
# here. A schema's name in brackets is a list of such objects. The schema allows no other properties than its own.
TEXT, COUNT = str, int
SCHEMA = {
    "log": ({"version", "runs"}, {"$schema": TEXT, "version": TEXT, "runs": ["run"]}),
    "run": ({"tool"}, {"tool": "tool", "results": ["result"]}),
    "tool": ({"driver"}, {"driver": "component"}),
    "component": ({"name"}, {"name": TEXT, "version": TEXT, "rules": ["rule"]}),
    "rule": ({"id"}, {"id": TEXT, "shortDescription": "multiformat"}),
    "multiformat": ({"text"}, {"text": TEXT}),
    "result": ({"message"}, {"ruleId": TEXT, "ruleIndex": COUNT, "level": TEXT, "message": "message",
                             "locations": ["location"]}),
    "message": ({"text"}, {"text": TEXT}),
    "location": (set(), {"physicalLocation": "place"}),
    "place": ({"artifactLocation"}, {"artifactLocation": "artifact", "region": "region"}),
    "artifact": (set(), {"uri": TEXT, "uriBaseId": TEXT}),
    "region": (set(), {"startLine": COUNT}),
}


def schema_faults(value: object, kind: object, path: str) -> list[str]:
    """Where a value isn't as the schema says."""
    if isinstance(kind, type):
        return [] if type(value) is kind else [f"{path} is {value!r}"]
    if isinstance(kind, list):
        if not isinstance(value, list):
            return [f"{path} is no list"]
        return [it for number, one in enumerate(value) for it in schema_faults(one, kind[0], f"{path}[{number}]")]
    required, known = SCHEMA[str(kind)]
    if not isinstance(value, dict):
        return [f"{path} is no object"]
    wrong = [f"{path} has no {it}" for it in required - value.keys()]
    wrong += [f"{path} has {it}, which the schema has not" for it in value.keys() - known.keys()]
    return wrong + [it for name in value.keys() & known.keys()
                    for it in schema_faults(value[name], known[name], f"{path}.{name}")]


def look_at_sarif(name: str) -> None:
    """The schema's parts, the version, each rule once, and the results."""
    log = json.loads(Path(name).read_text(encoding="utf-8"))
    judge("SARIF: as the schema requires", schema_faults(log, "log", "log"))
    (run,) = log["runs"]
    driver = run["tool"]["driver"]
    rules = driver["rules"]
    wrong = [] if (log["version"], driver["name"]) == ("2.1.0", "kob-compile") else ["the version or the tool's name"]
    judge("SARIF: version and tool", wrong)
    ids = [it["id"] for it in rules]
    judge("SARIF: each rule once", [] if len(ids) == len(set(ids)) and all(ids) else [str(ids)])
    judge("SARIF: each result", [it for result in run["results"] for it in result_faults(result, rules)])
    errors = [it for it in run["results"] if it["level"] == "error"]
    texts = [(it["message"]["text"], it["ruleId"]) for it in errors]
    judge("SARIF: what was refused", [] if texts == [("duplicate message", "duplicate-message")] else [str(texts)])
    warnings = [it for it in run["results"] if it["level"] == "warning"]
    judge("SARIF: warnings", [] if len(warnings) == 7 else [str(len(warnings))])


if __name__ == "__main__":
    look_at_json(sys.argv[1], sys.argv[3])
    look_at_sarif(sys.argv[2])
