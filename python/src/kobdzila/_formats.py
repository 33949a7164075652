"""The checks of `msgfmt -c` for messages with the flags python-format and python-brace-format.

The library finds what is wrong. Of an entry at fault the reason is said in words here.
"""
from __future__ import annotations

import re
from string import Formatter
from typing import NamedTuple

from . import _kobdzila

STRING = rb'(?:\s*"(?:[^"\\\n]|\\.)*")+'
# a flag, up to the strings of its entry
FLAGGED = re.compile(
    rb"^[ \t]*\#,(?P<flags>[^\n]*\bpython-(?:brace-)?format\b[^\n]*)\n(?P<comments>(?:\s*\#(?!~)[^\n]*\n)*)\s*"
    rb"(?:msgctxt" + STRING + rb"\s*)?(?P<id>msgid" + STRING + rb")\s*(?:msgid_plural(?P<plural>" + STRING + rb")\s*)?"
    rb"(?P<forms>(?:msgstr(?:[ \t]*\[\s*\d+\s*\])?" + STRING + rb"\s*)+)",
    re.M,
)
FORM = re.compile(rb"msgstr(?:[ \t]*\[\s*\d+\s*\])?(" + STRING + rb")")
PIECE = re.compile(rb'"((?:[^"\\\n]|\\.)*)"')
ESCAPE = re.compile(rb"\\(?:([0-7]{1,3})|(.))", re.S)
ESCAPED = {b"n": b"\n", b"t": b"\t", b"b": b"\b", b"r": b"\r", b"f": b"\f", b"v": b"\v", b"a": b"\a"}
DIRECTIVE = re.compile(
    r"%(?:\((?P<name>(?:[^()]|\([^()]*\))*)\))?[-#0 +]*(?P<width>\*|\d+)?(?:\.(?P<precision>\*|\d*))?"
    r"[hlL]?(?P<kind>.)?",
    re.S)
KINDS = {**dict.fromkeys("diouxX", "an integer"), **dict.fromkeys("eEfFgG", "a number"), "c": "a character",
         **dict.fromkeys("sra", "a text"), "%": "a percent sign"}


PYTHON_FORMAT, PYTHON_BRACE_FORMAT = 2, 3  # (enum kob_format_language)


class Mismatch(NamedTuple):
    """A translation that doesn't fit its message: the line of the entry, and what is wrong."""

    line: int
    text: str


class Arguments(NamedTuple):
    """The arguments of a format string: kinds by name, or in order."""

    named: dict[str, str]
    unnamed: list[str]


def first_mismatch(data: bytes, use_fuzzy: bool) -> Mismatch | None:
    """Return the first entry of a PO file whose translation takes other arguments than its message, or None.

    The file must compile.
    """
    if b"python-" not in data:
        return None
    for line, language, form, _ in _kobdzila.format_faults(data, use_fuzzy):
        if language in (PYTHON_FORMAT, PYTHON_BRACE_FORMAT):
            return described(data, line, language, form)
    return None


def described(data: bytes, line: int, language: int, number: int) -> Mismatch:
    """Return what is wrong with a form, with the line of its entry. `line` is that of the first msgstr."""
    entry = entry_at(data, line)
    form = FORM.findall(entry["forms"])[number:number + 1] if entry else []
    if not entry or not form:
        return Mismatch(line, "msgstr takes other arguments than the message")
    plural = entry["plural"]
    name = f"msgstr[{number}]" if plural else "msgstr"
    why = difference(text_of(plural or entry["id"]), text_of(form[0]), language == PYTHON_BRACE_FORMAT)
    return Mismatch(data.count(b"\n", 0, entry.start("id")) + 1, f"{name} {why}")


def entry_at(data: bytes, line: int) -> re.Match[bytes] | None:
    """Return the entry whose first msgstr is on a line, or None."""
    first = len(data) - len(data.split(b"\n", line - 1)[-1])
    for entry in FLAGGED.finditer(data):
        if entry.start("forms") >= first:
            return entry if data.find(b"\n", first, entry.start("forms")) < 0 else None
    return None


def difference(message: str, form: str, has_braces: bool) -> str:
    """Return in what a form that is at fault differs from its message."""
    arguments_of = braces if has_braces else percents
    try:
        found = arguments_of(form)
    except ValueError as fault:
        return str(fault)
    try:
        return difference_of(arguments_of(message), found) or "takes other arguments than the message"
    except ValueError:
        return "takes other arguments than the message"


def difference_of(wanted: Arguments, found: Arguments) -> str:
    """Return what is wrong with `found`, or ""."""
    if wanted.named and found.unnamed or wanted.unnamed and found.named:
        return "takes its arguments by name, and the message doesn't" if found.named else (
            "takes its arguments by position, and the message by name")
    for name, kind in found.named.items():
        if name not in wanted.named:
            return f"takes '{name}', which the message doesn't"
        if kind != wanted.named[name]:
            return f"takes {kind} for '{name}', and the message {wanted.named[name]}"
    if len(found.unnamed) > len(wanted.unnamed):
        return f"takes {len(found.unnamed)} arguments, and the message {len(wanted.unnamed)}"
    for number, (kind, other) in enumerate(zip(found.unnamed, wanted.unnamed), 1):
        if kind != other:
            return f"takes {kind} as argument {number}, and the message {other}"
    lacking = [f"'{name}'" for name in wanted.named if name not in found.named]
    lacking += [f"argument {len(found.unnamed) + 1}"] if len(found.unnamed) < len(wanted.unnamed) else []
    return f"doesn't take {lacking[0]}, which the message does" if lacking else ""


def percents(text: str) -> Arguments:
    """Return the arguments that a string takes for `%`. ValueError if it isn't such a format."""
    named: dict[str, str] = {}
    unnamed: list[str] = []
    if "%" not in text:
        return Arguments(named, unnamed)
    for found in DIRECTIVE.finditer(text):
        kind = KINDS.get(found["kind"] or "")
        if kind is None:
            raise ValueError(f"has '{found[0]}', which is no directive of '%'")
        unnamed += ["an integer" for part in (found["width"], found["precision"]) if part == "*"]
        if found["name"] is not None:
            if named.setdefault(found["name"], kind) != kind:
                raise ValueError(f"takes '{found['name']}' twice, with different kinds")
        elif kind != "a percent sign":
            unnamed.append(kind)
    if named and unnamed:
        raise ValueError("takes arguments by name and by position")
    return Arguments(named, unnamed)


def braces(text: str) -> Arguments:
    """Return the arguments that a string takes for `str.format`. ValueError if it isn't such a format."""
    named: dict[str, str] = {}
    try:
        for _, field, form, _ in Formatter().parse(text):
            if field is not None:
                named[field] = "a field"
                named.update((it, "a field") for _, it, _, _ in Formatter().parse(form or "") if it)
    except ValueError as fault:
        raise ValueError(f"is no format of str.format: {fault}") from None
    return Arguments(named, [])


def text_of(strings: bytes) -> str:
    """Return the string that the strings after a keyword spell."""
    whole = b"".join(PIECE.findall(strings))
    return (ESCAPE.sub(unescaped, whole) if b"\\" in whole else whole).decode(errors="replace")


def unescaped(found: re.Match[bytes]) -> bytes:
    return bytes([int(found[1], 8) & 255]) if found[1] is not None else ESCAPED.get(found[2], found[2])
