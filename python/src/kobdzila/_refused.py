"""Why bytes are refused."""
from __future__ import annotations

import enum


class Fault(enum.IntEnum):
    """Why something is refused: the faults of kobdzila.h, with its numbers."""

    MO_TOO_LARGE = 1
    MO_SHORT = 2
    MO_MAGIC = 3
    MO_REVISION = 4
    MO_BOUNDS = 5
    MO_NO_NUL = 6
    MO_BAD_TEXT = 7
    MO_FORMS = 8
    MO_ORDER = 9
    MO_CHARSET = 10
    MO_SWOLLEN = 11
    MO_DEPENDENT_TABLES = 13
    MO_DEPENDENT_SEGMENT = 14
    MO_DEPENDENT_DESCRIPTOR = 15
    MO_DEPENDENT_SEGMENT_NUMBER = 16
    MO_DEPENDENT_TEXT = 17
    MO_DEPENDENT_OPEN_TEXT = 18
    MO_DEPENDENT_SWOLLEN = 19
    MO_NO_CHARACTER = 20
    PO_TOO_LARGE = 101
    PO_NOT_UTF8 = 102
    PO_BAD_ESCAPE = 103
    PO_OPEN_STRING = 104
    PO_BAD_WORD = 105
    PO_BAD_TEXT = 106
    PO_BAD_ORDER = 107
    PO_BAD_INDEX = 108
    PO_DUPLICATE = 109
    PO_CHARSET = 110
    PO_SYSTEM_DEPENDENT = 111
    PO_NO_RULE = 112
    PO_BAD_RULE = 113
    PO_FORM_COUNT = 114
    PO_PLURAL_RANGE = 115
    PO_FORMAT_MISMATCH = 116
    PO_NEWLINE_MISMATCH = 117
    PO_NO_CHARACTER = 119
    PO_NOT_READ_BACK = 120
    BAD_NAME = 202
    VERSIONS_SPENT = 204


class Refused(ValueError):
    """An MO file, a PO text or a load into a Store was refused.

    `fault` is the reason, `line` the line of a PO text (0 if the fault has no line), and `text` a short description.

    >>> from kobdzila import Catalogue, Refused
    >>> try:
    ...     Catalogue.from_po(b'msgid "basket"\\nmsgstr "pan\\\\y"\\n')
    ... except Refused as refused:
    ...     print(refused, refused.fault.name)
    line 2: bad escape PO_BAD_ESCAPE
    """

    fault: Fault
    line: int
    text: str

    def __init__(self, fault: int, line: int, text: str) -> None:
        super().__init__(fault, line, text)
        self.fault, self.line, self.text = Fault(fault), line, text

    def __str__(self) -> str:
        return f"line {self.line}: {self.text}" if self.line else self.text
