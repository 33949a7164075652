"""Versions of a log: a number and its epoch."""
from __future__ import annotations

import re
import secrets

EPOCH = re.compile(r"[0-9a-f]{16}", re.ASCII)
TOKEN = re.compile(rf"(?:({EPOCH.pattern})\.)?([0-9]{{1,18}})", re.ASCII)


class Version(int):
    """A version of a log: an int, with the `epoch` of the log that it belongs to.

    An epoch is 16 hexadecimal digits. A log gets its first one from `init`, and another one from each `restore`.
    Numbers within one epoch never decrease; numbers of two epochs can't be compared. `token` has both, such as
    "3f9a1c7e5b2d4860.9", for cookies and command lines.
    """

    epoch: str

    def __new__(cls, number: int = 0, epoch: str = "") -> Version:
        made = super().__new__(cls, number)
        made.epoch = epoch
        return made

    @property
    def token(self) -> str:
        """The epoch, a dot and the number; the number alone if the epoch isn't known."""
        return f"{self.epoch}.{int(self)}" if self.epoch else str(int(self))

    @classmethod
    def parse(cls, text: str) -> Version:
        """Return the version of a token, or of a number alone, with the epoch "". ValueError if it is neither."""
        found = TOKEN.fullmatch(text.strip())
        if found is None:
            raise ValueError(f"not a version: {text!r}")
        return cls(int(found[2]), found[1] or "")


def version_of(value: int | str) -> Version:
    """Return a Version from a token or a number; a Version is returned as it is."""
    if isinstance(value, Version):
        return value
    return Version.parse(value) if isinstance(value, str) else Version(value)


def new_epoch() -> str:
    return secrets.token_hex(8)


def escaped(text: str) -> str:
    """Return a string from outside on one line: unprintable characters and backslashes are escaped as in Python."""
    return "".join(it if it.isprintable() and it != "\\" else it.encode("unicode_escape").decode() for it in text)
