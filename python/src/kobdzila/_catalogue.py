"""Catalogues: the type of the extension module with the methods that needn't be fast, and the class of the standard
gettext."""
from __future__ import annotations

import copyreg
import gettext as python_gettext
import io
import operator
import os
import re
import struct
import sys
from collections import namedtuple
from collections.abc import ItemsView, MutableMapping
from functools import cached_property, lru_cache

from . import _kobdzila
from ._refused import Fault, Refused

TYPE_CHECKING = False  # (the module typing takes longer to import than all of this one)
if TYPE_CHECKING:
    from collections.abc import Callable, Iterator
    from typing import Any, NamedTuple

    from typing_extensions import Self

    AnyMapping = MutableMapping[Any, Any]
    AnyItems = ItemsView[Any, Any]

    class EntryFields(NamedTuple):
        context: str | None
        msgid: str
        plural: str | None
        forms: tuple[str, ...]
else:
    AnyMapping = MutableMapping
    AnyItems = ItemsView
    EntryFields = namedtuple("EntryFields", "context msgid plural forms")

# Files that Python's reader may read: later minor revisions, other charsets, several plurals, and the static strings of
# a file whose system-dependent part is damaged.
READ_BY_PYTHON = {Fault.MO_REVISION, Fault.MO_BAD_TEXT, Fault.MO_FORMS, Fault.MO_CHARSET}
READ_BY_PYTHON |= {it for it in Fault if it.name.startswith("MO_DEPENDENT_")} | {Fault.MO_NO_CHARACTER}
GERMANIC = "n != 1"  # in place of a plural rule that is broken
INDEX_IS_INT = sys.version_info >= (3, 13)  # whether an object with `__index__` is an int to the standard gettext
OWN_FRAMES = ("kobdzila", "gettext")  # a warning names the caller outside of them
PRIVATE: Any = python_gettext  # what the module has besides its documented names
CONTEXT = python_gettext.GNUTranslations.CONTEXT  # the key of a message in a context
TEXTS_OF_PYTHON = {Fault.MO_MAGIC: "Bad magic number", Fault.MO_BOUNDS: "File is corrupt"}


class Entry(EntryFields):
    """An entry of a catalogue: `context`, `msgid`, `plural` and `forms`, a tuple of str. `context` and `plural` are
    None if the entry has none.
    """

    __slots__ = ()


class Catalogue(_kobdzila.Catalogue):
    """A message catalogue. It never changes once it is open.

    >>> from kobdzila import Catalogue
    >>> french = Catalogue.from_po('msgid "basket"\\nmsgstr "panier"\\n'.encode())
    >>> french.gettext("basket")
    'panier'
    >>> french.gettext("cart")
    'cart'
    """

    def __init__(self) -> None:
        """Make an empty catalogue; open, from_po and from_mo make the others."""

    def entries(self) -> Iterator[Entry]:
        """Yield each entry, in ascending order of the keys.

        >>> for entry in Catalogue.from_po(b'msgid "hi"\\nmsgstr "salut"\\n').entries():
        ...     print(entry)
        Entry(context=None, msgid='hi', plural=None, forms=('salut',))
        """
        return (Entry(*self._entry(index)) for index in range(self.count))

    def forms(self, msgid: str, context: str | None = None) -> tuple[str, ...]:
        """Return all forms of a message: one if it has no plural, and none if it isn't in the catalogue.

        >>> Catalogue.from_po(b'msgid "hi"\\nmsgstr "salut"\\n').forms("hi")
        ('salut',)
        """
        index = self._index(msgid if context is None else f"{context}\x04{msgid}")
        return self._entry(index)[3] if index >= 0 else ()

    def info(self) -> dict[str, str]:
        """Return the fields of the header, with their names in lower case as keys."""
        return self._info

    def charset(self) -> str | None:
        """Return the charset that the header names, or None."""
        return self._charset

    def __copy__(self) -> Self:
        other = self._share()
        set_state(other, state_of(self))
        return other

    def __deepcopy__(self, memo: dict[int, Any]) -> Self:
        import copy

        other = memo[id(self)] = self._share()  # (the catalogue itself never changes)
        if type(self)._fallback is Catalogue._fallback:
            other._fallback = copy.deepcopy(self._fallback, memo)
        set_state(other, copy.deepcopy(state_of(self), memo))
        return other

    @property
    def plural(self) -> Callable[[int], int]:
        """The plural rule: the number of the form for `n`.

        >>> Catalogue.from_po(b'msgid "hi"\\nmsgstr "salut"\\n').plural(2)
        1
        """
        return self._rule

    @cached_property
    def _rule(self) -> Callable[[int], int]:
        return rule_of(self._info)

    @cached_property
    def _info(self) -> dict[str, str]:
        return fields_of("".join(self.forms("")[:1]))

    @cached_property
    def _charset(self) -> str | None:
        return charset_in(self._info)

    def _other_number(self, context: str | None, key: str | None, msgid1: str, msgid2: str, n: Any) -> str:
        """Answer ngettext and npgettext for an `n` that isn't an int from 0 to 2**64 - 1, as the standard module does.

        `key` is the text of msgid1, or None if no text is equal to it.
        """
        number = self.plural(n)  # (asked first: it may refuse `n`)
        forms = () if key is None else self.forms(key, context)
        if not forms and self._fallback is not None:
            words = (msgid1, msgid2, n) if context is None else (context, msgid1, msgid2, n)
            answer: str = getattr(self._fallback, "ngettext" if context is None else "npgettext")(*words)
            return answer
        if forms:
            return forms[number if 0 <= number < len(forms) else 0]
        return msgid1 if n == 1 else msgid2


class Texts(AnyMapping):
    """The translations of a catalogue as the standard class has them in its attribute `_catalog`: by message, or by
    message and form number if the message has a plural. A context and byte 4 precede the message.

    They are made when they are read. A change puts them into a dict, which the catalogue uses from then on.
    """

    __slots__ = ("_owner", "_dict")

    def __init__(self, owner: GNUTranslations) -> None:
        self._owner, self._dict = owner, None  # type: tuple[GNUTranslations, dict[Any, Any] | None]

    def copy(self) -> dict[Any, Any]:
        """Return the translations as a dict."""
        return dict(self.items()) if self._dict is None else self._dict.copy()

    def __reduce__(self) -> tuple[Any, ...]:
        return dict, (self.copy(),)  # (a copy of it doesn't belong to the catalogue)

    def __repr__(self) -> str:
        return repr(self.copy())

    def __or__(self, other: Any) -> Any:
        return self.copy() | other if isinstance(other, (dict, Texts)) else NotImplemented

    def __ror__(self, other: Any) -> Any:
        return other | self.copy() if isinstance(other, dict) else NotImplemented

    def __ior__(self, other: Any) -> Any:
        texts = self._changed()
        texts |= other
        return texts

    def __getitem__(self, key: Any) -> Any:
        if self._dict is not None:
            return self._dict[key]
        message, number = key if isinstance(key, tuple) and len(key) == 2 else (key, None)
        index = self._owner._index(message)
        if index >= 0:
            _, _, plural, forms = self._owner._entry(index)
            if plural is None and number is None:
                return forms[0]
            if plural is not None and isinstance(number, int) and 0 <= number < len(forms):
                return forms[number]
        raise KeyError(key)

    def __setitem__(self, key: Any, text: Any) -> None:
        self._changed()[key] = text

    def __delitem__(self, key: Any) -> None:
        del self._changed()[key]

    def __iter__(self) -> Iterator[Any]:
        return iter(self._dict) if self._dict is not None else (key for key, _ in self._pairs())

    def __len__(self) -> int:
        return len(self._dict) if self._dict is not None else sum(1 for _ in self._pairs())

    def __bool__(self) -> bool:
        return bool(self._dict) if self._dict is not None else self._owner.count > 0

    def items(self) -> Any:
        return self._dict.items() if self._dict is not None else ItemsOfTexts(self)

    def _pairs(self) -> Iterator[tuple[Any, Any]]:
        for context, msgid, plural, forms in self._owner.entries():
            key = msgid if context is None else f"{context}\x04{msgid}"
            if plural is None:
                yield key, forms[0]
            else:
                yield from (((key, number), form) for number, form in enumerate(forms))

    def _changed(self) -> dict[Any, Any]:
        if self._dict is None:
            self._dict = self.copy()
            self._owner._catalog = self._dict
        return self._dict


class ItemsOfTexts(AnyItems):
    """The items, read one after another."""

    _mapping: Texts

    def __iter__(self) -> Iterator[tuple[Any, Any]]:
        return self._mapping._pairs()


class GNUTranslations(Catalogue, python_gettext.GNUTranslations):
    """The catalogue of an MO file: a subclass of gettext.GNUTranslations, with its interface.

    `fp` is a file open for reading bytes, the path of a file, or the bytes themselves. A malformed file raises OSError
    with the reason. Files that only Python can read (in a charset other than UTF-8, or with system-dependent strings)
    are read by gettext.GNUTranslations, whose strings are then used.

    >>> import kobdzila
    >>> file = kobdzila.Catalogue.from_po(b'msgid "basket"\\nmsgstr "panier"\\n').mo_file()
    >>> kobdzila.GNUTranslations(file).gettext("basket")
    'panier'
    """

    _output_charset = None  # (which lgettext of Python 3.10 reads)

    # what answers once somebody has set or changed `_catalog`
    _dict_gettext = python_gettext.GNUTranslations.gettext
    _dict_pgettext = python_gettext.GNUTranslations.pgettext
    _dict_ngettext = python_gettext.GNUTranslations.ngettext
    _dict_npgettext = python_gettext.GNUTranslations.npgettext

    def __init__(self, fp: Any = None) -> None:
        if type(self)._fallback is not Catalogue._fallback:
            self._fallback = None
        if fp is None:
            return
        if isinstance(fp, (str, os.PathLike)):
            with open(fp, "rb") as opened:
                self._parse(opened)
        else:
            self._parse(io.BytesIO(fp) if isinstance(fp, (bytes, bytearray, memoryview)) else fp)

    @property
    def _catalog(self) -> Any:
        """The translations as the standard class keeps them: a mapping, for programs that read or change this
        attribute."""
        return self.__dict__["_texts"] if self._is_by_dict else Texts(self)

    @_catalog.setter
    def _catalog(self, texts: Any) -> None:
        self.__dict__["_texts"] = texts
        self._is_by_dict = True

    @property
    def plural(self) -> Callable[[int], int]:
        """The plural rule: the number of the form for `n`. One that is set is used for all numbers."""
        return self._rule

    @plural.setter
    def plural(self, rule: Callable[[int], int]) -> None:
        self.__dict__["_rule"] = rule
        if not self._is_by_dict:
            self._catalog = self._catalog.copy()

    def _parse(self, fp: Any) -> None:
        data, name = fp.read(), getattr(fp, "name", "")
        for known in ("_texts", "_info", "_charset", "_rule"):  # (of a file that was opened before)
            self.__dict__.pop(known, None)
        try:
            self._read_mo(data)
        except Refused as refused:
            if refused.fault not in READ_BY_PYTHON:
                raise OSError(0, TEXTS_OF_PYTHON.get(refused.fault, refused.text), name) from refused
            self._read_by_python(data, name, refused)
        else:
            self._keep_header(header_in(data))
            self._keep_overridden()

    def _keep_overridden(self) -> None:
        """Use what this class has in place of the standard one's names, which the look-ups in C don't ask."""
        class_ = type(self)
        is_plural = class_.plural is not GNUTranslations.plural
        if is_plural or class_.CONTEXT != CONTEXT or class_._fallback is not Catalogue._fallback:
            self._catalog = self._catalog.copy()
        if is_plural:
            self.plural = self._rule  # (as the standard class sets it, whatever it is)

    def _keep_header(self, header: bytes) -> None:
        """Keep the header of a file in another charset as the file has it; the library's says that it is UTF-8."""
        named = re.search(rb"charset=([^ \t\n]+)", header)
        if named and named[1].upper() not in (b"UTF-8", b"UTF8"):
            self._charset = named[1].decode("ascii", "replace")
            try:
                self._info = fields_of(header.decode(self._charset))
            except (LookupError, UnicodeDecodeError):  # (a charset that Python doesn't have)
                del self._charset

    def _read_by_python(self, data: bytes, name: str, refused: Refused) -> None:
        file = io.BytesIO(data)
        setattr(file, "name", name)
        try:
            reader = python_gettext.GNUTranslations(file)
        except (OSError, MemoryError):
            raise
        except Exception as fault:
            raise OSError(0, refused.text, name) from fault
        self._catalog = vars(reader)["_catalog"]
        self._info, self._charset = reader.info(), reader.charset()
        self.plural = with_own_warning(vars(reader)["plural"])


def state_of(it: Catalogue) -> Any:
    """Return the state of an object that the module copy copies: what its class's `__getstate__` says, or else its
    attributes, with those of `__slots__` as a second part."""
    chosen = getattr(type(it), "__getstate__", None)
    if chosen is not getattr(object, "__getstate__", None):  # (which came with Python 3.11)
        return chosen(it)  # type: ignore[misc]
    names = getattr(copyreg, "_slotnames")(type(it))
    slots = {name: getattr(it, name) for name in names if hasattr(it, name)}
    return (it.__dict__, slots) if slots else it.__dict__


def set_state(it: Catalogue, state: Any) -> None:
    """Set the state of a new object, as the module copy does."""
    chosen = getattr(it, "__setstate__", None)
    if chosen:
        chosen(state)
        return
    attributes, slots = state if isinstance(state, tuple) and len(state) == 2 else (state, None)
    it.__dict__.update(attributes or {})
    for name, value in (slots or {}).items():
        setattr(it, name, value)


def header_in(data: bytes) -> bytes:
    """Return the header of an MO file: the translation of its first message, if the original is empty."""
    order = "<" if data[:4] == b"\xde\x12\x04\x95" else ">"
    count, originals, translations = struct.unpack_from(f"{order}3I", data, 8)
    if not count or struct.unpack_from(f"{order}I", data, originals)[0]:
        return b""
    size, at = struct.unpack_from(f"{order}2I", data, translations)
    return data[at:at + size]


def fields_of(header: str) -> dict[str, str]:
    """Return the fields of a header as the standard gettext parses them."""
    fields: dict[str, str] = {}
    last = None
    for line in map(str.strip, header.split("\n")):
        if line.startswith("#-#-#-#-#") and line.endswith("#-#-#-#-#"):
            continue
        name, colon, value = line.partition(":")
        if colon:
            last = name.strip().lower()
            fields[last] = value.strip()
        elif line and last:
            fields[last] += "\n" + line
    return fields


def charset_in(fields: dict[str, str]) -> str | None:
    """Return the charset that a header's fields name, or None."""
    _, found, charset = first_line(fields.get("content-type", "")).partition("charset=")
    return charset if found else None


def rule_of(fields: dict[str, str]) -> Callable[[int], int]:
    """Return the plural rule of a header's fields. A rule that is broken or missing is `n != 1`. As in the standard
    gettext, one that is missing takes an `n` of any type."""
    _, found, rule = first_line(fields.get("plural-forms", "")).partition("plural=")
    return _rule(rule.partition(";")[0]) if found else germanic


def germanic(n: object) -> int:
    return int(n != 1)


@lru_cache(64)
def _rule(text: str) -> Callable[[int], int]:
    try:
        return with_own_warning(PRIVATE.c2py(text))
    except ValueError:
        return with_own_warning(PRIVATE.c2py(GERMANIC))


def first_line(text: str) -> str:
    return text.partition("\n")[0]


def as_int(n: Any) -> Any:
    """Return `n`, a number that isn't an int, as an int, with the warning of the standard gettext. TypeError for
    anything else."""
    try:
        round(n)
    except TypeError:
        raise TypeError(f"Plural value must be an integer, got {type(n).__name__}") from None
    if INDEX_IS_INT and hasattr(n, "__index__"):
        return operator.index(n)
    warn_of(n)
    return n


def warn_of(n: object) -> None:
    """Warn that `n` isn't an int. The warning names the line that called this package."""
    import warnings

    frame, level = sys._getframe(1), 2
    while frame.f_back is not None and frame.f_globals.get("__name__", "gettext").partition(".")[0] in OWN_FRAMES:
        frame, level = frame.f_back, level + 1
    warnings.warn(f"Plural value must be an integer, got {type(n).__name__}", DeprecationWarning, level)


def with_own_warning(rule: Callable[[int], int]) -> Callable[[int], int]:
    """Return a rule that gettext.c2py made. Its warnings name the line that called this package."""
    names: dict[str, Any] = getattr(rule, "__globals__")
    if names is not vars(python_gettext):
        names["_as_int"] = as_int
    return rule
