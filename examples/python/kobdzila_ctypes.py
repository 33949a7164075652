"""Message catalogues from libkobdzila: a class with the interface of gettext.NullTranslations.

    import kobdzila_ctypes
    french = kobdzila_ctypes.Translations("fr.mo")
    print(french.ngettext("file", "files", 2))

A file that is refused raises Refused, which names the fault. The package kobdzila (docs/guide/python.md) does more, and
faster; this module needs nothing but the shared library.
"""
import ctypes
import gettext
import os
from ctypes import POINTER, Structure, byref, c_char_p, c_int, c_size_t, c_uint, c_ulonglong, c_void_p

LIBRARY = os.environ.get("LIBKOBDZILA", "libkobdzila.so.0")


class _Refusal(Structure):
    _fields_ = [("fault", c_int), ("line", c_uint)]


class _Text(Structure):
    _fields_ = [("at", c_void_p), ("len", c_size_t)]

    def text(self):
        return None if self.at is None else ctypes.string_at(self.at, self.len).decode()


class _Entry(Structure):
    _fields_ = [("context", _Text), ("msgid", _Text), ("plural", _Text), ("forms", c_size_t)]


def _declared(name, result, *arguments):
    function = getattr(_library, name)
    function.restype, function.argtypes = result, arguments
    return function


_library = ctypes.CDLL(LIBRARY)
_version = _declared("kob_version", c_char_p)
_open_mo = _declared("kob_open_mo", c_void_p, c_char_p, c_size_t, POINTER(_Refusal))
_open_po = _declared("kob_open_po", c_void_p, c_char_p, c_size_t, c_uint, POINTER(_Refusal))
_release = _declared("kob_release", None, c_void_p)
_fault_text = _declared("kob_fault_text", c_char_p, c_int)
_find = _declared("kob_find", _Text, c_void_p, _Text, _Text, POINTER(c_ulonglong))
_count = _declared("kob_count", c_size_t, c_void_p)
_entry_at = _declared("kob_entry_at", c_int, c_void_p, c_size_t, POINTER(_Entry))
_form_at = _declared("kob_form_at", _Text, c_void_p, c_size_t, c_size_t)
_mo_file = _declared("kob_mo_file", _Text, c_void_p)

CHECKED, USE_FUZZY = 1, 2
__version__ = _version().decode()  # of the library


class Refused(ValueError):
    """Why bytes are refused: `fault` is the number in kobdzila.h, `line` the line of a PO text, or 0."""

    def __init__(self, refusal):
        text = _fault_text(refusal.fault).decode()
        super().__init__(f"line {refusal.line}: {text}" if refusal.line else text)
        self.fault, self.line = refusal.fault, refusal.line


def _texts(string):
    raw = string.encode("utf-8", "surrogatepass")
    return _Text(ctypes.cast(c_char_p(raw), c_void_p), len(raw)), raw


class Translations(gettext.NullTranslations):
    """The catalogue of an MO file, or of a PO text."""

    def __init__(self, file, po=False, options=0):
        super().__init__()
        if isinstance(file, (str, os.PathLike)):
            with open(file, "rb") as opened:
                data = opened.read()
        else:
            data = file if isinstance(file, bytes) else file.read()
        refusal = _Refusal()
        if po:
            self._catalogue = _open_po(data, len(data), options, byref(refusal))
        else:
            self._catalogue = _open_mo(data, len(data), byref(refusal))
        if not self._catalogue:
            raise Refused(refusal)
        self._charset = "utf-8"
        self._known = {}  # what was found: a call through ctypes takes microseconds
        for line in (self._found(None, "", None) or "").splitlines():
            name, colon, value = line.partition(":")
            if colon:
                self._info[name.strip().lower()] = value.strip()

    def __del__(self):
        if getattr(self, "_catalogue", None):
            _release(self._catalogue)
            self._catalogue = None

    def _found(self, context, msgid, n):
        id_text, _held = _texts(msgid)
        context_text, _held_too = _texts(context) if context is not None else (_Text(None, 0), None)
        # (a negative number counts as in C: as the one of 64 bits with its bits)
        number = None if n is None else byref(c_ulonglong(n))
        return _find(self._catalogue, context_text, id_text, number).text()

    def _plain(self, context, message):
        key = message if context is None else (context, message)
        found = self._found(context, message, None)
        if found is not None:
            self._known[key] = found
        return found

    def gettext(self, message):
        found = self._known.get(message)
        if found is None:
            found = self._plain(None, message)
        return found if found is not None else super().gettext(message)

    def ngettext(self, msgid1, msgid2, n):
        found = self._found(None, msgid1, n)
        return found if found is not None else super().ngettext(msgid1, msgid2, n)

    def pgettext(self, context, message):
        found = self._known.get((context, message))
        if found is None:
            found = self._plain(context, message)
        return found if found is not None else super().pgettext(context, message)

    def npgettext(self, context, msgid1, msgid2, n):
        found = self._found(context, msgid1, n)
        return found if found is not None else super().npgettext(context, msgid1, msgid2, n)

    def entries(self):
        """Each entry: its context or None, msgid, plural or None, and its forms."""
        entry = _Entry()
        for index in range(_count(self._catalogue)):
            _entry_at(self._catalogue, index, byref(entry))
            forms = [_form_at(self._catalogue, index, k).text() for k in range(entry.forms)]
            yield entry.context.text(), entry.msgid.text(), entry.plural.text(), forms

    def mo_file(self):
        """The bytes of the catalogue's MO file."""
        file = _mo_file(self._catalogue)
        return ctypes.string_at(file.at, file.len)
