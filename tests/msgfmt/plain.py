#!/usr/bin/env python3
"""A plain reading of PO texts, and the MO file that a text compiles to. It is slow, and written from the rules alone,
so that bin/msgfmt can be compared with it (plain_compare.py).

    tests/msgfmt/plain.py [-f] < PO > MO          as bin/msgfmt [-f] -o - -, but for the command line

A text passes four steps, each of them whole before the next begins: its bytes are UTF-8; its tokens are read; its
entries are read; the entries are compiled. The first fault of the first step that has one refuses the text.
"""
import re
import struct
import sys
from collections import namedtuple

MOST_BYTES = 67_108_864
BYTE_ORDER_MARK = b"\xef\xbb\xbf"
KEYWORDS = (b"msgctxt", b"msgid", b"msgid_plural", b"msgstr")
ESCAPES = {b"n": 10, b"t": 9, b"b": 8, b"r": 13, b"f": 12, b"v": 11, b"a": 7, b"\\": 92, b'"': 34}
CHARSETS = (b"UTF-8", b"UTF8", b"US-ASCII", b"ASCII", b"CHARSET")

SPACE = re.compile(rb"[ \t\r\n\v\f]+")
COMMENT = re.compile(rb"#[^\n]*")
WORD = re.compile(rb"[A-Za-z0-9_]+")
NUMBER = re.compile(rb"[0-9]{1,9}")
OCTAL = re.compile(rb"[0-7]{1,3}")

# kind: a keyword, "[", "]", "number" or "string"; value: of a number or a string; comments: those between the token
# before it and this one
Token = namedtuple("Token", "line kind value comments")
Entry = namedtuple("Entry", "line is_fuzzy context id plural forms")


class Fault(Exception):
    """Why a text is refused, and the line that is named."""

    def __init__(self, line, why):
        super().__init__(f"-:{line}: {why}")
        self.line = line
        self.why = why


def compile_po(text, use_fuzzy):
    """The MO file of a PO text; a Fault refuses it."""
    check_text(text)
    entries = read_entries(read_tokens(text.removeprefix(BYTE_ORDER_MARK)))
    check_keys(entries)
    kept = [entry for entry in entries if is_kept(entry, use_fuzzy)]
    check_charset(kept)
    return mo_file({original(entry): b"\0".join(entry.forms) for entry in sorted(kept, key=key)})


# --- the whole text ---------------------------------------------------------------------------------------------


def check_text(text):
    if len(text) > MOST_BYTES:
        raise Fault(0, "file too large")
    try:
        text.decode("utf-8")
    except UnicodeDecodeError as error:
        raise Fault(line_of(text, error.start), "not UTF-8") from None


def line_of(text, place):
    return 1 + text.count(b"\n", 0, place)


# --- tokens -----------------------------------------------------------------------------------------------------


def read_tokens(text):
    tokens, comments, place = [], [], 0
    while place < len(text):
        if found := SPACE.match(text, place):
            place = found.end()
        elif found := COMMENT.match(text, place):
            comments.append(found.group())
            place = found.end()
        else:
            line = line_of(text, place)
            kind, value, place = read_token(text, place, line)
            tokens.append(Token(line, kind, value, comments))
            comments = []
    return tokens


def read_token(text, place, line):
    """The kind and value of the token at this place, and the place behind it."""
    if text[place : place + 1] == b'"':
        value, end = read_string(text, place + 1, line)
        return "string", value, end
    if text[place : place + 1] in (b"[", b"]"):
        return chr(text[place]), None, place + 1
    found = WORD.match(text, place)
    if found and found.group() in KEYWORDS:
        return found.group().decode(), None, found.end()
    if found and NUMBER.fullmatch(found.group()):
        return "number", int(found.group()), found.end()
    raise Fault(line, "unknown word")


def read_string(text, place, line):
    """The bytes that a string says, whose opening quote stands before this place; and the place behind the string."""
    said = bytearray()
    while text[place : place + 1] != b'"':
        if ends_line(text, place):
            raise Fault(line, "string not closed")
        if text[place : place + 1] == b"\\":
            byte, place = read_escape(text, place + 1, line)
        else:
            byte, place = text[place], place + 1
        said.append(byte)
    if b"\0" in said or not is_utf8(said):
        raise Fault(line, "bad text")
    return bytes(said), place + 1


def read_escape(text, place, line):
    """The byte that an escape says, whose backslash stands before this place; and the place behind the escape."""
    if ends_line(text, place):
        raise Fault(line, "string not closed")
    letter = text[place : place + 1]
    if letter in ESCAPES:
        return ESCAPES[letter], place + 1
    digits = OCTAL.match(text, place)
    if digits and int(digits.group(), 8) <= 255:
        return int(digits.group(), 8), digits.end()
    raise Fault(line, "bad escape")


def ends_line(text, place):
    return text[place : place + 1] in (b"\n", b"")


def is_utf8(said):
    try:
        said.decode("utf-8")
    except UnicodeDecodeError:
        return False
    return True


# --- entries ----------------------------------------------------------------------------------------------------


def read_entries(tokens):
    reader, entries = EntryReader(tokens), []
    while reader.place < len(tokens):
        entries.append(reader.entry())
    return entries


class EntryReader:
    """Goes over tokens by the grammar; place is that of the next token."""

    def __init__(self, tokens):
        self.tokens = tokens
        self.place = 0
        self.behind_opening = 0  # the place behind the last keyword that opened an entry

    def entry(self):
        """['msgctxt' strings] 'msgid' strings, then a plain or a plural part"""
        line = self.tokens[self.place].line
        is_fuzzy = has_flag(self.comments_up_to_here(), b"fuzzy")
        context = self.key_text("msgctxt") if self.is_next("msgctxt") else None
        msgid = self.key_text("msgid")
        plural, forms = self.plural_part() if self.is_next("msgid_plural") else self.plain_part()
        return Entry(line, is_fuzzy, context, msgid, plural, forms)

    def plain_part(self):
        """'msgstr' strings"""
        self.take("msgstr")
        return None, [self.strings()]

    def plural_part(self):
        """'msgid_plural' strings, then once or more 'msgstr' '[' number ']' strings"""
        self.take("msgid_plural")
        plural, forms = self.strings(), []
        while not forms or self.is_next("msgstr"):
            forms.append(self.numbered_form(len(forms)))
        return plural, forms

    def numbered_form(self, wanted):
        self.take("msgstr")
        self.take("[")
        number = self.take("number")
        if number.value != wanted:
            raise Fault(number.line, "wrong plural index")
        self.take("]")
        return self.strings()

    def key_text(self, keyword):
        """A context or a msgid, which hold no byte 4: in an MO file that byte stands between the two."""
        line = self.take(keyword).line
        text = self.strings()
        if b"\4" in text:
            raise Fault(line, "bad text")
        return text

    def strings(self):
        """One string or more, joined."""
        text = self.take("string").value
        while self.is_next("string"):
            text += self.take("string").value
        return text

    def is_next(self, kind):
        return self.place < len(self.tokens) and self.tokens[self.place].kind == kind

    def take(self, kind):
        if not self.is_next(kind):
            here = min(self.place, len(self.tokens) - 1)  # where the text ends too early, its last token
            raise Fault(self.tokens[here].line, "out of order")
        self.place += 1
        return self.tokens[self.place - 1]

    def comments_up_to_here(self):
        """The comments behind the keyword that opened the entry before, and before the next token, which opens one."""
        tokens = self.tokens[self.behind_opening : self.place + 1]
        self.behind_opening = self.place + 1
        return [comment for token in tokens for comment in token.comments]


def has_flag(comments, flag):
    """The flag stands in a '#,' comment behind the last '#~' one."""
    has = False
    for comment in comments:
        if comment.startswith(b"#~"):
            has = False
        elif comment.startswith(b"#,"):
            has = has or flag in re.split(rb"[, \t\r\v\f]+", comment[2:])
    return has


# --- compiling --------------------------------------------------------------------------------------------------


def key(entry):
    return entry.id if entry.context is None else entry.context + b"\4" + entry.id


def original(entry):
    return key(entry) if entry.plural is None else key(entry) + b"\0" + entry.plural


def is_header(entry):
    return entry.context is None and entry.id == b""


def is_kept(entry, use_fuzzy):
    is_translated = entry.forms[0] != b""
    return is_translated and (use_fuzzy or not entry.is_fuzzy or is_header(entry))


def check_keys(entries):
    """No two entries have one key, kept or not."""
    keys = set()
    for entry in entries:
        if key(entry) in keys:
            raise Fault(entry.line, "duplicate message")
        keys.add(key(entry))


def check_charset(kept):
    for entry in filter(is_header, kept):
        charset = re.search(rb"charset=([^ \t\n]*)", entry.forms[0])
        if charset and charset.group(1).upper() not in CHARSETS:
            raise Fault(entry.line, "unsupported charset")


def mo_file(messages):
    """The MO file of these translations by their originals, which are in order, without a hash table."""
    texts = [*messages.keys(), *messages.values()]
    translations = 28 + 8 * len(messages)
    behind_tables = 28 + 16 * len(messages)
    words, offset = [0x950412DE, 0, len(messages), 28, translations, 0, behind_tables], behind_tables
    for text in texts:
        words += [len(text), offset]
        offset += len(text) + 1
    return struct.pack(f"<{len(words)}I", *words) + b"".join(text + b"\0" for text in texts)


def main():
    try:
        sys.stdout.buffer.write(compile_po(sys.stdin.buffer.read(), "-f" in sys.argv[1:]))
    except Fault as fault:
        sys.exit(str(fault))


if __name__ == "__main__":
    main()
