#!/usr/bin/env python3
"""PO texts that bin/msgfmt and tests/msgfmt/plain.py are compared on: worked ones, the fronts of two, and random ones."""
import random

A = b'msgid "a"\nmsgstr "x"\n'
B = b'msgid "b"\nmsgstr "y"\n'
MANY = b'msgid "a"\nmsgid_plural "b"\n'
LIMIT = 67_108_864


def said(string):
    """An entry whose translation is this string, as it is written."""
    return b'msgid "a"\nmsgstr ' + string + b"\n"


def header(string):
    return b'msgid ""\nmsgstr ' + string + b"\n"


def charset(name):
    return header(b'"Content-Type: text/plain; charset=' + name + b'\\n"')


# Each text, and what its MO file has: translations by originals.
COMPILED = [
    (b"", {}),
    (b" \t\r\n\v\f", {}),
    (b"# a comment alone", {}),
    (b"\xef\xbb\xbf", {}),
    (b" " * LIMIT, {}),
    (A, {b"a": b"x"}),
    (A[:-1], {b"a": b"x"}),
    (B + A, {b"a": b"x", b"b": b"y"}),
    (b'msgid"a"msgstr"x"', {b"a": b"x"}),
    (b'msgid "a"\r\nmsgstr "x"\r\n', {b"a": b"x"}),
    (b'msgid\v"a"\fmsgstr\t"x"', {b"a": b"x"}),
    (b"\xef\xbb\xbf" + A, {b"a": b"x"}),
    (b'msgid ""\n"a" ""\n# c\n"b"\nmsgstr "x"\n"y"', {b"ab": b"xy"}),
    # escapes and bytes of strings
    (said(rb'"\n\t\b\r\f\v\a\\\""'), {b"a": b'\n\t\b\r\f\v\a\\"'}),
    (said(rb'"\1\12\123\1234"'), {b"a": b"\1\nSS4"}),
    (said(rb'"\18\79"'), {b"a": b"\0018\0079"}),
    (said(rb'"\303\251"'), {b"a": b"\xc3\xa9"}),
    (said('"é"'.encode()), {b"a": b"\xc3\xa9"}),
    (said(rb'"\\n"'), {b"a": rb"\n"}),
    (said(b'"\t\r\v\x01\x7f"'), {b"a": b"\t\r\v\x01\x7f"}),
    (said(b'"# no comment, [0] msgid"'), {b"a": b"# no comment, [0] msgid"}),
    (said('"ქართული 日本語 😀"'.encode()), {b"a": "ქართული 日本語 😀".encode()}),
    (b'msgid "\xf4\x8f\xbf\xbf"\nmsgstr "\xed\x9f\xbf"', {b"\xf4\x8f\xbf\xbf": b"\xed\x9f\xbf"}),
    # comments and flags
    (b"# c\n#. c\n#: c\n#| c\n#= fuzzy\n#\n" + A, {b"a": b"x"}),
    (b"# \"msgid\" \\q \0\n" + A + b"#", {b"a": b"x"}),
    (b'msgid # c\n"a" # c\nmsgstr "x" # c', {b"a": b"x"}),
    (b"# a comment goes on behind CR\r@\n" + A, {b"a": b"x"}),
    (b"#, fuzzy\n" + A, {}),
    (b"#,fuzzy\n" + A, {}),
    (b"#, c-format,fuzzy\n" + A, {}),
    (b"#,\t c-format \v fuzzy\r\n" + A, {}),
    (b"#, fuzzy\n#, c-format\n" + A, {}),
    (b"#, Fuzzy, fuzzy-not, notfuzzy\n" + A, {b"a": b"x"}),
    (b"#, fuzzy;\n" + A, {b"a": b"x"}),
    (b"# , fuzzy\n" + A, {b"a": b"x"}),
    (b"#. #, fuzzy\n" + A, {b"a": b"x"}),
    (b"#, fuzzy\n" + A + B, {b"b": b"y"}),
    (b'msgid "a"\n#, fuzzy\nmsgstr "x"\n' + B, {b"a": b"x"}),
    (b'msgctxt "k"\n#, fuzzy\n' + A + B, {b"k\4a": b"x"}),
    (A + b"#, fuzzy", {b"a": b"x"}),
    (b'#, fuzzy\n#~ msgid "z"\n#~ msgstr "z"\n' + A, {b"a": b"x"}),
    (b"#~ @ \"\n#, fuzzy\n" + A, {}),
    (b"#, fuzzy\n#~\n#,c-format\n" + A, {b"a": b"x"}),
    (b'msgid "a"\n#, fuzzy\n#~ msgid "z"\nmsgstr "x"\n' + B, {b"a": b"x", b"b": b"y"}),
    (b"#| #~\n#, fuzzy\n# #~\n" + A, {}),
    # contexts and plurals
    (b'msgctxt "k"\n' + A + A, {b"a": b"x", b"k\4a": b"x"}),
    (b'msgctxt ""\n' + A + A, {b"\4a": b"x", b"a": b"x"}),
    (b'msgctxt "" "k"\nmsgid ""\nmsgstr "x"', {b"k\4": b"x"}),
    (b'msgid "aa"\nmsgstr "1"\n' + A + b'msgctxt "a"\n' + B, {b"a": b"x", b"a\4b": b"y", b"aa": b"1"}),
    ('msgid "é"\nmsgstr "1"\nmsgid "\\1"\nmsgstr "2"\n'.encode() + A, {b"\1": b"2", b"a": b"x", b"\xc3\xa9": b"1"}),
    (MANY + b'msgstr[0] "x"', {b"a\0b": b"x"}),
    (MANY + b'msgstr[0] "x"\nmsgstr[1] "y"\nmsgstr[2] "z"\n' + B, {b"a\0b": b"x\0y\0z", b"b": b"y"}),
    (MANY + b'msgstr [ 000 ] "x"\nmsgstr#\n[#\n000000001#\n]"y"', {b"a\0b": b"x\0y"}),
    (MANY + b'msgstr[0] "x"\nmsgstr[1] ""\nmsgstr[2] "" ""', {b"a\0b": b"x\0\0"}),
    (MANY + b"".join(b'msgstr[%d] "x"' % index for index in range(12)), {b"a\0b": b"\0".join([b"x"] * 12)}),
    (b'msgid "a"\nmsgid_plural "\\4"\nmsgstr[0] "\\4"', {b"a\0\4": b"\4"}),
    (b'msgid "a"\nmsgid_plural ""\nmsgstr[0] "x"', {b"a\0": b"x"}),
    (b'msgctxt "k"\n' + MANY + b'msgstr[0] "x"', {b"k\4a\0b": b"x"}),
    # what is left out, and headers
    (b'msgid "a"\nmsgstr ""\n' + B, {b"b": b"y"}),
    (MANY + b'msgstr[0] ""\nmsgstr[1] "x"\n', {}),
    (b"#, fuzzy\n" + header(b'"x"') + b"#, fuzzy\n" + A, {b"": b"x"}),
    (b'#, fuzzy\nmsgctxt ""\n' + header(b'"x"'), {}),
    (header(b'""') + A, {b"a": b"x"}),
    (header(b'"Charset=koi8"'), {b"": b"Charset=koi8"}),
    *(
        (charset(name), {b"": b"Content-Type: text/plain; charset=" + name + b"\n"})
        for name in (b"UTF-8", b"utf-8", b"Utf8", b"us-ascii", b"ASCII", b"CHARSET")
    ),
    (header(b'"charset=UTF-8 charset=koi8"'), {b"": b"charset=UTF-8 charset=koi8"}),
    (header(b'"charset=utf-8\\tx"'), {b"": b"charset=utf-8\tx"}),
    (header(b'"charset=" "UTF-8"'), {b"": b"charset=UTF-8"}),
    (b'msgid "a"\nmsgstr "charset=koi8"', {b"a": b"charset=koi8"}),
    (b'msgctxt ""\n' + charset(b"koi8"), {b"\4": b"Content-Type: text/plain; charset=koi8\n"}),
    (b'msgid ""\nmsgid_plural ""\nmsgstr[0] ""\nmsgstr[1] "charset=koi8"\n', {}),
    (b'msgid ""\nmsgid_plural "p"\nmsgstr[0] "x"\nmsgstr[1] "charset=koi8"\n', {b"\0p": b"x\0charset=koi8"}),
    # whole texts
    (B + A + header(rb'"Language: fr\n"'), {b"": b"Language: fr\n", b"a": b"x", b"b": b"y"}),
    (
        b'msgctxt "menu"\nmsgid "a"\nmsgstr "1"\nmsgid "a"\nmsgstr "2"\nmsgctxt ""\nmsgid "a"\nmsgstr "3"\n',
        {b"\4a": b"3", b"a": b"2", b"menu\4a": b"1"},
    ),
    (MANY + b'msgstr[0] "x"\nmsgstr[1] ""\nmsgstr[2] "z"\n', {b"a\0b": b"x\0\0z"}),
    (b'msgid "f"\nmsgid_plural ""\nmsgstr[0] "x"\nmsgid "ff"\nmsgstr "y"\n', {b"f\0": b"x", b"ff": b"y"}),
    (b"#, fuzzy\n" + header(b'"h"') + b"#, fuzzy\n" + A + b'msgid "c"\nmsgstr ""\n', {b"": b"h"}),
    (
        'msgid "a" "\\n\\t\\\\"\nmsgstr "\\001" "é"\n#~ msgid "old"\n#~ msgstr "gone"\n'.encode(),
        {b"a\n\t\\": b"\1\xc3\xa9"},
    ),
    (
        'msgid "é"\nmsgstr "1"\nmsgid "z"\nmsgstr "2"\nmsgid "ez"\nmsgstr "3"\nmsgid "e"\nmsgstr "4"\n'.encode(),
        {b"e": b"4", b"ez": b"3", b"z": b"2", b"\xc3\xa9": b"1"},
    ),
]

# Each text, the line that is named, and why it is refused.
REFUSED = [
    (b"\xff" * (LIMIT + 1), 0, "file too large"),
    (b"\xff", 1, "not UTF-8"),
    (b"\n\xff", 2, "not UTF-8"),
    (b"\n\n# \xc3", 3, "not UTF-8"),
    (b"\n\xc3\n", 2, "not UTF-8"),
    (b"@\n" + said(b'"\\q\xed\xa0\x80"'), 3, "not UTF-8"),
    (b"\n\xc0\x80", 2, "not UTF-8"),
    (b"\n\xf4\x90\x80\x80", 2, "not UTF-8"),
    (b"\xfe\xff\0m", 1, "not UTF-8"),
    (A + b"\n\xe2\x82", 4, "not UTF-8"),
    (said(b'"\xc3\\251"'), 2, "not UTF-8"),
    *(
        (b'msgid\n"' + escape + b'"', 2, "bad escape")
        for escape in (rb"\q", rb"\x41", rb"\'", rb"\?", rb"\8", rb"\9", rb"\N", rb"\ ", rb"\#")
    ),
    (b'msgid "\\400"', 1, "bad escape"),
    (b'msgid "\\777\\q"', 1, "bad escape"),
    (b'msgid "\\\r\n', 1, "bad escape"),
    ('msgid "\\é"'.encode(), 1, "bad escape"),
    (b'msgid "\\q', 1, "bad escape"),
    (b'msgid "\\0\\q"', 1, "bad escape"),
    (b'msgid "a"\n"', 2, "string not closed"),
    (b'msgid "a\n\\q"', 1, "string not closed"),
    (b'msgid "a\\', 1, "string not closed"),
    (b'\nmsgid "a\\\n"', 2, "string not closed"),
    (b'msgid "a\\"', 1, "string not closed"),
    (b'msgid "\\0\\4', 1, "string not closed"),
    (A + b'msgid "b"x"', 3, "unknown word"),
    (A + b"\nmsgid_plural2", 4, "unknown word"),
    *(
        (A + word, 3, "unknown word")
        for word in (b"domain", b"MSGID", b"msg", b"msgids", b"_msgid", b"msgstr0", b"a1", b"1a", b"0x1", b"0_1")
    ),
    *(
        (A + stray, 3, "unknown word")
        for stray in (b"@", b"-", b",", b"'", b"(", b"\\", b"\0", b"\x7f", b"\xc2\xa0", b"\xef\xbb\xbf")
    ),
    (b"\xef\xbb\xbf\xef\xbb\xbf" + A, 1, "unknown word"),
    (b" \xef\xbb\xbf" + A, 1, "unknown word"),
    (MANY + b'msgstr[0000000000] "x"', 3, "unknown word"),
    (b'~ msgid "a"', 1, "unknown word"),
    (b'msgid "\\0"', 1, "bad text"),
    (b'msgid "\0"', 1, "bad text"),
    (A + b'"\\303" "\\251"', 3, "bad text"),
    (A + b'# c\nmsgid ""\n"\xc3\xa9\\303"', 5, "bad text"),
    (A + b'msgid "\\377"', 3, "bad text"),
    (A + b'msgid "\\355\\240\\200"', 3, "bad text"),
    (b'#\nmsgid ""\n"\\4"\nmsgstr "x"', 2, "bad text"),
    (b'\nmsgctxt\n"k\4"', 2, "bad text"),
    (b'msgctxt "k"\nmsgid "\\004"\n', 2, "bad text"),
    (b'msgctxt "\\4"\nmsgid "\\4"\n', 1, "bad text"),
    (b'msgctxt "\\4"\nmsgstr', 1, "bad text"),
    (b'msgid "\\4"\n]', 1, "bad text"),
    (b'msgstr "x"\nmsgid "\\4"', 1, "out of order"),
    (b'msgid\nmsgid "\\4"', 2, "out of order"),
    (b'msgid "a"\n\n', 1, "out of order"),
    (b'\nmsgid\n# c', 2, "out of order"),
    (b'msgid "a"\nmsgstr\n', 2, "out of order"),
    (b'msgid "a"\n"b"\n', 2, "out of order"),
    (b'msgctxt "k"', 1, "out of order"),
    (b'msgctxt "k"\nmsgctxt "k"', 2, "out of order"),
    (b'msgctxt "k"\nmsgid_plural "a"', 2, "out of order"),
    (b'msgctxt "k"\nmsgstr "a"', 2, "out of order"),
    (b'msgid "a"\nmsgctxt "k"\nmsgstr "x"', 2, "out of order"),
    (b'"a"', 1, "out of order"),
    (b"7", 1, "out of order"),
    (b"\n[", 2, "out of order"),
    (b'msgid_plural "a"', 1, "out of order"),
    (b'msgid "a"\nmsgid "b"', 2, "out of order"),
    (b'msgid "a"\nmsgstr\n[0] "x"', 3, "out of order"),
    (A + b'msgstr "y"', 3, "out of order"),
    (A + b'msgid_plural "y"', 3, "out of order"),
    (MANY + b'msgstr\n"x"', 4, "out of order"),
    (MANY + b'msgid_plural "c"', 3, "out of order"),
    (MANY + B, 3, "out of order"),
    (MANY, 2, "out of order"),
    (MANY + b'msgstr["0"] "x"', 3, "out of order"),
    (MANY + b'msgstr[] "x"', 3, "out of order"),
    (MANY + b'msgstr[0 "x"', 3, "out of order"),
    (MANY + b'msgstr[0 0] "x"', 3, "out of order"),
    (MANY + b'msgstr[0]\n[1] "x"', 4, "out of order"),
    (MANY + b'msgstr[0] "x"\nmsgstr "y"', 4, "out of order"),
    (MANY + b'msgstr[0] "x"\nmsgid_plural "y"', 4, "out of order"),
    (MANY + b'msgstr[0] "x" ]', 3, "out of order"),
    (MANY + b'msgstr[\n1', 4, "wrong plural index"),
    (MANY + b'msgstr[1] "x"', 3, "wrong plural index"),
    (MANY + b'msgstr[0] "x"\nmsgstr[2] "y"', 4, "wrong plural index"),
    (MANY + b'msgstr[0] "x"\nmsgstr[0] "y"', 4, "wrong plural index"),
    (MANY + b'msgstr[999999999] "x"', 3, "wrong plural index"),
    (MANY + b'msgstr[1\nmsgstr', 3, "wrong plural index"),
    # several faults: of tokens before those of grammar, else the first
    (b'msgstr "x"\n\n@', 3, "unknown word"),
    (b'msgid "\\q"\n@', 1, "bad escape"),
    (b'@\nmsgid "\\q"', 1, "unknown word"),
    (A + A + b'msgid "', 5, "string not closed"),
    (MANY + b'msgstr[1] "\\0"', 3, "bad text"),
    (b'msgid "\\4"\nmsgstr "\\q"', 2, "bad escape"),
    (MANY + b'msgstr[1] "x" msgstr "y"\nmsgid "\\4"', 3, "wrong plural index"),
    (A + A + b"msgid", 5, "out of order"),
    (charset(b"koi8") + A + A, 5, "duplicate message"),
    # duplicates and charsets
    (A + A, 3, "duplicate message"),
    (A + b'#, fuzzy\nmsgid ""\n"a"\nmsgstr ""', 4, "duplicate message"),
    (b"#, fuzzy\n" + A + A, 4, "duplicate message"),
    (A + MANY + b'msgstr[0] "x"', 3, "duplicate message"),
    (b'msgctxt "" "k"\n' + A + B + b'\nmsgctxt "k"\n' + A, 7, "duplicate message"),
    (b'msgctxt ""\n' + A + b'msgctxt ""\n' + A, 4, "duplicate message"),
    (header(b'""') + header(b'""'), 3, "duplicate message"),
    (B + A + B + A, 5, "duplicate message"),
    *(
        (A + charset(name), 3, "unsupported charset")
        for name in (b"KOI8-R", b"UTF-8;", b"UTF-16", b"", b"UTF-8\\r", b"utf_8", b"ISO-8859-1", b"\\303\\251")
    ),
    (b"#, fuzzy\n" + charset(b"koi8"), 2, "unsupported charset"),
    (header(b'"Charset=UTF-8 xcharset=koi8 charset=UTF-8"'), 1, "unsupported charset"),
    (header(b'"charset" "=koi8"'), 1, "unsupported charset"),
    (b'msgid ""\nmsgstr ""\n"Content-Type: text/plain; charset=KOI8-R\\n"\n', 1, "unsupported charset"),
    (b'msgid "a"\nmsgstr ""\n' + B + A, 5, "duplicate message"),
    (b'msgid "a\nmsgstr "b"\n', 1, "string not closed"),
    (b'msgid "a"\nmsgstr[0] "b"\n', 2, "out of order"),
    (b'msgid ""\nmsgid_plural "p"\nmsgstr[0] "charset=koi8"', 1, "unsupported charset"),
]

# Two small texts that are cut after each of their bytes.
WHOLE = {
    "a text of many forms": r"""msgctxt "k\n"
#, fuzzy
msgid "ა" "\303\251"
msgid_plural "b\"" # c
msgstr[0] "\\x"
msgstr [01] ""
#~ z
msgid "c"
msgstr "日"
""".encode(),
    "a text with a header": b"\xef\xbb\xbf# c\r\n"
    + rb"""
msgid ""
msgstr ""
"Content-Type: text/plain; charset=utf-8\n"
#, c-format, fuzzy
msgid "a%d"
msgstr "x"

msgctxt ""
msgid "b"
msgstr "\101"
""",
}


def fronts(text):
    return [text[:length] for length in range(len(text) + 1)]


# --- random texts -----------------------------------------------------------------------------------------------

BLANKS = [b" ", b" ", b" ", b"\n", b"\n", b"", b"\t", b"\r\n", b"\f", b"\v"]
CONTEXTS = [b'""', b'"k"', b'"l"', b'"" "k"']
KEYS = [b'"a"', b'"b"', b'"c"', b'"ab"', b'"" "d"', b'"f"\n"g"', b'"h" # c\n""', b'"%d"', '"é"'.encode()]
KEYS += [rb'"\141"', rb'"e\n"', rb'"\303\251"']
STRINGS = [b'""', b'"x"', b'"y z"', b'"#"', b'"\t\r"', b'"x"\n"y"', '"日本"'.encode()]
STRINGS += [rb'"\t\b\r\f\v\a\n"', rb'"\\\""', rb'"\1\12\123"', rb'"\0012"', rb'"\4"', rb'"\343\201\202"']
FAULTY_STRINGS = [b'"\0"', b'"x', b'"x\n"', b'"\\\n"', b'"\xc3"']
FAULTY_STRINGS += [rb'"\q"', rb'"\x41"', rb'"\400"', rb'"\8"', rb'"\0"', rb'"\303"', rb'"\377"', rb'"\"']
HEADERS = [b'""', b'"Language: ka"', b'"charset=UTF-8 "', b'"charset=utf8\t"', b'"charset=CHARSET"', b'"charset=ASCII"']
HEADERS += [rb'"charset=UTF-8\n"', rb'"charset=KOI8-R\n"', rb'"charset=UTF-8;\n"', b'"charset="']
COMMENTS = [b"#\n", b"# c\n", b"#. fuzzy\n", b"#: a.c:1\n", b'#| msgid "z"\n', b'#~ msgid "z"\n', b"#~ #, fuzzy\n"]
COMMENTS += [b"#, fuzzy\n", b"#,c-format,fuzzy\n", b"#, c-format\n", b"#, range: 0..1\n"]
STRAY = [b"msgid", b"msgstr", b"msgctxt", b"msgid_plural", b"[", b"]", b"0", b"1", b"00", b"0000000000", b"domain"]
STRAY += [b"x", b"@", b"\\", b'"', b"\0", b"\n", b"\xff", b"\xc3", b"\xef\xbb\xbf"]


def random_entry(dice):
    """The pieces of an entry that obeys the grammar."""
    pieces = dice.choices(COMMENTS, k=dice.choice((0, 0, 0, 1, 1, 2)))
    if dice.random() < 0.1:
        return [*pieces, b"msgid", b'""', b"msgstr", dice.choice(HEADERS)]
    if dice.random() < 0.25:
        pieces += [b"msgctxt", dice.choice(CONTEXTS)]
    pieces += [b"msgid", dice.choice(KEYS)]
    if dice.random() < 0.7:
        return [*pieces, b"msgstr", dice.choice(STRINGS)]
    pieces += [b"msgid_plural", dice.choice(STRINGS)]
    for index in range(dice.randint(1, 4)):
        number = b"%0*d" % (dice.choice((1, 1, 2, 9)), index)
        pieces += [b"msgstr", b"[", number, b"]", dice.choice(STRINGS)]
    return pieces


def damage(dice, pieces):
    """Puts a piece in, takes one out, doubles one, puts another in its place, or changes an index."""
    place = dice.randint(0, len(pieces))
    piece = dice.choice(dice.choice((STRAY, FAULTY_STRINGS, KEYS, COMMENTS)))
    how = dice.choice(("in", "out", "double", "replace", "index"))
    if how == "in":
        pieces[place:place] = [piece]
    elif how == "out":
        del pieces[place : place + 1]
    elif how == "double":
        pieces[place:place] = pieces[place : place + 1]
    elif how == "replace":
        pieces[place : place + 1] = [piece]
    elif indexes := [place for place, piece in enumerate(pieces) if piece.isdigit()]:
        pieces[dice.choice(indexes)] = dice.choice((b"0", b"1", b"2", b"01", b"999999999"))


def random_text(dice):
    """Half of them are entries, four of ten entries damaged at up to three places, one of ten pieces in any order."""
    kind = dice.choices(("entries", "damaged", "pieces"), (5, 4, 1))[0]
    if kind == "pieces":
        pieces = [dice.choice(dice.choice((STRAY, STRINGS, KEYS, COMMENTS))) for _ in range(dice.randint(1, 12))]
    else:
        pieces = [piece for _ in range(dice.randint(1, 5)) for piece in random_entry(dice)]
    if kind == "damaged":
        for _ in range(dice.randint(1, 3)):
            damage(dice, pieces)
    mark = b"\xef\xbb\xbf" if dice.random() < 0.05 else b""
    return mark + b"".join(piece + dice.choice(BLANKS) for piece in pieces)


def random_texts(count):
    dice = random.Random(2026)
    return [random_text(dice) for _ in range(count)]
