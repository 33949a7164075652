"""Compares the specifications of crates/charsets and of the crates of rows with iconv of GNU libc: each byte of each
charset and each of its names, and each two bytes of the charsets that have characters of several bytes. Of EUC-JP also
each three bytes that begin with 8F, and of all of these some texts at random. And compares what tools/make_charsets
writes with what is committed.

usage: tests/driver/charsets.py    at the top of the repository
"""
import ctypes
import random
import re
import subprocess
import sys
import tempfile
from pathlib import Path

SPECS = Path("crates/charsets/specs")
ROWS_SPECS = [Path("crates") / crate / "specs"
              for crate in ("euc_jp_rows", "euc_kr_rows", "big5_rows", "gb2312_rows", "gbk_low_rows",
                            "gbk_high_rows")]
CASES = re.compile(r"^(?P<word>names|table) (?P<variant>\w+) =(?P<value>.*?)(?=^(?:names|table) |\Z)", re.M | re.S)
TABLE = re.compile(r"^(?P<name>\w+) =\n(?P<rows>(?: +0x.*\n)+)", re.M)
PAIRS = re.compile(r"^pairs (?P<variant>\w+) first = (?P<grid>\w+) first$", re.M)
GRID = re.compile(r"^(?P<grid>\w+)(?: first)? =(?P<value>.*?)(?=^\w|^--|\Z)", re.M | re.S)
SEVERAL = re.compile(r"(\w+) first\)*$", re.M)
CELLS = re.compile(r"first_row = (\w+); first_column = (\w+); rows = (\w+)")
ROWS = re.compile(r"^(?P<name>\w+) =\n(?P<rows>(?: +.*\n)+)", re.M)
TERM = re.compile(r'codes "((?:[^"\\]|\\.)*)"|replicate (\d+) 0|(∷)')
CHAR = re.compile(r"\\u\{([0-9a-f]+)\}|\\(0)|(.)")
LONGEST = 8  # a text at random
ROUNDS = 20000
UNFORMATTED = re.compile(r"[\s,;]|(?<=\\u\{)0+")  # what `rt fmt` changes, but for the case of escapes


def cases(path):
    """The value of each charset in a definition by cases."""
    text = (SPECS / path).read_text(encoding="utf-8")
    return {case["variant"]: case["value"] for case in CASES.finditer(text)}


def tables():
    """The 128 code points of each charset, by its variant."""
    text = (SPECS / "Tables.antt").read_text(encoding="utf-8")
    rows = {table["name"]: [int(c, 16) for c in re.findall(r"0x([0-9A-F]+)", table["rows"])]
            for table in TABLE.finditer(text)}
    return {variant: rows[value.strip()] for variant, value in cases("Table.antt").items()}


def names():
    """The names of each charset, by its variant; its own is the first."""
    return {variant: re.findall(r'codes "([^"]+)"', value) for variant, value in cases("CharsetNames.antt").items()}


def codes_of(text):
    """The code points of a text as antt spells it."""
    return [int(by_code, 16) if by_code else 0 if nul else ord(char) for by_code, nul, char in CHAR.findall(text)]


def rows():
    """The rows of code points, by their names."""
    found = {}
    for path in (path for specs in ROWS_SPECS for path in sorted(specs.glob("*Rows.antt"))):
        for listed in ROWS.finditer(path.read_text(encoding="utf-8")):
            found[listed["name"]] = [[]]
            for text, zeros, end in TERM.findall(listed["rows"]):
                found[listed["name"]][-1] += codes_of(text) if not zeros else [0] * int(zeros)
                if end:
                    found[listed["name"]].append([])
    return found


def bounds_in(value):
    """The first bytes at which a definition goes on to its next case: 0, those that it compares with, and 256."""
    return [0] + [int(bound, 16) for bound in re.findall(r"nat_lt first (\w+)", value)] + [256]


def grids():
    """The cells of two bytes that have a character, by the variant; those behind 8F are under None."""
    of_charsets = (SPECS / "Pairs.antt").read_text("utf-8")
    variants = {pairs["grid"]: pairs["variant"] for pairs in PAIRS.finditer(of_charsets)}
    variants["euc_jp_8f"] = None
    texts = [path.read_text(encoding="utf-8") for specs in ROWS_SPECS for path in specs.glob("*Grids.antt")]
    known, found = rows(), {}
    for case in (case for text in texts for case in GRID.finditer(text)):
        parts = [(int(row, 16), int(column, 16), known[name]) for row, column, name in CELLS.findall(case["value"])
                 if name in known]
        found[case["grid"]] = {
            (row + i, column + j): code
            for (row, column, cells), bound in zip(parts, bounds_in(case["value"])[1:])
            for i, line in enumerate(cells) if row + i < bound for j, code in enumerate(line) if code}
    for case in GRID.finditer(of_charsets):  # a charset that has several grids
        bounds = bounds_in(case["value"])
        found[case["grid"]] = {
            pair: code for grid, least, bound in zip(SEVERAL.findall(case["value"]), bounds, bounds[1:])
            for pair, code in found[grid].items() if least <= pair[0] < bound}
    return {variant: found[grid] for grid, variant in variants.items()}


def decoded(variant, text, table, pairs, behind_8f):
    """The code points of the characters that a text begins with, and where the first run without one is."""
    codes, at = [], 0
    while at < len(text):
        first, more = text[at], tuple(text[at + 1:at + 3])
        if first < 128 or table[first - 128]:
            code, size = (first if first < 128 else table[first - 128]), 1
        elif variant == "EucJp" and first == 0x8F:
            code, size = behind_8f.get(more), 3
        else:
            code, size = pairs.get((first, *more[:1])), 2
        if not code and first:
            break
        codes.append(code)
        at += size
    return codes, at


def open_iconv(name):
    """A function from a text to what iconv(3) makes of it: the code points, and where it stopped."""
    library = ctypes.CDLL(None)
    library.iconv_open.restype = ctypes.c_void_p
    library.iconv.restype = ctypes.c_size_t
    library.iconv.argtypes = [ctypes.c_void_p] * 5
    descriptor = library.iconv_open(b"UTF-32LE", name.encode())

    def convert(text):
        read, room = ctypes.create_string_buffer(text, len(text)), ctypes.create_string_buffer(16 * LONGEST)
        at, out = ctypes.c_void_p(ctypes.addressof(read)), ctypes.c_void_p(ctypes.addressof(room))
        left, free = ctypes.c_size_t(len(text)), ctypes.c_size_t(len(room))
        library.iconv(descriptor, None, None, None, None)
        library.iconv(descriptor, *(ctypes.byref(word) for word in (at, left, out, free)))
        library.iconv(descriptor, None, None, ctypes.byref(out), ctypes.byref(free))
        made = room.raw[:len(room) - free.value]
        return [int.from_bytes(made[i:i + 4], "little") for i in range(0, len(made), 4)], len(text) - left.value

    return convert


def some_texts(pairs):
    """Texts at random, mostly of characters."""
    random.seed(1)
    characters = [bytes(pair) for pair in pairs]
    for _ in range(ROUNDS):
        text = b"".join(random.choice([random.choice(characters), random.randbytes(1)]) for _ in range(LONGEST // 2))
        yield text[:random.randint(1, LONGEST)]


def wrong_texts(variant, name, table, found):
    """The texts of several bytes, of how many, that iconv reads in another way."""
    convert, pairs, behind_8f = open_iconv(name), found[variant], found[None]
    texts = [bytes([a, b]) for a in range(256) for b in range(256)]
    if variant == "EucJp":
        texts += [b"\x8f" + two for two in texts]
    texts += some_texts(pairs)
    wrong = [text.hex() for text in texts if decoded(variant, text, table, pairs, behind_8f) != convert(text)]
    return wrong, len(texts)


def iconv(name, byte):
    """The code points of a byte as iconv has them, none if it refuses the byte."""
    got = subprocess.run(["iconv", "-f", name, "-t", "UTF-32LE"], input=bytes([byte]), capture_output=True, check=False)
    codes = [int.from_bytes(got.stdout[i:i + 4], "little") for i in range(0, len(got.stdout), 4)]
    return codes if got.returncode == 0 else []


def wrong_bytes(name, table):
    """The bytes whose code point isn't iconv's."""
    ours = [[byte] for byte in range(128)] + [[code] if code else [] for code in table]
    return [byte for byte in range(256) if ours[byte] != iconv(name, byte)]


def unformatted(text):
    """A text without what `rt fmt` changes in it."""
    return UNFORMATTED.sub("", text).lower()


def is_written(path, made):
    """Whether a file is what the script has made, as far as `rt fmt` leaves it."""
    return Path(path).is_file() and unformatted(Path(path).read_text("utf-8")) == unformatted(made)


def unlike_files():
    """The files that tools/make_charsets writes in another way than they are committed, or no longer writes."""
    with tempfile.TemporaryDirectory() as folder:
        subprocess.run(["tools/make_charsets", "--into", folder], check=True)
        made = {str(path.relative_to(folder)): path.read_text("utf-8")
                for path in Path(folder).rglob("*") if path.is_file()}
    told = [str(path) for part in ("src", "specs", "proofs") for path in Path("crates").glob("*/%s/**/*" % part)
            if path.is_file() and "Written by tools/make_charsets" in path.read_text("utf-8")]
    # (another version of GNU libc may have more names of the same charsets)
    names = ["crates/charsets/src/names.rt", "crates/charsets/specs/CharsetNames.antt"]
    return [path for path in sorted({*made, *told} - {*names})
            if path not in made or not is_written(path, made[path])]


def main():
    failures = 0
    found, wide = tables(), grids()
    for variant, known in names().items():
        wrong = wrong_bytes(known[0], found[variant]) if len(found[variant]) == 128 else ["not 128 code points"]
        # (another name is the same charset if iconv has the same characters under it)
        sample = bytes(byte for byte in range(128, 256) if found[variant][byte - 128])
        sample += b"".join(map(bytes, wide.get(variant, {})))
        texts = {name: subprocess.run(["iconv", "-f", name, "-t", "UTF-8"], input=sample, capture_output=True,
                                      check=False).stdout for name in known}
        unknown = [name for name in known if texts[name] != texts[known[0]]]
        told = [("each byte is iconv's", wrong), ("iconv has each name for it", unknown)]
        if wide.get(variant):
            wrong, count = wrong_texts(variant, known[0], found[variant], wide)
            told.append(("%d texts of several bytes are iconv's" % count, wrong))
        for what, those in told:
            failures += bool(those)
            print(("FAILED" if those else "ok") + " charsets: %s: %s" % (known[0], what)
                  + (": " + " ".join(map(str, those[:40])) if those else ""))
    unlike = unlike_files()
    failures += bool(unlike)
    print(("FAILED" if unlike else "ok") + " charsets: what tools/make_charsets writes is committed"
          + (": " + " ".join(unlike) if unlike else ""))
    sys.exit(1 if failures or not found or len([cells for cells in wide.values() if cells]) != 6 else 0)


main()
