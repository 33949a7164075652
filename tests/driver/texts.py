"""Compares a msgfmt-or-gnu with GNU msgfmt on random PO texts: flags, obsolete and previous lines, comments and newlines in
each place, and headers. Status, output and MO file must be GNU msgfmt's, whichever program the driver has run.

usage: tests/driver/texts.py DRIVER GNU ROOM [--texts N] [--seed N] [WORD ..]

Prints a line for the test harness. WORD is given to both programs.
"""

import argparse
import os
import random
import subprocess
import sys
from concurrent.futures import ThreadPoolExecutor
from pathlib import Path

PATIENCE = 60 * int(os.environ.get("SLOWER", "1"))  # seconds
FIELDS = (
    "Project-Id-Version: x\\nPO-Revision-Date: x\\nLast-Translator: x\\nLanguage-Team: x\\nLanguage: fr\\n"
    "MIME-Version: 1.0\\nContent-Type: text/plain; charset=UTF-8\\nContent-Transfer-Encoding: 8bit\\n"
)
RULES = (
    "", "", "nplurals=2; plural=n!=1;", "nplurals=2; plural=(n>1)", "nplurals=INTEGER; plural=EXPRESSION;",
    "nplurals=2; plural=\u00a0n!=1;", "nplurals=2; plural=n?(1:0);", "nplurals= 3; plural=n==1?0:n<5&&n?1:2;",
    "nplurals=x; plural=0;", "nplurals=2; plural=;", "nplurals=2; plural=n=1;", "nplurals=2;", "plural=n;",
    "nplurals=2; plural=!!n;", "nplurals=2; plural=n 1;", "nplurals=2; plural=((n!=1));", "nplurals=2; plural=n!=1)",
)  # fmt: skip
PLAIN = ('"a"', '"b"', '"c"', '"h\\\\n"', '"%d"', '"%s"', '"a" "b"', '""\n"b"', '"\u00e9"', '"i\\nj"')
ENDED = ('"d\\n"', '"f\\012"', '"a"\n"d\\n"', '"h\\\\\\n"')
BEGUN = ('"\\ne"', '"\\012g"')
MACROS = ('"%<PRId64>"', '"%<PRIu32> %s"', '"%2$s %1$I<PRIu8>"', '"x%<PRIxMAX>%-5<PRIoPTR>y"', '"<PRId64>"', '"%<PRId65>"',
          '"%<PRI" "dLEAST16>"', '"%*<PRIiFAST32>"', '"%jd %<PRIdMAX>"', '"%%<PRId64>"')  # fmt: skip
DIGITS = ('"%Id"', '"%1$I5d"', '"%-" "Id"', '"%\\111d"', '"100 % In"', '"%%I"', '"%d I"', '"%I"')
FLAGS = ("fuzzy", "c-format", "no-c-format", "no-wrap", "python-format", "php-format", "foo", "fuzzy, no-wrap",
         "c-format no-wrap", "no-wrap\tfuzzy", "possible-c-format", "range: 0..4")  # fmt: skip
COMMENTS = ("#", "# x", "#. x", "#: x.c:3", "#| msgid \"q\"", "#| msgctxt \"q\"", "#|", "#~", "#~ # x", "#| # x", "#~| msgid \"q\"",
            "#, ", "#~ msgid \"q\"", "#~ \"q\"", "#~ domain \"q\"", "#| msgidx \"q\"", "#~ foo")  # fmt: skip

Answer = tuple[int, bytes, bytes | None]


def some_flags(rng: random.Random) -> list[str]:
    """None, one or two lines of flags."""
    if rng.random() < 0.15:
        return ["#, c-format"]
    count = rng.choice((0, 0, 0, 1, 1, 2))
    return [rng.choice(("#, ", "#,", "#, ", "#! ")) + ", ".join(rng.sample(FLAGS, rng.choice((1, 1, 2)))) for _ in range(count)]


def entry(rng: random.Random, key: str) -> list[str]:
    """The lines of an entry, without its comments. Most have the newlines that they should have."""
    kinds = rng.choice(((PLAIN,), (PLAIN,), (PLAIN, MACROS), (MACROS,), (PLAIN, DIGITS), (DIGITS,), (ENDED,), (BEGUN,),
                        (PLAIN, ENDED, BEGUN)))  # fmt: skip

    def text() -> str:
        return rng.choice(rng.choice(kinds))

    has_end = kinds == (ENDED,)
    lines = [f"msgctxt {text()}"] if rng.random() < 0.2 else []
    lines.append(f'msgid "{key}"\n{text()}' if has_end else f'msgid {text()}\n"{key}"')
    last = ['""'] if rng.random() < 0.1 else []
    if rng.random() < 0.3:
        lines.append(f"msgid_plural {text()}")
        lines += [f"msgstr[{form}] {it}" for form, it in enumerate((last or [text()]) + [text()])]
    else:
        lines.append(f"msgstr {(last or [text()])[0]}")
    return "\n".join(lines).split("\n")


def block(rng: random.Random, keys: list[str]) -> list[str]:
    """An entry with its comments: as it should be, obsolete, or with something out of place."""
    if rng.random() > 0.03 or not keys:
        keys.append(f"{len(keys)}")
    lines = entry(rng, rng.choice(keys) if rng.random() < 0.03 else keys[-1])
    before = some_flags(rng) + (['#| msgid "old"'] if rng.random() < 0.1 else [])
    if rng.random() < 0.25:
        lines = ["#~ " + line for line in lines]
    if rng.random() < 0.06:
        lines.insert(rng.randrange(len(lines) + 1), rng.choice(COMMENTS))
    if rng.random() < 0.03:
        place = rng.randrange(len(lines))
        lines[place] = lines[place].removeprefix("#~ ")
    if rng.random() < 0.05:
        lines[rng.randrange(len(lines))] += " " + rng.choice(("# x", "#, fuzzy", "#~"))
    if rng.random() < 0.02:
        lines[-1] = "  " + lines[-1] + "\r"
    return ([rng.choice(COMMENTS)] if rng.random() < 0.04 else []) + before + lines + [""] * rng.choice((0, 1, 1))


def text(seed: int) -> bytes:
    """A PO text, mostly with a header, at its beginning or later."""
    rng = random.Random(seed)
    keys: list[str] = []
    blocks = [block(rng, keys) for _ in range(rng.randrange(1, 5))]
    rule = rng.choice(RULES)
    if rng.random() < 0.95:
        fields = FIELDS + (f"Plural-Forms: {rule}\\n" if rule else "")
        if rng.random() < 0.1:
            fields = fields.replace("charset=UTF-8", rng.choice(("charset=ASCII", "charset=utf-8", "charset=UTF8", "x=y")))
        header = some_flags(rng) * (rng.random() < 0.2) + ['msgid ""', f'msgstr "{fields}"', ""]
        blocks.insert(0 if rng.random() < 0.9 else rng.randrange(len(blocks) + 1), header)
    return "\n".join(line for lines in blocks for line in lines).encode()


class Runner:
    """Runs both programs on a text, in a folder of its own for each thread's turn."""

    def __init__(self, driver: str, gnu: str, room: Path, words: list[str]) -> None:
        self.programs = {"driver": driver, "GNU": gnu}
        self.room = room.resolve()
        self.words = words

    def answer(self, program: str, folder: Path) -> Answer:
        made = folder / "x.mo"
        made.unlink(missing_ok=True)
        command = [self.programs[program], *self.words, "--no-hash", "-o", "x.mo", "in.po"]
        environment = {**os.environ, "LC_ALL": "C", "MSGFMT_OR_GNU_LOG": str(folder / "log")}
        run = subprocess.run(command, cwd=folder, env=environment, capture_output=True, check=False, timeout=PATIENCE)
        return run.returncode, run.stderr, made.read_bytes() if made.exists() else None

    def compare(self, seed: int) -> tuple[str, str]:
        """Who compiled the text by the driver, and how the two differ, or an empty string."""
        folder = self.room / f"{seed}"
        folder.mkdir()
        (folder / "in.po").write_bytes(text(seed))
        theirs = self.answer("GNU", folder)
        ours = self.answer("driver", folder)
        log = (folder / "log").read_text(encoding="utf-8")
        who, why = log.split("\t")[0], log.split("\t")[2]
        # (the driver also writes a file without entries)
        same = ours == theirs or (ours[:2] == theirs[:2] and theirs[2] is None and ours[2] and len(ours[2]) == 28)
        for name in ("in.po", "x.mo", "log"):
            (folder / name).unlink(missing_ok=True)
        folder.rmdir()
        return who, "" if same else f"seed {seed}: {who} ({why}): {ours[0]} {ours[1]!r}, GNU's {theirs[0]} {theirs[1]!r}"


def main() -> None:
    parser = argparse.ArgumentParser(usage=__doc__)
    parser.add_argument("driver")
    parser.add_argument("gnu")
    parser.add_argument("room", type=Path)
    parser.add_argument("--texts", type=int, default=1500)
    parser.add_argument("--seed", type=int, default=1)
    parser.add_argument("--show", action="store_true", help="print the text of the seed, and no more")
    arguments, words = parser.parse_known_args()
    if arguments.show:
        sys.stdout.buffer.write(text(arguments.seed))
        return
    runner = Runner(arguments.driver, arguments.gnu, arguments.room, words)
    with ThreadPoolExecutor(4) as pool:
        found = list(pool.map(runner.compare, range(arguments.seed, arguments.seed + arguments.texts)))
    wrong = [why for _, why in found if why]
    ours = sum(who == "ours" for who, _ in found)
    name = f"driver, random texts{''.join(' ' + word for word in words)}"
    if wrong or ours < len(found) / 10:
        print(f"FAILED {name}: {len(wrong)} differ, {ours} of {len(found)} are ours; " + "; ".join(wrong[:3])[:1500])
    else:
        print(f"ok {name}: {len(found)} are answered as by GNU msgfmt, {ours} of them by Kobdzila's")
    sys.exit(1 if wrong else 0)


main()
