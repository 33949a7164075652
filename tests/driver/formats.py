"""Compares a msgfmt-or-gnu that finds no GNU msgfmt with GNU msgfmt on formats: PO files of generated pairs, of Python and of
other languages, and PO files that are installed. Status, the number of faults and the lines with them must be the same,
and of Python without a plural the words as well.

usage: tests/driver/formats.py DRIVER GNU ROOM [--files N] [--seed N] [--flag FLAG] [PO ..]

A generated file has 150 entries. With --flag they all have this flag, and otherwise any. GNU msgfmt prints the first fault
of a line alone, so only that is compared. Prints lines for the test harness.
"""

import argparse
import os
import random
import re
import subprocess
import sys
from collections.abc import Callable
from concurrent.futures import ThreadPoolExecutor
from pathlib import Path

PATIENCE = 60 * int(os.environ.get("SLOWER", "1"))  # seconds
ENTRIES = 150  # of a generated file
OTHER = "other-"  # a generated file of other languages than Python is called so
HEADER = (
    'msgid ""\nmsgstr "Project-Id-Version: x\\nPO-Revision-Date: x\\nLast-Translator: x\\nLanguage-Team: x\\n'
    "Language: fr\\nMIME-Version: 1.0\\nContent-Type: text/plain; charset=UTF-8\\nContent-Transfer-Encoding: 8bit\\n"
    'Plural-Forms: nplurals=2; plural=n!=1;\\n"\n\n'
)
PERCENT = ("%s", "%s", "%d", "%d", "%(a)s", "%(a)s", "%(b)d", "%(c)r", "%c", "%f", "%%", "%.0s", "%(a).0s", "%*d", "%5.2f",
           "%i", "%(b)x", "%(a(x))s", "%()s", "%(a)%", "%ld", "%-+ #05.3Lf", "%.*s")  # fmt: skip
PERCENT_FAULTS = ("%", "%y", "%(a", "%(a)", "%F", "%lld", "%(a)y", "%5", "%.", "%\u00e9", "%(a)d", "%(a)*d", "%-", "%~")
BRACE = ("{a}", "{a}", "{b}", "{b}", "{0}", "{1}", "{a.b}", "{a[0]}", "{a[x].y}", "{a:d}", "{a:>10}", "{b:+#5.2f}", "{a:{b}}",
         "{{", "}", "}}", "{_x}", "{a:{{}", "{A}")  # fmt: skip
BRACE_FAULTS = ("{", "{}", "{a", "{a!r}", "{a:s}", "{a.}", "{a.5}", "{a[}", "{a[]}", "{a[b}", "{a:{b:d}}", "{a:{}}", "{a:{b}5}",
                "{ a}", "{a }", "{5a}", "{a:", "{a[b.c]}", "{a:5{b}}", "{!}")  # fmt: skip
NUMBERS = ("%1", "%1", "%2", "%2", "%3", "%4", "%L1", "%L2", "%01", "%10", "%12", "%n", "%Ln", "%%", "%5", "%0", "%00", "%100")
NUMBER_FAULTS = ("%", "%L", "%a", "%-1", "%\u00e9", "%LL1", "%L%1", "%4294967297", "%1a", "%n1", "%$1")
NAMES = ("{a}", "{a}", "{b}", "{c}", "{a_1}", "{A}", "{_}", "$a", "$a", "$b", "${a}", "${b}", "$c", "$_", "$a_1", "${A}", "$ab")
NAME_FAULTS = ("{", "{}", "{a", "{1}", "{a-}", "{ a}", "{{a}}", "{a{b}", "}", "$", "$$", "$1", "${", "${}", "${a", "${1}", "${a:-b}",
               "$\u00e9", "${\u00e9}", "${a\u00e9}", "$a\u00e9", "$(a)", "${a}}", "${{a}}", "{a.b}", "$-", "$ a")  # fmt: skip
PHP = ("%s", "%s", "%d", "%1$s", "%1$s", "%2$d", "%2$d", "%f", "%e", "%c", "%x", "%%", "%'x5d", "%-05.2f", "%ld", "%4294967297$s")
PHP_FAULTS = ("%", "%y", "%E", "%F", "%0$s", "%5%", "%'", "%.f", "%.", "%1$d", "%2$s", "%+d", "%1$", "%\u00e9")
PERL = ("%s", "%s", "%d", "%1$s", "%1$s", "%2$d", "%2$d", "%ld", "%u", "%D", "%lld", "%qd", "%f", "%Lf", "%c", "%p", "%n", "%_", "%%",
        "%vd", "%*vd", "%*2$vd", "%*d", "%-05.2f", "%.*f", "%2$*1$d", "%5%", "%Vx", "%4294967297$s")  # fmt: skip
PERL_FAULTS = ("%", "%y", "%hhd", "%0$s", "%01$s", "%lf", "%he", "%a", "%v05d", "%*0$d", "%1$d", "%2$s", "%1$", "%l", "%.", "%\u00e9")
SCRIPT = ("%s", "%s", "%d", "%s", "%1$s", "%1$s", "%2$d", "%x", "%j", "%1$j", "%f", "%c", "%%", "%5%", "%I05d", "%-5.2f", "%.f", "%4294967297$s")
# No number but 1 has two kinds: GNU msgfmt 0.21 looks for any object in a wrong place if a number before is left out.
SCRIPT_FAULTS = ("%", "%y", "%i", "%u", "%e", "%0$s", "%'5s", "%#x", "%*d", "%ld", "%1$d", "%1$", "%.", "%\u00e9")
JAVA = ("{0}", "{0}", "{1}", "{1}", "{2,number}", "{2,number,integer}", "{2,number,#,##0.00}", "{3,date}", "{3,time,short}", "{2}",
        "{3,date,yyyy{''}}", "{2,choice,0#{0}|1#x}", "{2,choice,-1#a|1<{2,number}}", "{4,choice}", "''", "'{'", "{4294967296}", "\\\\",
        "{2,choice,0#''{1}''}", "{2,choice,0\\\\u2264{2,choice,0#{1}'|'1#{0}}}", "{2,number,0\\\\u0023;#}")  # fmt: skip
JAVA_FAULTS = ("{", "}", "{}", "{a}", "{0", "{-1}", "{0,}", "{0,text}", "{2,date}", "{3,numbers}", "{2,number,x}", "{2,number,'#'}",
               "{2,number,0;}", "{2,choice,#x}", "{2,choice,0|1#x}", "{2,choice,0#'{'}", "{3,choice,0#{3,date}}", "'", "{2,number,\\\\u0030}")  # fmt: skip
OBJC = ("%@", "%@", "%d", "%i", "%u", "%ld", "%lld", "%hhd", "%jhd", "%zu", "%tx", "%f", "%lf", "%qf", "%c", "%C", "%s", "%ls",
        "%p", "%n", "%m", "%%", "%-+5.2f", "%*d", "%.*s", "%'d", "%1$@", "%1$@", "%2$d", "%2$*1$d", "%4294967297$@")  # fmt: skip
OBJC_FAULTS = ("%", "%y", "%D", "%0$@", "%3$@", "%hhl", "%*0$d", "%1$", "%\u00e9")
GCC = ("%s", "%s", "%d", "%d", "%ld", "%lld", "%wu", "%x", "%c", "%p", "%qD", "%J", "%+#T", "%E", "%H", "%P", "%m", "%m", "%%", "%<", "%>",
       "%.5s", "%.*s", "%1$s", "%1$s", "%2$d", "%2$.*1$s", "%4294967297$s")  # fmt: skip
GCC_FAULTS = ("%", "%y", "%X", "%5d", "%llld", "%lwd", "%qqd", "%0$s", "%1$m", "%q%", "%.s", "%.5d", "%1$.*1$s", "%2$.*s", "%1$", "%\u00e9")
GFC = ("%s", "%s", "%d", "%i", "%u", "%ld", "%li", "%lu", "%c", "%L", "%C", "%C", "%%", "%1$s", "%1$s", "%2$d", "%2$C", "%1$C", "%3$ld",
       "%4294967297$s")  # fmt: skip
GFC_FAULTS = ("%", "%y", "%x", "%5d", "%lld", "%lc", "%l", "%0$s", "%1$%", "%4$s", "%1$", "%\u00e9")
SCHEME = ("~a", "~s", "~d", "~d", "~va", "~10,'0d", "~c", "~65c", "~f", "~i", "~p", "~:p", "~%", "~~", "~,,'0t", "~y", "~,,,va", "~v%")
SCHEME_FAULTS = ("~", "~z", "~-a", "~'", "~'xa", "~5p", "~)", "~w", "~,'xt", "~1,2%", "~\u00e9")
LISP = ("~a", "~S", "~d", "~d", "~va", "~10,'0d", "~c", "~f", "~$", "~p", "~:p", "~%", "~~", "~2,3t", "~w", "~5i", "~_", "~v,'xx")
LISP_FAULTS = ("~", "~y", "~+d", "~'", "~'xa", "~5w", "~]", "~65c", "~,,'0t", "~5_", "~\u00e9")
TCL = ("%s", "%s", "%d", "%hd", "%u", "%hx", "%c", "%1$s", "%1$s", "%2$d", "%2$hd", "%e", "%5.3f", "%*d", "%.*f", "%1$*d", "%%", "%-05d",
       "%ld", "%4294967297$s")  # fmt: skip
TCL_FAULTS = ("%", "%b", "%lld", "%a", "%5%", "%0$s", "%1$", "%'d", "%1$d", "%.", "%*2$d", "%\u00e9")
AWK = ("%s", "%s", "%d", "%i", "%c", "%x", "%f", "%G", "%1$s", "%1$s", "%2$d", "%*d", "%.*f", "%2$*1$d", "%2$.*1$d", "%*2$%", "%%", "%5%",
       "%5.d", "%4294967297$s")  # fmt: skip
AWK_FAULTS = ("%", "%a", "%F", "%ld", "%'d", "%0$s", "%*0$d", "%1$d", "%1$", "%*1d", "%.", "%\u00e9")
LUA = ("%s", "%s", "%q", "%d", "%d", "%i", "%u", "%c", "%x", "%5.3f", "%.d", "%a", "%05x", "%%", "%g")
LUA_FAULTS = ("%", "%y", "%*d", "%1$s", "%ld", "%p", "%5%", "%-5s", "%.", "%\u00e9")
# Without `*`, at which GNU msgfmt 0.21 spoils its own memory.
PASCAL = ("%s", "%s", "%d", "%X", "%e", "%M", "%P", "%0:s", "%0:s", "%1:d", "%1:d", "%:5s", "%-8.3n", "%%", "%4294967296:s")
PASCAL_FAULTS = ("%", "%y", "%.", "%5.s", "%1:", "%-", "%1$s", "%c", "%1:s", "%i", "%0:d", "%\u00e9")
LIBREP = ("%s", "%s", "%S", "%d", "%c", "%x", "%1$s", "%1$s", "%2$d", "%2$%", "%5.3d", "%-^0+ 8s", "%.s", "%%", "%4294967297$s")
LIBREP_FAULTS = ("%", "%y", "%0$s", "%*d", "%1$", "%ld", "%1$d", "%f", "%\u00e9")
BOOST = ("%1%", "%1%", "%2%", "%s", "%d", "%1$s", "%1$d", "%2$d", "%|1$d|", "%|s|", "%|5.3|", "%5.2f", "%*d", "%2$*1$d", "%c", "%p", "%t",
         "%5T*", "%%", "%|2$T||", "%hld", "%-+#0'_=d", "%||", "%4294967297%")  # fmt: skip
BOOST_FAULTS = ("%", "%a", "%F", "%|1%|", "%0%", "%01%", "%0$d", "%1$", "%|", "%|s", "%y", "%*0$d", "%\u00e9")
DOTNET = ("{0}", "{0}", "{1}", "{2}", "{0,5}", "{0,-5}", "{1:N2}", "{1,3:x y}", "{{", "}}", "{4294967296}", "{0:{}", "{00}", "{7}")
DOTNET_FAULTS = ("{", "}", "{}", "{0 }", "{0, 5}", "{0,}", "{0,-}", "{a}", "{-1}", "{0:", "{0,5", "{ 0}", "{0:{{}}}", "{\u00e9}")
FORMATTER = ("%s", "%s", "%d", "%1$s", "%1$s", "%2$d", "%<s", "%<d", "%x", "%f", "%e", "%c", "%b", "%h", "%tY", "%Tm", "%1$tH", "%n", "%%",
             "%-5s", "%05d", "%(,+.2f", "%S", "%a", "%#x", "%4294967297$s")  # fmt: skip
FORMATTER_FAULTS = ("%", "%y", "%0$s", "%*d", "%ld", "%5n", "%.3d", "%-d", "%t", "%tx", "%<", "%1$", "%1$d", "%+s", "%.c", "%--5d", "%-05d",
                    "%+ d", "%,x", "%#d", "%\u00e9")  # fmt: skip
KUIT = ("%1", "%1", "%2", "%3", "<link>%1</link>", "<b/>", "<a b='1'>x</a>", "<A b = '%2' c='2' />", "&#38;", "&lt;", "&nbsp;", "&", "a > b",
        "<!-- c %2 -->", "<![CDATA[ < & ]]>", "<?go?>", "</a >", "<a>", "<\u00e9/>", "<a b='1>'/>")  # fmt: skip
KUIT_FAULTS = ("<", "</a>", "<a>", "<a></b>", "<br>", "a < b", "]]>", "&#0;", "&#xD800;", "&#x;", "<a%1/>", "<a b/>", "<!-- -- -->", "<a b='<'/>",
               "<a b='1'c='2'/>", "<a b='1' b='2'/>", "<?xml?>", "<![CDATA[", "<!x>", "%4")  # fmt: skip
RUBY = ("%s", "%s", "%d", "%d", "%1$s", "%1$s", "%2$d", "%3$d", "%<a>s", "%<a>s", "%{a}", "%{b}", "%<b>d", "%5<b>.2d", "%x", "%f", "%c", "%p", "%%",
        "%5%", "%1$%", "%<a>%", "%*d", "%.*f", "%2$*1$d", "%-05.2f", "%4294967297$s")  # fmt: skip
RUBY_FAULTS = ("%", "%y", "%F", "%5-d", "%.5-d", "%.5*d", "%**d", "%..d", "%0$s", "%*0$d", "%1$2$d", "%<a>{b}", "%<a>1$d", "%<a", "%{a", "%1$", "%\u00e9")
# The other languages that are checked, each with directives and with faults. A loop of Lisp's is left to GNU msgfmt.
OTHERS = {
    "kde-format": (tuple(text for text in NUMBERS if text[1] not in "Ln0") + ("%1", "%2"), NUMBER_FAULTS),
    "qt-format": (NUMBERS, NUMBER_FAULTS),
    "qt-plural-format": (NUMBERS, NUMBER_FAULTS),
    "ycp-format": (("%1", "%1", "%2", "%2", "%3", "%9", "%%"), NUMBER_FAULTS),
    "perl-brace-format": (NAMES, NAME_FAULTS),
    "sh-format": (tuple(text for text in NAMES if text[0] == "$"), NAME_FAULTS),
    "php-format": (PHP, PHP_FAULTS),
    "perl-format": (PERL, PERL_FAULTS),
    "javascript-format": (SCRIPT, SCRIPT_FAULTS),
    "tcl-format": (TCL, TCL_FAULTS),
    "awk-format": (AWK, AWK_FAULTS),
    "lua-format": (LUA, LUA_FAULTS),
    "object-pascal-format": (PASCAL, PASCAL_FAULTS),
    "librep-format": (LIBREP, LIBREP_FAULTS),
    "smalltalk-format": (("%1", "%1", "%2", "%2", "%3", "%9", "%%"), NUMBER_FAULTS),
    "boost-format": (BOOST, BOOST_FAULTS),
    "csharp-format": (DOTNET, DOTNET_FAULTS),
    "kde-kuit-format": (KUIT, KUIT_FAULTS),
    "java-format": (JAVA, JAVA_FAULTS),
    "java-printf-format": (FORMATTER, FORMATTER_FAULTS),
    "gcc-internal-format": (GCC, GCC_FAULTS),
    "gfc-internal-format": (GFC, GFC_FAULTS),
    "objc-format": (OBJC, OBJC_FAULTS),
    "scheme-format": (SCHEME, SCHEME_FAULTS),
    "lisp-format": (LISP, LISP_FAULTS),
    "ruby-format": (RUBY, RUBY_FAULTS),
}
LANGUAGES = {"python-format": (PERCENT, PERCENT_FAULTS), "python-brace-format": (BRACE, BRACE_FAULTS), **OTHERS}
FAULT = re.compile(rb"^[^\n:]*:(\d+): (.*)$")
COUNT = re.compile(rb"^[^\n]*: found (\d+) fatal errors?$")
CUT = re.compile(rb"In the directive number \d+, '$")  # GNU msgfmt prints the NUL at the end of a text


def text_of(rng: random.Random, pieces: tuple[str, ...], faults: tuple[str, ...]) -> str:
    """A format of a few pieces, now and then with a fault."""
    chosen = [rng.choice(pieces) for _ in range(rng.choice((0, 1, 1, 2, 2, 3)))]
    if rng.random() < 0.15:
        chosen.insert(rng.randrange(len(chosen) + 1), rng.choice(faults))
    return rng.choice((" ", "", "x")).join(chosen)


def translation_of(rng: random.Random, original: str, pieces: tuple[str, ...], faults: tuple[str, ...]) -> str:
    """Often what the original has, in another order or with a piece changed."""
    if rng.random() < 0.5:
        return text_of(rng, pieces, faults)
    words = original.split(" ")
    rng.shuffle(words)
    if rng.random() < 0.4 and words:
        words[rng.randrange(len(words))] = rng.choice(pieces)
    return " ".join(words)


# A flag, with the directives of its texts and with faults.
Grammar = tuple[str, tuple[str, ...], tuple[str, ...]]


def chosen_python(rng: random.Random) -> Grammar:
    """A flag of Python's formats, or of both, with the directives of its texts and with faults."""
    flag = rng.choice(("python-format", "python-brace-format", "python-format, python-brace-format", "possible-python-format",
                       "python-format, no-python-format", "python-brace-format no-wrap"))  # fmt: skip
    return (flag, BRACE, BRACE_FAULTS) if flag.startswith("python-brace") else (flag, PERCENT, PERCENT_FAULTS)


def chosen_other(rng: random.Random) -> Grammar:
    """A flag of another language, now and then of a second one."""
    flag = rng.choice(list(OTHERS))
    second = f", {rng.choice(list(OTHERS))}" if rng.random() < 0.1 else ""
    return (flag + second, *OTHERS[flag])


def choices(flag: str | None) -> dict[str, Callable[[random.Random], Grammar]]:
    """How the files choose their flags, each kind by what its name begins with; of one flag, that alone."""
    if flag is None:
        return {"": chosen_python, OTHER: chosen_other}
    return {f"{OTHER}{flag}-": lambda _: (flag, *LANGUAGES[flag])}


def entry(rng: random.Random, number: int, has_plurals: bool, choose: Callable[[random.Random], Grammar]) -> str:
    """An entry flagged as a format."""
    flag, pieces, faults = choose(rng)
    original = text_of(rng, pieces, faults)
    lines = [f"#, {flag}", f'msgctxt "{number}"', f'msgid "{original}"' if original else 'msgid "x"']
    if rng.random() < 0.3 and has_plurals:
        plural = original if rng.random() < 0.7 else text_of(rng, pieces, faults)
        lines.append(f'msgid_plural "{plural}"')
        lines += [f'msgstr[{form}] "{translation_of(rng, plural, pieces, faults)}"' for form in (0, 1)]
    else:
        lines.append(f'msgstr "{translation_of(rng, original, pieces, faults)}"')
    return "\n".join(lines) + "\n\n"


def generated(seed: int, has_plurals: bool, choose: Callable[[random.Random], Grammar]) -> bytes:
    rng = random.Random(seed)
    return (HEADER + "".join(entry(rng, number, has_plurals, choose) for number in range(ENTRIES))).encode()


def answer(program: str, option: str, path: Path, environment: dict[str, str]) -> tuple[int, bytes]:
    """The status of a run, and its error output."""
    command = [program, option, "-o", "/dev/null", str(path)]
    run = subprocess.run(command, env=environment, capture_output=True, check=False, timeout=PATIENCE)
    return run.returncode, run.stderr


def faults_of(said: bytes) -> tuple[dict[int, bytes], int]:
    """The first fault of each line, and the number that is said of all."""
    first: dict[int, bytes] = {}
    count = 0
    for line in said.split(b"\n"):
        if (found := FAULT.match(line)) and not found[2].startswith(b"warning: "):
            first.setdefault(int(found[1]), found[2])
        elif found := COUNT.match(line):
            count = int(found[1])
    return first, count


class Comparison:
    """Both programs; only GNU msgfmt can be found by itself."""

    def __init__(self, driver: str, gnu: str) -> None:
        self.driver, self.gnu = driver, gnu
        self.environment = {**os.environ, "LC_ALL": "C", "PATH": "/nonexistent"}
        self.environment.pop("GNU_MSGFMT", None)
        self.environment.pop("MSGFMT_OR_GNU_LOG", None)

    def difference(self, path: Path, option: str) -> tuple[str, int]:
        """How the answers differ, or an empty string; and how many faults there are."""
        ours, said = answer(self.driver, option, path, self.environment)
        theirs, said_by_gnu = answer(self.gnu, option, path, self.environment)
        faults, count = faults_of(said)
        wanted, wanted_count = faults_of(said_by_gnu)
        if (ours, sorted(faults), count) != (theirs, sorted(wanted), wanted_count):
            lines = sorted(set(faults) ^ set(wanted))
            return f"{path} {option}: status {ours} and {theirs}, {count} and {wanted_count} faults, lines {lines[:5]}", 0
        for line, words in wanted.items():
            has_plural = b"msgstr[" in words or b"msgid_plural" in words
            is_compared = not has_plural and not path.name.startswith(OTHER)
            if words != faults[line] and is_compared and not CUT.search(words):
                return f"{path}:{line} {option}: {faults[line]!r} and {words!r}", 0
        return "", count


def report(name: str, found: list[tuple[str, int]]) -> bool:
    wrong = [why for why, _ in found if why]
    if wrong:
        print(f"FAILED {name}: {len(wrong)} of {len(found)} runs differ; " + "; ".join(wrong[:3])[:1200])
    else:
        print(f"ok {name}: {len(found)} runs, {sum(count for _, count in found)} faults, as GNU msgfmt has them")
    return not wrong


def main() -> None:
    parser = argparse.ArgumentParser(usage=__doc__)
    parser.add_argument("driver")
    parser.add_argument("gnu")
    parser.add_argument("room", type=Path)
    parser.add_argument("--files", type=int, default=40)
    parser.add_argument("--seed", type=int, default=1)
    parser.add_argument("--flag", choices=LANGUAGES)
    parser.add_argument("po", nargs="*", type=Path)
    arguments = parser.parse_intermixed_args()
    comparison = Comparison(arguments.driver, arguments.gnu)
    # (GNU msgfmt reads the plural rule with -c alone, and else compares the forms of a plural leniently)
    made: dict[str, list[Path]] = {"--check-format": [], "-c": []}
    for option, paths in made.items():
        for seed in range(arguments.seed, arguments.seed + arguments.files):
            for name, choose in choices(arguments.flag).items():
                paths.append(arguments.room / f"{name}{seed}{option}.po")
                paths[-1].write_bytes(generated(seed, option == "-c", choose))
    with ThreadPoolExecutor(4) as pool:
        done = [
            report(f"driver, formats, {name}, {option}",
                   list(pool.map(lambda path: comparison.difference(path, option), those)))
            for option, paths in made.items()
            for name, those in (("generated", paths), ("installed PO files", arguments.po))
            if those
        ]
    sys.exit(0 if all(done) else 1)


main()
