#!/usr/bin/env python3
"""The Python client of examples/python over a live session: a table of steps with their answers, and the application,
which is asked by 8 threads while its catalogues are replaced 100 times.

    tests/scripts/session_clients.py PROGRAM      prints lines `ok ..` and `FAILED ..`
"""
import http.client
import os
import sys
import tempfile
import threading
from pathlib import Path

TOP = Path(__file__).resolve().parents[2]
sys.path.insert(0, str(TOP / "examples/python"))
from application import Application, Catalogues, languages_of, serve  # noqa: E402
from session import LoadRefused, MOST_LINES, Session, SessionEnded  # noqa: E402

PROGRAM = os.path.abspath(sys.argv[1])
PATIENCE = 20 * int(os.environ.get("SLOWER", "1"))  # seconds
THREADS, REPLACEMENTS = 8, 100

POLISH = rb"""msgid ""
msgstr "Content-Type: text/plain; charset=UTF-8\nPlural-Forms: nplurals=3; plural=n==1 ? 0 : n%10>=2 && n%10<=4 && (n%100<10 || n%100>=20) ? 1 : 2;\n"
msgid "file"
msgid_plural "files"
msgstr[0] "plik"
msgstr[1] "pliki"
msgstr[2] "plikow"
msgctxt "menu"
msgid "open"
msgstr "otworz"
msgctxt "menu"
msgid "tab"
msgid_plural "tabs"
msgstr[0] "karta"
msgstr[1] "karty"
msgstr[2] "kart"
"""
TEXTS = b'msgid "a\\tb\\nc\\\\d"\nmsgstr "x\\ty\\nz\\\\w\\r"\nmsgid "hi"\nmsgstr "salut"\n#, fuzzy\nmsgid "f"\nmsgstr "g"\n'
# the MO file that GNU msgfmt --no-hash writes of `hi` = `salut`
MO = bytes.fromhex(
    "de120495 00000000 01000000 1c000000 24000000 00000000 2c000000"
    "02000000 2c000000 05000000 2f000000 686900 73616c757400"
)

# a call of the session, and what it answers: (version, text), a version, None, or a fault with what it tells
STEPS = [
    ("gettext", ("app", "fr", "hi"), (0, "hi")),
    ("publish", (), 0),
    ("load", ("app", "pl", POLISH, "c"), None),
    ("load", ("app", "fr", TEXTS), None),
    ("gettext", ("app", "fr", "hi"), (0, "hi")),
    ("publish", (), 2),
    ("publish", (), 2),
    ("gettext", ("app", "fr", "hi"), (2, "salut")),
    ("gettext", ("app", "sv:fr_CA:pl", "hi"), (2, "salut")),
    ("gettext", ("app", "fr:C", "a\tb\nc\\d"), (2, "x\ty\nz\\w\r")),
    ("gettext", ("app", "C:fr", "hi"), (2, "hi")),
    ("gettext", ("app", "", "\\n\t\n\\"), (2, "\\n\t\n\\")),
    ("gettext", ("other", "fr", "hi"), (2, "hi")),
    ("gettext", ("app", "fr", ""), (2, "")),
    ("gettext", ("app", "fr", "f"), (2, "f")),
    ("ngettext", ("app", "pl", "file", "files", 1), (2, "plik")),
    ("ngettext", ("app", "pl", "file", "files", 22), (2, "pliki")),
    ("ngettext", ("app", "fr:pl", "file", "files", 5), (2, "plikow")),
    ("ngettext", ("app", "fr", "file", "files", 0), (2, "files")),
    ("ngettext", ("app", "fr", "file", "files", 2**64 - 1), (2, "files")),
    ("pgettext", ("app", "pl", "menu", "open"), (2, "otworz")),
    ("pgettext", ("app", "pl", "bar", "open"), (2, "open")),
    ("npgettext", ("app", "pl", "menu", "tab", "tabs", 3), (2, "karty")),
    ("npgettext", ("app", "pl", "menu", "tab", "tabs", 0), (2, "kart")),
    ("npgettext", ("app", "pl", "bar", "tab", "tabs", 1), (2, "tab")),
    ("load", ("app", "fr", TEXTS, "f"), None),
    ("publish", (), 3),
    ("gettext", ("app", "fr", "f"), (3, "g")),
    # an MO file, followed by the newest text of the same locale
    ("load_mo", ("app", "sv", MO), None),
    ("load", ("app", "sv", b'msgid "hi"\nmsgstr "hej"'), None),
    ("publish", (), 5),
    ("gettext", ("app", "sv", "hi"), (5, "hej")),
    ("load_mo", ("app", "sv", MO), None),
    ("publish", (), 6),
    ("gettext", ("app", "sv", "hi"), (6, "salut")),
    # refusals, which leave what else was accepted in the round
    ("load", ("app", "fr", b'msgid "a"\nmsgstr "x"\nmsgid "a"\nmsgstr "y"\n'), None),
    ("load", ("app", "de", b'msgid "hi"\nmsgstr "hallo"\n'), None),
    ("load", ("a b", "fr", b""), None),
    ("load_mo", ("app", "fr", MO[:-1]), None),
    ("publish", (), [("app", "fr", 9, 3), ("a b", "fr", None, None), ("app", "fr", 5, None)]),
    ("gettext", ("app", "de", "hi"), (7, "hallo")),
    ("gettext", ("app", "fr", "hi"), (7, "salut")),
    ("load", ("app", "de", b"msgid"), None),
    ("publish", (), [("app", "de", 7, 1)]),
    # what is no round: nothing is sent, and the session goes on
    ("gettext", ("app\n", "fr", "hi"), ValueError),
    ("gettext", ("app", "f\tr", "hi"), ValueError),
    ("ngettext", ("app", "fr", "file", "files", -1), ValueError),
    ("ngettext", ("app", "fr", "file", "files", 2**64), ValueError),
    ("gettext", ("app", "fr", "\ud800"), ValueError),
    ("load", ("app", "fr", b"# \xff\n"), ValueError),
    ("load", ("app", "fr", b"", "cc"), ValueError),
    ("load", ("app", "fr\n", b""), ValueError),
    ("load", ("app", "fr", b"#" * MOST_LINES), ValueError),
    ("ask", ("app", "fr", ("gettext", "x", "y")), ValueError),
    ("ask", ("app", "fr"), []),
    ("ask", ("app", "fr", ("gettext", "hi"), ("ngettext", "a", "b", 1), ("pgettext", "c", "d")), [(7, "salut"), (7, "a"), (7, "d")]),
    ("load", ("app", "fr", b""), None),
    ("publish", (), 8),
    ("gettext", ("app", "fr", "hi"), (8, "hi")),
]


def report(name, wrong, more=""):
    print(f"FAILED session, {name}: {str(wrong)[:400]}" if wrong else f"ok session, {name}{more}", flush=True)


def taken(session, call, words):
    """What a call of the session answers, in the form of the table."""
    try:
        return getattr(session, call)(*words)
    except LoadRefused as refused:
        return refused.refusals
    except ValueError:
        return ValueError


def steps():
    wrong = []
    with Session(PROGRAM) as session:
        for number, (call, words, wanted) in enumerate(STEPS):
            if (got := taken(session, call, words)) != wanted:
                wrong.append(f"step {number}, {call}{str(words)[:80]}: {got} and not {wanted}")
    report("the Python client", wrong[:3], f": {len(STEPS)} steps")


def ends():
    """A session whose process has gone, and one that is closed, tell so, again and again."""
    wrong = []
    session = Session(PROGRAM)
    session._process.stdin.write(b"go\ngone\n")  # (as no call of the client does)
    session._process.stdin.flush()
    for _ in range(2):
        wrong += told(session, "catsession:2: bad line")
    session = Session(PROGRAM)
    session._process.kill()
    session._process.wait()
    wrong += told(session, "it ended")
    session = Session(PROGRAM)
    session.close()
    session.close()
    wrong += told(session, "closed")
    report("a Python client whose session has ended", wrong)


def told(session, wanted):
    for call in (session.publish, lambda: session.gettext("app", "fr", "hi")):
        try:
            # (the first answer is that of the round which was sent by hand)
            call()
            call()
        except SessionEnded as ended:
            if str(ended) != wanted:
                return [f"it told '{ended}' and not '{wanted}'"]
        else:
            return [f"it did not tell '{wanted}'"]
    return []


ACCEPTED = [
    ("", ""),
    ("fr", "fr"),
    ("fr-CA, de;q=0.5", "fr_CA:de"),
    ("de;q=0.5,fr-ca;q=0.8, en", "en:fr_CA:de"),
    ("de;q=0, sv", "sv"),
    ("*, fr;q=0.1", "fr"),
    ("x:y, \u00e9;q=z, FR", "fr"),
    ("de;q=0.5;x=1, fr", "fr"),
]


def accepted():
    got = [(value, languages_of(value)) for value, _ in ACCEPTED]
    report("Accept-Language", [it for it in zip(got, ACCEPTED) if it[0] != it[1]])


def po(word, rule, one, many):
    return (
        f'msgid ""\nmsgstr "Content-Type: text/plain; charset=UTF-8\\nPlural-Forms: nplurals=2; plural={rule};\\n"\n'
        f'msgid "basket"\nmsgstr "{word}"\nmsgid "%d item"\nmsgid_plural "%d items"\nmsgstr[0] "{one}"\nmsgstr[1] "{many}"\n'
    )


def replace(folder, turn):
    """Writes both catalogues of this turn; a file is renamed when it is whole."""
    texts = {
        "fr": po(f"panier {turn}", "n>1", f"%d article {turn}", f"%d articles {turn}"),
        "de": po(f"Korb {turn}", "n!=1", f"%d Artikel {turn}", f"%d Artikeln {turn}"),
    }
    for locale, text in texts.items():
        (folder / "new").write_text(text)
        (folder / "new").rename(folder / f"{locale}.po")


# the header of a request, the number, and the page with the turn of the catalogues; turn 0 is before any load
QUESTIONS = [
    ("fr-CA, de;q=0.5", 0, "panier {0}: 0 article {0}\n"),
    ("fr", 7, "panier {0}: 7 articles {0}\n"),
    ("de, fr", 0, "Korb {0}: 0 Artikeln {0}\n"),
    ("sv, de;q=0.3", 1, "Korb {0}: 1 Artikel {0}\n"),
    ("sv", 1, "basket: 1 item\n"),
]


class Asker(threading.Thread):
    """Asks the application until it is to stop, and sees that each page is that of its version."""

    def __init__(self, port, stop):
        super().__init__(daemon=True)
        self.port, self.stop, self.wrong, self.versions, self.pages = port, stop, [], set(), 0

    def run(self):
        try:
            last = 0
            while not self.stop.is_set() and not self.wrong:
                last = self.ask(*QUESTIONS[self.pages % len(QUESTIONS)], last)
                self.pages += 1
        except Exception as fault:  # (an asker that ends early has to be told)
            self.wrong.append(repr(fault))

    def ask(self, languages, number, page, last):
        connection = http.client.HTTPConnection("localhost", self.port, timeout=PATIENCE)
        connection.request("GET", f"/{number}", headers={"Accept-Language": languages})
        answer = connection.getresponse()
        got, version = answer.read().decode(), int(answer.headers["Catalogue-Version"])
        connection.close()
        # (each turn publishes two loads in one step)
        if version % 2 or got != page.format(version // 2):
            self.wrong.append(f"'{got}' of version {version} for {languages}")
        if version < last:
            self.wrong.append(f"version {version} behind {last}")
        self.versions.add(version)
        return version


def application():
    wrong, stop = [], threading.Event()
    with tempfile.TemporaryDirectory() as room, Session(PROGRAM) as session:
        catalogues = Catalogues(session, room)
        replace(Path(room), 1)
        catalogues.load_changed()
        with serve(Application(session), 0) as server:
            threading.Thread(target=server.serve_forever, daemon=True).start()
            askers = [Asker(server.server_port, stop) for _ in range(THREADS)]
            for it in askers:
                it.start()
            for turn in range(2, REPLACEMENTS + 2):
                replace(Path(room), turn)
                if (version := catalogues.load_changed()) != 2 * turn:
                    wrong.append(f"turn {turn} was published as {version}")
                stop.wait(0.01)
            stop.set()
            for it in askers:
                it.join()
            server.shutdown()
    wrong += [why for it in askers for why in it.wrong]
    pages, versions = sum(it.pages for it in askers), len(set().union(*(it.versions for it in askers)))
    if versions < 10:
        wrong.append(f"only {versions} versions were seen")
    report("the application", wrong[:3], f": {pages} pages of {versions} versions, {REPLACEMENTS} replacements, {THREADS} threads")


def watcher():
    """The thread that looks at a folder loads what has changed, and tells what was refused."""
    wrong, stop = [], threading.Event()
    with tempfile.TemporaryDirectory() as room, Session(PROGRAM) as session:
        catalogues = Catalogues(session, room)
        thread = threading.Thread(target=catalogues.watch, args=(stop, 0.01), daemon=True)
        thread.start()
        for turn, wanted in enumerate(["panier 1", "panier 2"], 1):
            replace(Path(room), turn)
            for _ in range(2000):
                answer = session.gettext("shop", "fr", "basket")
                if answer.text == wanted or stop.wait(0.01):
                    break
            if answer.text != wanted:
                wrong.append(f"{answer} and not {wanted}")
        stop.set()
        thread.join()
    report("the application's second thread", wrong)


for test in (steps, ends, accepted, application, watcher):
    try:
        test()
    except Exception as fault:  # noqa: BLE001 (a test that breaks has failed)
        report(test.__name__, repr(fault))
