#!/usr/bin/env python3
"""Talks to the server of examples/rust/server from eight threads while its catalogues are replaced and one is spoiled.

    tests/rust/rust_server.py SERVER FOLDER
"""
import http.client
import os
import re
import subprocess
import sys
import threading
import time
from pathlib import Path

LOCALES = ("fr", "de", "pt_BR", "zh_Hant")
ROUNDS = 25
NAME = "the server in Rust"
PAGE = re.compile(
    r'<!DOCTYPE html>\n<html lang="([^"]*)">\n.*<h1>(.*)</h1>\n<p>(.*)</p>\n<p>(.*)</p>', re.S
)
# a header, and the language that RFC 4647 looks up for it among those that there are
WANTED = (
    ("fr", "fr"),
    ("fr-CA, en;q=0.5", "fr"),
    ("sv, de;q=0.5, fr;q=0.4", "de"),
    ("en, de;q=0.9", "en"),
    ("pt-BR", "pt-BR"),
    ("pt", "en"),
    ("zh-TW, zh;q=0.9", "zh-Hant"),
    ("sv", "en"),
    ("*", "en"),
    ("fr:de", "en"),
    ("x, " * 20_000 + "fr", "en"),
    ("", "en"),
)


def catalogue(locale, number):
    """A PO text, all of whose messages have this number."""
    mark = f"{locale} {number}"
    return f"""msgid ""
msgstr "Content-Type: text/plain; charset=UTF-8\\nPlural-Forms: nplurals=2; plural=n>1;\\n"
msgid "The garden in winter"
msgstr "{mark} <b>"
msgid "{{n}} tomato is left."
msgid_plural "{{n}} tomatoes are left."
msgstr[0] "{mark} une"
msgstr[1] "{mark} {{n}}"
msgid "Texts of version {{version}}"
msgstr "{mark} {{version}}"
"""


def put(folder, locale, text):
    messages = folder / locale / "LC_MESSAGES"
    messages.mkdir(parents=True, exist_ok=True)
    (folder.parent / "new").write_text(text, encoding="utf-8")
    os.replace(folder.parent / "new", messages / "garden.po")


class Client:
    def __init__(self, port):
        self.connection = http.client.HTTPConnection("127.0.0.1", port, timeout=60)

    def get(self, path, accepted=None):
        headers = {} if accepted is None else {"Accept-Language": accepted}
        self.connection.request("GET", path, headers=headers)
        response = self.connection.getresponse()
        return response, response.read().decode()

    def page(self, accepted, n=3):
        """The page's language and its number; its texts are all of one version, and the headers say what it is."""
        response, text = self.get(f"/{n}", accepted)
        assert response.status == 200, response.status
        assert response.getheader("Vary") == "Accept-Language"
        tag, *texts = PAGE.match(text).groups()
        assert response.getheader("Content-Language") == tag
        if tag == "en":
            version = re.fullmatch(r"Texts of version (\d+)", texts[2])[1]
            assert texts[:2] == ["The garden in winter", f"{n} tomatoes are left."], texts
            return tag, 0, int(version)
        mark = re.match(r"\S+ \d+", texts[0])[0]
        assert texts[0] == f"{mark} &lt;b&gt;" and texts[1] == f"{mark} {n}" and texts[2].startswith(mark), texts
        assert mark.split()[0] == tag.replace("-", "_")
        return tag, int(mark.split()[1]), int(texts[2].split()[2])


def waits(what, is_so):
    end = time.monotonic() + 60
    while not is_so():
        assert time.monotonic() < end, f"after a minute: not {what}"
        time.sleep(0.005)


def check(name, test):
    try:
        test()
        print(f"ok {NAME}, {name}", flush=True)
    except Exception as why:
        print(f"FAILED {NAME}, {name}: {type(why).__name__} {why}", flush=True)


def main():
    program, room = sys.argv[1], Path(sys.argv[2])
    folder = room / "locale"
    for locale in LOCALES:
        put(folder, locale, catalogue(locale, 0))
    with open(room / "log", "w") as log:
        server = subprocess.Popen([program, folder, "127.0.0.1:0", "8"], stdout=subprocess.PIPE, stderr=log, text=True)
    port = int(re.fullmatch(r"http://127\.0\.0\.1:(\d+)/\n", server.stdout.readline())[1])
    client = Client(port)

    def languages():
        for accepted, tag in WANTED:
            assert client.page(accepted)[0] == tag, accepted[:60]
        assert client.page(None)[0] == "en"
        assert "fr 0 une" in client.get("/", "fr")[1]
        assert client.get("/no")[0].status == 404

    def replaced():
        stop, wrong, counts = threading.Event(), [], []

        def ask(number):
            mine, last, count = Client(port), {}, 0
            try:
                while not stop.is_set():
                    tag, mark, version = mine.page(LOCALES[number % len(LOCALES)].replace("_", "-"))
                    assert (mark, version) >= last.get(tag, (0, 0)), "a reader's texts went back"
                    last[tag] = mark, version
                    count += 1
            except Exception as why:
                wrong.append(f"{type(why).__name__} {why}")
            counts.append(count)

        threads = [threading.Thread(target=ask, args=(number,)) for number in range(8)]
        for thread in threads:
            thread.start()
        for number in range(1, ROUNDS + 1):
            for locale in LOCALES:
                put(folder, locale, catalogue(locale, number))
            waits(f"round {number}", lambda: wrong or client.page("zh-Hant")[1] == number)
        stop.set()
        for thread in threads:
            thread.join()
        assert not wrong, wrong[0]
        assert min(counts) > 0

    def spoiled():
        put(folder, "fr", catalogue("fr", ROUNDS + 1).replace("msgstr[1]", "msgstr[7]"))
        line = f"{folder}/fr/LC_MESSAGES/garden.po:8: "
        waits("reported", lambda: line in (room / "log").read_text())
        assert client.page("fr")[1] == ROUNDS
        put(folder, "fr", catalogue("fr", ROUNDS + 2))
        waits("mended", lambda: client.page("fr")[1] == ROUNDS + 2)
        assert (room / "log").read_text().count("\n") == 1, (room / "log").read_text()

    check(f"the language of {len(WANTED)} headers", languages)
    check(f"{ROUNDS} times four catalogues replaced under eight clients", replaced)
    check("a spoiled catalogue", spoiled)
    server.terminate()
    server.wait()


main()
