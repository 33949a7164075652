#!/usr/bin/env python3
"""A small WSGI application that answers in the language of the request, while its catalogues are replaced.

    examples/python/application.py FOLDER [--port 8000] [--program catsession]      where FOLDER has fr.po, de.po, ..
    curl -H 'Accept-Language: fr-CA, de;q=0.5' http://localhost:8000/3

A second thread looks at the folder each second, and loads the files that have changed. A page is of one version of all
catalogues, which the header Catalogue-Version names.
"""
import argparse
import sys
import threading
from pathlib import Path
from socketserver import ThreadingMixIn
from wsgiref.simple_server import WSGIRequestHandler, WSGIServer, make_server

from session import LoadRefused, Session

DOMAIN = "shop"


def languages_of(accepted):
    """The value of Accept-Language as a list of languages for gettext: `fr-CA, de;q=0.5` is `fr_CA:de`."""
    weighed = []
    for index, member in enumerate(accepted.split(",")):
        tag, _, weight = member.partition(";")
        try:
            value = float(weight.strip().removeprefix("q=") or 1)
        except ValueError:
            value = 0
        language, _, region = tag.strip().partition("-")
        if value > 0 and language.isalpha() and (region == "" or region.isalnum()):
            weighed.append((-value, index, language.lower() + (f"_{region.upper()}" if region else "")))
    return ":".join(name for _, _, name in sorted(weighed))


class Application:
    def __init__(self, session):
        self.session = session

    def __call__(self, environ, start_response):
        count = environ.get("PATH_INFO", "/").strip("/")
        if not (count.isascii() and count.isdigit() and len(count) < 10):
            start_response("404 Not Found", [("Content-Type", "text/plain; charset=utf-8")])
            return [b"ask for a number of items\n"]
        basket, items = self.session.ask(
            DOMAIN,
            languages_of(environ.get("HTTP_ACCEPT_LANGUAGE", "")),
            ("gettext", "basket"),
            ("ngettext", "%d item", "%d items", int(count)),
        )
        page = f"{basket.text}: {items.text.replace('%d', count)}\n".encode()
        headers = [("Content-Type", "text/plain; charset=utf-8"), ("Content-Length", str(len(page)))]
        headers += [("Vary", "Accept-Language"), ("Catalogue-Version", str(basket.version))]
        start_response("200 OK", headers)
        return [page]


class Catalogues:
    """The PO files of a folder, each named by its locale."""

    def __init__(self, session, folder):
        self.session, self.folder, self.seen = session, Path(folder), {}

    def load_changed(self):
        """Loads the files that have changed, and publishes them in one step; the version, or None where none has."""
        now = {path: path.stat().st_mtime_ns for path in sorted(self.folder.glob("*.po"))}
        changed = [path for path in now if self.seen.get(path) != now[path]]
        self.seen = now
        for path in changed:
            try:
                self.session.load(DOMAIN, path.stem, path.read_bytes(), "c")
            except ValueError as fault:
                print(f"{path}: {fault}", file=sys.stderr)
        if not changed:
            return None
        try:
            return self.session.publish()
        except LoadRefused as refused:
            print(refused, file=sys.stderr)
            return refused.version

    def watch(self, stop, seconds=1.0):
        """Looks at the folder until it is to stop."""
        while not stop.wait(seconds):
            try:
                self.load_changed()
            except OSError as fault:
                print(fault, file=sys.stderr)


class Server(ThreadingMixIn, WSGIServer):
    """A thread for each request."""

    daemon_threads = True
    request_queue_size = 64


class Handler(WSGIRequestHandler):
    def log_message(self, *_):
        pass


def serve(application, port):
    """A server of the application, which is still to be started."""
    return make_server("localhost", port, application, server_class=Server, handler_class=Handler)


def main():
    words = argparse.ArgumentParser(description="Answers in the language of the request.")
    words.add_argument("folder")
    words.add_argument("--port", type=int, default=8000)
    words.add_argument("--program", default="catsession")
    asked = words.parse_args()
    with Session(asked.program) as session:
        catalogues, stop = Catalogues(session, asked.folder), threading.Event()
        catalogues.load_changed()
        threading.Thread(target=catalogues.watch, args=(stop,), daemon=True).start()
        with serve(Application(session), asked.port) as server:
            print(f"http://localhost:{server.server_port}/3", flush=True)
            try:
                server.serve_forever()
            except KeyboardInterrupt:
                stop.set()


if __name__ == "__main__":
    main()
