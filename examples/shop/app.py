"""A shop whose page is in five languages. Its catalogues are edited while it runs.

    python examples/shop/app.py

Open http://127.0.0.1:8000/ and edit locale/fr/LC_MESSAGES/shop.po next to this file: the next page shows the new texts,
and a new version. If the text is refused, the log has its line, and the old texts stay.
"""
from __future__ import annotations

import argparse
from pathlib import Path
from typing import Any

from flask import Flask, render_template, request
from werkzeug.serving import make_server
from werkzeug.wrappers import Request

import kobdzila

LANGUAGES = {"en": "English", "de": "Deutsch", "fr": "Français", "sl": "Slovenščina", "ar": "العربية"}
COUNTS = (1, 2, 3, 5)


def wanted(environ: dict[str, Any]) -> str:
    """Return the language that the address names, or else what the browser prefers."""
    named: str = Request(environ).args.get("lang", "")
    return named if named in LANGUAGES else environ.get("HTTP_ACCEPT_LANGUAGE", "")


def texts() -> kobdzila.Snapshot:
    """Return the texts of this request, which are all of one version."""
    found: kobdzila.Snapshot = request.environ["kobdzila.snapshot"]
    return found


def create_app(folder: Path = Path(__file__).with_name("locale"), every: float = 1.0) -> Flask:
    """Return the application. It looks for new catalogues in `folder` at intervals of `every` seconds."""
    app, store = Flask(__name__), kobdzila.Store("shop")

    def refused(file: kobdzila.FileRefused) -> None:
        app.logger.warning("%s: the old texts stay", file)

    store.watch(folder, every=every, checked=True, refused=refused)
    setattr(app, "wsgi_app", kobdzila.WSGIMiddleware(app.wsgi_app, store, languages=wanted, vary=["Accept-Language"]))
    app.jinja_env.add_extension("jinja2.ext.i18n")
    getattr(app.jinja_env, "install_gettext_translations")(kobdzila.LazyTranslations(texts), newstyle=True)

    @app.get("/")
    def page() -> str:
        return render_template(
            "page.html", texts=texts(), languages=LANGUAGES, direction=kobdzila.direction, counts=COUNTS
        )

    return app


def main() -> None:
    parser = argparse.ArgumentParser(description="A shop whose page is in five languages.")
    parser.add_argument("--port", type=int, default=8000, help="0 for any that is free (default: 8000)")
    parser.add_argument("--folder", type=Path, default=Path(__file__).with_name("locale"), help="of the catalogues")
    parser.add_argument("--every", type=float, default=1.0, help="seconds between two looks at them (default: 1)")
    options = parser.parse_args()
    server = make_server("127.0.0.1", options.port, create_app(options.folder, options.every), threaded=True)
    print(f"http://127.0.0.1:{server.server_port}/", flush=True)
    server.serve_forever()


if __name__ == "__main__":
    main()
