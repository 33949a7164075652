"""A Flask application whose page is in the language of the request, from MO files that are read once.

    FLASK_APP=examples/flask/shop.py flask run
    curl -H 'Accept-Language: fr' http://localhost:5000/3

The catalogues are LOCALEDIR/LANGUAGE/LC_MESSAGES/shop.mo; LOCALEDIR is `locale` unless the environment names another.
"""
from __future__ import annotations

import os
from pathlib import Path

from flask import Flask, Response, g, render_template_string, request

import kobdzila

SOURCE = "en"  # the language of the messages in the program
PAGE = """\
<!doctype html>
<html lang="{{ g.lang }}" dir="{{ direction(g.lang) }}">
<meta charset="utf-8">
<meta name="viewport" content="width=device-width, initial-scale=1">
<title>{{ gettext('basket') }}</title>
<main>{{ gettext('basket') }}: {{ ngettext('%(num)s file', '%(num)s files', count) }}</main>
</html>
"""


def create_app(folder: str = os.environ.get("LOCALEDIR", "locale")) -> Flask:
    """Return the application, with the catalogues of a folder."""
    languages = sorted(path.parts[-3] for path in Path(folder).glob("*/LC_MESSAGES/shop.mo"))
    catalogues: dict[str, kobdzila.NullTranslations] = {
        name: kobdzila.translation("shop", folder, [name]) for name in languages
    }
    catalogues.setdefault(SOURCE, kobdzila.NullTranslations())
    app = Flask(__name__)
    app.jinja_env.add_extension("jinja2.ext.i18n")
    getattr(app.jinja_env, "install_gettext_callables")(
        lambda message: g.translations.gettext(message),
        lambda singular, plural, n: g.translations.ngettext(singular, plural, n),
        newstyle=True,
    )

    @app.before_request
    def choose() -> None:
        chosen = kobdzila.negotiate(request.headers.get("Accept-Language", ""), catalogues) or SOURCE
        g.translations, g.lang = catalogues[chosen], kobdzila.language_tag(chosen)

    @app.after_request
    def describe(response: Response) -> Response:
        response.vary.add("Accept-Language")
        response.content_language.add(g.lang)
        return response

    @app.get("/<int:count>")
    def page(count: int) -> str:
        return render_template_string(PAGE, count=count, direction=kobdzila.direction)

    return app
