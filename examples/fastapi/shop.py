"""A FastAPI application whose answers are in the language of the request, and whose catalogues are edited while it runs.

    LOCALEDIR=examples/shop/locale uvicorn --app-dir examples/fastapi shop:app
    curl -H 'Accept-Language: fr' http://localhost:8000/3

Each worker loads the catalogues of LOCALEDIR/LANGUAGE/LC_MESSAGES/ when it starts, and watches them until it ends.
"""
from __future__ import annotations

import os

from fastapi import FastAPI, Request

import kobdzila

store = kobdzila.Store("shop")
app = FastAPI()
app.add_middleware(kobdzila.ASGIMiddleware, store=store, watch=os.environ.get("LOCALEDIR", "locale"))


@app.get("/{count}")
async def basket(request: Request, count: int) -> dict[str, object]:
    """Return a text of the page, its language, and the version of the catalogues that it is from."""
    texts: kobdzila.Snapshot = request.scope["kobdzila.snapshot"]
    line = texts.ngettext("%(num)s apple in the basket", "%(num)s apples in the basket", count) % {"num": count}
    return {"text": line, "lang": texts.lang, "version": texts.version}
