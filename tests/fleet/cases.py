"""What tests of a log over one server share."""
from __future__ import annotations

import unittest
from typing import Any

import psycopg

import servers
from kobdzila.fleet import Follower, Log
from stores import Catalogues


class LogCase(unittest.TestCase):
    """Each test begins with an empty log."""

    def setUp(self) -> None:
        self.address = servers.shared().address
        self.sql("drop schema if exists kobdzila cascade")
        self.log = Log(self.address)
        self.log.init()
        self.followers: list[Follower] = []
        self.addCleanup(self.log.close)

    def sql(self, text: str, *values: object) -> list[Any]:
        with psycopg.connect(self.address, autocommit=True) as connection:
            cursor = connection.execute(text, values)
            return cursor.fetchall() if cursor.description else []

    def follower(self, store: Any = None, machine: str = "m", **options: Any) -> Follower:
        made = Follower(Catalogues() if store is None else store, self.address, machine, **options)
        made.start()
        self.followers.append(made)
        self.addCleanup(made.close)
        return made

    def text(self, follower: Follower, domain: str = "app", at_least: int = 0) -> str:
        with follower.snapshot(at_least=at_least, within=100) as texts:
            found = texts.gettext(domain, "fr", "k1")
            return str(getattr(found, "text", found))  # (a Session's answers have a version as well)
