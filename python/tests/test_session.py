"""The client of catsession, over the program in the package."""
from __future__ import annotations

import os
import tempfile
import unittest
from collections.abc import Callable
from pathlib import Path
from typing import Any
from unittest import mock

import kobdzila
from common import in_threads
from kobdzila import LoadRefused, Session, SessionEnded, _session
from texts import FRENCH, french


def program() -> str | None:
    try:
        return _session._program()
    except FileNotFoundError:
        return None


@unittest.skipIf(program() is None, "no catsession in the package nor on the PATH")
class SessionTest(unittest.TestCase):
    def test_calls(self) -> None:
        with Session() as session:
            session.load("shop", "fr", FRENCH.encode())
            session.load_mo("shop", "fr_CA", french().mo_file())
            self.assertEqual(session.publish(), 2)
            self.assertEqual(session.gettext("shop", "fr", "basket"), (2, "panier"))
            self.assertEqual(session.pgettext("shop", "fr_CA:de", "verb", "order").text, "commander")
            self.assertEqual(session.ngettext("shop", "fr", "%d file", "%d files", 2).text, "%d fichiers supprimés")
            self.assertEqual(session.npgettext("shop", "fr", "menu", "%d item", "", 1).text, "%d article")
            self.assertEqual(session.ngettext("shop", "fr", "%d file", "%d files", True).text, "%d fichier supprimé")
            self.assertEqual(session.gettext("shop", "fr", "a\tb\\n\n").text, "a\tb\\n\n")
            answers = session.ask("shop", "de", ("gettext", "x"), ("ngettext", "a", "b", 2))
            self.assertEqual(answers, [(2, "x"), (2, "b")])

    def test_mo_files_and_the_version(self) -> None:
        with Session() as session:
            self.assertEqual(session.version, 0)
            session.load("shop", "fr", french().mo_file())
            self.assertEqual((session.version, session.publish(), session.version), (0, 1, 1))
            self.assertEqual(session.gettext("shop", "fr", "basket"), (1, "panier"))
            session.load("shop", "de", french().mo_file()[:40])
            with self.assertRaises(LoadRefused):
                session.publish()
            self.assertEqual(session.version, 1)

    def test_refusals(self) -> None:
        with Session() as session:
            session.load("shop", "fr", b'msgid "a"\n\nmessage')
            session.load("shop", "de", b"")
            session.load("a b", "de", b"")
            with self.assertRaises(LoadRefused) as caught:
                session.publish()
            self.assertEqual((caught.exception.version, caught.exception.refusals[0][:3]), (1, ("shop", "fr", 5)))
            self.assertEqual(caught.exception.refusals[1], ("a b", "de", None, None))
            self.assertIn("fr in shop: fault 5, line 3", str(caught.exception))
            two: Any = "2"
            calls: list[Callable[[], object]] = [
                lambda: session.load("shop", "fr", b"", "x"),
                lambda: session.load("shop", "fr", b"\xff"),
                lambda: session.load("sh\top", "fr", b""),
                lambda: session.ngettext("shop", "fr", "a", "b", -1),
                lambda: session.ngettext("shop", "fr", "a", "b", two),
                lambda: session.ask("shop", "fr", ("gettext", "a", "b")),
                lambda: session.load_mo("shop", "fr", b"x" * 40_000_000),
            ]
            for call in calls:
                with self.assertRaises(ValueError):
                    call()
            self.assertEqual(session.gettext("shop", "fr", "a").text, "a")

    def test_names_and_numbers(self) -> None:
        """What has no place in a line is refused, and nothing is sent."""
        with Session() as session:
            for name in ("a\tb", "a\nb"):
                with self.assertRaises(ValueError):
                    session.gettext(name, "fr", "basket")
                with self.assertRaises(ValueError):
                    session.load("shop", name, FRENCH.encode())
            for number in (-1, 1 << 64):
                with self.assertRaises(ValueError):
                    session.ngettext("shop", "fr", "%d file", "%d files", number)
            self.assertEqual(session.ngettext("shop", "fr", "a", "b", (1 << 64) - 1), (0, "b"))

    def test_end(self) -> None:
        session = Session()
        session._process.kill()
        session._process.wait()
        for _ in range(2):
            with self.assertRaises(SessionEnded):
                session.gettext("shop", "fr", "a")
        with Session() as session, mock.patch.object(session, "_from") as pipe:
            pipe.readline.return_value = b"version\t1"  # (it ended within a line)
            with self.assertRaises(SessionEnded):
                session.gettext("shop", "fr", "a")
        session = Session(program())
        session.close()
        session.close()
        with self.assertRaisesRegex(SessionEnded, "closed"):
            session.publish()

    def test_interrupted(self) -> None:
        """A session that is interrupted in a round has ended: the next one would get the answers of this one."""
        with Session() as session:
            session.load("shop", "fr", FRENCH.encode())
            session.publish()
            with mock.patch.object(session, "_from") as pipe, self.assertRaises(KeyboardInterrupt):
                pipe.readline.side_effect = KeyboardInterrupt
                session.gettext("shop", "fr", "basket")
            with self.assertRaises(SessionEnded) as ended:
                session.gettext("shop", "fr", "x")
        self.assertEqual(str(ended.exception), "interrupted in a round")

    def test_threads(self) -> None:
        wrong: list[object] = []
        with Session() as session:
            session.load("shop", "fr", FRENCH.encode())
            session.publish()

            def ask() -> None:
                for n in range(200):
                    answer = session.ngettext("shop", "fr", "%d file", "%d files", n)
                    if answer.text != ("%d fichiers supprimés" if n > 1 else "%d fichier supprimé"):
                        wrong.append(answer)

            in_threads(*[ask] * 4)
        self.assertEqual(wrong, [])

    def test_program(self) -> None:
        found = str(program())
        with mock.patch.object(_session, "BUNDLED", Path("/none")), tempfile.TemporaryDirectory() as room:
            with mock.patch.dict(os.environ, PATH=room):
                with self.assertRaises(FileNotFoundError):
                    kobdzila.Session()
                os.symlink(found, Path(room, "catsession"))
                self.assertEqual(_session._program(), str(Path(room, "catsession")))
                kobdzila.Session().close()


if __name__ == "__main__":
    unittest.main()
