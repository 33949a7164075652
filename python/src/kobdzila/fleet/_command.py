"""The program kob-fleet: its arguments. What its commands do is in _actions, which needs psycopg."""
from __future__ import annotations

import argparse
import io
import os
import sys
import uuid
from collections.abc import Sequence
from typing import NoReturn

from .._kobdzila import version as package_version

DATABASE = "KOB_FLEET_DATABASE"
USAGE = 64  # EX_USAGE of sysexits.h; 2 is for an answer that was lost
DAY = 86_400.0


class Parser(argparse.ArgumentParser):
    """Reports wrong arguments with a status of their own."""

    def error(self, message: str) -> NoReturn:
        self.print_usage(sys.stderr)
        self.exit(USAGE, f"{self.prog}: {message}\n")


def main(arguments: Sequence[str] | None = None) -> int:
    """Run kob-fleet, and return its status."""
    options = parser().parse_args(arguments)
    if isinstance(sys.stdout, io.TextIOWrapper):
        sys.stdout.reconfigure(errors="backslashreplace")  # (names and notes may have what the locale's charset lacks)
    try:
        from ._actions import run
    except ImportError as why:
        if why.name not in (None, "psycopg"):
            raise
        print(f"kob-fleet: needs psycopg 3 ({why}): pip install 'psycopg>=3.1', or apt install python3-psycopg",
              file=sys.stderr)
        return 1
    return run(options)


def parser() -> argparse.ArgumentParser:
    made = Parser(prog="kob-fleet", description="Keep catalogues on many machines at one version, by "
                  "a log in PostgreSQL.", epilog="The manual page is kob-fleet(1).")
    made.add_argument("-V", "--version", action="version", version=f"kob-fleet (kobdzila) {package_version}")
    made.add_argument("-d", "--database", default=os.environ.get(DATABASE, ""), metavar="CONNECTION",
                      help=f"a connection string of libpq, such as 'host=db1,db2 dbname=texts'; the default is "
                      f"${DATABASE}, and what it leaves out comes from PGHOST and so on")
    commands = made.add_subparsers(title="commands", metavar="COMMAND", required=True, dest="command")

    def command(name: str, words: str) -> argparse.ArgumentParser:
        return commands.add_parser(name, help=words, description=words[0].upper() + words[1:] + ".")

    add_init(command("init", "create the log's tables in the database"))
    add_publish(command("publish", "compile, check and publish catalogues, all in one step"))
    added = command("remove", "publish empty catalogues, which answer as none does")
    added.add_argument("pairs", nargs="+", metavar="DOMAIN/LOCALE")
    add_publishing(added)
    added = command("rollback", "publish the catalogues of an earlier version anew, as a new version")
    added.add_argument("to", type=int, metavar="VERSION")
    add_publishing(added)
    added = command("wait", "wait until all machines show a version")
    added.add_argument("until", metavar="VERSION", help="a number, or EPOCH.NUMBER")
    added.add_argument("--within", type=seconds, default=60.0, metavar="SECONDS", help="how long to wait (60)")
    add_seen(added)
    add_follow(command("follow", "start catsession, load what the log has, and answer questions from the input"))
    add_status(command("status", "show the version of each machine, and how far it is behind"))
    added = command("metrics", "print the log and its machines in the text format of Prometheus")
    added.add_argument("--listen", metavar="[HOST:]PORT", help="serve them over HTTP, as /metrics (host 127.0.0.1)")
    added = command("history", "show the last publishes, the newest first")
    added.add_argument("-n", "--last", type=int, default=20, metavar="N", help="how many (20)")
    added = command("compact", "delete loads that no machine needs")
    added.add_argument("--to", type=int, metavar="VERSION", help="keep all loads after this version")
    add_seen(added)
    added = command("restore", "begin a new epoch, after the database was restored from a backup")
    added.add_argument("--note", default="", metavar="TEXT", help="a text for the table of epochs")
    added = command("forget", "delete what machines of a name reported")
    added.add_argument("machine", metavar="MACHINE", help="the name of machines, or of one process")
    return made


def add_init(added: argparse.ArgumentParser) -> None:
    added.add_argument("--upgrade", action="store_true", help="bring tables of an earlier layout to this one")
    added.add_argument("--roles", action="store_true", help="also create the roles kobdzila_follower, "
                       "kobdzila_publisher and kobdzila_operator, with exactly the rights that they need")


def seconds(text: str) -> float:
    """Return a number of seconds, for argparse."""
    made = float(text)
    if not made >= 0:  # (nor is one that isn't a number)
        raise ValueError(text)
    return made


def add_publish(added: argparse.ArgumentParser) -> None:
    added.add_argument("catalogues", nargs="+", metavar="DOMAIN/LOCALE=FILE", help="a PO file, or an MO file (*.mo)")
    added.add_argument("--no-check", action="store_true", help="skip the checks of msgfmt -c")
    added.add_argument("-f", "--use-fuzzy", action="store_true", help="also use fuzzy messages")
    added.add_argument("--force", action="store_true", help="publish more than catsession takes in one step")
    add_publishing(added)


def add_publishing(added: argparse.ArgumentParser) -> None:
    added.add_argument("--note", default=None, metavar="TEXT", help="a text for the history")
    added.add_argument("--id", type=uuid.UUID, default=None, metavar="UUID",
                       help="the number of this publish; one that is in the log already isn't published again")
    added.add_argument("--within", type=seconds, default=30.0, metavar="SECONDS",
                       help="how long to try if the server can't be reached (30)")
    added.add_argument("--token", action="store_true", help="print EPOCH.NUMBER alone, as `wait` takes it")


def add_follow(added: argparse.ArgumentParser) -> None:
    added.add_argument("-m", "--machine", help="the name of this machine (its host name)")
    added.add_argument("-v", "--verbose", action="store_true", help="report each version on standard error")
    added.add_argument("--catsession", metavar="PATH", help="the program catsession, if it isn't the package's own")
    added.add_argument("--cache", metavar="DIR", help="keep the last version in this folder, for a restart without "
                       "the database")
    added.add_argument("--go-over", action="store_true", help="switch to a log that was restored to an earlier version")
    added.add_argument("--report-to", metavar="CONNECTION", help="the primary, if the followed server is a standby")
    added.add_argument("--tokens", action="store_true", help="answer with versions EPOCH.NUMBER, and `older` after them "
                       "while the texts are the cache's")
    added.add_argument("--daemon", action="store_true", help="read no input, and tell systemd when there are texts")
    added.add_argument("--socket", metavar="PATH", help="answer rounds of questions on a socket of the system")


def add_status(added: argparse.ArgumentParser) -> None:
    added.add_argument("--json", action="store_true", help="print one object of JSON")
    added.add_argument("--check", action="store_true", help="exit with status 1 if a machine is behind, 2 if one is "
                       "silent or has stopped, and 3 if the database doesn't answer")
    added.add_argument("--late", type=seconds, default=10.0, metavar="SECONDS",
                       help="for how long a machine may be behind (10)")


def add_seen(added: argparse.ArgumentParser) -> None:
    added.add_argument("--seen-within", type=seconds, default=DAY, metavar="SECONDS",
                       help="don't wait for machines that reported longer ago (86400)")


if __name__ == "__main__":
    sys.exit(main())
