"""What the commands of kob-fleet do."""
from __future__ import annotations

import argparse
import contextlib
import io
import json
import logging
import os
import sys
import uuid
from collections.abc import Callable

import psycopg

from .._catalogue import Catalogue
from .._refused import Refused
from ._daemon import Trouble, follow, say
from ._layout import FOLLOWER, NO_LOG, OPERATOR, PUBLISHER, NoLog
from ._log import NAME, SILENT, Load, Log, Machine, RestoreUnanswered, Status, Unanswered
from ._metrics import metrics, served
from ._version import Version, escaped

READERS = ("status", "metrics", "wait", "history")
OPERATORS = ("compact", "restore", "forget")
HEADS = ("machine", "process", "version", "behind", "for", "seen", "state")
BEHIND, DEAD, NO_ANSWER = 1, 2, 3  # statuses of `status --check`


class Misused(Trouble):
    """Wrong arguments."""


def run(options: argparse.Namespace) -> int:
    """Run a command, and return the status of the program."""
    is_check = getattr(options, "check", False)
    logging.getLogger("psycopg").setLevel(logging.ERROR)  # (a rollback of a lost connection is no news)
    try:
        return COMMANDS[options.command](options)
    except Unanswered as unanswered:
        say(str(unanswered))
        say(f"run it again with --id {unanswered.id}")
        return 2
    except RestoreUnanswered as unanswered:
        say(str(unanswered))
        say(f"if `kob-fleet status` prints epoch {unanswered.epoch}, it has; otherwise run restore again")
        return 2
    except psycopg.errors.InsufficientPrivilege as why:
        role = role_for(options.command)
        say(f"{why}; {options.command} needs the role {role}, or the schema's owner" if role else str(why))
    except psycopg.errors.UndefinedTable:
        say(NO_LOG)
    except Misused as why:
        say(str(why))
        return os.EX_USAGE
    except (Trouble, NoLog, ValueError, psycopg.Error, OSError) as trouble:
        say(str(trouble).strip() or type(trouble).__name__)
    except KeyboardInterrupt:
        return 130
    return NO_ANSWER if is_check else 1


def role_for(command: str) -> str | None:
    """The role that a command needs, or None if only the owner can do it."""
    if command == "init":
        return None
    return FOLLOWER if command in READERS else OPERATOR if command in OPERATORS else PUBLISHER


def init(options: argparse.Namespace) -> int:
    with Log(options.database) as log:
        log.init(upgrade=options.upgrade, roles=options.roles)
        print(f"version {log.status().version}")
    return 0


def publish(options: argparse.Namespace) -> int:
    loads, refused = [], 0
    for word in options.catalogues:
        pair, equals, name = word.partition("=")
        if not (equals and name):
            raise Misused(f"not of the form DOMAIN/LOCALE=FILE: {word}")
        domain, locale = pair_of(pair, f"DOMAIN/LOCALE=FILE: {word}")
        try:
            opened = Catalogue.open(name, checked=not options.no_check, use_fuzzy=options.use_fuzzy)
            loads.append(Load(domain, locale, opened.mo_file()))
        except Refused as why:
            line = f"{name}:{why.line}" if why.line else name
            print(f"{escaped(line)}: {why.text}", file=sys.stderr)
            refused += 1
    if refused:
        raise Trouble("nothing was published")
    with writable(options) as log:
        version = log.publish(loads, id=options.id, note=options.note or "", within=options.within, force=options.force)
    print_version(options, version)
    return 0


def pair_of(word: str, form: str) -> tuple[str, str]:
    domain, slash, locale = word.partition("/")
    if not (slash and NAME.fullmatch(domain) and NAME.fullmatch(locale)):
        raise Misused(f"not of the form {form}")
    return domain, locale


def print_version(options: argparse.Namespace, version: Version, more: str = "") -> None:
    print(version.token if options.token else f"version {version}{more}")


def remove(options: argparse.Namespace) -> int:
    pairs = [pair_of(word, f"DOMAIN/LOCALE: {word}") for word in options.pairs]
    note = f"remove {' '.join(options.pairs)}" if options.note is None else options.note
    with writable(options) as log:
        print_version(options, log.remove(pairs, id=options.id, note=note, within=options.within))
    return 0


def rollback(options: argparse.Namespace) -> int:
    number = options.id or uuid.uuid4()
    with writable(options) as log:
        version = log.rollback(options.to, id=number, note=options.note, within=options.within)
        is_new = log.version_of(number) is not None
    print_version(options, version, "" if is_new else f" has the texts of version {options.to} already")
    return 0


def writable(options: argparse.Namespace) -> Log:
    """Return the log, for a publish. Each reason for a retry is printed once."""
    said: set[str] = set()

    def once(text: str) -> None:
        if text not in said:
            say(f"{text}; trying for {options.within:g} s")
        said.add(text)

    return Log(options.database, on_trouble=once)


def wait(options: argparse.Namespace) -> int:
    try:
        wanted = Version.parse(options.until)
    except ValueError as why:
        raise Misused(str(why)) from why
    with Log(options.database) as log:
        lack = log.wait_for(wanted, options.within, options.seen_within)
        found = log.status()
    for it in lack:
        say(f"{it.name} {it.process} is at {it.version.token}, {state_of(it)}")
    if found.version < wanted:
        raise Trouble(f"the log is at version {found.version}")
    if not lack:
        counted = sum(it.seen <= options.seen_within for it in found.machines)
        left = len(found.machines) - counted
        more = f"; {left} not counted, silent for more than {options.seen_within:g} s" if left else ""
        print(f"version {wanted} on all {counted} machines{more}")
    return 1 if lack else 0


def compact(options: argparse.Namespace) -> int:
    with Log(options.database) as log:
        print(f"cut up to version {log.compact(options.to, options.seen_within)}")
    return 0


def restore(options: argparse.Namespace) -> int:
    with Log(options.database) as log:
        version = log.restore(options.note)
    print(f"epoch {version.epoch} begins after version {version}")
    return 0


def forget(options: argparse.Namespace) -> int:
    with Log(options.database) as log:
        count = log.forget(options.machine)
    if not count:
        raise Trouble(f"no machine has reported as {options.machine}")
    print(f"forgotten: {count}")
    return 0


def history(options: argparse.Namespace) -> int:
    with Log(options.database) as log:
        for row in log.history(options.last):
            when = row.published.astimezone().strftime("%Y-%m-%d %H:%M:%S")
            pairs = " ".join(row.pairs) if len(row.pairs) == row.loads else f"{row.loads} loads, cut"
            print(f"{row.version}  {when}  {escaped(pairs)}" + (f"  ({escaped(row.note)})" if row.note else ""))
    return 0


def status(options: argparse.Namespace) -> int:
    with Log(options.database) as log:
        found = log.status()
    if options.json:
        machines = [{**it._asdict(), "epoch": it.version.epoch, "is_dead": it.is_dead} for it in found.machines]
        print(json.dumps({**found._asdict(), "epoch": found.version.epoch, "machines": machines}))
    else:
        print_machines(found)
    return verdict(found, options.late) if options.check else 0


def print_machines(found: Status) -> None:
    publishes = "1 publish" if found.publishes == 1 else f"{found.publishes} publishes"
    print(f"version {found.version}, {publishes}, cut up to {found.cut}, epoch {found.version.epoch}")
    rows = [HEADS, *((escaped(it.name), escaped(it.process), str(it.version), str(it.behind),
                      f"{it.late:.1f} s" if it.behind else "-", f"{it.seen:.0f} s ago", state_of(it))
                     for it in found.machines)]
    widths = [max(len(row[at]) for row in rows) for at in range(len(HEADS))]
    for row in rows if found.machines else ():
        print("  ".join(cell.ljust(width) for cell, width in zip(row, widths)).rstrip())


def state_of(machine: Machine) -> str:
    """The state that a machine reported, or that it is silent, and its trouble."""
    state = "silent" if machine.seen > SILENT else machine.state
    return f"{state}: {escaped(machine.trouble)}" if machine.trouble else state


def verdict(found: Status, late: float) -> int:
    """The status of a check: that of the worst problem."""
    if any(it.is_dead for it in found.machines):
        return DEAD
    return BEHIND if any(it.behind and it.late >= late or it.state == "trouble" for it in found.machines) else 0


def print_metrics(options: argparse.Namespace) -> int:
    with Log(options.database) as log:
        if options.listen is None:
            if isinstance(sys.stdout, io.TextIOWrapper):
                sys.stdout.reconfigure(encoding="utf-8")  # (as the format has it, whatever the locale)
            print(metrics(log.status()), end="")
            return 0
        host, _, port = options.listen.rpartition(":")
        if not port.isdecimal() or int(port) > 65535:
            raise Misused(f"not of the form [HOST:]PORT: {options.listen}")
        host = host.strip("[]") or "127.0.0.1"
        try:
            made = served((host, int(port)), lambda: metrics(log.status()))
        except OSError as why:
            raise Trouble(f"{options.listen}: {why.strerror}") from why
        with made as server:
            say(f"metrics on http://{f'[{host}]' if ':' in host else host}:{server.server_port}/metrics")
            with contextlib.suppress(KeyboardInterrupt):
                server.serve_forever()
    return 0


COMMANDS: dict[str, Callable[[argparse.Namespace], int]] = {
    "init": init, "publish": publish, "remove": remove, "rollback": rollback, "wait": wait, "follow": follow,
    "status": status, "metrics": print_metrics, "history": history, "compact": compact, "restore": restore,
    "forget": forget,
}
