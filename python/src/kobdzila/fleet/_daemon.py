"""The command `kob-fleet follow`: a catsession whose loads come from the log, for standard input, a socket, or systemd."""
from __future__ import annotations

import argparse
import contextlib
import os
import re
import signal
import socket
import sys
import threading
import time
from collections.abc import Iterator
from pathlib import Path
from typing import BinaryIO

from .._session import MOST_LINES, TEXTS, Session, SessionEnded
from ._follow import Follower
from ._store import Behind
from ._version import escaped

NUMBER = re.compile("0*([0-9]{1,20})")
ESCAPE = re.compile(r"\\[nt\\]")
MOST_CLIENTS = 64  # of a socket, at once
LISTEN_FDS_START = 3  # the first socket that systemd hands over (sd_listen_fds)
TOLD_EACH = 5.0  # seconds between two notes to systemd
ACCEPT_EACH = 1.0  # seconds between two attempts to accept a program, as where no descriptor is left


class Trouble(Exception):
    """What ends the program with status 1."""


class Terminated(Exception):
    """SIGTERM told the program to end."""


def say(text: str) -> None:
    """Write a line to standard error, or nothing if nobody reads it."""
    with contextlib.suppress(OSError, ValueError):
        print(f"kob-fleet: {escaped(' '.join(text.split()))}", file=sys.stderr, flush=True)


def follow(options: argparse.Namespace) -> int:
    """Answer rounds of questions until there are no more, or until the end of a daemon."""
    if not options.daemon and (sys.stdin is None or sys.stdout is None):
        raise Trouble("standard input or output is closed")
    signal.signal(signal.SIGTERM, terminate)
    try:
        with Session(options.catsession) as session:
            follower = Follower(
                session, options.database, options.machine, cache=options.cache, go_over=options.go_over,
                report_to=options.report_to, on_trouble=say,
                on_version=lambda version: say(f"version {version}") if options.verbose else None)
            with follower, listening(options, follower, session):
                if options.daemon:
                    return serve(follower, session)
                answer_rounds(follower, session, sys.stdin.buffer, sys.stdout.buffer, options.tokens)
                return 0 if follower.stopped is None else 1
    except Terminated:
        return 0 if options.daemon else 128 + signal.SIGTERM


def terminate(*_: object) -> None:
    signal.signal(signal.SIGTERM, signal.SIG_IGN)
    raise Terminated


def serve(follower: Follower, session: Session) -> int:
    """Report the state to systemd, until SIGTERM, or until the follower has stopped for good or catsession has ended: a
    restart joins from scratch.

    If it is the log that has lost publishes, it keeps answering.
    """
    is_ready = False
    while not follower.has_failed and session._process.poll() is None:
        if not is_ready and follower.has_joined:
            is_ready = True
            notify("READY=1")
        health = follower.health()
        if health.is_alive and answers(session):
            notify(f"STATUS={health.state} at version {follower.version.token}\nWATCHDOG=1")
        with contextlib.suppress(Behind):
            follower.wait_for(0 if not is_ready else follower.version + 1, TOLD_EACH)
    notify("STOPPING=1")
    if not follower.has_failed:
        say(f"catsession ended with status {session._process.returncode}")
    return 1


def answers(session: Session) -> bool:
    """Whether catsession answers a round. It blocks while that hangs: so systemd is told nothing more, and ends all."""
    with contextlib.suppress(SessionEnded):
        session._answer([])
        return True
    return False


def notify(text: str) -> None:
    """Send a message to systemd, if it has started this program (sd_notify)."""
    address = os.environ.get("NOTIFY_SOCKET", "")
    if address:
        with socket.socket(socket.AF_UNIX, socket.SOCK_DGRAM) as made, contextlib.suppress(OSError):
            made.connect(f"\0{address[1:]}" if address[0] == "@" else address)
            made.sendall(text.encode())


# --- rounds of questions


@contextlib.contextmanager
def listening(options: argparse.Namespace, follower: Follower, session: Session) -> Iterator[None]:
    """Meanwhile answer on a socket, if there is one: that of systemd, or one at a path."""
    is_given = os.environ.get("LISTEN_PID") == str(os.getpid())
    if not (is_given or options.socket):
        yield
        return
    if is_given:
        listener = socket.socket(fileno=LISTEN_FDS_START)
    else:
        listener = bound(options.socket)
    with listener, contextlib.nullcontext() if is_given else removed(Path(options.socket)):
        threading.Thread(target=accept, args=[listener, follower, session, options.tokens], daemon=True).start()
        yield


def bound(path: str) -> socket.socket:
    """Return a socket at a path. One that is there already is replaced."""
    made = socket.socket(socket.AF_UNIX)
    try:
        if Path(path).is_socket():
            Path(path).unlink(missing_ok=True)
        made.bind(path)
        made.listen(MOST_CLIENTS)
    except OSError as why:
        made.close()
        raise Trouble(f"{path}: {why.strerror or why}") from why
    return made


@contextlib.contextmanager
def removed(path: Path) -> Iterator[None]:
    """Remove a file at the end, unless another process has put its own in its place."""
    own = path.stat()
    try:
        yield
    finally:
        with contextlib.suppress(OSError):
            if os.path.samestat(own, path.stat()):
                path.unlink()


def accept(listener: socket.socket, follower: Follower, session: Session, with_tokens: bool) -> None:
    room = threading.BoundedSemaphore(MOST_CLIENTS)
    while True:
        room.acquire()
        try:
            client, _ = listener.accept()
        except OSError as why:
            if listener.fileno() < 0:  # (it was closed)
                return
            room.release()
            say(f"a program can't be answered yet: {why}")
            time.sleep(ACCEPT_EACH)
            continue
        threading.Thread(target=answer_client, args=[client, room, follower, session, with_tokens], daemon=True).start()


def answer_client(
    client: socket.socket, room: threading.Semaphore, follower: Follower, session: Session, with_tokens: bool
) -> None:
    try:
        with client, client.makefile("rb") as questions, client.makefile("wb") as answers:
            answer_rounds(follower, session, questions, answers, with_tokens)
    except (BrokenPipeError, ConnectionResetError):
        say("a program closed its end of the socket before it had its answers")
    except (Trouble, OSError) as why:
        say(str(why))
    finally:
        room.release()


def answer_rounds(
    follower: Follower, session: Session, questions: BinaryIO, answers: BinaryIO, with_tokens: bool = False
) -> None:
    """Answer rounds until the questions end. Versions are the log's."""
    lines: list[bytes] = []
    size = 0
    for number, line in enumerate(iter(lambda: questions.readline(MOST_LINES + 1), b""), 1):
        if line.startswith(b"#") or line == b"\n":
            continue
        if line == b"go\n":
            answers.write(answered(follower, session, lines, with_tokens))
            answers.flush()
            lines, size = [], 0
            continue
        size += len(line)
        if size > MOST_LINES or not is_question(line):
            raise Trouble(f"line {number}: neither a question to worker 0 nor `go`")
        lines.append(line)
    if lines:
        answers.write(answered(follower, session, lines, with_tokens))
        answers.flush()


def is_question(line: bytes) -> bool:
    """Whether catsession takes a line as a question to worker 0. A bad line would end it, and other programs ask it
    too."""
    try:
        *fields, end = line.decode().replace("\n", "\t\n").split("\t")
    except UnicodeDecodeError:
        return False
    call, texts = "".join(fields[4:5]), fields[5:]
    if fields[:2] != ["ask", "0"] or end != "\n" or len(texts) != TEXTS.get(call):
        return False
    number = NUMBER.fullmatch(texts.pop() if call in ("ngettext", "npgettext") else "0")
    return number is not None and int(number[1]) < 2**64 and "\\" not in ESCAPE.sub("", "\t".join(texts))


def answered(follower: Follower, session: Session, lines: list[bytes], with_tokens: bool) -> bytes:
    while not follower.has_joined:
        if follower.stopped is not None:
            raise Trouble("there are no texts to answer from")
        with contextlib.suppress(Behind):
            follower.wait_for(within=1.0)
    is_older = follower.is_older
    try:
        version, fields = session._answer(lines)
    except SessionEnded as ended:
        raise Trouble(f"catsession ended: {ended}") from ended
    shown = follower.log_version(version)
    log, more = (shown.token, "\tolder" if is_older else "") if with_tokens else (str(shown), "")
    texts = [f"version\t{log}{more}\n", *("\t".join((field[0], log, *field[2:])) + "\n" for field in fields)]
    return "".join(texts).encode()
