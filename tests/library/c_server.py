#!/usr/bin/env python3
"""Talks to the server of examples/c/server.c, replaces its catalogues, and prints what is wrong.

    tests/library/c_server.py SERVER FOLDER

SERVER is the program, and FOLDER an empty folder for its files. The server has 8 threads, so one client more than 8 has
to wait for one to leave; these are 8, which ask all the time.
"""
import atexit
import os
import signal
import socket
import subprocess
import sys
import threading
import time
from pathlib import Path
from typing import TextIO

sys.path.insert(0, str(Path(__file__).resolve().parents[1] / "intl"))
import intl_answers  # noqa: E402

CLIENTS = 8
ROUNDS = 30
PATIENCE = 20.0 * int(os.environ.get("SLOWER", "1"))  # seconds


class Server:
    """The server, and the lines that it has printed."""

    def __init__(self, program: str, folder: Path) -> None:
        self.name = folder / "socket"
        self.process = subprocess.Popen([program, str(folder), str(self.name)], stderr=subprocess.PIPE, text=True)
        atexit.register(self.process.kill)
        self.lines: list[str] = []
        self.reading = threading.Thread(target=self.read, daemon=True)
        self.reading.start()

    def read(self) -> None:
        assert self.process.stderr
        for line in self.process.stderr:
            self.lines.append(line.rstrip("\n"))

    def wait_for(self, line: str) -> None:
        """Wait until the server has printed the line."""
        end = time.monotonic() + PATIENCE
        while line not in self.lines:
            if time.monotonic() > end or self.process.poll() is not None:
                sys.exit(f"wrong: the server printed {self.lines[-5:]} and not '{line}'")
            time.sleep(0.002)

    def publish(self, version: int) -> None:
        self.process.send_signal(signal.SIGHUP)
        self.wait_for(f"version {version}")

    def connect(self) -> socket.socket:
        end = time.monotonic() + PATIENCE
        while True:
            client = socket.socket(socket.AF_UNIX)
            client.settimeout(PATIENCE)
            try:
                client.connect(str(self.name))
            except (FileNotFoundError, ConnectionRefusedError):
                client.close()
                if time.monotonic() > end:
                    raise
                time.sleep(0.002)
            else:
                return client

    def end(self) -> int:
        self.process.terminate()
        status = self.process.wait(PATIENCE)
        self.reading.join()
        return status


def install(folder: Path, locale: str, number: int) -> None:
    """A catalogue that translates `n` as the number, moved to its place."""
    new = folder / "new"
    new.write_bytes(intl_answers.mo({b"n": str(number).encode()}))
    new.rename(folder / f"{locale}.mo")


def ask(file: TextIO, languages: str, msgid: str) -> tuple[int, str]:
    file.write(f"{languages}\t{msgid}\n")
    file.flush()
    version, _, text = file.readline().rstrip("\n").partition("\t")
    return int(version), text


def ask_on(server: Server, ended: threading.Event, wrong: list[str]) -> None:
    """Asks until the end: each answer is the one of its version, and versions don't fall."""
    last = 0
    with server.connect() as client, client.makefile("rw") as file:
        while not ended.is_set():
            for locale in ("fr", "de"):
                version, text = ask(file, f"sv:{locale}", "n")
                if version < last or text != str(version // 2 - 1):
                    wrong.append(f"at version {version} {locale} has {text}, after version {last}")
                last = version


def main(program: str, folder: Path) -> None:
    for locale in ("fr", "de"):
        install(folder, locale, 0)
    server = Server(program, folder)
    server.wait_for("version 2")
    ended, wrong = threading.Event(), list[str]()
    clients = [threading.Thread(target=ask_on, args=(server, ended, wrong), daemon=True) for _ in range(CLIENTS)]
    for client in clients:
        client.start()
    for number in range(1, ROUNDS + 1):
        before = len(server.lines)
        for locale in ("fr", "de"):
            install(folder, locale, number)
        while sum(line.endswith(": loaded") for line in server.lines[before:]) < 2:
            time.sleep(0.001)
        server.publish(2 + 2 * number)
    (folder / "bad").write_bytes(b"no MO file")
    (folder / "bad").rename(folder / "fr.mo")
    server.wait_for("fr.mo: file too short")
    time.sleep(0.1)
    ended.set()
    for client in clients:
        client.join()
    with server.connect() as last, last.makefile("rw") as file:
        if (answer := ask(file, "fr", "n")) != (2 + 2 * ROUNDS, str(ROUNDS)):
            wrong.append(f"after a bad file: {answer}")
        if (answer := ask(file, "fr", "none")) != (2 + 2 * ROUNDS, "none"):
            wrong.append(f"of no message: {answer}")
    if status := server.end():
        wrong.append(f"the server ended with status {status}")
    if wrong:
        print(f"wrong: {wrong[0]}")


if __name__ == "__main__":
    main(sys.argv[1], Path(sys.argv[2]))
