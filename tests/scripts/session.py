#!/usr/bin/env python3
"""Feeds scripts to a live session, and sees what it writes and when.

    tests/scripts/session.py PROGRAM rows FOLDER       each folder in FOLDER is a row: its files name, script, out and err say
                                               what the session writes; a line `ok ..` or `FAILED ..` for each
    tests/scripts/session.py PROGRAM catserve < SCRIPT as catserve: the output of a script, which has to be the same in each way
    tests/scripts/session.py PROGRAM many ROUNDS       ROUNDS rounds, and the memory held after the first tenth and the last

A script is fed whole, line by line, byte by byte, and round by round: there the answers have to come before the next
line is sent. Behind each piece it waits until the program has taken it.
"""
import fcntl
import os
import subprocess
import sys
import termios
import threading
import time
from pathlib import Path

DEADLINE = 20.0 * int(os.environ.get("SLOWER", "1"))  # seconds for an answer
MOST_BYTES = 20_000  # of a script that is fed byte by byte
MOST_LATE = 2  # rows without an answer in time, before the others are left out
MOST_GROWTH = 512  # kB from a tenth of many rounds to their end
SILENCE = 0.005  # seconds in which nothing may be written before a round has ended


class Late(Exception):
    """What should have come didn't come in time."""


class Fed:
    """A running session, and what it has written so far."""

    def __init__(self, program, *words):
        pipe = subprocess.PIPE
        self.process = subprocess.Popen([program, *words], stdin=pipe, stdout=pipe, stderr=pipe, bufsize=0)
        self.out, self.lines, self.came = bytearray(), 0, threading.Condition()
        self.reader = threading.Thread(target=self.read, daemon=True)
        self.reader.start()

    def read(self):
        while more := self.process.stdout.read(65_536):
            with self.came:
                self.out += more
                self.lines += more.count(b"\n")
                self.came.notify_all()

    def send(self, piece):
        """Sends bytes; False where the session has ended."""
        try:
            view = memoryview(piece)
            while view:
                view = view[self.process.stdin.write(view) :]
        except BrokenPipeError:
            return False
        return True

    def wait_taken(self):
        """Waits until the program has read all that was sent, or has ended."""
        end = time.monotonic() + DEADLINE
        count = bytearray(4)
        while self.process.poll() is None:
            fcntl.ioctl(self.process.stdin, termios.FIONREAD, count)
            if not any(count):
                return
            if time.monotonic() > end:
                raise Late("the input was not taken")
            time.sleep(0)

    def wait_lines(self, count):
        """Waits until `count` lines have been written in all."""
        with self.came:
            if not self.came.wait_for(lambda: self.lines >= count, DEADLINE):
                raise Late(f"{self.lines} lines were written and not {count}")

    def end(self):
        """Ends its input; its status, what it wrote, and what it said on its error output."""
        self.process.stdin.close()
        said = self.process.stderr.read()
        self.reader.join()
        return self.process.wait(), bytes(self.out), said

    def stop(self):
        self.process.kill()
        self.process.wait()


def rounds_of(script):
    """Each round of a script that has no bad line, and how many lines it writes. (A bad line ends the last round.)"""
    lines, at, sent, count = cut_lines(script), 0, [], 0
    while at < len(lines):
        word, *fields = lines[at].rstrip(b"\n").split(b"\t")
        taken = 1 + (int(fields[-1]) if word == b"load" else 0)
        sent += lines[at : at + taken]
        at += taken
        count += word in (b"load", b"loadmo", b"ask")
        if word == b"go":
            yield sent, count + 1
            sent, count = [], 0
    if count:
        yield sent, count + 1


def cut_lines(script):
    """The lines of a script, each with its LF; the last may lack it."""
    *whole, last = script.split(b"\n")
    return [line + b"\n" for line in whole] + ([last] if last else [])


def in_pieces(fed, pieces):
    for piece in pieces:
        if not fed.send(piece):
            return
        fed.wait_taken()


def feed_whole(fed, script):
    fed.send(script)


def feed_lines(fed, script):
    in_pieces(fed, cut_lines(script))


def feed_bytes(fed, script):
    in_pieces(fed, (script[at : at + 1] for at in range(len(script))))


def feed_rounds(fed, script):
    """Sends a round once the one before it is answered, and looks whether it is answered before its `go`."""
    total = 0
    for lines, count in rounds_of(script):
        fed.send(b"".join(lines[:-1]))
        fed.wait_taken()
        time.sleep(SILENCE)
        if fed.lines != total:
            raise Late(f"{fed.lines} lines were written before the round had ended, and not {total}")
        fed.send(lines[-1])
        if not lines[-1].startswith(b"go\n"):
            return  # the end of the input is its `go`
        total += count
        fed.wait_lines(total)


def answers(program, words, script, has_output):
    """Each way in which a script is fed, with the status, the output and the error output; or why none came."""
    ways = [("whole", feed_whole), ("line by line", feed_lines)]
    if len(script) <= MOST_BYTES:
        ways.append(("byte by byte", feed_bytes))
    if has_output:
        ways.append(("round by round", feed_rounds))
    for name, feed in ways:
        fed = Fed(program, *words)
        try:
            feed(fed, script)
            yield name, fed.end()
        except Late as late:
            fed.stop()
            yield name, str(late)


def judge_row(program, row):
    name, script, out, err = ((row / it).read_bytes() for it in ("name", "script", "out", "err"))
    words = (row / "words").read_text().split() if (row / "words").exists() else []
    wanted = (1 if err else 0, out, err)
    wrong = [(way, got) for way, got in answers(program, words, script, not err) if got != wanted]
    late = any(isinstance(got, str) for _, got in wrong)
    if wrong:
        way, got = wrong[0]
        print(f"FAILED session, {name.decode()}: {way}: {str(got)[:300]} and not {str(wanted)[:300]}")
    else:
        print(f"ok session, {name.decode()}")
    return late


def as_catserve(program):
    script = sys.stdin.buffer.read()
    got = dict(answers(program, [], script, True))
    if len(set(got.values())) != 1 or isinstance(got["whole"], str):
        sys.exit(f"the ways differ: {str(got)[:600]}")
    status, out, err = got["whole"]
    sys.stdout.buffer.write(out)
    sys.stderr.buffer.write(err)
    sys.exit(status)


def held(process):
    """The most memory that a process has held, in kB."""
    text = Path(f"/proc/{process.pid}/status").read_text()
    return int(text.split("VmHWM:")[1].split()[0])


def many(program, rounds):
    """Each hundredth round loads a text in place of the one before it, each other one asks."""
    text = b'msgid "basket"\nmsgstr "panier"\n'
    load, ask = b"load\tshop\tfr\tc\t2\n" + text + b"go\n", b"ask\t0\tshop\tfr\tgettext\tbasket\ngo\n"
    fed, lines, peaks = Fed(program), 0, []
    for tenth in range(10):
        for _ in range(rounds // 1000):
            fed.send(load + ask * 99)
            lines += 2 * 100
            fed.wait_lines(lines)
        peaks.append(held(fed.process))
    status, out, err = fed.end()
    last = out[-200:].decode().splitlines()[-1]
    if (status, err, last) != (0, b"", f"0\t{rounds // 100}\tpanier"):
        print(f"FAILED session, {rounds} rounds: status {status}, {err}, the last line is {last}")
    elif peaks[-1] > peaks[0] + MOST_GROWTH:
        print(f"FAILED session, {rounds} rounds: {peaks} kB were held at each tenth")
    else:
        print(f"ok session, {rounds} rounds: {peaks[0]} kB were held behind a tenth of them, and {peaks[-1]} at the end")


def main():
    program, what, *words = sys.argv[1:]
    if what == "rows":
        late = 0
        for row in sorted(Path(words[0]).iterdir()):
            late += judge_row(program, row)
            if late > MOST_LATE:
                print("FAILED session, other rows: left out, since these were late")
                return
    elif what == "catserve":
        as_catserve(program)
    elif what == "many":
        many(program, int(words[0]))


main()
