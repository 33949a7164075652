#!/usr/bin/env python3
"""Kills 200 runs of a program that writes out.mo, by SIGKILL and SIGTERM in turn, one at a time and eight at once:
after a random time, and in each second turn a moment after there is a new file beside out.mo. After each turn out.mo
must be the whole file. Says how often something was left beside it.

    tests/msgfmt/kill_runs.py PROGRAM PO MO
"""
import os
import random
import signal
import subprocess
import sys
import time

program, text, wanted = sys.argv[1], sys.argv[2], open(sys.argv[3], "rb").read()


def start():
    return subprocess.Popen([program, "-o", "out.mo", text], stdin=subprocess.DEVNULL, stderr=subprocess.DEVNULL)


def beside():
    return set(os.listdir(".")) - {"out.mo"}


random.seed(1)
start().wait()
began = time.monotonic()
start().wait()
whole_run = time.monotonic() - began
left = killed = turn = 0
while killed < 200:
    before = beside()
    turn += 1
    runs = [start() for _ in range(8 if turn % 5 == 0 else 1)]
    if turn % 2:
        time.sleep(random.uniform(0, 1.1) * whole_run)
    else:
        while beside() <= before and any(run.poll() is None for run in runs):
            pass
        time.sleep(random.uniform(0, 0.001))
    for run in runs:
        run.send_signal((signal.SIGKILL, signal.SIGTERM)[killed % 2])
        killed += 1
    for run in runs:
        run.wait()
    if open("out.mo", "rb").read() != wanted:
        sys.exit("out.mo is not whole")
    left += beside() != before
if left == 0:
    sys.exit("no run left a file: it was killed too early or too late")
print(f"{left} times something was left")
