#!/usr/bin/env bash
# Refuses each allocation of `crates/test_every_call serve_rows` in turn, which serves two desks while a job is done,
# publishes, and serves the desks again, and prints what each call answered and left. A service that is refused memory
# must leave the store as it was, or with the job's load pending or published; and what comes after it must go on.
. "$(dirname "$0")/../lib/common"

program=${EVERY_CALL:-crates/test_every_call/out/test_every_call}
if [ ! -x "$program" ]; then
  failed serve "there is no $program: the gate builds it (make check), and so does 'rt run' in crates/test_every_call"
  exit 0
fi

# says whether the lines of a run follow from one another, given how many of its requests were refused
cat > "$room/follows" <<'END'
import sys

# after the last LF: a line that could not be printed whole
lines = sys.stdin.read().split('\n')[:-1]
may_refuse = int(sys.argv[1])
FAULTS = ['serve: Memory', 'serve: Closed', 'serve: Join']
refused, at = 0, 0


def line():
    global at
    if at == len(lines):
        # printing was refused
        if refused or not may_refuse:
            sys.exit(f'the lines end early, after {at}')
        sys.exit(0)
    at += 1
    return lines[at - 1]


def take(wanted):
    if (got := line()) != wanted:
        sys.exit(f'line {at} is {got!r}, and not {wanted!r}')


def is_done(own, faults):
    """Whether a call was not refused memory."""
    global refused
    got = line()
    if got in faults:
        refused += 1
        return False
    if got != own:
        sys.exit(f'line {at} is {got!r}, and not {own!r}')
    return True


def take_state(states):
    got = line()
    if got not in [f'  pending {p}, version {v}' for p, v in states]:
        sys.exit(f'line {at} is {got!r}, and not of {states}')
    words = got.replace(',', '').split()
    return int(words[1]), int(words[3])


if may_refuse and lines in (['words: out of memory'], ['open: out of memory'], ['open: no place for a reader'],
                            ['desks: out of memory'], ['jobs: out of memory']):
    sys.exit(0)
if is_done('serve: 1', FAULTS):
    take('  job: 1 translated')
    take('  6 right answers')
    pending, version = take_state([(0, 1)])
else:
    pending, version = take_state([(0, 0), (1, 0), (0, 1)])
if is_done(f'publish: {pending + version}', ['publish: Memory']):
    pending, version = take_state([(0, pending + version)])
else:
    take_state([(pending, version)])
if is_done(f'serve: {pending + version}', FAULTS):
    take('  6 right answers')
    take_state([(0, pending + version)])
else:
    take_state([(pending, version), (0, pending + version)])
if at != len(lines):
    sys.exit(f'there are lines behind the last: {lines[at]!r}')
if refused > may_refuse:
    sys.exit(f'{refused} answers say that memory was refused')
END

# by hand: what the run prints where nothing is refused
cat > "$room/own" <<'END'
serve: 1
  job: 1 translated
  6 right answers
  pending 0, version 1
publish: 1
  pending 0, version 1
serve: 1
  6 right answers
  pending 0, version 1
END

is_as_worked_out serve serve_rows
makes_refuser 'serve, refused' || exit 0

services=0
: > "$room/states"
told() {
  if grep -q '^serve: [MCJ]' "$room/got"; then
    services=$((services + 1))
    grep -A 1 '^serve: [MCJ]' "$room/got" | tail -n 1 >> "$room/states"
  fi
}
follows_refused 'serve, refused' serve_rows || exit 0
states=$(sort -u "$room/states" | wc -l)
if [ "$services" = 0 ]; then
  failed 'serve, refused' "of $n requests none was told by a service"
else
  ok "serve, refused: $n requests in turn, $services of them told by a service, which left $states different stores; what came after went on"
fi
