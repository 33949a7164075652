#!/usr/bin/env bash
# Refuses each allocation of `crates/test_every_call store_rows` in turn, which loads, publishes and looks up in a
# live store and prints what each call answered and left. A refused load, publish or query must have changed
# nothing, and what comes after it must go on: each line must follow from those before it.
. "$(dirname "$0")/../lib/common"

program=${EVERY_CALL:-crates/test_every_call/out/test_every_call}
if [ ! -x "$program" ]; then
  failed store "there is no $program: the gate builds it (make check), and so does 'rt run' in crates/test_every_call"
  exit 0
fi

# says whether the lines of a run follow from one another, given how many of its requests were refused: each answer is
# the row's own, or says that memory was refused, and what comes after it is what such answers leave
cat > "$room/follows" <<'END'
import sys

# after the last LF: a line that could not be printed whole
lines = sys.stdin.read().split('\n')[:-1]
may_refuse = int(sys.argv[1])
steps = [('load', 'fr', 'salut'), ('load', 'de', 'hallo'), ('publish',), ('enter',), ('publish',), ('enter',),
         ('ask',), ('load', 'fr', None), ('publish',), ('load', 'sv', 'salut'), ('publish',), ('enter',),
         ('load_mo', 'sv', 'hej'), ('load_mo', 'sv', None), ('publish',), ('enter',)]
OWN = {'load': ('1 translated', 'Duplicate at 4'), 'load_mo': ('2 entries', 'Bounds')}
pending, published, refused, at = [], [], 0, 0


def take(*wanted):
    """The next line, which has to be one of these. The last one is what running out of memory prints, or None."""
    global at, refused
    if at == len(lines):
        # printing was refused
        if refused or not may_refuse:
            sys.exit(f'the lines end early, after {at}')
        sys.exit(0)
    line = lines[at]
    at += 1
    if line not in wanted:
        sys.exit(f'line {at} is {line!r}, and not {wanted[0]!r}')
    if wanted[-1] is not None and line == wanted[-1] and line != wanted[0]:
        refused += 1
        return False
    return True


def text(locale):
    return next((t for l, t in reversed(published) if l == locale), 'hi')


def state():
    take(f'  pending {len(pending)}, version {len(published)}', None)


if may_refuse and lines in (['words: out of memory'], ['open: out of memory'], ['open: no place for a reader']):
    sys.exit(0)
for step in steps:
    if step[0] in OWN:
        own = OWN[step[0]][0 if step[2] else 1]
        if take(f'{step[0]} {step[1]}: {own}', f'{step[0]} {step[1]}: Memory') and step[2]:
            pending.append(step[1:])
        state()
    elif step[0] == 'publish':
        if take(f'publish: {len(published) + len(pending)}', 'publish: Memory'):
            published, pending = published + pending, []
        state()
    elif step[0] == 'enter':
        take(f'enter: {len(published)} {text("fr")} {text("de")} {text("sv")}', None)
    else:
        take(f'ask: {len(published)} {text("fr")}', 'ask: Memory')
if at != len(lines):
    sys.exit(f'there are lines behind the last: {lines[at]!r}')
if refused > may_refuse:
    sys.exit(f'{refused} answers say that memory was refused')
END

# by hand: what the run prints where nothing is refused
cat > "$room/own" <<'END'
load fr: 1 translated
  pending 1, version 0
load de: 1 translated
  pending 2, version 0
publish: 2
  pending 0, version 2
enter: 2 salut hallo hi
publish: 2
  pending 0, version 2
enter: 2 salut hallo hi
ask: 2 salut
load fr: Duplicate at 4
  pending 0, version 2
publish: 2
  pending 0, version 2
load sv: 1 translated
  pending 1, version 2
publish: 3
  pending 0, version 3
enter: 3 salut hallo salut
load_mo sv: 2 entries
  pending 1, version 3
load_mo sv: Bounds
  pending 1, version 3
publish: 4
  pending 0, version 4
enter: 4 salut hallo hej
END

is_as_worked_out store store_rows
makes_refuser 'store, refused' || exit 0

loads=0 files=0 publishes=0
told() {
  ! grep -q '^load .*: Memory$' "$room/got" || loads=$((loads + 1))
  ! grep -q '^load_mo .*: Memory$' "$room/got" || files=$((files + 1))
  ! grep -q '^publish: Memory$' "$room/got" || publishes=$((publishes + 1))
}
follows_refused 'store, refused' store_rows || exit 0
if [ "$loads" = 0 ] || [ "$files" = 0 ] || [ "$publishes" = 0 ]; then
  failed 'store, refused' "of $n requests $loads were told by a load of a text, $files by one of a file and $publishes by a publish"
else
  ok "store, refused: $n requests in turn, $loads of them told by a load of a text, $files by one of a file, $publishes by a publish; what came after went on"
fi
