#!/usr/bin/env bash
# Runs a bin/msgfmt-or-gnu with Kobdzila's msgfmt in it, which it calls in its own process: no second program is started
# for a file that it compiles, and what that call does to the process must not reach GNU msgfmt or the caller. What it
# prints is held back until it is known who compiles; descriptors and signals are as before; and memory may be refused.
# tests/driver/or_gnu.sh runs its cases with this driver as well.
. "$(dirname "$0")/../lib/common"
NAME=or_gnu_linked
. tests/driver/begin
if [ -z "$is_linked" ]; then
  if [ -f build/static/msgfmt.o ]; then failed "$NAME" 'there is build/static/msgfmt.o, but it is not in the driver'
  else skipped "$NAME" 'there is no build/static/msgfmt.o: tools/build makes it, with a C compiler and binutils'; fi
  exit 0
fi
unset KOBDZILA_MSGFMT
cd "$room" || exit 1
mkdir tmp
export TMPDIR=$room/tmp

{ header UTF-8 fr && printf 'msgid "hi"\nmsgstr "\303\240 toi"\n'; } > ours.po
{ header EUC-TW de && printf 'msgid "hi"\nmsgstr "hallo"\n'; } > charset.po
{ cat ours.po && printf 'msgid "hi"\nmsgstr "y"\n'; } > twice.po
{ cat ours.po && printf '\nmsgid "e"\nmsgstr ""\n'; } > half.po
printf 'msgid ""\nmsgstr "Content-Type: text/plain; charset=UTF-8\\n"\n\nmsgid "a"\nmsgstr "b"\n' > fields.po
{ cat fields.po && printf '#, c-format\nmsgid "%%d"\nmsgstr "%%s"\n'; } > formats.po
{ cat ours.po && for it in $(seq 2000); do printf 'msgid "%s"\nmsgstr "%s"\n' "$it" "$it$it$it"; done; } > large.po
"$program" -o ours.mo ours.po

# --- one process ------------------------------------------------------------------------------------------------------

name='linked driver, one process'
if "$top/tests/lib/needs" strace strace && strace -V > /dev/null 2>&1 && strace -o trace true 2> /dev/null; then
  # started NAME COUNT ARGUMENT..: the driver starts this number of programs, itself among them, and no other process
  started() {
    local count
    strace -f -o trace -e trace=execve,fork,vfork,clone,clone3 "$driver" "${@:3}" > out 2> err
    count=$(grep -c 'execve(.* = 0$' trace)
    if [ "$count" = "$2" ] && ! grep -qE '(fork|clone3?)\(' trace; then ok "$name, $1"
    else failed "$name, $1" "$(tr '\n' ';' < trace)"; fi
  }
  (
    unset MSGFMT_OR_GNU_LOG
    started 'ours' 1 -c --statistics -o x.mo ours.po
    started 'ours, twice' 1 half.po
    started "GNU's, in its place" 2 -o x.mo charset.po
    started "GNU's after a refusal, in its place" 2 -o x.mo twice.po
  )
else
  skipped "$name" 'strace is not here, or may not trace, and it could not be installed'
fi
# (of a static program that runs at any address, ldd says that it is one, and succeeds)
if [ "$(id -u)" = 0 ] && ! ldd "$driver" 2> ldd | grep -q '=>'; then
  mkdir bare && cp "$driver" bare
  if MSGFMT_OR_GNU_LOG='' chroot bare /msgfmt-or-gnu -o - - < ours.po 2> err | cmp -s - ours.mo && [ ! -s err ]; then
    ok 'linked driver, alone in a folder'
  else
    failed 'linked driver, alone in a folder' "$(cat err)"
  fi
else
  skipped 'linked driver, alone in a folder' 'only root can call chroot, or the driver is not static'
fi

# --- what is held back ------------------------------------------------------------------------------------------------

none=/dev/null
is_of 'linked driver, a refusal' 'GNU\t1\tduplicate message\ttwice.po' $none "$gnu" -c --statistics -o x.mo twice.po
is_of 'linked driver, a refusal, to standard output' 'GNU\t1\tduplicate message\ttwice.po' $none \
  "$gnu" --statistics -o - twice.po
is_of 'linked driver, a refusal of what is piped' 'GNU\t1\tduplicate message\t-' twice.po "$gnu" --statistics -o - -
is_of 'linked driver, a refusal with warnings' 'GNU\t1\tformat arguments differ\tformats.po' $none \
  "$gnu" -c --statistics -o x.mo formats.po
is_of 'linked driver, -C and a message left out' 'GNU\t1\t-C and messages that are left out\thalf.po' $none \
  "$gnu" -C -o x.mo half.po
is_of 'linked driver, warnings' 'ours\t0\t-\tfields.po' $none "$program" -c --statistics -o x.mo fields.po
is_of 'linked driver, compiled twice from a pipe' 'ours\t0\t-\t-' half.po "$program" --statistics -

# --- descriptors and signals ------------------------------------------------------------------------------------------

# shows: a GNU msgfmt that lists its open descriptors, the signals that it ignores, and its environment
cat > shows << 'END'
#!/bin/sh
{
  for it in 0 1 2 3 4 5 6 7 8 9 11 12 13 14 15 16; do
    [ ! -e /proc/$$/fd/$it ] || echo "$it: $(readlink /proc/$$/fd/$it)"
  done
  grep SigIgn /proc/$$/status
  env | grep -v -e '^_=' -e '^MSGFMT_OR_GNU_RUNS='
} > "$LIST"
END
# (the emulator of another machine hands on the environment in another order, and no signal that is ignored)
[ -z "${EMULATED:-}" ] || sed -i 's/^  grep SigIgn .*/  :/; s/^  env | .*/& | sort/' shows
chmod 755 shows
export GNU_MSGFMT=$room/shows LIST=$room/list

# inherits NAME REDIRECTION: GNU msgfmt gets what it gets without the driver: straight, after a refusal, and with a log
inherits() {
  local name="linked driver, GNU's gets $1" it log
  eval "./shows $2"
  mv list wanted
  for it in charset.po twice.po; do
    for log in "$room/log" ''; do
      (export MSGFMT_OR_GNU_LOG=$log; eval "\"\$driver\" -o x.mo $it $2")
      sed -i "s|^MSGFMT_OR_GNU_LOG=.*|MSGFMT_OR_GNU_LOG=$room/log|" list
      if cmp -s list wanted; then ok "$name, $it${log:+ with a log}"
      else failed "$name, $it${log:+ with a log}" "$(diff list wanted | tr '\n' ';')"; fi
    done
  done
}
inherits 'the streams' '< ours.po > out 2> err'
inherits 'no standard output' '< ours.po >&- 2> err'
inherits 'no error output' '< ours.po > out 2>&-'
inherits 'no streams' '<&- >&- 2>&-'
inherits 'further descriptors' '< ours.po > out 2> err 5< fields.po 12< fields.po'
(trap '' PIPE && inherits 'an ignored signal' '< ours.po > out 2> err')
GNU_MSGFMT=$gnu

# closed NAME COMMAND: with streams closed, the driver has GNU msgfmt's status, and no other file is written
closed() {
  local wanted
  rm -f x.mo
  (driver=$gnu && eval "$2")
  wanted=$?
  cp ours.po kept.po
  eval "$2"
  status=$?
  if [ $status = $wanted ] && cmp -s ours.po kept.po; then ok "linked driver, $1"
  else failed "linked driver, $1" "status $status and not $wanted"; fi
}
closed 'a refusal, no error output' '"$driver" -o x.mo twice.po 2>&-'
closed 'a refusal, no streams' '"$driver" -o x.mo twice.po <&- >&- 2>&-'
closed 'statistics to a full device' '"$driver" --statistics -o x.mo ours.po 2> /dev/full'
closed 'statistics to nowhere' '"$driver" --statistics -o x.mo ours.po 2>&-'

# When its reader is gone, SIGPIPE ends the driver, as it ends GNU msgfmt. If the signal is ignored, the driver reports an
# error, and GNU msgfmt reports nothing.
python3 - "$driver" "$program" "$gnu" large.po << 'END' > piped
import os, signal, subprocess, sys
read, write = os.pipe()
os.close(read)
driver, msgfmt, gnu, text = sys.argv[1:]
for handler in (signal.SIG_DFL, signal.SIG_IGN):
    signal.signal(signal.SIGPIPE, handler)
    for words in ([driver, "--statistics", "-o", "/dev/null"], [driver, "-o", "-"], ["KOBDZILA_MSGFMT", "-o", "-"], [gnu, "-o", "-"]):
        streams = {"stderr": write} if "--statistics" in words else {"stdout": write, "stderr": subprocess.DEVNULL}
        started = {**os.environ, "KOBDZILA_MSGFMT": msgfmt} if words[0] == "KOBDZILA_MSGFMT" else None
        command = [driver, *words[1:], text] if started else [*words, text]
        print(subprocess.run(command, env=started, restore_signals=False, **streams).returncode)
END
if [ "$(tr '\n' ' ' < piped)" = '-13 -13 -13 -13 1 1 1 0 ' ]; then ok 'linked driver, a reader that is gone'
else failed 'linked driver, a reader that is gone' "$(tr '\n' ' ' < piped)"; fi

# a run that waits for the reader of a FIFO is in the call: signals end it there, or don't reach it
mkfifo fifo
# waiting: starts such a run as $it
waiting() {
  : > err
  "$driver" --statistics -o fifo ours.po > out 2> err &
  it=$!
  for _ in $(seq $((200 * slower))); do
    grep -q '^State:.S' "/proc/$it/status" && readlink "/proc/$it/fd/2" | grep -q memfd && break
    sleep 0.02
  done
}
# ignored NUMBER: this shell was started with the signal ignored, and so is each of its programs
ignored() { (( 0x$(sed -n 's/^SigIgn:[[:space:]]*//p' /proc/$$/status) >> ($1 - 1) & 1 )); }
for signal in TERM:143 HUP:129 KILL:137; do
  if [ $signal = HUP:129 ] && ignored 1; then
    skipped 'linked driver, HUP ends it' 'HUP is ignored here, as by nohup'
    continue
  fi
  (waiting && kill -"${signal%:*}" $it && wait $it) 2> /dev/null
  status=$?
  if [ $status = "${signal#*:}" ] && [ ! -s err ]; then ok "linked driver, ${signal%:*} ends it"
  else failed "linked driver, ${signal%:*} ends it" "status $status, '$(cat err)'"; fi
done
(trap '' HUP && waiting && kill -HUP $it && timeout $((10 * slower)) cat fifo > x.mo; wait $it)
status=$?
judge 'linked driver, an ignored signal' 0 '1 translated message.' && cmp -s x.mo ours.mo &&
  ok 'linked driver, an ignored signal'
{ (ulimit -f 0; ulimit -c 0; exec "$program" -o x.mo large.po); } 2> /dev/null
wanted=$?
{ (ulimit -f 0; ulimit -c 0; exec "$driver" -o x.mo large.po); } 2> /dev/null
status=$?
if [ $status = $wanted ] && [ $wanted = 153 ]; then ok 'linked driver, a signal in the call'
else failed 'linked driver, a signal in the call' "status $status, and msgfmt's is $wanted"; fi

# --- many runs, and memory that is refused ----------------------------------------------------------------------------

: > "$MSGFMT_OR_GNU_LOG"
rm -f x-*.mo
seq 400 | xargs -P 400 -I N sh -c '"$0" --statistics -o x-N.mo "$1" 2> x-N.err' "$driver" ours.po
lines=$(logged | grep -cx "$(printf 'ours\t0\t-\tours.po')")
said=$(cat x-*.err | grep -cx '1 translated message.')
if [ "$lines" = 400 ] && [ "$said" = 400 ] && [ "$(cat x-*.mo | wc -c)" = $((400 * $(wc -c < ours.mo))) ]; then
  ok 'linked driver, 400 runs at once'
else failed 'linked driver, 400 runs at once' "$lines lines, $said statistics"; fi

# each request for memory refused in turn: status 1 with a line that says so, or status 0 as if nothing had been; the MO
# file is missing or complete. (Without memory for the text the driver can't read it, and GNU msgfmt isn't there.)
unset MSGFMT_OR_GNU_LOG
if ! (cd "$top" && tools/build_driver "$room/dynamic" -g) 2> gcc; then
  failed 'linked driver, memory refused' "it could not be built: $(tail -n 1 gcc)"
elif (cd "$top" && makes_refuser 'linked driver, memory refused'); then
  n=0 wrong='' out_of_memory=0
  # (the PATH has only what `refuses` runs)
  mkdir path && for it in env timeout rm; do ln -s "$(command -v $it)" path; done
  words=(--statistics -o x.mo ours.po)
  while rm -f x.mo && GNU_MSGFMT='' PATH=$room/path refuses $((n + 1)) ./dynamic "${words[@]}" > out 2> err; do
    n=$((n + 1))
    [ ! -e x.mo ] || cmp -s x.mo ours.mo || wrong+="request $n: another MO file; "
    case $status:$(cat err) in
      1:'msgfmt: out of memory') out_of_memory=$((out_of_memory + 1)) ;;
      1:'msgfmt-or-gnu: out of memory' | 1:'msgfmt-or-gnu: cannot read ours.po: Cannot allocate memory') ;;
      0:'1 translated message.') [ -e x.mo ] || wrong+="request $n: no MO file; " ;;
      *) wrong+="request $n: status $status, '$(head -c 200 err)'; " ;;
    esac
  done
  if [ -z "$wrong" ] && [ $out_of_memory -gt 20 ] && [ "$status" = 0 ]; then
    ok "linked driver, memory refused: $n requests, $out_of_memory of them msgfmt's"
  else failed 'linked driver, memory refused' "$n requests, $out_of_memory of msgfmt's; $wrong"; fi
fi
