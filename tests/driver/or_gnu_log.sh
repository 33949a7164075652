#!/usr/bin/env bash
# What comes from outside, in the log of bin/msgfmt-or-gnu, in its table and in its messages: control characters in
# options, names of files and flags don't make lines or fields and don't reach the terminal. Names are compared with
# what GNU `ls --quoting-style=escape` prints. And the reasons that the driver gives when descriptors or the disk run
# out are the true ones.
. "$(dirname "$0")/../lib/common"
NAME=or_gnu_log
. tests/driver/begin
cd "$room" || exit 1
mkdir tmp names
export TMPDIR=$room/tmp
{ header UTF-8 fr && printf 'msgid "hi"\nmsgstr "\303\240 toi"\n'; } > ours.po

# --- words ------------------------------------------------------------------------------------------------------------

# one_line NAME REASON: the log is one line of five fields, with this reason, and nothing in it or in the error output
# is a control character, but for the ends of lines
one_line() {
  local lines fields
  lines=$(wc -l < "$MSGFMT_OR_GNU_LOG") fields=$(awk -F '\t' '{ print NF }' "$MSGFMT_OR_GNU_LOG" | tr '\n' ' ')
  if [ "$lines" != 1 ] || [ "$fields" != '5 ' ]; then
    failed "$1" "$lines lines with $fields fields: $(head -c 300 "$MSGFMT_OR_GNU_LOG" | cat -v)"
  elif [ "$(cut -f 3 "$MSGFMT_OR_GNU_LOG")" != "$2" ]; then
    failed "$1" "the reason is '$(cut -f 3 "$MSGFMT_OR_GNU_LOG" | cat -v)' and not '$2'"
  elif tr -d '\n\t' < "$MSGFMT_OR_GNU_LOG" | LC_ALL=C grep -q '[[:cntrl:]]'; then
    failed "$1" "the log has control characters: $(cat -v "$MSGFMT_OR_GNU_LOG")"
  else
    ok "$1"
  fi
}
forged=$'8\t0\t-\t1.0\tx.po\nours\t0\t-\t1.0\tforged.po'
drive --alignment="$forged" -o x.mo ours.po
one_line "driver's log, an option that forges a line" \
  '--alignment=8\t0\t-\t1.0\tx.po\nours\t0\t-\t1.0\tforged.po'
drive --endianness=$'\e[2J\rbig' -o x.mo ours.po
one_line "driver's log, ESC in an option" '--endianness=\033[2J\rbig'
drive -o x.mo $'--nope\v\\\xff\xc2\x9b' ours.po
one_line "driver's log, a bad option" 'bad option --nope\v\\\377\302\233'
drive -o x.mo $'-c\x1b' ours.po
one_line "driver's log, a bad letter" 'bad option -\033'
# flag NAME BYTES REASON: the reason is that flag, which only GNU msgfmt checks
flag() {
  { header UTF-8 fr && printf '#, %b\nmsgid "a"\nmsgstr "b"\n' "$2"; } > flag.po
  drive -c -o x.mo flag.po
  one_line "driver's log, $1" "$3"
}
flag 'a tab between flags' 'a\tours-format' 'ours-format'
flag 'ESC in a flag' '\033[1mbold-format' '\033[1mbold-format'
flag 'a NUL in a flag' 'a\0000b-format' 'a\000b-format'
flag 'a line end of Unicode in a flag' '\0342\0200\0250x-format' '\342\200\250x-format'
flag 'a flag in another direction' '\0342\0200\0256x-format' '\342\200\256x-format'
flag 'the end of another direction in a flag' '\0342\0201\0251x-format' '\342\201\251x-format'
flag 'letters of other scripts in a flag' '\0303\0251t\0303\0251-format' 'été-format'
flag 'a long flag' "$(printf 'é%.0s' {1..99})-format" "$(printf 'é%.0s' {1..40})"
flag 'a long flag of ASCII' "$(printf 'x%.0s' {1..99})-format" "$(printf 'x%.0s' {1..80})"
{ header $'x\e[7m' fr && printf 'msgid "a"\nmsgstr "b"\n'; } > charset.po
drive -o x.mo charset.po
one_line "driver's log, ESC in a charset" 'charset=x\033[7m'

# names of files, as GNU ls shows them; its backslash before a blank isn't needed in a field that ends at a tab
i=0
for it in $'a\tb' $'a\nb.po:1: x' $'a\e]0;x\a' 'a\nb' $'caf\xe9' $'\xc3\xa9t\xc3\xa9' $'x\xe2\x80\xa8y' $'x\xc2\x9by' \
  $'x\ry' $'\a\b\f\v\x01\x7f' 'a blank' $'\xed\xa0\x80' $'\xf4\x90\x80\x80' $'\xc0\xaf' $'x\xf0\x9f\x98\x80'; do
  i=$((i + 1))
  mkdir names/$i && cp ours.po "names/$i/$it.po"
  drive -o x.mo "names/$i/$it.po"
  wanted=$(LC_ALL=C.UTF-8 ls --quoting-style=escape "names/$i" | sed 's/\\ / /g')
  got=$(cut -f 5- "$MSGFMT_OR_GNU_LOG")
  if [ "$(wc -l < "$MSGFMT_OR_GNU_LOG")" = 1 ] && [ "$got" = "names/$i/$wanted" ]; then
    ok "driver's log, a name such as $wanted"
  else failed "driver's log, a name such as $wanted" "the log has '$(cat -v "$MSGFMT_OR_GNU_LOG")'"; fi
done
drive -o x.mo "$(printf 'names/2/a\nb.po:1: x.po')" "$(printf 'x\ty')"
if [ "$(wc -l < "$MSGFMT_OR_GNU_LOG")" = 2 ]; then ok "driver's log, two names"
else failed "driver's log, two names" "$(cat -v "$MSGFMT_OR_GNU_LOG")"; fi
{ cat ours.po && printf 'msgid "hi"\nmsgstr "y"\n'; } > "$(printf 'twice\n.po')"
drive -o x.mo "$(printf 'twice\n.po')"
one_line "driver's log, a refusal of a name with a line end" 'duplicate message'

# messages NAME TEXT ARGUMENT..: without GNU msgfmt the driver says this, and no control character
messages() {
  (unset GNU_MSGFMT && PATH=$room/nothing "$driver" "${@:3}") > out 2> err
  if ! grep -qF -- "$2" err; then failed "driver's messages, $1" "it said '$(cat -v err)'"
  elif tr -d '\n' < err | LC_ALL=C grep -q '[[:cntrl:]]'; then failed "driver's messages, $1" "$(cat -v err)"
  else ok "driver's messages, $1"; fi
}
messages 'an option' 'msgfmt-or-gnu: --alignment=8\t0' --alignment="$forged" ours.po
messages 'a name' 'msgfmt-or-gnu: cannot read a\033[2J\nb.po: No such file' $'a\e[2J\nb.po'
export MSGFMT_OR_GNU_LOG=$room/none/$'\e[2J'
messages 'the name of the log' 'msgfmt-or-gnu: cannot write '"$room"'/none/\033[2J: No such file' -o x.mo ours.po
export MSGFMT_OR_GNU_LOG=$room/log

# --- the table --------------------------------------------------------------------------------------------------------

# summary NAME STATUS OUT ERR: the table of the log `some`
summary() {
  drive --summary some
  if [ "$status" != "$2" ] || ! printf "$3" | cmp -s - out || ! printf '%b' "$4" | cmp -s - err; then
    failed "driver, --summary, $1" "status $status: $(cat -v out err)"
  else ok "driver, --summary, $1"; fi
}
head='who     files  failed  milliseconds  why\n'
bad='msgfmt-or-gnu: some:%s: not a line of a log\\n'
printf 'ours\t0\t-\t1.5\ta.po\nGNU\t0\tx\0y\t1.0\tb.po\nours\t1\t-\t2.0\tc.po\n' > some
summary 'a NUL in a log' 1 "${head}ours        2       1           3.5  -\nall         2       1           3.5\n" \
  "$(printf "$bad" 2)"
printf '\0' > some
summary 'nothing but a NUL' 1 "${head}all         0       0           0.0\n" "$(printf "$bad" 1)"
printf 'ours\t0\t-\t1.5\ta.po\0b\n' > some
summary 'a NUL in the last field' 1 "${head}all         0       0           0.0\n" "$(printf "$bad" 1)"
printf 'GNU\t0\t\033[2J\t1.5\ta.po\nGNU\t0\t\\033[2J\t2\t\n' > some
summary 'ESC in a log' 1 \
  "${head}GNU         1       0           1.5  \\\\033[2J\nall         1       0           1.5\n" "$(printf "$bad" 2)"
printf 'ours\t0\t-\t1.5\ta.po\tb\nours\tx\t-\t1.5\ta.po\nours\t0\t-\tnan\ta.po\n\033[2J\t0\t-\t1\ta.po\n' > some
summary 'other lines' 1 "${head}all         0       0           0.0\n" \
  "$(for it in 1 2 3 4; do printf "$bad" $it; done)"
: > some
summary 'an empty log' 0 "${head}all         0       0           0.0\n" ''
printf 'GNU\t77\tbad option --a\\tb\t3.0\ta\\nb.po' > some
summary 'no line end' 0 \
  "${head}GNU         1       1           3.0  bad option --a\\\\tb\nall         1       1           3.0\n" ''
drive --summary some > /dev/full
"$driver" --summary some > /dev/full 2> err
status=$?
judge 'driver, --summary to a full device' 1 'msgfmt-or-gnu: cannot write the table: No space left on device' &&
  ok 'driver, --summary to a full device'

# each of several files has its part of the time
printf '#!/bin/sh\nexec sleep 0.2\n' > slow && chmod 755 slow
: > "$MSGFMT_OR_GNU_LOG"
begun=$(date +%s%3N)
GNU_MSGFMT=$room/slow drive -o x.mo ours.po ours.po ours.po
took=$(($(date +%s%3N) - begun))
if awk -F '\t' -v took=$took '{ sum += $4 } END { exit !(NR == 3 && sum >= 199 && sum <= took + 1) }' "$MSGFMT_OR_GNU_LOG"; then
  ok "driver's log, milliseconds of several files"
else
  failed "driver's log, milliseconds of several files" "$took in all: $(cat "$MSGFMT_OR_GNU_LOG")"
fi

# --- descriptors ------------------------------------------------------------------------------------------------------

# short NAME ARGUMENT..: with any number of descriptors below what is needed, the reason is that they have run out
short() {
  local wrong='' n tried=0 first=3
  # (with 3 an emulator doesn't start, and says nothing)
  [ -z "${EMULATED:-}" ] || first=4
  for ((n = first; n <= 30; n++)); do
    rm -f x.mo
    (ulimit -n "$n" && exec "$driver" "${@:2}") > out 2> err
    status=$?
    [ $status != 0 ] || break
    tried=$((tried + 1))
    grep -q 'Too many open files\|error while loading shared libraries' err || wrong+="$n: '$(cat err)'; "
    [ ! -e x.mo ] || wrong+="$n: it wrote x.mo; "
  done
  if [ -z "$wrong" ] && [ $tried -gt 5 ] && [ $status = 0 ]; then ok "driver, $1, with $first to $((n - 1)) descriptors"
  else failed "driver, $1, with few descriptors" "$tried limits tried, status $status; $wrong"; fi
}
unset MSGFMT_OR_GNU_LOG
{ header ISO-8859-1 de && printf 'msgid "hi"\nmsgstr "hallo"\n'; } > latin.po
mkdir path && printf '#!/bin/sh\n[ "$1" != --version ] || echo GNU gettext\n' > path/msgfmt && chmod 755 path/msgfmt
(unset GNU_MSGFMT && PATH=$room/path:$PATH && short 'a text' -o x.mo ours.po)
(unset GNU_MSGFMT && PATH=$room/path:$PATH && short 'looking for GNU msgfmt' -o x.mo --strict ours.po)
mkdir bare && for it in grep rm cat; do ln -s "$(command -v $it)" bare; done
(unset GNU_MSGFMT && PATH=$room/bare && short 'no GNU msgfmt' -o x.mo ours.po)
export MSGFMT_OR_GNU_LOG=$room/log

# --- a full disk ------------------------------------------------------------------------------------------------------

{ cat ours.po && for it in $(seq 3000); do printf 'msgid "%s"\nmsgstr "%s"\n' "$it" "$it$it$it"; done; } > large.po
# full NAME REASON FILE: the driver says why the file can't be written, which is as it was
full() {
  : > "$MSGFMT_OR_GNU_LOG"
  "$driver" -o "$3" large.po > out 2> err
  status=$?
  judge "driver, $1" 1 "msgfmt: cannot write $3
msgfmt-or-gnu: $3: $2" && ok "driver, $1"
}
if [ -n "$is_linked" ]; then
  (trap '' XFSZ && ulimit -f 8 && full 'a file larger than it may be' 'File too large' x.mo)
  full 'a full device' 'No space left on device' /dev/full
  "$driver" -o - large.po > /dev/full 2> err
  status=$?
  judge 'driver, a full standard output' 1 'msgfmt: cannot write -
msgfmt-or-gnu: standard output: No space left on device' && ok 'driver, a full standard output'
else
  skipped 'driver, a file larger than it may be' 'msgfmt is not a part of this driver'
fi
mkdir disk
# on_disk NAME: the same on a disk of 64 kB, in a name space of its own, whose file systems are gone with it
on_disk() {
  mount -t tmpfs -o size=64k none disk && printf old > disk/x.mo || return
  full "$1" 'No space left on device' disk/x.mo
  if [ "$(cat disk/x.mo)" = old ] && [ "$(ls -A disk)" = x.mo ]; then ok "driver, $1: nothing has changed"
  else failed "driver, $1: nothing has changed" "$(ls -lA disk)"; fi
}
export driver program room
export -f on_disk full judge ok failed
if [ "$(id -u)" = 0 ] && "$top/tests/lib/needs" unshare util-linux &&
  unshare -m mount -t tmpfs -o size=64k none disk 2> /dev/null; then
  unshare -m bash -c 'on_disk "a full disk"'
  KOBDZILA_MSGFMT=$program unshare -m bash -c 'on_disk "a full disk, msgfmt started"'
else
  skipped 'driver, a full disk' 'only root can mount a small one, and may not here'
fi

# --- a caller that ignores SIGCHLD ---------------------------------------------------------------------------------------

if ! env --ignore-signal=CHLD true 2> env; then
  skipped 'driver, SIGCHLD is ignored' 'env has no option --ignore-signal'
else
  under=(env --ignore-signal=CHLD)
  drive --version
  if [ "$status" = 0 ] && [ ! -s err ]; then ok 'driver, SIGCHLD is ignored'
  else failed 'driver, SIGCHLD is ignored' "status $status; it said '$(head -c 300 err)'"; fi
  under=()
fi
