#!/usr/bin/env bash
# Runs bin/msgfmt-or-gnu over bin/msgfmt and GNU msgfmt: who compiles, with which answer, output and status; options in
# each spelling; pipes; without one of the two programs; the log and its table; and faults. What is expected of GNU's
# side is what GNU msgfmt answers to the same arguments when it is run by itself.
. "$(dirname "$0")/../lib/common"
NAME=or_gnu
. tests/driver/begin
cd "$room" || exit 1
mkdir tmp po nothing
export TMPDIR=$room/tmp

{ header UTF-8 fr && printf 'msgid "hi"\nmsgstr "\303\240 toi"\n'; } > ours.po
{ header EUC-TW de && printf 'msgid "hi"\nmsgstr "hallo"\n'; } > charset.po
{ header EUC-TW zh_TW && printf 'msgid "hi"\nmsgstr "\304\343"\n'; } > chinese.po
{ header UTF-8 de && printf 'msgid "hi"\nmsgstr "gr\374\337e"\n'; } > bytes.po
{ header UTF-8 fr && printf '#, c-format\nmsgid "%%<PRId64> B"\nmsgstr "%%<PRId64> o"\n'; } > system.po
{ header UTF-8 fr && printf 'msgid "hi"\nmsgstr "x"\nmsgid "hi"\nmsgstr "y"\n'; } > twice.po
{ header UTF-8 fr && printf '#, c-format\nmsgid "%%s %%s %%m"\nmsgstr "%%2$s %%1$s %%3$m"\n'; } > errno.po
{ header UTF-8 fr && printf 'msgid "a\\n"\nmsgstr "b"\n'; } > newline.po
{ header UTF-8 fr && printf 'msgid "a"\nmsgstr "\\x41"\n'; } > escape.po
{ header UTF-8 fr && printf '#, python-format\nmsgid "%%(n)d"\nmsgstr "%%(m)d"\n'; } > python.po
{ header UTF-8 fr && printf 'msgid "a"\nmsgstr "b"\n\n#, fuzzy\nmsgid "c"\nmsgstr "d"\n'; } > mixed.po
printf '\nmsgid "e"\nmsgstr ""\n' >> mixed.po
{ printf '\357\273\277' && cat ours.po; } > mark.po
printf 'msgid "a"\nmsgstr ""\n' > nothing.po
printf 'msgid "a"\nmsgstr "b"\n' > headless.po
printf 'msgid ""\nmsgstr "Content-Type: text/plain; charset=UTF-8\\n"\n\nmsgid "a"\nmsgstr "b"\n' > fields.po
{ header UTF-8 fr && printf '#= fuzzy\nmsgid "a"\nmsgstr "b"\n'; } > flags.po
{ header UTF-8 fr && printf 'msgid "#= fuzzy"\nmsgstr "#= x"\n#=\nmsgid "b"\nmsgstr "c"\n'; } > no_flags.po
{ header UTF-8 fr && printf 'msgid "a" #= fuzzy\nmsgstr "b"\n'; } > late_flags.po
cp ours.po 'a name.po'
cp ours.po po/fr.po
cp charset.po -- '-dash.po'
cp ours.po "$(printf 'caf\351.po')"
cp ours.po "$(printf 'tab\tand\nline.po')"

# who_compiles PREFIX: each case of the man page's table
who_compiles() {
  local as="$1, " none=/dev/null
  is_of "${as}ours compiles" 'ours\t0\t-\tours.po' $none "$program" -c --statistics -o x.mo ours.po
  is_of "${as}a name with a blank" 'ours\t0\t-\ta name.po' $none "$program" -o x.mo 'a name.po'
  is_of "${as}untranslated and fuzzy" 'ours\t0\t-\tmixed.po' $none "$program" --statistics -f -o x.mo mixed.po
  is_of "${as}warnings" 'ours\t0\t-\tfields.po' $none "$program" -c -o x.mo fields.po
  is_of "${as}no warnings" 'ours\t0\t-\tfields.po' $none "$program" -o x.mo fields.po
  is_of "${as}a refusal" 'GNU\t1\tduplicate message\ttwice.po' $none "$gnu" -o x.mo twice.po
  is_of "${as}a refusal that GNU's doesn't share" 'GNU\t0\tformat arguments differ\terrno.po' $none \
    "$gnu" -c -o x.mo errno.po
  is_of "${as}no such file" 'GNU\t1\tNo such file or directory\tnone.po' $none "$gnu" -o x.mo none.po
  is_of "${as}a folder" 'GNU\t1\tIs a directory\tpo' $none "$gnu" -o x.mo po
  is_of "${as}a charset" 'GNU\t0\tcharset=EUC-TW\tcharset.po' $none "$gnu" -c --statistics -o x.mo charset.po
  is_of "${as}a charset and its bytes" 'GNU\t0\tcharset=EUC-TW\tchinese.po' $none "$gnu" -c -o x.mo chinese.po
  is_of "${as}bytes that are not of the charset" 'GNU\t1\tnot UTF-8\tbytes.po' $none "$gnu" -o x.mo bytes.po
  is_of "${as}system-dependent" 'ours\t0\t-\tsystem.po' $none "$gnu" --no-hash -o x.mo system.po
  is_of "${as}newlines without -c" 'GNU\t1\tnewlines differ\tnewline.po' $none "$gnu" -o x.mo newline.po
  is_of "${as}-c of another language's formats" 'GNU\t1\tpython-format\tpython.po' $none "$gnu" -c -o x.mo python.po
  is_of "${as}these formats without -c" 'ours\t0\t-\tpython.po' $none "$program" -o x.mo python.po
  is_of "${as}-c without a header" 'GNU\t1\tno header\theadless.po' $none "$gnu" -c -o x.mo headless.po
  is_of "${as}no header without -c" 'ours\t0\t-\theadless.po' $none "$program" -o x.mo headless.po
  is_of "${as}a byte order mark" 'GNU\t1\ta byte order mark\tmark.po' $none "$gnu" -o x.mo mark.po
  is_of "${as}an option of GNU's" 'GNU\t0\t--strict\tours.po' $none "$gnu" --strict -o x.mo ours.po
  is_of "${as}two PO files" 'GNU\t1\tmore than one PO file\tours.po\nGNU\t1\tmore than one PO file\ttwice.po' $none \
    "$gnu" -o x.mo ours.po twice.po
  is_of "${as}no PO file" 'GNU\t1\tno PO file is named\t(none)' $none "$gnu" -o x.mo
  is_of "${as}a bad option" 'GNU\t1\tbad option --nope\tours.po' $none "$gnu" --nope ours.po
  is_of "${as}a bad letter" 'GNU\t1\tbad option -q\tours.po' $none "$gnu" -cq ours.po
  is_of "${as}after --" 'GNU\t0\tcharset=EUC-TW\t-dash.po' $none "$gnu" -o x.mo -- -dash.po
  is_of "${as}standard input, ours" 'ours\t0\t-\t-' ours.po "$program" -o - -
  is_of "${as}standard input, GNU's" 'GNU\t0\tcharset=EUC-TW\t-' charset.po "$gnu" -o - -
  is_of "${as}standard input by its name" 'GNU\t0\tcharset=EUC-TW\t/dev/stdin' charset.po \
    "$gnu" -co x.mo /dev/stdin
  is_of "${as}-C and messages left out" 'GNU\t1\t-C and a fuzzy message\tmixed.po' $none "$gnu" -C -o x.mo mixed.po
}
who_compiles driver
if [ -n "$is_linked" ]; then KOBDZILA_MSGFMT=$program who_compiles 'driver that starts msgfmt'; fi

# the program once more with the sanitizers, and a part of it under valgrind
built=$driver
sanitizers=(-fsanitize=address,undefined -fno-sanitize-recover=all)
if (cd "$top" && tools/build_driver "$room/checked" -g "${sanitizers[@]}") 2> gcc; then
  driver=$room/checked
  who_compiles 'driver with sanitizers'
else
  skipped 'driver with sanitizers' "they can't be linked: $(tail -n 1 gcc)"
fi
if "$top/tests/lib/needs" valgrind valgrind libc6-dbg && (cd "$top" && tools/build_driver "$room/plain" -g) 2> gcc; then
  driver=$room/plain under=(valgrind -q --error-exitcode=99 --child-silent-after-fork=yes)
  is_of 'driver in valgrind, ours' 'ours\t0\t-\tmixed.po' /dev/null "$program" -c --statistics -o x.mo mixed.po
  is_of "driver in valgrind, GNU's" 'GNU\t0\tcharset=EUC-TW\t-' charset.po "$gnu" -o - -
  is_of 'driver in valgrind, a refusal' 'GNU\t1\tduplicate message\ttwice.po' /dev/null "$gnu" -o x.mo twice.po
else
  skipped 'driver in valgrind' 'no valgrind, and it could not be installed'
fi
driver=$built under=()

# newlines NAME STATUS ENTRY ARGUMENT..: texts that differ in newlines are GNU msgfmt's, and no others
newlines() {
  { header UTF-8 fr && printf '%b' "$3"; } > lines.po
  drive "${@:4}" -o x.mo lines.po
  local wanted=$status who
  "$gnu" "${@:4}" -o x.mo lines.po 2> /dev/null
  [ $? = "$2" ] && [ "$wanted" = "$2" ] || failed "driver, newlines, $1" "status $wanted and not $2"
  who='ours\t0\t-'
  [ "$2" = 0 ] || who='GNU\t1\tnewlines differ'
  logs "driver, newlines, $1" "$who\tlines.po"
}
newlines 'at the end' 1 'msgid "a"\nmsgstr "b\\n"\n'
newlines 'at the beginning' 1 'msgid ""\n"\\na"\nmsgstr "b"\n'
newlines 'in both' 0 'msgid "\\na\\n"\nmsgstr ""\n"\\nb"\n"c\\n"\n'
newlines 'a backslash before n' 0 'msgid "a"\nmsgstr "b\\\\n"\n'
newlines 'a backslash and a newline' 1 'msgid "a"\nmsgstr "b\\\\\\n"\n'
newlines 'one form of two' 1 'msgid "a\\n"\nmsgid_plural "b\\n"\nmsgstr[0] "c\\n"\nmsgstr[1] "d"\n'
newlines 'the plural' 1 'msgid "a\\n"\nmsgid_plural "b"\nmsgstr[0] "c\\n"\nmsgstr[1] "d\\n"\n'
newlines 'untranslated' 0 'msgid "a\\n"\nmsgid_plural "b"\nmsgstr[0] ""\nmsgstr[1] ""\n'
newlines 'fuzzy' 0 '#, fuzzy\nmsgid "a\\n"\nmsgstr "b"\n'
newlines 'fuzzy with -f' 1 '#, fuzzy\nmsgid "a\\n"\nmsgstr "b"\n' -f
newlines 'after a fuzzy one' 1 '#, fuzzy\nmsgid "c"\nmsgstr "d"\nmsgid "a\\n"\nmsgstr "b"\n'
newlines 'after an obsolete one' 1 '#, fuzzy\n#~ msgid "c"\n#~ msgstr "d"\nmsgid "a\\n"\nmsgstr "b"\n'
newlines 'with a context' 1 'msgctxt "x\\n"\nmsgid "a\\n"\nmsgstr "b"\n'
newlines 'in a context alone' 0 'msgctxt "x\\n"\nmsgid "a"\nmsgstr "b"\n'

# --- options ----------------------------------------------------------------------------------------------------------

# serves ARGUMENT..: Kobdzila's msgfmt compiles mixed.po to x.mo by these arguments, and GNU's has this status and
# prints these statistics
"$program" -o wanted.mo mixed.po
serves() {
  local wanted
  rm -f x.mo
  "$gnu" "$@" > /dev/null 2> wanted.err
  wanted=$?
  rm -f x.mo
  drive "$@"
  if [ "$status" != "$wanted" ] || [ "$wanted" != 0 ]; then
    failed "driver, $*" "status $status, GNU's $wanted; it said '$(cat err)'"
  elif ! cmp -s x.mo wanted.mo; then
    failed "driver, $*" 'another MO file'
  elif ! cmp -s err wanted.err; then
    failed "driver, $*" "'$(cat err)' and not '$(cat wanted.err)'"
  else
    logs "driver, $*" 'ours\t0\t-\tmixed.po'
  fi
}
serves --output x.mo mixed.po
serves --out=x.mo mixed.po
serves -o none.mo -ox.mo mixed.po
serves --o x.mo -- mixed.po
serves mixed.po -o x.mo
serves --check-format --check-domain --check-header -o x.mo mixed.po
serves -c -c --check --check-f -o x.mo mixed.po
serves --endianness=little -a 1 --alignment=1 --no-hash --no-h -o x.mo mixed.po
serves --statistics --stat -o x.mo mixed.po
serves -v -o x.mo mixed.po
serves -vv -o x.mo mixed.po
serves -cvo x.mo mixed.po
serves --verb --stat -o x.mo mixed.po

# only_gnu REASON ARGUMENT..
only_gnu() {
  drive "${@:2}"
  logs "driver, ${*:2}" "GNU\t$status\t$1\tours.po"
}
only_gnu --alignment=8 -a 8 -o x.mo ours.po
only_gnu --endianness=big --endianness=big -o x.mo ours.po
only_gnu --use-untranslated --use-u -o x.mo ours.po
only_gnu 'bad option --use' --use ours.po -o x.mo
only_gnu 'bad option -o' ours.po -o
only_gnu -j -j ours.po
only_gnu --properties-input --prop ours.po
only_gnu 'FILE is the error output' -o /dev/stderr ours.po


# compiles NAME LOG FILE ARGUMENT..: the MO file x.mo is that of FILE by Kobdzila's msgfmt
compiles() {
  rm -f x.mo
  "$program" -o wanted.mo "$3"
  drive "${@:4}"
  if [ $status = 0 ] && cmp -s x.mo wanted.mo; then logs "$1" "$2"; else failed "$1" "status $status, '$(cat err)'"; fi
}
compiles 'driver, -C and nothing left out' 'ours\t0\t-\tours.po' ours.po -C -o x.mo ours.po
compiles 'driver, -D' 'ours\t0\t-\tfr.po' po/fr.po -D nowhere -D po -o x.mo fr.po
compiles 'driver, a name without .po' 'ours\t0\t-\tours' ours.po -o x.mo ours
compiles 'driver, both' 'ours\t0\t-\tfr' po/fr.po -D po/ -o x.mo fr
cp po/fr.po po/only.pot
compiles 'driver, the ending .pot' 'ours\t0\t-\tonly' po/only.pot -D po -o x.mo only
compiles 'driver, -D and an absolute name' "ours\t0\t-\t$room/po/fr.po" po/fr.po -D nowhere -o x.mo "$room/po/fr.po"
is_of 'driver, -D with a file' 'GNU\t1\tNot a directory\tfr.po' /dev/null "$gnu" -D po/fr.po -D po -o x.mo fr.po
compiles 'driver, a name with a tab and a line end' 'ours\t0\t-\ttab\\tand\\nline.po' ours.po \
  -o x.mo "$(printf 'tab\tand\nline.po')"

# (no file without -o, and an old one stays; with -o there is one, as the man page says)
for it in /dev/null nothing.po; do
  printf old > messages.mo
  is_of "driver, nothing translated, $it" "ours\t0\t-\t$it" /dev/null "$gnu" --statistics $it
  printf old > messages.mo
  drive $it
  if [ "$(cat messages.mo)" = old ]; then ok "driver, nothing translated, $it: an old file stays"
  else failed "driver, nothing translated, $it: an old file stays" 'it was written'; fi
done
rm -f messages.mo
is_of 'driver, without -o' 'ours\t0\t-\tmixed.po' /dev/null "$program" --statistics mixed.po
drive "$(printf 'caf\351.po')" -o x.mo
logs "driver, a name that isn't UTF-8" "GNU\t0\ta name that isn't UTF-8\tcaf\\\\351.po"

"$gnu" --version > wanted.out
drive --version
if [ $status = 0 ] && head -n -1 out | cmp -s - wanted.out &&
  tail -n 1 out | grep -qx 'msgfmt-or-gnu (Kobdzila) [0-9.]*'; then
  logs 'driver, --version' ''
else failed 'driver, --version' "$(cat out err)"; fi
"$gnu" --help > wanted.out
drive -h
if [ $status = 0 ] && head -n "$(wc -l < wanted.out)" out | cmp -s - wanted.out &&
  grep -q '^This is msgfmt-or-gnu' out; then
  logs 'driver, -h' ''
else failed 'driver, -h' "$(diff out wanted.out | head -n 3)"; fi

# a reader that has seen enough, under pipefail: each of these programs prints at once
name='driver, a reader of --version and of -h that leaves after a line'
left=0
for it in $(seq 50); do
  for option in --version -h; do (set -o pipefail && "$driver" $option | head -n 1 > /dev/null) || left=$((left + 1)); done
done
[ $left = 0 ] && ok "$name" || failed "$name" "$left of 100 ended by a signal"

# --- descriptors, streams and names -----------------------------------------------------------------------------------

name='driver, a FIFO, and an output by a descriptor of the caller'
mkfifo first_fifo
cat ours.po > first_fifo &
"$driver" -o /dev/fd/9 first_fifo 9> x.mo
wait
cat ours.po | "$driver" -o /dev/fd/9 - 9> y.mo
"$program" -o wanted.mo ours.po
if cmp -s x.mo wanted.mo && cmp -s y.mo wanted.mo; then ok "$name"; else failed "$name" "$(wc -c x.mo y.mo)"; fi

name='driver, a text with macros, to /dev/stdout and to a descriptor of the caller: no file is replaced'
"$gnu" --no-hash -o wanted.mo system.po
{ echo first && "$driver" -o /dev/stdout system.po && echo last; } > x.mo
printf '%099999d' 0 > y.mo
{ "$driver" -o /dev/fd/9 system.po && cat <&9 > z.mo; } 9<> y.mo
if { echo first && cat wanted.mo && echo last; } | cmp -s - x.mo && cmp -s z.mo wanted.mo; then ok "$name"
else failed "$name" "$(wc -c x.mo z.mo | xargs)"; fi

name='driver, a stream without an end'
if said=$(yes | (ulimit -v 1200000 && "$driver" -o x.mo - 2>&1)); then failed "$name" "status 0: $said"
elif [ "$said" = 'msgfmt-or-gnu: -: more than 64 MiB: save it in a file, and give the name of that' ]; then ok "$name"
else failed "$name" "$said"; fi

name='driver, a name with a line end, and warnings that nobody asked for'
cp fields.po "$(printf 'line\nend.po')"
said=$("$driver" --check-format -o x.mo "$(printf 'line\nend.po')" 2>&1)
[ -z "$said" ] && ok "$name" || failed "$name" "$said"

# --- flags in lines #= ------------------------------------------------------------------------------------------------

# newer VERSION: a GNU msgfmt that says that it has this version
newer() {
  printf '#!/bin/sh\n[ "$1" != --version ] || { echo "msgfmt (GNU gettext-tools) %s"; exit; }\n' "$1" > newer
  echo 'echo "is run" >&2' >> newer
  chmod 755 newer
}
for it in flags late_flags; do
  line=$(grep -n '#=' $it.po | cut -d : -f 1)
  for version in 0.21 0.25.1; do
    newer $version
    GNU_MSGFMT=$room/newer drive -o x.mo $it.po
    said="$it.po:$line: flags in a line #= are known to GNU msgfmt since 0.26, and $room/newer is ${version%.1}"
    judge "driver, $it, GNU msgfmt $version" 1 "$said" && ok "driver, $it, GNU msgfmt $version"
  done
  for version in 0.26 0.26.1 1.0; do
    newer $version
    GNU_MSGFMT=$room/newer drive -o x.mo $it.po
    judge "driver, $it, GNU msgfmt $version" 0 'is run' &&
      logs "driver, $it, GNU msgfmt $version" "GNU\t0\tflags in #=\t$it.po"
  done
done
compiles 'driver, #= in strings and without a flag' 'ours\t0\t-\tno_flags.po' no_flags.po -o x.mo no_flags.po

# --- streams that are closed, pipes, and runs that are ended ----------------------------------------------------------

printf 'more\n' > more
{ drive -o - ours.po; rest=$(cat); } < more
if [ "$rest" = more ]; then logs "driver, standard input is nobody else's" 'ours\t0\t-\tours.po'
else failed "driver, standard input is nobody else's" "it left '$rest'"; fi

# pipes NAME FILE PROGRAM WHO: FILE through a pipe with a name, and through one of bash
mkfifo pipe
pipes() {
  "$3" -o wanted.mo "$2"
  cat "$2" > pipe &
  drive -o x.mo pipe
  if [ $status = 0 ] && cmp -s x.mo wanted.mo; then logs "driver, a pipe, $1" "$4\tpipe"
  else failed "driver, a pipe, $1" "status $status, '$(cat err)'"; fi
  drive -o x.mo <(cat "$2")
  if [ $status = 0 ] && cmp -s x.mo wanted.mo && logged | grep -q "^$(printf '%b' "$4")"; then
    ok "driver, a pipe of bash, $1"
  else failed "driver, a pipe of bash, $1" "status $status, '$(cat err)'"; fi
}
pipes ours ours.po "$program" 'ours\t0\t-'
pipes "GNU's" charset.po "$gnu" 'GNU\t0\tcharset=EUC-TW'
pipes 'refused' escape.po "$gnu" 'GNU\t0\tbad escape'

# closed NAME STATUS COMMAND: the driver's status with a stream closed
closed() {
  : > "$MSGFMT_OR_GNU_LOG"
  rm -f x.mo
  eval "$3"
  status=$?
  if [ $status = "$2" ]; then ok "driver, $1"; else failed "driver, $1" "status $status and not $2"; fi
}
closed 'standard output closed' 1 '"$driver" -o - ours.po >&- 2> err'
closed "standard output closed, GNU's" 1 '"$driver" -o - charset.po >&- 2> err'
closed 'error output closed' 0 '"$driver" -o x.mo ours.po 2>&-'
closed 'error output closed, statistics' 1 '"$driver" --statistics -o x.mo ours.po 2>&-'
closed "error output closed, statistics of GNU's" 1 '"$driver" --statistics -o x.mo charset.po 2>&-'
closed 'standard input closed' 0 '"$driver" -o x.mo ours.po <&-'
closed 'all closed' 0 '"$driver" -o x.mo ours.po <&- >&- 2>&-'
if "$program" -o - ours.po | cmp -s - x.mo; then ok 'driver, all closed: the MO file'
else failed 'driver, all closed: the MO file' 'it is another one'; fi
closed 'a full output' 1 '"$driver" -o - ours.po > /dev/full 2> err'

mkfifo held
"$driver" -o - - < held > out 2> err &
it=$!
exec 8> held
sleep 0.2
kill -TERM $it
exec 8>&-
wait $it
status=$?
if [ $status = 143 ]; then : > "$MSGFMT_OR_GNU_LOG"; logs 'driver, ended while it reads' ''
else failed 'driver, ended while it reads' "status $status"; fi

# signals: one that ends a program is the driver's end, and one that is sent to the driver reaches the program
printf '#!/bin/sh\ncase $* in *--version*) echo GNU gettext; exit ;; esac\nkill -%s $$\nsleep 5\n' SEGV > dies
printf '#!/bin/sh\ntrap "echo caught >&2; exit 7" TERM\necho ready >&2\nwhile :; do sleep 0.1; done\n' > waits
chmod 755 dies waits
for who in KOBDZILA GNU; do
  file=ours.po
  [ $who = KOBDZILA ] || file=charset.po
  { (export ${who}_MSGFMT="$room/dies"; exec "$driver" -o x.mo $file); } 2> err
  status=$?
  if [ $status = 139 ]; then ok "driver, a signal ends $who's"
  else failed "driver, a signal ends $who's" "status $status"; fi
done
: > err
(export GNU_MSGFMT=$room/waits; exec "$driver" -o x.mo charset.po) 2> err &
it=$!
for _ in $(seq 100); do
  grep -q ready err && break
  sleep 0.05
done
kill -TERM $it
wait $it
status=$?
if [ $status = 7 ] && grep -qx caught err; then ok 'driver, a signal is handed on'
else failed 'driver, a signal is handed on' "status $status, '$(cat err)'"; fi

mkdir asked && printf '#!/bin/sh\n: > "%s"\nexec sleep 5\n' "$room/asked/now" > asked/msgfmt && chmod 755 asked/msgfmt
(unset GNU_MSGFMT && PATH=$room/asked:$PATH && exec "$driver" -o x.mo charset.po) 2> err &
it=$!
for _ in $(seq 100); do
  [ ! -e asked/now ] || break
  sleep 0.05
done
kill -TERM $it
wait $it
status=$?
if [ $status = 143 ]; then ok 'driver, a signal while a program on the PATH is asked for its version'
else failed 'driver, a signal while a program on the PATH is asked for its version' "status $status, '$(cat err)'"; fi

# --- the two programs: links, copies, none of GNU's, none of ours -----------------------------------------------------

mkdir links copies wrapped
ln -s "$driver" links/msgfmt
cp "$driver" copies/msgfmt
printf '#!/bin/sh\nexec "%s" "$@"\n' "$driver" > wrapped/msgfmt
printf '#!/bin/sh\nexec "%s" "$@"\n' "$gnu" > wrapped/gmsgfmt
chmod 755 wrapped/*msgfmt
for it in sh cat; do ln -s "$(command -v $it)" "nothing/$it"; done

# found NAME STATUS ERR ARGUMENT..: the driver as links/msgfmt, with only the PATH to find GNU's
found() {
  local name="driver, $1" wanted=$2 said=$3
  shift 3
  : > "$MSGFMT_OR_GNU_LOG"
  (unset GNU_MSGFMT && PATH=$path links/msgfmt "$@") > out 2> err
  status=$?
  judge "$name" "$wanted" "$said" && ok "$name"
}
path=$room/links:$PATH
found 'found as msgfmt before GNU msgfmt' 0 '' -o x.mo charset.po
path=$room/links:$room/copies:$room/links::$PATH
found 'itself on the PATH, and a copy, and twice' 0 '' -o x.mo charset.po
path=$room/wrapped
found 'a script that runs it before one that runs GNU msgfmt' 0 '' -o x.mo charset.po
path=$room/links:$room/nothing
missing='msgfmt-or-gnu: no GNU msgfmt on the PATH to run in its place'
needed='this needs GNU msgfmt, and there is none on the PATH; it is in the package gettext'
found 'no GNU msgfmt and none is needed' 0 '' -o x.mo ours.po
found 'no GNU msgfmt, a charset' 1 "charset.po:1: unsupported charset
$missing (charset=EUC-TW); it is in the package gettext" -o x.mo charset.po
logs 'driver, no GNU msgfmt, the log' 'ours\t1\tcharset=EUC-TW; no GNU msgfmt\tcharset.po'
{ cat ours.po && printf '\n#, elisp-format\nmsgid "%%d a"\nmsgstr "b"\n'; } > elisp.po
found 'no GNU msgfmt, a check of its' 0 '' -c -o x.mo elisp.po
logs 'driver, no GNU msgfmt, the log of a check' 'ours\t0\telisp-format; no GNU msgfmt\telisp.po'
{ cat ours.po && printf '\n#, scheme-format\nmsgid "~{~a~}"\nmsgstr "b"\n'; } > scheme.po
found 'no GNU msgfmt, a format that is not read' 0 '' -c -o x.mo scheme.po
logs 'driver, no GNU msgfmt, the log of it' \
  'ours\t0\tscheme-format that is not read here; no GNU msgfmt\tscheme.po'
{ cat ours.po && printf '\nmsgid "a"\nmsgstr ""\n'; } > half.po
"$program" -o wanted.mo half.po
rm -f x.mo
found 'no GNU msgfmt, -C and a message left out' 0 '' -C -o x.mo half.po
logs 'driver, no GNU msgfmt, the log of -C' 'ours\t0\t-C and messages that are left out; no GNU msgfmt\thalf.po'
if cmp -s x.mo wanted.mo; then ok 'driver, no GNU msgfmt, -C: the MO file'
else failed 'driver, no GNU msgfmt, -C: the MO file' "$(ls x.mo 2>&1)"; fi
found 'no GNU msgfmt, a refusal' 1 "twice.po:6: duplicate message
$missing (duplicate message); it is in the package gettext" -o x.mo twice.po
found 'no GNU msgfmt, a folder that is not there' 1 "msgfmt: cannot write no/x.mo
msgfmt-or-gnu: no/x.mo: No such file or directory" -o no/x.mo newline.po
found 'no GNU msgfmt, an option of its' 1 "msgfmt-or-gnu: --strict: $needed" --strict -o x.mo ours.po
found 'no GNU msgfmt, a bad option' 1 "msgfmt-or-gnu: bad option --nope: $needed" --nope ours.po
found 'no GNU msgfmt, no such file' 1 'msgfmt-or-gnu: cannot read none.po: No such file or directory' none.po
found 'no GNU msgfmt, flags in #=' 1 "flags.po:4: flags in a line #= are known to GNU msgfmt since 0.26, and there is \
none on the PATH; it is in the package gettext" -o x.mo flags.po
found 'no GNU msgfmt, --version' 0 '' --version
grep -qx 'msgfmt-or-gnu (Kobdzila) [0-9.]*' out && ok 'driver, no GNU msgfmt, its version' ||
  failed 'driver, no GNU msgfmt, its version' "$(cat out)"
# (po.m4 reads the version so, and takes one before 0.15 for a msgfmt that knows no msgctxt)
case $(sed 1q out | sed -e 's,^[^0-9]*,,') in
  '' | 0.[0-9] | 0.[0-9].* | 0.1[0-4] | 0.1[0-4].*) failed 'driver, no GNU msgfmt, its release' "$(cat out)" ;;
  *) ok 'driver, no GNU msgfmt, its release' ;;
esac

KOBDZILA_MSGFMT=$room/none/msgfmt drive -o x.mo ours.po
judge 'driver, none of ours' 1 "msgfmt-or-gnu: there is no $room/none/msgfmt" && ok 'driver, none of ours'
KOBDZILA_MSGFMT=$driver drive -o x.mo ours.po
judge 'driver, itself for ours' 1 'msgfmt-or-gnu: this program was taken for one of the two that it runs' &&
  ok 'driver, itself for ours'
GNU_MSGFMT=$driver drive -o x.mo charset.po
judge "driver, itself for GNU's" 1 'msgfmt-or-gnu: this program was taken for one of the two that it runs' &&
  ok "driver, itself for GNU's"
mkdir beside && ln -s "$program" beside/kob-msgfmt
if ! (cd "$top" && LINKED='' tools/build_driver "$room/beside/kob-msgfmt-or-gnu" -g) 2> gcc; then
  failed 'driver, ours beside it by its name' "it could not be built: $(tail -n 1 gcc)"
elif (unset KOBDZILA_MSGFMT && beside/kob-msgfmt-or-gnu -o x.mo ours.po); then ok 'driver, ours beside it by its name'
else failed 'driver, ours beside it by its name' 'it was not found'; fi

# --- files that can't be written, many variables, runs at once --------------------------------------------------------

# unwritten WHY NAME: the driver says why
unwritten() {
  drive -o "$2" ours.po
  judge "driver, unwritten, $1" 1 "msgfmt: cannot write $2
msgfmt-or-gnu: $2: $1" && ok "driver, unwritten, $1"
}
unwritten 'No such file or directory' none/x.mo
unwritten 'Not a directory' ours.po/x.mo
unwritten 'Is a directory' po
if [ "$(id -u)" = 0 ] && "$top/tests/lib/needs" setpriv util-linux; then
  mkdir locked open && chmod 755 "$room" locked && chmod 777 open && chmod 644 ours.po mixed.po && chmod 666 "$MSGFMT_OR_GNU_LOG"
  under=(setpriv --reuid=65534 --clear-groups)
  unwritten 'Permission denied' locked/x.mo
  # replaces NAME PROGRAM: an old MO file that may only be read is replaced, and keeps its mode
  replaces() {
    rm -f open/x.mo
    printf old > open/x.mo
    chmod 444 open/x.mo && chown 65534 open/x.mo
    "${under[@]}" "$2" -o open/x.mo ours.po 2> err
    status=$?
    judge "driver, a read-only MO file, $1" 0 '' &&
      if [ "$(stat -c %a open/x.mo)" != 444 ] || ! cmp -s open/x.mo wanted.mo || [ "$(ls open)" != x.mo ]; then
        failed "driver, a read-only MO file, $1" "$(ls -l open)"
      else ok "driver, a read-only MO file, $1"; fi
  }
  "$gnu" --no-hash -o wanted.mo ours.po
  replaces 'replaced' "$driver"
  (unset KOBDZILA_MSGFMT && cp "$program" open.msgfmt && KOBDZILA_MSGFMT=$room/open.msgfmt replaces 'by a msgfmt that is started' "$driver")
  "$gnu" -o wanted.mo ours.po
  replaces "as GNU msgfmt does" "$gnu"
  cp ours.po locked/x.mo && chmod 444 locked/x.mo
  unwritten 'Permission denied' locked/x.mo
  if cmp -s locked/x.mo ours.po; then ok 'driver, unwritten: a read-only MO file in a folder that is read-only stays'
  else failed 'driver, unwritten: a read-only MO file in a folder that is read-only stays' 'it was changed'; fi
  # fills NAME PO-FILE: an MO file that may be written is written in a folder that is read-only, as GNU msgfmt writes it
  fills() {
    rm -f locked/y.mo
    chmod 644 "$2" && printf old > locked/y.mo && chmod 666 locked/y.mo
    drive -o locked/y.mo "$2"
    judge "driver, a folder that is read-only, $1" 0 '' &&
      if [ "$(stat -c %a locked/y.mo)" != 666 ] || ! "$gnu" --no-hash -o wanted.mo "$2" || ! cmp -s locked/y.mo wanted.mo; then
        failed "driver, a folder that is read-only, $1" "$(ls -l locked)"
      else ok "driver, a folder that is read-only, $1"; fi
  }
  fills 'compiled by msgfmt' ours.po
  fills 'compiled by libkobdzila' system.po
  under=()
else
  skipped 'driver, unwritten, Permission denied, and a read-only MO file' 'only root can become another user'
fi

(for it in $(seq 10000); do export "variable_$it=$it"; done; exec "$driver" --statistics -o x.mo charset.po) 2> err
status=$?
judge 'driver, 10,000 variables' 0 '1 translated message.' && ok 'driver, 10,000 variables'

MSGFMT_OR_GNU_LOG=$room/none/log "$driver" -o x.mo ours.po 2> err
status=$?
judge 'driver, no log can be written' 0 "msgfmt-or-gnu: cannot write $room/none/log: No such file or directory" &&
  ok 'driver, no log can be written'

: > "$MSGFMT_OR_GNU_LOG"
seq 400 | xargs -P 400 -I N sh -c '"$0" -o x-N.mo $1' "$driver" ours.po
lines=$(logged | grep -cx "$(printf 'ours\t0\t-\tours.po')")
if [ "$lines" = 400 ] && [ "$(cat x-*.mo | wc -c)" = $((400 * $(wc -c < x-1.mo))) ]; then
  ok 'driver, 400 runs at once in one log'
else failed 'driver, 400 runs at once in one log' "$lines lines"; fi

# --- the table of a log -----------------------------------------------------------------------------------------------

printf 'ours\t0\t-\t1.5\ta.po\nGNU\t0\tcharset=X\t10.0\tb.po\nGNU\t1\tcharset=X\t12.5\tc.po\n' > some
printf 'GNU\t0\t--strict\t9.0\td.po\nours\t0\t-\t2.0\te.po\n' >> some
cat > table << 'END'
who     files  failed  milliseconds  why
ours        2       0           3.5  -
GNU         2       1          22.5  charset=X
GNU         1       0           9.0  --strict
all         5       1          35.0
END
drive --summary some
if [ $status = 0 ] && cmp -s out table; then ok 'driver, --summary'
else failed 'driver, --summary' "$(diff out table)"; fi
printf 'ours\t0\n' > some
drive --summary some
judge 'driver, --summary of another file' 1 'msgfmt-or-gnu: some:1: not a line of a log' &&
  ok 'driver, --summary of another file'
drive --summary none
judge 'driver, --summary of no file' 1 'msgfmt-or-gnu: cannot read none: No such file or directory' &&
  ok 'driver, --summary of no file'
