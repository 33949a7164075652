#!/usr/bin/env bash
# Runs bin/kob-msgunfmt. What it writes is compared with GNU msgunfmt 0.21 byte for byte: layouts and line breaks for
# chosen texts, and installed catalogues (each fifth; EVERY=1: all). Wrapped or not, msgfmt compiles each text of these to
# the same MO file.
# Then its statuses and messages, files that can't be read or written, and refused memory.
. "$(dirname "$0")/../lib/common"
. tests/lib/c_common
NAME=unfmt built=kob-msgunfmt
. tests/lib/built
data=$top/tests/unfmt
gnu=
if tests/lib/needs tools/gnu-msgfmt gettext; then gnu=$(dirname "$(tools/gnu-msgfmt)")/msgunfmt; fi
has_gnu_021() { [ -n "$gnu" ] && "$gnu" --version 2> /dev/null | grep -q ' 0\.21$'; }
cd "$room" || exit 1

# --- layouts ------------------------------------------------------------------------------------------------------------

# (GNU's warnings name a line of its own source)
is_as_gnu() {
  "$gnu" "$@" > wanted 2> gnu-said
  local wanted_status=$?
  run "$@"
  [ "$status" = $wanted_status ] && cmp -s wanted out
}

# are_as_gnu NAME WORD..: the output is GNU msgunfmt's with each set of options
are_as_gnu() {
  local name=$1 options wrong=''
  shift
  while read -ra options; do
    is_as_gnu "${options[@]}" "$@" || wrong+="$name ${options[*]}: $(diff wanted out | head -n 3); "
  done << 'END_OF_OPTIONS'

--no-wrap
-w 40
--width=20
-w 1
-w 0
--width=100000
-i
--indent -w 30
-i --no-wrap
-E
--escape --no-escape
-E -w 50
--strict
-s
--sort-output --indent
--force-po
-v
END_OF_OPTIONS
  if [ -z "$wrong" ]; then ok "unfmt, $name"; else failed "unfmt, $name" "${wrong:0:400}"; fi
}

cp "$data/layouts.po" .
printf 'msgid ""\nmsgstr "Content-Type: text/plain; charset=UTF-8\\n"\n' > header.po
printf 'msgid "a"\nmsgstr ""\n' > none.po
PYTHONIOENCODING=utf-8 python3 -B "$data/random_texts.py" "${SEED:-1}" 400 > breaks.po
for it in layouts breaks header none; do "$program" -o $it.mo $it.po; done
if has_gnu_021; then
  are_as_gnu 'strings, forms and escapes' layouts.mo
  are_as_gnu 'line breaks of many scripts' breaks.mo
  are_as_gnu 'a header alone' header.mo
  are_as_gnu 'no entry' none.mo
  are_as_gnu 'several files' layouts.mo header.mo breaks.mo
  are_as_gnu 'two headers alone' header.mo header.mo
else
  skipped 'unfmt, layouts' 'no GNU msgunfmt 0.21'
fi

# --- installed catalogues -----------------------------------------------------------------------------------------------

# means_the_same FILE: what is written of it is compiled to the same MO file as the text without wrapping, whose meaning
# is proved
means_the_same() {
  run --force-po "$1"
  "$program" -o wrapped.mo out 2> err && "$tested" --no-wrap --force-po "$1" > plain && "$program" -o plain.mo plain 2> err &&
    cmp -s wrapped.mo plain.mo
}

# is_explained FILE: GNU's text differs for a reason that docs/reference/msgunfmt.md lists: strings that depend on the
# system (a file of minor revision 1), keys and charsets that are refused, a charset that is converted, or characters
# that GNU's loses
is_explained() {
  [ "$status" = 0 ] && grep -q ': invalid multibyte sequence$' gnu-said && return
  case $("$gnu" "$1" 2> /dev/null | grep -aom 1 'charset=[^\" ]*') in
    '' | *[Uu][Tt][Ff]-8) ;;
    *) [ "$status" = 0 ] && return ;;
  esac
  [ "$status" = 1 ] && grep -qE ': (unsupported charset|keys out of order|bad text|wrong plural forms)' err && return
  case $(od -An -tx1 -j4 -N4 "$1" | tr -d ' ') in 0100???? | ????0001) return 0 ;; esac
  return 1
}

compare_installed() {
  local it same=0 explained=0 meant=0 wrong=''
  while read -r it; do
    if is_as_gnu "$it"; then same=$((same + 1))
    elif is_explained "$it"; then explained=$((explained + 1))
    else wrong+="$it "; fi
    [ "$status" = 0 ] || continue
    if means_the_same "$it"; then meant=$((meant + 1))
    else wrong+="$it, which means something else "; fi
  done < <(find /usr/share /usr/lib -name '*.mo' 2> unread | sort | awk -v every="${EVERY:-5}" 'NR % every == 0')
  if [ -n "$wrong" ]; then failed 'unfmt, installed catalogues' "${wrong:0:400}"
  elif [ $same = 0 ]; then skipped 'unfmt, installed catalogues' 'none is installed'
  else ok "unfmt, installed catalogues: $same as GNU's, $explained differ as documented, $meant mean the same"; fi
}
if has_gnu_021; then compare_installed; else skipped 'unfmt, installed catalogues' 'no GNU msgunfmt 0.21'; fi

# --- files and statuses -------------------------------------------------------------------------------------------------

run layouts.mo
mv out whole
says 'unfmt, -o' 0 '' -o written.po layouts.mo
holds 'unfmt, -o: the bytes' cmp -s written.po whole
says 'unfmt, --output-file=-' 0 '' --output-file=- layouts.mo
holds 'unfmt, --output-file=-: the bytes' cmp -s out whole
{ echo first && cat whole && echo last; } > between
{ echo first && "$tested" -o /dev/stdout layouts.mo && echo last; } > streamed
holds 'unfmt, -o /dev/stdout: it is written where that stands' cmp -s streamed between
run - < layouts.mo
holds 'unfmt, standard input' cmp -s out whole
run < layouts.mo
holds 'unfmt, no FILE' cmp -s out whole
run < <(cat layouts.mo)
holds 'unfmt, a pipe' cmp -s out whole
says 'unfmt, a header alone, -o' 0 '' -o header-alone.po header.mo
holds 'unfmt, a header alone, -o: no file' [ ! -e header-alone.po ]
printf 'old' > kept.po
chmod 640 kept.po
says 'unfmt, a file that is not there' 1 'kob-msgunfmt: cannot read missing.mo: No such file or directory' -o kept.po layouts.mo missing.mo
holds 'unfmt, a file that is not there: nothing is written' [ "$(cat kept.po)" = old ]
says 'unfmt, a PO file' 1 'kob-msgunfmt: layouts.po: not an MO file: name a file that msgfmt has written' layouts.po
says 'unfmt, an empty file' 1 'kob-msgunfmt: standard input: file too short' < /dev/null
printf 'msgid ""\nmsgstr "charset=ISO-8859-1\\n"\nmsgid "a"\nmsgstr "\344"\n' > latin.po
sed 's/ISO-8859-1/EUC-JP/; s/\xe4/\xa4\xa2/' latin.po > japanese.po
sed 's/ISO-8859-1/SHIFT_JIS/; s/\xe4/\x82\xa0/' latin.po > shifted.po
if [ -n "$gnu" ] && "$(dirname "$gnu")/msgfmt" -o latin.mo latin.po 2> gnu-said &&
  "$(dirname "$gnu")/msgfmt" -o japanese.mo japanese.po 2> gnu-said &&
  "$(dirname "$gnu")/msgfmt" -o shifted.mo shifted.po 2> gnu-said &&
  "$gnu" latin.mo | msgconv -t UTF-8 -o utf8.po && "$gnu" japanese.mo | msgconv -t UTF-8 -o japanese-utf8.po; then
  says 'unfmt, ISO-8859-1' 0 '' -o latin-as-utf8.po latin.mo
  holds 'unfmt, ISO-8859-1: the text in UTF-8, as msgconv writes it' cmp -s utf8.po latin-as-utf8.po
  says 'unfmt, EUC-JP' 0 '' -o japanese-as-utf8.po japanese.mo
  holds 'unfmt, EUC-JP: the text in UTF-8, as msgconv writes it' cmp -s japanese-utf8.po japanese-as-utf8.po
  says 'unfmt, Shift_JIS' 1 'kob-msgunfmt: shifted.mo: bad text: use GNU msgunfmt, and msgconv -t UTF-8 on what it writes' shifted.mo
else
  skipped 'unfmt, other charsets' 'no GNU msgunfmt'
fi
if [ "$(id -u)" = 0 ] && "$top/tests/lib/needs" setpriv util-linux; then
  mkdir locked && printf old > locked/kept.po && chmod 666 locked/kept.po && chmod 755 "$room" locked && chmod 644 layouts.mo
  under=(setpriv --reuid=65534 --regid=65534 --clear-groups)
  says 'unfmt, a folder that is read-only: an existing file' 0 '' -o locked/kept.po layouts.mo
  holds 'unfmt, a folder that is read-only: the bytes' cmp -s locked/kept.po whole
  mkdir open && chmod 777 open && printf old > open/kept.po && chown 65534 open/kept.po && chmod 444 open/kept.po
  says 'unfmt, a file that is read-only' 1 'kob-msgunfmt: cannot write open/kept.po: Permission denied' -o open/kept.po layouts.mo
  holds 'unfmt, a file that is read-only: it stays' [ "$(cat open/kept.po)" = old ]
  says 'unfmt, a folder that is read-only: a new file' 1 'kob-msgunfmt: cannot write locked/new.po: Permission denied' -o locked/new.po layouts.mo
  under=()
else
  skipped 'unfmt, a folder that is read-only' 'only root can become another user'
fi
says 'unfmt, a folder for -o' 1 'kob-msgunfmt: cannot write .: Is a directory' -o . layouts.mo
says 'unfmt, a folder that is not there' 1 'kob-msgunfmt: cannot write no/such.po: No such file or directory' -o no/such.po layouts.mo
says 'unfmt, -w' 1 'kob-msgunfmt: -w x: not a number of columns' -w x layouts.mo
says 'unfmt, a mode of GNU msgunfmt' 1 'kob-msgunfmt: this option needs GNU msgunfmt' --java layouts.mo
says 'unfmt, -o over a file' 0 '' -o kept.po layouts.mo
holds 'unfmt, -o over a file: the bytes, and the mode' [ "$(cmp kept.po whole && stat -c %a kept.po)" = 640 ]
if [ -w /dev/full ]; then
  "$tested" layouts.mo > /dev/full 2> err
  status=$?
  judge 'unfmt, a full disk' 1 'kob-msgunfmt: cannot write standard output: No space left on device' && ok 'unfmt, a full disk'
fi
holds 'unfmt, no temporary file is left' [ -z "$(find . -name '.*kob-msgunfmt*')" ]

# --- memory -------------------------------------------------------------------------------------------------------------

# refused_memory: each request for memory is refused in turn; the run says so, or writes all of it
refused_memory() {
  local number wrong=''
  for number in {1..400}; do
    refuses "$number" "$dynamic" -o refused.po layouts.mo > out 2> err
    [ -e refused ] || break
    if [ "$status" = 0 ]; then cmp -s refused.po whole || wrong+="request $number: another text; "
    else [ "$status" = 1 ] && grep -q 'out of memory\|Cannot allocate' err || wrong+="request $number: status $status; "; fi
    rm -f refused.po
  done
  if [ -n "$wrong" ]; then failed 'unfmt, refused memory' "${wrong:0:300}"
  else ok "unfmt, refused memory: $((number - 1)) requests"; fi
}
cd "$top" || exit 1
dynamic=$room/dynamic sanitized=$room/sanitized
if makes_refuser 'unfmt, refused memory'; then
  if said=$(PROGRAM=$built tools/build_driver "$dynamic" -g 2>&1); then cd "$room" && refused_memory
  else failed 'unfmt, refused memory' "$said"; fi
fi

# is_clean: a program that looks for errors of memory writes the same, for each layout
is_clean() {
  local options it
  for it in layouts.mo breaks.mo none.mo; do
    for options in '' -E '-i -w 20' '-s --strict --no-wrap'; do
      # shellcheck disable=SC2086
      "$sanitized" $options --force-po $it > checked 2> err && run $options --force-po $it && cmp -s checked out || return
    done
  done
  ! "$sanitized" layouts.po 2> err && ! grep -q 'ERROR\|runtime error' err
}
cd "$top" || exit 1
if ! echo 'int main(void) { return 0; }' | cc -fsanitize=address,undefined -x c -o "$room/none" - 2> "$room/cc"; then
  skipped 'unfmt, sanitizers' 'the compiler has none'
elif ! said=$(PROGRAM=$built tools/build_driver "$sanitized" -g -fsanitize=address,undefined -fno-sanitize-recover 2>&1); then
  failed 'unfmt, sanitizers' "$said"
else
  cd "$room" && holds 'unfmt, sanitizers' is_clean
fi
