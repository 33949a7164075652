#!/usr/bin/env bash
# Asks bin/msgfmt and GNU msgfmt what docs/reference/gnu-differences.md says: a text for each row of its tables
# that is about PO texts, what GNU msgfmt 0.21 does with it, and what ours says. Rows about later versions and about files
# that are written are not here; tests/msgfmt/replace.sh has the latter, tests/driver/or_gnu.sh those about words and
# charsets.
. "$(dirname "$0")/../lib/common"

if ! tests/lib/needs tools/gnu-msgfmt gettext; then
  skipped beside_gnu 'no GNU gettext, and it could not be installed'
  exit 0
fi
gnu=$(tools/gnu-msgfmt)
version=$("$gnu" --version | sed -n '1s/.* //p')
if [ "$version" != 0.21 ]; then
  skipped beside_gnu "the tables are of GNU msgfmt 0.21, and this is $version"
  exit 0
fi
cd "$room" || exit 1
head='msgid ""\nmsgstr "Content-Type: text/plain; charset=UTF-8\\n'
plain="$head\"\n"
plural="${head}Plural-Forms: nplurals=2; plural=n!=1;\\\\n\"\n"

# answer PROGRAM OPTION: $answer is the revision of the MO file that it makes of the file in.po (as 0.0), `nothing` where
# it makes none and ends well, or `refused`; without the option where OPTION is empty
answer() {
  rm -f out.mo
  if ! "$1" ${2:+"$2"} --no-hash -o out.mo in.po > err 2>&1; then answer=refused
  elif [ ! -e out.mo ]; then answer=nothing
  else answer=$(od -An -tu2 -j 4 -N 4 out.mo | awk '{ print $2 "." $1 }'); fi
}

# row NAME OPTION GNU'S OURS [TEXT OF OURS]: what both make of the text on standard input
row() {
  printf "$(cat)" > in.po
  answer "$gnu" "$2"
  local theirs=$answer told=''
  answer "$program" "$2"
  [ "$answer" != refused ] || told=$(sed -n '1s/^in.po:[0-9]*: //p' err)
  if [ "$theirs $answer $told" = "$3 $4 ${5:-}" ]; then ok "beside GNU, $1${2:+ ($2)}"
  else failed "beside GNU, $1${2:+ ($2)}" "GNU's: $theirs; ours: $answer $told"; fi
}

# both NAME GNU'S OURS [TEXT OF OURS]: with -c and without
both() {
  local text
  text=$(cat; printf .)
  row "$1" '' "${@:2}" <<< "${text%.}"
  row "$1" -c "${@:2}" <<< "${text%.}"
}

macro='#, c-format\nmsgid "%%<PRId64>"\nmsgstr "%%<PRId64>"\n'
both 'a macro' 0.1 refused 'system-dependent format' <<< "$plain$macro"
both 'the flag I' 1.1 0.0 <<< "$plain"'#, c-format\nmsgid "%%d"\nmsgstr "%%Id"\n'
both 'a comment in another charset' 0.0 refused 'not UTF-8' <<< '# \374\n'"$plain"'msgid "a"\nmsgstr "b"\n'
row 'a domain line' '' 0.0 refused 'unknown word' <<< 'domain "x"\nmsgid "a"\nmsgstr "b"\n'
row 'a NUL' '' 0.0 refused 'bad text' <<< 'msgid "a\\0b"\nmsgstr "c"\n'
row 'an escape in hexadecimal digits' '' 0.0 refused 'bad escape' <<< 'msgid "a"\nmsgstr "\\x41"\n'
row 'an octal escape above 255' '' 0.0 refused 'bad escape' <<< 'msgid "a"\nmsgstr "x\\501"\n'
for pair in '%%s %%hs' '%%S %%LS' '%%p %%lp' '%%zu %%Zu' '%%Lf %%llf' '%%d %%01$d' '%%s:%%m %%1$s:%%2$m'; do
  row "a directive in other letters, $pair" -c 0.0 refused 'format arguments differ' \
    <<< "$plain#, c-format\nmsgid \"${pair% *}\"\nmsgstr \"${pair#* }\"\n"
done
for it in '%%hs' '%%Zu' '%%llf' '%%01$s' '%%1$s:%%2$m'; do
  row "another argument than that of $it" -c refused 0.0 <<< "$plain#, c-format\nmsgid \"$it\"\nmsgstr \"%%d\"\n"
done
differ="$plain"'msgid "a\\n"\nmsgstr "b"\n'
row 'newlines that differ' '' refused 0.0 <<< "$differ"
row 'newlines that differ' -c refused refused 'newlines differ' <<< "$differ"
for flag in python-format possible-c-format; do
  row "the flag $flag" -c refused 0.0 <<< "$plain#, $flag\nmsgid \"%%s\"\nmsgstr \"%%d\"\n"
done
files='#, c-format\nmsgid "%%d file"\nmsgid_plural "%%d files"\n'
row 'a form of one number drops its argument' -c 0.0 0.0 <<< "$plural$files"'msgstr[0] "one"\nmsgstr[1] "%%d"\n'
row 'a form of many numbers drops its argument' -c refused 0.0 <<< "$plural$files"'msgstr[0] "%%d"\nmsgstr[1] "more"\n'
row 'a rule that cannot be read' -c refused 0.0 <<< "${head}Plural-Forms: nplurals=INTEGER; plural=n;\\\\n\"\n"'msgid "a"\nmsgstr "b"\n'
row 'no header' -c refused 0.0 <<< 'msgid "a"\nmsgstr "b"\n'
row 'no header' '' 0.0 0.0 <<< 'msgid "a"\nmsgstr "b"\n'
both 'two obsolete entries of one key' refused 0.0 \
  <<< "$plain"'msgid "b"\nmsgstr "c"\n#~ msgid "a"\n#~ msgstr "c"\n#~ msgid "a"\n#~ msgstr "d"\n'
both 'a live and an obsolete entry of one key' refused 0.0 <<< "$plain"'msgid "a"\nmsgstr "c"\n#~ msgid "a"\n#~ msgstr "d"\n'
both 'a string after obsolete lines' refused 0.0 \
  <<< "$plain"'msgid "a"\nmsgstr "b"\n#~ msgid "c"\n#~ msgstr "d"\n"e"\n'
both 'a previous msgid that is not closed' refused 0.0 <<< "$plain"'#| msgid "x\nmsgid "a"\nmsgstr "b"\n'
both 'ASCII with other bytes' refused 0.0 <<< "${plain/UTF-8/ASCII}"'msgid "a"\nmsgstr "\303\240"\n'
both 'UTF8' 0.0 0.0 <<< "${plain/UTF-8/UTF8}"'msgid "a"\nmsgstr "b"\n'
both 'an obsolete word' refused 0.0 <<< "$plain"'#~ msgidx "a"\nmsgid "b"\nmsgstr "c"\n'
both 'a byte order mark' refused 0.0 <<< '\357\273\277'"$plain"
both 'a comment inside an entry' refused 0.0 <<< "$plain"'msgid "a"\n# here\nmsgstr "b"\n'
row 'half a character in each of two strings' -c 0.0 refused 'bad text' <<< "$plain"'msgid "a"\nmsgstr "caf\\303" "\\251"\n'
row 'an octal escape that is no UTF-8' -c 0.0 refused 'bad text' <<< "$plain"'msgid "a"\nmsgstr "caf\\351"\n'
row 'c-format and then not' -c 0.0 refused 'format arguments differ' \
  <<< "$plain"'#, c-format, no-c-format\nmsgid "%%d"\nmsgstr "%%s"\n'
both 'c-format and then not, a macro' 0.0 refused 'system-dependent format' <<< "$plain${macro/format/format, no-c-format}"
both 'a macro, Objective-C' 0.1 0.0 <<< "$plain${macro/c-format/objc-format}"
both 'a macro that is none' 0.0 refused 'system-dependent format' <<< "$plain${macro//64/63}"
long=$(printf '||n==%d' $(seq 200))
for rule in "${long#||}" 'n>18446744073709551616'; do
  row "a rule that is too long, ${rule:0:9}" -c 0.0 refused 'unreadable plural rule' \
    <<< "${plural/n!=1/$rule}"'msgid "a"\nmsgid_plural "b"\nmsgstr[0] "c"\nmsgstr[1] "d"\n'
done
for it in 'UTF-8;' '\\\"UTF-8\\\"' ''; do
  both "the charset $it" 0.0 refused 'unsupported charset' <<< "${plain/UTF-8/"$it"}"'msgid "a"\nmsgstr "b"\n'
done
both 'a backslash at the end of a line' 0.0 refused 'string not closed' <<< "$plain"'msgid "a\\\nb"\nmsgstr "c"\n'
row 'a header that is no format of its msgid' -c 0.0 refused 'format arguments differ' \
  <<< '#, c-format\n'"${plain/UTF-8/UTF-8\\\\nX-Done: 100 %% done}"'msgid "a"\nmsgstr "b"\n'
both 'an index with zeros' 0.0 refused 'unknown word' \
  <<< "$plural"'msgid "a"\nmsgid_plural "b"\nmsgstr[0000000000] "c"\nmsgstr[1] "d"\n'
row 'nothing is translated' '' nothing 0.0 <<< 'msgid "a"\nmsgstr ""\n'
both 'default values in the header' 0.0 0.0 <<< 'msgid ""\nmsgstr "Project-Id-Version: PACKAGE VERSION\\n"\n'

# leaves NAME OPTION TEXT: GNU msgfmt refuses the text and writes its MO file, ours writes none
leaves() {
  printf "$3" > in.po
  rm -f theirs.mo ours.mo
  if ! "$gnu" ${2:+"$2"} -o theirs.mo in.po 2> err && ! "$program" -c -o ours.mo in.po 2> err &&
    [ -e theirs.mo ] && [ ! -e ours.mo ]; then ok "beside GNU, the MO file after a check, $1"
  else failed "beside GNU, the MO file after a check, $1" "$(ls -- *.mo)"; fi
}
leaves 'newlines' '' "$differ"
leaves 'formats' -c "$plain"'#, c-format\nmsgid "%%d"\nmsgstr "%%s"\n'
leaves 'the number of forms' -c "$plural"'msgid "a"\nmsgid_plural "b"\nmsgstr[0] "c"\n'
leaves 'a rule' -c "${plural/n!=1/n!=}"'msgid "a"\nmsgid_plural "b"\nmsgstr[0] "c"\nmsgstr[1] "d"\n'

# the statistics, and the PO file's name before them
printf "$plain" > in.po
for it in -v '-v -v' '-v --statistics'; do
  name=
  [ "$it" = -v ] || name='in.po: '
  # shellcheck disable=SC2086
  if [ "$("$gnu" $it -o theirs.mo in.po 2>&1)" = "${name}0 translated messages." ]; then ok "beside GNU, $it"
  else failed "beside GNU, $it" "$("$gnu" $it -o theirs.mo in.po 2>&1)"; fi
done

# the header field POT-Creation-Date, and how it is dropped, from lines that end with LF, with CRLF and with a blank
for ending in '' '\r' ' ' '\t '; do
  printf "$plain"'"POT-Creation-Date: 2020-01-01\\n"\nmsgid "a"\nmsgstr "b"\n' > in.po
  sed -i "s/$/$ending/" in.po
  "$gnu" --no-hash -o theirs.mo in.po
  "$program" -o ours.mo in.po
  sed '/^"POT-Creation-Date:.*\\n"[[:space:]]*$/d' in.po | "$program" -o dropped.mo -
  if ! cmp -s theirs.mo ours.mo && cmp -s theirs.mo dropped.mo; then ok "beside GNU, POT-Creation-Date, lines that end with '$ending'"
  else failed "beside GNU, POT-Creation-Date, lines that end with '$ending'" 'dropping it does not give the same bytes'; fi
done
