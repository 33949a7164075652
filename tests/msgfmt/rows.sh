#!/usr/bin/env bash
# Runs bin/msgfmt on small inputs whose answers are known byte for byte, over streams and over files, and on what goes
# wrong: PO texts that are refused, streams that are closed or full, files that can't be read or written, command lines
# that are faulty.
. "$(dirname "$0")/../lib/common"

# run WORD..: runs the program on $room/in, of which it leaves $left bytes unread
run() {
  {
    "$program" "$@" > "$room/out" 2> "$room/err"
    status=$?
    left=$(($(cat | wc -c)))
  } < "$room/in"
}

# whole: how many bytes $room/in has
whole() { echo "$(($(wc -c < "$room/in")))"; }

# tells NAME ERR HEX WORD..: these words read all of $room/in, write the bytes HEX (white space in it counts for
# nothing), say ERR, and end with 0
tells() {
  local name=$1 error=$2 wanted=${3//[[:space:]]/} wrote
  shift 3
  run "$@"
  judge "$name" 0 "$error" || return
  wrote=$(head -c 4096 "$room/out" | hex)
  if [ "$wrote" != "$wanted" ]; then
    failed "$name" "it wrote $(($(wc -c < "$room/out"))) bytes: ${wrote:0:400}"
  elif [ "$left" != 0 ]; then
    failed "$name" "it left $left bytes unread"
  else
    ok "$name"
  fi
}

# writes NAME HEX WORD..: the same, and they say nothing
writes() {
  local name=$1 bytes=$2
  shift 2
  tells "$name" '' "$bytes" "$@"
}

# fails NAME ERR WORD..: these words, on $room/in, write nothing, say ERR, and end with 1
fails() {
  local name=$1 error=$2
  shift 2
  run "$@"
  judge "$name" 1 "$error" || return
  if [ -s "$room/out" ]; then failed "$name" "it wrote $(($(wc -c < "$room/out"))) bytes"; else ok "$name"; fi
}

# compiles NAME TEXT HEX: `msgfmt -o - -` makes the MO file HEX of a PO text
compiles() {
  printf '%s' "$2" > "$room/in"
  writes "$1" "$3" -o - -
}

# refuses NAME TEXT ERR: `msgfmt -o - -` refuses a PO text
refuses() {
  printf '%s' "$2" > "$room/in"
  fails "$1" "$3" -o - -
}

# --- MO files -------------------------------------------------------------------------------------------------

hi=$'msgid "hi"\nmsgstr "salut"\n'
hi_file='de120495 00000000 01000000 1c000000 24000000 00000000 2c000000
  02000000 2c000000  05000000 2f000000  686900 73616c757400'
no_entries='de120495 00000000 00000000 1c000000 1c000000 00000000 1c000000'
fuzzy_hi=$'#, fuzzy\n'$hi
twice=$'msgid "a"\nmsgstr "x"\n#, fuzzy\nmsgid "a"\nmsgstr "y"\n'
x_file='de120495 00000000 01000000 1c000000 24000000 00000000 2c000000
  01000000 2c000000  01000000 2e000000  6100 7800'

compiles 'one entry, 53 bytes' "$hi" "$hi_file"
compiles 'the empty text, 28 bytes' '' "$no_entries"
compiles 'two entries in reverse order, 68 bytes' $'msgid "b"\nmsgstr "1"\nmsgid "a"\nmsgstr "2"\n' \
  'de120495 00000000 02000000 1c000000 2c000000 00000000 3c000000
   01000000 3c000000 01000000 3e000000  01000000 40000000 01000000 42000000  6100 6200 3200 3100'
compiles 'no context, an empty context and a context are three keys' \
  $'msgctxt ""\nmsgid "b"\nmsgstr "1"\nmsgid "b"\nmsgstr "2"\nmsgctxt "k"\nmsgid "b"\nmsgstr "3"\n' \
  'de120495 00000000 03000000 1c000000 34000000 00000000 4c000000
   02000000 4c000000 01000000 4f000000 03000000 51000000
   01000000 55000000 01000000 57000000 01000000 59000000  046200 6200 6b046200 3100 3200 3300'
compiles 'a plural entry with a context' \
  $'msgctxt "k"\nmsgid "a"\nmsgid_plural "b"\nmsgstr[0] "x"\nmsgstr[01] ""\nmsgstr[2] "z"\n' \
  'de120495 00000000 01000000 1c000000 24000000 00000000 2c000000
   05000000 2c000000  04000000 32000000  6b0461006200 7800007a00'
compiles 'a plural entry of two forms, 60 bytes' \
  $'msgid "cat"\nmsgid_plural "cats"\nmsgstr[0] "u"\nmsgstr[1] "vwxy"\n' \
  'de120495 00000000 01000000 1c000000 24000000 00000000 2c000000
   08000000 2c000000  06000000 35000000  636174006361747300 75007677787900'
compiles 'a fuzzy entry alone, 28 bytes' "$fuzzy_hi" "$no_entries"
writes 'the same, fuzzy entries too' "$hi_file" -f -o - -
compiles 'every escape' $'msgid "a"\nmsgstr "\\n\\t\\b\\r\\f\\v\\a\\\\\\"\\1\\12\\1234\\303\\251"\n' \
  'de120495 00000000 01000000 1c000000 24000000 00000000 2c000000
   01000000 2c000000  0f000000 2e000000  6100 0a09080d0c0b075c22010a5334c3a900'
compiles 'strings on several lines, with a comment between' $'msgid ""\n# c\n"a"\nmsgstr "" "x"\n' "$x_file"
compiles 'tokens without white space' 'msgid"a"msgstr"x"' "$x_file"
compiles 'a byte order mark, and lines that end with CR LF' $'\xef\xbb\xbfmsgid "a"\r\nmsgstr "x"\r\n' "$x_file"
compiles 'an untranslated entry is left out' $'msgid "a"\nmsgstr "x"\nmsgid "b"\nmsgstr ""\n' "$x_file"
compiles 'a fuzzy entry is left out, and an obsolete line ends its flag' \
  $'#, fuzzy\nmsgid "b"\nmsgstr "y"\n#, fuzzy\n#~ msgid "c"\n#~ msgstr "z"\nmsgid "a"\nmsgstr "x"\n' "$x_file"
compiles 'a fuzzy header stays' $'#, fuzzy\nmsgid ""\nmsgstr "Language: fr\\n"\n#, fuzzy\nmsgid "a"\nmsgstr "b"\n' \
  'de120495 00000000 01000000 1c000000 24000000 00000000 2c000000
   00000000 2c000000  0d000000 2d000000  00 4c616e67756167653a2066720a00'

# --- PO texts that are refused, in the order of the texts that say why ------------------------------------------

refuses 'a byte that UTF-8 has not' $'\xff' '-:1: not UTF-8'
refuses 'a character that is cut, on line 3' $'# 1\nmsgid "a"\nmsgstr "\xc3"\n' '-:3: not UTF-8'
refuses 'not UTF-8 is found before other faults' $'@\nmsgid "a"\nmsgstr "\xed\xa0\x80"\n' '-:3: not UTF-8'
refuses 'an unknown escape' $'msgid "\\q"\n' '-:1: bad escape'
refuses 'an octal escape above 255' $'msgid "\\400"\n' '-:1: bad escape'
refuses 'a hexadecimal escape, on line 2' $'msgid ""\n"\\x41"\nmsgstr "b"\n' '-:2: bad escape'
refuses 'a string that the text ends' 'msgid "a' '-:1: string not closed'
refuses 'a string that its line ends' $'msgid "a"\nmsgstr "b\n' '-:2: string not closed'
refuses 'a backslash that its line ends' $'msgid "a\\\n"' '-:1: string not closed'
refuses 'a domain line' $'domain "x"\n' '-:1: unknown word'
refuses 'a domain line, on line 2' $'\ndomain "x"\n' '-:2: unknown word'
refuses 'a keyword in capitals' $'msgid "a"\nMSGSTR "b"\n' '-:2: unknown word'
refuses 'a stray byte' $'msgid "a"\nmsgstr "b"\n@\n' '-:3: unknown word'
refuses 'a number of ten digits' $'msgid "a"\nmsgid_plural "b"\nmsgstr[0000000000] "x"\n' '-:3: unknown word'
refuses 'a second byte order mark' $'\xef\xbb\xbf\xef\xbb\xbfmsgid "a"\nmsgstr "b"\n' '-:1: unknown word'
refuses 'byte 4 in a msgid' $'msgid "a\\004"\nmsgstr "b"\n' '-:1: bad text'
refuses 'byte 4 in a context of two lines' $'# c\nmsgctxt "k"\n"\\4"\nmsgid "a"\nmsgstr "b"\n' '-:2: bad text'
refuses 'a zero byte by an escape' $'msgid "\\0"\n' '-:1: bad text'
printf 'msgid "a\0"\nmsgstr "b"\n' > "$room/in"
fails 'a zero byte in a string' '-:1: bad text' -o - -
printf 'msgid "a"\n\0msgstr "b"\n' > "$room/in"
fails 'a zero byte between words' '-:2: unknown word' -o - -
refuses 'a character split over two strings' $'msgid ""\n"caf\\303" "\\251"\n"\\n"\nmsgstr "x\\n"\n' '-:2: bad text'
refuses 'a msgid alone' 'msgid "a"' '-:1: out of order'
refuses 'a msgstr first' $'\nmsgstr "a"\n' '-:2: out of order'
refuses 'an index without a plural' $'msgid "a"\nmsgstr[0] "x"\n' '-:2: out of order'
refuses 'a plural without an index' $'msgid "a"\nmsgid_plural "b"\nmsgstr "x"\n' '-:3: out of order'
refuses 'two msgstr' $'msgid "a"\nmsgstr "b"\nmsgstr "c"\n' '-:3: out of order'
refuses 'an index left out' $'msgid "a"\nmsgid_plural "b"\nmsgstr[0] "x"\nmsgstr[2] "y"\n' '-:4: wrong plural index'
refuses 'an index that begins at 1' $'msgid "a"\nmsgid_plural "b"\nmsgstr[1] "x"\n' '-:3: wrong plural index'
refuses 'a fault of words comes before one of grammar' $'msgstr "a"\nmsgid "\\q"\n' '-:2: bad escape'
refuses 'a fuzzy duplicate' "$twice" '-:4: duplicate message'
fails 'a fuzzy duplicate, fuzzy entries too' '-:4: duplicate message' -f -o - -
refuses 'a duplicate of an untranslated entry' $'msgid "a"\nmsgstr ""\nmsgid "a"\nmsgstr "y"\n' '-:3: duplicate message'
refuses 'the first of two duplicates, at its msgctxt' \
  $'msgid "b"\nmsgstr "x"\nmsgctxt "k"\nmsgid "a"\nmsgstr "x"\nmsgctxt "k"\nmsgid "a"\nmsgstr "x"\nmsgid "b"\nmsgstr "x"\n' \
  '-:6: duplicate message'

refuses 'a charset that is not accepted' \
  $'msgid ""\nmsgstr "Content-Type: text/plain; charset=ISO-8859-2\\n"\n' '-:1: unsupported charset'

# --- the limit of 64 MiB ----------------------------------------------------------------------------------------

head -c 67108864 /dev/zero | tr '\0' ' ' > "$room/in"
writes '64 MiB of spaces, 28 bytes' "$no_entries" -o - -
printf ' ' >> "$room/in"
fails '64 MiB of spaces and one more' '-:0: file too large' -o - -
head -c 70000000 /dev/zero | tr '\0' ' ' 2> "$room/tr" | "$program" -o - - > "$room/out" 2> "$room/err"
status=${PIPESTATUS[2]}
judge 'too large through a pipe' 1 '-:0: file too large' && ok 'too large through a pipe'

# --- streams that are closed, full or no files ------------------------------------------------------------------

printf '%s' "$hi" > "$room/in"

# stream NAME ERR: judges a run whose status is in $status and whose streams the caller chose
stream() { judge "$1" 1 "$2" && ok "$1"; }

"$program" -o - - < "$room/in" >&- 2> "$room/err"
status=$?
stream 'standard output closed' 'msgfmt: cannot write -'
"$program" -o - - < "$room/in" > /dev/full 2> "$room/err"
status=$?
stream 'standard output full' 'msgfmt: cannot write -'
"$program" --help < "$room/in" >&- 2> "$room/err"
status=$?
stream 'help with standard output closed' 'msgfmt: cannot write -'
"$program" --help < "$room/in" > /dev/full 2> "$room/err"
status=$?
stream 'help with standard output full' 'msgfmt: cannot write -'
"$program" -o - - <&- > "$room/out" 2> "$room/err"
status=$?
stream 'standard input closed' 'msgfmt: cannot read -'
"$program" -o - - < "$room" > "$room/out" 2> "$room/err"
status=$?
stream 'standard input a folder' 'msgfmt: cannot read -'
printf '@' | "$program" -o - - > "$room/out" 2>&-
status=${PIPESTATUS[1]}
if [ "$status" = 1 ] && [ ! -s "$room/out" ]; then
  ok 'a refusal with the error output closed'
else
  failed 'a refusal with the error output closed' "status $status, $(($(wc -c < "$room/out"))) bytes written"
fi
mkfifo "$room/pipe"
exec 3<> "$room/pipe" 4> "$room/pipe" 3>&-
"$program" -o - - < "$room/in" >&4 2> "$room/err" 4>&-
status=$?
exec 4>&-
stream 'standard output a pipe that nobody reads' 'msgfmt: cannot write -'
{ printf 'msgid "h' && sleep 0.1 && printf 'i"\nmsgstr "salut"\n'; } | "$program" -o - - 2> "$room/err" | hex > "$room/hex"
status=${PIPESTATUS[1]}
if judge 'from a pipe, in two pieces, into a pipe' 0 ""; then
  if [ "$(cat "$room/hex")" = "${hi_file//[[:space:]]/}" ]; then
    ok 'from a pipe, in two pieces, into a pipe'
  else
    failed 'from a pipe, in two pieces, into a pipe' "it wrote $(head -c 400 "$room/hex")"
  fi
fi

# --- command lines ----------------------------------------------------------------------------------------------

# refuses_words ERR LINE: the words of LINE are refused with ERR, and nothing is read
refuses_words() {
  local list
  read -r -a list <<< "$2"
  run "${list[@]}"
  judge "msgfmt $2" 1 "$1" || return
  if [ -s "$room/out" ]; then
    failed "msgfmt $2" "it wrote $(($(wc -c < "$room/out"))) bytes"
  elif [ "$left" != "$(whole)" ]; then
    failed "msgfmt $2" 'it read its standard input'
  else
    ok "msgfmt $2"
  fi
}

cd "$room" || exit 1
there=$(ls -A)
for words in '' '-o -' '-cf --statistics' '-o out.mo --'; do
  refuses_words 'msgfmt: no input file given' "$words"
done
for words in '-o - - -' 'in.po in.po' '- - -h' '-- in.po -c' '--bogus -o - -' '-Z -o - -' '-V' '--stat in.po' \
  '--stat -o - -' '--out=- -' '--check=yes in.po' '-o - -o - -' '-c -c -o - -' '-f -f -o - -' '-c --check in.po' \
  '--no-hash --no-hash in.po' '- -o' 'in.po -o' '-o -- in.po' '--bogus --help' '--bogus -h'; do
  refuses_words 'msgfmt: bad command line' "$words"
done
fails 'a word that is not UTF-8' 'msgfmt: bad command line' -o - $'\xff'
for words in '-o - -' '--output-file=- -' '--output-file - -' '-o- -' '- -o -' '-f - -o -' '-fo - -' \
  '--use-fuzzy -o - -' '-o - -- -' '-vo - -' '- --no-hash -f --verbose -o -'; do
  read -r -a list <<< "$words"
  writes "msgfmt $words" "$hi_file" "${list[@]}"
done
cat > help << 'END'
Compiles a PO file to an MO file.

Usage: msgfmt [OPTIONS] [INPUT]

Arguments:
  [INPUT]  PO file to read, or - for standard input

Options:
  -c, --check               Check header, plural forms, C formats and newlines
  -f, --use-fuzzy           Keep fuzzy entries
      --statistics          Print how many messages are translated
  -v, --verbose             Accepted, and changes nothing
      --no-hash             Accepted, and changes nothing
  -o, --output-file <FILE>  MO file, or - for standard output [messages.mo]
  -h, --help                Print help

Examples:
  msgfmt -c --statistics -o fr.mo fr.po
  msgfmt -o - - < fr.po > fr.mo
END
for words in -h --help '-o - -h' '-cfh in.po --bogus'; do
  read -r -a list <<< "$words"
  run "${list[@]}"
  judge "msgfmt $words" 0 '' || continue
  if ! cmp -s out help; then
    failed "msgfmt $words" "it wrote '$(head -c 300 out)'"
  elif [ "$left" != "$(whole)" ]; then
    failed "msgfmt $words" 'it read its standard input'
  else
    ok "msgfmt $words"
  fi
done
rm help
if [ "$(ls -A)" = "$there" ]; then ok 'no file is made by these'; else failed 'no file is made by these' "$(ls -A)"; fi

# --- files ------------------------------------------------------------------------------------------------------

# in_folder NAME: the folder $room/folder, empty but for the file in.po with the text $text, is the current one
in_folder() {
  rm -rf "$room/folder"
  mkdir "$room/folder"
  cd "$room/folder" || exit 1
  printf '%s' "$text" > in.po
  printf '%s' "$text" > "$room/in"
}

# makes NAME STATUS ERR FILE HEX WORD..: in a new folder, with $text at standard input too, these words end with STATUS,
# say ERR, read standard input only where the last of them is `-`, write nothing to standard output, and leave the file
# FILE with the bytes HEX and no other file (FILE empty: no file at all)
makes() {
  local name=$1 wanted=$2 error=$3 file=$4 bytes=${5//[[:space:]]/} unread
  shift 5
  in_folder
  run "$@"
  judge "$name" "$wanted" "$error" || return
  if [ "${!#}" = - ]; then unread=0; else unread=$(whole); fi
  if [ -s "$room/out" ]; then
    failed "$name" "it wrote $(($(wc -c < "$room/out"))) bytes to standard output"
  elif [ "$left" != "$unread" ]; then
    failed "$name" "it left $left bytes of standard input unread, and not $unread"
  elif [ "$(ls -A)" != "$(printf '%s\n' in.po ${file:+"$file"} | sort)" ]; then
    failed "$name" "there are these files: $(ls -A | tr '\n' ' ')"
  elif [ -n "$file" ] && [ "$(head -c 4096 "$file" | hex)" != "$bytes" ]; then
    failed "$name" "$file has the bytes $(head -c 400 "$file" | hex)"
  else
    ok "$name"
  fi
}

# accepts NAME ERR WORD..: in a new folder these words end with 0, say ERR, and make the file out.mo alone
accepts() {
  local name=$1 error=$2
  shift 2
  in_folder
  run "$@"
  judge "$name" 0 "$error" || return
  if [ -s "$room/out" ] || [ "$(ls -A | tr '\n' ' ')" != 'in.po out.mo ' ]; then
    failed "$name" "$(($(wc -c < "$room/out"))) bytes at standard output, and there are these files: $(ls -A | tr '\n' ' ')"
  else
    ok "$name"
  fi
}

text=$hi
makes 'a file into a file' 0 '' out.mo "$hi_file" -o out.mo in.po
makes 'no FILE' 0 '' messages.mo "$hi_file" in.po
makes '-oFILE' 0 '' out.mo "$hi_file" -oout.mo in.po
makes '--output-file FILE' 0 '' out.mo "$hi_file" --output-file out.mo in.po
makes '--output-file=FILE' 0 '' out.mo "$hi_file" --output-file=out.mo in.po
makes '-o=FILE' 0 '' out.mo "$hi_file" -o=out.mo in.po
makes 'FILE after INPUT' 0 '' out.mo "$hi_file" in.po -o out.mo
makes 'options after INPUT' 0 '' out.mo "$hi_file" in.po -o out.mo -v --no-hash
makes 'options on both sides of FILE' 0 '' out.mo "$hi_file" in.po --no-hash -fo out.mo --verbose
makes 'standard input into a file' 0 '' out.mo "$hi_file" -o out.mo -
makes 'standard input, and no FILE' 0 '' messages.mo "$hi_file" -v -
name='a file into standard output'
in_folder
run -o - in.po
if judge "$name" 0 ''; then
  if [ "$(hex < "$room/out")" != "${hi_file//[[:space:]]/}" ]; then
    failed "$name" "it wrote $(head -c 400 "$room/out" | hex)"
  elif [ "$left" != "$(whole)" ] || [ "$(ls -A)" != in.po ]; then
    failed "$name" "it left $left bytes of standard input, and there are these files: $(ls -A | tr '\n' ' ')"
  else
    ok "$name"
  fi
fi
makes '--' 0 '' out.mo "$hi_file" -o out.mo -- in.po
makes 'statistics' 0 '1 translated message.' out.mo "$hi_file" --statistics -o out.mo in.po
makes 'an INPUT that is not there' 1 'msgfmt: cannot read none.po' '' '' -o out.mo none.po
makes 'an INPUT that is not there, to standard output' 1 'msgfmt: cannot read none.po' '' '' -o - none.po
makes 'an INPUT that is a folder' 1 'msgfmt: cannot read .' '' '' -o out.mo .
makes 'a FILE in a folder that is not there' 1 'msgfmt: cannot write none/out.mo' '' '' -o none/out.mo in.po
makes 'the same, with statistics' 1 'msgfmt: cannot write none/out.mo' '' '' --statistics -o none/out.mo in.po
makes 'a FILE that is a folder' 1 'msgfmt: cannot write .' '' '' -o . in.po
makes 'an empty FILE' 1 'msgfmt: cannot write ' '' '' -o '' in.po
makes 'two INPUT files' 1 'msgfmt: bad command line' '' '' -o out.mo in.po in.po
makes 'a FILE and no INPUT' 1 'msgfmt: no input file given' '' '' -o out.mo
name='messages.mo is a folder'
in_folder
mkdir messages.mo
run in.po
judge "$name" 1 'msgfmt: cannot write messages.mo' && ok "$name"
text=
makes 'the empty text, with statistics' 0 '0 translated messages.' out.mo "$no_entries" --statistics -o out.mo in.po
tells 'statistics of standard input' '0 translated messages.' "$no_entries" --statistics -o - -
text=$'msgid "a"\nmsgstr ""\n'
makes 'an untranslated entry is counted' 0 '0 translated messages, 1 untranslated message.' out.mo "$no_entries" \
  --statistics -o out.mo in.po
text=$'msgid "a"\nmsgstr ""\n#, fuzzy\nmsgid "b"\nmsgstr ""\nmsgid "c"\nmsgstr "1"\n'
text+=$'#, fuzzy\nmsgid "d"\nmsgstr "2"\n#, fuzzy\nmsgid "e"\nmsgstr "3"\n'
makes 'entries of every kind are counted' 0 '1 translated message, 2 fuzzy translations, 2 untranslated messages.' out.mo \
  'de120495 00000000 01000000 1c000000 24000000 00000000 2c000000
   01000000 2c000000  01000000 2e000000  6300 3100' --statistics -o out.mo in.po
text=$'#, fuzzy\n#~ msgid "old"\n#~ msgstr "vieux"\nmsgid "new"\nmsgstr "neuf"\n'
makes 'an obsolete entry counts for nothing' 0 '1 translated message.' out.mo \
  'de120495 00000000 01000000 1c000000 24000000 00000000 2c000000
   03000000 2c000000  04000000 30000000  6e657700 6e65756600' --statistics -o out.mo in.po
text=$'#, fuzzy\nmsgid ""\nmsgstr "Language: fr\\n"\n#, fuzzy\nmsgid "a"\nmsgstr "b"\n'
makes 'a fuzzy header and a fuzzy entry' 0 '0 translated messages, 1 fuzzy translation.' out.mo \
  'de120495 00000000 01000000 1c000000 24000000 00000000 2c000000
   00000000 2c000000  0d000000 2d000000  00 4c616e67756167653a2066720a00' --statistics -o out.mo in.po
makes 'the same, fuzzy entries too' 0 '0 translated messages, 1 fuzzy translation.' out.mo \
  'de120495 00000000 02000000 1c000000 2c000000 00000000 3c000000
   00000000 3c000000 01000000 3d000000  0d000000 3f000000 01000000 4d000000
   00 6100 4c616e67756167653a2066720a00 6200' -f --statistics -o out.mo in.po
text=$twice
makes 'a duplicate in a file' 1 'in.po:4: duplicate message' '' '' -o out.mo in.po
makes 'a duplicate in a file, to standard output' 1 'in.po:4: duplicate message' '' '' -o - in.po
makes 'a duplicate in a file, fuzzy entries too' 1 'in.po:4: duplicate message' '' '' -f --statistics -o out.mo in.po
text=$hi

# --- the checked level --------------------------------------------------------------------------------------------

polish=$'msgid ""\nmsgstr "Plural-Forms: nplurals=3; plural=n==1 ? 0 : n%10>=2 && n%10<=4 && (n%100<10 || n%100>=20) ? 1 : 2;\\n"\n
msgid "file"\nmsgid_plural "files"\nmsgstr[0] "plik"\nmsgstr[1] "pliki"\nmsgstr[2] "plikow"\n'
text=$polish
in_folder
"$program" -o plain.mo in.po
plain=$(hex < plain.mo)
warnings=
for field in Project-Id-Version PO-Revision-Date Last-Translator Language-Team MIME-Version Content-Type \
  Content-Transfer-Encoding Language; do
  warnings+="in.po:1: warning: header field '$field' missing"$'\n'
done
makes 'each missing header field is warned of' 0 "${warnings}1 translated message." out.mo "$plain" \
  -c --statistics --verbose -o out.mo in.po
makes '-cv' 0 "${warnings%$'\n'}" out.mo "$plain" -cvo out.mo in.po
makes 'without -c none is' 0 '' out.mo "$plain" -o out.mo in.po
name='a warning that cannot be written, and no file'
in_folder
"$program" -c -o out.mo in.po < /dev/null > "$room/out" 2> /dev/full
status=$?
if [ "$status" = 1 ] && [ "$(ls -A)" = in.po ]; then ok "$name"; else failed "$name" "status $status, files $(ls -A | tr '\n' ' ')"; fi
text=$hi
name='statistics that cannot be written, behind the file'
in_folder
"$program" --statistics -o out.mo in.po < /dev/null > "$room/out" 2> /dev/full
status=$?
if [ "$status" = 1 ] && [ "$(hex < out.mo)" = "${hi_file//[[:space:]]/}" ]; then
  ok "$name"
else
  failed "$name" "status $status, files $(ls -A | tr '\n' ' ')"
fi
text=${polish%'msgstr[2] "plikow"'*}
makes 'a form is missing' 1 'in.po:4: wrong number of plural forms' '' '' -c -o out.mo in.po
accepts 'a form is missing, unchecked' '' -o out.mo in.po
cats=$'msgid "cat"\nmsgid_plural "cats"\nmsgstr[0] "chat"\n'
text=$cats
makes 'a plural without a rule' 1 'in.po:1: plural message without a rule' '' '' -c -o out.mo in.po
accepts 'a plural without a rule, unchecked' '' -o out.mo in.po
text=$'msgid ""\nmsgstr "Plural-Forms: nplurals=2; plural=x;\\n"\n'$cats
makes 'a rule that cannot be read' 1 'in.po:1: unreadable plural rule' '' '' -c -o out.mo in.po
accepts 'a rule that cannot be read, unchecked' '' -o out.mo in.po
text=$'msgid ""\nmsgstr "Plural-Forms: nplurals=2; plural=n-1;\\n"\nmsgid "x"\nmsgid_plural "y"\nmsgstr[0] "u"\nmsgstr[1] "v"\n'
makes 'a rule that fails' 1 'in.po:1: plural rule fails at 0' '' '' -c -o out.mo in.po
accepts 'a rule that fails, unchecked' '' -o out.mo in.po
text=$'msgid ""\nmsgstr "Plural-Forms: nplurals=1; plural=n==1000;\\n"\n'
makes 'a rule that fails at the last number' 1 'in.po:1: plural rule fails at 1000' '' '' -c -o out.mo in.po
text=$'msgid ""\nmsgstr "Plural-Forms: nplurals=6; plural=5/n;\\n"\nmsgid "x"\nmsgid_plural "y"\nmsgstr[0] "0"\nmsgstr[1] "1"\nmsgstr[2] "2"\nmsgstr[3] "3"\nmsgstr[4] "4"\nmsgstr[5] "5"\n'
makes 'a rule that divides by zero' 1 'in.po:1: plural rule fails at 0' '' '' -c -o out.mo in.po
accepts 'a rule that divides by zero, unchecked' '' -o out.mo in.po
text=$'#, c-format\nmsgid "%d of %s"\nmsgstr "%u of %s"\n'
makes 'another argument' 1 'in.po:2: format arguments differ' '' '' -c -o out.mo in.po
text=$'#, c-format\nmsgid "%d of %s"\nmsgstr "%2$s / %1$d"\n'
accepts 'the same arguments by their numbers' '' -c -o out.mo in.po
text=$'msgid ""\nmsgstr "Plural-Forms: nplurals=2; plural=n!=1;\\n"\n'
text+=$'#, c-format\nmsgid "one file"\nmsgid_plural "%d files"\nmsgstr[0] "one file"\nmsgstr[1] "%d files"\n'
accepts 'a form that takes fewer arguments' "${warnings%$'\n'}" -c -o out.mo in.po
text=$'#, c-format\nmsgid "%<PRId64>"\nmsgstr "%<PRId64>"\n'
makes 'a macro in a format' 1 'in.po:2: system-dependent format' '' '' -c -o out.mo in.po
makes 'a macro in a format, unchecked' 1 'in.po:2: system-dependent format' '' '' -o out.mo in.po
text=$'msgid "a\\n"\nmsgstr "b"\n'
makes 'a newline is missing' 1 'in.po:1: newlines differ' '' '' -c -o out.mo in.po
text=$hi

# --- what FILE was before ---------------------------------------------------------------------------------------

# same NAME: judges the last run, which is to end with 0 and say nothing, and the file out.mo, and that no other file
# than those that are named is there
same() {
  local name=$1
  shift
  judge "$name" 0 '' || return
  if [ "$(ls -A | tr '\n' ' ')" != "$(printf '%s\n' "$@" | sort | tr '\n' ' ')" ]; then
    failed "$name" "there are these files: $(ls -A | tr '\n' ' ')"
  elif [ "$(hex < out.mo)" != "${hi_file//[[:space:]]/}" ]; then
    failed "$name" "out.mo has the bytes $(head -c 400 out.mo | hex)"
  else
    return 0
  fi
  return 1
}

# to_file WORD..: runs the program with these words on no standard input
to_file() {
  "$program" "$@" < /dev/null > "$room/out" 2> "$room/err"
  status=$?
}

in_folder
head -c 67108865 /dev/zero | tr '\0' ' ' > in.po
to_file -o out.mo in.po
name='a file of 64 MiB of spaces and one more'
if judge "$name" 1 'in.po:0: file too large'; then
  if [ "$(ls -A)" = in.po ]; then ok "$name"; else failed "$name" "there are these files: $(ls -A | tr '\n' ' ')"; fi
fi

in_folder
echo old > out.mo
chmod 640 out.mo
exec 3< out.mo
to_file -o out.mo in.po
name='a file that is replaced keeps its mode, and whoever reads it keeps the old one'
if same "$name" in.po out.mo; then
  if [ "$(stat -c %a out.mo)" != 640 ]; then
    failed "$name" "its mode is $(stat -c %a out.mo)"
  elif [ "$(cat <&3)" != old ]; then
    failed "$name" 'the reader has another one'
  else
    ok "$name"
  fi
fi
exec 3<&-

in_folder
(umask 027 && to_file -o out.mo in.po)
name="a new file has the mode of the user's umask"
if [ "$(stat -c %a out.mo)" = 640 ]; then ok "$name"; else failed "$name" "it is $(stat -c %a out.mo)"; fi

in_folder
mkdir there
echo old > there/real.mo
ln -s there/real.mo out.mo
to_file -o out.mo in.po
name='a symbolic link is followed to its target'
if same "$name" in.po out.mo there; then
  if [ ! -L out.mo ]; then
    failed "$name" 'it is a link no more'
  elif [ "$(ls -A there)" != real.mo ]; then
    failed "$name" "there are these files: $(ls -A there | tr '\n' ' ')"
  else
    ok "$name"
  fi
fi

in_folder
ln -s later.mo out.mo
to_file -o out.mo in.po
name='a symbolic link to no file makes its target'
same "$name" in.po later.mo out.mo && ok "$name"

in_folder
mkfifo pipe
cat pipe > out.mo &
to_file -o pipe in.po
wait $!
name='a pipe with a name is written straight'
same "$name" in.po out.mo pipe && ok "$name"

in_folder
to_file -o /dev/null in.po
name='/dev/null is written straight'
if judge "$name" 0 ''; then
  if [ -c /dev/null ] && [ "$(ls -A)" = in.po ]; then ok "$name"; else failed "$name" "$(ls -l /dev/null) $(ls -A)"; fi
fi
to_file -o /dev/full in.po
judge 'a device that is full' 1 'msgfmt: cannot write /dev/full' && ok 'a device that is full'

in_folder
echo old > out.mo
(ulimit -f 0 && trap '' XFSZ && exec "$program" -o out.mo in.po < /dev/null > /dev/null 2>&1)
status=$?
name='a write that fails leaves the old file and no other'
if [ "$status" != 1 ]; then
  failed "$name" "status $status"
elif [ "$(ls -A | tr '\n' ' ')" != 'in.po out.mo ' ] || [ "$(cat out.mo)" != old ]; then
  failed "$name" "there are these files: $(ls -lA | tr '\n' ' ')"
else
  ok "$name"
fi

# in which folders nothing can be made is another matter for root, so these are run as nobody
if [ "$(id -u)" = 0 ] && command -v setpriv > /dev/null && setpriv --reuid=65534 --clear-groups true 2> /dev/null; then
  as_user() { setpriv --reuid=65534 --clear-groups "$@"; }
elif [ "$(id -u)" != 0 ]; then
  as_user() { "$@"; }
else
  as_user() { return 99; }
fi
cp "$program" "$room/msgfmt"
chmod 755 "$room" "$room/msgfmt"
# as_nobody WORD..: runs the program as a user who is not root
as_nobody() {
  as_user "$room/msgfmt" "$@" < /dev/null > "$room/out" 2> "$room/err"
  status=$?
}
in_folder
if as_user test -r in.po; then
  echo old > out.mo
  chmod 666 out.mo
  chmod 555 .
  as_nobody -o out.mo in.po
  name='a file in a folder where nothing can be made is written straight'
  same "$name" in.po out.mo && ok "$name"
  as_nobody -o new.mo in.po
  name='no new file is made in such a folder'
  judge "$name" 1 'msgfmt: cannot write new.mo' && ok "$name"
  chmod 755 .
  in_folder
  echo old > out.mo
  chmod 444 out.mo
  chmod 777 .
  [ "$(id -u)" != 0 ] || chown 65534 out.mo
  as_nobody -o out.mo in.po
  name='a file that may not be written is not replaced'
  if judge "$name" 1 'msgfmt: cannot write out.mo'; then
    if [ "$(cat out.mo)" = old ]; then ok "$name"; else failed "$name" 'it was'; fi
  fi
else
  skipped 'folders where nothing can be made' 'this is root, and setpriv is not here'
fi
chmod 755 .

in_folder
python3 - > big.po 2> /dev/null <<'END' || for i in {1..20000}; do printf 'msgid "%d"\nmsgstr "x%d"\n' "$i" "$i"; done > big.po
for i in range(200000):
    print(f'msgid "{i}"\nmsgstr "x{i}"')
END
"$program" -o big.mo big.po
wrong=0
for turn in {1..20}; do
  "$program" -o out.mo big.po &
  "$program" -o out.mo in.po &
  wait
  cmp -s out.mo big.mo || [ "$(hex < out.mo)" = "${hi_file//[[:space:]]/}" ] || wrong=$turn
done
name='two runs at once on one FILE leave one whole file'
if [ "$wrong" != 0 ]; then
  failed "$name" "turn $wrong left neither"
elif [ "$(ls -A | tr '\n' ' ')" != 'big.mo big.po in.po out.mo ' ]; then
  failed "$name" "there are these files: $(ls -A | tr '\n' ' ')"
else
  ok "$name"
fi
