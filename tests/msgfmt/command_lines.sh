#!/usr/bin/env bash
# Runs each command line of tests/driver/command_lines, which are those of real build files, by GNU msgfmt and by
# msgfmt-or-gnu: both must end with one status, write the same files (of MO files, the same messages), print the same
# statistics, and the same standard output. What the man page says of msgfmt-or-gnu is left out: the field
# POT-Creation-Date in an MO file, and its own lines after those of --version and --help.
. "$(dirname "$0")/../lib/common"

NAME=command_lines
. tests/driver/begin
lines=$PWD/tests/driver/command_lines

# (a header with the field that GNU msgfmt drops, and a plural rule)
header() {
  printf 'msgid ""\nmsgstr ""\n"Project-Id-Version: x\\n"\n"POT-Creation-Date: 2026-01-01 00:00+0000\\n"\n'
  printf '"PO-Revision-Date: x\\n"\n"Last-Translator: x\\n"\n"Language-Team: x\\n"\n"Language: %s\\n"\n' "$2"
  printf '"MIME-Version: 1.0\\n"\n"Content-Type: text/plain; charset=%s\\n"\n"Content-Transfer-Encoding: 8bit\\n"\n' "$1"
  printf '"Plural-Forms: nplurals=2; plural=(n > 1);\\n"\n\n'
}

mkdir -p "$room/begin/po" "$room/begin/fr/LC_MESSAGES" && cd "$room/begin/po" || exit 1
{ header UTF-8 fr && cat << 'END'; } > fr.po
msgid "Hello"
msgstr "Bonjour, à tous"

#, c-format
msgid "%d file of %s"
msgid_plural "%d files of %s"
msgstr[0] "%d fichier de %s"
msgstr[1] "%d fichiers de %s"

msgctxt "menu"
msgid "Open"
msgstr "Ouvrir"
END
cp fr.po fr.1po
{ cat fr.po && printf '\n#, fuzzy\nmsgid "Close"\nmsgstr "Fermer"\n\nmsgid "Quit"\nmsgstr ""\n\nmsgid "New"\nmsgstr ""\n'; } \
  > mixed.po
{ header ISO-8859-1 de && printf 'msgid "Hello"\nmsgstr "Gr\374\337e"\n'; } > de.po
{ header UTF-8 fr && printf '#, c-format\nmsgid "%%d files"\nmsgstr "%%s fichiers"\n'; } > bad.po
{ header UTF-8 fr && printf '#, c-format\nmsgid "%%s: %%s: %%m\\n"\nmsgstr "%%2$s: %%1$s: %%3$m\\n"\n'; } > errno.po
{ header UTF-8 fr && printf '#, python-format\nmsgid "%%(n)d files"\nmsgstr "%%(n)d fichiers"\n'; } > python.po
{ header UTF-8 fr && printf '#, python-format\nmsgid "%%(n)d files"\nmsgstr "%%(m)d fichiers"\n'; } > badpython.po
cd .. && echo fr > po/LINGUAS
printf '[Desktop Entry]\nName=Hello\nExec=hello\nType=Application\n' > app.desktop.in
printf '<?xml version="1.0"?>\n<component type="desktop"><name>Hello</name></component>\n' > app.xml.in
cd "$room" || exit 1

# runs FOLDER PROGRAM ARGUMENTS: in a folder with the files of $room/begin; its $status, FOLDER.out and FOLDER.err
runs() {
  rm -rf "${room:?}/$1" && cp -R "$room/begin" "$room/$1" && cd "$room/$1" || exit 1
  eval "\"\$2\" $3" > "$room/$1.out" 2> "$room/$1.err"
  status=$?
  cd "$room" || exit 1
}

# plain FOLDER: MO files as what they say in UTF-8, to which the driver converts as GNU msgfmt does since 0.22, and without
# POT-Creation-Date
plain() {
  local tools it
  tools=$(dirname "$gnu")
  find "$1" \( -name '*.mo' -o -name '*.gmo' \) | while IFS= read -r it; do
    "$tools/msgunfmt" "$it" 2>&1 | "$tools/msgconv" -t UTF-8 > "$it.said" 2>&1 && sed -i '/^"POT-Creation-Date:/d' "$it.said" &&
      rm "$it"
  done
}

# statistics FILE: the lines of error output that count messages
statistics() { grep -E '[0-9] (translated|untranslated) message|[0-9] fuzzy translation' "$1"; }

# compares SOURCE ARGUMENTS
compares() {
  local name="command line, $1" wanted
  runs gnu "$gnu" "$2"
  wanted=$status
  runs driver "$driver" "$2"
  plain gnu && plain driver
  # (what the driver adds to these two answers, and the name of the program in the second)
  sed -i -e '/^msgfmt-or-gnu (Kobdzila)/d' -e '/^This is msgfmt-or-gnu/,$d' driver.out
  if [ "$2" = --help ]; then sed -i '$d' driver.out; fi
  if [ "$status" != "$wanted" ]; then
    failed "$name" "status $status and not $wanted; it said '$(head -c 300 driver.err)'"
  elif ! diff -r gnu driver > differs 2>&1; then
    failed "$name" "other files: $(head -n 3 differs | tr '\n' ' ')"
  elif [ "$(statistics gnu.err)" != "$(statistics driver.err)" ]; then
    failed "$name" "'$(statistics driver.err)' and not '$(statistics gnu.err)'"
  elif ! cmp -s gnu.out driver.out; then
    failed "$name" "another standard output: $(diff gnu.out driver.out | head -n 3 | tr '\n' ' ')"
  else
    ok "$name"
  fi
}

while IFS=$'\t' read -r source arguments; do
  compares "$source" "$arguments"
done < <(grep -v '^#' "$lines")

ours=$(grep -c '^ours' "$MSGFMT_OR_GNU_LOG")
if [ "$ours" -ge 35 ]; then ok "command lines: $ours of $(wc -l < "$MSGFMT_OR_GNU_LOG") by Kobdzila's msgfmt"
else failed 'command lines' "only $ours by Kobdzila's msgfmt: $(cut -f 1-3 "$MSGFMT_OR_GNU_LOG" | sort | uniq -c)"; fi
