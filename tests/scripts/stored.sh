#!/usr/bin/env bash
# Compiles the PO files of tests/scripts/stored/ and compares each MO file, byte for byte, with the one that is stored
# there. The stored files were made once by GNU msgfmt 0.21, which isn't needed to run this:
#
#   msgfmt --no-hash -o scripts.mo scripts.po             entries in many scripts
#   msgfmt --no-hash -o forms.mo forms.po                 contexts, three plural forms, escapes, obsolete entries
#   msgfmt -f --no-hash -o forms-fuzzy.mo forms.po        the same with its fuzzy entries
. "$(dirname "$0")/../lib/common"

# same MO PO WORD..: with these words, the program makes the stored file MO of PO
same() {
  local mo=tests/scripts/stored/$1 po=tests/scripts/stored/$2 status why
  shift 2
  "$program" "$@" -o - - < "$po" > "$room/out" 2> "$room/err"
  status=$?
  if [ "$status" != 0 ] || [ -s "$room/err" ]; then
    failed "$mo" "status $status; it said '$(head -c 300 "$room/err")'"
  elif ! why=$(cmp "$mo" "$room/out" 2>&1); then
    failed "$mo" "the files differ: $why"
  else
    ok "$mo: the same $(($(wc -c < "$room/out"))) bytes"
  fi
}

same scripts.mo scripts.po
same forms.mo forms.po
same forms-fuzzy.mo forms.po -f
