#!/usr/bin/env bash
# Refuses one request for memory of a program that asks gettext by libkobdzila-intl.so, each of its requests in turn: a
# text that isn't translated then is so at the next call, since a shortage that has passed shouldn't last.
no_program=1
. "$(dirname "$0")/../lib/common"
. tests/lib/c_common
name='gettext without memory'

has_library "$name" || exit 0
if ! command -v python3 > /dev/null; then
  skipped "$name" 'no python3, which makes the catalogues'
  exit 0
elif ! LC_ALL=C.UTF-8 locale charmap 2> /dev/null | grep -qx UTF-8; then
  skipped "$name" 'no locale C.UTF-8 of the GNU C library'
  exit 0
fi
compiles "$name" ask tests/intl/gettext_memory.c && compiles "$name" refuse.so -shared -fPIC tests/library/refuse_nth.c ||
  exit 0
python3 -B - "$room" << 'END_OF_PYTHON'
import sys
from pathlib import Path
sys.path.insert(0, "tests/intl")
import intl_answers as answers
for domain, charset, text, two in (("utf8", "UTF-8", "é texte", "deux é"), ("latin", "UTF-8", "é texte", "deux é"),
                                   ("coded", "SHIFT_JIS", "日", "二")):
    entries = {b"text": text.encode(charset), b"file\0files": b"un\0" + two.encode(charset)}
    header = answers.UTF8.replace(b"UTF-8", charset.encode())
    answers.install(Path(sys.argv[1], "messages"), "fr", domain, answers.mo(entries, header))
END_OF_PYTHON

number=0 wrong=''
while [ -e "$room/refused" ] || [ $number = 0 ]; do
  rm -f "$room/refused"
  number=$((number + 1))
  said=$(LC_ALL=C.UTF-8 LANGUAGE=fr REFUSE_NTH=$number REFUSED="$room/refused" \
    LD_PRELOAD="$room/refuse.so:$library/libkobdzila-intl.so" "$room/ask" "$room/messages" 2>&1) && [ -z "$said" ] ||
    wrong+="without request $number status $?, $said; "
done
if [ -n "$wrong" ]; then failed "$name" "$wrong"
elif [ $number -lt 100 ]; then failed "$name" "there were $number requests"
else ok "$name: each of $((number - 1)) requests is refused once"; fi
