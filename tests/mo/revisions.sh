#!/usr/bin/env bash
# Opens MO files of the revisions 0.0, 0.1, 1.0 and 1.1 by libkobdzila and compares each message with glibc's dcgettext
# (tests/mo/revisions.py): 300 generated files that GNU msgfmt compiles, the installed ones of other revisions than 0.0
# and each twentieth of 0.0 (EVERY=N: each N-th), and files with each fault of the system-dependent part.
no_program=1
. "$(dirname "$0")/../lib/common"
. tests/lib/c_common
name='MO files of each revision'

has_library "$name" || exit 0
has_python "$name" || exit 0
export LIBKOBDZILA=$library/libkobdzila.so.0 PYTHONPATH=examples/python:tests/intl

# compared NAME LEAST WORD..: the words end well and find nothing wrong, in LEAST messages or files at least
compared() {
  local name=$1 least=$2 said counted
  shift 2
  said=$(timeout $((1200 * slower)) "$@" 2>&1)
  if [ $? != 0 ] || grep -q '^wrong' <<< "$said"; then
    failed "$name" "$(head -c 600 <<< "$said")"
    return
  fi
  counted=$(awk -F ', ' '{ for (i = 1; i <= NF; i++) { n = $i; sub(/ .*/, "", n); sub(/^[0-9]+ /, "", $i); sum[$i] += n } }
    END { for (what in sum) print sum[what] " " what }' <<< "$said" | sort -k 2 | paste -s -d ,)
  if [ "$(grep -oE '[0-9]+ (messages|files)' <<< "$counted" | cut -d ' ' -f 1)" -ge "$least" ] 2> /dev/null; then
    ok "$name: ${counted//,/, }"
  else
    failed "$name" "only $counted"
  fi
}

compared "$name, each fault" 20 "$python" -B tests/mo/revisions.py faults
if ! getconf GNU_LIBC_VERSION > "$room/libc" 2>&1; then
  skipped "$name, beside glibc" 'the C library is another one'
  exit 0
elif ! LC_ALL=C.UTF-8 locale charmap 2> /dev/null | grep -qx UTF-8; then
  skipped "$name, beside glibc" 'no locale C.UTF-8'
  exit 0
fi
if tests/lib/needs tools/gnu-msgfmt gettext; then
  GNU_MSGFMT=$(tools/gnu-msgfmt)
  export GNU_MSGFMT
  compared "$name, generated" 1000 "$python" -B tests/mo/revisions.py made 300
else
  skipped "$name, generated" 'no GNU msgfmt, and it could not be installed'
fi

# (the word of the revision is at byte 4; a process of Python for each 100 files, since glibc keeps what it has read)
find /usr -type f -name '*.mo' 2> /dev/null | sort > "$room/all"
python3 -c '
import sys
every = int(sys.argv[1])
for number, line in enumerate(sys.stdin):
    with open(line[:-1], "rb") as file:
        head = file.read(8)
    if number % every == 0 or head[4:8] != bytes(4):
        print(line, end="")' "${EVERY:-20}" < "$room/all" > "$room/files"
if [ -s "$room/files" ]; then
  compared "$name, installed" 1000 xargs -d '\n' -n 100 "$python" -B tests/mo/revisions.py installed < "$room/files"
else
  skipped "$name, installed" 'there are none'
fi
