#!/usr/bin/env bash
# Opens installed MO files by libkobdzila, and compares the text of each message with glibc's dcgettext in the file's own
# language, and with Python's gettext (tests/mo/installed.py). A file may be refused only for a charset that this names.
#
#   tests/mo/installed.sh             the files below /usr; of more than 5,000 each second or third .. one
#   tests/mo/installed.sh FOLDER ..   those below these folders
#
# EVERY=N: each N-th file. EVERY=1, all, takes two minutes for 20,000 files.
no_program=1
. "$(dirname "$0")/../lib/common"
. tests/lib/c_common
name='installed MO files'
[ $# != 0 ] || set -- /usr

has_library "$name" || exit 0
has_python "$name" || exit 0
if ! getconf GNU_LIBC_VERSION > "$room/libc" 2>&1; then
  skipped "$name" 'the C library is another one'
elif ! LC_ALL=C.UTF-8 locale charmap 2> /dev/null | grep -qx UTF-8; then
  skipped "$name" 'no locale C.UTF-8'
else
  files=$(find "$@" -type f -name '*.mo' 2> /dev/null | wc -l)
  if [ "$files" = 0 ]; then
    skipped "$name" 'there are none'
    exit 0
  fi
  export LIBKOBDZILA=$library/libkobdzila.so.0 PYTHONPATH=examples/python:tests/intl
  said=$(timeout $((1200 * slower)) "$python" -B tests/mo/installed.py "${EVERY:-$(((files + 4999) / 5000))}" "$@" 2>&1)
  if [ $? != 0 ] || grep -q '^wrong' <<< "$said"; then
    failed "$name" "$(tail -n 1 <<< "$said"); $(head -c 1500 <<< "$said")"
  else
    ok "$name: $(tail -n 1 <<< "$said")"
  fi
fi
