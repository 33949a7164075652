#!/usr/bin/env bash
# Formats of other languages than C: asks kob_check_formats of libkobdzila, and GNU msgfmt, about the rows of
# tests/library/formats (tests/library/formats.py).
no_program=1
. "$(dirname "$0")/../lib/common"
. tests/lib/c_common

# compares NAME PYTHON JUDGE PATH: what the judge finds, a line for each language that differs
compares() {
  local said
  said=$(timeout $((120 * slower)) "$2" -B tests/library/formats.py "$3" "$4" tests/library/formats/*.txt 2>&1) ||
    grep -q '^FAILED ' <<< "$said" || failed "$1" "$(tail -n 1 <<< "$said")"
  grep -E '^(ok|FAILED|skipped) ' <<< "$said"
}

name='formats, the C library'
if has_library "$name" && has_python "$name"; then compares "$name" "$python" library "$library/libkobdzila.so.0"; fi
name='formats, GNU msgfmt'
if ! tests/lib/needs python3 python3 || ! tests/lib/needs tools/gnu-msgfmt gettext; then
  skipped "$name" 'no python3 or no GNU gettext, and it could not be installed'
else
  compares "$name" python3 gnu "$(tools/gnu-msgfmt)"
fi
