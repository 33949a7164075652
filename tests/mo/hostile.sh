#!/usr/bin/env bash
# Reads large MO files of hostile shapes (tests/mo/make_hostile.py), whose strings mostly overlap: together those of one
# file may have terabytes. Each must be answered as its shape says, within 3 seconds of processor time, so that no work
# grows with what the strings are together.
#
#   tests/mo/hostile.sh              loads files of 30 MB by scripts of bin/catserve (CATSERVE=PATH: of another
#   program), and
#                                 opens the worst of them in 60 MB by build/lib/libkobdzila.a
#   tests/mo/hostile.sh LIBRARY      opens files of 60 MB, and ten million tiny entries in 240 MB within 12 seconds, by
#                                 this library
no_program=1
catserve=${CATSERVE:+$(realpath "$CATSERVE")}
library=${1:+$(realpath "$1")}
. "$(dirname "$0")/../lib/common"
catserve=${catserve:-$PWD/bin/catserve}

if ! command -v python3 > /dev/null; then
  skipped hostile 'no python3'
  exit 0
fi

# makes_opener LIBRARY: makes the program that opens $room/file by a library
makes_opener() { cc -O2 -Iinclude -o "$room/hostile" tests/mo/hostile.c "$1"; }

# open_file: what the library answers of $room/file: 'read N' or 'refusal K', and the seconds after a comma
open_file() { timeout $((60 * slower)) "$room/hostile" "$room/file"; }

# load_file: what catserve answers of $room/file, in the same form
load_file() {
  { printf 'loadmo\tapp\tfr\t' && hex < "$room/file" && echo; } > "$room/script"
  local seconds
  TIMEFORMAT='%U %S'
  seconds=$({ time timeout $((60 * slower)) "$catserve" < "$room/script" > "$room/out" 2> "$room/err"; } 2>&1) || return
  awk -F '\t' -v "seconds=$seconds" '
    BEGIN { split(seconds, spent, " ") }
    /^accepted-mo/ { answer = "read " $2 }
    /^refused-mo/ { answer = "refusal " $2 }
    END { printf "%s, %.2f\n", answer, spent[1] + spent[2] }' "$room/out"
}

# is_read SHAPE BYTES MOST READER: READER answers a file of this shape and size in at most MOST seconds
# (times $slower)
is_read() {
  local wanted got status seconds most=$(($3 * slower)) name="the hostile file $1 of $(($2 / 1000000)) MB"
  wanted=$(python3 -B tests/mo/make_hostile.py "$1" "$2" "$room/file") || exit 1
  got=$("$4")
  status=$?
  seconds=${got##*, }
  if [ "$status" = 124 ]; then
    failed "$name" "it had not been read after $((60 * slower)) seconds"
  elif [ "$status" != 0 ]; then
    failed "$name" "status $status"
  elif [ "${got%, *}" != "$wanted" ]; then
    failed "$name" "'${got%, *}', and not '$wanted'"
  elif awk "BEGIN { exit !($seconds > $most) }"; then
    failed "$name" "$seconds seconds, and not $most at most"
  else
    ok "$name: $wanted, in $seconds seconds"
  fi
}

# are_read BYTES TINY READER: files of each shape with BYTES bytes, and with TINY bytes for the one of tiny entries
are_read() {
  local shape
  for shape in $(python3 -B tests/mo/make_hostile.py); do
    case $shape in
      # (its file is four times as large)
      tiny_entries) is_read "$shape" "$2" 12 "$3" ;;
      *) is_read "$shape" "$1" 3 "$3" ;;
    esac
  done
}

if [ -n "$library" ]; then
  makes_opener "$library" || exit 1
  are_read 60000000 60000000 open_file
  exit
fi

if [ ! -x "$catserve" ]; then
  failed hostile "there is no $catserve: make builds it"
  exit 1
fi
are_read 30000000 7500000 load_file

# (a script has no room for 60 MB in hexadecimal digits)
if [ ! -f build/lib/libkobdzila.a ] || ! tests/lib/needs cc gcc libc6-dev; then
  skipped 'the hostile file irregular_copies of 60 MB' 'no build/lib/libkobdzila.a, which `make library` makes, or no cc'
elif ! makes_opener build/lib/libkobdzila.a 2> "$room/cc"; then
  failed 'the hostile file irregular_copies of 60 MB' "tests/mo/hostile.c does not compile: $(head -n 1 "$room/cc")"
else
  is_read irregular_copies 60000000 3 open_file
fi
