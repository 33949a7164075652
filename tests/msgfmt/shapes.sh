#!/usr/bin/env bash
# Compiles large PO texts of unusual shapes (tests/msgfmt/make_shape.py): millions of empty strings, of escapes, of
# plural forms, keys in falling order and others. Each must give its MO file within 20 seconds, so that no work grows
# with the square of the text.
# 64 MiB of the shortest entries there are must be refused as what they are, duplicates, within 600 MiB of memory.
# A script loads catalogues for 100,000 pairs of a domain and a locale in falling order and asks for the message of each:
# that must take bin/catserve and bin/catsession (CATSERVE=PATH, SESSION=PATH: other programs) no more than 5 seconds of
# processor time.
catserve=${CATSERVE:+$(realpath "$CATSERVE")}
session=${SESSION:+$(realpath "$SESSION")}
. "$(dirname "$0")/../lib/common"

if ! command -v python3 > /dev/null; then
  skipped shapes 'no python3'
  exit 0
fi
for shape in $(python3 tests/msgfmt/make_shape.py); do
  python3 tests/msgfmt/make_shape.py "$shape" "$room/in" "$room/wanted" || exit 1
  timeout $((20 * slower)) "$program" -o - - < "$room/in" > "$room/out" 2> "$room/err"
  status=$?
  name="the shape $shape"
  if [ "$status" = 124 ]; then
    failed "$name" "it had not ended after $((20 * slower)) seconds"
  elif [ "$status" != 0 ]; then
    failed "$name" "status $status; it said '$(head -c 300 "$room/err")'"
  elif why=$(cmp "$room/wanted" "$room/out" 2>&1); then
    ok "$name"
  else
    failed "$name" "another MO file: $why"
  fi
done

name='64 MiB of the shortest entries take 600 MiB at most'
awk 'BEGIN { for (i = 0; i < 4473924; i++) printf "msgid\"\"msgstr\"\"" }' > "$room/in"
peak=$(python3 - "$program" "$room/in" "$room/err" $((60 * slower)) << 'END'
import resource, subprocess, sys
program, text, errors, most = sys.argv[1:]
with open(text) as given, open(errors, "w") as said:
    status = subprocess.run([program, "-o", "/dev/null", "-"], stdin=given, stderr=said, timeout=int(most)).returncode
print(status, resource.getrusage(resource.RUSAGE_CHILDREN).ru_maxrss // 1024)
END
)
read -r status mebibytes <<< "$peak"
if [ "$status" != 1 ] || [ "$(cat "$room/err")" != '-:1: duplicate message' ]; then
  failed "$name" "status $status; it said '$(head -c 300 "$room/err")'"
elif [ "$mebibytes" -gt 600 ]; then
  failed "$name" "it took $mebibytes MiB"
else
  ok "$name"
fi

# answers_in_time NAME PROGRAM: the program answers $room/in with $room/wanted, and takes 5 seconds at most (times $slower)
answers_in_time() {
  local seconds status why most=$((5 * slower)) TIMEFORMAT='%U %S'
  if [ ! -x "$2" ]; then
    failed "$1" "there is no $2: make builds it"
    return
  fi
  seconds=$({ time timeout $((60 * slower)) "$2" < "$room/in" > "$room/out" 2> "$room/err"; } 2>&1)
  status=$?
  if [ "$status" = 124 ]; then
    failed "$1" "it had not ended after $((60 * slower)) seconds"
  elif [ "$status" != 0 ]; then
    failed "$1" "status $status; it said '$(head -c 300 "$room/err")'"
  elif ! why=$(cmp "$room/wanted" "$room/out" 2>&1); then
    failed "$1" "other answers: $why"
  elif awk "BEGIN { split(\"$seconds\", spent, \" \"); exit !(spent[1] + spent[2] > $most) }"; then
    failed "$1" "user and system took $seconds seconds, and not $most together at most"
  else
    ok "$1"
  fi
}

seq 99999 -1 0 | awk '{ printf "load\td%02d\tl%06d\t-\t2\nmsgid \"hi\"\nmsgstr \"%d\"\n", $1 % 100, $1, $1 }' > "$room/in"
seq 0 99999 | awk '{ printf "ask\t0\td%02d\tl%06d\tgettext\thi\n", $1 % 100, $1 }' >> "$room/in"
seq 0 99999 | awk '{ print "accepted\t1\t0\t0" } END { print "version\t100000" }' > "$room/wanted"
seq 0 99999 | awk '{ printf "0\t100000\t%d\n", $1 }' >> "$room/wanted"
answers_in_time 'loads for 100,000 pairs in falling order' "${catserve:-$PWD/bin/catserve}"
answers_in_time 'loads for 100,000 pairs in falling order, by a session' "${session:-$PWD/bin/catsession}"
