#!/usr/bin/env bash
# Scripts of bin/catserve: two stored ones, worked cases, devices that fail, threads that can't be made, and each
# allocation refused in turn. A run with a refused allocation must say `catserve: 9 0`, end with 1 and write nothing, or
# answer exactly as a run without refusals. A run that is refused threads always does the latter.
. "$(dirname "$0")/../lib/common"

program=${CATSERVE:-bin/catserve}
if [ ! -x "$program" ]; then
  failed scripts "there is no $program: make builds it"
  exit 0
fi
# (a worked script of PO texts, which is the program's stored run, and one that also loads an MO file)
worked=crates/catserve_program/stdin worked_answers=crates/catserve_program/stdout
with_file=tests/scripts/stored/rounds_with_file.script with_file_answers=tests/scripts/stored/rounds_with_file.answers

# answers NAME STATUS OUTPUT ERRORS: runs the program on $room/in, and compares what it answers
answers() {
  "$program" < "$room/in" > "$room/out" 2> "$room/err"
  local status=$?
  printf '%b' "$3" > "$room/wanted"
  if [ "$status" = "$2" ] && cmp -s "$room/out" "$room/wanted" && [ "$(cat "$room/err")" = "$4" ]; then
    ok "$1"
  else
    failed "$1" "status $status, '$(head -c 200 "$room/out")', '$(cat "$room/err")'"
  fi
}

# is_as_stored NAME SCRIPT ANSWERS: it writes the stored answers
is_as_stored() {
  if "$program" < "$2" 2> "$room/err" | cmp -s - "$3" && [ ! -s "$room/err" ]; then
    ok "$1"
  else
    failed "$1" "$(cat "$room/err")"
  fi
}

is_as_stored 'script, two rounds' "$worked" "$worked_answers"
is_as_stored 'script, two rounds with an MO file' "$with_file" "$with_file_answers"

# is_answered NAME SCRIPT OUTPUT: it writes this
is_answered() {
  printf "$2" > "$room/in"
  answers "script, $1" 0 "$3" ''
}

# is_bad NAME SCRIPT LINE: its first bad line is this one
is_bad() {
  printf "$2" > "$room/in"
  answers "script, $1" 1 '' "catserve: 3 $3"
}

. tests/scripts/script_rows

head -n 2 "$worked" > "$room/in"
answers 'script, cut' 1 '' 'catserve: 3 1'
printf 'go\n\377' > "$room/in"
answers 'script, not UTF-8' 1 '' 'catserve: 2 0'
printf 'load\tapp\tfr\t-\t0\n%.0s' $(seq 300) > "$room/in"
answers 'script, three hundred loads' 0 "$(printf 'accepted\\t0\\t0\\t0\\n%.0s' $(seq 300))version\\t300\\n" ''
printf 'go\n%.0s' $(seq 1200) > "$room/in"
answers 'script, twelve hundred rounds' 0 "$(printf 'version\\t0\\n%.0s' $(seq 1200))" ''

head -c 67108865 /dev/zero > "$room/in"
answers 'script, too large' 1 '' 'catserve: 1 0'
head -c 67108864 /dev/zero | tr '\0' '\n' > "$room/in"
answers 'script, 64 MiB' 0 '' ''
head -c 67108864 /dev/zero | tr '\0' '#' > "$room/in"
answers 'script, a comment of 64 MiB' 0 '' ''

if "$program" < / > "$room/out" 2> "$room/err" || [ -s "$room/out" ] || [ "$(cat "$room/err")" != 'catserve: 4 0' ]; then
  failed 'script, a reader that fails' "'$(cat "$room/err")'"
else
  ok 'script, a reader that fails'
fi
if [ ! -c /dev/full ]; then
  skipped 'script, a writer that fails' 'no /dev/full'
elif "$program" < "$worked" > /dev/full 2> "$room/err" || [ "$(cat "$room/err")" != 'catserve: 5 0' ]; then
  failed 'script, a writer that fails' "'$(cat "$room/err")'"
else
  ok 'script, a writer that fails'
fi

# is_run_without_threads FROM SCRIPT OUTPUT: runs the program on SCRIPT, and refuses it the thread with this number and
# all later ones. It must write OUTPUT as ever. False where the program asked for fewer threads.
is_run_without_threads() {
  local name="script, $(basename "$2"), no thread from $1 on"
  rm -f "$room/refused"
  timeout $((20 * slower)) env REFUSE_FROM="$1" REFUSED="$room/refused" LD_PRELOAD="$room/refuse_threads.so" "$program" \
    < "$2" > "$room/out" 2> "$room/err"
  local status=$?
  if [ $status != 0 ] || [ -s "$room/err" ] || ! cmp -s "$room/out" "$3"; then
    failed "$name" "status $status, $(wc -c < "$room/out") bytes, '$(cat "$room/err")'"
  elif [ -e "$room/refused" ]; then
    ok "$name"
  fi
  [ -e "$room/refused" ]
}

# are_run_without_threads THREADS SCRIPT OUTPUT: is_run_without_threads from each of the program's THREADS on
are_run_without_threads() {
  local n=0
  while is_run_without_threads $((n + 1)) "$2" "$3"; do n=$((n + 1)); done
  [ $n = "$1" ] || failed "script, $(basename "$2"), no threads" "it asked for $n, and not for $1"
}

if makes_library refuse_threads 'script, no threads'; then
  # (each round answers the last of its workers in the thread that it has)
  are_run_without_threads 2 "$worked" "$worked_answers"
  are_run_without_threads 2 "$with_file" "$with_file_answers"
  {
    printf 'workers\t16\n'
    printf 'ask\t%d\tapp\tfr\tgettext\thi\n' $(seq 0 15)
  } > "$room/sixteen workers"
  {
    printf 'version\t0\n'
    printf '%d\t0\thi\n' $(seq 0 15)
  } > "$room/wanted"
  are_run_without_threads 15 "$room/sixteen workers" "$room/wanted"
fi

makes_refuser 'script, memory' || exit 0

# is_refused STATUS: the last run says that memory was refused, and wrote nothing
is_refused() { [ "$1" = 1 ] && [ ! -s "$room/out" ] && [ "$(cat "$room/err")" = 'catserve: 9 0' ]; }

# sweep NAME SCRIPT ANSWERS: refuses each request for memory of the run on SCRIPT in turn
sweep() {
  local n=0 spoke=0
  while refuses $((n + 1)) "$program" < "$2" > "$room/out" 2> "$room/err"; do
    n=$((n + 1))
    if is_refused $status; then
      spoke=$((spoke + 1))
    elif [ $status != 0 ] || [ -s "$room/err" ] || ! cmp -s "$room/out" "$3"; then
      failed "$1" "request $n refused: status $status, $(wc -c < "$room/out") bytes, '$(cat "$room/err")'"
      return
    fi
  done
  if [ $n = 0 ]; then
    failed "$1" 'no request was refused: is the program linked with the C library at run time?'
  elif [ $status != 0 ] || ! cmp -s "$room/out" "$3"; then
    failed "$1" "with $n requests and none refused: '$(cat "$room/err")'"
  else
    ok "$1: $n requests refused in turn, $spoke of them told, the others without effect"
  fi
}

sweep 'script, memory' "$worked" "$worked_answers"
sweep 'script with an MO file, memory' "$with_file" "$with_file_answers"
