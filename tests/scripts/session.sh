#!/usr/bin/env bash
# The live session bin/catsession (SESSION=PATH: another program). The scripts of catserve's tests, fed whole, line by line,
# byte by byte and round by round (tests/scripts/session.py); bad lines after rounds that were answered; the text of
# each error; arguments; threads and memory that are refused; many rounds; the examples of clients
# (tests/scripts/session_clients.py).
no_program=1
. "$(dirname "$0")/../lib/common"

session=$(realpath -m "${SESSION:-bin/catsession}")
if [ ! -x "$session" ]; then
  failed session "there is no $session: make builds it"
  exit 0
fi
script=tests/scripts/stored/rounds_with_file.script answers=tests/scripts/stored/rounds_with_file.answers
number=100

# row NAME SCRIPT OUTPUT ERR [WORD..]: the session writes OUTPUT on SCRIPT, and says ERR; SCRIPT and OUTPUT are formats
row() {
  local folder=$room/rows/$((number++))
  mkdir -p "$folder"
  printf '%s' "$1" > "$folder/name"
  printf "$2" > "$folder/script"
  printf "$3" > "$folder/out"
  printf '%s' "${4:+$4$'\n'}" > "$folder/err"
  printf '%s ' "${@:5}" > "$folder/words"
}

# --- the scripts of other tests

is_answered() { row "$1" "$2" "$3" ''; }

# (in front of a bad line of these scripts there is at most one round, of nothing)
is_bad() {
  local before=
  case $2 in go*) before='version\t0\n' ;; esac
  row "$1" "$2" "$before" "catsession:$3: bad line"
}
. tests/scripts/script_rows

# stored_row NAME SCRIPT OUTPUT: the same of files
stored_row() {
  row "$1" '' '' ''
  cp "$2" "$room/rows/$((number - 1))/script"
  cp "$3" "$room/rows/$((number - 1))/out"
}
stored_row 'the stored script of catserve' crates/catserve_program/stdin crates/catserve_program/stdout
stored_row 'the stored script with an MO file' $script $answers
stored_row 'the example of a script' examples/shop.script examples/shop.answers
row 'three hundred loads' "$(printf 'load\\tapp\\tfr\\t-\\t0\\n%.0s' $(seq 300))" \
  "$(printf 'accepted\\t0\\t0\\t0\\n%.0s' $(seq 300))version\\t300\\n" ''

# --- bad lines after a round, and the texts of faults

load='load\tapp\tfr\t-\t2\nmsgid "hi"\nmsgstr "salut"\n'
ask='ask\t0\tapp\tfr\tgettext\thi\n'
round="$load${ask}go\n" answered='accepted\t1\t0\t0\nversion\t1\n0\t1\tsalut\n'
row 'a bad line in the second round' "${round}gone\n" "$answered" 'catsession:6: bad line'
row 'a bad line behind a load and a question' "$round$load${ask}ask\tx\ngo\n" "$answered" 'catsession:10: bad line'
row 'a bad line behind a load of the third round' "$round$ask$ask${ask}go\n${load}go\tx\n" \
  "${answered}version\t1\n0\t1\tsalut\n0\t1\tsalut\n0\t1\tsalut\n" 'catsession:13: bad line'
row 'a load that the end cuts' "$round${ask}load\tapp\tfr\t-\t3\nmsgid \"hi\"\n" "$answered" 'catsession:7: bad line'
row 'lines of texts and comments are counted' "# one\n\n$round\n# nine\n${round}stop" \
  "${answered}accepted\t1\t0\t0\nversion\t2\n0\t2\tsalut\n" 'catsession:15: bad line'
row 'a line that is not UTF-8' "${round}go\n\377\ngo\n" "${answered}version\t1\n" 'catsession:7: not UTF-8'
row 'a text that is not UTF-8' "$round${ask}load\tapp\tfr\t-\t2\n# x\n# \303x\ngo\n" "$answered" 'catsession:7: not UTF-8'
row 'a comment that is not UTF-8' "$round# \303\n" "$answered" 'catsession:6: not UTF-8'
row 'a bad line before one that is not UTF-8' "${round}stop\n\377\n" "$answered" 'catsession:6: bad line'
row 'a text that is refused' "load\tapp\tfr\t-\t1\nmsgid\n${ask}go\n$round" \
  "refused\t7\t1\nversion\t0\n0\t0\thi\n$answered" ''
row 'a round that is empty' "go\n# none\n\ngo\n${ask}go\n" 'version\t0\nversion\t0\nversion\t0\n0\t0\thi\n' ''
row 'the last round without go' "$round$load$ask" "${answered}accepted\t1\t0\t0\nversion\t2\n0\t2\tsalut\n" ''
row 'comments behind the last round' "$round# none\n\n#" "$answered" ''
row 'workers in a session' "# x\n\nworkers\t3\nask\t2\ta\tb\tgettext\tx\ngo\nask\t1\ta\tb\tgettext\ty\ngo\n" \
  'version\t0\n2\t0\tx\nversion\t0\n1\t0\ty\n' ''
row 'workers in a later round' "workers\t3\ngo\nworkers\t3\n" 'version\t0\n' 'catsession:3: bad line'
row 'no word: two workers' 'ask\t2\ta\tb\tgettext\tx\n' '' 'catsession:1: bad line'
row '--workers 3' 'ask\t2\ta\tb\tgettext\tx\ngo\n' 'version\t0\n2\t0\tx\n' '' --workers 3
row '--workers 3, a fourth' 'ask\t2\ta\tb\tgettext\tx\ngo\nask\t3\ta\tb\tgettext\tx\n' 'version\t0\n2\t0\tx\n' \
  'catsession:3: bad line' --workers 3
row '--workers 16' 'ask\t15\ta\tb\tgettext\tx\nask\t0\ta\tb\tgettext\ty\ngo\n' 'version\t0\n0\t0\ty\n15\t0\tx\n' '' --workers 16
row '--workers 1' 'ask\t0\ta\tb\tgettext\tx\ngo\nask\t1\ta\tb\tgettext\tx\n' 'version\t0\n0\t0\tx\n' \
  'catsession:3: bad line' --workers 1
row '--workers, and a line of workers' '# x\nworkers\t2\ngo\n' '' 'catsession:2: bad line' --workers 2
tests/scripts/session.py "$session" rows "$room/rows"

# --- large rounds: the bytes of a round are limited, and not those of a session

# says NAME STATUS OUTPUT ERR: compares the last run, whose output is in $room/out; ERR is a pattern
says() {
  local pattern="^($4)\$"
  if [ "$status" = "$2" ] && printf "$3" | cmp -s - "$room/out" && [[ $(cat "$room/err") =~ $pattern ]]; then
    ok "session, $1"
  else
    failed "session, $1" "status $status, '$(head -c 200 "$room/out")', '$(head -c 300 "$room/err")'"
  fi
}

# runs WORD..: runs the session on standard input
runs() {
  timeout $((60 * slower)) "$session" "$@" > "$room/out" 2> "$room/err"
  status=$?
}

# comment BYTES: a comment of BYTES bytes, its LF among them
comment() { head -c "$(($1 - 1))" /dev/zero | tr '\0' '#' && echo; }

runs < <(printf 'go\n' && comment 67108865)
says 'a line over the limit of a round' 1 'version\t0\n' 'catsession:2: round too large'
runs < <(printf 'go\n' && comment 40000000 && comment 40000000)
says 'two lines over the limit of a round' 1 'version\t0\n' 'catsession:3: round too large'
text() { printf 'load\tapp\tfr\t-\t40\n' && for _ in $(seq 40); do comment 1000000; done; }
runs < <(printf 'go\n' && text && text)
says 'two loads over the limit of a round' 1 'version\t0\n' 'catsession:43: round too large'
runs < <(comment 67108000 && echo go && comment 67108000 && printf 'ask\t0\ta\tb\tgettext\tx\ngo\n')
says 'two rounds below the limit, which are together above it' 0 'version\t0\nversion\t0\n0\t0\tx\n' ''

# --- devices that fail

runs < /
says 'an input that fails' 1 '' 'catsession: cannot read input'
if [ -c /dev/full ]; then
  printf "$round" | "$session" > /dev/full 2> "$room/err"
  status=$?
  : > "$room/out"
  says 'an output that fails' 1 '' 'catsession: cannot write output'
else
  skipped 'session, an output that fails' 'no /dev/full'
fi
# (the second round is sent when the reader has gone, at the latest after 20 seconds)
{
  printf "$round"
  for ((n = 0; n < 1000; n++)); do [ ! -e "$room/gone" ] || break; sleep 0.02; done
  printf "$round"
} | {
  "$session" 2> "$room/err"
  echo $? > "$room/status"
} | {
  head -n 1 > "$room/out"
  exec < /dev/null
  : > "$room/gone"
}
status=$(cat "$room/status")
says 'a reader of the output that goes away' 1 'accepted\t1\t0\t0\n' 'catsession: cannot write output'

# --- words

# tells NAME ERR WORD..: these words are refused, and nothing is read
tells() {
  local name=$1 said=$2
  shift 2
  printf "$round" > "$room/in"
  { runs "$@"; cat > "$room/left"; } < "$room/in"
  says "$name" 1 '' "$said"
  cmp -s "$room/in" "$room/left" || failed "session, $name" 'something was read'
}

no_number='catsession: --workers takes a number from 1 to 16'
tells 'an unknown word' 'catsession: unknown word gone' gone
tells 'an unknown option' 'catsession: unknown word --worker' --worker 2
tells 'an unknown letter' 'catsession: unknown word -w' -w
tells 'a file as a word' 'catsession: unknown word examples/shop\.script' examples/shop.script
tells 'a second number' 'catsession: unknown word 3' --workers 2 3
tells 'an unknown word behind the number' 'catsession: unknown word x y' --workers 2 'x y'
tells 'a word that is not UTF-8' 'catsession: a word is not UTF-8' $'\377'
tells 'an unknown word before one that is not UTF-8' 'catsession: a word is not UTF-8' gone $'x\303'
tells '--workers without a number' "$no_number" --workers
for it in 0 17 '' x -1 +2 1.5 '2 ' 18446744073709551617; do tells "--workers '$it'" "$no_number" --workers "$it"; done
for it in -h --help; do
  runs "$it" < /
  if [ $status = 0 ] && [ ! -s "$room/err" ] && grep -q -e '--workers' "$room/out"; then
    ok "session, $it"
  else
    failed "session, $it" "status $status, '$(cat "$room/err")'"
  fi
done

# --- scripts of other tests, each way of feeding them

cat > "$room/as_catserve" << END
#!/bin/sh
exec python3 -B '$PWD/tests/scripts/session.py' '$session' catserve
END
chmod +x "$room/as_catserve"
# by_session NAME SCRIPT: the lines of another script, in which the session takes the place of catserve
by_session() {
  CATSERVE=$room/as_catserve "tests/$2.sh" < /dev/null > "$room/lines" 2>&1
  if grep -v '^ok ' "$room/lines" > "$room/wrong" || [ ! -s "$room/lines" ]; then
    failed "session, $1" "$(head -n 3 "$room/wrong" | tr '\n' ' ')"
  else
    ok "session, $1: $(wc -l < "$room/lines") lines"
  fi
}
by_session 'lists of languages' scripts/languages
by_session 'PO texts that are loaded and asked' msgfmt/texts

catserve=${CATSERVE:-bin/catserve}
bench/scripts/make_script.py 2000000 > "$room/script"
if "$catserve" < "$room/script" > "$room/wanted" && runs < "$room/script" && cmp -s "$room/out" "$room/wanted" &&
  [ "$status" = 0 ] && [ "$(wc -l < "$room/wanted")" = 101100 ]; then
  ok 'session, 1,000 loads and 100,000 questions in 100 rounds, as catserve'
else
  failed 'session, 1,000 loads and 100,000 questions' "$(cmp "$room/out" "$room/wanted" 2>&1) $(head -c 300 "$room/err")"
fi

# --- clients

python3 -B tests/scripts/session_clients.py "$session"
examples/session.sh "$session" > "$room/out" 2> "$room/err"
status=$?
says 'the example of named pipes' 0 \
  'accepted\t1\t0\t0, version\t1\n1: panier\n1: items\naccepted\t1\t0\t0, version\t2\n2: corbeille\n' ''

# --- many rounds, and what the system refuses

tests/scripts/session.py "$session" many 100000
if [ "$(head -c 2 "$session")" = '#!' ]; then
  skipped 'session, threads and memory refused' "$session is no program of its own"
  exit 0
fi

# as_ever: the last run answered the stored script as it does where nothing is refused
as_ever() { [ $status = 0 ] && [ ! -s "$room/err" ] && cmp -s "$room/out" $answers; }

if makes_library refuse_threads 'session, threads refused'; then
  n=0 wrong=
  rm -f "$room/refused"
  while [ $n = 0 ] || [ -e "$room/refused" ]; do
    n=$((n + 1))
    rm -f "$room/refused"
    timeout $((20 * slower)) env REFUSE_FROM=$n REFUSED="$room/refused" LD_PRELOAD="$room/refuse_threads.so" "$session" \
      < $script > "$room/out" 2> "$room/err"
    status=$?
    as_ever || wrong+="from $n on: status $status, '$(cat "$room/err")'; "
  done
  if [ -n "$wrong" ]; then
    failed 'session, threads refused' "$wrong"
  else
    ok "session, threads refused: from each of $((n - 1)) on, without effect"
  fi
fi

makes_refuser 'session, memory refused' || exit 0
# (what has been written when there is no memory: nothing, the first round, or both)
head -n 6 $answers > "$room/first"
is_front() { [ ! -s "$room/out" ] || cmp -s "$room/out" "$room/first" || cmp -s "$room/out" $answers; }

n=0 spoke=0 name='session, memory refused'
while refuses $((n + 1)) "$session" < $script > "$room/out" 2> "$room/err"; do
  n=$((n + 1))
  if [ $status = 1 ] && [ "$(cat "$room/err")" = 'catsession: out of memory' ] && is_front; then
    spoke=$((spoke + 1))
  elif ! as_ever; then
    failed "$name" "request $n refused: status $status, $(wc -c < "$room/out") bytes, '$(cat "$room/err")'"
    exit 0
  fi
done
if [ $n = 0 ] || ! as_ever; then
  failed "$name" "with $n requests and none refused: '$(cat "$room/err")'"
else
  ok "$name: $n requests refused in turn, $spoke of them told, the others without effect"
fi
