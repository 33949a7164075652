#!/usr/bin/env bash
# Makes the calls that allocate through the program crates/test_every_call, compares all answers with those worked out by hand
# (crates/test_every_call/stdout), and then refuses each of its allocations in turn. Each line must be that of a run without
# refusals, or say that memory was refused; none may be missing, and what a refused call was given must be as it was.
# tests/msgfmt/every_call.py says which line may be where.
. "$(dirname "$0")/../lib/common"

program=${EVERY_CALL:-crates/test_every_call/out/test_every_call}
if [ ! -x "$program" ]; then
  failed every_call "there is no $program: the gate builds it (make check), and so does 'rt run' in crates/test_every_call"
  exit 0
fi
words='read_po parse_expr read_rule signature compile from_sorted from_file write_mo read_mo check reread name absorb'
words+=' try_clone open_store publish ask serve'

"$program" > "$room/all"
if cmp -s "$room/all" crates/test_every_call/stdout; then
  ok "every call: $(wc -l < "$room/all") lines as worked out"
else
  failed 'every call' "$(diff crates/test_every_call/stdout "$room/all" | head -n 3 | tr '\n' ' ')"
fi
# tests/scripts/store.sh and tests/scripts/serve.sh look at the last two words
for word in $words store_rows serve_rows; do
  "$program" "$word" > "$room/$word" && cat "$room/$word"
done > "$room/parts"
if cmp -s "$room/all" "$room/parts"; then
  ok 'every call: the same word by word'
else
  failed 'every call, word by word' "$(diff "$room/all" "$room/parts" | head -n 3 | tr '\n' ' ')"
fi

makes_refuser 'every call, refused' || exit 0

# sweep WORD: refuses each request of the calls of WORD in turn
sweep() {
  local n=0 said
  rm -rf "$room/runs"
  mkdir "$room/runs"
  while refuses $((n + 1)) "$program" "$1" > "$room/last" 2> "$room/err"; do
    n=$((n + 1))
    mv "$room/last" "$room/runs/$n"
    if [ "$status" != 0 ]; then
      failed "$1, refused" "request $n refused: status $status, '$(head -c 200 "$room/err")'"
      return
    fi
  done
  if [ "$n" = 0 ]; then
    failed "$1, refused" 'no request was refused: is the program linked with the C library at run time?'
  elif ! cmp -s "$room/last" "$room/$1"; then
    failed "$1, refused" "with $n requests and none refused: $(diff "$room/$1" "$room/last" | head -n 3 | tr '\n' ' ')"
  elif said=$(python3 tests/msgfmt/every_call.py "$1" "$room/$1" "$room"/runs/* 2>&1); then
    ok "$1, refused: $n requests in turn: $said"
  else
    failed "$1, refused" "request $said"
  fi
}

for word in $words; do sweep "$word"; done
