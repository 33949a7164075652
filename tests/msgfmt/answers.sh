#!/usr/bin/env bash
# Runs the program crates/test_answers over its list data/cases, whose answers were worked out by hand, and then refuses
# each of its requests for memory in turn while it reads the short list data/few. It prints each case whose answer
# isn't the one of the list: none, but those that say that memory was refused. A refused request is never taken for a
# malformed expression, a broken rule, an invalid format or a fault of a text.
. "$(dirname "$0")/../lib/common"

program=${ANSWERS:-crates/test_answers/out/test_answers}
if [ ! -x "$program" ]; then
  failed answers "there is no $program: the gate builds it (make check), and so does 'rt run' in crates/test_answers"
  exit 0
fi

"$program" crates/test_answers/data/cases > "$room/got"
if cmp -s "$room/got" crates/test_answers/stdout; then
  ok "answers: $(grep -cvE '^(#|$)' crates/test_answers/data/cases) cases as worked out"
else
  failed answers "$(diff crates/test_answers/stdout "$room/got" | head -n 3 | tr '\n' ' ')"
fi

makes_refuser 'answers, refused' || exit 0

# each line is that of a case for which memory was refused, or counts the cases of a kind that are as written. No kind
# is missing from a run that ends with 0; a run that was refused memory for the list itself ends with a fault, and says so.
told='^line [0-9]+, .*: out of memory$'
counted='^(expression|rule|format|po): [0-9]+ of [0-9]+ as written$'
n=0 spoke=0 ended=0 wrong=
while refuses $((n + 1)) "$program" crates/test_answers/data/few > "$room/got" 2> "$room/err"; do
  n=$((n + 1))
  lacks=$(grep -cE "$told" "$room/got")
  spoke=$((spoke + lacks))
  wrong=$(grep -vE "$told|$counted" "$room/got" | head -n 1)
  [ -z "$wrong" ] || break
  if [ "$status" != 0 ]; then
    ended=$((ended + 1))
    wrong="status $status, '$(head -c 200 "$room/err")'"
    grep -qi 'memory' "$room/err" || break
    wrong=
  else
    # as many cases as announced are not as written, and no kind is missing
    wrong=$(awk -v lacks="$lacks" '/as written$/ { kinds++; short += $4 - $2 }
      END { if (kinds != 4 || short != lacks) print kinds + 0 " kinds, " short " cases not as written, " lacks " told" }' "$room/got")
    [ -z "$wrong" ] || break
  fi
done
# the last run was refused nothing: each case of the list has the answer that is written
strays=$(awk '$2 != $4' "$room/got" | head -n 1)
if [ -n "$wrong" ]; then
  failed 'answers, refused' "request $n refused: $wrong"
elif [ -n "$strays" ]; then
  failed 'answers, refused' "with no request refused: '$strays'"
elif [ "$spoke" = 0 ]; then
  failed 'answers, refused' "of $n requests none was reported as out of memory"
else
  ok "answers, refused: $n requests in turn, $spoke reported as out of memory, $ended by the program's end, the others without effect"
fi
