#!/usr/bin/env bash
# Runs bin/msgfmt and bin/catserve on the PO texts of tests/msgfmt/texts.txt, and compares what they answer with what
# follows each text there, which was written by hand from the rules (docs/reference/po.md). The entries of the answers
# `accepted` are those that GNU msgfmt 0.21 writes of the texts that it compiles, but for one with a macro after a
# faulty directive.
#
# A case begins with `== NAME`, and its text follows. From the first line that begins with `-- ` come the answers:
#
#   -- without the last newline             the text ends in front of its last newline
#   -- compiled [OPTIONS]: STATISTICS       these, and the MO file of the entries that follow: a line for each, in
#   -- "ORIGINAL" = "TRANSLATION"           the order of the file, with \0 and \4 for these bytes, \n and \t
#   -- refused [OPTIONS]: LINE: WHY         the refusal, and nothing is written
#   -- accepted [OPTIONS]                   the MO file of the entries that follow, and no line but warnings and the
#                                           statistics; answers of this kind in a row share the entries after the last
#   -- lacks, LINE: FIELD ..                the warnings of -c, and no others; or `lacks nothing`
#   -- asked [OPTIONS]:                     what follows is asked of the text, with bin/catserve
#   -- CALL "TEXT" .. [NUMBER] = "ANSWER"   a look-up
#
# Other lines between the answers and the next case are no part of either.
. "$(dirname "$0")/../lib/common"

catserve=${CATSERVE:-bin/catserve}
if [ ! -x "$catserve" ]; then
  failed texts "there is no $catserve: make builds it"
  exit 0
fi

# word NUMBER: 32 bits, the low byte first
word() { printf '%02x%02x%02x%02x' $(($1 & 255)) $(($1 >> 8 & 255)) $(($1 >> 16 & 255)) $(($1 >> 24 & 255)); }

# mo_file ORIGINAL TRANSLATION ..: the MO file of these entries as the GNU gettext manual has it ("MO Files"), in
# hex: the header, a row of length and offset for each original and each translation, and the strings
mo_file() {
  local count=$(($# / 2)) first=1 k string rows= strings=
  local place=$((28 + 16 * count))
  for first in 1 2; do
    for ((k = first; k <= $#; k += 2)); do
      string=${!k}
      string=$(printf '%b' "${string//'\0'/'\0000'}" | hex)
      rows+=$(word $((${#string} / 2)))$(word $place)
      strings+=${string}00
      place=$((place + ${#string} / 2 + 1))
    done
  done
  printf 'de120495%s' "$(word 0)$(word $count)$(word 28)$(word $((28 + 8 * count)))$(word 0)$(word $((28 + 16 * count)))"
  printf '%s' "$rows$strings"
}

# run [OPTIONS]: msgfmt on the text of the case
run() {
  "$program" ${1:+"$1"} --statistics -o - - < "$room/text" > "$room/out" 2> "$room/err"
  status=$?
}

# wrote NAME ORIGINAL TRANSLATION ..: the last run wrote the MO file of these entries
wrote() {
  local name=$1
  shift
  if [ "$(hex < "$room/out")" = "$(mo_file "$@")" ]; then ok "$name"; else failed "$name" "it wrote $(hex < "$room/out")"; fi
}

# compiled NAME OPTIONS STATISTICS ORIGINAL TRANSLATION ..
compiled() {
  run "$2"
  judge "$1" 0 "$3" || return
  wrote "$1" "${@:4}"
}

# refused NAME OPTIONS LINE: WHY
refused() {
  run "$2"
  judge "$1" 1 "-:$3" || return
  if [ -s "$room/out" ]; then failed "$1" "it wrote $(($(wc -c < "$room/out"))) bytes"; else ok "$1"; fi
}

# accepted NAME OPTIONS ORIGINAL TRANSLATION ..
accepted() {
  run "$2"
  if [ "$status" != 0 ] || grep -qvE ': warning: |^[0-9]+ translated messages?' "$room/err"; then
    failed "$1" "status $status, '$(head -c 300 "$room/err")'"
  else
    wrote "$1" "${@:3}"
  fi
}

# lacks NAME LINE FIELD ..
lacks() {
  local name=$1 line=$2 field wanted=
  shift 2
  run -c
  for field in "$@"; do wanted+="-:$line: warning: header field '$field' missing"$'\n'; done
  if [ "$status" = 0 ] && [ "$(grep warning "$room/err")" = "${wanted%$'\n'}" ]; then
    ok "$name"
  else
    failed "$name" "status $status, '$(head -c 600 "$room/err")'"
  fi
}

# asked NAME OPTIONS LOOK-UP ..: catserve loads the text, and answers the look-ups in turn
asked() {
  local name=$1 options=${2#-} asks= wanted=$'version\t1\n' call texts
  shift 2
  for it in "$@"; do
    call=${it%% *}
    texts=${it#"$call"' "'}
    wanted+=$'0\t1\t'$(unescaped "${texts##*' = "'}")$'\n'
    texts=${texts%' = "'*}
    texts=${texts//'" "'/$'\t'}
    texts=${texts//'" '/$'\t'}
    asks+=$'ask\t0\tapp\tfr\t'$call$'\t'$(unescaped "$texts")$'\n'
  done
  {
    printf 'load\tapp\tfr\t%s\t%d\n' "${options:--}" $(($(wc -l < "$room/text")))
    cat "$room/text"
    printf '%s' "$asks"
  } > "$room/script"
  if ! "$catserve" < "$room/script" > "$room/out" 2> "$room/err"; then
    failed "$name" "catserve said '$(cat "$room/err")'"
  elif tail -n +2 "$room/out" | cmp -s - <(printf '%s' "$wanted"); then
    ok "$name"
  else
    failed "$name" "$(diff <(printf '%s' "$wanted") <(tail -n +2 "$room/out") | grep '^[<>]' | head -n 4 | tr '\n' ' ')"
  fi
}

# unescaped TEXT": with the byte 4 for \4, and without a quote at the end (catserve has its own \n, \t and \\)
unescaped() {
  local text=${1//'\4'/$'\4'}
  printf '%s' "${text%'"'}"
}

# settle: runs the answers that wait in $answers, with the lines that followed them
settle() {
  local answer
  for answer in "${answers[@]}"; do settle_one "$answer"; done
  answers=() lines=()
}

# settle_one ANSWER
settle_one() {
  local head=${1%%:*} rest=${1#*: } words name
  read -r -a words <<< "${head%,*}"
  name="text: $case_name (${head%,*})"
  case ${words[0]} in
    compiled) compiled "$name" "${words[1]:-}" "$rest" "${lines[@]}" ;;
    refused) refused "$name" "${words[1]:-}" "$rest" ;;
    accepted) accepted "$name" "${words[1]:-}" "${lines[@]}" ;;
    asked) asked "$name" "${words[1]:-}" "${lines[@]}" ;;
    lacks)
      read -r -a words <<< "$rest"
      case $head in
        'lacks nothing') lacks "$name" 0 ;;
        *) lacks "$name" "${head#*, }" "${words[@]}" ;;
      esac ;;
    *) failed "$name" 'no such answer' ;;
  esac
}

# take LINE: an answer, or a line that belongs to the last one
take() {
  case $1 in
    'without the last newline') head -c -1 "$room/text" > "$room/cut" && mv "$room/cut" "$room/text" ;;
    '"'*)
      local pair=${1#'"'}
      pair=${pair%'"'}
      lines+=("${pair%%'" = "'*}" "${pair#*'" = "'}") ;;
    gettext* | pgettext* | ngettext* | npgettext*) lines+=("$1") ;;
    *)
      # (an answer `accepted` right after another has that one's entries)
      case "${answers[*]}|$1" in
        accepted*'|accepted'*) [ ${#lines[@]} = 0 ] || settle ;;
        *) settle ;;
      esac
      answers+=("$1") ;;
  esac
}

case_name='' answers=() lines=() in_text=no
while IFS= read -r line; do
  case $line in
    '== '*)
      settle
      case_name=${line#'== '} in_text=yes
      : > "$room/text" ;;
    '-- '*)
      in_text=no
      take "${line#'-- '}" ;;
    *) [ $in_text = no ] || printf '%s\n' "$line" >> "$room/text" ;;
  esac
done < tests/msgfmt/texts.txt
settle
