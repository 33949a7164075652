#!/usr/bin/env bash
# Compares the MO files of bin/msgfmt with those of GNU `msgfmt --no-hash`, byte for byte, on the PO files of
# examples/, on two that the generator of the bench makes, and on the texts of catalogues that are installed on this
# machine. Those of examples/ and of the generator are compiled with -c too, from file to file.
#
#   tests/msgfmt/gnu.sh         at most 200 installed catalogues, each named by its language and domain
#   CATALOGUES=N ..      at most N of them
#
# A catalogue is left out if GNU msgfmt refuses its text, or if the two differ on purpose: its charset is
# neither UTF-8 nor ASCII; it has no entry (GNU msgfmt then writes no file); GNU msgfmt's file has the minor revision
# 1, as for C formats with %<PRIu64> or the flag I. The header field POT-Creation-Date, which GNU msgfmt deletes, is
# taken out of the text before the two read it.
. "$(dirname "$0")/../lib/common"

if ! tests/lib/needs tools/gnu-msgfmt gettext; then
  skipped gnu 'no GNU msgfmt, and the package gettext could not be installed'
  exit 0
fi
gnu=$(tools/gnu-msgfmt)

# compare PO: the two MO files are the same. 0: yes; 1: no, and $why tells; 2: GNU msgfmt wrote no file of revision 0
compare() {
  "$gnu" --no-hash -o - - < "$1" > "$room/gnu.mo" 2> /dev/null || return 2
  [ "$(head -c 8 "$room/gnu.mo" | hex)" = de12049500000000 ] || return 2
  if ! "$program" -o - - < "$1" > "$room/our.mo" 2> "$room/err"; then
    why="refused: $(cat "$room/err")"
  elif ! why=$(cmp "$room/gnu.mo" "$room/our.mo" 2>&1); then
    why="the files differ: $why"
  else
    return 0
  fi
  return 1
}

# same NAME PO
same() {
  compare "$2"
  case $? in
    0) ok "$1: the same $(($(wc -c < "$room/our.mo"))) bytes as GNU msgfmt's" ;;
    1) failed "$1" "$why" ;;
    *) failed "$1" 'GNU msgfmt writes no such file' ;;
  esac
}

# checked NAME PO: with -c, from a file to a file, both say nothing and make the same file
checked() {
  rm -f "$room/our.mo"
  if ! "$gnu" -c --no-hash -o "$room/gnu.mo" "$2" > "$room/gnu.err" 2>&1 || [ -s "$room/gnu.err" ]; then
    failed "$1, checked" "GNU msgfmt says '$(head -c 300 "$room/gnu.err")'"
  elif ! "$program" -c --no-hash -o "$room/our.mo" "$2" > "$room/err" 2>&1 || [ -s "$room/err" ]; then
    failed "$1, checked" "it said '$(head -c 300 "$room/err")'"
  elif ! why=$(cmp "$room/gnu.mo" "$room/our.mo" 2>&1); then
    failed "$1, checked" "the files differ: $why"
  else
    ok "$1, checked: the same $(($(wc -c < "$room/our.mo"))) bytes as GNU msgfmt's"
  fi
}

for po in examples/*.po; do
  same "$po" "$po"
  checked "$po" "$po"
done

if command -v python3 > /dev/null; then
  for size in 1000000 10000000; do
    python3 bench/make_po.py $size 1 > "$room/made.po"
    same "a made PO file of $size bytes" "$room/made.po"
    checked "a made PO file of $size bytes" "$room/made.po"
  done
else
  skipped 'made PO files' 'no python3'
fi

# has_known_charset PO: the header names UTF-8, ASCII or nothing
has_known_charset() {
  local charset
  charset=$(sed '/^$/q' "$1" | grep -ioE -m 1 'charset=[^ \\"]*')
  printf '%s\n' "${charset:-charset=utf-8}" | grep -qixE 'charset=(utf-?8|(us-)?ascii|charset)'
}

# chosen: at most CATALOGUES of the installed ones, evenly from the sorted list, so that many programs and languages
# are among them
chosen() {
  find /usr/share /usr/local/share -name '*.mo' -type f 2> /dev/null | sort |
    awk -v most="${CATALOGUES:-200}" '{ line[NR] = $0 }
      END { if (most > NR) most = NR; for (i = 0; i < most; i++) print line[1 + int(i * NR / most)] }'
}

# name_of MO: the language and the domain of an installed catalogue, as fr/grep
name_of() {
  local folder=${1%/LC_MESSAGES/*} domain=${1##*/}
  echo "${folder##*/}/${domain%.mo}"
}

# The scripts that are distinguished, each with the first bytes of its letters in UTF-8.
letters='Greek [\316\317]  Cyrillic [\320-\323]  Armenian \324|\325|\326[\200-\217]  Hebrew \327|\326[\220-\277]
  Arabic [\330-\333]  Devanagari \340[\244\245]  Bengali \340[\246\247]  Gurmukhi \340[\250\251]
  Gujarati \340[\252\253]  Oriya \340[\254\255]  Tamil \340[\256\257]  Telugu \340[\260\261]  Kannada \340[\262\263]
  Malayalam \340[\264\265]  Sinhala \340[\266\267]  Thai \340[\270\271]  Georgian \341\203
  Japanese \343[\201-\203]  Hangul [\353\354]  Han [\344-\351]'

# traits PO: prints three words: the script of the translations, the number of contexts, and the number of entries with
# three plural forms. The script is the one whose letters most lines have, or Latin if these lines are at most a quarter of the
# entries. (A line with kana is Japanese, and then not Han.)
traits() {
  awk -v letters="${letters//$'\n'/ }" '
    BEGIN { count = split(letters, words) }
    /[\200-\377]/ {
      for (i = 1; i < count; i += 2)
        if ($0 ~ words[i + 1]) {
          lines[words[i]]++
          if (words[i] == "Japanese") break
        }
    }
    /^msgid / { entries++ }
    /^msgctxt / { contexts++ }
    /^msgstr\[2\]/ { third++ }
    /^msgstr\[3\]/ { fourth++ }
    END {
      script = "Latin"
      most = entries / 4
      for (it in lines) if (lines[it] > most) { script = it; most = lines[it] }
      print script, contexts + 0, third - fourth
    }' "$1"
}

declare -A scripts=()
equal=0 different=0 other_charset=0 without_file=0 with_contexts=0 with_three_forms=0
while read -r mo; do
  "${gnu%msgfmt}msgunfmt" "$mo" 2> /dev/null | sed '/^"POT-Creation-Date:.*\\n"$/d' > "$room/text.po"
  if ! has_known_charset "$room/text.po"; then
    other_charset=$((other_charset + 1))
    continue
  fi
  compare "$room/text.po"
  case $? in
    1) different=$((different + 1)) && failed "$(name_of "$mo")" "$why ($mo)" && continue ;;
    2) without_file=$((without_file + 1)) && continue ;;
  esac
  equal=$((equal + 1))
  read -r script contexts three_forms < <(traits "$room/text.po")
  said="$(($(wc -c < "$room/our.mo"))) bytes, $script"
  scripts[$script]=$((${scripts[$script]:-0} + 1))
  if [ "$contexts" != 0 ]; then
    with_contexts=$((with_contexts + 1)) said="$said, contexts: $contexts"
  fi
  if [ "$three_forms" != 0 ]; then
    with_three_forms=$((with_three_forms + 1)) said="$said, entries of three forms: $three_forms"
  fi
  ok "$(name_of "$mo"): the same $said"
done < <(chosen)

# The set is to have ten catalogues, three scripts, a catalogue with contexts and one with three plural forms; where
# the machine has not so much, this says what it has.
name='installed catalogues, at least ten of three scripts, with contexts and three plural forms'
by_script=$(for it in "${!scripts[@]}"; do echo "$it ${scripts[$it]}"; done | sort | paste -sd, | sed 's/,/, /g')
found="$equal are the same ($by_script), $with_contexts with contexts, $with_three_forms with three plural forms"
found="$found; left out: $other_charset of other charsets, $without_file of which GNU msgfmt writes no file of revision 0"
if [ $equal -ge 10 ] && [ ${#scripts[@]} -ge 3 ] && [ $with_contexts -gt 0 ] && [ $with_three_forms -gt 0 ]; then
  ok "$name: $found"
elif [ $different = 0 ]; then
  skipped "$name" "too few such catalogues are installed: $found"
fi
