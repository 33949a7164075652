#!/usr/bin/env bash
# Refuses each allocation of a run of bin/msgfmt in turn: the first, the second, and so on until a run makes no more. Each
# run must say `msgfmt: out of memory` and end with 1, or answer exactly as a run without refusals. If it runs out of
# memory, its standard output must be empty, or a prefix of what the run without refusals writes; what it said before must
# be the first lines of what that run says; and FILE must be missing, or complete if the run had come to the statistics. No
# other file may be left.
. "$(dirname "$0")/../lib/common"

makes_refuser memory || exit 0
echo 'msgfmt: out of memory' > "$room/memory"

# answer FILES: runs the program on $room/in, which is also the file in.po of the folder that it runs in, with the
# words of $words; what it answers goes to FILES.out, FILES.err and FILES.status, its file out.mo to FILES.mo, and the
# names of all files in the folder to FILES.ls
answer() {
  rm -rf "$room/folder" "$1.mo"
  mkdir "$room/folder"
  cp "$room/in" "$room/folder/in.po"
  (cd "$room/folder" && LD_PRELOAD=${PRELOAD:-} "$program" "${words[@]}" < "$room/in" > "$1.out" 2> "$1.err")
  echo $? > "$1.status"
  ls -A "$room/folder" > "$1.ls"
  if [ -e "$room/folder/out.mo" ]; then mv "$room/folder/out.mo" "$1.mo"; fi
}

# begins FILE WHOLE: WHOLE begins with the bytes of FILE
begins() { head -c "$(wc -c < "$1")" "$2" | cmp -s - "$1"; }

# same FILES OTHER: the two runs answered the same
same() {
  local it
  for it in out err status ls; do cmp -s "$1.$it" "$2.$it" || return; done
  [ ! -e "$1.mo" ] || cmp -s "$1.mo" "$2.mo"
}

# lacks_memory FILES OWN: the run of FILES was out of memory, and had done the beginning of what the run OWN does
lacks_memory() {
  [ "$(cat "$1.status")" = 1 ] && tail -n 1 "$1.err" | cmp -s - "$room/memory" || return
  head -n -1 "$1.err" > "$room/before"
  begins "$room/before" "$2.err" && begins "$1.out" "$2.out" || return
  if [ -e "$1.mo" ]; then
    # (then only the line of the statistics was left to be said)
    cmp -s "$1.ls" "$2.ls" && cmp -s "$1.mo" "$2.mo" && head -n -1 "$2.err" | cmp -s - "$room/before"
  else
    echo in.po | cmp -s - "$1.ls"
  fi
}

# sweep NAME STATUS: refuses each request in turn of the run on $room/in, which by itself ends with STATUS
sweep() {
  local own=$room/own got=$room/got n=0 spoke=0
  answer "$own"
  if [ "$(cat "$own.status")" != "$2" ]; then
    failed "$1" "nothing refused, it ends with $(cat "$own.status") and not $2: $(cat "$own.err")"
    return
  fi
  while :; do
    rm -f "$room/refused"
    REFUSE_NTH=$((n + 1)) REFUSED=$room/refused PRELOAD=$room/refuse_nth.so answer "$got"
    [ -e "$room/refused" ] || break
    n=$((n + 1))
    if lacks_memory "$got" "$own"; then
      spoke=$((spoke + 1))
    elif ! same "$got" "$own"; then
      failed "$1" "request $n refused: status $(cat "$got.status"), $(wc -c < "$got.out") bytes, '$(cat "$got.err")', files $(tr '\n' ' ' < "$got.ls")"
      return
    fi
  done
  if [ "$n" = 0 ]; then
    failed "$1" 'no request was refused: is the program linked with the C library at run time?'
  elif ! same "$got" "$own"; then
    failed "$1" "with $n requests and none refused: '$(cat "$got.err")'"
  else
    ok "$1: $n requests refused in turn, $spoke of them out of memory, the others without effect"
  fi
}

words=(-o - -)
printf 'msgid "hi"\nmsgstr "salut"\n' > "$room/in"
sweep 'memory, one entry' 0
printf 'msgid "a"\nmsgstr "x"\n#, fuzzy\nmsgid "a"\nmsgstr "y"\n' > "$room/in"
sweep 'memory, a duplicate' 1
printf 'msgid "a\\q"\n' > "$room/in"
sweep 'memory, a bad escape' 1
printf 'msgctxt "k"\nmsgid "a"\nmsgid_plural "b"\nmsgstr[0] "x"\nmsgstr[1] "y"\n' > "$room/in"
sweep 'memory, a context and a plural' 0
cp examples/fr.po "$room/in"
sweep 'memory, examples/fr.po' 0
: > "$room/in"
sweep 'memory, no entries' 0
words=(--help)
sweep 'memory, --help' 0
words=()
sweep 'memory, no INPUT' 1
words=(--bogus)
sweep 'memory, an unknown option' 1

# runs over files: one entry, and a header that lacks each field before a plural entry
words=(-c --statistics -o out.mo in.po)
printf 'msgid "hi"\nmsgstr "salut"\n' > "$room/in"
sweep 'memory, a file of one entry, checked and counted' 0
words=(-c --statistics -o - -)
sweep 'memory, one entry, checked and counted' 0
cat > "$room/in" << 'END'
msgid ""
msgstr "Plural-Forms: nplurals=3; plural=n==1 ? 0 : n%10>=2 && n%10<=4 && (n%100<10 || n%100>=20) ? 1 : 2;\n"

msgid "file"
msgid_plural "files"
msgstr[0] "plik"
msgstr[1] "pliki"
msgstr[2] "plikow"
END
words=(-c --statistics --verbose -o out.mo in.po)
sweep 'memory, a file with a plural rule, checked and counted' 0
words=(-o none/out.mo in.po)
sweep 'memory, a FILE that cannot be written' 1
words=(-o out.mo none.po)
sweep 'memory, an INPUT that cannot be read' 1
