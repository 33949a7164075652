#!/bin/sh
# Talks to a live session over two named pipes: examples/session.sh [PROGRAM] (catsession). It loads a French text, asks,
# replaces it by another one, and asks again; each answer is printed after its version.
set -eu
tab=$(printf '\t')
room=$(mktemp -d)
trap 'rm -r "$room"' EXIT
mkfifo "$room/questions" "$room/answers"
"${1:-catsession}" --workers 1 < "$room/questions" > "$room/answers" &
session=$!
exec 3> "$room/questions" 4< "$room/answers"

# say FIELD..: one line of the session
say() {
  (IFS=$tab && printf '%s\n' "$*") >&3
}

# load DOMAIN LOCALE FILE: loads a PO file, publishes it, and prints the result
load() {
  say load "$1" "$2" c $(($(wc -l < "$3")))
  cat "$3" >&3
  say go
  read -r outcome <&4
  read -r version <&4
  echo "$outcome, $version"
}

# ask DOMAIN LANGUAGES CALL TEXT..: prints the version of the answer, and the answer
ask() {
  say ask 0 "$@"
  say go
  read -r _ <&4
  IFS=$tab read -r _ version text <&4
  echo "$version: $text"
}

printf 'msgid "basket"\nmsgstr "panier"\n' > "$room/fr.po"
load shop fr "$room/fr.po"
ask shop fr_CA:de gettext basket
ask shop fr_CA:de ngettext item items 3

printf 'msgid "basket"\nmsgstr "corbeille"\n' > "$room/fr.po"
load shop fr "$room/fr.po"
ask shop fr_CA:de gettext basket

# the end of its input ends the session
exec 3>&-
wait "$session"
