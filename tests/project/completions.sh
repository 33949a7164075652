#!/usr/bin/env bash
# Asks bash, zsh and fish for completions of each program, as `make install` installs them, and of kob-fleet. What they
# offer is one and the same in all three. Then each option that a program's --help names is offered.
. "$(dirname "$0")/../lib/common"

programs='msgfmt msgfmt-or-gnu catsession kob-compile kob-msgunfmt'
share=$room/usr/share
bash_files=$share/bash-completion/completions zsh_files=$share/zsh/site-functions fish_files=$share/fish/vendor_completions.d

# named PROGRAM: how it is called where PROGRAM_PREFIX is kob-
named() { case $1 in kob-*) echo "$1" ;; *) echo "kob-$1" ;; esac; }

for it in $programs kob-fleet; do
  make -s install_completions NAME="$it" AS="$(named "$it")" DESTDIR="$room" PREFIX=/usr PROGRAM_PREFIX=kob- \
    > "$room/log" 2>&1 || failed "completions of $it" "$(tail -n 2 "$room/log")"
done

# in_bash LINE: what the last word is completed to (an option that waits for a value ends with =, which zsh adds itself)
in_bash() {
  local words line=$1
  case $line in *' ' | *=) line+="''" ;; esac
  eval "words=(${line//=/ = })"
  bash -c '. "$1" && shift && COMP_WORDS=("$@") COMP_CWORD=$(($# - 1)) && compopt() { :; } &&
    $(complete -p "$1" | sed "s/.* -F \([^ ]*\) .*/\1/") && printf "%s\n" "${COMPREPLY[@]}"' - \
    "$bash_files/${words[0]}" "${words[@]}" | sed 's/=$//'
}

in_zsh() { "$top/tests/lib/zsh_completions" "$zsh_files" "$1"; }

# (fish completes what is on the PATH; a description stands after a tab, and what the word begins with before the value)
mkdir "$room/bin"
for it in $programs kob-fleet; do script "bin/$(named "$it")" :; done
in_fish() {
  HOME=$room/home XDG_CONFIG_HOME=$room/home XDG_DATA_HOME=$room/home XDG_DATA_DIRS=$share PATH=$room/bin:$PATH LINE=$1 \
    timeout 60 fish -c 'complete -C "$LINE"' | sed -e "s/$(printf '\t').*//" -e 's/^[^=]*=//' -e 's|/$||'
}

# offers SHELL LINE ANSWER
offers() {
  local found
  found=$(cd "$room/words" && "in_$1" "$2" 2> "$room/err" | sort -u | paste -sd ' ')
  if [ "$found" = "$3" ]; then ok "$1: $2"
  else failed "$1: $2" "'$found' and not '$3'; $(head -c 200 "$room/err")"; fi
}

# options PROGRAM: those that its help names
options() {
  "bin/$1" --help 2>&1 | sed -n 's/^  *\(-[^ ].*\)/\1/p' | sed 's/  .*//' | grep -oE -- '(^|[ ,])--?[[:alnum:]][a-z-]*' |
    tr -d ' ,' | sort -u
}

top=$PWD
mkdir -p "$room/words/folder" "$room/home"
touch "$room/words/a.po" "$room/words/a.mo"
for shell in bash zsh fish; do
  if ! tests/lib/needs $shell $shell; then
    skipped "$shell, completions" "no $shell, and it could not be installed"
    continue
  fi
  files=${shell}_files
  wrong=$(for it in "${!files}"/*; do $shell -n "$it" 2>&1 || echo "$it"; done)
  if [ -z "$wrong" ]; then ok "$shell: the files are read"; else failed "$shell: the files are read" "$wrong"; fi
  while IFS=^ read -r line answer; do
    offers $shell "$line" "$answer"
  done << 'END_OF_LINES'
kob-msgfmt --st^--statistics
kob-msgfmt --check --st^--statistics
kob-msgfmt ^a.po folder
kob-msgfmt -c ^a.po folder
kob-msgfmt -o ^a.mo a.po folder
kob-msgfmt -co a^a.mo a.po
kob-msgfmt --output-file=a^a.mo a.po
kob-msgfmt-or-gnu --check-a^--check-accelerators
kob-msgfmt-or-gnu --endianness=^big little
kob-msgfmt-or-gnu --endianness l^little
kob-msgfmt-or-gnu --summary a^a.mo a.po
kob-msgfmt-or-gnu -D ^folder
kob-msgfmt-or-gnu --directory=^folder
kob-msgfmt-or-gnu ^a.po folder
kob-catsession --workers 1^1 10 11 12 13 14 15 16
kob-catsession --w^--workers
kob-compile --wat^--watch
kob-compile --ex^--exclude
kob-compile --exclude ^
kob-compile -o ^folder
kob-compile --sarif=a^a.mo a.po
kob-compile -c ^a.po folder
kob-msgunfmt --w^--width
kob-msgunfmt --output-file=a^a.mo a.po
kob-msgunfmt ^a.mo a.po folder
kob-fleet ^compact follow forget history init metrics publish remove restore rollback status wait
kob-fleet -^--database --help --version -V -d -h
kob-fleet -d host=db1 pub^publish
kob-fleet --database=db1 pub^publish
kob-fleet publish --^--force --help --id --no-check --note --token --use-fuzzy --within
kob-fleet publish shop/fr=^a.mo a.po folder
kob-fleet publish shop/fr=a.po shop/pl=a^a.mo a.po
kob-fleet -d db1 follow --cache ^folder
kob-fleet follow --cache=^folder
kob-fleet follow --s^--socket
kob-fleet wait ^
END_OF_LINES
  for it in msgfmt catsession kob-compile kob-msgunfmt; do
    if [ -x "bin/$it" ]; then
      offers $shell "$(named $it) -" "$(options $it | paste -sd ' ')"
    else
      skipped "$shell: the options of $it" 'it was not built'
    fi
  done
done
