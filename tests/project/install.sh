#!/usr/bin/env bash
# Installs into a folder, under names with a prefix and without, as a packager does; runs what was installed, reads the
# man pages, completes words, looks at the libraries, and uninstalls. Then the example of a script is run.
. "$(dirname "$0")/../lib/common"

catserve=${CATSERVE:-$PWD/bin/catserve}
for it in "$catserve" bin/catsession; do
  if [ ! -x "$it" ]; then
    failed install "there is no $it: make builds it"
    exit 0
  fi
done

# made PREFIX WORD..: runs make with these words, of an installation of programs with this prefix
made() {
  local prefix=$1
  shift
  make -s "$@" PREFIX="$room/usr" DESTDIR="$room/image" PROGRAM_PREFIX="$prefix" > "$room/log" 2>&1
}


# (what is in C is installed where it was built)
driver='' compiler='' writer=''
[ ! -x bin/msgfmt-or-gnu ] || driver=msgfmt-or-gnu
[ ! -x bin/kob-compile ] || compiler=kob-compile
[ ! -x bin/kob-msgunfmt ] || writer=kob-msgunfmt

# pages NAME PREFIX: each program has its page, without a warning, and the documents that they name are there
pages() {
  local at=$room/image$room/usr/share/man/man1 page wrong='' document
  for page in $2msgfmt $2catserve $2catsession ${driver:+$2$driver} $compiler $writer; do
    [ -s "$at/$page.1" ] || wrong+="no page of $page; "
  done
  if tests/lib/needs mandoc mandoc; then
    wrong+=$(mandoc -T lint "$at"/*.1 2>&1 | head -n 2)
  else
    skipped "$1, lint" 'no mandoc'
  fi
  if command -v groff > /dev/null; then
    for page in "$at"/*.1; do wrong+=$(groff -t -man -ww -T utf8 -z "$page" 2>&1 | head -n 2); done
  else
    skipped "$1, groff" 'no groff'
  fi
  for page in $2msgfmt $2catserve $2catsession ${driver:+$2$driver} $compiler $writer; do
    document=$(sed 's/\\-/-/g' "$at/$page.1" | grep -o "$room/usr/share/doc/[^ ]*\.md" | head -n 1)
    [ -n "$document" ] && [ -s "$room/image$document" ] || wrong+="$page(1) names '$document', which isn't there; "
  done
  if [ -z "$wrong" ]; then ok "$1"; else failed "$1" "$wrong"; fi
}

# prefixed NAME PREFIX: the pages name no program without the prefix (but GNU's, and what a program prints of itself)
prefixed() {
  local found
  found=$(for page in "$room/image$room/usr/share/man/man1/$2"*.1; do
    sed -e 's/\\f[A-Z]//g' -e 's/\\-/-/g' "$page" |
      grep -nE "(^|[^-[:alnum:]])(catserve|catsession|msgfmt-or-gnu)([^-[:alnum:]:]|\$)|/bin/msgfmt|^\.BR? \"?msgfmt( |\$)" |
      grep -vE '"msgfmt --no-hash"|This is'
  done)
  if [ -z "$found" ]; then ok "$1"; else failed "$1" "$found"; fi
}

# completions NAME PREFIX: each program has those of all shells (tests/project/completions.sh asks for some)
completions() {
  local at=$room/image$room/usr/share it wrong=''
  for it in $2msgfmt $2catsession ${driver:+$2$driver} $compiler $writer; do
    grep -q "^complete .* $it\$" "$at/bash-completion/completions/$it" || wrong+="$it for bash; "
    grep -qx "#compdef $it" "$at/zsh/site-functions/_$it" || wrong+="$it for zsh; "
    grep -q "^complete -c $it " "$at/fish/vendor_completions.d/$it.fish" || wrong+="$it for fish; "
  done
  if [ -z "$wrong" ]; then ok "$1"; else failed "$1" "no completions of $wrong"; fi
}

# completed PROGRAM WORD..: what bash completes the last of these words to, in the order of the alphabet, after how they are
# taken (filenames: quoted as names of files; nospace: with nothing after them)
completed() {
  bash -c '. "$1" && shift && name=$1 && COMP_WORDS=("$@") COMP_CWORD=$(($# - 1)) && compopt() { printf "%s: " "$2"; } &&
    $(complete -p "$name" | sed "s/.* -F \([^ ]*\) .*/\1/") && printf "%s\n" "${COMPREPLY[@]}" | sort | paste -sd " "' - \
    "$room/image$room/usr/share/bash-completion/completions/$1" "$1" "${@:2}" 2>&1
}

# completes NAME ANSWER PROGRAM WORD..
completes() {
  local answer
  answer=$(cd "$room/words" && completed "${@:3}")
  if [ "$answer" = "$2" ]; then ok "$1"; else failed "$1" "'$answer' and not '$2'"; fi
}

# manual NAME: each function of the header has a page, or leads to that of its group
manual() {
  local at=$room/image$room/usr/share/man/man3 it page wrong=''
  for it in $(sed 's/kob_[a-z_]*(3)//g' include/kobdzila.h | grep -oE '\bkob_[a-z_]+\(' | tr -d '(' | sort -u); do
    page=$at/$it.3
    grep -q '^\.so ' "$page" && page=$room/image$room/usr/share/man/$(sed -n 's/^\.so //p' "$page")
    sed -n '/^\.SH SYNOPSIS/,/^\.SH DESCRIPTION/p' "$page" | grep -q "[ *]$it(" || wrong+="$it "
  done
  if [ -z "$wrong" ]; then ok "$1"; else failed "$1" "no page for $wrong"; fi
}

# libraries NAME LIBDIR: they are there, without symbols that a linker doesn't need; the preloaded one lies apart
libraries() {
  local at=$room/image$2 wrong='' it
  for it in libkobdzila.a libkobdzila.so.0 libkobdzila.so pkgconfig/kobdzila.pc kobdzila/libkobdzila-intl.so; do
    [ -s "$at/$it" ] || wrong+="no $it; "
  done
  [ ! -e "$at/libkobdzila-intl.so" ] || wrong+='libkobdzila-intl.so among the public ones; '
  sed "s|\${prefix}|$(sed -n 's/^prefix=//p' "$at/pkgconfig/kobdzila.pc")|" "$at/pkgconfig/kobdzila.pc" |
    grep -qx "libdir=$2" || wrong+='kobdzila.pc names another folder; '
  if command -v readelf > /dev/null && command -v strip > /dev/null; then
    for it in libkobdzila.so.0 kobdzila/libkobdzila-intl.so; do
      readelf -d "$at/$it" | grep -q "soname: \[${it##*/}\]" || wrong+="$it has another soname; "
      ! readelf -S "$at/$it" | grep -q '\.symtab\|\.debug' || wrong+="$it isn't stripped; "
    done
  else
    skipped "$1, stripped" 'no binutils'
  fi
  if [ -z "$wrong" ]; then ok "$1"; else failed "$1" "$wrong"; fi
}

options='--check --help --no-hash --output-file= --statistics --use-fuzzy --verbose -c -f -h -o -v'

# installed PREFIX: everything about an installation with this prefix
installed() {
  local as="install ${1:-without a prefix}" bin=$room/image$room/usr/bin unstripped left
  if ! made "$1" install; then
    failed "$as" "$(tail -n 2 "$room/log")"
    return
  fi
  if "$bin/$1msgfmt" -o - - < crates/msgfmt/stdin | cmp -s - crates/msgfmt/stdout &&
    [ "$(echo go | "$bin/$1catserve")" = "$(printf 'version\t0')" ] &&
    [ "$(echo go | "$bin/$1catsession")" = "$(printf 'version\t0')" ]; then
    ok "$as: the programs run"
  else
    failed "$as: the programs run" 'they answer otherwise'
  fi
  if [ -z "$driver" ]; then
    skipped "$as: msgfmt-or-gnu" 'it was not built'
  elif "$bin/$1msgfmt-or-gnu" -o - - < crates/msgfmt/stdin 2> "$room/err" | cmp -s - crates/msgfmt/stdout; then
    ok "$as: msgfmt-or-gnu runs"
  else
    failed "$as: msgfmt-or-gnu runs" "$(cat "$room/err")"
  fi
  if [ -z "$compiler" ]; then
    skipped "$as: kob-compile" 'it was not built'
  elif "$bin/kob-compile" -q --no-gnu --force "$room/project" 2> "$room/err" &&
    cmp -s "$room/project/po/fr.mo" crates/msgfmt/stdout; then
    ok "$as: kob-compile runs"
  else
    failed "$as: kob-compile runs" "$(cat "$room/err")"
  fi
  if [ -z "$writer" ]; then
    skipped "$as: kob-msgunfmt" 'it was not built'
  elif "$bin/kob-msgunfmt" crates/msgfmt/stdout 2> "$room/err" | "$bin/$1msgfmt" -o - - | cmp -s - crates/msgfmt/stdout; then
    ok "$as: kob-msgunfmt runs"
  else
    failed "$as: kob-msgunfmt runs" "$(cat "$room/err")"
  fi
  unstripped=build/static/msgfmt
  [ -x $unstripped ] || unstripped=$program
  if ! command -v strip > /dev/null || [ "$(wc -c < "$bin/$1msgfmt")" -le "$(wc -c < "$unstripped")" ]; then
    ok "$as: stripped"
  else
    failed "$as: stripped" 'it is larger than before'
  fi
  pages "$as: man pages" "$1"
  [ -z "$1" ] || prefixed "$as: the programs' names in man pages" "$1"
  completions "$as: completions for bash, zsh and fish" "$1"
  completes "$as: an option" '--statistics' "$1msgfmt" --st
  completes "$as: options" "$options" "$1msgfmt" -
  completes "$as: PO files and folders" 'filenames: a.po folder' "$1msgfmt" ''
  completes "$as: any FILE" 'filenames: a.mo a.po' "$1msgfmt" -co a
  completes "$as: an option that waits for its value" 'nospace: --output-file=' "$1msgfmt" --ou
  if [ -n "$driver" ]; then
    completes "$as: an option of GNU msgfmt" '--check-accelerators' "$1msgfmt-or-gnu" --check-a
    completes "$as: an option of GNU msgfmt with a value" 'nospace: --endianness=' "$1msgfmt-or-gnu" --en
    completes "$as: the value of one" 'little' "$1msgfmt-or-gnu" --endianness = l
    completes "$as: a folder" 'filenames: folder' "$1msgfmt-or-gnu" -D ''
  fi
  if [ -n "$compiler" ]; then
    completes "$as: an option of kob-compile" '--statistics' kob-compile --st
    completes "$as: an option of kob-compile with a value" 'nospace: --exclude=' kob-compile --ex
    completes "$as: a folder for kob-compile" 'filenames: folder' kob-compile -o ''
    completes "$as: PO files and folders for kob-compile" 'filenames: a.po folder' kob-compile -c ''
  fi
  completes "$as: the options of a session" '--help --version --workers -V -h' "$1catsession" ''
  completes "$as: a number of workers" '1 10 11 12 13 14 15 16' "$1catsession" --workers 1
  if [ -f build/lib/libkobdzila.so.0 ]; then
    libraries "$as: libraries" "$room/usr/lib"
    manual "$as: a manual page for each function of the library"
  else
    skipped "$as: libraries" 'they were not built'
  fi
  made "$1" uninstall
  left=$(find "$room/image" -type f)
  if [ -z "$left" ]; then ok "$as: nothing is left by uninstall"
  else failed "$as: nothing is left by uninstall" "$left"; fi
}

mkdir -p "$room/words/folder" "$room/project/po"
cp crates/msgfmt/stdin "$room/project/po/fr.po"
touch "$room/words/a.po" "$room/words/a.mo"
if tests/lib/needs make make; then
  installed ''
  installed kob-
  made '' install && made kob- install && made kob- uninstall
  if [ -f build/lib/libkobdzila.so.0 ]; then
    for it in LIBDIR=/usr/lib/x86_64-linux-gnu libdir=/usr/lib64; do
      made '' install_library "$it" && libraries "install, $it" "${it#*=}" && made '' uninstall_library "$it"
      left=$(find "$room/image/usr" -type f)
      if [ -z "$left" ]; then ok "install, $it: nothing is left by uninstall"
      else failed "install, $it: nothing is left by uninstall" "$left"; fi
    done
    # a prefix with blanks is one word for whoever asks pkg-config, and other characters are put in as they are
    for it in 'a folder' 'R&D' 'a|b' 'a[b'; do
      name="install, a prefix called $it"
      if ! tests/lib/needs pkg-config pkgconf; then
        skipped "$name" 'no pkg-config'
      elif make -s install_library PREFIX="$room/$it" DESTDIR= > "$room/log" 2>&1 &&
        PKG_CONFIG_PATH="$room/$it/lib/pkgconfig" pkg-config --cflags --libs kobdzila > "$room/out" 2> "$room/log" &&
        eval "set -- $(cat "$room/out")" && [ "$1 and $2" = "-I$room/$it/include and -L$room/$it/lib" ]; then
        ok "$name"
      else
        failed "$name" "$(cat "$room/log" "$room/out")"
      fi
    done
  else
    skipped 'install, LIBDIR and a prefix of other characters' 'the libraries were not built'
  fi
  if [ -x "$room/image$room/usr/bin/msgfmt" ] && [ -s "$room/image$room/usr/share/doc/kobdzila/reference/msgfmt.md" ]; then
    ok 'install: uninstalling one leaves what the other has alone'
  else
    failed 'install: uninstalling one leaves what the other has alone' "$(find "$room/image" -type f)"
  fi
else
  skipped install 'no make, and it could not be installed'
fi

if "$catserve" < examples/shop.script > "$room/out" 2> "$room/err" && cmp -s "$room/out" examples/shop.answers; then
  ok 'the example of a script'
else
  failed 'the example of a script' "$(cat "$room/err"; diff "$room/out" examples/shop.answers | head -n 3)"
fi
