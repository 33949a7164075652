#!/bin/sh
# Installs Kobdzila below PREFIX, which is /usr/local if it isn't given; without root: PREFIX=$HOME/.local ./install.sh
# PROGRAM_PREFIX=kob- names the programs kob-msgfmt and so on, next to GNU's; what is called kob- already keeps its name.
# `./install.sh remove` with the same variables removes the files again, and the folders that were made for them.
#
# What is installed belongs to whoever runs this, whoever unpacked the tarball. Programs and shared libraries have the mode
# 0755, other files 0644, folders 0755, under any umask. If something can't be written, nothing is installed.
set -eu
umask 022
usage='usage: [PREFIX=FOLDER] [PROGRAM_PREFIX=kob-] ./install.sh [remove]'
prefix=${PREFIX:-/usr/local} as=${PROGRAM_PREFIX:-}
case $# in 0) ;; 1) [ "$1" = remove ] || { echo "$usage" >&2; exit 2; } ;; *) echo "$usage" >&2; exit 2 ;; esac
case $as in */*) echo 'install.sh: PROGRAM_PREFIX begins a name, so it has no slash' >&2; exit 2 ;; esac
case $prefix in /*) ;; *) prefix=$PWD/$prefix ;; esac
prefix=${prefix%/}
CDPATH='' cd -- "$(dirname -- "$0")"
documents=$prefix/share/doc/${as}kobdzila
# (the folders that were made for an installation, and its files below PREFIX, one on each line)
noted=$documents/folders listed=$documents/files
# (installations with other names for the programs, and their files)
others=$(find "$prefix/share/doc" -path '*kobdzila/folders' 2> /dev/null | grep -Fxv "$noted" || true)
kept=$(printf '%s\n' "$others" | while read -r it; do
  [ ! -f "$it" ] || cat "${it%folders}files" 2> /dev/null || true
done)
files=$(find bin include lib share ! -type d | LC_ALL=C sort)

# target FILE: prints where a file of the tarball is installed
target() {
  case $1 in
    bin/kob-* | share/man/man1/kob-* | share/zsh/*/_kob-* | share/*completions*/kob-*) printf '%s\n' "$prefix/$1" ;; # (its name stays)
    share/zsh/*) printf '%s\n' "$prefix/${1%/*}/_$as${1##*/_}" ;;
    bin/* | share/man/man1/* | share/bash-completion/* | share/fish/*) printf '%s\n' "$prefix/${1%/*}/$as${1##*/}" ;;
    share/doc/*) printf '%s\n' "$prefix/share/doc/$as${1#share/doc/}" ;;
    *) printf '%s\n' "$prefix/$1" ;;
  esac
}

# mode FILE: prints the mode that it is installed with
mode() {
  case $1 in bin/* | *.so | *.so.*) echo 755 ;; *) echo 644 ;; esac
}

# folder PATH: makes a folder with those above it, and adds each that it made to $made
folder() {
  [ ! -d "${1:-/}" ] || return 0
  folder "${1%/*}" || return
  # (a name may lead to it twice, as a//b does)
  [ ! -d "$1" ] || return 0
  # (noted first, since a signal may come as soon as it is made)
  made="$1
$made"
  mkdir "$1"
}

# write FILE NEW: writes a file of the tarball as it is installed
write() {
  rm -f "$2"
  case $1 in
    */man/*) sh tools/installed_page "$prefix" "$as" "${as}kobdzila" "$1" > "$2" ;;
    */completions/* | */site-functions/* | */vendor_completions.d/*) sed "s|@PREFIX@|$as|g" "$1" > "$2" ;;
    *) cp -P "$1" "$2" ;;
  esac || return
  [ -h "$2" ] || chmod "$(mode "$1")" "$2"
}

# each WORD..: runs the words with each file of the tarball, and where it is installed, as two more
each() {
  while read -r file; do
    "$@" "$file" "$(target "$file")" || return
  done << END
$files
END
}

prepare() {
  [ ! -d "$2" ] || { printf '%s\n' "install.sh: $2 is a folder" >&2; return 1; }
  folder "${2%/*}" && write "$1" "$2.new"
}
put() { mv -f "$2.new" "$2"; }
drop_new() { rm -f "$2.new"; }
name() { printf '%s\n' "${2#"$prefix/"}"; }

# drop: removes the files that standard input names, unless another installation below PREFIX has them as well
drop() {
  while read -r it; do
    case "
$kept
" in
      *"
$it
"*) ;;
      *) [ -z "$it" ] || rm -f "$prefix/$it" || return ;;
    esac
  done
}

# hand_over: lists the folders that were made with those of another installation below PREFIX, which may lie in them
hand_over() {
  [ -z "$others" ] || printf '%s\n' "$made" >> "${others%%
*}"
}

# empty_folders LIST: removes those that are empty, and says nothing of the others
empty_folders() {
  printf '%s\n' "$1" | LC_ALL=C sort -r | while read -r it; do
    [ -z "$it" ] || rmdir "$it" 2> /dev/null || true
  done
}

if [ $# = 1 ]; then
  made=$(cat "$noted" 2> /dev/null || true) status=0
  # (once the list of folders is gone, they have to be as well)
  if ! { { each name && cat "$listed" 2> /dev/null; } | drop &&
         trap '' HUP INT TERM && rm -f "$listed" && hand_over && rm -f "$noted"; }; then
    status=1
    printf '%s\n' "install.sh: not all of it was removed below $prefix" >&2
  fi
  empty_folders "$made
$prefix/lib/kobdzila
$documents/reference
$documents"
  exit "$status"
fi

made=
failed() {
  each drop_new 2> /dev/null || true
  empty_folders "$made"
  printf '%s\n' "install.sh: nothing was installed below $prefix" >&2
  exit 1
}
trap failed HUP INT TERM
each prepare || failed
trap '' HUP INT TERM
each put
# (an earlier version may have had files that this one hasn't)
now=$(each name)
[ ! -f "$listed" ] || grep -Fxv "$now" "$listed" | drop
printf '%s\n' "$now" > "$listed"
chmod 644 "$listed"
if [ ! -f "$noted" ]; then before=; else before=$(cat "$noted"); fi
printf '%s\n' "$before" "$made" | grep . > "$noted" || true
chmod 644 "$noted"
