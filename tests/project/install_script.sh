#!/usr/bin/env bash
# Runs install.sh of the tarball over a tarball that only looks like one: whose the files are, their modes under each umask,
# what is left by `remove`, names of folders that need care, and that an installation that fails changes nothing.
no_program=1
. "$(dirname "$0")/../lib/common"

# tarball FOLDER: what a user with umask 077 has unpacked; another user than this one, if this is root
tarball() {
  mkdir -p "$1"/{bin,include,lib/kobdzila,lib/pkgconfig,tools,share/{man/man1,doc/kobdzila/reference}}
  mkdir -p "$1"/share/{bash-completion/completions,zsh/site-functions,fish/vendor_completions.d}
  for it in msgfmt catserve kob-compile; do
    printf '#!/bin/sh\necho %s\n' $it > "$1/bin/$it"
    cp docs/man/$it.1 "$1/share/man/man1"
  done
  chmod +x "$1"/bin/*
  cp include/kobdzila.h "$1/include"
  for it in libkobdzila.a libkobdzila.so.0 kobdzila/libkobdzila-intl.so pkgconfig/kobdzila.pc; do echo $it > "$1/lib/$it"; done
  ln -s libkobdzila.so.0 "$1/lib/libkobdzila.so"
  for it in msgfmt kob-compile; do
    tools/completion/write bash $it > "$1/share/bash-completion/completions/$it"
    tools/completion/write zsh $it > "$1/share/zsh/site-functions/_$it"
    tools/completion/write fish $it > "$1/share/fish/vendor_completions.d/$it.fish"
  done
  cp docs/reference/msgfmt.md "$1/share/doc/kobdzila/reference"
  cp tools/installed_page "$1/tools"
  cp packaging/install.sh VERSION "$1"
  chmod -R go= "$1"
  [ "$(id -u)" != 0 ] || chown -R nobody "$1"
}

# install WORD..: runs the script with the shell $shell; its $status, and in $said what it said
shell='sh'
install() {
  said=$(umask "${mask:-022}" && $shell "$room/tarball/install.sh" "$@" 2>&1)
  status=$?
}

# holds NAME CONDITION..: the condition holds
holds() {
  local name=$1
  shift
  if "$@"; then ok "install.sh: $name"; else failed "install.sh: $name" "status $status, '$said'; $(listed | head -n 5)"; fi
}

# listed: what is installed: modes, owners and names
listed() { find "$PREFIX" -printf '%M %U %P\n' 2> /dev/null | sort; }

# wrong: a file that has another owner or mode than wanted
wrong() {
  find "$PREFIX" ! -uid "$(id -u)" -print
  find "$PREFIX" -type d ! -perm 0755 -print
  find "$PREFIX" -type f \( -path '*/bin/*' -o -name '*.so*' \) ! -perm 0755 -print
  find "$PREFIX" -type f ! -path '*/bin/*' ! -name '*.so*' ! -perm 0644 -print
}
all_right() { [ "$status" = 0 ] && [ -x "$PREFIX/bin/msgfmt" ] && [ -L "$PREFIX/lib/libkobdzila.so" ] && [ -z "$(wrong)" ]; }
# complete NAME: there are completions of this name for each shell, and nothing is left to be put in
complete() {
  grep -qx "complete -F .* $1" "$PREFIX/share/bash-completion/completions/$1" &&
    grep -qx "#compdef $1" "$PREFIX/share/zsh/site-functions/_$1" &&
    grep -q "^complete -c $1 " "$PREFIX/share/fish/vendor_completions.d/$1.fish" && ! grep -rq '@PREFIX@' "$PREFIX/share"
}
is_gone() { [ "$status" = 0 ] && [ ! -e "$PREFIX" ]; }
is_refused() { [ "$status" != 0 ] && [[ $said == *"nothing was installed below $PREFIX"* ]]; }

tarball "$room/tarball"
export PREFIX=$room/usr PROGRAM_PREFIX=
for mask in 022 077 000; do
  install
  holds "umask $mask: all files are those of who installs it, with modes for everyone" all_right
  install
  holds "umask $mask: once more over it" all_right
  install remove
  holds "umask $mask: nothing is left" is_gone
  install remove
  holds "umask $mask: removed twice" is_gone
done
mask=077

for shell in dash bash 'busybox sh'; do
  if ! tests/lib/needs "${shell%% *}" "${shell%% *}"; then
    skipped "install.sh: $shell" 'it is not there, and could not be installed'
    continue
  fi
  PREFIX=$room/usr
  install
  holds "$shell" all_right
  install remove
  holds "$shell: nothing is left" is_gone
done
shell='sh'

for name in 'a|b' 'a b' "it's & more" 'a[b]' 'a\b'; do
  PREFIX=$room/$name/usr
  install
  holds "a folder called $name" all_right
  holds "a folder called $name: the page names it" grep -qF "${PREFIX//\\/\\e}/share/doc/kobdzila/reference" \
    <(sed 's/\\-/-/g' "$PREFIX/share/man/man1/msgfmt.1")
  install remove
  holds "a folder called $name: nothing is left" is_gone
done
PREFIX=$room/usr/
install
PREFIX=$room/usr
holds 'a slash at the end of PREFIX' all_right
holds 'a slash at the end of PREFIX: the pages name no folder with two' test -z "$(grep -rlF "$room/usr//" "$PREFIX")"
install remove
mkdir "$room/here"
PREFIX=$room/here/usr
said=$(cd "$room/here" && PREFIX=usr sh "$room/tarball/install.sh" 2>&1)
status=$?
holds 'a relative folder is one below the current one' all_right
install remove

# (as of a variable that ends with a slash)
for name in there// there//usr there/. there/./usr there/../usr; do
  PREFIX=$room/$name
  install
  holds "a folder called $name" all_right
  install remove
  holds "a folder called $name: nothing is left" test ! -e "$room/there" -a ! -e "$room/usr"
done

# (as in a folder that is mounted noexec, such as /tmp of some machines)
PREFIX=$room/usr
chmod -x "$room/tarball/tools/installed_page"
install
holds 'unpacked where no program may run' all_right
install remove
chmod +x "$room/tarball/tools/installed_page"

# what was there before stays, with its mode
PREFIX=$room/usr
mkdir -p "$PREFIX/bin"
chmod 2775 "$PREFIX/bin"
echo mine > "$PREFIX/bin/mine"
before=$(listed)
install
holds 'a folder that was there keeps its mode' test "$(stat -c %a "$PREFIX/bin")" = 2775
install remove
holds 'what was there before stays' test "$(listed)" = "$before"

# a version with a program that the next one doesn't have, and with one that gets another name
cp -R "$room/tarball" "$room/earlier"
for it in earlier kob-former; do cp "$room/earlier/bin/msgfmt" "$room/earlier/bin/$it"; done
sh "$room/earlier/install.sh" > "$room/log" 2>&1
PROGRAM_PREFIX=kob- sh "$room/earlier/install.sh" >> "$room/log" 2>&1
install
holds 'an earlier version: its own programs are gone' test ! -e "$PREFIX/bin/earlier" -a -x "$PREFIX/bin/msgfmt"
holds 'an earlier version: what another installation has stays' test -x "$PREFIX/bin/kob-earlier" -a -x "$PREFIX/bin/kob-former"
install remove
holds 'an earlier version: what another installation has stays when this one is removed' test -x "$PREFIX/bin/kob-earlier" -a -x "$PREFIX/bin/kob-former"
PROGRAM_PREFIX=kob- install remove
holds 'an earlier version: removed by the next one, nothing of it is left' test "$(listed)" = "$before"

# two installations below one folder
install
PROGRAM_PREFIX=kob- install
holds 'a prefix for the programs' test "$("$PREFIX/bin/kob-msgfmt")" = msgfmt
holds 'kob-compile keeps its name' test -x "$PREFIX/bin/kob-compile" -a -z "$(find "$PREFIX" -name '*kob-kob-compile*')"
holds 'kob-compile keeps its name: its completions' complete kob-compile
holds 'a prefix for the programs: their completions' complete kob-msgfmt
holds 'a prefix for the programs: the page has no hyphen in them' grep -qx '\.B kob\\-msgfmt' "$PREFIX/share/man/man1/kob-msgfmt.1"
holds 'two installations: the completions of the other' complete msgfmt
PROGRAM_PREFIX=kob- install remove
holds 'one is removed, and the programs of the other stay' test -x "$PREFIX/bin/msgfmt" -a ! -e "$PREFIX/bin/kob-msgfmt"
holds 'and so do the files of both' test -f "$PREFIX/lib/libkobdzila.a" -a -x "$PREFIX/bin/kob-compile"
install remove
holds 'then both are removed' test "$(listed)" = "$before"
install
PROGRAM_PREFIX=kob- install
install remove
PROGRAM_PREFIX=kob- install remove
holds 'both are removed, first the one that made the folders' test "$(listed)" = "$before"
rm -r "$PREFIX"

# a program that runs keeps its file
install
exec 8< "$PREFIX/bin/msgfmt"
old=$(stat -c %i "$PREFIX/bin/msgfmt")
install
holds 'each file is replaced by a new one' test "$(stat -c %i "$PREFIX/bin/msgfmt")" != "$old"
exec 8<&-
install remove

# failures: what can't be made is refused, and nothing is there afterwards
echo file > "$room/file"
PREFIX=$room/file/usr
install
holds 'a folder that cannot be made' is_refused
PREFIX=$room/usr
mkdir "$room/interrupting"
script interrupting/mkdir '/bin/mkdir "$@" && kill -TERM "$PPID"'
PATH=$room/interrupting:$PATH install
holds 'interrupted when it has made a folder' is_refused
holds 'interrupted, and no folder is left' test ! -e "$PREFIX"
script interrupting/mkdir 'exec /bin/mkdir "$@"'
script interrupting/mv '/bin/mv "$@" && kill -TERM "$PPID"'
PATH=$room/interrupting:$PATH install
holds 'interrupted when the first file is in its place: all of them are installed' all_right
rm "$room/interrupting/mv"
install remove
# (a file of which only a part was written, as on a full disk)
mkdir "$room/full"
script full/cp '/bin/cp "$@" && case $* in *msgfmt*) exit 1 ;; esac'
PATH=$room/full:$PATH install
holds 'a file that cannot be written to its end' is_refused
holds 'written in part, and nothing is left' test ! -e "$PREFIX"
# what a killed installation left, or a stranger put there
mkdir -p "$PREFIX/bin" "$PREFIX/lib"
echo mine > "$room/mine"
ln -s "$room/mine" "$PREFIX/bin/msgfmt.new"
ln -s none "$PREFIX/lib/libkobdzila.so.new"
install
holds 'temporary names that are taken' all_right
holds 'a link in the place of a temporary file: what it names stays' test "$(cat "$room/mine")" = mine
install remove
rm -rf "$PREFIX"
install
script interrupting/rm '/bin/rm "$@" && case $* in */folders) kill -TERM "$PPID" ;; esac'
PATH=$room/interrupting:$PATH install remove
holds 'interrupted when it has removed the list of folders: nothing is left' is_gone
mkdir "$PREFIX"
echo file > "$PREFIX/share"
before=$(listed)
install
holds 'one folder of several cannot be made' is_refused
holds 'and nothing is there afterwards' test "$(listed)" = "$before"
rm "$PREFIX/share"
mkdir -p "$PREFIX/bin/msgfmt"
before=$(listed)
install
holds 'a folder in the place of a program' is_refused
holds 'and it stays' test "$(listed)" = "$before"
if [ "$(id -u)" = 0 ]; then
  rm -r "$PREFIX"
  mkdir "$PREFIX"
  chmod 755 "$room"
  chmod -R go+rX "$room/tarball"
  said=$(setpriv --reuid=nobody --regid=65534 --clear-groups sh "$room/tarball/install.sh" 2>&1)
  status=$?
  holds 'a user without the right to write' is_refused
  PREFIX=$room/of_root
  install
  before=$(listed)
  said=$(setpriv --reuid=nobody --regid=65534 --clear-groups sh "$room/tarball/install.sh" remove 2>&1)
  status=$?
  holds 'a user without the right to remove: all of it stays' test $status = 1 -a "$(listed)" = "$before"
  install remove
  # (a system that has nothing else but busybox)
  if busybox=$(command -v busybox); then
    mkdir -p "$room/system/tools"
    { echo "$busybox" && ldd "$busybox" | grep -oE '/[^ ]+'; } | xargs realpath -s | xargs cp -L --parents -t "$room/system"
    cp -R "$room/tarball" "$room/system"
    said=$(chroot "$room/system" "$busybox" sh -c "$busybox --install -s /tools && export PATH=/tools &&
      PREFIX=/ sh /tarball/install.sh" 2>&1)
    status=$?
    PREFIX=$room/system
    holds 'below the root' test "$status" = 0 -a -x "$PREFIX/bin/msgfmt" -a -f "$PREFIX/include/kobdzila.h"
  fi
else
  skipped 'install.sh: a user without the right to write' 'only root can become another user'
fi
install twice
holds 'another word is refused' test "$status" = 2
install remove twice
holds 'a second word is refused' test "$status" = 2
PROGRAM_PREFIX=a/b install
holds 'a prefix with a slash is refused' test "$status" = 2
