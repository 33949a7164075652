#!/usr/bin/env bash
# Builds three small projects with bin/msgfmt instead of GNU msgfmt, as docs/guide/build-systems.md says: one of CMake (FindGettext), one
# of Meson (i18n.gettext) and one of the GNU build system (po/Makefile.in.in). Each must call it, and make the MO file
# that it makes by itself. A build system that is not here, and can't be installed, is skipped.
. "$(dirname "$0")/../lib/common"
. tests/lib/projects

if ! tests/lib/needs tools/gnu-msgfmt gettext; then
  # (each of the three asks for xgettext and msgmerge too)
  skipped builds 'no GNU gettext, and it could not be installed'
  exit 0
fi

notes_calls "$program"

# built NAME LOG MO: judges a build that ended well: msgfmt was called, and made the file MO of po/fr.po
built() {
  local calls
  calls=$(grep -v -e '/dev/null$' -e '--version' "$room/called" 2> /dev/null | head -n 1)
  if [ -z "$calls" ]; then
    failed "$1" "msgfmt was not called to compile; the build said '$(tail -c 300 "$2")'"
  elif [ ! -f "$3" ]; then
    failed "$1" "there is no $3 after 'msgfmt $calls'; the build said '$(tail -c 300 "$2")'"
  elif ! "$program" -o - po/fr.po | cmp -s - "$3"; then
    failed "$1" "another MO file than that of po/fr.po, by 'msgfmt $calls'"
  else
    ok "$1, by 'msgfmt $calls'"
  fi
}

top=$PWD

# --- CMake --------------------------------------------------------------------------------------------------------

cmake_project() {
  project cmake
  if cmake -S . -B build -DGETTEXT_MSGFMT_EXECUTABLE="$room/bin/msgfmt" > log 2>&1 &&
    cmake --build build >> log 2>&1; then
    built CMake log build/fr.gmo
  else
    failed CMake "the build ended so: '$(tail -c 400 log)'"
  fi
}
if has_cmake; then
  cmake_project
else
  skipped CMake 'it is not here, and could not be installed'
fi
cd "$top" || exit 1

# --- Meson --------------------------------------------------------------------------------------------------------

meson_project() {
  project meson
  printf "[binaries]\nmsgfmt = '%s'\n" "$room/bin/msgfmt" > ours.ini
  if meson setup build -Ddesktop=false --native-file ours.ini > log 2>&1 && meson compile -C build >> log 2>&1 &&
    { [ -s "$room/called" ] || meson compile -C build hello-gmo >> log 2>&1; }; then
    built Meson log "$(find build -name '*.mo' -o -name '*.gmo' | head -n 1)"
  else
    failed Meson "the build ended so: '$(tail -c 400 log)'"
  fi
}
if has_meson; then
  meson_project
else
  skipped Meson 'it is not here, and could not be installed'
fi
cd "$top" || exit 1

# --- the GNU build system -----------------------------------------------------------------------------------------

gnu_project() {
  project gnu
  if ! gnu_files fr; then
    failed "$1" "autoreconf ended so: '$(tail -c 400 log)'"
  elif ! ./configure MSGFMT="$room/bin/msgfmt" GMSGFMT="$room/bin/msgfmt" > log 2>&1 ||
    ! make -C po fr.gmo > log 2>&1; then
    failed "$1" "the build ended so: '$(tail -c 400 log)'"
  else
    # (msgmerge has put its own fields and comments into the text that was compiled)
    calls=$(grep -e '-o t-fr.gmo' "$room/called" | head -n 1)
    if [ -z "$calls" ]; then
      failed "$1" "msgfmt was not called to compile: '$(tail -c 400 log)'"
    elif [ "$(head -c 8 po/fr.gmo | hex)" != de12049500000000 ] || ! grep -q '%d fichiers' po/fr.gmo; then
      failed "$1" "po/fr.gmo is not that of po/fr.po, by 'msgfmt $calls'"
    else
      ok "$1, by 'msgfmt $calls'"
    fi
    # and if configure found GNU msgfmt, and make gets the setting
    rm -f po/fr.gmo "$room/called"
    sed -i '/^USE_MSGCTXT/d' po/Makevars
    if ! ./configure > log 2>&1 || ! make -C po fr.gmo GMSGFMT="$room/bin/msgfmt" > log 2>&1; then
      failed "$1, by make's variable" "the build ended so: '$(tail -c 400 log)'"
    elif grep -q -e '-o t-fr.gmo' "$room/called" && grep -q '%d fichiers' po/fr.gmo; then
      ok "$1, by make's variable"
    else
      failed "$1, by make's variable" "po/fr.gmo is not made by it: '$(tail -c 400 log)'"
    fi
  fi
}
name='the GNU build system'
if has_autotools; then
  gnu_project "$name"
else
  skipped "$name" 'autoconf, automake or autopoint is not here, and could not be installed'
fi
