#!/usr/bin/env bash
# Builds small projects of CMake, Meson, the GNU build system, git's makefiles and Django through bin/msgfmt-or-gnu.
# Each has a French catalogue, which Kobdzila's msgfmt compiles, and a German one in EUC-TW, which is GNU's. And
# `make distcheck` with a link to the driver before GNU msgfmt on the PATH.
. "$(dirname "$0")/../lib/common"
NAME=or_gnu_builds
. tests/driver/begin
. tests/lib/projects

unset GNU_MSGFMT
notes_calls "$driver"

# german: a German PO file next to the French one, in another charset
german() {
  sed -e 's/^"Language: fr/"Language: de/' -e 's/UTF-8/EUC-TW/' -e 's/^msgstr "salut"/msgstr "gr\xc4\xe3e"/' \
    -e 's/^msgstr "Salut"/msgstr "Gr\xc4\xe3e"/' po/fr.po > po/de.po
}

# hash_size MO: the size of its hash table, which GNU msgfmt's file has, and ours not
hash_size() { head -c 24 "$1" | tail -c 4 | hex; }

# built NAME FR DE: both MO files are there, the French one of ours and the German one of GNU's, and so says the log
built() {
  local name=$1 fr=$2 de=$3
  if [ ! -f "$fr" ] || [ ! -f "$de" ]; then
    failed "$name" "no MO files; the build said '$(tail -c 400 log)'"
  elif [ "$(hash_size "$fr")" != 00000000 ] || [ "$(hash_size "$de")" = 00000000 ]; then
    failed "$name" 'one of the two is of the other program'
  elif ! grep -q '^ours.0.-.*fr.*po$' "$MSGFMT_OR_GNU_LOG" ||
    ! grep -q '^GNU.0.charset=EUC-TW.*de.*po$' "$MSGFMT_OR_GNU_LOG"; then
    failed "$name" "the log has '$(cat "$MSGFMT_OR_GNU_LOG")'"
  else
    ok "$name: $(grep -c ^ours "$MSGFMT_OR_GNU_LOG") ours, $(grep -c ^GNU "$MSGFMT_OR_GNU_LOG") GNU's"
  fi
}

# begin NAME: a project with both languages, and an empty log
begin() {
  cd "$top" && project "$1" && german
  : > "$MSGFMT_OR_GNU_LOG"
}

if has_cmake; then
  begin cmake
  cmake -S . -B build -DLANGUAGES='fr;de' -DGETTEXT_MSGFMT_EXECUTABLE="$driver" > log 2>&1 &&
    cmake --build build >> log 2>&1
  built 'driver, CMake' build/fr.gmo build/de.gmo
else
  skipped 'driver, CMake' 'it is not here, and could not be installed'
fi
cd "$top" || exit 1

if has_meson; then
  begin meson
  echo de >> po/LINGUAS
  PATH=$room/bin:$PATH
  meson setup build > log 2>&1 && meson compile -C build >> log 2>&1
  built 'driver, Meson' build/po/fr/LC_MESSAGES/hello.mo build/po/de/LC_MESSAGES/hello.mo
  name='driver, Meson: its version is asked, and a desktop entry merged'
  if ! grep -qx -e --version "$room/called"; then failed "$name" 'it was not asked for its version'
  elif ! grep -qx 'Name\[fr\]=Salut' build/hello.desktop || ! grep -qx 'Name\[de\]=Gr中e' build/hello.desktop; then
    failed "$name" "$(cat build/hello.desktop log | tail -c 400)"
  else ok "$name"; fi
  PATH=${PATH#*:}
else
  skipped 'driver, Meson' 'it is not here, and could not be installed'
fi
cd "$top" || exit 1

if has_autotools; then
  begin gnu
  gnu_files fr de && sed -i '/^USE_MSGCTXT/s/no/yes/' po/Makevars &&
    ./configure MSGFMT="$driver" GMSGFMT="$driver" > log 2>&1 && make -C po fr.gmo de.gmo >> log 2>&1
  built 'driver, configure' po/fr.gmo po/de.gmo
  # found on the PATH, where configure tries each msgfmt
  rm -f po/*.gmo "$room/called"
  PATH=$room/bin:$PATH ./configure > log 2>&1 && PATH=$room/bin:$PATH make -C po fr.gmo de.gmo >> log 2>&1
  built 'driver, configure by the PATH' po/fr.gmo po/de.gmo
  if grep -qx "GMSGFMT_yes = $room/bin/msgfmt" po/Makefile && grep -qx -e '--statistics /dev/null' "$room/called"; then
    ok 'driver, configure has tried it'
  else
    failed 'driver, configure has tried it' "$(grep MSGFMT po/Makefile | head -n 3)"
  fi
else
  skipped 'driver, configure' 'autoconf, automake or autopoint is not here, and could not be installed'
fi
cd "$top" || exit 1

# the test and the rule of git's makefiles
begin git
cat > Makefile << 'END'
MSGFMT ?= msgfmt
ifneq ($(shell $(MSGFMT) --tcl -l C -d . /dev/null 2>/dev/null; echo $$?),0)
  MSGFMT := false
endif
MSGFMT += --check --statistics
all: build/fr.mo build/de.mo
build/%.mo: po/%.po
	mkdir -p $(dir $@) && $(MSGFMT) -o $@ $<
END
if "$top/tests/lib/needs" make make; then
  PATH=$room/bin:$PATH make > log 2>&1
  built "driver, git's makefiles" build/fr.mo build/de.mo
else
  skipped "driver, git's makefiles" 'no make'
fi
cd "$top" || exit 1

if tests/lib/needs django-admin python3-django; then
  begin django
  for it in fr de; do mkdir -p locale/$it/LC_MESSAGES && mv po/$it.po locale/$it/LC_MESSAGES/django.po; done
  PATH=$room/bin:$PATH django-admin compilemessages > log 2>&1
  name="driver, Django's compilemessages"
  built "$name" locale/fr/LC_MESSAGES/django.mo locale/de/LC_MESSAGES/django.mo
else
  skipped "driver, Django's compilemessages" 'no Django, and it could not be installed'
fi
cd "$top" || exit 1

# a link to the driver in front of GNU msgfmt: configure tries `msgfmt --statistics /dev/null`, which must leave no file
if has_autotools; then
  begin distcheck
  mkdir "$room/links" && ln -s "$driver" "$room/links/msgfmt"
  gnu_files fr de
  PATH=$room/links:$PATH
  if ./configure > log 2>&1 && make distcheck >> log 2>&1 && [ -f hello-1.tar.gz ] && [ ! -e messages.mo ]; then
    ok "driver, make distcheck: $(grep -c ^ours "$MSGFMT_OR_GNU_LOG") ours, $(grep -c ^GNU "$MSGFMT_OR_GNU_LOG") GNU's"
  else
    failed 'driver, make distcheck' "$(tail -n 5 log | tr '\n' ' ')"
  fi
else
  skipped 'driver, make distcheck' 'autoconf, automake or autopoint is not here, and could not be installed'
fi
