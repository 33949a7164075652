#!/usr/bin/env bash
# Compiles the PO files of real packages by bin/msgfmt and by GNU msgfmt, with -c and without, and sorts each difference
# by its reason; a difference without a known reason (tests/msgfmt/packages/reasons) is a failure. Then the catalogues
# of seven packages are built through bin/msgfmt-or-gnu, to the end, with each one's setting
# (docs/guide/build-systems.md).
#
#   tests/msgfmt/packages.sh           the packages of tests/msgfmt/packages/list, which apt-get fetches once into
#                                      build/packages
#   tests/msgfmt/packages.sh FOLDER    the PO files below FOLDER, and no builds
#
# The summary is written to build/packages/summary.md; docs/reference/gnu-differences.md has one.
. "$(dirname "$0")/../lib/common"
. tests/lib/projects
. tests/lib/sources

if ! tests/lib/needs tools/gnu-msgfmt gettext; then
  skipped packages 'no GNU gettext, and it could not be installed'
  exit 0
fi

# compares FOLDER
compares() {
  python3 -B tests/msgfmt/packages/compare.py "$program" "$(tools/gnu-msgfmt)" "$1" tests/msgfmt/packages/reasons "$store/summary.md"
  cat "$store/summary.md"
}

if [ $# != 0 ]; then
  compares "$1"
  exit 0
fi

read -r -d '' -a packages < <(grep -v '^#' tests/msgfmt/packages/list)
# (Django's many catalogues are built below, and not compared)
lacking=()
for it in "${packages[@]}" python-django; do [ -n "$(archive "$it")" ] || lacking+=("$it"); done
if [ ${#lacking[@]} != 0 ]; then
  fetches "${lacking[@]}" > "$room/fetched" 2>&1
  for it in "${lacking[@]}"; do
    [ -n "$(archive "$it")" ] || skipped "package $it" "it can't be fetched: $(tail -n 1 "$room/fetched" | head -c 200)"
  done
fi
for it in "${packages[@]}"; do
  if [ -n "$(archive "$it")" ]; then
    mkdir -p "$room/po/$it" && tar xf "$(archive "$it")" -C "$room/po/$it" --wildcards '*.po'
  fi
done
if [ -d "$room/po" ]; then compares "$room/po"; else skipped packages 'no package is here'; fi

# --- the catalogues of packages, built through the driver -----------------------------------------------------------

driver=$PWD/bin/msgfmt-or-gnu
top=$PWD
# (what an emulator runs of a build is the driver alone: the packages are configured for this machine)
[ -z "${EMULATED:-}" ] || PATH=${PATH#"$PWD/build/aarch64/tools:"}
if [ ! -x "$driver" ]; then
  skipped 'packages, builds' 'there is no bin/msgfmt-or-gnu: tools/build_driver builds it if there is a C compiler'
  exit 0
fi
export KOBDZILA_MSGFMT=$program

# opens PACKAGE: its source in the folder $room/PACKAGE, without MO files, and goes there
opens() {
  mkdir "$room/$1" && tar xf "$(archive "$1")" -C "$room/$1" --strip-components 1 && cd "$room/$1" || return 1
  find . \( -name '*.mo' -o -name '*.gmo' \) -delete
  export MSGFMT_OR_GNU_LOG=$room/$1.log
  : > "$MSGFMT_OR_GNU_LOG"
}

# made: how many MO files there are
made() { find . \( -name '*.mo' -o -name '*.gmo' \) | wc -l; }

# whole NAME MADE LANGUAGES: MADE catalogues were made, one for each language, and each run ended with 0
whole() {
  local ours gnu
  ours=$(grep '^ours.0' "$MSGFMT_OR_GNU_LOG" | cut -f 5 | sort -u | grep -c '\.g\?po$')
  gnu=$(grep '^GNU.0' "$MSGFMT_OR_GNU_LOG" | cut -f 5 | sort -u | grep -c '\.g\?po$')
  if [ "$2" = "$3" ] && [ $((ours + gnu)) = "$3" ] && [ "$3" != 0 ] &&
    ! cut -f 2 "$MSGFMT_OR_GNU_LOG" | grep -qv '^0$'; then
    ok "$1: all $3 catalogues, $ours ours and $gnu GNU's"
  else
    failed "$1" "$2 of $3 catalogues, $ours ours and $gnu GNU's; the build said '$(tail -c 400 log)'"
  fi
}

# build PACKAGE HOW: runs PACKAGE_build where its source is here
build() {
  name="$1, $2 through the driver"
  if [ -n "$(archive "$1")" ]; then
    opens "$1" && "${1//-/_}_build" "$name"
    cd "$top" || exit 1
  else
    skipped "$name" 'the package is not here'
  fi
}

psmisc_build() {
  # (the template is new, so that nothing else is made)
  ./configure MSGFMT="$driver" GMSGFMT="$driver" > log 2>&1 && rm -f po/stamp-po && touch po/*.pot &&
    : > "$MSGFMT_OR_GNU_LOG" && make -C po >> log 2>&1
  whole "$1" "$(made)" "$(sed 's/#.*//' po/LINGUAS | wc -w)"
}

# its po/ and data/, without the program, which needs a desktop's libraries
gnome_calculator_build() {
  cat > meson.build << 'END'
project('gnome-calculator')
i18n = import('i18n')
find_program('msgfmt', version: '>=0.19.8')
subdir('po')
foreach it : [['desktop', 'desktop'], ['appdata.xml', 'xml']]
  i18n.merge_file(
    input: 'data/org.gnome.Calculator.@0@.in'.format(it[0]),
    output: 'org.gnome.Calculator.@0@'.format(it[0]),
    type: it[1],
    po_dir: 'po',
    install: true,
    install_dir: 'share',
  )
endforeach
END
  rm -f meson_options.txt
  printf "[binaries]\nmsgfmt = '%s'\n" "$driver" > driver.ini
  meson setup --native-file driver.ini build > log 2>&1 && meson compile -C build >> log 2>&1
  whole "$1" "$(made)" "$(sed 's/#.*//' po/LINGUAS | wc -w)"
  if grep -q '^Name\[fr\]=' build/*.desktop && grep -q 'xml:lang="fr"' build/*.xml; then ok "$1, merge_file"
  else failed "$1, merge_file" "$(tail -c 400 log)"; fi
}

# its po/, whose rule is `msgfmt -v -c`: each file's statistics are in the build's output
darktable_build() {
  cat > CMakeLists.txt << 'END'
cmake_minimum_required(VERSION 3.10)
project(darktable NONE)
find_package(Gettext REQUIRED)
set(DARKTABLE_LOCALEDIR ${CMAKE_BINARY_DIR}/locale)
set(CMAKE_INSTALL_LOCALEDIR share/locale)
add_subdirectory(po)
END
  local languages
  languages=$(find po -name '*.po' | wc -l)
  cmake -S . -B build -DGETTEXT_MSGFMT_EXECUTABLE="$driver" > log 2>&1 && cmake --build build >> log 2>&1
  whole "$1" "$(made)" "$languages"
  if [ "$(grep -c '^[0-9]* translated message' log)" = "$languages" ]; then ok "$1, statistics"
  else failed "$1, statistics" "$(tail -c 400 log)"; fi
}

# its po/, which looks for MSGFMT_EXECUTABLE
weechat_build() {
  cat > CMakeLists.txt << 'END'
cmake_minimum_required(VERSION 3.10)
project(weechat NONE)
set(VERSION 3.8)
set(LOCALEDIR share/locale)
add_subdirectory(po)
END
  cmake -S . -B build -DMSGFMT_EXECUTABLE="$driver" > log 2>&1 && cmake --build build >> log 2>&1
  whole "$1" "$(made)" "$(find po -name '*.po' | wc -l)"
}

git_build() {
  local files
  read -r -d '' -a files < <(find po -name '*.po' -printf '%f\n' | sed 's|\(.*\)\.po|po/build/locale/\1/LC_MESSAGES/git.mo|')
  make MSGFMT="$driver" "${files[@]}" > log 2>&1
  whole "$1" "$(made)" "${#files[@]}"
}

sudo_build() {
  ./configure > log 2>&1 && make compile-po MSGFMT="$driver" >> log 2>&1
  whole "$1" "$(made)" "$(find . -name '*.po' | wc -l)"
}

# the catalogues of its own pages, by its own compilemessages
python_django_build() {
  mkdir -p "$room/links" && ln -sf "$driver" "$room/links/msgfmt"
  (cd django/conf && PYTHONPATH=$room/python-django PATH=$room/links:$PATH django-admin compilemessages) \
    > log 2>&1
  whole "$1" "$(made)" "$(find django/conf/locale -name '*.po' | wc -l)"
}

has_compiler=no
if tests/lib/needs gcc gcc libc6-dev && tests/lib/needs make make; then has_compiler=yes; fi
if [ $has_compiler = yes ] && tests/lib/needs ncurses6-config libncurses-dev; then build psmisc po/Makefile.in.in
else skipped 'psmisc, po/Makefile.in.in through the driver' 'no gcc, make or ncurses, and they could not be installed'; fi
if [ $has_compiler = yes ]; then build git make && build sudo make
else skipped 'git and sudo, make through the driver' 'no gcc or make, and they could not be installed'; fi
if has_meson; then build gnome-calculator Meson
else skipped 'gnome-calculator, Meson through the driver' 'no Meson, and it could not be installed'; fi
if has_cmake; then build darktable FindGettext && build weechat CMake
else skipped 'darktable and weechat, CMake through the driver' 'no CMake, and it could not be installed'; fi
if tests/lib/needs django-admin python3-django; then build python-django compilemessages
else skipped 'python-django, compilemessages through the driver' 'no Django, and it could not be installed'; fi
