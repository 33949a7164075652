#!/usr/bin/env bash
# Django's own tests of translations (tests/i18n), of the sources of Debian's package, over the Python package: once by the
# standard module gettext, once with kobdzila in its place, and once by the application kobdzila.django. A test that fails
# by ours and not by the standard module is a failure.
no_program=1
. "$(dirname "$0")/../lib/common"
top=$PWD name="Django's own tests of translations" least=200
python=/usr/bin/python3

script needed '/usr/bin/python3 -W ignore -c "import django, ensurepip" && /usr/bin/python3-config --includes'
if ! tests/lib/needs cc gcc libc6-dev; then
  skipped "$name" 'no C compiler, and it could not be installed'
  exit 0
elif ! tests/lib/needs "$room/needed" python3-django python3-dev python3-venv || ! tests/lib/needs msgfmt gettext; then
  skipped "$name" 'no python3-django with python3-dev, python3-venv and gettext, and they could not be installed'
  exit 0
fi
has_archive "$name" || exit 0

# sources: gets the sources of the version that is installed, by apt-get with lists of its own. Debian's installations have
# no lists of sources, so these are made of those of the packages.
sources() {
  local at=$room/apt version it
  mkdir -p "$at/parts" "$at/lists/partial" "$room/sources"
  for it in /etc/apt/sources.list.d/*.sources; do
    [ ! -f "$it" ] || sed 's/^Types:.*/Types: deb-src/' "$it" > "$at/parts/${it##*/}"
  done
  for it in /etc/apt/sources.list /etc/apt/sources.list.d/*.list; do
    [ ! -f "$it" ] || sed -n 's/^deb /deb-src /p' "$it" > "$at/parts/$(basename "$it" .list).list"
  done
  local apt=(timeout 300 apt-get -q -o Dir::Etc::sourcelist=/dev/null -o "Dir::Etc::sourceparts=$at/parts"
    -o "Dir::State::lists=$at/lists" -o "APT::Sandbox::User=$(id -un)")
  version=$(dpkg-query -W -f '${Version}' python3-django) && command -v apt-get || return
  "${apt[@]}" update
  cd "$room/sources" && "${apt[@]}" source --tar-only --download-only "python3-django=$version"
  for it in *.orig.tar.*; do tar -xf "$it" --strip-components=1 && return; done
}

(sources) < /dev/null > "$room/log" 2>&1
tests=$room/sources/tests
if [ ! -f "$tests/runtests.py" ]; then
  skipped "$name" "Debian's package has no tests, and its sources could not be had: $(grep -m 1 -E '^[EW]:' "$room/log")"
  exit 0
fi
if ! said=$(PYTHON=$python tools/wheel "$room/wheel" 2>&1) ||
   ! said=$("$python" -m venv --system-site-packages "$room/venv" 2>&1) ||
   ! said=$("$room/venv/bin/pip" install -q --no-index --disable-pip-version-check "$room"/wheel/*.whl 2>&1); then
  failed "$name, the package" "$(tail -n 2 <<< "$said" | head -c 300)"
  exit 1
fi

# run MODE: runs the tests, and puts the names of those that fail into $room/MODE
run() {
  (cd "$room" && PYTHONDONTWRITEBYTECODE=1 timeout 600 "$room/venv/bin/python" "$top/python/tests/django_own.py" "$1" "$tests") \
    > "$room/$1.log" 2>&1
  count=$(sed -n 's/^Ran \([0-9]*\) tests.*/\1/p' "$room/$1.log")
  sed -nE 's/^(FAIL|ERROR): //p' "$room/$1.log" | sort > "$room/$1"
}

# judged MODE NAME ASKED [DIFFERENT]: compares a run with that of the standard module. ASKED is in its last line, and the
# test DIFFERENT fails by ours alone.
judged() {
  run "$1"
  local new asked
  new=$(comm -13 "$room/gettext" "$room/$1" | grep -vxF "${4:-}" | tr '\n' ' ')
  asked=$(sed -n 's/^kobdzila \(opened [0-9]* catalogues, and made [0-9]* snapshots\)$/\1/p' "$room/$1.log")
  if [ "${count:-0}" -lt $least ]; then
    failed "$name, $2" "it ended after ${count:-0} tests: $(tail -n 2 "$room/$1.log" | head -c 300)"
  elif [ -n "${4:-}" ] && ! grep -qxF "$4" "$room/$1"; then
    failed "$name, $2" "this one passes, so it is no difference: $4"
  elif [ -n "$new" ]; then
    failed "$name, $2" "these fail, but not by the standard module: ${new:0:300}"
  elif ! grep -qE "$3" <<< "$asked"; then
    failed "$name, $2" "kobdzila wasn't asked: it ${asked:-said nothing}"
  else
    ok "$name, $2: $((count - $(wc -l < "$room/$1"))) of $count, kobdzila $asked"
  fi
}

run gettext
if [ "${count:-0}" -lt $least ] || [ "$(wc -l < "$room/gettext")" -gt 5 ]; then
  skipped "$name" "they also fail with the standard module: ${count:-0} ran, $(head -n 3 "$room/gettext" | tr '\n' ' ')"
  exit 0
fi
ok "$name, the standard module: $((count - $(wc -l < "$room/gettext"))) of $count"
judged module 'kobdzila in place of gettext' 'opened [1-9]'
# (this one looks for a text of LOCALE_PATHS in the attribute _catalog, which has no texts of a store)
judged live 'the application kobdzila.django' 'made [1-9]' \
  'test_multiple_plurals_per_language (i18n.tests.TranslationTests.test_multiple_plurals_per_language)'
