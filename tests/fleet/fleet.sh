#!/usr/bin/env bash
# kobdzila.fleet: a log of loads in PostgreSQL, and machines that follow it (tests/fleet). The tests start servers of
# their own on the loopback address, in folders of their own, and end them. tests/lib/needs installs PostgreSQL and
# psycopg.
#
#   tests/fleet/fleet.sh            a minute on four cores that do nothing else; the tests run side by side
#   bench/fleet/run soak      ten minutes of kills and silences, of which `make check` has 40 seconds
#   bench/fleet/run cancels   a hundred cancelled waits for a standby, of which it has five
#
# PYTHON names a Python 3.10 or later with psycopg 3 and Python.h, if it isn't /usr/bin/python3.
no_program=1
. "$(dirname "$0")/../lib/common"
top=$PWD

python=${PYTHON:-/usr/bin/python3}
script headers "'$python' -c 'import ensurepip, os, sysconfig as it; os.stat(it.get_path(\"include\") + \"/Python.h\")'"
script psycopg "'$python' -c 'import psycopg'"
script server 'command -v initdb || ls /usr/lib/postgresql/*/bin/initdb'
if ! tests/lib/needs cc gcc libc6-dev || ! tests/lib/needs "$room/headers" python3-dev python3-venv; then
  skipped 'many machines' "no C compiler, or no Python.h and ensurepip for $python, and they could not be installed"
elif ! tests/lib/needs "$room/psycopg" python3-psycopg; then
  skipped 'many machines' "no psycopg 3 for $python, and it could not be installed"
elif ! tests/lib/needs "$room/server" postgresql; then
  skipped 'many machines' 'no PostgreSQL, and it could not be installed'
else
  ready=yes
fi
[ -n "${ready:-}" ] || exit 0

has_archive 'many machines' || exit 0

# the wheel, installed next to the system's psycopg
if ! said=$(PYTHON=$python tools/wheel "$room/wheel" 2>&1) ||
   ! said=$("$python" -m venv --system-site-packages "$room/venv" 2>&1) ||
   ! said=$("$room/venv/bin/pip" install -q --no-index --disable-pip-version-check "$room"/wheel/*.whl 2>&1); then
  failed 'many machines, the wheel' "$(tail -n 2 <<< "$said" | head -c 300)"
  exit 1
fi
export PATH="$room/venv/bin:$top/bin:$PATH" PYTHONDONTWRITEBYTECODE=1
if said=$(kob-fleet --help 2>&1) && [ "$(kob-fleet --version)" = "kob-fleet (kobdzila) $(cat VERSION)" ] &&
   grep -q "Kobdzila $(cat VERSION)" "$room/venv/share/man/man1/kob-fleet.1" &&
   grep -qx 'complete -F _kob_fleet kob-fleet' "$room/venv/share/bash-completion/completions/kob-fleet" &&
   grep -qx '#compdef kob-fleet' "$room/venv/share/zsh/site-functions/_kob-fleet" &&
   grep -q '^complete -c kob-fleet ' "$room/venv/share/fish/vendor_completions.d/kob-fleet.fish"; then
  ok 'many machines, kob-fleet, its manual page and its completions in the wheel'
else
  failed 'many machines, kob-fleet in the wheel' "$(head -c 300 <<< "$said")"
fi
for it in init publish remove rollback wait follow status metrics history compact restore forget; do
  said=$(kob-fleet $it --help 2>&1) || failed "many machines, kob-fleet $it" "$(head -c 200 <<< "$said")"
  for option in $(grep -oE -- '--[a-z-]+' <<< "$said" | sort -u); do
    grep -qF -- "${option//-/\\-}" docs/man/kob-fleet.1 ||
      failed "many machines, kob-fleet(1)" "it lacks $option of $it"
  done
done

# (each of them has servers of its own, and mostly waits)
modules='silence failures epochs operations log chaos command store web'
for name in $modules; do
  while [ "$(jobs -rp | wc -l)" -gt "$(nproc)" ]; do wait -n; done
  (
    cd tests/fleet || exit 1
    timeout 1500 python -W error -m unittest -v "test_$name" > "$room/said_$name" 2>&1
    echo $? > "$room/status_$name"
  ) &
done
wait
for name in $modules; do
  said=$room/said_$name
  status=$(cat "$room/status_$name")
  count=$(sed -n 's/^Ran \([0-9]*\) tests\{0,1\} in .*/\1/p' "$said")
  if [ "$status" = 0 ] && [ "${count:-0}" != 0 ]; then
    ok "many machines, $name: $count tests"
    sed -n "s/^\\(test_[a-z0-9_]*\\) .* skipped ['\"]\\(.*\\)['\"]\$/\\1^\\2/p" "$said" |
      while IFS=^ read -r test why; do skipped "many machines, $name, ${test//_/ }" "$why"; done
  else
    failed "many machines, $name" "$(grep -E -A 30 '^(ERROR|FAIL): ' "$said" | head -c 900 | tr '\n' ' ')"
  fi
done
