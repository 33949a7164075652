#!/usr/bin/env bash
# Replays the corpora of fuzz/ with AddressSanitizer and UndefinedBehaviorSanitizer: each input once, with the oracles
# of its target. `make fuzz` looks for new inputs; what it finds comes into the corpora, and fails here until it is
# mended.
no_program=1
. "$(dirname "$0")/../lib/common"
. tests/lib/c_common
if ! tests/lib/needs cc gcc libc6-dev; then
  skipped fuzz 'no C compiler, and it could not be installed'
  exit 0
fi

# replays TARGET LEAKS: runs the target on its corpus; LEAKS is 1 if leaks are looked for
replays() {
  local name="fuzz, $1" status
  if ! TO=$room/replay fuzz/build replay "$1" > "$room/log" 2>&1; then
    if grep -q "can't link the sanitizers\|there are no headers of Python" "$room/log"; then
      skipped "$name" "$(sed -n 's/^fuzz.build: //p' "$room/log")"
    else
      failed "$name" "it isn't built: $(grep -m 1 'error\|fuzz/build' "$room/log" || tail -n 1 "$room/log")"
    fi
    return
  fi
  PROGRAMS=$PWD/bin PYTHONMALLOC=malloc ASAN_OPTIONS=detect_leaks=$2 UBSAN_OPTIONS=print_stacktrace=1 \
    timeout 600 "$room/replay/$1" "fuzz/corpus/$1" < /dev/null > "$room/said" 2>&1
  status=$?
  if [ $status = 0 ]; then ok "$name: $(tail -n 1 "$room/said")"
  else
    failed "$name" "status $status: $(grep -a -m 1 "SUMMARY\|this doesn't hold\|runtime error" "$room/said") \
$(grep -a -m 1 '^replay: ' "$room/said")"
  fi
}

replays driver 1
if has_library 'fuzz, catalogue, intl and python'; then
  replays catalogue 1
  # (Python and gettext keep memory until they end)
  replays python 0
  if LC_ALL=C.UTF-8 locale charmap 2> /dev/null | grep -qx UTF-8; then replays intl 0
  else skipped 'fuzz, intl' 'no locale C.UTF-8 of the GNU C library'; fi
fi
for it in catserve catsession; do
  [ -x bin/$it ] || { skipped 'fuzz, script and session' "there is no bin/$it: make builds it" && exit 0; }
done
replays script 1
replays session 1
