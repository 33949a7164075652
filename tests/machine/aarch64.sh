#!/usr/bin/env bash
# What was built for aarch64 (`make MACHINE=aarch64`, which leaves it in build/aarch64), by an emulator of the first
# processor that has its instructions: the scripts about msgfmt, catserve, catsession, msgfmt-or-gnu and kob-msgunfmt, and
# those about the C library and its live store with threads; the shared library; libkobdzila-intl.so beside the C library's
# gettext; kob-compile. The orders of the proved part's atomic steps and the hardening are read from the files.
#
#   tests/machine/aarch64.sh                  these
#   SCRIPTS=all tests/machine/aarch64.sh      all scripts about what was built, but for those in $left, and the release
#                                             (tests/project/release.sh); it takes an hour
#
# The emulator keeps the order of this machine's own memory, which is stronger than that of aarch64: a step that lacks its
# order would not show when it runs, and so it is looked for in the instructions.
no_program=1
. "$(dirname "$0")/../lib/common"
export MACHINE=aarch64
eval "$(tools/machine)"
top=$PWD

# has_all: all is built, of these sources; else it is skipped
has_all() {
  local it newer
  for it in "$bin"/{msgfmt,catserve,catsession,msgfmt-or-gnu,kob-compile,kob-msgunfmt} "$build"/static/{msgfmt,catserve,catsession} \
    "$build"/lib/{libkobdzila.a,libkobdzila.so.0,libkobdzila-intl.so} "$build"/proved/libkobdzila_c.a; do
    [ -f "$it" ] || { skipped aarch64 "there is no $it: make MACHINE=aarch64 builds it"; return 1; }
  done
  newer=$(find crates c include tools/machine_archive '(' -name '*.rt' -o -name '*.antt' -o -name '*.[ch]' ')' \
    -newer "$bin/kob-compile" -print -quit)
  [ -z "$newer" ] || { skipped aarch64 "$newer is newer than $bin: make MACHINE=aarch64 builds it"; return 1; }
}

if [ -z "$other" ]; then
  skipped aarch64 'this is such a machine: the other scripts run what is built for it'
  exit 0
fi
has_all || exit 0
if ! tests/lib/needs "${cc%% *}" gcc-aarch64-linux-gnu libc6-dev-arm64-cross || ! tests/lib/needs "${prefix}readelf" binutils-aarch64-linux-gnu; then
  skipped aarch64 "no ${cc%% *} with binutils, and it could not be installed"
  exit 0
fi
if ! said=$(tests/lib/emulated --check); then
  skipped aarch64 "$said"
  exit 0
fi
# (where the C library of that machine lies, for the programs that aren't static)
libraries=$(dirname "$(dirname "$("$cc" -print-file-name=libc.so.6)")")
emulator=(qemu-aarch64-static -cpu cortex-a53 -L "$libraries")

# runs NAME WORD..: the words end well within five minutes, in $room, and say nothing
runs() {
  local name=$1 said
  shift
  if said=$(cd "$room" && timeout 300 "${emulator[@]}" "$@" 2>&1) && [ -z "$said" ]; then
    ok "aarch64, $name"
  else
    failed "aarch64, $name" "'$(head -c 400 <<< "$said")'"
  fi
}

# compiles TO WORD..: compiles C for aarch64 to $room/TO by these words
compiles() {
  local to=$1
  shift
  "$cc" -std=c11 -O2 -g -Wall -Wextra -Werror -pthread -Iinclude -o "$room/$to" "$@" > "$room/cc" 2>&1 && return
  failed "aarch64, $to" "it doesn't compile: $(head -c 300 "$room/cc")"
  return 1
}

# named: the lines of another script, as they are here
named() {
  sed -E 's/^(ok|FAILED|skipped) /\1 aarch64, /; s/: no (valgrind|strace)[ ,].*/: \1 sees the emulator, and not what it runs/'
}

# lines_of SCRIPT..: the lines of other scripts, over what was built for aarch64
lines_of() {
  local it
  for it in "$@"; do tests/lib/emulated --built "tests/$it.sh" 2>&1 < /dev/null | named; done
}

# --- the scripts --------------------------------------------------------------------------------------------------------

quick=(msgfmt/{rows,static} scripts/{stored,scripts,session} driver/or_gnu unfmt/unfmt library/c_{library,store})
# (what can't run so, and why)
declare -A left=(
  [library/c_tsan]='the emulator takes 3 GB and 15 seconds to begin a program with ThreadSanitizer'
  [msgfmt/processor]='it is about x86-64-v2; what was built runs here on the first processor of aarch64'
)
# (which program of the gate a script runs)
declare -A program_of=([msgfmt/answers]=test_answers [msgfmt/every_call]=test_every_call [scripts/serve]=test_every_call
  [scripts/store]=test_every_call)
export ANSWERS=$top/$build/tests/test_answers EVERY_CALL=$top/$build/tests/test_every_call

# is_made CRATE: a program of the tests is proved and compiled for aarch64, over the libraries that the gate left
is_made() {
  local it=$build/tests/$1
  mkdir -p "$build/tests"
  [ -z "$(find "crates/$1/src" "$build/proved/libkobdzila_c.a" -newer "$it" 2>&1)" ] ||
    { tools/over_gate "$1" "$it.o" && "$cc" -pie -Wl,-z,relro,-z,now -o "$it" "$it.o" "$build/static/machine.a" -lpthread; } > "$room/made" 2>&1
}

lines_of "${quick[@]}"
if [ "${SCRIPTS:-}" = all ]; then
  for it in test_answers test_every_call; do
    is_made $it || for script in "${!program_of[@]}"; do
      [ ${program_of[$script]} != $it ] || left[$script]="$it was not made over the libraries of the gate: $(tail -n 1 "$room/made")"
    done
  done
  for it in tests/{msgfmt,scripts,driver,unfmt,compile,intl,library,mo}/*.sh; do
    it=${it#tests/} it=${it%.sh}
    case " ${quick[*]} " in *" $it "*) continue ;; esac
    if [ -n "${left[$it]:-}" ]; then skipped "aarch64, $it" "${left[$it]}"; else lines_of "$it"; fi
  done
  tests/lib/emulated tests/project/release.sh 2>&1 < /dev/null | named
fi

# wrote NAME MO WANTED WORD..: the words end well, say nothing, and the file MO has the bytes of WANTED
wrote() {
  if said=$(timeout 300 "${emulator[@]}" "${@:4}" 2>&1) && [ -z "$said" ] && cmp -s "$2" "$3"; then ok "aarch64, $1"
  else failed "aarch64, $1" "$said"; fi
}
if tests/lib/needs tools/gnu-msgfmt gettext; then
  mkdir "$room/project"
  for it in fr pl; do cp "examples/$it.po" "$room/project" && "$(tools/gnu-msgfmt)" --no-hash -o "$room/$it.wanted" "examples/$it.po"; done
  for it in fr pl; do
    wrote "kob-compile, $it" "$room/project/$it.mo" "$room/$it.wanted" "$bin/kob-compile" -q --no-gnu --force "$room/project"
  done
else
  skipped 'aarch64, kob-compile' 'no GNU gettext, and it could not be installed'
fi

# --- the C library ------------------------------------------------------------------------------------------------

compiles c_machine -static -Ic/machine -Ic/library tests/library/c_machine.c c/machine/*.c c/library/memory.c \
  -Wl,--wrap=malloc,--wrap=realloc &&
  for it in memory 'words a bc' cause; do runs "c/machine, $it" "$room/c_machine" $it; done
emulator+=(-E "LD_LIBRARY_PATH=$top/$build/lib")
compiles shared tests/library/c_library.c -L"$build/lib" -lkobdzila &&
  runs 'the shared library, each function and each refusal' "$room/shared" calls
if said=$(tests/library/c_interface.py "$build/lib/libkobdzila.so.0" 2>&1); then ok "aarch64, the C interface: $said"
else failed 'aarch64, the C interface' "$said"; fi

# a program that was compiled for the C library's gettext answers the same by libkobdzila-intl.so
mkdir -p "$room/locale/fr/LC_MESSAGES"
"${emulator[@]}" "$build/static/msgfmt" -o "$room/locale/fr/LC_MESSAGES/garden.mo" examples/fr.po
words=(env LANGUAGE fr locale C.UTF-8 bind garden "$room/locale" domain garden ask - Winter ask garden Summer plural garden 1
  plural garden 5 ask none Winter ask - 'not there')
if compiles ask tests/intl/ask_gettext.c; then
  "${emulator[@]}" "$room/ask" "${words[@]}" > "$room/glibc" 2>&1
  "${emulator[@]}" -E LD_PRELOAD="$top/$build/lib/libkobdzila-intl.so" "$room/ask" "${words[@]}" > "$room/ours" 2>&1
  bound=$("${emulator[@]}" -E LD_DEBUG=bindings -E LD_PRELOAD="$top/$build/lib/libkobdzila-intl.so" "$room/ask" "${words[@]}" 2>&1 |
    grep -c 'libkobdzila-intl.so .*dcgettext\|libkobdzila-intl.so .*gettext')
  if ! grep -q Hiver "$room/glibc"; then
    skipped 'aarch64, gettext of other programs' "the C library's own finds nothing: $(head -n 2 "$room/glibc" | tr '\n' ' ')"
  elif [ "$bound" != 0 ] && cmp -s "$room/glibc" "$room/ours"; then
    ok "aarch64, gettext of other programs: $(wc -l < "$room/ours") lines as without libkobdzila-intl.so"
  else
    failed 'aarch64, gettext of other programs' "$bound bound; $(diff "$room/glibc" "$room/ours" | head -n 4 | tr '\n' ' ')"
  fi
fi

# --- the files ----------------------------------------------------------------------------------------------------

# has_orders FILE: each atomic step in the proved part of FILE is ordered as one that is sequentially consistent: its
# load acquires, its store releases
atomic='^((ld|st)[a-z]*x[rp][bh]?|ldap?u?r[bh]?|stll?u?r[bh]?|(cas|swp|ld(add|clr|eor|set|[su]max|[su]min))[a-z]*)$'
ordered=' (ldax[rp][bh]?|stlx[rp][bh]?|ldar[bh]?|stlr[bh]?)$'
has_orders() {
  local all weak
  all=$("${prefix}objdump" -d --no-show-raw-insn "$1" | cut -s -f 2 | tr -d ' ' | grep -E "$atomic" | sort | uniq -c)
  weak=$(grep -vE "$ordered" <<< "$all")
  if [ -n "$all" ] && [ -z "$weak" ]; then ok "aarch64, the orders in $(basename "$1"): $(echo $all)"
  else failed "aarch64, the orders in $(basename "$1")" "$(echo ${weak:-no atomic step})"; fi
}
has_orders "$build/proved/libkobdzila_c.a"
has_orders "$build/proved/catsession.o"

for it in "$bin"/* "$build"/static/{msgfmt,catserve,catsession} "$build"/lib/*.so.0 "$build"/lib/*-intl.so; do
  head=$("${prefix}readelf" -hlW "$it")
  if grep -q 'Machine: *AArch64' <<< "$head" && grep -q 'Type: *DYN' <<< "$head" && grep -q GNU_RELRO <<< "$head" &&
    "${prefix}readelf" -dW "$it" | grep -qE 'BIND_NOW|Flags:.*NOW' && grep -q 'GNU_STACK .* RW ' <<< "$head" && ! grep -q ' RWE ' <<< "$head"; then
    ok "aarch64, $it: any address, read-only tables, no code on the stack"
  else
    failed "aarch64, $it: any address, read-only tables, no code on the stack" "$(grep -E 'Type:|Machine:|RELRO|STACK' <<< "$head" | tr -s ' \n' ' ')"
  fi
done
