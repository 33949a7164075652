#!/usr/bin/env bash
# Calls the live store of libkobdzila: each function and each refusal, and with each request for memory refused
# (tests/library/c_store.c); from 16 threads while two catalogues are published over and over, also by a thread that is
# stopped anywhere, and from four threads that publish (tests/library/c_store_threads.c). All of it by itself, under
# valgrind and with the sanitizers. Then: the numbers that the exports tell, and the header's functions don't
# (tests/library/c_exports.c).
no_program=1
. "$(dirname "$0")/../lib/common"
. tests/lib/c_common
name='the live store in C'

has_library "$name" || exit 0
wrapped=-Wl,--wrap=malloc,--wrap=realloc,--wrap=free

# builds HOW FOLDER FLAG..: the two programs with the library in FOLDER
builds() {
  local how=$1 folder=$2
  shift 2
  compiles "$name, $how" "store_$how" tests/library/c_store.c "$@" "$folder/libkobdzila.a" $wrapped &&
    compiles "$name, $how" "threads_$how" tests/library/c_store_threads.c "$@" "$folder/libkobdzila.a" $wrapped
}

# in_one_thread HOW PROGRAM WORD..: the calls, by a program that is started by the words
in_one_thread() {
  local how=$1 program=$room/store_$2
  shift 2
  runs "$name, each function and each refusal, $how" "$@" "$program" calls
  runs "$name, each request for memory refused, $how" "$@" "$program" memory
}

# in_threads HOW PUBLISHES WORD..: PUBLISHES publishes by one thread, a tenth of that by each of several, and a thread
# that publishes until it was stopped as often as that
in_threads() {
  local how=$1 publishes=$2
  shift 2
  runs "$name, $publishes publishes and 16 threads, $how" "$@" "$room/threads_$how" one "$publishes"
  runs "$name, the same with memory refused, $how" "$@" "$room/threads_$how" one $((publishes / 5)) 97
  runs "$name, four threads that publish, $how" "$@" "$room/threads_$how" several $((publishes / 10))
  runs "$name, a publisher that is stopped, $how" "$@" "$room/threads_$how" stopped $((publishes / 10))
  runs "$name, readers that are made during a publish, $how" "$@" "$room/threads_$how" long 100000
}

if builds plain "$library"; then
  in_one_thread plain plain env
  in_threads plain 10000 env
  if tests/lib/needs valgrind valgrind; then
    valgrind=(valgrind -q --error-exitcode=9 --leak-check=full --show-leak-kinds=all --fair-sched=yes)
    in_one_thread valgrind plain "${valgrind[@]}"
    runs "$name, 200 publishes and 16 threads, valgrind" "${valgrind[@]}" "$room/threads_plain" one 200
  else
    skipped "$name, valgrind" 'no valgrind, and it could not be installed'
  fi
fi
if sanitized "$name, sanitized" address,undefined; then
  folder=$room/address-undefined/build/lib
  if builds sanitized "$folder" -fsanitize=address,undefined -fno-sanitize-recover=all; then
    in_one_thread sanitized sanitized env
    in_threads sanitized 1000 env
  fi
fi

# numbers of the exports that no function of the header returns
name='the numbers that the exports of a store tell'
if tools/machine_archive "$room/machine.a" cc -std=c11 -O2 > "$room/log" 2>&1 &&
  compiles "$name" exports tests/library/c_exports.c -Ic/library "$(tools/machine core)" "$room/machine.a" \
    -Wl,--wrap=malloc,--wrap=realloc; then
  runs "$name" "$room/exports"
fi

# the programs of the man pages: a look-up, and eight threads that look up while two catalogues are replaced
name='the programs of kobdzila(3) and kob_store(3)'
sed -n '/^\.SH EXAMPLES/,/^\.SH SEE/p' docs/man/kobdzila.3 docs/man/kob_store.3 | sed -n '/^\.nf/,/^\.fi/p' | sed '/^\.nf/d; s/\\e/\\/g' > "$room/programs"
awk -v room="$room" 'BEGIN { n = 1 } /^\.fi/ { n++; next } { print > (room "/example" n ".c") }' "$room/programs"
if compiles "$name, 1" one "$room/example1.c" "$library/libkobdzila.a" &&
  compiles "$name, 2" two "$room/example2.c" "$library/libkobdzila.a"; then
  mkdir -p "$room/examples"
  cp examples/fr.po examples/pl.po "$room/examples"
  said=$(cd "$room" && ./one && (sleep 2; echo; sleep 2) | timeout $((20 * slower)) ./two 2>&1 | grep '^[24]' | sort -u)
  if [ "$said" = $'tomates\n2: tomate, pomidor\n4: tomate, pomidor' ]; then
    ok "$name"
  else
    failed "$name" "$(head -c 300 <<< "$said")"
  fi
fi
