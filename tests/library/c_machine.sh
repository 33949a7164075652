#!/usr/bin/env bash
# What the proved part asks of C (c/machine): blocks of memory, the words of the command line and errno, as the toolchain's
# contracts state them; under valgrind and with AddressSanitizer. The toolchain's own functions pass the same.
no_program=1
. "$(dirname "$0")/../lib/common"
. tests/lib/c_common
name='c/machine'

if ! tests/lib/needs cc gcc libc6-dev || ! tests/lib/needs ar binutils; then
  skipped "$name" 'no C compiler with binutils, and it could not be installed'
  exit 0
fi

# linked HOW WORD..: makes $room/HOW of tests/library/c_machine.c and these words
linked() {
  compiles "$name, $1" "$1" -Ic/machine tests/library/c_machine.c "${@:2}" -Wl,--wrap=malloc,--wrap=realloc
}

# is_right HOW WORD..: runs $room/HOW, after these words
is_right() {
  runs "$name: memory, $1" "${@:2}" "$room/$1" memory
  runs "$name: words, $1" "${@:2}" "$room/$1" words a '' 'é and more'
  runs "$name: errno, $1" "${@:2}" "$room/$1" cause
}

if ! tools/machine_archive "$room/machine.a" cc -std=c11 -O2 -Wall -Wextra -Werror > "$room/log" 2>&1; then
  failed "$name" "$(tail -n 2 "$room/log")"
  exit 0
fi
if linked ours "$room/machine.a"; then
  is_right ours
  if tests/lib/needs valgrind valgrind; then
    cp "$room/ours" "$room/valgrind"
    is_right valgrind valgrind -q --error-exitcode=9 --leak-check=full --show-leak-kinds=all
  else
    skipped "$name, valgrind" 'no valgrind, and it could not be installed'
  fi
fi
sanitizer=-fsanitize=address,undefined
if echo 'int main(void) { return 0; }' | cc $sanitizer -x c -o "$room/none" - 2> /dev/null; then
  if linked sanitized $sanitizer -Ic/library c/machine/*.c c/library/memory.c; then is_right sanitized; fi
else
  skipped "$name, AddressSanitizer" 'the compiler has none'
fi
read -r -a rt <<< "${RT:-rt}"
if [ "$(tools/machine machine)" = x86_64 ] && command -v "${rt[0]}" > /dev/null; then
  kit=$(dirname "$("${rt[@]}" doc)")
  if linked toolchain "$kit/c/liblibc_c.a" "$kit/c/libos_c.a"; then is_right toolchain; fi
else
  skipped "$name: the toolchain's own" "the toolchain isn't here, or has no such functions for this machine"
fi
