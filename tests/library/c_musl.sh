#!/usr/bin/env bash
# Builds libkobdzila for the musl C library, and calls it there: each function and each refusal, threads that look up while
# catalogues are swapped, the live store with each request for memory refused, and in trouble.
no_program=1
. "$(dirname "$0")/../lib/common"
. tests/lib/c_common
name='the C library with musl'

has_library "$name" || exit 0
if [ -n "${EMULATED:-}" ]; then
  folder=$(tests/lib/emulated_system) || { skipped "$name" "$folder"; exit 0; }
  # (libgcc's choice between atomic steps asks the GNU C library)
  script musl-gcc "exec cc \"\$@\" -mno-outline-atomics -specs '$folder/musl-gcc.specs'"
  export PATH=$room:$PATH QEMU_LD_PREFIX=$folder
elif ! tests/lib/needs musl-gcc musl-tools; then
  skipped "$name" 'no musl-gcc, and it could not be installed'
  exit 0
fi
tree=$room/tree
mkdir -p "$tree"
cp -r c include tools crates.txt "$tree"
cp --parents "$(tools/machine core)" "$tree"
if ! CC=musl-gcc CPPFLAGS=-Werror "$tree/tools/build_library" --made > "$room/log" 2>&1; then
  failed "$name" "$(tail -n 2 "$room/log")"
  exit 1
fi
if grep -q '^libkobdzila-intl: .* it isn.t built' "$room/log" && [ ! -e "$tree/build/lib/libkobdzila-intl.so" ]; then
  ok "$name: libkobdzila-intl.so, which needs the GNU C library, isn't built"
else
  failed "$name: libkobdzila-intl.so isn't built" "$(cat "$room/log")"
fi
if needed=$(readelf -d "$tree/build/lib/libkobdzila.so.0" | sed -n 's/.*NEEDED.*\[\(.*\)\]/\1/p') && [ "$needed" = libc.so ]; then
  ok "$name: the shared library needs musl's alone"
else
  failed "$name: the shared library needs musl's alone" "$needed"
fi

# made PROGRAM WORD..: $room/PROGRAM of tests/library/PROGRAM.c, and how it is linked
made() {
  local program=$1
  shift
  musl-gcc -std=c11 -O2 -g -Wall -Wextra -Werror -pthread "-DSLOWER=$slower" -Iinclude -o "$room/$program" \
    "tests/library/$program.c" "$@" "$tree/build/lib/libkobdzila.a" > "$room/cc" 2>&1 && return
  failed "$name: $program" "$(head -c 300 "$room/cc")"
  return 1
}

wrapped=-Wl,--wrap=malloc,--wrap=realloc,--wrap=free
if made c_library; then
  runs "$name: each function and each refusal" "$room/c_library" calls
  runs "$name: 4 threads and 10,000 swaps" "$room/c_library" threads
fi
if made c_store $wrapped; then
  runs "$name: the live store, each function and each refusal" "$room/c_store" calls
  runs "$name: the live store, each request for memory refused" "$room/c_store" memory
fi
if made c_store_threads $wrapped; then
  runs "$name: the live store, 2,000 publishes and 16 threads" "$room/c_store_threads" one 2000
  # (a publisher that is stopped may have musl's one lock of malloc, for which readers of this program wait)
fi
if ! command -v python3 > /dev/null; then
  skipped "$name: in trouble" 'no python3, which makes the files'
  exit 0
fi
trouble_files "$room"
if made c_trouble $wrapped,--wrap=calloc,--wrap=open,--wrap=fopen; then
  for what in memory files null; do
    rm -f "$room/fifo" "$room/file"
    runs "$name: in trouble, $what" "$room/c_trouble" $what "$room"
  done
fi
