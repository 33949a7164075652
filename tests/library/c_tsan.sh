#!/usr/bin/env bash
# Looks for data races in the live store of libkobdzila with ThreadSanitizer, in the proved part as well as in the C
# around it: the proved part is compiled anew, from the module that the toolchain hands to its clang, while threads
# publish and look up (tests/library/c_store_threads.c).
no_program=1
. "$(dirname "$0")/../lib/common"
. tests/lib/c_common
name='the live store in C, ThreadSanitizer'
read -r -a rt <<< "${RT:-rt}"

has_library "$name" || exit 0
if ! command -v "${rt[0]}" > /dev/null; then
  skipped "$name" 'there is no toolchain, which compiles the proved part'
  exit 0
fi
kit=$(dirname "$("${rt[@]}" doc)")
clang=$kit/toolchain/bin/clang
if [ ! -d crates/snapshot_store/out/rlib ] || [ ! -x "$clang" ]; then
  skipped "$name" 'the libraries of the proved part are not built here'
  exit 0
fi
if ! echo 'int main(void) { return 0; }' | cc -fsanitize=thread -x c -o "$room/none" - 2> /dev/null; then
  skipped "$name" 'the compiler has no -fsanitize=thread'
  exit 0
fi
fixed=(env)
setarch -R true 2> /dev/null && fixed=(setarch -R)
if "${fixed[@]}" "$room/none" 2>&1 | grep -q 'unexpected memory mapping'; then
  skipped "$name" "ThreadSanitizer doesn't run where memory is laid out so much at random"
  exit 0
fi

# the toolchain, whose clang keeps a copy of each module that it compiles
mkdir -p "$room/toolchain/bin"
ln -s "$kit"/toolchain/bin/* "$room/toolchain/bin/"
ln -s "$kit/toolchain/lib" "$room/toolchain/lib"
rm "$room/toolchain/bin/clang"
cat > "$room/toolchain/bin/clang" << END
#!/bin/sh
for it; do case \$it in *.bc) cp "\$it" "$room/module.bc" ;; esac; done
exec "$clang" "\$@"
END
chmod +x "$room/toolchain/bin/clang"
kept=
[ ! -d crates/kobdzila_c/out/incremental ] || kept=out/incremental
if ! TOOLCHAIN=$room/toolchain KEPT=$kept tools/over_gate kobdzila_c build/tsan.a > "$room/log" 2>&1; then
  failed "$name" "the proved part isn't built: $(grep -v ': proved$' "$room/log" | tail -n 3)"
  exit 1
fi
rm -f build/tsan.a

# its functions are given the attribute by which clang adds its checks
"$clang" --no-default-config -x ir "$room/module.bc" -S -emit-llvm -O0 -Xclang -disable-llvm-passes -o "$room/plain.ll"
# (x86-64 gives a step more order than it asks for, and so ThreadSanitizer doesn't see it as other machines would)
steps=$(grep -E '^ .* (load|store) atomic |^ .*\b(cmpxchg|atomicrmw|fence) ' "$room/plain.ll")
weak=$(grep -E ' (unordered|monotonic|acquire|release|acq_rel)( |,|$)' <<< "$steps")
if [ -n "$steps" ] && [ -z "$weak" ]; then
  ok "$name: each of $(wc -l <<< "$steps") atomic steps is sequentially consistent for the compiler"
else
  failed "$name: each atomic step is sequentially consistent for the compiler" "${weak:-there is none}"
fi
sed -E 's/^(attributes #[0-9]+ = \{ )/\1sanitize_thread /' "$room/plain.ll" > "$room/module.ll"
"$clang" --no-default-config --target="$(uname -m)-unknown-linux-gnu" -fsanitize=thread -x ir "$room/module.ll" -c -O2 \
  -fPIC -o "$room/module.o" 2> "$room/log" || { failed "$name" "$(head -n 2 "$room/log")" && exit 1; }
# (the run time of GCC has other names for what clang calls)
cat > "$room/names.c" << 'END'
#include <string.h>
void *__tsan_memcpy(void *to, const void *from, size_t len) { return memcpy(to, from, len); }
void *__tsan_memmove(void *to, const void *from, size_t len) { return memmove(to, from, len); }
void *__tsan_memset(void *to, int byte, size_t len) { return memset(to, byte, len); }
END
cc -O2 -c -o "$room/names.o" "$room/names.c"
compiles "$name" races tests/library/c_store_threads.c -Ic/library -fsanitize=thread c/library/kobdzila.c c/library/output.c c/library/set.c c/library/store.c c/library/file_bytes.c \
  c/library/memory.c c/machine/heap.c "$room/module.o" "$room/names.o" -Wl,--wrap=malloc,--wrap=realloc,--wrap=free || exit 1
if ! nm "$room/module.o" | grep -q 'U __tsan_atomic'; then
  failed "$name" 'the proved part has no checks'
  exit 1
fi
export TSAN_OPTIONS=halt_on_error=1
runs "$name, 2,000 publishes and 16 threads" "${fixed[@]}" "$room/races" one 2000
runs "$name, four threads that publish" "${fixed[@]}" "$room/races" several 500
