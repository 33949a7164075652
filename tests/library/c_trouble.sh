#!/usr/bin/env bash
# Calls libkobdzila in trouble (tests/library/c_trouble.c): each allocation refused in turn, no file descriptors, files
# of all kinds, NULL; by itself, under valgrind and with the sanitizers. Then: in a program with an allocator of its
# own; how much of a stack the calls take; and by which flags the library is compiled.
no_program=1
. "$(dirname "$0")/../lib/common"
. tests/lib/c_common

has_library 'the C library in trouble' || exit 0
if ! command -v python3 > /dev/null; then
  skipped 'the C library in trouble' 'no python3, which makes the files'
  exit 0
fi
trouble_files "$room"

# in_trouble HOW FOLDER WORD..: the program with the library in FOLDER, started by the words; $flags are the compiler's
wrapped=-Wl,--wrap=malloc,--wrap=calloc,--wrap=realloc,--wrap=free,--wrap=open,--wrap=fopen,--wrap=statx
flags=()
in_trouble() {
  local how=$1 folder=$2 what
  shift 2
  compiles "the C library in trouble, $how" "trouble_$how" tests/library/c_trouble.c "${flags[@]}" "$folder/libkobdzila.a" \
    "$wrapped" || return
  for what in memory files null; do
    rm -f "$room/fifo" "$room/file"
    runs "the C library in trouble, $what, $how" "$@" "$room/trouble_$how" $what "$room"
  done
}

in_trouble plain "$library" env
if tests/lib/needs valgrind valgrind; then
  # (the C library keeps the stack of a thread that has ended, which is `possibly lost`)
  in_trouble valgrind "$library" valgrind -q --error-exitcode=9 --leak-check=full --show-leak-kinds=definite,indirect \
    --errors-for-leak-kinds=definite,indirect --max-stackframe=4000000
else
  skipped 'the C library in trouble, valgrind' 'no valgrind, and it could not be installed'
fi
if sanitized 'the C library in trouble, sanitized' address,undefined; then
  flags=(-fsanitize=address,undefined -fno-sanitize-recover=all)
  in_trouble sanitized "$room/address-undefined/build/lib" env
fi

name='the C library in a program with its own allocator'
compiles "$name" own tests/library/c_own_memory.c "$library/libkobdzila.a" && runs "$name" "$room/own" "$room/large.mo"

# The greatest stack that a call took was 100,560 bytes, for a rule of 999 `!`; kobdzila(3) says what is promised
name='the stack of the C library' most=131072
mkdir "$room/deep"
python3 -B tests/msgfmt/make_deep.py "$room/deep"
for shape in $(python3 -B tests/mo/make_hostile.py); do
  python3 -B tests/mo/make_hostile.py "$shape" 1000000 "$room/deep/$shape.mo" > /dev/null
done
if compiles "$name" stack tests/library/c_stack.c "$library/libkobdzila.a"; then
  if said=$("$room/stack" $most "$room/deep"/* "$room/large.mo" examples/*.po 2>&1); then
    ok "$name: ${said%%,*} at most"
  else
    failed "$name" "$said, and not $most"
  fi
  grep -q "$(sed ':a; s/\B[0-9]\{3\}\>/,&/; ta' <<< $most)" docs/man/kobdzila.3 ||
    failed "$name" "kobdzila(3) doesn't say $most"
fi

# a compiler that writes down what it is called with
name='the flags of the C library'
mkdir -p "$room/tree"
cp -r c include tools crates.txt "$room/tree"
cp --parents "$(tools/machine core)" "$room/tree"
printf '#!/bin/sh\necho "$*" >> "%s/calls"\nexec cc "$@"\n' "$room" > "$room/noted"
chmod +x "$room/noted"

# lacks PATTERN WORD..: how many of the noted calls with the pattern lack one of the words; and there are such calls
lacks() {
  local pattern=$1 word count=0
  shift
  grep -q -- "$pattern" "$room/calls" || return 0
  for word in "$@"; do count=$((count + $(grep -- "$pattern" "$room/calls" | grep -vcF -- "$word"))); done
  [ "$count" != 0 ]
}

if ! CC=$room/noted CPPFLAGS=-DPACKAGED=1 CFLAGS='-O1 -g1' LDFLAGS=-Wl,--hash-style=gnu \
  "$room/tree/tools/build_library" --made > "$room/log" 2>&1; then
  failed "$name" "$(tail -n 2 "$room/log")"
elif lacks ' -Iinclude ' -fstack-protector-strong -D_FORTIFY_SOURCE= -DPACKAGED=1 '-O1 -g1'; then
  failed "$name" "$(grep -- ' -Iinclude ' "$room/calls" | head -n 1)"
elif lacks ' -shared ' -z,now -z,relro -Wl,--hash-style=gnu; then
  failed "$name" "$(grep -- ' -shared ' "$room/calls" | head -n 1)"
else
  ok "$name: hardened, and those of a packager"
fi
: > "$room/calls"
CC=$room/noted CPPFLAGS='-D_FORTIFY_SOURCE=1' "$room/tree/tools/build_library" --made > "$room/log" 2>&1
if lacks ' -Iinclude ' -D_FORTIFY_SOURCE=1 || grep -- ' -Iinclude ' "$room/calls" | grep -q 'FORTIFY_SOURCE=[23]' ||
  grep -q warning "$room/log"; then
  failed "$name" "a packager's _FORTIFY_SOURCE: $(head -c 300 "$room/log")"
else
  ok "$name: a packager's _FORTIFY_SOURCE"
fi
wrong=
for it in libkobdzila.so.0 libkobdzila-intl.so; do
  readelf -dW "$library/$it" | grep -q BIND_NOW && readelf -lW "$library/$it" | grep -q GNU_RELRO &&
    nm -D "$library/$it" | grep -q __stack_chk_fail || wrong+=" $it"
done
if [ -z "$wrong" ]; then ok "$name, in the libraries"; else failed "$name" "not in$wrong"; fi
