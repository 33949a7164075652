#!/usr/bin/env bash
# Calls the handles of libkobdzila in every order: all sequences of six calls over two stores, two readers, a set, a
# notice and a catalogue, and each once more for each request for memory that it makes, with that one refused
# (tests/library/c_sequences.c); by itself, and with AddressSanitizer. Then a model of what threads do at the same time
# to the references of one set and to a store with its lock and its readers (tests/library/c_handles.pml), which Spin
# explores; and three mutations of the model, which Spin refuses.
no_program=1
. "$(dirname "$0")/../lib/common"
. tests/lib/c_common
name='the handles in C'

has_library "$name" || exit 0
wrapped=-Wl,--wrap=malloc,--wrap=realloc,--wrap=free

# all_sequences HOW PROGRAM LENGTH: each sequence of LENGTH calls
all_sequences() {
  local said
  if said=$(timeout $((900 * slower)) "$room/$2" "$3" 2>&1); then
    ok "$name, each order of $3 calls, $1: $said"
  else
    failed "$name, each order of $3 calls, $1" "status $?, $(head -c 400 <<< "$said")"
  fi
}

compiles "$name" plain tests/library/c_sequences.c "$library/libkobdzila.a" $wrapped && all_sequences plain plain 6
if sanitized "$name, AddressSanitizer" address,undefined; then
  flags=(-fsanitize=address,undefined -fno-sanitize-recover=all)
  compiles "$name" sanitized tests/library/c_sequences.c "${flags[@]}" "$room/address-undefined/build/lib/libkobdzila.a" \
    $wrapped && all_sequences sanitized sanitized 6
fi

# explores PART MUTATION: Spin explores a part of the model, and prints how many errors it found
explores() {
  (cd "$room" && timeout 300 spin "-DPART=$1" "-DMUTATION=$2" -run "$OLDPWD/tests/library/c_handles.pml" 2>&1) |
    sed -n 's/^State-vector.*errors: \([0-9]*\)$/\1/p'
}

if ! tests/lib/needs spin spin; then
  skipped "$name, by threads" 'no Spin, and it could not be installed'
  exit 0
fi
for part in 1 2; do
  found=$(explores $part 0)
  if [ "$found" = 0 ]; then ok "$name, by threads, part $part"; else failed "$name, by threads, part $part" "$found errors"; fi
done
for mutation in '1 1' '1 2' '2 3'; do
  read -r part number <<< "$mutation"
  found=$(explores "$part" "$number")
  if [ "${found:-0}" != 0 ]; then
    ok "$name, by threads: mutation $number is found"
  else
    failed "$name, by threads: mutation $number" 'Spin finds no error'
  fi
done
