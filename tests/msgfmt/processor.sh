#!/usr/bin/env bash
# The processor that the programs and the library need. By a disassembly, no instruction of theirs is newer than
# x86-64-v2. By an emulator, they run on the first processor that has it, and the programs refuse the one before.
no_program=1
. "$(dirname "$0")/../lib/common"
programs=(msgfmt catserve catsession)

if [ "$(uname -m)" != x86_64 ] || ! tests/lib/needs objdump binutils; then
  skipped 'the processor' 'it is another than x86-64, or there is no binutils'
  exit 0
fi

# newer FILE: the instructions in it that only x86-64-v3 or a later level has: AVX and FMA (they begin with v), BMI,
# MOVBE and others. (tzcnt isn't in the list: an older processor runs it as bsf, which gives the same result but for 0,
# and a compiler for that processor allows for it.)
newer() {
  objdump -d --no-show-raw-insn "$1" | cut -s -f 2 | cut -d ' ' -f 1 | sort -u | grep -xE \
    'v.*|andn|bextr|bls(i|r|msk)|bzhi|pdep|pext|mulx|rorx|sarx|shlx|shrx|lzcnt|movbe|adcx|adox|xsave.*|xgetbv' |
    tr '\n' ' '
}
for it in "${programs[@]/#/bin/}" build/lib/libkobdzila.so.0; do
  if [ ! -f "$it" ]; then
    skipped "the processor, $it" 'it was not built'
  elif said=$(newer "$it") && [ -n "$said" ]; then
    failed "the processor, $it" "instructions that x86-64-v2 hasn't: $said"
  else
    ok "the processor, $it: no instruction newer than x86-64-v2"
  fi
done

if ! tests/lib/needs qemu-x86_64 qemu-user; then
  skipped 'the processor, emulated' 'no qemu-x86_64, and it could not be installed'
  exit 0
fi

# answers PROCESSOR FILE: runs the program on that processor, and compares what it writes with what is wanted
answers() {
  case $2 in
    */msgfmt*) qemu-x86_64 -cpu "$1" "$2" -o - - < crates/msgfmt/stdin | cmp - crates/msgfmt/stdout ;;
    *) qemu-x86_64 -cpu "$1" "$2" < examples/shop.script | cmp - examples/shop.answers ;;
  esac
}
# (msgfmt-or-gnu as far as it calls msgfmt; a program that it started would not be emulated)
unset KOBDZILA_MSGFMT
driver=bin/msgfmt-or-gnu
[ -f build/static/msgfmt.o ] || driver=
for it in "${programs[@]/#/bin/}" "${programs[@]/#/build/static/}" $driver; do
  [ -x "$it" ] || continue
  if said=$(answers Nehalem "$it" 2>&1); then
    ok "the processor, $it runs on a Nehalem"
  else
    failed "the processor, $it runs on a Nehalem" "$said"
  fi
  said=$(qemu-x86_64 -cpu Penryn "$it" -o - - 2>&1 < crates/msgfmt/stdin)
  status=$?
  if [ $status = 127 ] && grep -q 'lacks a feature of x86-64-v2' <<< "$said"; then
    ok "the processor, $it says that a Penryn lacks a feature"
  else
    failed "the processor, $it says that a Penryn lacks a feature" "status $status; $(head -c 300 <<< "$said")"
  fi
done

name='the processor, the library on a Nehalem'
if [ ! -f build/lib/libkobdzila.a ] || ! tests/lib/needs cc gcc libc6-dev; then
  skipped "$name" 'no library was built, or there is no C compiler'
elif said=$(cc -o "$room/user" tests/lib/installed.c -Iinclude build/lib/libkobdzila.a 2>&1 &&
  qemu-x86_64 -cpu Nehalem "$room/user" tests/lib/installed.po 2>&1) && [ "$said" = "$(cat VERSION): fichiers" ]; then
  ok "$name"
else
  failed "$name" "$said"
fi
