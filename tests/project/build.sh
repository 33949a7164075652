#!/usr/bin/env bash
# Runs tools/build over a toolchain that only pretends to prove: the order of the crates, a build with nothing to do, a
# crate that fails, a prover that is killed, an interrupt.
no_program=1
. "$(dirname "$0")/../lib/common"

top=$room/top
mkdir -p "$top/tools" "$top/crates" "$room/kit"
cp -r Makefile examples "$top"
cp tools/{build,machine,over_gate,hardening,machine_archive} "$top/tools"
cp -r c "$top"
echo 'Handles allowed: none.' > "$top/HANDLES"
cat > "$top/crates.txt" << 'END'
# -- what a program needs, lowest first

low: bstr
left: low
right: low
msgfmt: left right
shared: right
catserve_program: shared
catsession: shared
kobdzila_c staticlib: left
END
for name in low left right msgfmt shared catserve_program catsession kobdzila_c; do
  mkdir -p "$top/crates/$name/src"
  echo "// $name" > "$top/crates/$name/src/lib.rt"
done
for name in msgfmt catserve_program catsession; do mv "$top/crates/$name/src/lib.rt" "$top/crates/$name/src/main.rt"; done

# the toolchain: it notes when it begins and ends a crate, and makes what rt would make. Like rt it first proves the
# libraries below that have no stamp, or another one than their sources
cat > "$room/rt" << 'END'
#!/bin/sh
name=$(basename "$PWD")
prove() (
  for low in $(sed -n "s/^$1[ :]//p" ../../crates.txt | sed 's/.*://'); do [ ! -d "../$low" ] || prove "$low"; done
  sum=$(cat "../$1"/src/* | cksum)
  [ "$(cat "../$1/out/rlib/stamp" 2> /dev/null)" != "$sum" ] || exit 0
  mkdir -p "../$1/out/rlib"
  echo "$sum" > "../$1/out/rlib/stamp"
  echo "proves $1" >> "$NOTES"
)
case $1 in
  version) echo kit; exit ;;
  doc) echo "$KIT/page.md"; exit ;;
esac
echo "begins $name" >> "$NOTES"
echo "so far: 0 of 2 functions checked; the verdict comes last"
sleep "${SLOW:-0.1}"
[ "${FAILS:-}" != "$name" ] || { echo "fn $name::twice: not proved"; exit 1; }
[ "${KILLED:-}" != "$name" ] || kill -9 $$
prove "$name"
echo "fn $name::once: proved" >&2
mkdir -p out
printf '#!/bin/sh\n[ "$1" != -o ] || echo made > "$2"\n' > "out/$name"
chmod +x "out/$name"
cp "out/$name" "out/lib$name.a"
echo "ends $name" >> "$NOTES"
END
chmod +x "$room/rt"
export RT=$room/rt KIT=$room/kit NOTES=$room/notes CC=$room/no-compiler LANES=3

# build WORD..: runs the tool; its $status, and in $room/said what it said
build() {
  : > "$NOTES"
  timeout 60 "$top/tools/build" "$@" > "$room/said" 2>&1 < /dev/null
  status=$?
}

# noted TEXT: the line of $NOTES that is this text
noted() { grep -nx "$1" "$NOTES" | cut -d: -f1; }

# tell NAME CONDITION..: the condition holds
tell() {
  local name=$1
  shift
  if "$@"; then ok "build: $name"; else failed "build: $name" "status $status; $(tr '\n' ';' < "$room/said" | tail -c 400)"; fi
}

says() { grep -q -- "$1" "$room/said"; }
is_before() { [ "$(noted "$1")" -lt "$(noted "$2")" ]; }
in_order() {
  is_before 'ends low' 'begins left' && is_before 'ends left' 'begins msgfmt' && is_before 'ends right' 'begins msgfmt' &&
    is_before 'ends shared' 'begins catsession'
}
side_by_side() { is_before 'begins left' 'ends right' && is_before 'begins right' 'ends left'; }
stops_with() { [ "$status" = "$1" ] && says "$2"; }
all_made() { [ "$status" = 0 ] && [ -x "$top/bin/msgfmt" ] && [ -x "$top/bin/catserve" ] && [ -x "$top/bin/catsession" ]; }

FAILS=left build
tell 'a crate that fails is named, with its log' stops_with 1 'left was not built; all that was said is in build/log/left.log'
KILLED=right build
tell 'so is a prover that was killed' stops_with 1 'ended by signal 9'
build
tell 'all programs are made' all_made
tell 'a crate comes after those that it depends on' in_order
tell 'two that do not depend on each other are proved side by side' side_by_side
tell 'a lane takes what another lane has proved' test -z "$(grep '^proves' "$NOTES" | sort | uniq -d)"
tell 'it says what is left' says 'msgfmt: 1 functions proved in 0:0., [0-9] crates left'
tell 'examples are compiled' test -s "$top/build/examples/fr.mo"
echo '// more' >> "$top/crates/low/src/lib.rt"
LANES=1 build
tell 'one after another, msgfmt and what it needs come first' is_before 'ends msgfmt' 'begins shared'

began=$(date +%s%N)
build
took=$((($(date +%s%N) - began) / 1000000))
tell 'with nothing to do it says so' stops_with 0 'msgfmt, catserve, catsession: nothing to do'
tell 'and proves nothing, within two seconds' test "$took" -lt 2000 -a ! -s "$NOTES"
echo '// more' >> "$top/crates/shared/src/lib.rt"
build
tell 'an edit makes anew what needs it, and not msgfmt' test -n "$(noted 'ends catserve_program')" -a -z "$(noted 'begins msgfmt')"
build perl
tell 'an unknown target is refused' stops_with 1 'usage: tools/build'

# for another machine: a stand-in for the compiler and for binutils
MACHINE=vax build
tell 'an unknown machine is refused' stops_with 1 'MACHINE is vax, and not x86_64 or aarch64'
MACHINE=aarch64 build
tell 'another machine needs its compiler' stops_with 1 'there is no .*/no-compiler with binutils'
mkdir -p "$room/kit/bin" "$room/cross"
for it in gcc objcopy ar; do
  printf '#!/bin/sh\nfor to; do [ "$last" != -o ] || : > "$to"; last=$to; done\n' > "$room/cross/aarch64-linux-gnu-$it"
done
cat > "$room/kit/bin/rattle" << 'END'
#!/bin/sh
echo "compiles $*" >> "$NOTES"
while [ "$1" != -o ]; do shift; done
: > "$2"
echo 'logic=proved target=aarch64-unknown-linux-gnu' >&2
END
chmod +x "$room"/cross/* "$room/kit/bin/rattle"
plain=$PATH compiler=$CC
export MACHINE=aarch64 PATH=$room/cross:$PATH CC=
build catsession
compiled=$(sed -n 's/^compiles build --crate-name \([a-z]*\) .* --target \([^ ]*\) .*/\1 for \2/p' "$NOTES")
tell 'for another machine only the crate of the program is compiled' \
  test "$status $compiled" = '0 catsession for aarch64-unknown-linux-gnu'
tell 'and no library is proved once more' test -z "$(noted 'proves shared')$(noted 'proves low')"
tell 'its verdict is kept' grep -q target=aarch64 "$top/build/aarch64/proved/catsession.o.verdict"
tell 'what was built is in its folder' test -e "$top/build/aarch64/bin/catsession" -a -e "$top/build/aarch64/static/catsession"
build catsession
tell 'and it is built once' stops_with 0 'catsession: nothing to do'
unset MACHINE
PATH=$plain CC=$compiler

echo '// more' >> "$top/crates/low/src/lib.rt"
: > "$NOTES"
# (a shell gives its children in the background no interrupt, so Python starts the tool, with the default of SIGINT)
SLOW=20 timeout 60 python3 - "$top/tools/build" > "$room/said" 2>&1 << 'END'
import signal, subprocess, sys, time
signal.signal(signal.SIGINT, signal.SIG_DFL)
with subprocess.Popen([sys.argv[1]]) as run:
    time.sleep(2)
    run.send_signal(signal.SIGINT)
    sys.exit(run.wait(10))
END
status=$?
tell 'an interrupt says how much is left' stops_with 1 'interrupted with [0-9]* of [0-9]* crates left; run make again to go on'
sleep 0.2
tell 'and leaves no prover at work' test -z "$(pgrep -f "$room/rt")"
