#!/usr/bin/env bash
# Reads the programs and libraries that were built, and compares how they are hardened with the table of
# docs/internals/hardening.md.
no_program=1
. "$(dirname "$0")/../lib/common"
page=docs/internals/hardening.md

if ! tests/lib/needs readelf binutils; then
  skipped hardening 'no binutils, and it could not be installed'
  exit 0
fi

# yes_if WORD..: prints yes where the words succeed, and else no
yes_if() { if "$@" > /dev/null; then echo yes; else echo no; fi; }

has_any_address() { readelf -hW "$1" | grep -q 'Type: *DYN'; }
has_read_only_tables() { readelf -lW "$1" | grep -q GNU_RELRO && readelf -dW "$1" | grep -qE 'BIND_NOW|Flags:.*NOW'; }
# (no segment is both writable and executable, and the stack has a segment that says so)
has_no_code_on_the_stack() { readelf -lW "$1" | grep -q 'GNU_STACK .* RW ' && ! readelf -lW "$1" | grep -qE ' RWE '; }
is_marked() { readelf -nW "$1" | grep -qE 'IBT|SHSTK'; }

# jumps FILE: whether calls by pointer are checked: `C alone` where functions of C begin with endbr64, and the file as a
# whole isn't marked
jumps() {
  if is_marked "$1"; then echo yes
  elif [[ $1 = *.so* ]] && objdump -d --no-show-raw-insn "$1" | grep -A 1 -E '<(kob_gettext|dcgettext)(@@.*)?>:' | grep -q endbr64; then
    echo 'C alone'
  else
    echo no
  fi
}

# flags FILE: whether its parts in C were compiled with the flags: what they call shows it in a library. A static program
# has such calls of the C library's own as well; how its C is compiled is looked at below
flags() {
  case $1 in
    bin/msgfmt-or-gnu | bin/kob-* | build/static/*) echo yes ;;
    *.so*) yes_if grep -qE "$2" <(readelf -W --dyn-syms "$1") ;;
    *) echo 'no C' ;;
  esac
}

# row FILE: its row of the table
row() {
  echo "| \`$1\` | $(yes_if has_any_address "$1") | $(yes_if has_read_only_tables "$1") |" \
    "$(yes_if has_no_code_on_the_stack "$1") | $(flags "$1" '__stack_chk_fail') | $(flags "$1" '__[a-z]+_chk') | $(jumps "$1") |"
}

for file in $(sed -n 's/^| `\([^`]*\)` |.*/\1/p' $page); do
  if [ ! -f "$file" ]; then
    skipped "hardening: $file" 'it was not built'
  elif got=$(row "$file") && grep -qxF "$got" $page; then
    ok "hardening: $file"
  else
    failed "hardening: $file" "$got"
  fi
done

# a file that is not hardened is found
printf 'int main(void) { return 0; }\n' > "$room/plain.c"
if tests/lib/needs cc gcc libc6-dev && cc -no-pie -Wl,-z,norelro -Wl,-z,execstack -o "$room/plain" "$room/plain.c"; then
  got=$(row "$room/plain")
  if [ "$got" = "| \`$room/plain\` | no | no | no | no C | no C | no |" ]; then ok 'hardening: a program without it is found'
  else failed 'hardening: a program without it is found' "$got"; fi
else
  skipped 'hardening: a program without it is found' 'no C compiler, or it cannot make such a program'
fi

# each file of C is compiled with the flags: a compiler that notes how it is called
if ! tests/lib/needs cc gcc libc6-dev; then
  skipped 'hardening: the flags of C' 'no C compiler'
  exit 0
fi
read -r -a wanted <<< "$(tools/hardening cc)"
cat > "$room/cc" << END
#!/bin/sh
case " \$* " in *.c\ *) printf '%s\n' "\$*" >> "$room/notes" ;; esac
exec cc "\$@"
END
chmod +x "$room/cc"

# compiled NAME: each call that the compiler noted has all flags
compiled() {
  local it line missing=''
  [ -s "$room/notes" ] || missing="nothing was compiled: $(tail -n 2 "$room/log")"
  while read -r line; do
    for it in "${wanted[@]}"; do [[ " $line " == *" $it "* ]] || missing+="no $it in: ${line: -60}; "; done
  done < "$room/notes"
  if [ -z "$missing" ]; then ok "hardening: $1"; else failed "hardening: $1" "${missing:0:300}"; fi
  rm -f "$room/notes"
}

mkdir -p "$room/tree/crates/kobdzila_c/out" "$room/tree/build/static"
cp -r c include tools crates.txt VERSION "$room/tree"
export CC=$room/cc
"$room/tree/tools/build_driver" > "$room/log" 2>&1
compiled 'msgfmt-or-gnu is compiled with the flags'
if ! command -v python3 > /dev/null || ! tests/lib/needs ar binutils; then
  skipped 'hardening: the static programs are compiled with the flags' 'no python3, or no ar'
else
  python3 -B -c 'import importlib.machinery, sys
importlib.machinery.SourceFileLoader("build", sys.argv[1]).load_module().machine_archive()' "$room/tree/tools/build" > "$room/log" 2>&1
  compiled 'the static programs are compiled with the flags'
fi
if [ -f crates/kobdzila_c/out/libkobdzila_c.a ]; then
  cp crates/kobdzila_c/out/libkobdzila_c.a "$room/tree/crates/kobdzila_c/out"
  "$room/tree/tools/build_library" --made > "$room/log" 2>&1
  compiled 'libkobdzila is compiled with the flags'
  for it in kob-compile kob-msgunfmt; do
    PROGRAM=$it "$room/tree/tools/build_driver" > "$room/log" 2>&1
    compiled "$it is compiled with the flags"
  done
else
  skipped 'hardening: libkobdzila and the programs over it are compiled with the flags' 'its proved part is not here, as make or make check leaves it'
fi
if [ -f build/lib/libkobdzila.a ] && said=$(tools/wheel "$room/wheel" 2>&1); then
  compiled 'the Python extension is compiled with the flags'
else
  skipped 'hardening: the Python extension is compiled with the flags' "no wheel can be built: ${said:-there is no library}"
fi
