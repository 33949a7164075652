#!/usr/bin/env bash
# Hands the programs of docs/guide/rattle-store.md that must not compile to the compiler, each as a crate of its own above
# live_versions and live_set, and compares the error that it names with the one in the program's first line.
. "$(dirname "$0")/../lib/common"
read -r -a rt <<< "${RT:-rt}"

if ! command -v "${rt[0]}" > /dev/null; then
  failed refused_programs "no ${rt[0]} on the PATH"
  exit 0
fi
mkdir -p "$room/repo/crates"
cp HANDLES crates.txt "$room/repo/"
tar cf - --exclude out crates | tar xf - -C "$room/repo"

# each program goes into a crate that has the name of its function, after `pub fn`
awk -v room="$room/repo/crates" '
  /^```rust$/ { inside = 1; text = ""; error = ""; next }
  /^```$/ && inside {
    inside = 0
    if (error != "") {
      dir = room "/" name; system("mkdir -p " dir "/src")
      printf "//! A program that must not compile.\n#![tactic(auto)]\n\n#[cfg(test)]\nmod tests;\n\n%s", text > (dir "/src/lib.rt")
      printf "#[test]\nfn nothing() {}\n" > (dir "/src/tests.rt")
      print name, error
    }
    next
  }
  inside && /^\/\/ does not compile: / { error = $NF; next }
  inside { text = text $0 "\n" }
  inside && /^pub fn / { name = $3; sub(/[(<].*/, "", name) }
' docs/guide/rattle-store.md > "$room/programs"

while read -r name error; do
  echo "$name: live_versions live_set" >> "$room/repo/crates.txt"
  # (rt try compiles without a proof: the errors of these programs come before it)
  (cd "$room/repo/crates/$name" && "${rt[@]}" try --test < /dev/null) > "$room/answer" 2>&1
  if grep -q "error\[$error\]" "$room/answer"; then
    ok "refused program, $name: $error"
  else
    failed "refused program, $name" "$(grep -m 1 error "$room/answer" || tail -n 1 "$room/answer")"
  fi
done < "$room/programs"
[ "$(wc -l < "$room/programs")" = 3 ] || failed refused_programs 'docs/guide/rattle-store.md has not three of them'
