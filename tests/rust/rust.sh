#!/usr/bin/env bash
# Builds the crates of rust/ over libkobdzila, offline and in a folder of their own, and tests them: with the static
# library and the shared one, with the oldest compiler that they promise, under valgrind and with AddressSanitizer, with
# each request for memory refused, their declarations against changed copies of kobdzila.h, their packages, and the
# programs of docs/guide/rust*.md as a new user makes them.
no_program=1
. "$(dirname "$0")/../lib/common"
header=include/kobdzila.h
version=$(cat VERSION)

if ! cargo --version > /dev/null 2>&1; then
  skipped 'the Rust crate' 'no cargo'
  exit 0
fi
if ! tests/lib/needs cc gcc libc6-dev; then
  skipped 'the Rust crate' 'no C compiler to link with, and it could not be installed'
  exit 0
fi
if [ ! -f build/lib/libkobdzila.so.0 ] || [ ! -f build/lib/libkobdzila.a ]; then
  skipped 'the Rust crate' 'libkobdzila was not built'
  exit 0
fi

# a copy, since cargo writes into the folder of a crate as well
tar cf - --exclude target --exclude Cargo.lock rust include tests/python/negotiation.tsv | tar xf - -C "$room"
crate=$room/rust
export CARGO_TARGET_DIR=$room/target CARGO_NET_OFFLINE=true CARGO_TERM_COLOR=never
# (neither files for a next build nor all debug information: a quarter less processor time)
export CARGO_INCREMENTAL=0 CARGO_PROFILE_DEV_DEBUG=line-tables-only
export KOBDZILA_LIB_DIR=$PWD/build/lib LD_LIBRARY_PATH=$PWD/build/lib
unset RUSTFLAGS RUSTDOCFLAGS DOCS_RS

# why: the end of what the last command said, in one line
why() { grep -vE '^(warning: build failed|$)' "$room/log" | tail -n 6 | tr '\n' ' ' | tail -c 400; }

# ends COMMAND..: runs it in the folder of the crate, and stops it after fifteen minutes, which $room/log says then
ends() {
  local status
  (cd "$crate" && timeout 900 "$@") > "$room/log" 2>&1
  status=$?
  [ $status != 124 ] || echo 'stopped after 900 seconds' >> "$room/log"
  return $status
}

# does NAME COMMAND..: the command ends well in the folder of the crate
does() {
  local name=$1
  shift
  if ends "$@"; then ok "$name"; else failed "$name" "$(why)"; fi
}

# passes NAME COMMAND..: the tests pass; the line says how many
passes() {
  local name=$1 count
  shift
  if ends "$@"; then
    count=$(awk '/^test result: ok\. / { sum += $4 } END { print sum + 0 }' "$room/log")
    if [ "$count" -gt 0 ]; then ok "$name: $count"; else failed "$name" 'no test ran'; fi
  else
    failed "$name" "$(why)"
  fi
}

# prints NAME WANTED COMMAND..: the command ends well and prints just this
prints() {
  local name=$1 wanted=$2 got
  shift 2
  if got=$(cd "$crate" && timeout 900 "$@" 2> "$room/log") && [ "$got" = "$wanted" ]; then
    ok "$name"
  else
    failed "$name" "it printed '$(head -c 200 <<< "$got")'; $(why)"
  fi
}

# --- the tests ----------------------------------------------------------------------------------------------------

if [ -x bin/catsession ]; then
  export KOBDZILA_CATSESSION=$PWD/bin/catsession
else
  skipped 'the Rust crate, sessions' 'catsession was not built'
fi
passes 'the Rust crates, tests with the static library' cargo test --workspace --all-features --lib --tests --examples
passes 'the Rust crates, examples in the documentation' cargo test --workspace --all-features --doc
passes 'the Rust crate, tests with the shared library' cargo test --no-default-features --test it
program=$(cd "$crate" && cargo test --all-features --test it --no-run 2>&1 | sed -n 's/.*Executable.*(\(.*\))/\1/p')
# (a user namespace has limits of its own: the system then reports no changes of folders)
name='the Rust crate, a watch where the system reports no changes'
script unreported 'exec unshare -Ur sh -c '"'"'echo 0 > /proc/sys/user/max_inotify_instances && exec "$@"'"'"' - "$@"'
if ! "$room/unreported" true 2> "$room/log"; then
  skipped "$name" 'no user namespaces'
else
  passes "$name" "$room/unreported" "$program" a_change_that_is_not_reported
fi
if ! tests/lib/needs valgrind valgrind; then
  skipped 'the Rust crate, valgrind' 'no valgrind, and it could not be installed'
else
  # (what the test harness itself keeps to the end is no leak of the crate. valgrind runs one thread at a time: without
  # turns, readers that never rest can keep a writer from its own for minutes. Its posix_spawn starts a copy of the process,
  # so a program that is missing isn't told)
  does 'the Rust crate, valgrind' valgrind -q --error-exitcode=9 --leak-check=full --show-leak-kinds=definite,indirect \
    --errors-for-leak-kinds=definite,indirect --max-stackframe=4000000 --fair-sched=yes "$program" --test-threads=1 \
    --skip a_program_that_is_missing
fi
# (as on an old server of NFS: a file that changes twice within a second, and keeps its size, has the same times)
name='the Rust crate, a watch where times are whole seconds'
image=$room/seconds.image
mkdir "$room/seconds"
if [ "$(id -u)" != 0 ] || ! tests/lib/needs mke2fs e2fsprogs; then
  skipped "$name" 'only root can mount a file system, or there is no e2fsprogs'
elif ! { truncate -s 4M "$image" && mke2fs -q -t ext3 -I 128 "$image" &&
         unshare -m mount -o loop "$image" "$room/seconds"; } > "$room/log" 2>&1; then
  skipped "$name" "a file system of this kind can't be mounted: $(why)"
else
  # shellcheck disable=SC2016
  passes "$name" env TMPDIR="$room/seconds" unshare -m sh -c 'mount -o loop "$1" "$TMPDIR" && exec "$2" --exact "$3"' - \
    "$image" "$program" watches::a_file_may_change_several_times_within_a_second
fi
host=$(rustc -vV | sed -n 's/^host: //p')
asan=
[ ! -f "$(rustc +nightly --print sysroot 2> /dev/null)/lib/rustlib/$host/lib/librustc-nightly_rt.asan.a" ] || asan=yes
if [ -n "$asan" ]; then
  passes 'the Rust crate, AddressSanitizer' env RUSTFLAGS=-Zsanitizer=address CARGO_TARGET_DIR="$room/sanitized" \
    cargo +nightly test --all-features --test it --target "$host"
else
  skipped 'the Rust crate, AddressSanitizer' 'no nightly toolchain with it'
fi

# the stand-in for the library, of which each string is an allocation of its own: a borrow that is too long is a use
# after free there
stand_in='--cfg miri -A explicit_builtin_cfgs_in_flags'
if cargo +nightly miri --version > /dev/null 2>&1; then
  passes 'the Rust crate, Miri' env CARGO_TARGET_DIR="$room/miri" MIRIFLAGS=-Zmiri-disable-isolation \
    cargo +nightly miri test --features macros --test it
else
  skipped 'the Rust crate, Miri' 'no nightly toolchain with it'
fi
if [ -n "$asan" ]; then
  passes 'the Rust crate, the stand-in for the library, AddressSanitizer' env CARGO_TARGET_DIR="$room/stand_in" \
    RUSTFLAGS="$stand_in -Zsanitizer=address" cargo +nightly test --features macros --test it --target "$host"
  # (an answer that is read after its entry, by the calls of C: the stand-in shows it)
  name='the Rust crate, the stand-in shows an answer that outlives its entry'
  mkdir -p "$crate/kobdzila-sys/examples"
  cat > "$crate/kobdzila-sys/examples/stale.rs" << 'END'
use kobdzila_sys::*;
fn main() {
    let text = |it: &'static str| kob_text { at: it.as_ptr().cast(), len: it.len() };
    let (po, mut why) = ("msgid \"Winter\"\nmsgstr \"Hiver\"\n", kob_refusal { fault: 0, line: 0 });
    unsafe {
        let fr = kob_open_po(po.as_ptr().cast(), po.len(), 0, &mut why);
        let (store, mut version) = (kob_store_new(), 0);
        kob_store_load(store, c"garden".as_ptr(), c"fr".as_ptr(), fr, &mut why);
        kob_store_publish(store, &mut version);
        let reader = kob_store_reader(store);
        let list = kob_set_languages(kob_reader_enter(reader), text("garden"), text("fr"));
        let none = kob_text { at: std::ptr::null(), len: 0 };
        let found = kob_languages_find(&list, none, text("Winter"), std::ptr::null());
        let byte = *found.at.cast::<u8>();
        println!("{byte}");
        kob_reader_enter(reader);
        let byte = *found.at.cast::<u8>();
        println!("{byte}");
    }
}
END
  if ends env CARGO_TARGET_DIR="$room/stand_in" ASAN_OPTIONS=detect_leaks=0 RUSTFLAGS="$stand_in -Zsanitizer=address" \
    cargo +nightly run -p kobdzila-sys --example stale --target "$host"; then
    failed "$name" 'it ended well'
  elif grep -q '^72$' "$room/log" && grep -q 'heap-use-after-free' "$room/log"; then
    ok "$name"
  else
    failed "$name" "$(why)"
  fi
  rm -r "$crate/kobdzila-sys/examples"
else
  skipped 'the Rust crate, the stand-in for the library' 'no nightly toolchain with AddressSanitizer'
fi

# the oldest compiler that `rust-version` promises is that of Debian 12
old=/usr/bin/rustc
oldest=$(sed -n 's/^rust-version = "\(.*\)"/\1/p' rust/Cargo.toml)
name="the Rust crates, rustc $oldest"
if ! tests/lib/needs $old rustc cargo || ! tests/lib/needs /usr/bin/cargo cargo; then
  skipped "$name" 'no rustc and cargo of Debian, and they could not be installed'
elif ! $old --version | grep -q "^rustc ${name##* }\."; then
  skipped "$name" "Debian's is $($old --version)"
else
  # (a copy of its own: an older cargo doesn't read the Cargo.lock of a newer one)
  mkdir "$room/old"
  tar cf - --exclude target --exclude Cargo.lock rust include tests/python/negotiation.tsv | tar xf - -C "$room/old"
  crate=$room/old/rust
  # (it knows no debug information of lines alone)
  passes "$name" env -u CARGO_PROFILE_DEV_DEBUG PATH="/usr/bin:$PATH" RUSTC=$old CARGO_TARGET_DIR="$room/old/target" \
    /usr/bin/cargo test --workspace --all-features --lib --tests --examples
  crate=$room/rust
fi

# --- the declarations ---------------------------------------------------------------------------------------------

# finds FROM TO: the test of the declarations fails over a header with this change
finds() {
  local name="the Rust crate, a changed header: $1"
  sed "s/$1/$2/" $header > "$room/changed.h"
  if cmp -s $header "$room/changed.h"; then
    failed "$name" 'the header has no such text'
  elif (cd "$crate" && KOBDZILA_HEADER=$room/changed.h cargo test -q --workspace --test header) > "$room/log" 2>&1; then
    failed "$name" 'the change was not found'
  elif grep -q 'panicked at' "$room/log"; then
    ok "$name"
  else
    failed "$name" "$(why)"
  fi
}

while IFS='^' read -r from to; do
  finds "$from" "$to"
done << 'END'
size_t kob_count(^int kob_count(
kob_text msgid, const unsigned long long \*n^kob_text msgid, unsigned long long n
unsigned line;^unsigned long line;
kob_text context, msgid, plural;^kob_text msgid, context, plural;
KOB_USE_FUZZY = 2^KOB_USE_FUZZY = 4
KOB_PO_DUPLICATE = 109,^KOB_PO_DUPLICATE = 110,
    KOB_BAD_NAME = 202^    KOB_NEW = 203,\n    KOB_BAD_NAME = 202
int kob_store_publish(kob_store \*store, unsigned long long^int kob_store_publish(kob_store *store, unsigned long
const kob_set \*kob_reader_enter(^kob_set *kob_reader_enter(
END

# --- the sources --------------------------------------------------------------------------------------------------

name='the Rust crates, formatted'
if rustfmt --version > /dev/null 2>&1; then does "$name" cargo fmt --all --check; else skipped "$name" 'no rustfmt'; fi
name='the Rust crates, clippy'
if cargo clippy --version > /dev/null 2>&1; then
  does "$name" cargo clippy --workspace --all-features --all-targets -- -D warnings
  does "$name, no feature" cargo clippy --no-default-features --all-targets -- -D warnings
else
  skipped "$name" 'no clippy'
fi
# (as on docs.rs, where there is no library)
does 'the Rust crates, rustdoc without the library' env -u KOBDZILA_LIB_DIR DOCS_RS=1 PKG_CONFIG=/no/such/pkg-config \
  RUSTDOCFLAGS='-D warnings' CARGO_TARGET_DIR="$room/documents" cargo doc --workspace --all-features --no-deps
name='the Rust crate, each public item has an example'
said=$(python3 -B tests/rust/rust_examples.py "$room/rust/src" 2>&1)
if [ -z "$said" ]; then ok "$name"; else failed "$name" "$said"; fi
# (Python's tests compare its tables with CLDR's)
name='the Rust crate, its likely scripts are those of the Python package'
said=$(python3 -B tests/rust/rust_scripts.py 2>&1)
if [ -z "$said" ]; then ok "$name"; else failed "$name" "$said"; fi
name='the Rust crate, unsafe code in one module'
said=$(grep -rlw unsafe "$crate/src" | grep -v -e '/src/sys.rs$' -e '/src/sys/' | xargs -r grep -Hnw unsafe)
if [ -z "$said" ]; then ok "$name"; else failed "$name" "$said"; fi
for it in rust rust/kobdzila-sys; do
  name="version: $it"
  said=$(sed -n 's/^version = "\(.*\)"/\1/p' $it/Cargo.toml)
  if [ "$said" = "$version" ]; then ok "$name"; else failed "$name" "$said and not $version"; fi
done
for it in target_os.linux target_pointer_width.64; do
  name="the Rust crates, another ${it%.*}"
  sed "s/${it%.*} = \"${it#*.}\"/${it%.*} = \"none\"/" rust/kobdzila-sys/src/lib.rs > "$crate/kobdzila-sys/src/other.rs"
  if ! (cd "$crate/kobdzila-sys" && rustc --edition 2021 --crate-type lib --emit metadata -o "$room/other" src/other.rs) \
    2> "$room/log" && grep -q 'libkobdzila runs on 64-bit Linux' "$room/log"; then
    ok "$name"
  else
    failed "$name" "$(why)"
  fi
  rm "$crate/kobdzila-sys/src/other.rs"
done
# (there as well, the script is built and run before the message: it may use nothing that only Unix has)
name='the Rust crates, the build script where there is no Unix'
sed 's/\bunix\b/none/g' rust/kobdzila-sys/build.rs > "$room/build.rs"
if rustc --edition 2021 -A unexpected_cfgs -o "$room/build_script" "$room/build.rs" 2> "$room/log" &&
  (cd "$room" && env CARGO_CFG_TARGET_OS=none ./build_script) > "$room/log" 2>&1; then
  ok "$name"
else
  failed "$name" "$(why)"
fi

# --- the programs -------------------------------------------------------------------------------------------------

prints 'the Rust crate, examples/hello.rs' $'Hiver\n3 tomates' cargo run -q --example hello
printf 'msgid "a"\nmsgstr "x"\nmsgid "a"\nmsgstr "y"\n' > "$room/twice.po"
name='the Rust crate, examples/check_po.rs'
said=$(cd "$room" && cargo run -q --manifest-path rust/Cargo.toml --example check_po \
  twice.po rust/examples/fr.po none.po 2>&1)
status=$?
if [ "$status:$said" = $'1:twice.po:3: duplicate message\nrust/examples/fr.po: 5 entries
none.po: file not readable: No such file or directory (os error 2)' ]; then
  ok "$name"
else
  failed "$name" "status $status, $said"
fi

# (the limit leaves room for the program and the text, and none for the catalogue)
name='the Rust crate, out of memory'
seq 60000 | sed 's/.*/msgid "message &"\nmsgstr "the translation of &"/' > "$room/large.po"
(cd "$crate" && cargo build -q --example check_po) > "$room/log" 2>&1
said=$(cd "$room" && ulimit -v 12000 && target/debug/examples/check_po large.po 2>&1)
if [ "$said" = 'large.po: out of memory' ]; then ok "$name"; else failed "$name" "it said '$said'; $(why)"; fi

# each request of rust/tests/memory.rs refused in turn: a call returns out of memory, or the program ends as a program
# in Rust does then
name='the Rust crate, each request for memory refused'
if makes_refuser "$name"; then
  program=$(cd "$crate" && cargo test --features watch --test memory --no-run 2>&1 | sed -n 's/.*Executable.*(\(.*\))/\1/p')
  n=0 wrong=
  while [ -z "$wrong" ] && refuses $((n + 1)) "$program" >> "$room/refusals" 2> "$room/log"; do
    n=$((n + 1))
    # (the C library ends a program that has no memory for a thread's variables)
    [ "$status" = 0 ] || grep -qE '^(memory allocation of [0-9]* bytes failed|Fatal glibc error: .*: out of memory$)' \
      "$room/log" || wrong="request $n: $(why)"
  done
  said=$(sort -u "$room/refusals" | grep -v '^publish: not published: out of memory, or the store is busy$')
  if [ -z "$wrong" ] && [ "$said" = $'catalogue: out of memory\nload: out of memory
notice: out of memory\nreader: out of memory\nwatch: out of memory' ]; then
    ok "$name: $n"
  else
    failed "$name" "${wrong:-it said '$said'}"
  fi
fi

# fenced WORD: the first block of the guide that is fenced as this
fenced() { awk -v fence="\`\`\`$1" '$0 == "```" && on { exit } on; $0 == fence { on = 1 }' "$top/docs/guide/rust.md"; }

top=$PWD

# packed CRATE: its package has these files, which standard input lists, and no others
packed() {
  local name="the Rust crate $1, the files of its package" said
  said=$(diff <(cd "$crate" && cargo package --list --allow-dirty -p "$1" 2> "$room/log" | sort) <(sort) 2>&1)
  if [ -z "$said" ]; then ok "$name"; else failed "$name" "$(tr '\n' ' ' <<< "$said")$(why)"; fi
}
git_files() { (cd "rust${1:+/$1}" && git ls-files | grep -v "$2"); }
if git ls-files --error-unmatch rust/Cargo.toml > /dev/null 2>&1; then
  { git_files '' '^kobdzila-sys/' && printf 'Cargo.lock\nCargo.toml.orig\n'; } | packed kobdzila
  { git_files kobdzila-sys '^$' && printf 'Cargo.lock\nCargo.toml.orig\n'; } | packed kobdzila-sys
else
  skipped 'the Rust crates, the files of their packages' 'no git, or none of its files'
fi
# (without a build: the new project below is one)
does 'the Rust crates, cargo package' cargo package --workspace --allow-dirty --no-verify

name='the Rust crates, each link of their pages leads somewhere'
mkdir "$room/links"
for it in "$room/target/package"/*.crate; do tar -xzf "$it" -C "$room/links"; done
if said=$(tools/linked_pages --check "$room/links" 2>&1); then ok "$name"; else failed "$name" "$said"; fi

# as_guide FOLDER CARGO..: makes the new project of the guide in this folder, with this cargo
as_guide() {
  local folder=$1
  shift
  mkdir "$folder" &&
    for it in kobdzila kobdzila-sys; do
      tar -xzf "$room/target/package/$it-$version.crate" -C "$folder" || return 1
    done && (cd "$folder" && "$@" new -q --vcs none garden) && sed -i '/^\[dependencies\]/d' "$folder/garden/Cargo.toml" &&
    fenced toml >> "$folder/garden/Cargo.toml" && fenced rust > "$folder/garden/src/main.rs" &&
    cp examples/fr.po "$folder/garden" && crate=$folder/garden
}
name='the guide for Rust, a new project of its first program'
if as_guide "$room/new" cargo 2> "$room/log"; then
  prints "$name" "$(fenced text)" cargo run -q
  prints "$name, of ten lines" 10 grep -c '' src/main.rs
else
  failed "$name" "$(why)"
fi
if [ -x $old ] && $old --version | grep -q "^rustc $oldest\\."; then
  if as_guide "$room/new_old" env -u CARGO_PROFILE_DEV_DEBUG PATH="/usr/bin:$PATH" RUSTC=$old /usr/bin/cargo 2> "$room/log"; then
    prints "$name, rustc $oldest" "$(fenced text)" env -u CARGO_PROFILE_DEV_DEBUG PATH="/usr/bin:$PATH" RUSTC=$old \
      CARGO_TARGET_DIR="$room/old/target" /usr/bin/cargo run -q
  else
    failed "$name, rustc $oldest" "$(why)"
  fi
fi
crate=$room/rust
name='the guide for Rust, its programs'
cp examples/fr.po "$room"
(cd "$crate" && cargo build -q --all-features) 2> "$room/log"
said=$(cd "$room" && for page in "$top"/docs/guide/rust{,-servers}.md; do
  rustdoc --test "$page" --edition 2021 -L native="$KOBDZILA_LIB_DIR" -L dependency=target/debug/deps \
    --extern kobdzila=target/debug/libkobdzila.rlib 2>&1
done)
if [ "$(grep -c '^test result: ok\. [1-9]' <<< "$said")" = 2 ]; then
  ok "$name"
else
  failed "$name" "$(tail -n 4 <<< "$said")"
fi

# the program for a terminal: its messages are extracted, translated and compiled by the commands of the guide
# command_of WORD: the block of the guide that is fenced as sh and begins with this word
command_of() {
  awk -v first="$1" '$0 == "```" { on = 0 } on == 2; on == 1 { on = index($0, first) == 1 ? 2 : 0; if (on) print }
    $0 == "```sh" { on = 1 }' "$top/docs/guide/rust.md"
}
messages='"Café {name}"
"Hello, {name}!"
"There are {n} beds to water."
"There is {n} bed to water."'
# extracts HOW COMMANDS: these commands write greeter.pot with the messages of the program
extracts() {
  local name="the guide for Rust, messages by $1" said
  rm -f "$room/greeter/greeter.pot"
  said=$(cd "$room/greeter" && bash -c "$2" 2> "$room/log" && sed -n 's/^msgid\(_plural\)* \("..*"\)$/\2/p' greeter.pot | sort)
  if [ "$said" = "$messages" ]; then ok "$name"; else failed "$name" "it found '$said'; $(why)"; fi
}
mkdir -p "$room/greeter/src"
cp rust/examples/greeter.rs "$room/greeter/src/main.rs"
# (a message in UTF-8, below a lifetime)
printf 'fn more<%sa>(name: &%sa str) -> String {\n    t!("Caf\303\251 {name}", name)\n}\n' "'" "'" > "$room/greeter/src/more.rs"
if ! tests/lib/needs xgettext gettext; then
  skipped 'the guide for Rust, messages by xgettext' 'no xgettext, and it could not be installed'
else
  if xgettext --language=Rust --output=- /dev/null > "$room/log" 2>&1; then
    extracts 'xgettext, which knows Rust' "$(command_of xgettext)"
  else
    skipped 'the guide for Rust, messages by xgettext, which knows Rust' "$(xgettext --version | head -n 1) doesn't"
  fi
  extracts 'an older xgettext' "$(command_of for)"
  name='the guide for Rust, msginit'
  if (cd "$room/greeter" && bash -c "$(command_of msginit | sed -n 1p)") > "$room/log" 2>&1 &&
    grep -q '^"Plural-Forms: nplurals=2;' "$room/greeter/fr.po"; then
    ok "$name"
  else
    failed "$name" "$(why)"
  fi
fi
name='the guide for Rust, the program for a terminal'
cat > "$room/greeter/fr.po" << 'END'
msgid ""
msgstr "Content-Type: text/plain; charset=UTF-8\nPlural-Forms: nplurals=2; plural=n>1;\n"
msgid "Hello, {name}!"
msgstr "Bonjour, {name} !"
msgid "There is {n} bed to water."
msgid_plural "There are {n} beds to water."
msgstr[0] "Il y a un massif à arroser."
msgstr[1] "Il y a {n} massifs à arroser."
END
(cd "$room/greeter" && PATH=$top/bin:$PATH bash -ec "$(command_of msginit | sed 1d)" &&
  cd "$crate" && cargo build -q --all-features --example greeter) > "$room/log" 2>&1
greeter() { (cd "$room/greeter" && env -u LANGUAGE "$@" "$room/target/debug/examples/greeter" locale Ada 3 2>&1); }
said=$(greeter LC_ALL=fr_CA.UTF-8; greeter LC_ALL=de_DE.UTF-8 LANGUAGE=sv:fr; greeter LC_ALL= LC_MESSAGES=fr LANG=C LANGUAGE=
  greeter LC_ALL=C LANGUAGE=fr; greeter LC_ALL=C LC_MESSAGES=fr)
french=$'Bonjour, Ada !\nIl y a 3 massifs à arroser.\n' english=$'Hello, Ada!\nThere are 3 beds to water.\n'
if [ "$said"$'\n' = "$french$french$french$english$english" ]; then
  ok "$name"
else
  failed "$name" "it said '$said'; $(why)"
fi

# (it is reported that a translation isn't used, but nobody reads standard error any more)
name='the guide for Rust, a report that nobody reads'
sed -i 's/Bonjour, {name}/Bonjour, {nom}/' "$room/greeter/fr.po"
bin/msgfmt -o "$room/greeter/locale/fr/LC_MESSAGES/greeter.mo" "$room/greeter/fr.po"
exec 9> >(:)
wait $!
said=$(LC_ALL=fr_CA.UTF-8 "$room/target/debug/examples/greeter" "$room/greeter/locale" Ada 3 2>&9)
exec 9>&-
if [ "$said" = $'Hello, Ada!\nIl y a 3 massifs à arroser.' ]; then ok "$name"; else failed "$name" "it said '$said'"; fi

# --- the library is found, or the build says what to do -----------------------------------------------------------

crate=$room/rust
unset KOBDZILA_LIB_DIR
name='the Rust crate, with an installed library'
if ! tests/lib/needs pkg-config pkg-config; then
  skipped "$name" 'no pkg-config, and it could not be installed'
elif ! make -s install_library DESTDIR="$room/image" PREFIX=/usr > "$room/log" 2>&1; then
  failed "$name" "$(why)"
else
  installed=(env PKG_CONFIG_PATH="$room/image/usr/lib/pkgconfig" PKG_CONFIG_SYSROOT_DIR="$room/image")
  prints "$name" $'Hiver\n3 tomates' "${installed[@]}" LD_LIBRARY_PATH= cargo run -q --example hello
  prints "$name, shared" $'Hiver\n3 tomates' "${installed[@]}" LD_LIBRARY_PATH="$room/image/usr/lib" \
    cargo run -q --example hello --no-default-features
  # (pkg-config writes a folder as a word of the shell)
  odd="$room/a folder, (with) blanks"
  mkdir -p "$odd/pkgconfig"
  cp build/lib/libkobdzila.* "$odd"
  sed "s/^libdir=.*/libdir=\${pcfiledir}\/../" "$room/image/usr/lib/pkgconfig/kobdzila.pc" > "$odd/pkgconfig/kobdzila.pc"
  prints "$name, in a folder with blanks" $'Hiver\n3 tomates' env PKG_CONFIG_PATH="$odd/pkgconfig" \
    LD_LIBRARY_PATH= cargo run -q --example hello
  # (as an upgrade does)
  touch "$odd/libkobdzila.a"
  name="$name, and another one in its place"
  if ! PKG_CONFIG_PATH=$odd/pkgconfig ends cargo build -v --example hello; then
    failed "$name" "$(why)"
  elif grep -q 'Dirty kobdzila-sys .*libkobdzila.a.* has changed' "$room/log"; then
    ok "$name"
  else
    failed "$name" 'it is not linked anew'
  fi
fi

# stops NAME TEXT COMMAND..: the build fails, and says this
stops() {
  local name="the Rust crate, $1" text=$2
  shift 2
  if (cd "$crate" && "$@") > "$room/log" 2>&1; then
    failed "$name" 'it was built'
  elif grep -qF -- "$text" "$room/log"; then
    ok "$name"
  else
    failed "$name" "$(why)"
  fi
}

stops 'no library' 'or set KOBDZILA_LIB_DIR to the folder' env PKG_CONFIG=/no/such/pkg-config cargo build
if [ -f "$room/image/usr/lib/pkgconfig/kobdzila.pc" ]; then
  mkdir "$room/next"
  sed 's/^Version:.*/Version: 1.0.0/' "$room/image/usr/lib/pkgconfig/kobdzila.pc" > "$room/next/kobdzila.pc"
  stops 'a library of another interface' 'kobdzila < 1' env PKG_CONFIG_PATH="$room/next" PKG_CONFIG_LIBDIR=/no/such/folder \
    cargo build
fi
other=aarch64-unknown-linux-gnu
[ "$(uname -m)" != aarch64 ] || other=x86_64-unknown-linux-gnu
stops 'a library of another machine' "and the program is for $other" cargo build --target "$other"
stops 'a folder without the library' 'which has no libkobdzila.a' env KOBDZILA_LIB_DIR=/ cargo build
stops 'a folder without the shared library' 'which has no libkobdzila.so' env KOBDZILA_LIB_DIR=/ \
  cargo build --no-default-features
stops 'a folder that is not a full path' 'name it by its full path' env KOBDZILA_LIB_DIR=lib cargo build
