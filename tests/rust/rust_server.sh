#!/usr/bin/env bash
# Builds the server of examples/rust/server with Debian's tiny_http, and talks to it while its catalogues are replaced
# and one is spoiled (tests/rust/rust_server.py).
no_program=1
. "$(dirname "$0")/../lib/common"
name='the server in Rust'
registry=/usr/share/cargo/registry

if ! cargo --version > /dev/null 2>&1; then
  skipped "$name" 'no cargo'
  exit 0
fi
if ! command -v python3 > /dev/null || ! tests/lib/needs cc gcc libc6-dev; then
  skipped "$name" 'no python3, which talks to it, or no C compiler to link with'
  exit 0
fi
if [ ! -f build/lib/libkobdzila.a ]; then
  skipped "$name" 'libkobdzila was not built'
  exit 0
fi
script has_tiny_http "ls -d $registry/tiny_http-0.12*"
if ! tests/lib/needs "$room/has_tiny_http" librust-tiny-http-dev; then
  skipped "$name" 'no crate tiny_http of Debian, and it could not be installed'
  exit 0
fi

tar cf - --exclude target --exclude Cargo.lock rust examples/rust | tar xf - -C "$room"
mkdir "$room/.cargo"
cat > "$room/.cargo/config.toml" << END
[source.crates-io]
replace-with = "debian"
[source.debian]
directory = "$registry"
END
cd "$room/examples/rust/server" || exit 1
export CARGO_TARGET_DIR=$room/target CARGO_NET_OFFLINE=true CARGO_TERM_COLOR=never CARGO_INCREMENTAL=0
export KOBDZILA_LIB_DIR=$OLDPWD/build/lib
unset RUSTFLAGS
if ! timeout 900 cargo build -q > "$room/log" 2>&1; then
  failed "$name, built" "$(tail -n 4 "$room/log" | tr '\n' ' ')"
  exit 0
fi
ok "$name, built with Debian's tiny_http"
if cargo clippy --version > /dev/null 2>&1; then
  if timeout 900 cargo clippy -q -- -D warnings > "$room/log" 2>&1; then
    ok "$name, clippy"
  else
    failed "$name, clippy" "$(tail -n 4 "$room/log" | tr '\n' ' ')"
  fi
fi
mkdir "$room/files"
timeout 900 python3 -B "$OLDPWD/tests/rust/rust_server.py" "$room/target/debug/garden-server" "$room/files" ||
  failed "$name" "the program that talks to it ended with status $?"
