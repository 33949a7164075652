#!/usr/bin/env bash
# Runs the server of examples/c/server.c while eight clients ask it all the time: catalogues are replaced two at a time,
# and shown by SIGHUP; one is spoiled (tests/library/c_server.py). Once by itself, and once with AddressSanitizer.
no_program=1
. "$(dirname "$0")/../lib/common"
. tests/lib/c_common
name='the server in C'

if ! command -v python3 > /dev/null; then
  skipped "$name" 'no python3, which talks to it'
  exit 0
fi
has_library "$name" || exit 0

# serves HOW FOLDER FLAG..: compiles the server with the library in FOLDER, and talks to it
serves() {
  local how=$1 folder=$2
  shift 2
  mkdir "$room/$how.files"
  compiles "$name, $how" "server_$how" examples/c/server.c "$@" "$folder/libkobdzila.a" &&
    runs "$name, $how" python3 -B "$PWD/tests/library/c_server.py" "$room/server_$how" "$room/$how.files"
}

serves plain "$library"
if sanitized "$name, sanitized" address,undefined; then
  serves sanitized "$room/address-undefined/build/lib" -fsanitize=address,undefined -fno-sanitize-recover=all
fi
