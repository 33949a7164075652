#!/usr/bin/env bash
# Asks gettext by libkobdzila-intl.so from 8 threads while two others bind text domains, one replaces a catalogue, one
# changes the locale, one forks and one is cancelled, 200 times each (tests/intl/gettext_threads.c): as it is, with
# AddressSanitizer and with ThreadSanitizer, these two without forks. bench/intl_threads does it for a minute. Before that,
# texts are converted in one thread while another one asks for them (tests/intl/converted_threads.c).
no_program=1
. "$(dirname "$0")/../lib/common"
. tests/lib/c_common
name='gettext in threads'

if ! command -v python3 > /dev/null; then
  skipped "$name" 'no python3, which makes the catalogues'
  exit 0
fi
has_library "$name" || exit 0
python3 -B -c 'import sys; sys.path.insert(0, "tests/intl"); import intl_answers as a; from pathlib import Path
for text in ("one", "other"): a.install(Path(sys.argv[1], text), "fr", "app", a.mo({b"text": text.encode()}))' "$room"

# asks HOW FOLDER FLAG..: compiles the program with the library in FOLDER, and runs it
asks() {
  local how=$1 folder=$2
  shift 2
  compiles "$name, $how" "threads_$how" tests/intl/gettext_threads.c "$@" -Wl,--no-as-needed "$folder/libkobdzila-intl.so" \
    -Wl,-rpath,"$folder" || return
  if [ "$how" = thread ] && "${fixed[@]}" "$room/threads_$how" 2>&1 | grep -q 'unexpected memory mapping'; then
    skipped "$name, $how" "ThreadSanitizer doesn't run where memory is laid out so much at random"
    return
  fi
  runs "$name, $how" env LC_ALL=C.UTF-8 LANGUAGE=fr ASAN_OPTIONS=detect_leaks=0:use_sigaltstack=0 \
    TSAN_OPTIONS=halt_on_error=1 "${fixed[@]}" "$room/threads_$how" "$room/one" "$room/other" 1 200
}

compiles "$name, a text that another thread converts" converted -Ic/intl tests/intl/converted_threads.c c/intl/codesets.c \
  c/intl/named.c && runs "$name, a text that another thread converts" "$room/converted"

# (ThreadSanitizer of GCC 12 can't take as many random bits in addresses as some systems have)
fixed=(env)
setarch -R true 2> /dev/null && fixed=(setarch -R)

asks plain "$library"
if readelf -dW "$library/libkobdzila-intl.so" | grep -q NODELETE; then
  ok "$name, a thread that ends after dlclose"
else
  failed "$name, a thread that ends after dlclose" 'the library may be unloaded, and then its function is missing'
fi
for flags in address thread; do
  sanitized "$name, -fsanitize=$flags" $flags && asks $flags "$room/$flags/build/lib" -fsanitize=$flags
done
