#!/usr/bin/env bash
# Runs tests/intl/gettext_chains.c with libkobdzila-intl.so: 10,000 times dlopen of a plugin whose constructor calls
# gettext, beside a thread for which iconv loads modules; a signal handler that calls gettext; and 16 threads that ask
# in five codesets, with children that are forked meanwhile. As it is, in a set-uid program, under valgrind, with
# AddressSanitizer and with ThreadSanitizer, these two without forks.
no_program=1
. "$(dirname "$0")/../lib/common"
. tests/lib/c_common
name='gettext in chains'

if ! command -v python3 > /dev/null; then
  skipped "$name" 'no python3, which makes the catalogues'
  exit 0
fi
has_library "$name" || exit 0
chmod 755 "$room"
python3 -B - "$room" << 'END_OF_PYTHON'
import sys
from pathlib import Path
sys.path.insert(0, "tests/intl")
import intl_answers as answers
latin = answers.UTF8.replace(b"UTF-8", b"ISO-8859-1")
texts = {"text": "é texte", "file\0files": "un é\0deux é"}
def entries(charset: str) -> dict[bytes, bytes]:
    return {key.encode(): text.encode(charset) for key, text in texts.items()}
parts = [([b"%", "PRIu64", b" files\0"], [b"%", "PRIu64", b" fichiers\0"])]
files = {
    "utf8": answers.mo(entries("UTF-8")),
    "latin": answers.mo(entries("ISO-8859-1"), latin),
    "system": answers.mo_with_parts({b"": answers.UTF8, **entries("UTF-8")}, ["PRIu64"], parts),
    "full": answers.hashed(entries("ISO-8859-1"), latin, [1, 2, 3, 1, 2]),
    "terms": answers.mo(entries("UTF-8"), answers.UTF8.replace(b"n>1", b"n" + b"+n" * 400_000)),
}
for domain, data in files.items():
    for codeset in ("UTF-8", "ISO-8859-1", "ISO-8859-15", "CP1252", "ASCII", "MACINTOSH"):
        answers.install(Path(sys.argv[1], "messages"), "fr", f"{domain}_{codeset}", data)
END_OF_PYTHON
chmod -R a+rX "$room/messages"

# builds HOW FOLDER FLAG..: compiles the program with the library in FOLDER, and the plugin
builds() {
  local how=$1 folder=$2
  shift 2
  compiles "$name, $how" "chains_$how" tests/intl/gettext_chains.c "$@" -Wl,--no-as-needed "$folder/libkobdzila-intl.so" \
    -Wl,-rpath,"$folder" -ldl -lrt || return
  [ -e "$room/plugin.so" ] || compiles "$name, $how" plugin.so -shared -fPIC tests/intl/gettext_plugin.c
}

# asks HOW DLOPENS SIGNALS FORKS COMMAND..: runs the program's three chains by the command
asks() {
  local how=$1 dlopens=$2 signals=$3 forks=$4
  shift 4
  [ "$dlopens" = 0 ] || runs "$name, dlopen, $how" "$@" dlopen "$room/messages" "$dlopens" "$room/plugin.so"
  runs "$name, signals, $how" "$@" signals "$room/messages" "$signals"
  runs "$name, threads, $how" "$@" threads "$room/messages" "$forks"
}

# (ThreadSanitizer of GCC 12 can't take as many random bits in addresses as some systems have)
fixed=(env)
setarch -R true 2> /dev/null && fixed=(setarch -R)
known=(env LC_ALL=C.UTF-8 LANGUAGE=fr)

builds plain "$library" || exit 0
asks plain 10000 10000 100 "${known[@]}" "$room/chains_plain"

mkdir "$room/gconv"
printf 'module %s slow 1\n' 'SLOW// INTERNAL' 'INTERNAL SLOW//' > "$room/gconv/gconv-modules"
compiles "$name, opening" gconv/slow.so -shared -fPIC tests/intl/gettext_slow.c &&
  runs "$name, opening" "${known[@]}" GCONV_PATH="$room/gconv" SLOW="$room/slow" "$room/chains_plain" opening \
    "$room/messages" "$room/slow"

if [ "$(id -u)" != 0 ] || ! command -v setpriv > /dev/null; then
  skipped "$name, set-uid" 'only root can make one and run it as another user, by setpriv'
else
  cp "$library/libkobdzila-intl.so" "$room"
  builds setuid "$room" && chmod 4755 "$room/chains_setuid" &&
    asks set-uid 1000 5000 30 "${known[@]}" setpriv --reuid=65534 --regid=65534 --clear-groups "$room/chains_setuid"
fi

# (the dynamic linker compares the paths of modules in words of 8 bytes)
cat > "$room/suppressions" << 'END_OF_SUPPRESSIONS'
{
   words of a path
   Memcheck:Addr8
   obj:*/ld-linux*.so.*
   obj:*/ld-linux*.so.*
   ...
}
END_OF_SUPPRESSIONS
if tests/lib/needs valgrind valgrind; then
  asks valgrind 0 500 10 "${known[@]}" valgrind --quiet --error-exitcode=9 --fair-sched=yes \
    --suppressions="$room/suppressions" "$room/chains_plain"
else
  skipped "$name, valgrind" 'no valgrind, and it could not be installed'
fi

# (a handler's gettext may call malloc, which ThreadSanitizer would report)
for flags in address thread; do
  sanitized "$name, -fsanitize=$flags" $flags && builds $flags "$room/$flags/build/lib" -fsanitize=$flags || continue
  if [ $flags = thread ] && "${fixed[@]}" "$room/chains_thread" 2>&1 | grep -q 'unexpected memory mapping'; then
    skipped "$name, thread" "ThreadSanitizer doesn't run where memory is laid out so much at random"
    continue
  fi
  asks $flags 0 1000 0 "${known[@]}" ASAN_OPTIONS=detect_leaks=0:use_sigaltstack=0 \
    TSAN_OPTIONS=halt_on_error=1:report_signal_unsafe=0 "${fixed[@]}" "$room/chains_$flags"
done
