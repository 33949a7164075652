#!/usr/bin/env bash
# Builds libkobdzila and calls it: from C, with each function and each refusal, under valgrind and with
# AddressSanitizer; from threads that look up while catalogues are swapped; with mutated MO files, compared with the refusals
# of bin/catserve (CATSERVE=PATH: another program); as it is installed; and from Python, compared with Python's own gettext
# on the catalogues of this machine.
no_program=1
. "$(dirname "$0")/../lib/common"
catserve=${CATSERVE:-$PWD/bin/catserve}

. tests/lib/c_common
has_library 'the C library' || exit 0
library=build/lib

# compiles PROGRAM FLAG..: makes $room/PROGRAM of tests/library/c_library.c
compiles() {
  local to=$room/$1
  shift
  cc -std=c11 -O2 -g -Wall -Wextra -Werror -pthread -Iinclude "$@" -o "$to" tests/library/c_library.c $library/libkobdzila.a \
    > "$room/cc" 2>&1
}

# runs NAME WORD..: the words end well, and say nothing
runs() {
  local name=$1 said
  shift
  if said=$(cd "$room" && timeout $((300 * slower)) "$@" 2>&1) && [ -z "$said" ]; then
    ok "$name"
  else
    failed "$name" "$(head -c 300 <<< "$said")"
  fi
}

if ! compiles c_library; then
  failed 'the C library, a program' "$(head -c 300 "$room/cc")"
  exit 1
fi
runs 'the C library, each function and each refusal' "$room/c_library" calls
if tests/lib/needs valgrind valgrind; then
  runs 'the C library, valgrind' valgrind -q --error-exitcode=9 --leak-check=full --show-leak-kinds=all \
    --max-stackframe=4000000 "$room/c_library" calls
else
  skipped 'the C library, valgrind' 'no valgrind, and it could not be installed'
fi
if compiles sanitized -fsanitize=address,undefined; then
  runs 'the C library, AddressSanitizer' "$room/sanitized" calls
  runs 'the C library, bytes that change meanwhile, AddressSanitizer' "$room/sanitized" changing
else
  skipped 'the C library, AddressSanitizer' 'the compiler has none'
fi
runs 'the C library, 4 threads and 10,000 swaps' "$room/c_library" threads
runs 'the C library, bytes that change meanwhile' "$room/c_library" changing

# what the shared library shows, and what it needs
shown=$(nm -D --defined-only $library/libkobdzila.so.0 | awk '$3 !~ /^kob_/ && $2 != "A" { print $3 }')
if [ -z "$shown" ]; then ok 'the C library shows kob_* alone'; else failed 'the C library shows kob_* alone' "$shown"; fi
if readelf -d $library/libkobdzila.so.0 | grep -q TEXTREL; then
  failed 'the C library has no text relocations' 'it has'
else
  ok 'the C library has no text relocations'
fi

if command -v python3 > /dev/null; then
  # mutated files: the same answers as the proved reader's, through another program
  name='the C library, 1,000 mutated MO files'
  if [ -x "$catserve" ]; then
    mkdir "$room/mutated"
    python3 -B tests/library/c_library.py mutate tests/scripts/stored/forms.mo "$room/mutated" 1000
    python3 -B tests/library/c_library.py script "$room"/mutated/* > "$room/script"
    "$catserve" < "$room/script" 2> "$room/err" |
      awk -F '\t' '/^accepted-mo/ { print "accepted " $2 } /^refused-mo/ { print "refused " $2 }' > "$room/wanted"
    timeout $((300 * slower)) "$room/c_library" refusals "$room"/mutated/* > "$room/got" 2>&1
    if [ "$(wc -l < "$room/wanted")" = 1000 ] && as_utf8 "$room/wanted" "$room/got" | cmp -s "$room/wanted" -; then
      ok "$name: $(grep -c refused "$room/got") refused"
    else
      failed "$name" "$(as_utf8 "$room/wanted" "$room/got" | diff "$room/wanted" - | head -n 3 | tr '\n' ' ')"
    fi
  else
    skipped "$name" "there is no $catserve"
  fi

  # installed catalogues, compared with Python's own gettext
  tests/lib/needs tools/gnu-msgfmt gettext
  find /usr/share/locale -name '*.mo' 2> /dev/null | sort | head -n 400 > "$room/installed"
  if ! has_python 'the C library from Python'; then
    :
  elif said=$(LIBKOBDZILA=$PWD/$library/libkobdzila.so.0 PYTHONPATH=examples/python timeout $((600 * slower)) \
    "$python" -B tests/library/c_library.py installed < "$room/installed" 2>&1) && ! grep -q '^wrong' <<< "$said"; then
    ok "the C library from Python: $(tail -n 1 <<< "$said")"
  else
    failed 'the C library from Python' "$(head -c 300 <<< "$said")"
  fi
else
  skipped 'the C library from Python' 'no python3'
fi

# a program that was compiled for the C library's gettext prints the same by libkobdzila-intl.so
preloaded() { LD_PRELOAD=$PWD/$library/libkobdzila-intl.so LC_ALL=C.UTF-8 LANGUAGE=$1 "${@:2}" 2>&1; }
name='the C library, gettext of other programs'
bound=$(LD_DEBUG=bindings preloaded fr env ls --help | grep -c 'libkobdzila-intl.so .*dcgettext')
count=0 wrong=''
for language in fr de pl ja pt_BR; do
  [ -f "/usr/share/locale/$language/LC_MESSAGES/coreutils.mo" ] || continue
  for command in 'ls --help' 'ls /no/such/file' 'date --no-such-option' 'sort --help'; do
    read -r -a words <<< "$command"
    count=$((count + 1))
    [ "$(preloaded "$language" env "${words[@]}")" = "$(LC_ALL=C.UTF-8 LANGUAGE=$language "${words[@]}" 2>&1)" ] ||
      wrong+="$language: $command; "
  done
done
if [ "$count" = 0 ] || [ "$bound" = 0 ]; then
  skipped "$name" 'no translated program is installed that could be taken'
elif [ -z "$wrong" ]; then
  ok "$name: $count outputs as without it"
else
  failed "$name" "$wrong"
fi

# a program of 32 bits is told at once
name='the header refuses a target of 32 bits'
if ! echo 'int main(void) { return 0; }' | cc -m32 -fsyntax-only -x c - 2> /dev/null; then
  skipped "$name" 'the compiler has no -m32'
elif said=$(echo '#include <kobdzila.h>' | cc -m32 -Iinclude -fsyntax-only -x c - 2>&1); then
  failed "$name" 'it compiles'
elif grep -q 'error.*64-bit Linux' <<< "$said"; then
  ok "$name"
else
  failed "$name" "$(head -n 2 <<< "$said")"
fi

# as a new user has it: installed into a folder, and found by pkg-config
name='the C library, installed'
cat > "$room/user.c" <<'END'
#include <kobdzila.h>
#include <stdio.h>
int main(void) {
    kob_refusal why;
    kob_catalogue *c = kob_open_file("fr.po", KOB_PO, KOB_CHECKED, &why);
    if (!c)
        return fprintf(stderr, "fr.po:%u: %s\n", why.line, kob_fault_text(why.fault)), 1;
    puts(kob_ngettext(c, "file", "files", 2));
    kob_release(c);
}
END
printf '%s\n' 'msgid ""' 'msgstr "Plural-Forms: nplurals=2; plural=n>1;\n"' 'msgid "file"' 'msgid_plural "files"' \
  'msgstr[0] "fichier"' 'msgstr[1] "fichiers"' > "$room/fr.po"
if ! tests/lib/needs pkg-config pkg-config; then
  skipped "$name" 'no pkg-config, and it could not be installed'
elif ! make -s install_library DESTDIR="$room/image" PREFIX=/usr > "$room/log" 2>&1; then
  failed "$name" "$(tail -n 2 "$room/log")"
else
  export PKG_CONFIG_PATH=$room/image/usr/lib/pkgconfig PKG_CONFIG_SYSROOT_DIR=$room/image
  read -r -a flags < <(pkg-config --cflags --libs kobdzila)
  said=$(cd "$room" && cc -o user user.c "${flags[@]}" 2>&1 && LD_LIBRARY_PATH=$room/image/usr/lib ./user 2>&1)
  if [ "$said" = fichiers ]; then ok "$name"; else failed "$name" "$said"; fi
  make -s uninstall_library DESTDIR="$room/image" PREFIX=/usr > "$room/log" 2>&1
  left=$(find "$room/image" -type f -o -type l)
  if [ -z "$left" ]; then ok "$name, and uninstalled"; else failed "$name, and uninstalled" "$left"; fi
fi
if tests/lib/needs mandoc mandoc; then
  said=$(mandoc -T lint docs/man/*.3 2>&1 | head -n 2)
  if [ -z "$said" ]; then ok 'the pages of the C library'; else failed 'the pages of the C library' "$said"; fi
fi
