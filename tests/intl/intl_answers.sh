#!/usr/bin/env bash
# Asks gettext and related functions more than 30,000 questions in one program, once with libkobdzila-intl.so preloaded and
# once with the C library alone: names of locales, lists of languages, domains, codesets, locales of threads, and files
# of all kinds. Each answer and each errno must be the same unless docs/internals/decisions/intl/differences-from-glibc.md says that they differ.
no_program=1
. "$(dirname "$0")/../lib/common"
. tests/lib/c_common
name='gettext, beside the C library'

has_library "$name" || exit 0
compiles "$name" ask tests/intl/ask_gettext.c || exit 0
if ! command -v python3 > /dev/null; then
  skipped "$name" 'no python3'
  exit 0
elif ! LC_ALL=C.UTF-8 locale charmap 2> /dev/null | grep -qx UTF-8 || ! command -v localedef > /dev/null; then
  skipped "$name" 'no locale C.UTF-8 of the GNU C library, or no localedef'
  exit 0
fi

# locales of the cases: their names count and their codesets, and nothing else of them
mkdir "$room/locales"
localedef -c -i POSIX -f UTF-8 "$room/locales/utf8" > "$room/log" 2>&1
localedef -c -i POSIX -f ISO-8859-1 "$room/locales/latin1" >> "$room/log" 2>&1
if [ ! -d "$room/locales/utf8" ] || [ ! -d "$room/locales/latin1" ]; then
  skipped "$name" "localedef makes no locale: $(head -n 1 "$room/log")"
  exit 0
fi
for language in fr_FR.utf8 sr_RS.utf8 sr_RS.utf8@latin sr.utf8 sr.utf8@latin fr_FR sr sr_RS sr@latin sr_RS@latin; do
  ln -s utf8 "$room/locales/$language"
done
ln -s latin1 "$room/locales/fr_FR.iso88591"

# once more with the sanitizers, where there are some
closely=()
if sanitized "$name, sanitized" address,undefined; then
  folder=$room/address-undefined/build/lib
  compiles "$name, sanitized" ask_closely -fsanitize=address,undefined -fno-sanitize-recover=all tests/intl/ask_gettext.c \
    -Wl,--no-as-needed -L"$folder" -l:libkobdzila-intl.so -Wl,-rpath,"$folder" || exit 0
  closely=("$room/ask_closely")
fi
said=$(timeout $((900 * slower)) python3 -B tests/intl/intl_answers.py "$room" "$room/ask" "$library/libkobdzila-intl.so" "${closely[@]}" 2>&1)
status=$?
if [ "$status" = 0 ] && ! grep -q '^wrong' <<< "$said"; then
  ok "$name: $(tail -n 1 <<< "$said")"
else
  failed "$name" "$(tail -n 1 <<< "$said"); $(head -c 1500 <<< "$said" | tr '\n' ' ')"
fi
