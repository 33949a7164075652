#!/usr/bin/env bash
# Opens 100,000 mutated MO files (bench/mutated/mutate.c, of 50 installed ones) by libkobdzila with the sanitizers, asks
# those that are taken, and compares each answer with that of catsession: taken with as many entries, or refused for
# the same reason, unless catsession refuses the charset or the bytes in it. CATSESSION=PATH: another program.
# bench/mutated/run does the first part ten million times. Then it opens 100,000 mutated files with system-dependent
# strings, which catsession doesn't read.
no_program=1
catsession=${CATSESSION:+$(realpath "$CATSESSION")}
. "$(dirname "$0")/../lib/common"
. tests/lib/c_common
catsession=${catsession:-$PWD/bin/catsession}
name='100,000 mutated MO files'

has_library "$name" || exit 0
tests/lib/needs tools/gnu-msgfmt gettext
mapfile -t all < <(find /usr/share/locale -type f -name '*.mo' -size -3k 2> /dev/null | sort)
files=()
for ((i = 0; i < 50 && i < ${#all[@]}; i++)); do files+=("${all[i * ${#all[@]} / 50]}"); done
if [ "${#files[@]}" != 50 ]; then
  skipped "$name" "there are ${#files[@]} catalogues of at most 3 KB in /usr/share/locale, and not 50"
  exit 0
fi
sanitized "$name" address,undefined || exit 0
compiles "$name" mutate -fsanitize=address,undefined -fno-sanitize-recover=all bench/mutated/mutate.c \
  "$room/address-undefined/build/lib/libkobdzila.a" || exit 0

# (the lines go through a pipe: they are a quarter of a gigabyte)
mkfifo "$room/lines"
if [ -x "$catsession" ]; then
  "$catsession" < "$room/lines" 2> "$room/session" |
    awk -F '\t' '/^accepted-mo/ { print "accepted " $2 } /^refused-mo/ { print "refused " $2 }' > "$room/wanted" &
  lines=$room/lines
else
  lines=-
fi
if said=$(timeout $((300 * slower)) "$room/mutate" 7 100000 "$room/got" "$lines" "${files[@]}" 2>&1); then
  ok "$name, sanitized: ${said##*files, }"
else
  failed "$name, sanitized" "$(head -c 600 <<< "$said")"
fi
wait

# (GNU msgfmt makes them: revision 0.1, and 1.1 with the flag I, in each byte order)
name_of_revised='100,000 mutated MO files of revisions 0.1 and 1.1, sanitized'
gnu=$(tools/gnu-msgfmt)
for flag in '' I; do
  for order in little big; do
    [ -z "$gnu" ] || "$gnu" --endianness="$order" -o "$room/revised$flag.$order.mo" - <<END
msgid ""
msgstr "Content-Type: text/plain; charset=UTF-8\nPlural-Forms: nplurals=2; plural=(n != 1);\n"
msgid "a"
msgstr "b"
#, c-format
msgid "%<PRIu64> of %<PRIuMAX>"
msgstr "%2\$<PRIuMAX> %1\$<PRIu64>"
#, c-format
msgctxt "menu"
msgid "%<PRId8> file"
msgid_plural "%<PRId8> files"
msgstr[0] "%${flag}<PRId8> fichier"
msgstr[1] "%${flag}<PRId8> fichiers"
END
  done
done
if [ -z "$gnu" ]; then
  skipped "$name_of_revised" 'no GNU msgfmt'
elif said=$(timeout $((300 * slower)) "$room/mutate" 11 100000 - - "$room"/revised*.mo 2>&1); then
  ok "$name_of_revised: ${said##*files, }"
else
  failed "$name_of_revised" "$(head -c 600 <<< "$said")"
fi

if [ "$lines" = - ]; then
  skipped "$name, beside catsession" "there is no $catsession"
elif [ "$(wc -l < "$room/wanted")" = 100000 ] && as_utf8 "$room/wanted" "$room/got" | cmp -s "$room/wanted" -; then
  ok "$name, beside catsession: $(grep -c refused "$room/got") refused, for the same reasons"
else
  failed "$name, beside catsession" \
    "$(as_utf8 "$room/wanted" "$room/got" | diff "$room/wanted" - | head -n 3 | tr '\n' ' ') $(head -c 200 "$room/session")"
fi
