#!/usr/bin/env bash
# PO texts in other charsets, which bin/msgfmt-or-gnu converts by libkobdzila: what is written is what GNU msgfmt writes of
# the text that iconv converts, byte for byte, for each charset that the library decodes and that GNU gettext calls portable.
. "$(dirname "$0")/../lib/common"
NAME=or_gnu_charsets
. tests/driver/begin
cd "$room" || exit 1
mkdir tmp
export TMPDIR=$room/tmp
if [ ! -f "$top/build/lib/libkobdzila.a" ]; then
  skipped "$NAME" 'there is no build/lib/libkobdzila.a: tools/build_library makes it'
  exit 0
fi

# converted NAME TEXT WORD..: the driver compiles TEXT with these options as GNU msgfmt compiles what iconv makes of it
converted() {
  local name=$1 text=$2 charset
  shift 2
  charset=$(sed -n 's/.*charset=\([^\\]*\).*/\1/p' "$text" | head -n 1)
  iconv -f "$charset" -t UTF-8 "$text" | sed "s/charset=$charset/charset=UTF-8/" > utf8.po
  "$gnu" --no-hash "$@" -o wanted.mo utf8.po 2> /dev/null
  drive "$@" -o x.mo "$text"
  if [ $status = 0 ] && [ -s wanted.mo ] && cmp -s x.mo wanted.mo; then
    logs "driver, $name" "ours\t0\t-\t$text"
  else
    failed "driver, $name" "status $status, $(cat err)"
  fi
}

# text CHARSET: a PO text with each byte from 128 on that has a character
text() {
  header "$1" de
  printf 'msgid "all"\nmsgstr "'
  for byte in $(seq 128 255); do
    byte=$(printf '\\%03o' "$byte")
    ! printf "$byte" | iconv -f "$1" -t UTF-8 > /dev/null 2>&1 || printf "$byte"
  done
  printf '"\n'
}

for charset in ISO-8859-{1,2,3,4,5,6,7,8,9,13,14,15} ISO_8859-15 KOI8-{R,U,T} CP{850,866,874,1250,1251,1252,1253,1254} \
  CP{1256,1257} TIS-620 GEORGIAN-PS iso-8859-1; do
  text "$charset" > all.po
  converted "$charset" all.po
done

# two bytes of which the second is a backslash in ASCII, before the closing quote and elsewhere
{ header BIG5 zh_TW && printf 'msgid "a"\nmsgstr "\263\\\245\\n\273\\"\n'; } > big5.po
converted 'BIG5, second bytes that are backslashes' big5.po -c
{ header EUC-JP ja && printf 'msgid "a"\nmsgstr "\244\242 \216\261 \217\260\241"\n'; } > euc.po
converted 'EUC-JP, kana of half a width and three bytes' euc.po -c
# wide CHARSET LANGUAGE BYTES: a text with these bytes, for printf
wide() {
  { header "$1" "$2" && printf "msgid \"a\"\nmsgstr \"$3\"\n"; } > wide.po
  converted "$1" wide.po -c
}
wide EUC-KR ko '\260\241'
wide GB2312 zh_CN '\260\241'
wide GBK zh_CN '\201\134'

text ISO-8859-1 > latin.po
converted 'checks and fuzzy messages' latin.po -c -f
drive --statistics -v -o x.mo latin.po
is_said() { if [ "$(cat err)" = "$2" ]; then ok "$1"; else failed "$1" "$(cat err)"; fi; }
is_said 'driver, the name of a text that is converted' 'latin.po: 1 translated message.'
{ cat latin.po && printf 'msgid "a"\nmsgstr "b"\nmsgid "a"\nmsgstr "c"\n'; } > twice.po
env -u GNU_MSGFMT PATH=/nonexistent "$driver" -o x.mo twice.po 2> err
status=$?
if [ $status = 1 ] && [ "$(head -n 1 err)" = "twice.po:$(grep -n '"a"' twice.po | tail -n 1 | cut -d : -f 1): duplicate message" ]; then
  ok 'driver, the line of a refusal of a text that is converted'
else
  failed 'driver, the line of a refusal of a text that is converted' "$status, $(cat err)"
fi

# given NAME TEXT: the converted text comes from a pipe
text ISO-8859-2 > latin.po
converted 'a file' latin.po
for how in 'drive -o x.mo - < latin.po' 'cat latin.po | drive -o x.mo /dev/stdin' 'drive -o x.mo <(cat latin.po)'; do
  rm -f x.mo
  eval "$how"
  if cmp -s x.mo wanted.mo; then ok "driver, converted: $how"; else failed "driver, converted: $how" "$(cat err)"; fi
done

# what isn't converted is GNU's: another name of the charset, a byte that has no character
header latin1 de > name.po
printf 'msgid "a"\nmsgstr "\374"\n' >> name.po
header CP1252 de > byte.po
printf 'msgid "a"\nmsgstr "\201"\n' >> byte.po
is_of 'driver, a name that is not portable' 'GNU\t0\tcharset=latin1\tname.po' /dev/null "$gnu" -o x.mo name.po
is_of 'driver, a byte that is no character' 'GNU\t1\ta byte that is no character\tbyte.po' /dev/null "$gnu" -o x.mo byte.po

# a header that isn't the first entry is GNU's
{ printf 'msgid "a"\nmsgstr "\374"\n\n' && header ISO-8859-1 de; } > late.po
is_of 'driver, a header that comes late' 'GNU\t0\tcharset=ISO-8859-1\tlate.po' /dev/null "$gnu" -o x.mo late.po

# with --no-convert the charset stays, which is GNU's, if that knows the option
"$gnu" --no-convert -o x.mo latin.po 2> err
is_of 'driver, --no-convert' "GNU\t$?\tcharset=ISO-8859-2\tlatin.po" /dev/null "$gnu" --no-convert -o x.mo latin.po
{ text ISO-8859-1 && printf '\n#, c-format\nmsgid "%%<PRIu64>"\nmsgstr "%%<PRIu64>"\n'; } > macros.po
for it in latin.po macros.po; do
  rm -f x.mo
  env -u GNU_MSGFMT PATH=/nonexistent "$driver" --no-convert -o x.mo $it 2> err
  status=$?
  if [ $status = 1 ] && [ ! -e x.mo ]; then ok "driver, --no-convert without GNU msgfmt, $it"
  else failed "driver, --no-convert without GNU msgfmt, $it" "$status, $(cat err)"; fi
done

# another entry names a charset; lines end with CRLF; comments stand before the header
{ header ISO-8859-1 de && printf 'msgid "charset=latin1"\nmsgstr "charset=EUC-JP \374"\n'; } > other.po
converted 'charset= outside of the header' other.po
sed 's/$/\r/' latin.po > crlf.po
converted 'CRLF' crlf.po
{ printf '# K\366rner\r\n#\r\n#, fuzzy\r\n' && sed 's/$/\r/' latin.po; } > comments.po
converted 'CRLF and comments before the header' comments.po
{ printf '# \301\n' && text ISO-8859-7; } > greek.po
converted 'comments before the header' greek.po

# comments that aren't of the header's charset: GNU msgfmt doesn't read them, and Kobdzila's does
{ printf '# K\366rner\n' && header UTF-8 de && printf 'msgid "a"\nmsgstr "b"\n'; } > utf8.po
is_of 'driver, comments that are not UTF-8' 'GNU\t0\tnot UTF-8\tutf8.po' /dev/null "$gnu" -o x.mo utf8.po
{ printf '# \245\n' && header ISO-8859-3 de && printf 'msgid "a"\nmsgstr "b"\n'; } > maltese.po
is_of 'driver, comments of another charset' 'GNU\t0\ta byte that is no character\tmaltese.po' /dev/null "$gnu" -o x.mo maltese.po
missing='msgfmt-or-gnu: no GNU msgfmt on the PATH to run in its place'
for it in 'utf8.po:1: not UTF-8' 'maltese.po:1: not UTF-8'; do
  env -u GNU_MSGFMT PATH=/nonexistent "$driver" -o x.mo "${it%%:*}" 2> err
  status=$?
  if [ $status = 1 ] && [ "$(head -n 1 err)" = "$it" ] && sed -n 2p err | grep -q "^$missing"; then ok "driver, without GNU msgfmt, $it"
  else failed "driver, without GNU msgfmt, $it" "$status, $(cat err)"; fi
done

# where /proc isn't mounted, as in a bare chroot
if [ "$(id -u)" = 0 ] && unshare -m true 2> /dev/null; then
  rm -f x.mo
  unshare -m sh -c "mount -t tmpfs none /proc && PATH=/nonexistent '$driver' -o x.mo latin.po" 2> err
  status=$?
  if [ $status = 0 ] && [ -s x.mo ]; then ok 'driver, a text that is converted, without /proc'
  else failed 'driver, a text that is converted, without /proc' "$status, $(cat err)"; fi
else
  skipped 'driver, a text that is converted, without /proc' 'this is not root, or it has no mount namespaces'
fi
