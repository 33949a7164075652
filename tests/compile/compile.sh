#!/usr/bin/env bash
# Runs bin/kob-compile: the bytes of msgfmt, one for one; which files it finds and where it writes; what is done again;
# refused, unreadable, vanishing and read-only files, a full disk, signals and runs at once, of which none may harm an old
# MO file or leave a file behind; JSON and SARIF, read by Python; terminals; and --watch with 100 edits (EDITS=1000: more).
# What is expected is what msgfmt, GNU msgfmt or Python's json answer.
. "$(dirname "$0")/../lib/common"
. tests/lib/c_common
NAME=compile
. tests/compile/begin

# --- the bytes ----------------------------------------------------------------------------------------------------------

# catalogues: PO files of many languages: those of the repository, of Django, if it is there, and of installed catalogues
catalogues() {
  local it count=0 every=37
  mkdir -p bytes macros
  cp "$top"/examples/*.po bytes
  for it in /usr/lib/python3/dist-packages/django/contrib/auth/locale/*/LC_MESSAGES/django.po; do
    [ ! -f "$it" ] || cp "$it" "bytes/django-$(basename "${it%/LC_MESSAGES/django.po}").po"
  done
  command -v msgunfmt > /dev/null || return 0
  [ "$slower" = 1 ] || every=$((every * 5))
  for it in $(find /usr/share/locale -name '*.mo' -size -200k 2> /dev/null | sort | awk "NR % $every == 0"); do
    count=$((count + 1))
    msgunfmt -o "bytes/installed-$count.po" "$it" 2> msgunfmt || rm -f "bytes/installed-$count.po"
  done
  # (what msgfmt refuses for its macros is compared with GNU msgfmt's, but for another charset and the date of creation)
  for it in bytes/*.po; do
    "$program" -o none.mo "$it" 2> said || ! grep -q ': system-dependent format$' said || mv "$it" macros
  done
  # (so are those with the flag I, of which libkobdzila writes a file of another revision)
  for it in bytes/*.po; do
    run --no-gnu --force -q "$it"
    [ ! -f "${it%.po}.mo" ] || ! od -An -tu1 -j4 -N1 "${it%.po}.mo" | grep -q 1 || mv "$it" macros
  done
  for it in macros/*.po; do
    [ -f "$it" ] && grep -q 'charset=UTF-8' "$it" && sed -i '/^"POT-Creation-Date:/d' "$it" || rm -f "$it"
  done
}

# is_converted CHARSET FILE: libkobdzila converts the file, since each byte is a character, or the charset is one of the
# five that have several bytes for one
is_converted() {
  case ${1^^} in
    EUC-JP | EUC-KR | BIG5 | GB2312 | GBK) iconv -f "$1" -t UTF-8 "$2" > iconv 2>&1 ;;
    *) [ "$(iconv -f "$1" -t UTF-32LE "$2" 2> iconv | wc -c)" = $(($(wc -c < "$2") * 4)) ] ;;
  esac
}

# msgfmt_of FILE OPTION..: makes wanted.mo of a PO file by msgfmt, and keeps what that says. A text in another charset,
# which msgfmt refuses and libkobdzila converts, is converted by iconv first.
msgfmt_of() {
  local file=$1 charset
  shift
  "$program" "$@" -o wanted.mo "$file" 2> said && return
  grep -qE ': (unsupported charset|not UTF-8)$' said || return
  charset=$(grep -ao 'charset=[A-Za-z0-9_-]*' "$file" | head -n 1)
  is_converted "${charset#charset=}" "$file" || return
  mkdir -p recoded
  iconv -f "${charset#charset=}" -t UTF-8 "$file" 2> iconv | sed "s/$charset/charset=UTF-8/" > "recoded/${file##*/}"
  mv said refused
  "$program" "$@" -o wanted.mo "recoded/${file##*/}" 2> said && sed -i 's|^recoded/|bytes/|' said && return
  mv refused said
  return 1
}

# are_equal OPTION..: all MO files are those of msgfmt, and all that it refuses are refused, with its lines
are_equal() {
  local it wrong='' same=0 refused=0
  rm -f bytes/*.mo
  run --no-gnu --force -q "$@" bytes
  for it in bytes/*.po; do
    if msgfmt_of "$it" "$@"; then
      cmp -s wanted.mo "${it%.po}.mo" && same=$((same + 1)) || wrong+="$it "
    else
      refused=$((refused + 1))
      is_absent "${it%.po}.mo" || wrong+="$it, which msgfmt refuses "
      grep -qxF "$(sed 's/ fails at [0-9]*$/ fails/' said)" err || wrong+="$it: $(cat said) "
    fi
  done
  if [ -n "$wrong" ]; then failed "compile, bytes${*:+, $*}" "${wrong:0:300}"
  elif [ "$status" != $((refused > 0)) ]; then failed "compile, bytes${*:+, $*}" "status $status, and $refused are refused"
  else ok "compile, bytes${*:+, $*}: $same MO files are those of msgfmt, and $refused are refused as it refuses them"; fi
}
catalogues
are_equal
are_equal -f
are_equal -c
are_equal -c -f

# are_told OPTION..: the warnings and the statistics are msgfmt's
are_told() {
  local it
  run --no-gnu --force -q "$@" --statistics bytes
  for it in bytes/*.po; do
    if msgfmt_of "$it" "$@" --statistics; then sed "\$s|^|$it: |" said; fi
  done | sort > wanted
  for it in bytes/*.mo; do grep -E "^${it%.mo}\.po:([0-9]+: warning:| [0-9]+ translated)" err; done | sort > got
  if [ -s wanted ] && cmp -s wanted got; then ok "compile, statistics and warnings${*:+, $*}: $(wc -l < got) lines as msgfmt's"
  else failed "compile, statistics and warnings${*:+, $*}" "$(diff wanted got | head -n 3)"; fi
}
are_told
are_told -c -f

# --- finding, and where it writes ---------------------------------------------------------------------------------------

po project/po/fr.po fr a && po project/po/de.po de b && po project/po/xx.po xx c
printf '# the languages\nfr de # both\n' > project/po/LINGUAS
po project/app/locale/fr/LC_MESSAGES/app.po fr d && po project/other/locale/fr/LC_MESSAGES/other.po fr e
po project/.hidden/po/fr.po fr f && po project/node_modules/x/fr.po fr g && po project/env/lib/fr.po fr h
touch project/env/pyvenv.cfg
says 'compile, a project' 0 '' project
found=$(cd project && find . -name '*.mo' | sort | tr '\n' ' ')
holds 'compile, a project: the MO files are next to their PO files' [ "$found" = \
  './app/locale/fr/LC_MESSAGES/app.mo ./other/locale/fr/LC_MESSAGES/other.mo ./po/de.mo ./po/fr.mo ' ]
holds 'compile, a project: the bytes' is_as_msgfmt project/app/locale/fr/LC_MESSAGES/app.mo project/app/locale/fr/LC_MESSAGES/app.po
says 'compile, -o and -d' 0 '' -o out1 -d garden project/po
found=$(cd out1 && find . -type f | sort | tr '\n' ' ')
holds 'compile, -o and -d: where it writes' [ "$found" = './de/LC_MESSAGES/garden.mo ./fr/LC_MESSAGES/garden.mo ' ]
says 'compile, -d in LC_MESSAGES' 0 '' --force -o out2 -d app project/app project/other
found=$(cd out2 && find . -type f | sort | tr '\n' ' ')
holds 'compile, -d in LC_MESSAGES: one domain' [ "$found" = './fr/LC_MESSAGES/app.mo ' ]
says 'compile, -o without a domain' 2 'kob-compile: project/po/de.po: -o needs -d DOMAIN for a PO file that isn'"'"'t in LANGUAGE/LC_MESSAGES
kob-compile: and 1 more need -d DOMAIN' -o out3 project/po/de.po project/po/fr.po
holds 'compile, -o without a domain: nothing is written' is_absent out3
po one/locale/fr/LC_MESSAGES/x.po fr a && po two/locale/fr/LC_MESSAGES/x.po fr b
says 'compile, two PO files for one MO file' 2 'kob-compile: one/locale/fr/LC_MESSAGES/x.po and two/locale/fr/LC_MESSAGES/x.po would both be out3/fr/LC_MESSAGES/x.mo: name the folder of one of them' -o out3 one two
holds 'compile, two PO files for one MO file: nothing is written' is_absent out3
(cd project && timeout $((60 * slower)) "$tested" --watch -o ../out3 po > ../out 2> ../err)
holds 'compile, --watch, -o without a domain: it ends' [ $? = 2 ]
(cd one && "$tested" > ../out 2> ../err)
holds 'compile, the current folder' is_as_msgfmt one/locale/fr/LC_MESSAGES/x.mo one/locale/fr/LC_MESSAGES/x.po
says 'compile, --exclude' 0 '' --force --exclude=other --exclude=po -q project
rm project/po/fr.mo
says 'compile, a file named, and its folder' 0 '' project/po/fr.po project/po/
holds 'compile, a file named, and its folder: once' grep -qx '1 compiled, 1 up to date in .*' out
po kde/po/de/kapp.po de a && po kde/po/pt_BR/kapp.po pt_BR b && po kde/po/de/kother.po de c
says 'compile, po/LANGUAGE/DOMAIN.po' 0 '' -o out5 kde
holds 'compile, po/LANGUAGE/DOMAIN.po: a row for each language' [ "$(awk 'NR > 1 && NR < 4 { print $1 }' out | xargs)" = 'de pt_BR' ]
found=$(cd out5 && find . -type f | sort | xargs)
holds 'compile, po/LANGUAGE/DOMAIN.po: where it writes' \
  [ "$found" = './de/LC_MESSAGES/kapp.mo ./de/LC_MESSAGES/kother.mo ./pt_BR/LC_MESSAGES/kapp.mo' ]
says 'compile, po/LANGUAGE/DOMAIN.po, -d' 0 '' -q -d kother kde/po
holds 'compile, po/LANGUAGE/DOMAIN.po, -d: one domain' [ "$(cd kde && find . -name '*.mo')" = ./po/de/kother.mo ]
po manual/help/de/de.po de a && printf 'de nl # a list\n' > manual/help/LINGUAS
says 'compile, LINGUAS of a manual' 3 'kob-compile: manual/help/LINGUAS lists nl, and there is no nl.po' -q manual
holds 'compile, LINGUAS of a manual: LANGUAGE/LANGUAGE.po' is_as_msgfmt manual/help/de/de.mo manual/help/de/de.po
printf 'fr nl\n' > project/po/LINGUAS
says 'compile, LINGUAS lists what is not there' 3 'kob-compile: project/po/LINGUAS lists nl, and there is no nl.po' -q project/po
po called/it.po/fr.po fr a && po called/de.po de a
says 'compile, a folder whose name ends in .po' 0 '' -q called
holds 'compile, a folder whose name ends in .po: what is in it' is_as_msgfmt called/it.po/fr.mo called/it.po/fr.po
mkdir empty && po again.po fr a && ln -s one link
says 'compile, no such folder' 3 'kob-compile: cannot read none: No such file or directory' none
holds 'compile, no such folder: no summary' [ ! -s out ]
says 'compile, a slash behind a file' 3 'kob-compile: cannot read again.po/: Not a directory' -q again.po/
says 'compile, a slash and a dot behind a file' 3 'kob-compile: cannot read again.po/.: Not a directory' -q again.po/.
says 'compile, a link to a folder, and slashes' 0 '' -q .//link//
says 'compile, no PO file' 2 'kob-compile: no PO file found; name a folder or files' empty
mkfifo pipe.po
says 'compile, a pipe' 3 'kob-compile: pipe.po is neither a folder nor a regular file' pipe.po
po deep/fr/LC_MESSAGES/a/b.po fr a
says 'compile, a domain with a slash' 0 '' -q -o out4 deep
holds 'compile, a domain with a slash: the MO file' is_as_msgfmt out4/fr/LC_MESSAGES/a/b.mo deep/fr/LC_MESSAGES/a/b.po

# --- what is done again -------------------------------------------------------------------------------------------------

po again/fr.po fr a && po again/de.po de b
run again
before=$(stat -c '%i %Y' again/fr.mo)
says 'compile, nothing to do' 0 '' again
holds 'compile, nothing to do: it says so' grep -qx '2 up to date in .*' out
holds 'compile, nothing to do: the MO file is the same' [ "$(stat -c '%i %Y' again/fr.mo)" = "$before" ]
po again/fr.po fr c
touch -d '+2 seconds' again/fr.po
says 'compile, what is newer' 0 '' again
holds 'compile, what is newer: that alone' grep -qx '1 compiled, 1 up to date in .*' out
holds 'compile, what is newer: the bytes' is_as_msgfmt again/fr.mo again/fr.po
touch -r again/de.po again/de.mo
says 'compile, of the same instant' 0 '' again
holds 'compile, of the same instant: it is compiled' is_as_msgfmt again/de.mo again/de.po
says 'compile, --force' 0 '' --force again
holds 'compile, --force: all' grep -qx '2 compiled in .*' out
rm again/*.mo
says 'compile, --check' 0 '' --check again
holds 'compile, --check: it writes nothing' [ -z "$(find again -name '*.mo')" ]
holds 'compile, --check: it says so' grep -qx '2 checked in .*' out

# --- refused, and troubles with files -----------------------------------------------------------------------------------

po bad/de.po de a && po bad/fr.po fr b
run bad
cp bad/fr.mo old.mo
printf 'msgid "hi"\nmsgstr "x"\n' >> bad/fr.po
po bad/de.po de c
touch -d '+2 seconds' bad/*.po
says 'compile, refused' 1 'bad/fr.po:6: duplicate message' bad
holds 'compile, refused: the old MO file is whole' cmp -s bad/fr.mo old.mo
holds 'compile, refused: the other is compiled' is_as_msgfmt bad/de.mo bad/de.po
holds 'compile, refused: no leftover' has_no_leftover bad
says 'compile, refused, --check' 1 'bad/fr.po:6: duplicate message' --check -q bad
name=$(printf 'bad/a\nb\033[31m.po')
cp bad/fr.po "$name"
says 'compile, a name that is escaped' 1 'bad/a\nb\033[31m.po:6: duplicate message' --no-gnu -q "$name"
rm -f "$name"

# as_user: the words that make a plain user of root
as_user=()
if [ "$(id -u)" = 0 ] && "$top/tests/lib/needs" setpriv util-linux; then
  as_user=(setpriv --reuid=65534 --regid=65534 --clear-groups)
  chmod 755 "$room"
fi
if [ "$(id -u)" != 0 ] || [ ${#as_user[@]} != 0 ]; then
  po shut/fr.po fr a && po shut/de.po de b && run shut && po shut/fr.po fr c && po shut/de.po de d
  cp shut/fr.mo old.mo
  touch -d '+2 seconds' shut/*.po
  chmod 0 shut/fr.po
  [ ${#as_user[@]} = 0 ] || chown -R 65534:65534 shut
  under=("${as_user[@]}")
  says 'compile, an unreadable file' 3 'kob-compile: cannot read shut/fr.po: Permission denied' -q shut
  holds 'compile, an unreadable file: the old MO file is whole' cmp -s shut/fr.mo old.mo
  holds 'compile, an unreadable file: the other is compiled' is_as_msgfmt shut/de.mo shut/de.po
  chmod 644 shut/fr.po
  chmod 555 shut
  says 'compile, a folder that is read-only' 3 'kob-compile: cannot write shut/fr.mo: Permission denied' -q shut/fr.po
  holds 'compile, a folder that is read-only: the old MO file is whole' cmp -s shut/fr.mo old.mo
  chmod 755 shut && chmod 444 shut/fr.mo
  says 'compile, an MO file that is read-only' 0 '' -q shut
  holds 'compile, an MO file that is read-only: it is replaced, and keeps its mode' [ "$(stat -c %a shut/fr.mo)" = 444 ]
  mkdir shut/folder && echo fr > shut/LINGUAS && chmod 0 shut/folder shut/LINGUAS
  says 'compile, a folder and a LINGUAS that are unreadable' 3 'kob-compile: cannot read shut/LINGUAS: Permission denied
kob-compile: cannot read shut/folder: Permission denied' -q shut
  under=()
else
  skipped 'compile, files without permission' 'there is no setpriv'
fi

po mode/fr.po fr a && run -q mode && chmod 640 mode/fr.mo && run -q --force mode
holds 'compile, the mode is kept' [ "$(stat -c %a mode/fr.mo)" = 640 ]
rm mode/fr.mo
(umask 027 && "$tested" -q mode)
holds 'compile, a new file has the mode that the umask leaves' [ "$(stat -c %a mode/fr.mo)" = 640 ]
mv mode/fr.mo mode/target && ln -s target mode/fr.mo && po mode/fr.po fr b && run -q --force mode
holds 'compile, a symbolic link is followed' [ -L mode/fr.mo ] 
holds 'compile, a symbolic link: its target' is_as_msgfmt mode/target mode/fr.po
rm mode/fr.mo && mkdir mode/fr.mo
says 'compile, a folder in the place of an MO file' 3 'kob-compile: cannot write mode/fr.mo: Is a directory' -q --force mode

# many N: N PO files in many/, of some size; wanted.mo is what each of them compiles to
many() {
  mkdir -p many
  header UTF-8 fr > many.po
  for it in $(seq 3000); do printf 'msgid "message %d"\nmsgstr "text %d, and some more of it"\n\n' "$it" "$it"; done >> many.po
  for it in $(seq "$1"); do cp many.po "many/l$it.po"; done
  "$program" -o wanted.mo many.po
}
many 30

# are_whole: each MO file of many/ is the old one or the new one, and nothing is left over
are_whole() {
  local it
  for it in many/*.mo; do
    [ -e "$it" ] || continue
    cmp -s "$it" wanted.mo || cmp -s "$it" old.mo || return 1
  done
  has_no_leftover many
}

# old_files: each PO file of many/ has an old MO file
old_files() {
  local it
  for it in many/*.po; do cp old.mo "${it%.po}.mo"; done
}

# a full disk: a small file system, and a limit of the size of files
old_files
if [ "$(id -u)" = 0 ] && mkdir full && mount -t tmpfs -o size=400k tmpfs full 2> mount; then
  cp many/l1.po full/fr.po && cp old.mo full/fr.mo
  head -c 100000 /dev/zero > full/rest && cat /dev/zero > full/rest2 2> zero
  says 'compile, a full disk' 3 'kob-compile: cannot write full/fr.mo: No space left on device' -q --force full
  holds 'compile, a full disk: the old MO file is whole' cmp -s full/fr.mo old.mo
  holds 'compile, a full disk: no leftover' has_no_leftover full
  umount full
else
  skipped 'compile, a full disk' 'only root can mount a small file system'
fi
(ulimit -f 8 && exec "$tested" -q --force many > out 2> err)
status=$?
holds 'compile, files that are too large for the limit' [ "$status" = 3 ]
holds 'compile, files that are too large: a line for each' [ "$(grep -c 'kob-compile: cannot write many/l[0-9]*.mo: File too large' err)" = 30 ]
holds 'compile, files that are too large: the old MO files are whole' are_whole

# vanishing files: they are removed and made again meanwhile
old_files
(for round in $(seq 6); do
  rm -f many/l[1-3]*.po
  for it in $(seq 29); do cp many.po "many/l$it.po"; done
done) &
it=$!
wrong=''
while kill -0 $it 2> kill; do
  run -q --force many
  case $status in 0 | 3) ;; *) wrong+="status $status " ;; esac
  ! grep -vE '^kob-compile: cannot read many/l[0-9]+\.po: No such file or directory$' err > other || wrong+=$(head -n 1 other)
done
wait $it
# (a PO file that is half copied is compiled as far as it goes, or refused)
rm -f many/*.mo
run -q many
holds 'compile, vanishing files: nothing but a line for each' [ -z "${wrong//status 1 /}" ]
holds 'compile, vanishing files: no leftover' has_no_leftover many

# SIGINT, SIGTERM and SIGKILL in the middle
interrupted=0
for signal in INT TERM KILL; do
  wrong=''
  for it in 0 1 2 4 6 8; do
    old_files
    set -m # (otherwise a shell has its background ignore SIGINT)
    "$tested" -q --force -j 2 many > out 2> err &
    pid=$!
    set +m
    # (a shell that hasn't become the program yet would end this script's room)
    until [ ! "/proc/$pid/exe" -ef /proc/$$/exe ]; do sleep 0.001; done
    sleep "0.$(printf %03d $((it * slower)))"
    kill -$signal $pid 2> kill
    wait $pid 2> kill
    status=$?
    [ $status = 0 ] || interrupted=$((interrupted + 1))
    if [ $signal = KILL ]; then
      run -q --force many
      [ $status = 0 ] || wrong+="status $status after it "
    fi
    are_whole || wrong+="after $((it * slower)) ms: $(find many -name '.*' | head -n 2) "
  done
  if [ -z "$wrong" ]; then ok "compile, SIG$signal in the middle: the MO files are whole, and nothing is left over"
  else failed "compile, SIG$signal in the middle" "$wrong"; fi
done
holds 'compile, signals came in the middle' [ $interrupted -gt 3 ]

# runs at once
old_files
pids=()
for it in $(seq 6); do
  "$tested" -q --force many > "stdout$it" 2> "stderr$it" &
  pids+=($!)
done
wrong=''
for it in "${pids[@]}"; do wait "$it" || wrong+="status $? "; done
wrong+=$(cat stdout[1-6] stderr[1-6])
for it in many/*.mo; do cmp -s "$it" wanted.mo || wrong+="$it "; done
has_no_leftover many || wrong+='leftovers'
if [ -z "$wrong" ]; then ok 'compile, six runs at once'; else failed 'compile, six runs at once' "${wrong:0:300}"; fi

# threads
for it in 1 2 7 100; do
  rm -f many/*.mo
  run -q -j $it many
  wrong=''
  for mo in many/*.po; do cmp -s "${mo%.po}.mo" wanted.mo || wrong+="$mo "; done
  if [ -z "$wrong" ] && [ "$status" = 0 ]; then ok "compile, -j $it"; else failed "compile, -j $it" "status $status, $wrong"; fi
done
says 'compile, -j 0' 2 'kob-compile: -j 0: not a number of threads' -j 0
says 'compile, -j x' 2 'kob-compile: -j x: not a number of threads' -j x
run --nope
holds 'compile, an option that it has not' [ "$status" = 2 ]
says 'compile, --check and -o' 2 'kob-compile: --check writes nothing, so it takes no -o; try --help' --check -o x
run --help
holds 'compile, --help' [ "$status" = 0 ] && holds 'compile, --help: its usage' grep -q '^usage: kob-compile' out
"$tested" --version | grep -qxF "kob-compile (Kobdzila) $(cat "$top/VERSION")" && ok 'compile, --version' || failed 'compile, --version' ''
"$tested" --force again > /dev/full 2> err
holds 'compile, a full output' [ $? = 3 ]
says 'compile, a full disk for --sarif' 3 'kob-compile: cannot write /dev/full: No space left on device' -q --sarif=/dev/full again
says 'compile, a file in the place of a folder' 3 \
  'kob-compile: cannot write again/fr.po/fr/LC_MESSAGES/d.mo: Not a directory' -q -o again/fr.po -d d again/fr.po

# --- GNU msgfmt ---------------------------------------------------------------------------------------------------------

mkdir latin euc
{ header ISO-8859-1 de && printf 'msgid "hi"\nmsgstr "gr\374\337e"\n\n#, fuzzy\nmsgid "a"\nmsgstr "b"\n'; } > latin/de.po
says 'compile, a single-byte charset, --no-gnu' 0 'latin/de.po: 1 translated message, 1 fuzzy translation.' \
  --no-gnu --statistics -q latin
if msgfmt_of latin/de.po --no-hash && [ -f recoded/de.po ]; then
  holds 'compile, a single-byte charset: the bytes of msgfmt of the text that iconv converts' cmp -s latin/de.mo wanted.mo
else
  failed 'compile, a single-byte charset: the text that iconv converts' "$(cat said)"
fi
# Charsets of several bytes: all characters that iconv has, 80 in a message, and bytes 5C that are no backslashes before
# one that is.
mkdir wide
for charset in EUC-JP EUC-KR BIG5 GB2312 GBK; do
  {
    header "$charset" zh
    { python3 -c 'print("".join(chr(c) for c in range(0xa0, 0x10000) if not 0xd800 <= c < 0xe000), end="")' |
      iconv -c -f UTF-8 -t "$charset" | iconv -f "$charset" -t UTF-8 | LC_ALL=C.UTF-8 python3 -c '
import sys
text = "".join(c for c in sys.stdin.read() if c >= "\x80")
for i in range(0, len(text), 80):
    print(f"msgid \"{i}\"\nmsgstr \"{text[i:i + 40]}\\n{text[i + 40:i + 80]}.\"\n")'
      case $charset in BIG5) echo '許功蓋' ;; GBK) echo '誠' ;; *) echo '中' ;; esac |
        sed 's/.*/msgid "end"\nmsgstr "&\\n&"/'
    } | iconv -f UTF-8 -t "$charset"
  } > "wide/$charset.po"
  iconv -f "$charset" -t UTF-8 "wide/$charset.po" | sed "s/charset=$charset/charset=UTF-8/" > "utf8-$charset.po"
  run --no-gnu --force -q "wide/$charset.po"
  holds "compile, $charset" [ "$status" = 0 ]
  "$program" -o wanted.mo "utf8-$charset.po"
  holds "compile, $charset: the bytes of msgfmt of the text that iconv converts" cmp -s "wide/$charset.mo" wanted.mo
  if [ -n "$gnu" ]; then
    "$gnu" --no-hash -o wanted.gnu "utf8-$charset.po" 2> said
    holds "compile, $charset: the bytes of GNU msgfmt of this text" cmp -s "wide/$charset.mo" wanted.gnu
  fi
done
{ header BIG5 zh && printf 'msgid "a"\nmsgstr "\245"\n'; } > wide/BIG5.po
says 'compile, an incomplete character, --no-gnu' 1 'wide/BIG5.po:5: byte without a character' --no-gnu -q wide/BIG5.po
{ header BIG5 zh && printf '#, python-format\nmsgid "%%(a)s"\nmsgstr "\263\\%%(b)s"\n'; } > wide/BIG5.po
says 'compile, formats beside a byte that is a backslash in ASCII' 1 \
  "wide/BIG5.po:6: a format specification for argument 'a' doesn't exist in 'msgstr'" --no-gnu -c -q wide/BIG5.po
{ header EUC-TW zh && printf 'msgid "hi"\nmsgstr "\304\343"\n\n#, fuzzy\nmsgid "a"\nmsgstr "b"\n'; } > euc/zh.po
{ header UTF-8 fr && printf '#= fuzzy\nmsgid "a"\nmsgstr "b"\n'; } > flags.po
says 'compile, another charset, --no-gnu' 1 'euc/zh.po:5: not UTF-8' --no-gnu -q euc
holds 'compile, another charset, --no-gnu: nothing is written' is_absent euc/zh.mo
says 'compile, flags in #=, --no-gnu' 1 'flags.po:4: flags in a line #= need GNU msgfmt' --no-gnu -q flags.po
{ header UTF-8 fr && printf '#, c-format\nmsgid "%%<PRIu64> of %%d"\nmsgstr "%%2$Id, %%1$<PRIu64>"\n\nmsgid "a"\nmsgstr "b"\n'; } > macros/fr.po
{ header UTF-8 fa && printf '#, c-format\nmsgid "%%d"\nmsgstr "%%Id"\n'; } > macros/fa.po
says 'compile, the flag I, --no-gnu' 0 'macros/fa.po: 1 translated message.' --no-gnu -q -c --statistics macros/fa.po
says 'compile, macros, --no-gnu' 0 'macros/fr.po: 2 translated messages.' --no-gnu -q -c --statistics macros/fr.po
{ header UTF-8 fr && printf '#, c-format\nmsgid "%%<PRIu64>"\nmsgstr "%%<PRId64>"\n'; } > wrong.po
says 'compile, a macro of another type, --no-gnu' 1 'wrong.po:5: format arguments differ' --no-gnu -q -c wrong.po
c_format='#, c-format\nmsgid "a %%Zu"\nmsgstr "b %%'
{ header UTF-8 fr && printf "$c_format"'s"\n'; } > undefined.po
says 'compile, a directive that only GNU msgfmt reads, --no-gnu' 0 '' --no-gnu -q --check undefined.po
if [ -n "$gnu" ]; then
  says 'compile, a directive that only GNU msgfmt reads' 1 \
    "undefined.po:6: format specifications in 'msgid' and 'msgstr' for argument 1 are not the same" -q -c undefined.po
  holds 'compile, a directive that only GNU msgfmt reads: nothing is written' is_absent undefined.mo
  run -q --check --sarif=- undefined.po
  holds 'compile, a directive that only GNU msgfmt reads: its rule of SARIF' grep -q '"ruleId": "format-arguments-differ"' out
  says 'compile, a directive that only GNU msgfmt reads, without -c' 0 '' -q undefined.po
  holds 'compile, a directive that only GNU msgfmt reads, without -c: the bytes' is_as_msgfmt undefined.mo undefined.po
  (unset GNU_MSGFMT && PATH=$room/none && "$tested" -q --check undefined.po) 2> err
  status=$?
  judge 'compile, a directive that only GNU msgfmt reads, no GNU msgfmt' 0 '' &&
    ok 'compile, a directive that only GNU msgfmt reads, no GNU msgfmt'
  { header UTF-8 fr && printf "$c_format"'zu"\n'; } > undefined.po
  run --check --json undefined.po
  holds 'compile, a directive that only GNU msgfmt reads and accepts' grep -q '"outcome":"checked","by":"GNU"' out
  for it in 'c-format, no-c-format' 'c-format\n#, no-c-format'; do
    { header UTF-8 fr && printf "#, $it"'\nmsgid "%%<PRIu64>"\nmsgstr "%%<PRIu64>"\n'; } > denied.po
    "$gnu" --no-hash -o wanted.gnu denied.po
    says "compile, a macro, $it" 0 '' -q --force denied.po
    holds "compile, a macro, $it: the bytes of GNU msgfmt" cmp -s denied.mo wanted.gnu
  done
  run --no-gnu --force -q macros
  wrong=''
  for it in macros/*.po; do
    # (a text with a directive that isn't read keeps its macros, so GNU msgfmt compiles it)
    ! grep -q '%[-0-9.*]*Z[diouxX]' "$it" || run --force -q "$it"
    "$gnu" --no-hash -o wanted.gnu "$it" 2> said && cmp -s wanted.gnu "${it%.po}.mo" || wrong+="$it "
  done
  holds "compile, macros: the bytes of GNU msgfmt${wrong:+: not of $wrong}" [ -z "$wrong" ]
  says 'compile, another charset' 0 'euc/zh.po: 1 translated message, 1 fuzzy translation.' --statistics -q euc
  "$gnu" --no-hash -o wanted.gnu euc/zh.po
  holds 'compile, another charset: the bytes of GNU msgfmt' cmp -s euc/zh.mo wanted.gnu
  says 'compile, another charset, -c -f' 0 'euc/zh.po: 1 translated message, 1 fuzzy translation.' --statistics -q -c -f --force euc
  printf 'msgid ""\nmsgstr "Content-Type: text/plain; charset=EUC-TW\\n"\n\nmsgid "hi"\nmsgstr "\304\343"\n' > lacking.po
  "$gnu" -c -o none.mo lacking.po 2> said
  says 'compile, another charset, and fields that the header lacks' 0 "$(sed 's/ in header$//' said)" -q -c lacking.po
  mkdir checked && { cat euc/zh.po && printf '#, c-format\nmsgid "%%d"\nmsgstr "%%s"\n'; } > checked/zh.po
  says 'compile, another charset, checked by GNU msgfmt' 1 \
    "checked/zh.po:12: format specifications in 'msgid' and 'msgstr' for argument 1 are not the same" -q -c checked
  { header EUC-TW zh && printf 'msgid "hi"\nmsgid "x"\n'; } > euc/fr.po
  "$gnu" -o none.mo euc/fr.po 2> said
  run -q euc/fr.po
  holds "compile, another charset that GNU's refuses: its first line" [ "$(head -n 1 said | sed 's/:[0-9]*: /: /')" = "$(sed 's/:[0-9]*: /: /' err)" ]
  (unset GNU_MSGFMT && PATH=$room/none && "$tested" -q --force euc/zh.po) 2> err
  status=$?
  judge 'compile, another charset, no GNU msgfmt' 1 "euc/zh.po:5: not UTF-8
kob-compile: GNU msgfmt may compile 1 of these, and there is none on the PATH; it is in the package gettext" &&
    ok 'compile, another charset, no GNU msgfmt'
  (unset GNU_MSGFMT && PATH=$room/none && "$tested" -q flags.po) 2> err
  status=$?
  judge 'compile, flags in #=, no GNU msgfmt' 1 "flags.po:4: flags in a line #= are known to GNU msgfmt since 0.26, and there is none on the PATH; it is in the package gettext" &&
    ok 'compile, flags in #=, no GNU msgfmt'
  mkdir eucs && for it in $(seq 40); do cp euc/zh.po "eucs/l$it.po"; done
  run -q -j 8 eucs
  wrong=''
  for it in eucs/*.po; do cmp -s "${it%.po}.mo" wanted.gnu || wrong+="$it "; done
  holds "compile, 40 of GNU msgfmt's at once" [ -z "$wrong" ]
else
  skipped 'compile, GNU msgfmt' 'no GNU gettext, and it could not be installed'
fi

# --- formats of Python --------------------------------------------------------------------------------------------------

mkdir formats
{
  header UTF-8 fr && printf '#, python-format\nmsgid "%%(n)d"\nmsgstr "%%(o)d"\n\n#, fuzzy, python-format\nmsgid "%%d"\nmsgstr "%%s"\n\n'
  printf '#, python-brace-format\nmsgid "{a}"\nmsgstr "{}"\n'
} > formats/fr.po
first="formats/fr.po:6: a format specification for argument 'n' doesn't exist in 'msgstr'"
last="formats/fr.po:14: 'msgstr' is not a valid Python brace format string, unlike 'msgid'. Reason: In the directive number 0, \
'}' cannot start a field name."
says 'compile, formats of Python, without -c' 0 '' --no-gnu -q formats
rm formats/fr.mo
says 'compile, formats of Python' 1 "$first
$last" --no-gnu -q -c formats
holds 'compile, formats of Python: nothing is written' is_absent formats/fr.mo
says 'compile, formats of Python, a fuzzy message' 1 "$first
formats/fr.po:10: format specifications in 'msgid' and 'msgstr' for argument 1 are not the same
$last" --no-gnu -q -c -f formats
run --no-gnu --check --json --sarif=sarif formats
if python3 - out sarif << 'END' 2> machines; then ok 'compile, formats of Python: JSON and SARIF'
import json, sys
(it,) = json.load(open(sys.argv[1]))["catalogues"]
assert (it["outcome"], it["line"], it["by"]) == ("refused", 6, "Kobdzila"), it
assert [(one["line"], one["msgid"]) for one in it["formats"]] == [(6, "%(n)d"), (14, "{a}")], it
assert it["why"] == it["formats"][0]["why"], it
(run,) = json.load(open(sys.argv[2]))["runs"]
rules = [run["tool"]["driver"]["rules"][one["ruleIndex"]]["id"] for one in run["results"]]
assert rules == ["format-not-valid-or-with-other-arguments"] * 2, rules
places = [one["locations"][0]["physicalLocation"]["region"]["startLine"] for one in run["results"]]
assert places == [6, 14], places
assert [one["message"]["text"] for one in run["results"]] == [one["why"] for one in it["formats"]], run
END
else failed 'compile, formats of Python: JSON and SARIF' "$(tail -n 1 machines)"; fi
mkdir flagged && {
  header UTF-8 fr && printf '#, python-format\n#, no-wrap\nmsgid "%%(n)d"\nmsgstr "%%(o)d"\n\n'
  printf '#, python-format\nmsgid "%%(a)s"\nmsgstr "%%(b)s"\n'
} > flagged/fr.po
says 'compile, formats of Python, two lines of flags' 1 "flagged/fr.po:7: a format specification for argument 'n' doesn't exist in 'msgstr'
flagged/fr.po:11: a format specification for argument 'a' doesn't exist in 'msgstr'" --no-gnu -q -c flagged
if [ -n "$gnu" ]; then
  says 'compile, formats of Python that GNU msgfmt refuses, too' 1 "$first
$last" -q -c formats
  mkdir unread && { header UTF-8 fr && printf '#, scheme-format\nmsgid "~{~a~}"\nmsgstr "~d"\n'; } > unread/fr.po
  "$gnu" -c -o none.mo unread/fr.po 2> said
  says 'compile, a format of Scheme that is not read here' 1 "$(head -n 1 said)" -q -c unread
  says 'compile, a format of Scheme that is not read here, --no-gnu' 0 '' --no-gnu -q -c unread
  # (a later GNU msgfmt may know more formats)
  printf '#!/bin/sh\nfor it; do shift; [ "$it" = --check ] || set -- "$@" "$it"; done\nexec "%s" "$@"\n' "$gnu" > later
  chmod 755 later
  (GNU_MSGFMT=$room/later "$tested" -q -c formats) > out 2> err
  status=$?
  judge 'compile, formats of Python that GNU msgfmt accepts' 0 '' && "$gnu" --no-hash -o wanted.gnu formats/fr.po &&
    holds 'compile, formats of Python that GNU msgfmt accepts' cmp -s formats/fr.mo wanted.gnu
fi

# --- machines and terminals ---------------------------------------------------------------------------------------------

mkdir json && cp "$top"/examples/*.po json && cp bad/fr.po json/refused.po && cp json/fr.po "$(printf 'json/a\377\n"b.po')"
printf 'msgid ""\nmsgstr "Language: fr\\n"\n' > json/fields.po
run --json --no-gnu -c --sarif=sarif json
if python3 -B "$top/tests/compile/machines.py" out sarif "$program" > machines 2>&1; then cat machines
else failed 'compile, JSON and SARIF' "$(tail -n 2 machines)"; fi
mkdir rules && { header ISO-8859-3 mt && printf 'msgid "a"\nmsgstr "\245"\n'; } > rules/mt.po
run --no-gnu --check -q --sarif=- rules
holds 'compile, SARIF: the rule of a byte without a character' grep -q '"ruleId": "byte-without-a-character"' out
says 'compile, --sarif that cannot be written' 3 'kob-compile: cannot write none/x: No such file or directory' -q --sarif=none/x again
run -q --sarif=- again
holds 'compile, --sarif=-' python3 -c 'import json,sys; json.load(open(sys.argv[1]))' out

# coloured NAME SETTING: what a terminal gets, with this setting, is in $room/typed
typed() {
  env "$@" TERM="${terminal:-xterm}" script -qec "'$tested' --force '$room/json/fr.po'" typed > /dev/null < /dev/null
}
if command -v script > /dev/null; then
  escape=$(printf '\033')
  typed A=b && holds 'compile, a terminal: colours' grep -q "$escape" typed
  typed LANG=fr_FR.UTF-8 LC_ALL= && holds 'compile, a terminal: blocks' grep -q '█' typed
  typed LC_ALL=C && holds 'compile, a terminal: no blocks in another charset' grep -q '###' typed
  typed NO_COLOR=1 && holds 'compile, NO_COLOR: no colours' [ "$(grep -c "$escape" typed)" = 0 ]
  typed NO_COLOR= && holds 'compile, an empty NO_COLOR: colours' grep -q "$escape" typed
  terminal=dumb typed A=b && holds 'compile, a dumb terminal: no colours' [ "$(grep -c "$escape" typed)" = 0 ]
  # (as many texts as take half a second: links to one file)
  mkdir long
  for jobs in 1 3; do
    for last in 500 1000 2000 4000 8000; do
      for it in $(seq $((last / 2)) "$last"); do ln -f many.po "long/$it.po"; done
      env TERM=xterm script -qec "'$tested' --check --no-gnu -q -j $jobs '$room/long'" typed > /dev/null < /dev/null
      ! grep -q '\] [0-9]* of [0-9]*' typed || break
    done
    holds "compile, a terminal: a bar after half a second, -j $jobs" grep -q '\[#*\.*\] [0-9]* of [0-9]*' typed
    holds "compile, a terminal: the bar is taken away, -j $jobs" grep -q "$(printf '\r')$escape\[K" typed
  done
  rm -r long
else
  skipped 'compile, a terminal' 'there is no script'
fi
run --force json/fr.po
holds 'compile, a log: no colours and no bar' [ "$(grep -c "$(printf '\033')" out err | tr -dc 0-9)" = 00 ]
cat > table << 'END'
language   translated     fuzzy  untranslated
END
holds 'compile, the table begins with its heads' cmp -s <(head -n 1 out) table

# --- watching -----------------------------------------------------------------------------------------------------------

if python3 -B "$top/tests/compile/watching.py" "$tested" "$program" "${EDITS:-100}" > watching 2>&1; then cat watching
else failed 'compile, --watch' "$(tail -n 3 watching)"; fi

# --- under the sanitizers and valgrind ----------------------------------------------------------------------------------

# checks NAME: the program $tested, which looks at itself, does the work of a few runs
checks() {
  local wrong='' it
  rm -rf checked && cp -r project checked && cp euc/zh.po checked/po/de.po && cp bad/fr.po checked/refused.po
  printf 'fr de\n' > checked/po/LINGUAS
  for it in '--force -j 4' '--check --json' '--sarif=sarif -o checked/out -d x --force checked/po' '-c --statistics'; do
    # shellcheck disable=SC2086
    run $it checked
    case $status in 0 | 1 | 2) ;; *) wrong+="$it: status $status, $(grep -m 1 -E 'ERROR|error|==' err) " ;; esac
    ! grep -qE 'Sanitizer|runtime error|^==' err || wrong+="$it: $(grep -m 1 -E 'Sanitizer|runtime error|^==' err) "
  done
  if [ -z "$wrong" ]; then ok "compile, $1"; else failed "compile, $1" "${wrong:0:300}"; fi
}
of_sources=$tested
for it in address,undefined thread; do
  if (cd "$top" && PROGRAM=kob-compile tools/build_driver "$room/sanitized" -g -fsanitize=$it) > gcc 2>&1; then
    tested=$room/sanitized
    checks "-fsanitize=$it"
  else
    skipped "compile, -fsanitize=$it" "it can't be linked: $(tail -n 1 gcc)"
  fi
done
if "$top/tests/lib/needs" valgrind valgrind libc6-dbg && (cd "$top" && PROGRAM=kob-compile tools/build_driver "$room/plain" -g) > gcc 2>&1; then
  tested=$room/plain under=(valgrind -q --leak-check=full --error-exitcode=99 --child-silent-after-fork=yes)
  checks valgrind
else
  skipped 'compile, valgrind' 'no valgrind, and it could not be installed'
fi
tested=$of_sources under=()
