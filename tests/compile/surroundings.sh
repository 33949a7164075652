#!/usr/bin/env bash
# Runs bin/kob-compile where a file, a file system or the program that starts it is unusual: a text that is too large, new
# files that belong to another user, links that lead nowhere, names that are spelled in several ways, a signal while it
# searches, a disk that fails, and signals that are ignored or blocked when GNU msgfmt runs.
. "$(dirname "$0")/../lib/common"
. tests/lib/c_common
NAME='compile, surroundings'
. tests/compile/begin

# --- a text of more than 64 MiB: it is refused, and the others are compiled ----------------------------------------------

po large/de.po de a
truncate -s 67108865 large/fr.po
says 'compile, a text that is too large' 1 'large/fr.po: file too large' --no-gnu -q large
holds 'compile, a text that is too large: the other is compiled' is_as_msgfmt large/de.mo large/de.po
rm -r large

# --- links ----------------------------------------------------------------------------------------------------------------

po links/fr.po fr a
mkdir links/there && ln -s there/new.mo links/fr.mo
says 'compile, a link that leads nowhere' 0 '' -q links
holds 'compile, a link that leads nowhere: its target is made' is_as_msgfmt links/there/new.mo links/fr.po
holds 'compile, a link that leads nowhere: it stays' [ -L links/fr.mo ]
rm -r links/there
says 'compile, a link into a folder that is not there' 3 \
  'kob-compile: cannot write links/fr.mo: No such file or directory' -q --force links
mkdir links/there && { header UTF-8 de && printf 'msgid "hi"\nmsgstr "%01024d"\n' 0; } > links/de.po
ln -s there/new.mo links/de.mo
under=(bash -c 'ulimit -f 1 && exec "$@"' -)
says 'compile, a link that leads nowhere, and a full disk' 3 'kob-compile: cannot write links/de.mo: File too large' -q links/de.po
holds 'compile, a link that leads nowhere, and a full disk: no half of a file stays' is_absent links/there/new.mo
under=()

# --- an old file whose group can't be kept ----------------------------------------------------------------------------------

if [ "$(id -u)" = 0 ] && command -v setpriv > /dev/null; then
  po grouped/fr.po fr a && echo old > grouped/fr.mo
  chmod 755 "$room" && chmod 777 grouped && chmod 644 grouped/*
  touch -d 2001-01-01 grouped/fr.mo
  cp "$tested" "$room/kob-compile"
  of_sources=$tested tested=$room/kob-compile under=(setpriv --reuid=65534 --regid=65534 --clear-groups)
  says "compile, an old file whose group can't be kept" 0 '' -q grouped
  holds "compile, an old file whose group can't be kept: the group may do what all may" \
    [ "$(stat -c %a grouped/fr.mo)" = 644 ]
  tested=$of_sources under=()
else
  skipped "compile, an old file whose group can't be kept" 'another user is needed: run it as root, with setpriv'
fi

# --- a folder's own rules for new files (acl(5)): its group may write them, and others may not read them ------------------

po shared/fr.po fr a
if python3 - 2> python << 'END'; then
import os, struct
entries = [(1, 6), (4, 6), (32, 0)]  # the owner, the group, others
rules = b"".join(struct.pack("<HHI", *it, 0xffffffff) for it in entries)
os.setxattr("shared", "system.posix_acl_default", struct.pack("<I", 2) + rules)
END
  (umask 022 && run -q shared)
  holds "compile, a folder's own rules for new files" [ "$(stat -c %a shared/fr.mo)" = 660 ]
else
  skipped "compile, a folder's own rules for new files" "it can't have any: $(tail -n 1 python)"
fi

# --- names -----------------------------------------------------------------------------------------------------------------

po names/po/fr.po fr a
for it in ./names/po/fr.po names//po/fr.po names/./po/fr.po ./names/.//po/ .//names; do
  says "compile, the name $it" 0 '' --force -o placed -d x "$it" names/po
done
(cd names/po && "$tested" -q --force . ./fr.po) > out 2> err
holds 'compile, the name . and a file in it' is_as_msgfmt names/po/fr.mo names/po/fr.po

mkdir pipe && mkfifo pipe/LINGUAS && po pipe/fr.po fr a
under=(timeout $((20 * slower)))
says 'compile, a LINGUAS that is a pipe: it is not waited for' 2 'kob-compile: no PO file found; name a folder or files' pipe
under=()

# (GNU msgfmt is what another program can stand in for: one that edits the file that it has read)
script edits 'for it; do :; done; echo made; sleep 0.1; echo "# edited" >> "$it"; sleep 0.1'
po edited/fr.po fr 'a\x41'
GNU_MSGFMT=$room/edits run -q edited
says 'compile, a file that is edited once it was read: it is compiled again' 1 'edited/fr.po:5: bad escape' --no-gnu -q edited

# --- what this machine isn't -------------------------------------------------------------------------------------------------

if (cd "$top" && PROGRAM=kob-compile tools/build_driver "$room/dynamic" -g &&
    cc -shared -fPIC -o "$room/surroundings.so" tests/compile/surroundings.c) > gcc 2>&1; then
  of_sources=$tested tested=$room/dynamic
  po squashed/fr.po fr a
  under=(env SQUASHED=1 "LD_PRELOAD=$room/surroundings.so")
  says 'compile, new files belong to another user' 0 '' -q squashed
  holds 'compile, new files belong to another user: it is written' is_as_msgfmt squashed/fr.mo squashed/fr.po
  po squashed/fr.po fr b
  says 'compile, new files belong to another user: it is replaced' 0 '' -q --force squashed
  holds 'compile, new files belong to another user: it is right' is_as_msgfmt squashed/fr.mo squashed/fr.po
  holds 'compile, new files belong to another user: no leftover' has_no_leftover squashed
  mkdir -p search/a/b search/c && po search/d/fr.po fr a
  under=(env STOPPED=1 "LD_PRELOAD=$room/surroundings.so")
  run search 2> shell # (which says how it ended)
  holds 'compile, a signal while it searches: it ends by it' [ "$status" = 143 ]
  holds 'compile, a signal while it searches: no other folder is read' [ "$(cat err)" = . ]
  holds 'compile, a signal while it searches: nothing is compiled' is_absent search/d/fr.mo
  po quota/fr.po fr a && echo old > quota/fr.mo && touch -d 2001-01-01 quota/fr.mo
  under=(env FULL=1 "LD_PRELOAD=$room/surroundings.so")
  says 'compile, a disk that is full at a close' 3 'kob-compile: cannot write quota/fr.mo: Disk quota exceeded' -q quota
  holds 'compile, a disk that is full at a close: the old file stays' grep -qx old quota/fr.mo
  holds 'compile, a disk that is full at a close: no leftover' has_no_leftover quota
  po broken/fr.po fr a && po broken/de.po de a
  under=(env BROKEN=1 "LD_PRELOAD=$room/surroundings.so")
  says "compile, a folder that can't be read to its end" 3 'kob-compile: cannot read broken: Input/output error' broken
  holds "compile, a folder that can't be read to its end: what was read is compiled" grep -q '^1 compiled' out
  tested=$of_sources under=()
else
  skipped 'compile, a system unlike this one' "it can't be linked: $(tail -n 1 gcc)"
fi

# --- signals and GNU msgfmt ----------------------------------------------------------------------------------------------------

po gone/fr.po fr 'a\x41'
GNU_MSGFMT=$room/none says "compile, GNU_MSGFMT isn't there" 1 "gone/fr.po:5: bad escape
kob-compile: cannot run $room/none: No such file or directory" -q gone
script dies 'kill -SEGV $$'
GNU_MSGFMT=$room/dies says 'compile, GNU msgfmt is ended by a signal' 1 "gone/fr.po:5: bad escape
kob-compile: signal 11 ended $room/dies" -q gone

script waits ": > '$room/waiting'; exec sleep 20"
po waited/fr.po fr 'a\x41'
if env --default-signal=HUP true 2> env; then
  GNU_MSGFMT=$room/waits env --default-signal=HUP "$tested" -q waited > out 2> err &
  it=$!
  for _ in $(seq 200); do
    [ ! -e waiting ] || break
    sleep 0.05
  done
  kill -HUP $it
  sleep 0.2
  kill -TERM $it
  SECONDS=0
  wait $it 2> shell
  status=$?
  holds 'compile, a second signal of another number ends it at once' [ "$status $((SECONDS < 10))" = '143 1' ]
else
  skipped 'compile, a second signal of another number ends it at once' 'env has no option --default-signal'
fi

# (a shell that starts a program blocks all signals for a moment)
script blocked "exec sed -n 's/^SigBlk:[[:space:]]*//p' /proc/self/status >> '$room/mask'"
mkdir many
for it in 1 2 3 4; do
  { header UTF-8 fr && for number in $(seq 3000); do printf 'msgid "message %d"\nmsgstr "text"\n\n' "$number"; done &&
    printf 'msgid "a\\x41"\nmsgstr "b"\n'; } > "many/l$it.po"
done
GNU_MSGFMT=$room/blocked run -q -j 2 many
holds 'compile, GNU msgfmt runs with no signal blocked' [ "$(sort -u mask)" = 0000000000000000 ]
if [ -z "$gnu" ]; then
  skipped 'compile, what only GNU msgfmt compiles' 'there is no GNU msgfmt'
elif ! env --ignore-signal=CHLD true 2> env; then
  skipped 'compile, SIGCHLD is ignored' 'env has no option --ignore-signal'
else
  po ignored/fr.po fr a && printf '\nmsgid "a\\x41"\nmsgstr "b"\n' >> ignored/fr.po
  under=(env --ignore-signal=CHLD)
  says 'compile, SIGCHLD is ignored: GNU msgfmt compiles' 0 '' -q ignored
  under=()
  mkdir nothing && printf 'msgid "a\\x41"\nmsgstr ""\n' > nothing/fr.po && : > nothing/none.po
  says 'compile, GNU msgfmt writes no file of a text without a translation' 0 '' -q nothing
  holds 'compile, then the file is that of no entry' is_as_msgfmt nothing/fr.mo nothing/none.po
fi
