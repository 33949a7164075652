#!/usr/bin/env bash
# Runs the programs as they are linked for installing, without libraries, in a folder that has nothing but them; and
# msgfmt over all inputs of rows.sh.
no_program=1
. "$(dirname "$0")/../lib/common"

static=build/static
names=(msgfmt catserve catsession)

if ! command -v "${CC:-cc}" > /dev/null; then
  skipped 'static programs' 'there is no C compiler to link them'
  exit 0
fi

# alone PROGRAM WORD..: runs the program where no other file is. (A plain user makes such a place for itself, if the system
# lets it.)
bare=$room/bare
mkdir "$bare"
alone() {
  local name=$1
  shift
  if [ "$(id -u)" = 0 ]; then chroot "$bare" "/$name" "$@"; else unshare -r chroot "$bare" "/$name" "$@"; fi
}

for name in "${names[@]}"; do
  if [ ! -x "$static/$name" ]; then
    failed "static $name" "there is no $static/$name: $(tail -n 2 "build/log/$name.static.log" 2>&1)"
    exit 1
  fi
  cp "$static/$name" "$bare/$name"
done

if ! alone msgfmt --help > /dev/null 2> "$room/err"; then
  if [ "$(id -u)" != 0 ] && grep -qi 'operation not permitted' "$room/err"; then
    skipped 'static programs in an empty folder' 'only root may enter it on this system'
    exit 0
  fi
  failed 'static msgfmt, alone' "$(head -n 1 "$room/err")"
fi

bin/msgfmt -o "$room/wanted" examples/fr.po
if alone msgfmt -o - - < examples/fr.po 2> "$room/err" | cmp -s - "$room/wanted"; then
  ok 'static msgfmt, alone'
else
  failed 'static msgfmt, alone' "$(head -n 1 "$room/err")"
fi
for name in catserve catsession; do
  if alone "$name" < examples/shop.script 2> "$room/err" | cmp -s - examples/shop.answers; then
    ok "static $name, alone"
  else
    failed "static $name, alone" "$(head -n 1 "$room/err")"
  fi
done

MSGFMT=$static/msgfmt tests/msgfmt/rows.sh | sed -E 's/^(ok|FAILED|skipped) /\1 static, /'
