#!/usr/bin/env bash
# Compares docs/internals/duplicates.md with the runs of lines that stand twice (tests/project/duplicates.py). Then it
# checks that a run that isn't listed is found, and a row without a run.
no_program=1
. "$(dirname "$0")/../lib/common"

if ! command -v python3 > /dev/null; then
  skipped duplicates 'no python3'
  exit 0
fi
python3 -B tests/project/duplicates.py

top=$room/repo
mkdir -p "$top/docs/internals"
cp docs/internals/duplicates.md "$top/docs/internals"
tar cf - --exclude out --exclude target --exclude build bench c crates examples fuzz include packaging python rust tests \
  tools | tar xf - -C "$top"

# finds NAME PATTERN: a line FAILED that has the pattern is printed for the copy
finds() {
  local said
  said=$(python3 -B tests/project/duplicates.py "$top")
  if grep -q "^FAILED .*$2" <<< "$said"; then ok "$1"; else failed "$1" "it was not found: $said"; fi
}

sed -n '/^fn is_octal_digit/,$p' crates/po_text/src/units.rt | head -n 20 >> "$top/crates/po_header/src/token.rt"
finds 'duplicates, a run in a second crate' 'po_header/src/token.rt:'
cp crates/po_header/src/token.rt "$top/crates/po_header/src/token.rt"

sed '/`load_job`/d' docs/internals/duplicates.md > "$top/docs/internals/duplicates.md"
finds 'duplicates, a row that is gone' 'desks/src/publish.rt:'

sed 's,^| `crates/desks/src/publish.rt`,& and `crates/desks/src/gate.rt`,' docs/internals/duplicates.md \
  > "$top/docs/internals/duplicates.md"
finds 'duplicates, a file without a run' 'desks/src/gate.rt'
