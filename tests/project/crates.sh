#!/usr/bin/env bash
# Compares the picture of the crates with crates.txt, by tools/draw_crates, and sees that it finds changes of either.
no_program=1
. "$(dirname "$0")/../lib/common"

if ! command -v python3 > /dev/null; then
  skipped crates 'no python3'
  exit 0
fi
if why=$(tools/draw_crates --check 2>&1); then ok 'crates: the picture is current'; else failed crates "$why"; fi

mkdir "$room/tools" "$room/docs"
cp tools/draw_crates "$room/tools"

# changes NAME FILE FROM TO WHY: with this change of a file the tool says why the picture isn't current
changes() {
  local said
  cp -r crates.txt docs "$room"
  sed -i "s/$3/$4/" "$room/$2"
  said=$("$room/tools/draw_crates" --check 2>&1)
  case $said in *"$5"*) ok "crates, $1" ;; *) failed "crates, $1" "it said '$said'" ;; esac
}

changes 'another dependency' crates.txt '^desks\(.*\): live_versions' 'desks\1:' "isn't what tools/draw_crates draws"
changes 'a crate more' crates.txt '^test_po:.*' '&\ntest_more: po_text' "isn't what tools/draw_crates draws"
changes 'a layer of another name' crates.txt '^# -- texts' '# -- words' "isn't what tools/draw_crates draws"
changes 'another picture' docs/images/crates.svg '>catserve<' '>cat_serve<' "isn't what tools/draw_crates draws"
changes 'a dependency on a crate above' crates.txt '^po_text:' '& mo_file' "po_text depends on mo_file, which isn't below it"
changes 'a crate without a layer' crates.txt '^# -- texts' '' 'comes before the first layer'
