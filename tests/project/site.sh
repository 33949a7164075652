#!/usr/bin/env bash
# Makes the site of the documents (tools/site), without a warning of Sphinx; then: another one of another day has the same
# bytes, each public name of C, of the Python package and of the crate for Rust is found by its search, each link leads
# somewhere, and no page is wider than a small screen.
no_program=1
. "$(dirname "$0")/../lib/common"

if ! git ls-files --error-unmatch tools/site > /dev/null 2>&1; then
  skipped site 'this is no clone with git'
  exit 0
fi
script sphinx '/usr/bin/python3 -c "import sphinx, myst_parser, furo, breathe, sphinx_copybutton"'
if ! tests/lib/needs "$room/sphinx" python3-sphinx python3-myst-parser furo python3-breathe python3-sphinx-copybutton ||
  ! tests/lib/needs doxygen doxygen || ! tests/lib/needs mandoc mandoc; then
  skipped site 'no Sphinx with its parts, doxygen or mandoc, and they could not be installed'
  exit 0
fi
site=$room/html
if ! tools/site "$site" > "$room/log" 2>&1; then
  failed site "$(grep -v '^$' "$room/log" | tail -n 3 | tr '\n' ' ')"
  exit 0
fi
ok "site: $(tail -n 1 "$room/log" | sed 's/.*: //'), without a warning"

# what made it, as Sphinx and the theme say themselves
wanted=$(/usr/bin/python3 -B -c 'import sphinx, furo; print(f"Sphinx: {sphinx.__version__}\nfuro: {furo.__version__}")')
if [ "$(grep -E '^(Sphinx|furo): ' "$site/made-by.txt" | sort)" = "$wanted" ] && ! grep -q unknown "$site/made-by.txt"; then
  ok "site: made by ${wanted//$'\n'/, } and $(($(wc -l < "$site/made-by.txt") - 2)) more"
else
  failed 'site: made-by.txt' "$(tr '\n' ' ' < "$site/made-by.txt")"
fi
said=$(grep -rlF -e "$PWD" -e "$room" "$site" | head -n 3)
if [ -z "$said" ]; then ok 'site: no path of this machine'
else failed 'site: no path of this machine' "$said"; fi

# the same bytes: in another folder and time zone, with another umask, and with another day for Sphinx to write on its pages
mkdir -p "$room/another place"
git clone -q -n --no-hardlinks . "$room/another place/clone"
{ git ls-files -z; find build/lib build/static build/dist/*.whl -type f -print0 2> /dev/null; } |
  tar --null -T - -cf - | tar -C "$room/another place/clone" --touch -xf -
git -C "$room/another place/clone" add -A
if ! said=$(umask 077 && cd "$room/another place/clone" && SOURCE_DATE_EPOCH=981173106 TZ=Asia/Kathmandu tools/site 2>&1); then
  failed 'site: the same bytes in another folder, in 2001' "$(grep -v '^$' <<< "$said" | tail -n 3 | tr '\n' ' ')"
elif said=$(diff -r -q "$site" "$room/another place/clone/build/html"); then
  ok 'site: the same bytes in another folder, in 2001'
else
  failed 'site: the same bytes in another folder, in 2001' "$(head -n 3 <<< "$said" | tr '\n' ' ')"
fi

# found NAME WANTED..: each of the names is in the search index
found() {
  local name=$1 missing='' it
  shift
  for it in "$@"; do grep -qxF "$it" "$room/names" || missing+="$it "; done
  if [ $# = 0 ]; then failed "$name" 'there is no name to look for'
  elif [ -z "$missing" ]; then ok "$name: $#"
  else failed "$name" "not found: ${missing:0:300}"; fi
}

# (what the search finds: the names of its objects, and the words of its pages)
/usr/bin/python3 -B tests/project/site.py names "$site" > "$room/names"
mapfile -t wanted < <(grep -oE '\bkob_[a-z_]+\(' include/kobdzila.h | tr -d '(' | sort -u)
found 'site: the functions of C are found' "${wanted[@]}"
if grep -q "wasn't built" build/site/source/docs/api/python.rst; then
  skipped 'site: the names of the Python package are found' 'there is no wheel, and none could be made'
else
  # (NullTranslations is Python's own)
  mapfile -t wanted < <(python3 -B tests/project/site.py all python/src/kobdzila/__init__.py | grep -vx NullTranslations)
  found 'site: the names of the Python package are found' "${wanted[@]}"
fi
if command -v cargo > /dev/null; then
  mapfile -t wanted < <(sed -n '/^pub use/,/;/p' rust/src/lib.rs | grep -oE '\b[A-Z][A-Za-z]+\b' | sort -u)
  found 'site: the names of the crate are found' "${wanted[@]}"
else
  skipped 'site: the names of the crate are found' 'no cargo'
fi

broken=$(/usr/bin/python3 -B tests/project/site.py links "$site")
if [ -z "$broken" ]; then ok 'site: each link leads to a page, a file or a place that is there'
else failed 'site: links' "$(wc -l <<< "$broken") lead nowhere: $(head -n 3 <<< "$broken" | tr '\n' ' ')"; fi

# no page is wider than the screen: a page with a frame for each, which says how wide it is
chromium=$(command -v chromium || command -v chromium-browser || command -v google-chrome)
if [ -z "$chromium" ]; then
  skipped 'site: no page is wider than the screen' 'no Chromium'
  exit 0
fi
/usr/bin/python3 -B tests/project/site.py frames "$site" > "$site/widths.html"
for width in 360 1280; do
  said=$(timeout 300 "$chromium" --headless --no-sandbox --disable-gpu --allow-file-access-from-files --user-data-dir="$room/chromium" \
    --virtual-time-budget=60000 --dump-dom "file://$site/widths.html?$width" 2> "$room/log" | grep -oE '<li>[^<]*' | sed 's/<li>//')
  if ! grep -q '^pages: [1-9]' <<< "$said"; then
    skipped "site: no page is wider than $width pixels" "Chromium doesn't run here: $(tail -n 1 "$room/log")"
  elif grep -q '^wide' <<< "$said"; then
    failed "site: no page is wider than $width pixels" "$(grep '^wide' <<< "$said" | head -n 4 | tr '\n' ' ')"
  else
    ok "site: no page is wider than $width pixels, ${said##*pages: } looked at"
  fi
done
