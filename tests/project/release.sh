#!/usr/bin/env bash
# The release: the version is the same everywhere; the C interface is what the last release promised; a tarball packed
# twice, in two folders, by two users, has the same bytes, contains what it says, runs where there is no C library, and
# is installed and removed without root; and the Debian packages are the same bytes twice, and pass lintian.
#
# tests/project/debian tries both in minimal systems of several Debian releases; it isn't a part of `make check`.
#
# MACHINE=aarch64 looks at the release for that machine, but for the site and the crates, which aren't part of it. It runs
# in tests/lib/emulated then: tests/machine/aarch64.sh calls it.
no_program=1
. "$(dirname "$0")/../lib/common"
. tests/lib/c_common
eval "$(tools/machine)"
version=$(cat VERSION)
name=kobdzila-$version-$machine-linux
if [ -n "$other" ]; then
  QEMU_LD_PREFIX=$(dirname "$(dirname "$("$cc" -print-file-name=libc.so.6)")")
  export QEMU_LD_PREFIX
fi

# says NAME WANTED GOT
says() { if [ "$2" = "$3" ]; then ok "$1"; else failed "$1" "'$3' and not '$2'"; fi; }

# --- the version --------------------------------------------------------------------------------------------------

says 'version: kobdzila.h' "$version" "$(sed -n 's/^#define KOB_VERSION "\(.*\)"/\1/p' include/kobdzila.h)"
says 'version: CHANGELOG.md' 1 "$(grep -c "^## \[$version\]" CHANGELOG.md)"
if [ ! -f "$build/lib/libkobdzila.so.0" ]; then
  skipped 'version: the library and the Python module' 'no library was built'
elif has_python 'version: the library and the Python module'; then
  says 'version: the library and the Python module' "$version" "$(LIBKOBDZILA=$PWD/$build/lib/libkobdzila.so.0 \
    PYTHONPATH=examples/python "$python" -B -c 'import kobdzila_ctypes; print(kobdzila_ctypes.__version__)' 2>&1 | tail -n 1)"
fi
if [ -x "$bin/catsession" ]; then
  says 'version: catsession' "catsession (Kobdzila) $version" "$("$bin/catsession" --version 2>&1)"
else
  skipped 'version: catsession' 'it was not built'
fi

for it in kob-compile kob-msgunfmt; do
  if [ -x "$bin/$it" ]; then
    says "version: $it" "$it (Kobdzila) $version" "$("$bin/$it" --version 2>&1)"
  else
    skipped "version: $it" 'it was not built'
  fi
done

# --- the C interface ----------------------------------------------------------------------------------------------

if command -v python3 > /dev/null && command -v readelf > /dev/null && [ -f "$build/lib/libkobdzila.so.0" ]; then
  if said=$(tests/library/c_interface.py "$build/lib/libkobdzila.so.0" 2>&1); then
    ok "the C interface: $said"
  else
    failed 'the C interface' "$said"
  fi
else
  skipped 'the C interface' 'no python3, no binutils, or no library was built'
fi

# --- the tarball, packed twice ------------------------------------------------------------------------------------

if ! git rev-parse HEAD > /dev/null 2>&1; then
  skipped 'the release' 'this is no clone with git'
  exit 0
fi
# (as a container does, in which the clone belongs to somebody else)
git clone -q . "$room/untrusted" && cp tools/{dist,deb} "$room/untrusted/tools"
for it in dist deb; do
  what="make $it in a clone that git doesn't trust: git says so"
  said=$(GIT_TEST_ASSUME_DIFFERENT_OWNER=1 GIT_CONFIG_GLOBAL=/dev/null GIT_CONFIG_SYSTEM=/dev/null \
    "$room/untrusted/tools/$it" --as-built 2>&1)
  case $said in
    *'dubious ownership'*) ok "$what" ;;
    *'there is no dh'*) skipped "$what" 'no debhelper' ;;
    *) failed "$what" "$said" ;;
  esac
done
if [ ! -x "$build/static/msgfmt" ] || [ ! -f "$build/lib/libkobdzila.so.0" ]; then
  skipped 'the release' 'no static programs were built: there is no C compiler, or no static C library'
  exit 0
fi

# copied FOLDER WORD..: makes a clone in it, with the sources as they are here and what was built; with further words for
# tar. (Its files get another owner, so none may be a link to one here.)
copied() {
  git clone -q -n --no-hardlinks . "$1"
  {
    git ls-files -z
    find "$bin" "$build"/{static,lib} ! -type d -print0
    [ ! -d "$build/proved" ] || find "$build/proved" -type f -print0
    [ -n "$other" ] || [ ! -f "$core" ] || printf '%s\0' "$core"
  } | tar --null -T - -cf - | tar -C "$1" "${@:2}" -xf -
  git -C "$1" add -A
}

# as_another FOLDER WORD..: runs the words in a folder of another user, if this is root, with other settings
as_another() {
  local folder=$1
  shift
  set -- env -i PATH="$PATH" HOME="$folder" TZ=Asia/Kathmandu LC_ALL=C.UTF-8 ${RT:+RT="$RT"} ${CC:+CC="$CC"} \
    ${MACHINE:+MACHINE="$MACHINE"} "$@"
  [ "$(id -u)" != 0 ] || { chown -R nobody "$folder" && set -- setpriv --reuid=nobody --regid=65534 --clear-groups "$@"; }
  (cd "$folder" && umask 077 && "$@")
}

chmod 755 "$room"
copied "$room/one"
# (files that git doesn't know, which no release may have: of each folder that one is made of, and of each ending; the text
# is no C, so a compiler that were given one would say so)
for it in . bin build build/lib c/driver c/library docs docs/{guide,images,internals,man,reference} examples examples/{c,python} \
  include packaging packaging/{debian,systemd} python python/src python/src/kobdzila{,/fleet} rust rust/{src,examples,kobdzila-sys} \
  rust/kobdzila-sys/src tools tools/completion; do
  mkdir -p "$room/one/$it/stray/target"
  for ending in .md .py .pyc .c .h .o .rs .3 .1 .service .mo .svg '~'; do
    echo 'SECRET=1' | tee "$room/one/$it/.env" "$room/one/$it/stray/target/stray$ending" > "$room/one/$it/stray$ending"
  done
done
copied "$room/another/folder" --touch
# (a site of one page, as it is made; tests/project/site.sh makes all of it)
for it in "$room/one" "$room/another/folder"; do
  mkdir -p "$it/build/html"
  echo '<!doctype html>' > "$it/build/html/index.html"
  printf 'Sphinx: 5.3.0\nfuro: 2022.12.07\n' > "$it/build/html/made-by.txt"
done
touch -d '2001-02-03' "$room"/another/folder/build/html/*
# (a gate of two crates that read no earlier result)
cat > "$room/anew" << 'END'
fn one::first: proved
logic=proved functions=12 sum=dac8208d650f15bf native=nat,char,string logic-built=trusted statements=trusted
rt: one proved
logic=proved tests=3 functions=5 axioms=9 sum=dac8208d650f15bf logic-built=trusted libraries-built=trusted
rt: one: its tests are proved
logic=proved functions=30 axioms=2 sum=dac8208d650f15bf logic-built=trusted
rt: another_crate proved
END
(cat "$room/anew" && echo '6 passed, 1 failed') > "$room/anew_failed"
echo '7 passed, 0 failed' >> "$room/anew"
said=$(cd "$room/one" && tools/prove_anew --of "$room/anew_failed")
says 'proved anew: a failure is the status' 1 $?
says 'proved anew: a failure is not for a release' '' "$(cat "$room/one/build/anew" 2> /dev/null)"
for it in "$room/one" "$room/another/folder"; do
  said=$(cd "$it" && tools/prove_anew --of "$room/anew")
done
says 'proved anew: the verdict of each crate' 'one one,tests another_crate' \
  "$(sed -n 's/ *\(.*\): logic=proved.*/\1/p' <<< "$said" | tr -d ' ' | paste -sd ' ')"
anew='Anew:       2 crates, 47 functions; trusted: logic-built, statements, libraries-built; 7 passed, 0 failed'
says 'proved anew: their sum' "$anew" "$(tail -n 1 <<< "$said")"
said=$(cd "$room/one" && tools/dist --as-built 2>&1)
if [ ! -f "$room/one/$build/dist/$name.tar.gz" ]; then
  failed 'the tarball' "$said"
  exit 0
fi
tarball=$room/one/$build/dist/$name.tar.gz
# (the other user may have Debian's cargo alone, which can't pack a crate that needs the other one)
mkdir "$room/no_cargo"
script no_cargo/cargo 'exit 1'
said=$(PATH=$room/no_cargo:$PATH as_another "$room/another/folder" tools/dist --as-built 2>&1)
second=$room/another/folder/$build/dist/$name.tar.gz
whom='two users'
[ "$(id -u)" = 0 ] || whom='one user'
if cmp "$tarball" "$second" > "$room/cmp" 2>&1; then
  ok "the tarball: the same bytes in two folders, by $whom"
else
  failed "the tarball: the same bytes in two folders, by $whom" "$(cat "$room/cmp"); $said"
fi
says 'the tarball: it names the run that proved it anew' "$anew" "$(tar -xzOf "$tarball" "$name/PROVENANCE" | grep ^Anew)"
says 'the tarball: it names what it was built for' "$target" "$(tar -xzOf "$tarball" "$name/PROVENANCE" | sed -n 's/^Target: *//p')"
if [ -n "$other" ]; then
  says 'the tarball: it names the proof of each crate for that machine' 'catserve_program catsession kobdzila_c msgfmt' \
    "$(tar -xzOf "$tarball" "$name/PROVENANCE" | sed -n "s/^Proved: *\([a-z_]*\): logic=proved .* target=$target .*/\1/p" | sort | paste -sd ' ')"
fi
html=kobdzila-$version-html
# site: the site is packed as the tarball is, and the same by another user
site() {
  if cmp {"$room/one","$room/another/folder"}"/build/dist/$html.tar.gz" > "$room/cmp" 2>&1; then
    ok "the site: the same bytes in two folders, by $whom"
  else
    failed "the site: the same bytes in two folders, by $whom" "$(cat "$room/cmp"); $said"
  fi
  # (the tarball has the owner and the time of its files, and the site has to have the same)
  says 'the site: packed as the tarball is, with its page and what made it' \
    "$(tar --full-time --numeric-owner -tvzf "$tarball" "$name/README.md" | awk '{ print $2, $4, $5 }') $html/index.html $html/made-by.txt" \
    "$(tar --full-time --numeric-owner -tvzf "$room/one/$build/dist/$html.tar.gz" | awk '!/\/$/ { at = $2 " " $4 " " $5; names = names " " $6 } END { print at names }')"
  says 'the site: its line in SHA256SUMS' "$html.tar.gz: OK" \
    "$(cd "$room/one/$build/dist" && sha256sum -c SHA256SUMS 2>&1 | grep -F "$html")"
}
[ -n "$other" ] || site
mkdir "$room/published"
cp "$room/one/$build"/dist/* "$room/published" 2> /dev/null
if said=$(cd "$room/one" && tools/verify_release --as-built "$room/published/$name.tar.gz" 2>&1); then
  ok "the tarball and what comes with it: $(grep -c 'every byte is the same' <<< "$said") files verified"
else
  failed 'the tarball and what comes with it: verified' "$said"
fi
# (what the other user packed has no crates for Rust, which are made here)
mkdir "$room/fewer"
cp "$room/another/folder/$build"/dist/* "$room/fewer" 2> /dev/null
if said=$(cd "$room/one" && tools/verify_release --as-built "$room/fewer/$name.tar.gz" 2>&1) &&
  grep -qx "kobdzila-$version${other:+-$machine}.spdx.json: every byte is the same" <<< "$said"; then
  ok 'a release of fewer files than are made here: verified'
else
  failed 'a release of fewer files than are made here: verified' "$said"
fi
printf x >> "$room/published/$name.oci.tar"
# remade SED FOLDER: the site, of which other tools say that they made it, or which has another page, in FOLDER
remade() {
  mkdir -p "$2"
  [ -z "$other" ] || return 0
  tar -xzf "$room/one/$build/dist/$html.tar.gz" -C "$2"
  sed -i "$1" "$2/$html"/*
  tar -czf "$2/$html.tar.gz" -C "$2" "$html"
}
remade 's/^Sphinx: .*/Sphinx: 7.2.6/' "$room/published"
if said=$(cd "$room/one" && PATH=$room/no_cargo:$PATH tools/verify_release --as-built "$room/published/$name.tar.gz" 2>&1); then
  failed 'what comes with the tarball: a changed file is found' 'it passed'
elif grep -qx "$name.oci.tar: it differs" <<< "$said"; then
  ok 'what comes with the tarball: a changed file is found'
else
  failed 'what comes with the tarball: a changed file is found' "$said"
fi
[ -n "$other" ] || says 'the site: not compared where other tools made it' \
  "$html.tar.gz: not compared, since other tools made it: Sphinx: 7.2.6; here: Sphinx: 5.3.0" "$(grep -F "$html" <<< "$said")"
if [ -n "$other" ]; then
  says 'the site, the crates and the source distribution are left to the other release' '' \
    "$(find "$room/one/$build/dist" -maxdepth 1 '(' -name '*.crate' -o -name '*html*' -o -name "kobdzila-$version.tar.gz" ')')"
elif ! cargo --version > /dev/null 2>&1; then
  skipped 'the crates for Rust' 'no cargo'
else
  says 'the list of what is inside: not compared where fewer files are made' \
    "kobdzila-$version.spdx.json: not compared, since it names what isn't made here: kobdzila-$version.crate,kobdzila-sys-$version.crate" \
    "$(grep -F spdx <<< "$said")"
  for folder in rust rust/kobdzila-sys; do
    crate=kobdzila${folder#rust}
    crate=${crate/\/kobdzila/}-$version
    if said=$(cd "$room/one/$build/dist" && sha256sum -c SHA256SUMS 2>&1) && grep -qx "$crate.crate: OK" <<< "$said" &&
      tar -xzOf "$room/one/$build/dist/$crate.crate" "$crate/src/lib.rs" | cmp -s - $folder/src/lib.rs; then
      ok "the crate $crate for Rust: packed, with its line in SHA256SUMS"
    else
      failed "the crate $crate for Rust: packed, with its line in SHA256SUMS" "$said"
    fi
  done
fi
mkdir "$room/unpacked" "$room/changed"
tar -xzf "$tarball" -C "$room/unpacked"
if said=$(cd "$room/unpacked/$name" && sha256sum --quiet -c SHA256SUMS 2>&1 && cd .. &&
  find . -type f ! -name SHA256SUMS | wc -l | cmp - <(wc -l < "$name/SHA256SUMS") 2>&1); then
  ok 'the tarball: SHA256SUMS has each file'
else
  failed 'the tarball: SHA256SUMS has each file' "$said"
fi
# names FILE..: what the archives of a release have, one name on each line
names() {
  local it
  for it in "$@"; do
    case $it in
      *.tar.gz | *.crate) tar -tzf "$it" ;;
      *.whl) python3 -m zipfile -l "$it" ;;
      *.deb) dpkg-deb -c "$it" ;;
    esac
  done
}
archives=("$room/one/$build"/dist/*.{tar.gz,crate,whl})
[ -z "$other" ] || archives=("$room/one/$build"/dist/*.{tar.gz,whl})
said=$(names "${archives[@]}" 2>&1)
says "the tarball and what comes with it, $(wc -l <<< "$said") names in ${#archives[@]} files: none that git does not know" '' \
  "$(grep -E '\.env|stray' <<< "$said")"
if said=$(tools/linked_pages --check "$room/unpacked/$name"); then
  ok "the tarball: each link of its $(find "$room/unpacked/$name" -name '*.md' | wc -l) pages leads somewhere"
else
  failed 'the tarball: each link of its pages leads somewhere' "$said"
fi
echo 'See [the sources](../crates/message/README.md).' > "$room/page.md"
if tools/linked_pages --check "$room" > "$room/links"; then
  failed 'the tarball: a link that leads nowhere is found' 'it is not'
else
  ok 'the tarball: a link that leads nowhere is found'
fi

# --- the image for containers, the list of what is inside, the signature --------------------------------------------

image=$room/one/$build/dist/$name.oci.tar
mkdir "$room/image" "$room/root"
tar -xf "$image" -C "$room/image"
# digest JSON WORD..: the digest of a file of the image, as the fields of another file name it
digest() { python3 -c 'import json, sys
it = json.load(open(sys.argv[1]))
for word in sys.argv[2:]: it = it[int(word) if word.isdigit() else word]
print(it.replace(":", "/"))' "$@"; }
if manifest=$room/image/blobs/$(digest "$room/image/index.json" manifests 0 digest) &&
  layer=$room/image/blobs/$(digest "$manifest" layers 0 digest) && tar -xzf "$layer" -C "$room/root" &&
  (cd "$room/image/blobs/sha256" && for it in *; do echo "$it  $it"; done | sha256sum --quiet -c) > "$room/sums" 2>&1; then
  ok "the image: $(($(wc -c < "$image"))) bytes, each blob has the digest that is its name"
else
  failed 'the image: each blob has the digest that is its name' "$(cat "$room/sums" 2>&1)"
fi
# (gzip.compress writes another one in Python 3.11 and 3.12)
says 'the image: the header of its layer, whichever Python packs it' 1f8b08000000000002ff "$(head -c 10 "$layer" | hex)"
if [ "$(id -u)" = 0 ]; then
  mkdir "$room/root/project" && cp crates/msgfmt/stdin "$room/root/project/fr.po"
  chroot "$room/root" /usr/local/bin/kob-compile -q --no-gnu project > "$room/log" 2>&1
  says 'the image: kob-compile compiles a project' "$(hex < crates/msgfmt/stdout)" "$(hex < "$room/root/project/fr.mo" 2>> "$room/log")"
  says 'the image: its command runs in it' "catsession (Kobdzila) $version" \
    "$(chroot "$room/root" "$(digest "$room/image/blobs/$(digest "$manifest" config digest)" config Entrypoint 0)" --version 2>&1)"
else
  skipped 'the image: its command runs in it' 'only root can call chroot'
fi
if tests/lib/needs skopeo skopeo; then
  says 'the image: skopeo reads it' "$version" "$(skopeo inspect "oci-archive:$image" 2>&1 |
    sed -n 's/.*"org.opencontainers.image.version": "\(.*\)".*/\1/p')"
else
  skipped 'the image: skopeo reads it' 'no skopeo, and it could not be installed'
fi
list=$room/one/$build/dist/kobdzila-$version${other:+-$machine}.spdx.json
if said=$(python3 - "$list" "$room/one/$build/dist" << 'END'
import hashlib, json, sys
from pathlib import Path
spdx = json.loads(Path(sys.argv[1]).read_text())
for field in ("spdxVersion", "dataLicense", "SPDXID", "name", "documentNamespace", "creationInfo"):
    assert spdx[field], field
known = {"SPDXRef-DOCUMENT", *(it["SPDXID"] for it in spdx["packages"] + spdx["files"])}
assert len(known) == 1 + len(spdx["packages"]) + len(spdx["files"]), "one name for two things"
for it in spdx["packages"]:
    assert it["name"] and it["downloadLocation"] and it["licenseConcluded"], it
for it in spdx["files"]:
    sums = {sum["algorithm"]: sum["checksumValue"] for sum in it["checksums"]}
    bytes_of = (Path(sys.argv[2]) / it["fileName"]).read_bytes()
    assert sums["SHA256"] == hashlib.sha256(bytes_of).hexdigest(), it["fileName"]
for it in spdx["relationships"]:
    assert it["spdxElementId"] in known and it["relatedSpdxElement"] in known, it
print(f"{len(spdx['packages'])} packages, {len(spdx['files'])} files")
END
); then
  ok "the list of what is inside: $said"
else
  failed 'the list of what is inside' "$(tail -n 1 <<< "$said")"
fi
if said=$(cd "$room/one" && echo 'another: unheard_of' >> crates.txt &&
  tools/spdx --toolchain t --c-library c --compiler c --date 0 2>&1); then
  failed 'the list of what is inside: a library without a licence is found' 'it is not'
else
  says 'the list of what is inside: a library without a licence is found' \
    'tools/spdx: no version and licence is known of unheard_of: add a row to LIBRARIES' "$said"
fi
git -C "$room/one" checkout -q crates.txt
if tests/lib/needs ssh-keygen openssh-client; then
  ssh-keygen -q -t ed25519 -N '' -C maintainers -f "$room/key"
  echo "maintainers $(cut -d ' ' -f 1,2 "$room/key.pub")" > "$room/signers"
  checks() { ssh-keygen -Y verify -f "$room/signers" -I maintainers -n kobdzila-release -s SHA256SUMS.sig < SHA256SUMS; }
  mkdir "$room/one/$build/deb"
  echo package > "$room/one/$build/deb/kobdzila_1_all.deb"
  (cd "$room/one/$build/deb" && sha256sum ./*.deb | sed 's| \./| |' > SHA256SUMS)
  touch -d '2001-02-03' "$room/one/$build/deb/SHA256SUMS"
  says 'the signature: packages of an earlier time are refused' \
    "tools/sign: the packages in $build/deb are older than $build/dist: make deb packs them anew" \
    "$(cd "$room/one" && tools/sign "$room/key" 2>&1)"
  touch "$room/one/$build/deb/SHA256SUMS"
  if said=$(cd "$room/one" && make -s sign KEY="$room/key" 2>&1 && cd "$build/dist" && checks 2>&1); then
    ok 'the signature: checked by ssh-keygen'
  else
    failed 'the signature: checked by ssh-keygen' "$said"
  fi
  says 'the signature: the Debian packages are among what is signed' 'kobdzila_1_all.deb: OK' \
    "$(cd "$room/one/$build/dist" && sha256sum -c SHA256SUMS 2>&1 | grep -F .deb)"
  if said=$(cd "$room/one/$build/dist" && sed -i 's/^./x/' SHA256SUMS && checks 2>&1); then
    failed 'the signature: a changed sum is found' 'it is not'
  else
    ok 'the signature: a changed sum is found'
  fi
else
  skipped 'the signature' 'no ssh-keygen, and it could not be installed'
fi

# (a program with one byte more, and sums to match, has to be found)
cp -R "$room/unpacked/$name" "$room/changed"
(cd "$room/changed/$name" && printf x >> bin/msgfmt &&
  find . -type f ! -name SHA256SUMS | sort | sed 's|^\./||' | xargs sha256sum > SHA256SUMS)
(cd "$room/changed" && tar -czf "$name.tar.gz" "$name")
remade 's/doctype/DOCTYPE/' "$room/changed"
grep -F "$html" "$room/one/$build/dist/SHA256SUMS" > "$room/changed/SHA256SUMS"
if said=$(cd "$room/one" && tools/verify_release --as-built "$room/changed/$name.tar.gz" 2>&1); then
  failed 'the tarball: a changed program is found' 'it passed'
elif grep -q 'bin/msgfmt differ' <<< "$said"; then
  ok 'the tarball: a changed program is found'
else
  failed 'the tarball: a changed program is found' "$said"
fi
[ -n "$other" ] || says 'the site: a changed page is found' "$html.tar.gz: it differs" "$(grep -F "$html" <<< "$said")"

# make verify, by a toolchain that doesn't prove: it hands out what was built here
proved_before=yes
for it in msgfmt catserve_program catsession; do
  if [ -n "$other" ]; then [ -f "$build/proved/$it.o.verdict" ] || proved_before=
  else [ -f "crates/$it/out/$it" ] && [ -f "crates/$it/out/$it.o" ] || proved_before=; fi
done
cat > "$room/rt" << END
#!/bin/sh
case \$1 in lib | run) ;; *) exec ${RT:-rt} "\$@" ;; esac
name=\$(basename "\$PWD")
mkdir -p out
for it in "\$name" "\$name.o" "lib\$name.a"; do
  [ ! -f "$PWD/crates/\$name/out/\$it" ] || cp "$PWD/crates/\$name/out/\$it" out
done
END
chmod +x "$room/rt"
if [ -z "$proved_before" ] || [ ! -f "$core" ]; then
  skipped 'make verify' 'no program with its object file is here, as `make check` leaves them'
else
  copied "$room/made"
  # (what is proved for another machine is handed out as well)
  [ -z "$other" ] || printf '#!/bin/sh\nmkdir -p "${2%%/*}" && cp -p "%s/%s/proved/${2##*/}"* "${2%%/*}"\n' "$PWD" "$build" \
    > "$room/made/tools/over_gate"
  # (in place of Sphinx, which takes a minute)
  cat > "$room/made/tools/site" << 'END'
#!/bin/sh
[ "$1" = --needs ] || { mkdir "$1" && echo 'Sphinx: 5.3.0' > "$1/made-by.txt"; }
END
  git -C "$room/made" -c user.name=test -c user.email=test commit -q -a --allow-empty -m sources
  : > "$room/made/c/driver/stray.c"
  says 'the tarball: a file in C that git does not know is refused' \
    "tools/dist: git doesn't know c/driver/stray.c: a release is made of a commit" "$(cd "$room/made" && RT=$room/rt tools/dist 2>&1)"
  rm "$room/made/c/driver/stray.c"
  if said=$(cd "$room/made" && export RT=$room/rt && tools/dist 2>&1 &&
    timeout $((300 * slower)) tools/verify_release "$build/dist/$name.tar.gz" 2>&1) &&
    [ "$(tail -n 1 <<< "$said")" = "$name.tar.gz: every byte is the same" ] &&
    { [ -n "$other" ] || grep -qx "$html.tar.gz: every byte is the same" <<< "$said"; }; then
    ok 'make verify'
  else
    failed 'make verify' "$(tail -n 3 <<< "$said")"
  fi
fi

# --- what is in it ------------------------------------------------------------------------------------------------

program=$room/unpacked/$name/bin/msgfmt
if [ "$(id -u)" = 0 ]; then
  mkdir "$room/nothing"
  cp "$room/unpacked/$name/bin"/{msgfmt,catserve,catsession,kob-compile,kob-msgunfmt} "$room/nothing"
  cp crates/msgfmt/stdin "$room/nothing/fr.po"
  if said=$(chroot "$room/nothing" /msgfmt -o - - < crates/msgfmt/stdin 2>&1 | cmp - crates/msgfmt/stdout 2>&1) &&
    [ "$(echo go | chroot "$room/nothing" /catserve)" = "$(printf 'version\t0')" ] &&
    [ "$(echo go | chroot "$room/nothing" /catsession)" = "$(printf 'version\t0')" ] &&
    said=$(chroot "$room/nothing" /kob-compile -q fr.po 2>&1) && cmp -s "$room/nothing/fr.mo" crates/msgfmt/stdout &&
    chroot "$room/nothing" /kob-msgunfmt fr.mo | "$program" -o - - | cmp -s - crates/msgfmt/stdout; then
    ok 'the programs run in a folder without a C library'
  else
    failed 'the programs run in a folder without a C library' "$said"
  fi
else
  skipped 'the programs run in a folder without a C library' 'only root can call chroot'
fi

# installed PREFIX: by install.sh into a folder, without root: programs, page, library, and removed again
installed() {
  local as="install.sh ${1:-without a prefix}" to=$room/home/$1local left
  mkdir -p "$room/home"
  if ! said=$(PREFIX=$to PROGRAM_PREFIX=$1 "$room/unpacked/$name/install.sh" 2>&1); then
    failed "$as" "$said"
    return
  fi
  if "$to/bin/$1msgfmt" -o - - < crates/msgfmt/stdin | cmp -s - crates/msgfmt/stdout &&
    "$to/bin/$1msgfmt-or-gnu" -o - - < crates/msgfmt/stdin | cmp -s - crates/msgfmt/stdout &&
    cp crates/msgfmt/stdin "$room/home/fr.po" && "$to/bin/kob-compile" -q --force "$room/home/fr.po" &&
    cmp -s "$room/home/fr.mo" crates/msgfmt/stdout; then
    ok "$as: the programs run"
  else
    failed "$as: the programs run" 'they answer otherwise'
  fi
  says "$as: the pages have the version" "Kobdzila $version" \
    "$(sed -n 's/^\.TH.*"\(Kobdzila [^"]*\)".*/\1/p' "$to"/share/man/man?/* | sort -u)"
  said=$(sed 's/\\-/-/g' "$to/share/man/man1/$1msgfmt.1" | grep -o "$to/share/doc/[^ ]*\.md" | head -n 1)
  if [ -s "$said" ]; then ok "$as: the document that the page names"
  else failed "$as: the document that the page names" "'$said'"; fi
  if grep -q "^complete .* $1msgfmt\$" "$to/share/bash-completion/completions/$1msgfmt" &&
    grep -qx "#compdef $1msgfmt" "$to/share/zsh/site-functions/_$1msgfmt" &&
    grep -q "^complete -c $1msgfmt " "$to/share/fish/vendor_completions.d/$1msgfmt.fish" &&
    grep -qx '#compdef kob-compile' "$to/share/zsh/site-functions/_kob-compile"; then
    ok "$as: completions"
  else
    failed "$as: completions" "$(cd "$to/share" && find . -name '*msgfmt*' ! -path '*/man/*' | head -c 300)"
  fi
  if tests/lib/needs cc gcc libc6-dev && tests/lib/needs pkg-config pkg-config; then
    links "$as" "$to"
  else
    skipped "$as: a program in C" 'no C compiler or no pkg-config, and they could not be installed'
  fi
  PREFIX=$to PROGRAM_PREFIX=$1 "$room/unpacked/$name/install.sh" remove
  left=$(find "$to" ! -type d 2> /dev/null)
  if [ -z "$left" ]; then ok "$as: removed"; else failed "$as: removed" "$left"; fi
}

# links NAME FOLDER: a program in C finds the library by pkg-config, the shared one and the static one
links() {
  local flags said
  export PKG_CONFIG_PATH=$2/lib/pkgconfig
  says "$1: pkg-config knows the version" "$version" "$(pkg-config --modversion kobdzila 2>&1)"
  read -r -a flags < <(pkg-config --cflags --libs kobdzila)
  said=$("$cc" -o "$room/shared" tests/lib/installed.c "${flags[@]}" 2>&1 && LD_LIBRARY_PATH=$2/lib "$room/shared" tests/lib/installed.po 2>&1)
  says "$1: a program in C" "$version: fichiers" "$said"
  read -r -a flags < <(pkg-config --cflags kobdzila)
  said=$("$cc" -o "$room/static" tests/lib/installed.c "${flags[@]}" "$2/lib/libkobdzila.a" 2>&1 && "$room/static" tests/lib/installed.po 2>&1)
  says "$1: a program in C, with the static library" "$version: fichiers" "$said"
}

installed ''
installed kob-

# the shared library runs with the C library of Debian 11, whose number is 2.31
newest=$(readelf -W --dyn-syms "$room/unpacked/$name/lib/libkobdzila.so.0" | grep -o 'GLIBC_[0-9.]*' | sort -u -V | tail -n 1)
if [ "$(printf '%s\n' "$newest" GLIBC_2.31 | sort -V | tail -n 1)" = GLIBC_2.31 ]; then
  ok "the shared library needs $newest, and Debian 11 has GLIBC_2.31"
else
  failed 'the shared library needs at most GLIBC_2.31' "it needs $newest"
fi

# --- the Debian packages ------------------------------------------------------------------------------------------

if ! tests/lib/needs dh debhelper dpkg-dev; then
  skipped 'the Debian packages' 'no debhelper, and it could not be installed'
  exit 0
fi
tests/lib/needs lintian lintian
architecture=$(dpkg-architecture -q DEB_HOST_ARCH ${other:+-t "$machine-linux-gnu"} 2> /dev/null)
as_another "$room/another/folder" tools/deb --as-built > "$room/other_deb" 2>&1 &
(cd "$room/one" && tools/deb --as-built) > "$room/deb" 2>&1
status=$?
wait
if [ "$status" = 0 ]; then
  ok "the Debian packages: $(find "$room/one/$build/deb" -name "*_$architecture.deb" | wc -l) for $architecture"
else
  failed 'the Debian packages' "$(grep -v '^[IW]:' "$room/deb" | tail -n 5)"
fi
if ! command -v lintian > /dev/null; then
  skipped 'the Debian packages, lintian' 'no lintian, and it could not be installed'
elif grep -q '^[EW]: ' "$room/deb"; then
  failed 'the Debian packages, lintian' "$(grep '^[EW]: ' "$room/deb")"
else
  ok 'the Debian packages, lintian: no error and no warning'
fi
if cmp {"$room/one","$room/another/folder"}"/$build/deb/SHA256SUMS" > "$room/cmp" 2>&1; then
  ok "the Debian packages: the same bytes in two folders, by $whom"
else
  failed "the Debian packages: the same bytes in two folders, by $whom" "$(cat "$room/cmp" "$room/other_deb" | tail -n 5 | tr '\n' ' ')"
fi
says 'the Debian packages: no file that git does not know' '' \
  "$(names "$room/one/$build"/deb/*.deb | grep -E '\.env|stray')"
