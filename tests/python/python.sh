#!/usr/bin/env bash
# The Python package: its wheel is built, twice and by two compilers, and installed from a file into an environment of
# each Python 3.10 and later of this machine (PYTHON=PATH: that one first). There its tests run (python/tests), and
# CPython's own tests of gettext. pip and `python -m build` make the same wheel of the source distribution, without a
# network. Then the tests run over an extension that AddressSanitizer watches, and mypy looks at the types. KOBDZILA_OPENS
# says how many catalogues the test for leaks opens (100,000).
no_program=1
. "$(dirname "$0")/../lib/common"
top=$PWD

# is_usable PYTHON: it is 3.10 or later, and makes environments with pip
is_usable() { "$1" -c 'import sys, ensurepip, venv; sys.exit(sys.version_info < (3, 10))' > /dev/null 2>&1; }

# has_headers PYTHON
has_headers() { [ -f "$("$1" -c 'import sysconfig; print(sysconfig.get_path("include"))' 2> /dev/null)/Python.h" ]; }

if ! tests/lib/needs cc gcc libc6-dev; then
  skipped 'the Python package' 'no C compiler, and it could not be installed'
  exit 0
fi
has_archive 'the Python package' || exit 0

# Debian's Python first, since Flask, Jinja2, Babel and mypy can be installed for it
first=${PYTHON:-}
if [ -z "$first" ]; then
  first=/usr/bin/python3
  script debian '/usr/bin/python3 -c "import ensurepip" && /usr/bin/python3-config --includes'
  tests/lib/needs "$room/debian" python3-dev python3-venv
  script frameworks '/usr/bin/python3 -c "import flask, jinja2, babel, flask_babel"'
  tests/lib/needs "$room/frameworks" python3-flask python3-jinja2 python3-babel python3-flask-babel
  script sphinx '/usr/bin/python3 -W ignore -c "import sphinx"'
  tests/lib/needs "$room/sphinx" python3-sphinx
  script servers '/usr/bin/python3 -W ignore -c "import django, fastapi, gunicorn, httpx, starlette, uvicorn"'
  tests/lib/needs "$room/servers" python3-django python3-fastapi python3-httpx python3-starlette gunicorn uvicorn
  tests/lib/needs msgfmt gettext && tests/lib/needs pre-commit pre-commit && tests/lib/needs git git && tests/lib/needs curl curl
  tests/lib/needs chromium chromium # (for the page of examples/shop)
  tests/lib/needs chromedriver chromium-driver
  script looking '/usr/bin/python3 -W ignore -c "import html5lib, selenium"'
  tests/lib/needs "$room/looking" python3-html5lib python3-selenium
  is_usable "$first" && has_headers "$first" || first=$(command -v python3 || echo none)
fi
if ! is_usable "$first"; then
  skipped 'the Python package' 'no Python 3.10 or later with ensurepip, and it could not be installed'
  exit 0
fi
if ! has_headers "$first"; then
  skipped 'the Python package' 'no Python.h, and python3-dev could not be installed'
  exit 0
fi
export PYTHON=$first PYTHONDONTWRITEBYTECODE=1

# --- the wheel

if ! said=$(tools/wheel "$room/wheel" 2>&1); then
  failed 'the Python package, wheel' "$(head -c 300 <<< "$said")"
  exit 1
fi
wheel=$(echo "$room"/wheel/*.whl)
ok "the Python package, ${wheel##*/}: $(wc -c < "$wheel") bytes"

mkdir -p "$room/copy/build/static" "$room/copy/build/lib" "$room/copy/docs"
cp -R python include packaging tools VERSION "$room/copy"
cp -R docs/man "$room/copy/docs"
cp build/lib/libkobdzila.a "$room/copy/build/lib"
[ ! -f build/static/catsession ] || cp build/static/catsession "$room/copy/build/static"
epoch=$(git log -1 --format=%ct 2> /dev/null || echo 0)
SOURCE_DATE_EPOCH=$epoch "$room/copy/tools/wheel" "$room/again" > /dev/null 2>&1
if cmp -s "$wheel" "$room"/again/*.whl; then
  ok 'the Python package, a wheel of another folder has the same bytes'
else
  failed 'the Python package, a wheel of another folder' 'it has other bytes'
fi
mkdir "$room/no_git" # (a folder of programs)
for it in /usr/bin/*; do [ "${it##*/}" = git ] || ln -s "$it" "$room/no_git"; done
if said=$(PATH=$room/no_git tools/wheel "$room/of_no_git" 2>&1); then
  ok 'the Python package, a wheel without git'
else
  failed 'the Python package, a wheel without git' "$(tail -n 1 <<< "$said" | head -c 300)"
fi
said=$(CC=none tools/wheel "$room/of_no_compiler" 2>&1)
if [ $? = 1 ] && [[ $said == "tools/wheel: none can't be run (No such file or directory): building needs a C"* ]]; then
  ok 'the Python package, without a compiler it says that it needs one'
else
  failed 'the Python package, without a compiler' "$(tail -n 1 <<< "$said" | head -c 300)"
fi
for compiler in gcc clang; do
  if ! command -v $compiler > /dev/null; then
    skipped "the Python package, $compiler without warnings" "no $compiler"
  elif said=$(CC=$compiler tools/wheel "$room/$compiler" 2>&1); then
    ok "the Python package, $compiler without warnings"
  else
    failed "the Python package, $compiler" "$(head -c 300 <<< "$said")"
  fi
done

# what the wheel has: the files that RECORD lists, and an extension that shows one function and needs the C library alone
said=$("$first" - "$wheel" "$room/extension.so" << 'END'
import base64, hashlib, sys, zipfile
archive = zipfile.ZipFile(sys.argv[1])
record = next(name for name in archive.namelist() if name.endswith("/RECORD"))
rows = dict(line.split(",", 1) for line in archive.read(record).decode().splitlines())
for name in archive.namelist():
    data = archive.read(name)
    digest = base64.urlsafe_b64encode(hashlib.sha256(data).digest()).rstrip(b"=").decode()
    if name != record and rows[name] != f"sha256={digest},{len(data)}":
        print(name, "is not as RECORD says")
    if name.endswith(".so"):
        open(sys.argv[2], "wb").write(data)
if rows.keys() != set(archive.namelist()) or archive.namelist()[:-1] != sorted(archive.namelist()[:-1]):
    print("other files than RECORD says, or not in order")
END
)
said+=$(nm -D --defined-only "$room/extension.so" | awk '$3 != "PyInit__kobdzila" { print "it shows", $3 }')
said+=$(readelf -d "$room/extension.so" | awk '/NEEDED/ && !/libc\.so\.6/ || /TEXTREL/ { print "it has", $2, $NF }')
if [ -z "$said" ]; then
  ok 'the Python package, RECORD and what the extension needs'
else
  failed 'the Python package, RECORD and what the extension needs' "$said"
fi

# --- the wheel for musl, as Alpine has it: of its extension's names each is Python's or musl's

name='the Python package, the wheel for musl'
names() { nm -D "$1" "$2" | awk '{ print $NF }' | sort -u; }
if ! tests/lib/needs musl-gcc musl-tools; then
  skipped "$name" 'no musl-gcc, and it could not be installed'
elif [ ! -f "$(tools/machine core)" ]; then
  skipped "$name" "there is no $(tools/machine core), which make and the gate leave"
elif ! said=$(tools/wheel --musl "$room/musl" 2>&1); then
  failed "$name" "$(head -c 300 <<< "$said")"
else
  (cp -R c crates.txt "$room/copy" && cp --parents "$(tools/machine core)" "$room/copy" &&
    SOURCE_DATE_EPOCH=$epoch "$room/copy/tools/wheel" --musl "$room/musl_again") > "$room/log" 2>&1
  if cmp -s "$room"/musl/*.whl "$room"/musl_again/*.whl; then
    ok "$name: of another folder it has the same bytes"
  else
    failed "$name: of another folder it has the same bytes" "$(tail -n 2 "$room/log")"
  fi
  "$first" -m zipfile -e "$room"/musl/*.whl "$room/musl/unpacked"
  it=$room/musl/unpacked/kobdzila/_kobdzila.abi3.so
  needed=$(readelf -d "$it" | sed -n 's/.*NEEDED.*\[\(.*\)\]/\1/p')
  missing=$(comm -23 <(names -u "$it") <(names --defined-only "/lib/ld-musl-$(uname -m).so.1") |
    grep -vE '^_?Py|^_ITM_|^__gmon_start__$')
  if [ "$needed" != libc.so ] || [ -n "$missing" ]; then
    failed "$name" "it needs $needed; musl lacks $(head -n 5 <<< "$missing" | tr '\n' ' ')"
  elif [[ $said != *-musllinux_1_2_* ]]; then
    failed "$name" "its name: $said"
  else
    ok "$name: each name that its extension needs is musl's or Python's"
  fi
fi

# --- the source distribution

name='the Python package, its source distribution'
export PIP_NO_INDEX=1 PIP_DISABLE_PIP_VERSION_CHECK=1
tools/wheel --sdist "$room/sdist" > "$room/log" 2>&1
sdist=$(echo "$room"/sdist/kobdzila-*.tar.gz)
SOURCE_DATE_EPOCH=$epoch "$room/copy/tools/wheel" --sdist "$room/again" > "$room/log2" 2>&1
if [ ! -f "$sdist" ]; then
  failed "$name" "$(tail -n 2 "$room/log" | head -c 300)"
elif ! cmp -s "$sdist" "$room"/again/*.tar.gz; then
  failed "$name" 'of another folder it has other bytes'
else
  ok "$name: $(wc -c < "$sdist") bytes, the same of another folder"
fi
# what pip makes of it: without a network, the wheel byte for byte, and a package that answers
"$first" -m venv "$room/of_sources" > "$room/log" 2>&1
if ! said=$(SOURCE_DATE_EPOCH=$epoch "$room/of_sources/bin/pip" wheel -q --no-deps -w "$room/of_sdist" "$sdist" 2>&1); then
  failed "$name, pip wheel" "$(tail -n 3 <<< "$said" | head -c 400)"
elif ! cmp -s "$wheel" "$room"/of_sdist/*.whl; then
  failed "$name, pip wheel" 'the wheel has other bytes'
elif ! said=$("$room/of_sources/bin/pip" install -q "$sdist" 2>&1 && "$room/of_sources/bin/pip" check 2>&1 &&
    cd "$room" && "$room/of_sources/bin/python" -c "import kobdzila
print(kobdzila.Catalogue.from_po(b'msgid \"a\"\nmsgstr \"b\"\n').gettext('a'))" 2>&1); then
  failed "$name, pip install" "$(tail -n 3 <<< "$said" | head -c 400)"
else
  ok "$name, pip builds the same wheel of it, and installs it: $(tr '\n' ' ' <<< "$said")"
fi
# on a machine of another kind
mkdir -p "$room/other"
tar -xzf "$sdist" -C "$room/other" --strip-components=1
rm -rf "$room/other/lib"
if said=$("$room/of_sources/bin/pip" wheel -q --no-deps -w "$room/other/none" "$room/other" 2>&1) ||
   ! grep -q 'set KOBDZILA_LIB_DIR to the folder' <<< "$said"; then
  failed "$name, without a library" "it said $(tail -n 2 <<< "$said" | head -c 300)"
elif ! said=$(KOBDZILA_LIB_DIR=$top/build/lib "$room/of_sources/bin/pip" wheel -q --no-deps -w "$room/other/named" \
    "$room/other" 2>&1); then
  failed "$name, KOBDZILA_LIB_DIR" "$(tail -n 2 <<< "$said" | head -c 300)"
else
  ok "$name, on a machine of another kind it asks for KOBDZILA_LIB_DIR, and takes it"
fi
name='the Python package, python -m build'
script build '/usr/bin/python3 -I -c "import build, venv, ensurepip"'
if [ "$first" != /usr/bin/python3 ] || ! tests/lib/needs "$room/build" python3-build; then
  skipped "$name" 'no Debian package python3-build for this Python, and it could not be installed'
elif ! said=$(SOURCE_DATE_EPOCH=$epoch timeout 600 "$first" -m build -o "$room/built" "$room/copy/python" 2>&1); then
  failed "$name" "$(tail -n 3 <<< "$said" | head -c 400)"
elif ! cmp -s "$wheel" "$room"/built/*.whl || ! cmp -s "$sdist" "$room"/built/*.tar.gz; then
  failed "$name" 'what it builds has other bytes'
else
  ok "$name: the wheel and the source distribution, byte for byte"
fi
if ! tests/lib/needs twine twine; then
  skipped 'the Python package, twine check' 'no twine, and it could not be installed'
elif said=$(NO_COLOR=1 twine check --strict "$wheel" "$sdist" 2>&1); then
  ok 'the Python package, twine check: the wheel and the source distribution'
else
  failed 'the Python package, twine check' "$(tail -n 3 <<< "$said" | head -c 300)"
fi

# --- the tests, in an environment of each Python

# judged NAME STATUS FILE: reports a run of unittest, and what was skipped in it
judged() {
  local count numbers='[0-9]+ (installed catalogues|mutated catalogues|pages of).*'
  count=$(sed -n 's/^Ran \([0-9]*\) tests.*/\1/p' "$3")
  if [ "$2" = 0 ] && [ "${count:-0}" -gt 40 ]; then
    ok "$1: $count tests$(grep -oE "$numbers" "$3" | sed 's/^/; /' | tr -d '\n')"
    sed -n "s/.* skipped ['\"]\\(.*\\)['\"]\$/\\1/p" "$3" | sort | uniq -c | while read -r count why; do
      skipped "$1, $count tests" "$why"
    done
  else
    failed "$1" "$(grep -E -A 25 '^(ERROR|FAIL): ' "$3" | head -c 1500 | tr '\n' ' ')"
  fi
}

# tested PYTHON VERSION: installs the wheel for it, and runs the tests
tested() {
  local at=$room/$2 name="the Python package, Python $2" said
  if ! "$1" -m venv --system-site-packages "$at" > "$room/log" 2>&1 ||
     ! "$at/bin/pip" install -q --no-index --disable-pip-version-check "$wheel" > "$room/log" 2>&1; then
    failed "$name, pip install" "$(tail -n 2 "$room/log")"
    return
  fi
  (cd "$room" && timeout 600 "$at/bin/python" -W error -m unittest discover -v -s "$top/python/tests") \
    > "$room/log" 2>&1
  judged "$name" $? "$room/log"
  if ! "$at/bin/python" -c 'import test.test_gettext' > /dev/null 2>&1; then
    skipped "$name, CPython's tests of gettext" 'its installation has no module test.test_gettext'
  elif said=$(cd "$room" && timeout 300 "$at/bin/python" "$top/python/tests/cpython.py" 2>&1); then
    ok "$name, CPython's tests of gettext: $(tail -n 1 <<< "$said")"
  else
    failed "$name, CPython's tests of gettext" "$(grep -m 3 ^FAILED <<< "$said" | head -c 400)"
  fi
}

seen=' '
roots=$(command -v pyenv > /dev/null && pyenv root 2> /dev/null)
for it in "$first" python3 /usr/bin/python3 ${roots:+"$roots"/versions/*/bin/python3}; do
  is_usable "$it" || continue
  version=$("$it" -c 'import platform; print(platform.python_version())')
  case $seen in *" $version "*) continue ;; esac
  seen="$seen$version "
  tested "$it" "$version"
  export KOBDZILA_OPENS=10000
done
case $seen in
  ' '*' '*' ') ;;
  *) skipped 'the Python package, another version' 'this machine has one Python 3.10 or later' ;;
esac

# --- from the sources; AddressSanitizer; types

version=${seen# } && version=${version%% *}
if said=$("$room/$version/bin/pip" install -q --no-index --force-reinstall "$top/python" 2>&1); then
  ok 'the Python package, pip install of the folder'
else
  failed 'the Python package, pip install of the folder' "$(tail -n 2 <<< "$said" | head -c 300)"
fi

name='the Python package, AddressSanitizer'
mkdir "$room/sanitized"
cp -R python/src/kobdzila "$room/sanitized"
mkdir "$room/sanitized/kobdzila/bin"
[ ! -f build/static/catsession ] || cp build/static/catsession "$room/sanitized/kobdzila/bin"
library=$(cc -print-file-name=libasan.so)
if [ ! -f "$library" ] || ! LD_PRELOAD=$library ASAN_OPTIONS=detect_leaks=0 "$first" -c '' > "$room/log" 2>&1; then
  skipped "$name" "Python doesn't run with the sanitizer's library"
elif ! (cd python && "$first" -c 'import pathlib, sys, wheel_backend
wheel_backend.compile_extension(pathlib.Path(sys.argv[1]), "-fsanitize=address", "-g")' \
    "$room/sanitized/kobdzila/_kobdzila.abi3.so") > "$room/log" 2>&1; then
  failed "$name" "$(tail -n 2 "$room/log")"
else
  (cd "$room" && PYTHONPATH=$room/sanitized LD_PRELOAD=$library ASAN_OPTIONS=detect_leaks=0 PYTHONMALLOC=malloc \
    KOBDZILA_SANITIZED=1 timeout 900 "$first" -W error -m unittest discover -v -s "$top/python/tests") \
    > "$room/log" 2>&1
  judged "$name" $? "$room/log"
fi

script psycopg '/usr/bin/python3 -c "import psycopg"'
tests/lib/needs "$room/psycopg" python3-psycopg # (from which the types of kobdzila.fleet come)
if ! tests/lib/needs mypy mypy; then
  skipped 'the Python package, mypy --strict' 'no mypy, and it could not be installed'
elif said=$(cd python && mypy --cache-dir="$room/mypy" 2>&1); then
  ok "the Python package, mypy --strict: $(tail -n 1 <<< "$said")"
  # (among them typed.py, in which each call has the type that it promises)
  if said=$(cd python && mypy --cache-dir="$room/mypy" tests/*.py 2>&1); then
    ok "the Python package, mypy --strict of its tests: $(tail -n 1 <<< "$said")"
  else
    failed 'the Python package, mypy --strict of its tests' "$(head -c 300 <<< "$said")"
  fi
  # (applications that use the installed package, of which each is a module of its own)
  for it in examples/shop/app.py examples/flask/shop.py examples/fastapi/shop.py; do
    if ! "$room/$version/bin/python" -W ignore -c 'import flask, fastapi' > /dev/null 2>&1; then
      skipped "$it, mypy --strict" 'no Flask or no FastAPI'
    elif said=$(mypy --strict --cache-dir="$room/mypy" --python-executable "$room/$version/bin/python" "$it" 2>&1); then
      ok "$it, mypy --strict"
    else
      failed "$it, mypy --strict" "$(head -c 300 <<< "$said")"
    fi
  done
else
  failed 'the Python package, mypy --strict' "$(head -c 300 <<< "$said")"
fi
