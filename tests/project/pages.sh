#!/usr/bin/env bash
# Types the blocks of README, the guides, the reference and the man pages as someone who has just installed Kobdzila
# (tests/project/pages.py). Then it sees that a page is refused whose block is wrong, for each kind of block.
. "$(dirname "$0")/../lib/common"

for it in catserve catsession msgfmt-or-gnu kob-compile kob-msgunfmt; do
  if [ ! -x "bin/$it" ]; then
    failed pages "there is no bin/$it: make builds it"
    exit 0
  fi
done
if [ ! -f build/lib/libkobdzila.so.0 ] || ! tests/lib/needs cc gcc libc6-dev || ! tests/lib/needs pkg-config pkg-config; then
  skipped pages 'libkobdzila was not built, or there is no C compiler with pkg-config'
  exit 0
fi
# (what a section needs besides is named on its page; it is skipped if it is missing)
tests/lib/needs msgmerge gettext
tests/lib/needs cmake cmake
tests/lib/needs meson meson && tests/lib/needs ninja ninja-build

prefix=$room/prefix
if ! make -s install PREFIX="$prefix" STATIC= > "$room/log" 2>&1; then
  failed pages "make install ended so: '$(tail -c 300 "$room/log")'"
  exit 0
fi
python3 -B tests/project/pages.py "$prefix" README.md docs/guide/*.md docs/reference/*.md docs/man/*

# page NAME: makes a page of the text of standard input
page() { { echo '# A page'; echo; sed 's/^%$//'; } > "$room/$1"; }

page commands.md << 'END'
Commands: <!-- not run: the reason why this one can't be typed -->

    no-such-program

Others:

    echo "salut" > greeting
    export GREETING=greeting

```sh
cat $GREETING
```

```text
salut
```

    $ cat greeting; false
    salut
    $ printf 'a\n\nb\n' | wc -l
    3

Save this as `fr.po`:

```po
msgid "hi"
msgstr "salut"
```

    $ msgfmt --statistics -o fr.mo fr.po
    1 translated message.
END
page programs.md << 'END'
Save this as `hello.c`:

```c
#include <stdio.h>
int main(void) {
    puts("hello");
}
```

    $ cc -o hello hello.c && ./hello
    hello

```c
const char *version = kob_version();
```

```c
puts(version ? "a version" : "none"); /* a version */
```

```python
three = 1 + 2
three               # 3: a number
print("a", three)   # a 3
```

```python
>>> three + 1
4
```
END
printf '.TH A 1\n.SH EXAMPLES\n.TP\n.B echo a > b\nWrite.\n.EX\n$ cat b\na\n.EE\n.SH BUGS\n.EX\nfalse\n.EE\n' > "$room/page.1"
# Each of the lines below is a change that makes one of the pages wrong, and what is then said.
pages=("$room"/commands.md "$room"/programs.md "$room"/page.1) names=() words=()
while IFS='^' read -r file from to said; do
  from=${from//|/$'\n'} to=${to//|/$'\n'}
  pages+=("$room/broken${#names[@]}.${file##*.}") names+=("$file, ${from//$'\n'/ }") words+=("$said")
  python3 -c 'import sys
text = open(sys.argv[1]).read()
assert sys.argv[2] in text, "no such text"
open(sys.argv[4], "w").write(text.replace(sys.argv[2], sys.argv[3], 1))' "$room/$file" "$from" "$to" "${pages[-1]}" \
    2> "$room/err" || failed "pages, $file, $from" "$(tail -n 1 "$room/err")"
done << 'END'
commands.md^<!-- not run: the reason why this one can't be typed -->^^status 127
commands.md^the reason why this one can't be typed^no^without a reason
commands.md^echo "salut" > ^false > ^status 1
commands.md^cat $GREETING^cat $GREETINGS^prints
commands.md^```text|salut^```text|hello^prints 'salut
commands.md^greeting; false|    salut^greeting; false|    hello^prints 'salut
commands.md^    3^    4^prints '3
commands.md^Save this as `fr.po`:^A file:^without a name
commands.md^Save this as `fr.po`:||```po^A file:||```cobol^nobody can type
commands.md^msgid "hi"^msgid "hi^prints
programs.md^puts("hello");^puts("hello")^error
programs.md^puts("hello");^puts("hi");^prints 'hi
programs.md^kob_version()^kob_versions()^kob_versions
programs.md^/* a version */^/* none */^prints 'a version
programs.md^1 + 2^1 +^SyntaxError
programs.md^# 3: a number^# 4: a number^is '3'
programs.md^# a 3^# a 4^prints 'a 3
programs.md^>>> three + 1|4^>>> three + 1|5^Expected
page.1^echo a^echo c^prints 'c
page.1^cat b|a^cat d|a^prints
END
python3 -B tests/project/pages.py "$prefix" "${pages[@]}" > "$room/said"
for it in commands.md programs.md page.1; do
  if grep -q "^ok pages, $it:" "$room/said"; then ok "pages, a page that is right: $it"
  else failed "pages, a page that is right: $it" "$(grep "pages, $it:" "$room/said")"; fi
done
for it in "${!names[@]}"; do
  said=$(grep "pages, broken$it\." "$room/said")
  case $said in
    FAILED*"${words[it]}"*) ok "pages, a page that is wrong: ${names[it]}" ;;
    *) failed "pages, a page that is wrong: ${names[it]}" "the runner said '$said'" ;;
  esac
done
