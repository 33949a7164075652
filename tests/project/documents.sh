#!/usr/bin/env bash
# Compares what the documents, man pages, completions and the help say of kinds, numbers, texts, options, limits and links
# with the code (tests/project/documents.py). Then it checks that a contradiction is found: each line below is a change
# in one place alone. tests/project/pages.sh types what the pages show.
. "$(dirname "$0")/../lib/common"

session=${SESSION:-bin/catsession}
if [ ! -x "$session" ]; then
  failed documents "there is no $session: make builds it"
  exit 0
fi
python3 -B tests/project/documents.py . "$program" "$session"


top=$room/repo
mkdir -p "$top"
tar cf - --exclude out --exclude target ./*.md .github Makefile crates.txt docs tools tests examples bench include c packaging \
  crates fuzz python rust |
  tar xf - -C "$top"
if python3 -B tests/project/documents.py "$top" | grep -q '^FAILED'; then
  failed 'documents, changes' 'a copy of the repository is not as the rules say'
  exit 0
fi

# changes FILE FROM TO: this change in that file alone, of the first FROM there, is found
changes() {
  local name="documents, $1: $2" found
  cp "$top/$1" "$room/whole"
  python3 -c 'import sys
text = open(sys.argv[1]).read()
assert sys.argv[2] in text, "no such text"
open(sys.argv[1], "w").write(text.replace(sys.argv[2], sys.argv[3], 1))' "$top/$1" "$2" "$3" 2> "$room/err" || {
    failed "$name" "$(tail -n 1 "$room/err")"
    return
  }
  found=$(python3 -B tests/project/documents.py "$top" | grep -c '^FAILED')
  if [ "$found" != 0 ]; then ok "$name"; else failed "$name" 'the change was not found'; fi
  cp "$room/whole" "$top/$1"
}

while IFS='^' read -r file from to; do
  changes "$file" "$from" "$to"
done << 'END'
crates/po_checks/src/fault.rt^"duplicate message"^"message twice"
crates/po_checks/src/fault.rt^    FormCount,^    FormNumber,
crates/po_text/src/fault.rt^"bad escape"^"escape"
crates/mo_file/src/fault.rt^    NoNul,^    NotClosed,
crates/script_text/src/fault.rt^#[error("no thread")]^#[error("no threads")]
crates/msgfmt_steps/src/texts.rt^no input file given^no INPUT
crates/msgfmt_words/src/words.rt^.long("output-file")^.long("output")
crates/msgfmt_words/src/words.rt^"use-fuzzy", 'f'^"use-fuzzy", 'z'
crates/msgfmt_steps/src/steps.rt^warning: header field^warning: field
crates/po_header/src/fields.rt^"MIME-Version"^"Mime-Version"
crates/po_text/src/open.rt^67_108_864^67_108_865
crates/mo_image/src/layout.rt^268_435_456^268_435_457
crates/po_header/src/lib.rt^EXPRESSION_LIMIT: usize = 1000^EXPRESSION_LIMIT: usize = 2000
crates/live_set/src/name.rt^NAME_LIMIT: usize = 64^NAME_LIMIT: usize = 65
crates/live_versions/src/store.rt^MOST_READERS: u32 = 16^MOST_READERS: u32 = 32
crates/script_text/src/field.rt^MOST_WORKERS: u64 = 16^MOST_WORKERS: u64 = 32
crates/po_text/README.md^`specs/Outcome.antt`^`specs/Result.antt`
crates/mo_file/README.md^`src/laws.rt`^`src/law.rt`
crates/catalogue/README.md^`compile_owned`^`compile_own`
crates/live_set/README.md^`test_set`^`test_sets`
crates/kobdzila_c/README.md^`c/library/exports.h`^`c/export.h`
crates/desks/README.md^# desks^# desk
crates/script_text/src/command.rt^"loadmo" => ^"load_mo" => 
docs/reference/po.md^| 9 | Duplicate ^| 10 | Duplicate 
docs/reference/msgfmt.md^`newlines differ`^`newline differs`
docs/reference/po.md^| 10 | Charset | the kept^| 9 | Charset | the kept
docs/reference/msgfmt.md^--statistics^--stats
docs/reference/po.md^67,108,864^67,108,863
docs/reference/scripts.md^no place for a reader^no room for a reader
docs/reference/scripts.md^catsession [--workers N]^catsession [--worker N]
docs/reference/scripts.md^`store closed`^`the store closed`
docs/reference/scripts.md^unknown word WORD^no such word WORD
docs/reference/scripts.md^a word is not UTF-8^a word is no UTF-8
docs/man/catsession.1^a word is not UTF\-8^a word is no UTF\-8
docs/reference/scripts.md^A round has at most 67,108,864^A round has at most 67,108,863
docs/man/msgfmt.1^\-\-no\-hash ]^\-\-nohash ]
docs/man/msgfmt.1^\-\-verbose^\-\-loud
docs/man/msgfmt.1^1,000 bytes^1,001 bytes
docs/man/catserve.1^.B loadmo^.B loadMO
docs/man/catserve.1^.DT^.PP
docs/man/catserve.1^8;no thread^7;no thread
docs/man/catserve.1^16 workers^17 workers
docs/man/catsession.1^.BI \-\-workers^.BI \-\-threads
docs/man/catsession.1^round too large;^round is too large;
docs/man/catsession.1^an MO file 268,435,456^an MO file 268,435,455
docs/man/catsession.1^threads, 1 to 16;^threads, 1 to 17;
docs/man/msgfmt-or-gnu.1^\-\-tcl^\-\-tk
docs/man/libkobdzila-intl.3^.B OUTPUT_CHARSET^.B OUTPUT_CODESET
docs/man/kob-compile.1^.BI \-\-sarif^.BI \-\-log
docs/man/kob-msgunfmt.1^.B \-\-no\-wrap^.B \-\-nowrap
tools/completion/words^--use-fuzzy^--fuzzy
include/kobdzila.h^KOB_MO_ORDER = 9^KOB_MO_ORDER = 8
c/library/kobdzila.c^"newlines differ"^"lines differ"
tools/completion/words^-V --version                    Print^--version                       Print
tools/completion/words^--stringtable-input^--stringtable
tools/completion/words^--template=FILE^--template     
tools/completion/words^--exclude=^--leave-out=
tools/completion/words^--watch  ^--watch=N
tools/completion/words^--seen-within=SECONDS^--seen-within        
tools/completion/words^kob-fleet history:^kob-fleet past:   
python/src/kobdzila/fleet/_command.py^"--go-over"^"--go"
c/driver/or_gnu_words.c^{"java2",^{"java3",
c/compile/options.c^{"watch",^{"follow",
c/unfmt/options.c^{"no-wrap",^{"nowrap",
c/compile/options.c^--no-gnu  ^--only-us 
c/driver/msgfmt_or_gnu.c^warning: header field^warning: field
c/driver/or_gnu_text.c^"an obsolete duplicate"^"an obsolete double"
SECURITY.md^about 4,000 lines^about 3,500 lines
README.md^(docs/guide/rattle.md)^(docs/guide/rattles.md)
docs/reference/po.md^(headers.md)^(headers.md#headings)
docs/reference/po.md^(c-formats.md)^(../guide/c.md)
docs/guide/catsession.md^67,108,864^67,108,863
docs/internals/questions.md^[index.md](../index.md), ^
docs/man/kobdzila.3^268,435,456^268,435,455
docs/man/kob_store.3^.B kob_store_retained^.B kob_store_kept
docs/internals/crates/c-library.md^`kobdzila_reader_is_current`^`kob_reader_is_current`
docs/man/kob_store.3^.BI "kob_reader *kob_store_reader(^.BI "kob_reader *kob_reader_new(
c/library/kobdzila.map^    kob_reader_free;^
docs/images/snapshot.svg^version 7^version 9
docs/images/crates.svg^<rect class="box" x="^<rect class="box" x="-
README.md^a refused load changes nothing.^a refused load changes little.
docs/internals/proofs.md^`run_script` and `run_session`^`run_session`
docs/index.md^(internals/gate.md)^(internals/releases.md)
docs/guide/troubleshooting.md^`wrong plural index`^`wrong plural number`
docs/guide/troubleshooting.md^no PO file found; name^no PO file found: name
docs/guide/troubleshooting.md^`map too large`^`map much too large`
docs/guide/migrating.md^-kkob_languages_ngettext:2,3^-kkob_languages_ngettext:2
docs/guide/migrating.md^ -klazy_pgettext:1c,2^
docs/guide/python-frameworks.md^[examples/fastapi](../../examples/fastapi/shop.py)^It
docs/guide/c.md^*For programmers^*By programmers
docs/internals/benchmarks.md^| 60 MB | ^| 60 MB | 1
docs/images/publish.svg^version 3^version 4
docs/internals/glossary.md^`crates/desks/src/desk.rt`^`crates/desks/src/desks.rt`
docs/internals/glossary.md^`crates/live_versions/src/seal.rt`^`crates/live_versions/src/notice.rt`
tests/scripts/languages.sh^docs/reference/look-ups.md^docs/FORMATS.md
docs/man/msgfmt.1^reference/gnu\-differences.md^reference/gnu\-msgfmt.md
crates.txt^po_text: format_flags^po_words: format_flags
tests/README.md^, `fuzz/` |^ |
tests/README.md^`crates/live_set` to `crates/catserve`,^`crates/live_set` to `crates/desks`,
docs/internals/crates/po.md^`Lexing`, ^
docs/internals/decisions/lives/after-a-fault-no-history-is-claimed-for-the-readers.md^`stop_keeps`^`stop_holds`
CONTRIBUTING.md^in one document, and the others link to it. How to do something^in one document and in no more than this one, and the others link to it, and how to do something
END
# (the manual of GNU gettext is in its package, and left out of some containers)
if [ -f /usr/share/info/gettext.info.gz ]; then
  changes docs/reference/formats-compiled.md '"Boost Format Strings"' '"Boost Formats"'
fi
