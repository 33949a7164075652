#!/usr/bin/env bash
# Formats of other languages than C in bin/msgfmt-or-gnu: it checks them by libkobdzila if formats are checked. With a
# fault GNU msgfmt answers, and without GNU msgfmt the driver says what is wrong. Worked texts; then generated pairs and the
# PO files of Django, if they are installed (tests/driver/formats.py).
. "$(dirname "$0")/../lib/common"
NAME=or_gnu_formats
. tests/driver/begin
cd "$room" || exit 1
mkdir tmp
export TMPDIR=$room/tmp

# text FILE FLAGS MSGID MSGSTR: a PO file with this entry
text() { { header UTF-8 fr && printf '#, %s\nmsgid "%s"\nmsgstr "%s"\n' "$2" "$3" "$4"; } > "$1"; }
text bad.po python-format '%(n)d eggs' '%(o)d œufs'
if env -u GNU_MSGFMT PATH=/nonexistent "$driver" -c -o x.mo bad.po 2> err; then
  if [ -f "$top/build/lib/libkobdzila.a" ]; then failed "$NAME" 'there is build/lib/libkobdzila.a, but it is not in the driver'
  else skipped "$NAME" 'there is no build/lib/libkobdzila.a: tools/build_library makes it'; fi
  exit 0
fi

# alone NAME STATUS ERR ARGUMENT..: the driver's answer without GNU msgfmt; it writes x.mo only if its status is 0
alone() {
  local name="driver, formats, $1" wanted=$2 said=$3
  shift 3
  rm -f x.mo
  : > "$MSGFMT_OR_GNU_LOG"
  (unset GNU_MSGFMT && PATH=/nonexistent "$driver" "$@") > out 2> err
  status=$?
  judge "$name" "$wanted" "$said" || return
  if [ $status = 0 ] || [ ! -e x.mo ]; then ok "$name"; else failed "$name" 'it wrote an MO file'; fi
}

# fault NAME FLAG MSGID MSGSTR WORDS: what is said of one fault
fault() {
  text in.po "$2" "$3" "$4"
  alone "$1" 1 "in.po:6: $5
msgfmt: found 1 fatal error" --check-format -o x.mo in.po
}
none="'msgstr' is not a valid Python format string, unlike 'msgid'. Reason:"
fault 'another name' python-format '%(n)d' '%(o)d' "a format specification for argument 'n' doesn't exist in 'msgstr'"
fault 'a further name' python-format '%(a)s' '%(a)s %(b)s' \
  "a format specification for argument 'b', as in 'msgstr', doesn't exist in 'msgid'"
fault 'another number' python-format '%d %s' '%d' "number of format specifications in 'msgid' and 'msgstr' does not match"
fault 'another kind' python-format '%d %s' '%d %d' \
  "format specifications in 'msgid' and 'msgstr' for argument 2 are not the same"
fault 'another kind of a name' python-format '%(n)d' '%(n)s' \
  "format specifications in 'msgid' and 'msgstr' for argument 'n' are not the same"
fault 'a tuple for a mapping' python-format '%(n)d' '%d' \
  "format specifications in 'msgid' expect a mapping, those in 'msgstr' expect a tuple"
fault 'no conversion' python-format '%d' '%y' "$none In the directive number 1, the character 'y' is not a valid conversion specifier."
fault 'cut off' python-format '%d' '100 %' "$none The string ends in the middle of a directive."
fault 'both kinds' python-format '%d' '%d %(a)d' \
  "$none The string refers to arguments both through argument names and through unnamed argument specifications."
fault 'one name for two kinds' python-format '%(a)d' '%(a)d %(a)s' \
  "$none The string refers to the argument named 'a' in incompatible ways."
none="'msgstr' is not a valid Python brace format string, unlike 'msgid'. Reason:"
fault 'a brace, another name' python-brace-format '{a}' '{b}' "a format specification for argument 'a' doesn't exist in 'msgstr'"
fault 'a brace, a further name' python-brace-format '{a}' '{a}{b}' \
  "a format specification for argument 'b' doesn't exist in 'msgid'"
fault 'a brace, not closed' python-brace-format '{a}' '{a}{b' "$none In the directive number 1, there is an unterminated format directive."
fault 'a brace, no name' python-brace-format '{a}' '{}' "$none In the directive number 0, '}' cannot start a field name."
differ="format specifications in 'msgid' and 'msgstr' are not the same"
fault 'KDE, another number' kde-format '%1 %2' '%1' "$differ"
fault 'KDE, two numbers left out' kde-format '%1' '%3' "'msgstr' is not a valid KDE format string, unlike 'msgid'."
fault 'Qt, no longer simple' qt-format '%1' '%L1' "$differ"
fault 'Qt, no number' qt-plural-format '%n' 'x' "$differ"
fault 'YCP, no digit' ycp-format '%1' '%1 %' "'msgstr' is not a valid YCP format string, unlike 'msgid'."
fault 'Perl, a name left out' perl-brace-format '{a} {b}' '{a}' "$differ"
fault 'Perl, another size' perl-format '%ld' '%d' "$differ"
fault 'Perl, no such size' perl-format '%s' '%hhd' "'msgstr' is not a valid Perl format string, unlike 'msgid'."
fault 'JavaScript, any object' javascript-format '%s' '%j' "$differ"
fault 'JavaScript, numbers and none' javascript-format '%s %d' '%s %2$d' \
  "'msgstr' is not a valid JavaScript format string, unlike 'msgid'."
fault 'Java, an object for a number' java-format '{0,number}' '{0}' "$differ"
fault 'Java, a brace that closes nothing' java-format '{0}' '{0}}' \
  "'msgstr' is not a valid Java MessageFormat format string, unlike 'msgid'."
fault 'java.util.Formatter, another kind' java-printf-format '%d %s' '%2$d %1$d' "$differ"
fault 'java.util.Formatter, no conversion' java-printf-format '%d' '%1$y' \
  "'msgstr' is not a valid Java printf format string, unlike 'msgid'."
fault '.NET, one more' csharp-format '{0}' '{1}' "$differ"
fault '.NET, no number' csharp-format '{0}' '{' "'msgstr' is not a valid C# format string, unlike 'msgid'."
fault 'librep, a character' librep-format '%d' '%c' "$differ"
fault 'librep, no conversion' librep-format '%d' '%y' "'msgstr' is not a valid librep format string, unlike 'msgid'."
fault 'Ruby, another kind' ruby-format '%d' '%s' "$differ"
fault 'Ruby, a flag after the width' ruby-format '%d' '%5-d' "'msgstr' is not a valid Ruby format string, unlike 'msgid'."
fault 'Objective-C, another kind' objc-format '%@' '%s' "$differ"
fault 'Objective-C, no conversion' objc-format '%@' '%y' "'msgstr' is not a valid Objective C format string, unlike 'msgid'."
fault 'GCC, another kind' gcc-internal-format '%qD' '%qT' "$differ"
fault 'GCC, no conversion' gcc-internal-format '%d' '%y' "'msgstr' is not a valid GCC internal format string, unlike 'msgid'."
fault 'GNU Fortran, another kind' gfc-internal-format '%s %C' '%L %C' "$differ"
fault 'GNU Fortran, no current locus' gfc-internal-format '%C %s' '%s' "$differ"
fault 'GNU Fortran, a gap' gfc-internal-format '%s' '%2$s' "'msgstr' is not a valid GFC internal format string, unlike 'msgid'."
fault 'Scheme, any object' scheme-format '~d' '~a' "$differ"
fault 'Scheme, no conversion' scheme-format '~d' '~z' "'msgstr' is not a valid Scheme format string, unlike 'msgid'."
fault 'Lisp, one more' lisp-format '~a' '~a ~a' "$differ"
fault 'Lisp, a sign without a digit' lisp-format '~d' '~-d' \
  "'msgstr' is not a valid Lisp format string, unlike 'msgid'."
fault 'awk, another kind' awk-format '%d' '%s' "$differ"
fault 'awk, no conversion' awk-format '%d' '%y' "'msgstr' is not a valid awk format string, unlike 'msgid'."
fault 'Lua, another order' lua-format '%d %s' '%s %d' "$differ"
fault 'Lua, no conversion' lua-format '%d' '%y' "'msgstr' is not a valid Lua format string, unlike 'msgid'."
fault 'Object Pascal, another kind' object-pascal-format '%d %s' '%1:d %0:s' "$differ"
fault 'Object Pascal, no conversion' object-pascal-format '%d' '%y' \
  "'msgstr' is not a valid Object Pascal format string, unlike 'msgid'."
fault 'Smalltalk, another number' smalltalk-format '%1' '%2' "$differ"
fault 'Smalltalk, cut off' smalltalk-format '%1' '%' "'msgstr' is not a valid Smalltalk format string, unlike 'msgid'."
fault 'KDE with markup, another number' kde-kuit-format '<b>%1</b>' '%2' "$differ"
fault 'KDE with markup, not closed' kde-kuit-format '<b>%1</b>' '<b>%1' \
  "'msgstr' is not a valid KDE KUIT format string, unlike 'msgid'."
fault 'Boost, another kind' boost-format '%d' '%s' "$differ"
fault 'Boost, not closed' boost-format '%|d|' '%|d' "'msgstr' is not a valid Boost format string, unlike 'msgid'."
fault 'Tcl, another kind' tcl-format '%d' '%s' "$differ"
fault 'Tcl, no conversion' tcl-format '%d' '%y' "'msgstr' is not a valid Tcl format string, unlike 'msgid'."
fault 'the shell, another name' sh-format '$a' '${b}' "$differ"
fault 'the shell, no name' sh-format '$a' '$a $1' "'msgstr' is not a valid Shell format string, unlike 'msgid'."

# all faults, in the order of the text, with the numbers of plural forms
{
  sed '2s/"$//; 2s/$/Plural-Forms: nplurals=2; plural=n!=1;\\n"/' <(header UTF-8 fr)
  printf '#, python-format\nmsgid "%%d egg"\nmsgid_plural "%%d eggs"\nmsgstr[0] "%%y"\nmsgstr[1] "%%s"\n\n'
  printf '#, python-format, python-brace-format\nmsgid "%%d {a}"\nmsgstr "%%d {b}"\n'
} > plural.po
alone 'all of them, in order' 1 "plural.po:7: 'msgstr[0]' is not a valid Python format string, unlike 'msgid_plural'. Reason: \
In the directive number 1, the character 'y' is not a valid conversion specifier.
plural.po:7: format specifications in 'msgid_plural' and 'msgstr[1]' for argument 1 are not the same
plural.po:12: a format specification for argument 'a' doesn't exist in 'msgstr'
msgfmt: found 3 fatal errors" -c -o x.mo plural.po
if [ "$(logged)" = "$(printf 'ours\t1\tpython-format\tplural.po')" ]; then ok 'driver, formats, the log'
else failed 'driver, formats, the log' "$(logged)"; fi
alone 'from a pipe' 1 "-:6: a format specification for argument 'n' doesn't exist in 'msgstr'
msgfmt: found 1 fatal error" -c -o x.mo - < bad.po
{ header ISO-8859-1 fr && printf '#, python-format\nmsgid "%%(a)d"\nmsgstr "\351 %%(\351)d"\n'; } > latin.po
alone 'in another charset' 1 "latin.po:6: a format specification for argument 'a' doesn't exist in 'msgstr'
msgfmt: found 1 fatal error" -c -o x.mo latin.po
alone 'without -c' 0 '' -o x.mo bad.po
alone 'the header alone' 0 '' --check-header -o x.mo bad.po

# --- with GNU msgfmt ----------------------------------------------------------------------------------------------------

is_of 'driver, formats, a fault is told by GNU msgfmt' 'GNU\t1\tpython-format\tplural.po' /dev/null "$gnu" -c -o x.mo plural.po
is_of 'driver, formats, a fault in another charset' 'GNU\t1\tpython-format\tlatin.po' /dev/null "$gnu" -c -o x.mo latin.po

# served NAME LOG FLAGS MSGID MSGSTR ARGUMENT..: the answer is GNU msgfmt's; the log has this line, or `ours`
served() {
  local name=$1 line=${2/#ours/ours\\t0\\t-}
  text in.po "$3" "$4" "$5"
  shift 5
  is_of "driver, formats, $name" "$line\tin.po" /dev/null "$gnu" --no-hash "$@" -o x.mo in.po
}
served 'no fault' ours python-format '%(n)d %(a)s' '%(a)s %(n)i' -c
served 'no fault, braces' ours python-brace-format '{a} {b.c}' '{b.c} {a}' --check-format
served 'no fault of two' ours 'python-format, python-brace-format' '%d {a}' '{a} %d' -c
served 'no fault, KDE' ours kde-format '%1 %2' '%2 %1' -c
served 'no fault, Perl' ours perl-brace-format '{a}' '{a} {b}' -c
served 'no fault, JavaScript' ours javascript-format '%s %d' '%2$x %1$s' -c
served 'no fault, Java' ours java-format '{0,number} {1}' '{1} {0,choice,0#no|1<{0}}' -c
served 'no fault, java.util.Formatter' ours java-printf-format '%d %s' '%2$s %1$d' -c
served 'no fault, .NET' ours csharp-format '{0} {1}' '{1,5} {0:X}' -c
served 'no fault, librep' ours librep-format '%d %s' '%2$s %1$d' -c
served 'no fault, Ruby' ours ruby-format '%<a>d %{b}' '%<b>s %5<a>d' -c
served 'no fault, Objective-C' ours objc-format '%@ %ld' '%2$ld: %1$@' -c
served 'a size before n' 'GNU\t1\tobjc-format that is not read here' objc-format '%n' '%ln' -c
served 'no fault, GCC' ours gcc-internal-format '%qD %m' '%m %J' -c
served 'no fault, GNU Fortran' ours gfc-internal-format '%s at %C: %ld' '%C: %2$s, %3$ld' -c
served 'no fault, Scheme' ours scheme-format '~a ~d~:p' '~s, ~x' -c
served 'no fault, Lisp' ours lisp-format "~10,'0d ~a" '~d ~w' -c
served 'a loop of Scheme' 'GNU\t0\tscheme-format that is not read here' scheme-format '~{~a~}' '~{~s~}' -c
served 'a loop in a translation' 'GNU\t1\tlisp-format that is not read here' lisp-format '~a' '~{~a~}' -c
served 'no fault, awk' ours awk-format '%d %s' '%2$s %1$d' -c
served 'no fault, Lua' ours lua-format '%d %s' '%5d %s' -c
served 'no fault, Object Pascal' ours object-pascal-format '%d %s' '%1:s %0:d' -c
served 'no fault, Smalltalk' ours smalltalk-format '%1 %2' '%2 %1' -c
served 'no fault, KDE with markup' ours kde-kuit-format '<b>%1</b>' '<i a=\"%1\">&amp;</i>' -c
served 'no fault, Boost' ours boost-format '%1% %2%' '%2% %|1$s|' -c
served 'no fault, Tcl' ours tcl-format '%d %s' '%2$s %1$d' -c
served 'fuzzy' ours 'fuzzy, python-format' '%d' '%s' -c
served 'fuzzy and used' 'GNU\t1\tpython-format' 'fuzzy, python-format' '%d' '%s' -c -f
served 'untranslated' ours python-format '%d' '' -c
served 'denied' ours 'python-format, no-python-format' '%d' '%s' -c
served 'possible' 'GNU\t1\tpython-format' possible-python-format '%d' '%s' -c
served 'with another language' 'GNU\t0\telisp-format' 'python-format, elisp-format' '%d' '%d' -c
served 'with a range' 'GNU\t0\tpython-format' 'python-format, range: 0..3' '%d' '%d' -c
served 'an original that is none' ours python-format '100 %' '%d' -c

# --- generated pairs and installed files --------------------------------------------------------------------------------

unset MSGFMT_OR_GNU_LOG
mkdir made
python3 -B "$top/tests/driver/formats.py" "$driver" "$gnu" made --files "${FILES:-40}"
django=/usr/lib/python3/dist-packages/django
script has_django "test -d $django"
if "$top/tests/lib/needs" "$room/has_django" python3-django; then
  find "$django" -name '*.po' -print0 | xargs -0 grep -lZ 'python-.*format' > flagged
  xargs -0 python3 -B "$top/tests/driver/formats.py" "$driver" "$gnu" made --files 0 < flagged
else
  skipped 'driver, formats of Python, installed PO files' 'there are no PO files of Django, and python3-django could not be installed'
fi
