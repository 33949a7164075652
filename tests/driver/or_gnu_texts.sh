#!/usr/bin/env bash
# PO texts of which GNU msgfmt says something that Kobdzila's doesn't: lines of obsolete entries and of previous msgids, flags,
# newlines, plural rules and charsets. bin/msgfmt-or-gnu has to answer as GNU msgfmt does, worked text by worked text and on
# random ones (tests/driver/texts.py), and to give no text to GNU msgfmt for an entry that isn't kept.
. "$(dirname "$0")/../lib/common"
NAME=or_gnu_texts
. tests/driver/begin
cd "$room" || exit 1
mkdir tmp
export TMPDIR=$room/tmp

# answers NAME LOG TEXT ARGUMENT..: status, output and MO file are GNU msgfmt's for TEXT, and the log has this line: `ours`
# if Kobdzila's msgfmt is to compile the text, else GNU msgfmt's status and the reason
answers() {
  local name=$1 line=${2/#ours/ours\\t0\\t-} it=$3
  { header UTF-8 fr && printf "$it"; } > in.po
  shift 3
  is_of "driver, texts, $name${*:+, $*}" "$line\tin.po" /dev/null "$gnu" --no-hash "$@" -o x.mo in.po
}
ab='msgid "a"\nmsgstr "b"\n' mark='GNU\t1\ta bad line #~ or #|'
mixed='GNU\t1\tinconsistent use of #~' twice='GNU\t1\tan obsolete duplicate'

# --- lines of obsolete entries and of previous msgids -------------------------------------------------------------------

answers 'obsolete' ours "$ab"'#~ msgid "x"\n#~ "y"\n#~ msgstr "z"\n'
answers 'an obsolete plural' ours "$ab"'#~ msgctxt "c"\n#~ msgid "x"\n#~ msgid_plural "y"\n#~ msgstr[0] "z"\n#~ msgstr[1] "z"\n'
answers 'a string after an obsolete msgstr' "$mixed" "$ab"'#~ msgid "x"\n#~ msgstr "y"\n"c"\n'
answers 'a string after an obsolete msgid' "$mixed" "$ab"'#~ msgid "x"\n"z"\n#~ msgstr "y"\n'
answers 'an obsolete string after a msgstr' "$mixed" "$ab"'#~ "c"\n'
answers 'a msgstr after an obsolete msgid' "$mixed" "$ab"'#~ msgid "x"\nmsgstr "y"\n'
answers 'an obsolete word' "$mark" "$ab"'#~ msgidx "x"\n'
answers 'an obsolete string that is not closed' "$mark" "$ab"'#~ msgid "x\n#~ msgstr "y"\n'
answers 'an obsolete escape that is none' "$mark" "$ab"'#~ msgid "\\q"\n#~ msgstr "y"\n'
answers 'an obsolete index' "$mark" "$ab"'#~ msgid "x"\n#~ msgid_plural "y"\n#~ msgstr[1] "z"\n'
answers 'an obsolete msgid alone' "$mark" "$ab"'#~ msgid "x"\n'
answers 'an obsolete domain' 'GNU\t0\ta domain line' "$ab"'#~ domain "x"\n'
answers 'live, then obsolete' "$twice" "$ab"'#~ msgid "a"\n#~ msgstr "c"\n'
answers 'obsolete, then live' "$twice" '#~ msgid "a"\n#~ msgstr "c"\n'"$ab"
answers 'obsolete twice' "$twice" "$ab"'#~ msgid "x"\n#~ msgstr "c"\n#~ msgid ""\n#~ "\\170"\n#~ msgstr "d"\n'
answers 'obsolete, the context differs' ours "$ab"'#~ msgctxt ""\n#~ msgid "a"\n#~ msgstr "c"\n'
answers 'obsolete, newlines that differ' ours "$ab"'#~ msgid "x\\n"\n#~ msgstr "c"\n'
answers 'previous' ours '#| msgctxt "c"\n#| msgid "x"\n#| "y"\n#| msgid_plural "z"\n'"$ab"
answers 'previous and obsolete' ours "$ab"'#~| msgid "x"\n#~ msgid "y"\n#~ msgstr "z"\n'
answers 'a previous word' "$mark" '#| msgidx "x"\n'"$ab"
answers 'a previous msgstr' "$mark" '#| msgid "x"\n#| msgstr "y"\n'"$ab"
answers 'previous, not closed' "$mark" '#| msgid "x\n'"$ab"
answers 'previous, before its comments' "$mark" '#| msgid "x"\n# c\n'"$ab"
answers 'previous, at the end' "$mark" "$ab"'#| msgid "x"\n'
answers 'previous of an obsolete entry' "$mixed" '#~| msgid "x"\n'"$ab"
answers 'a comment inside an entry' 'GNU\t1\ta comment inside an entry' 'msgid "a"\n# c\nmsgstr "b"\n'
answers 'a comment after an entry' ours 'msgid "a"\nmsgstr "b" # c\n'

# --- flags --------------------------------------------------------------------------------------------------------------

formats='msgid "%%d"\nmsgstr "%%s"\n' perl='GNU\t1\tperl-format' other='GNU\t0\tflags read otherwise by GNU'
answers 'flags separated by blanks' "$perl" '#, no-wrap\tperl-format foo\n'"$formats" -c
answers 'a flag and a carriage return' "$perl" '#,perl-format\r\n'"$formats" --check-format
answers 'a denied flag' ours '#, no-perl-format\n'"$formats" -c
answers 'a flag without -c' ours '#, perl-format\n'"$formats"
answers 'a flag, fuzzy' ours "$ab"'#, fuzzy, perl-format\n'"$formats" -c
answers 'a flag, fuzzy' "$perl" "$ab"'#, fuzzy, perl-format\n'"$formats" -c -f
answers 'a flag, untranslated' ours "$ab"'#, perl-format\nmsgid "%%d"\nmsgstr ""\n' -c
answers 'a flag, obsolete' ours "$ab"'#, perl-format\n#~ msgid "%%d"\n#~ msgstr "%%s"\n' -c
answers 'a flag of the obsolete entry before' ours '#, perl-format\n#~ msgid "x"\n#~ msgstr "y"\n'"$formats" -c
answers 'a flag after a msgstr' "$perl" 'msgid "a"\nmsgstr "b" #, perl-format\n'"$formats" -c
answers 'two lines of flags' ours "$ab"'#, fuzzy\n#, no-wrap\nmsgid "c"\nmsgstr "d"\n' --statistics
answers 'two lines of flags, of no consequence' ours "$ab"'#, no-wrap\n#, fuzzy\nmsgid "c"\nmsgstr "d"\n'
answers 'three lines of flags, and comments' ours \
  "$ab"'#, fuzzy\n#! no-wrap\n# #, fuzzy\n#, c-format\n#. c\nmsgid "c"\nmsgstr "d"\n' --statistics
answers 'two lines of flags, formats' "$perl" '#, no-perl-format\n#, perl-format\n'"$formats" -c
answers 'two lines of flags, formats' ours '#, perl-format\n#, no-wrap\n'"$formats" -c
answers 'flags of two entries' ours '#, fuzzy\n'"$ab"'#, no-wrap\nmsgid "c"\nmsgstr "d"\n' --statistics
answers 'flags as in Emacs 19' ours "$ab"'#! fuzzy\nmsgid "c"\nmsgstr "d"\n' --statistics
answers 'flags behind #~' "$other" "$ab"'#~ #, fuzzy\nmsgid "c"\nmsgstr "d"\n' --statistics
answers 'flags before an empty #~' "$other" "$ab"'#, fuzzy\n#~\nmsgid "c"\nmsgstr "d"\n' --statistics
answers 'c-format and then not' "$other" '#, c-format, no-c-format\n'"$formats" -c
answers 'possible-c-format' 'GNU\t1\tpossible-c-format' '#, possible-c-format\n'"$formats" -c

# --- system-dependent strings -------------------------------------------------------------------------------------------

macro='msgid "%%<PRId64>"\nmsgstr "%%<PRId64>"\n' c='#, c-format\n' different='GNU\t1\tformat arguments differ'
answers 'a macro' ours "$c$macro"
answers 'a macro' ours "$c$macro" -c
answers 'a macro' ours "$ab$c$macro" --statistics
answers 'a macro, possibly' "$other" '#, possible-c-format\n'"$macro"
answers 'a macro, fuzzy' ours "$ab"'#, c-format, fuzzy\n'"$macro"
answers 'a macro, fuzzy' ours "$ab"'#, c-format, fuzzy\n'"$macro" -f
answers 'a macro beside other messages' ours "$ab$c$macro$c"'msgid "%%d"\nmsgstr "x %%d"\n' -c
answers 'a macro with a context' ours "$c"'msgctxt "c"\n'"$macro"
answers 'a macro in a plural' ours "$c"'msgid "%%<PRIu32> a"\nmsgid_plural "%%<PRIu32> b"\nmsgstr[0] "%%<PRIu32> c"\nmsgstr[1] "d"\n'
answers 'a macro of the plural alone' ours "$c"'msgid "a"\nmsgid_plural "%%<PRIu32> b"\nmsgstr[0] "c"\nmsgstr[1] "d"\n'
answers 'several macros' ours "$c"'msgid "%%<PRIdMAX> %%08<PRIxPTR> %%s"\nmsgstr "%%3$s %%2$<PRIxPTR> %%1$<PRIdMAX>"\n' -c
answers 'a macro of another type' "$different" "$c"'msgid "%%<PRId64>"\nmsgstr "%%<PRIu64>"\n' -c
answers 'a macro of another type' ours "$c"'msgid "%%<PRId64>"\nmsgstr "%%<PRIu64>"\n'
answers 'a macro for none' "$different" "$c"'msgid "%%ld"\nmsgstr "%%<PRId64>"\n' -c
answers 'a macro that is none' "$different" "$c"'msgid "%%<PRId64>"\nmsgstr "%%<PRId65>"\n' -c
answers 'no macro but its letters' ours "$c"'msgid "<PRId64>"\nmsgstr "a <PRId64>"\n' -c
answers 'a macro and an undefined size' 'GNU\t0\tsystem-dependent format' "$c"'msgid "%%Zu %%<PRId64>"\nmsgstr "%%Zu %%<PRId64>"\n'
answers 'a macro without the flag, and one with it' ours "$macro$c"'msgid "%%<PRIu8>"\nmsgstr "%%<PRIu8>"\n'
answers 'the flag I and a macro' ours "$c"'msgid "%%<PRId64> %%d"\nmsgstr "%%I<PRId64> %%-I5d"\n' -c
answers 'the flag I alone' ours "$c"'msgid "%%d %%s"\nmsgstr "%%2$s %%1$Id"\n' -c
answers 'the flag I in the next string' ours "$c"'msgid "%%d"\nmsgstr "%%-"\n"I5d"\n'
answers 'the flag I, as an escape' ours "$c"'msgid "%%d"\nmsgstr "%%\\111d"\n'
answers 'the flag I in both texts' ours "$c"'msgid "%%Id"\nmsgstr "%%Id"\n' -c
answers 'the flag I in the msgid' ours "$c"'msgid "%%Id"\nmsgstr "%%d"\n'
answers 'the flag I in a plural' ours "$c"'msgid "%%d a"\nmsgid_plural "%%d b"\nmsgstr[0] "c"\nmsgstr[1] "%%Id d"\n'
answers 'the flag I of the plural alone' ours "$c"'msgid "a"\nmsgid_plural "%%Id b"\nmsgstr[0] "c"\nmsgstr[1] "d"\n'
answers 'the flag I with a context' ours "$c"'msgctxt "%%Id"\nmsgid "%%d"\nmsgstr "%%Id"\n' -c
answers 'the flag I beside other messages' ours "$ab$c"'msgid "%%d"\nmsgstr "%%Id"\n' --statistics
answers 'the flag I, fuzzy' ours "$ab"'#, c-format, fuzzy\nmsgid "%%d"\nmsgstr "%%Id"\n'
answers 'the flag I, fuzzy' ours "$ab"'#, c-format, fuzzy\nmsgid "%%d"\nmsgstr "%%Id"\n' -f
answers 'the flag I, obsolete' ours "$ab"'#, c-format\n#~ msgid "%%d"\n#~ msgstr "%%Id"\n'
answers 'the flag I, no-c-format' ours '#, no-c-format\nmsgid "%%d"\nmsgstr "%%Id"\n'
answers 'the flag I in no valid format' ours "$c"'msgid "%%d"\nmsgstr "%%Id %%y"\n'
answers 'a blank and an I, as flags' ours "$c"'msgid "100 %% In"\nmsgstr "100 %% In"\n' -c
answers 'a blank and an I, without the flag' ours 'msgid "100 %% in"\nmsgstr "100 %% In"\n' -c
answers 'a blank and an I behind two per cent signs' ours "$c"'msgid "%%%% in"\nmsgstr "%%%% In"\n' -c
answers 'the flag I, Objective-C' 'GNU\t0\tobjc-format' '#, objc-format\nmsgid "%%d"\nmsgstr "%%Id"\n'
answers 'a macro, Objective-C' 'GNU\t0\tobjc-format' '#, objc-format\nmsgid "%%<PRId64>"\nmsgstr "%%<PRId64> x"\n'
answers 'no macro, Objective-C' ours '#, objc-format\nmsgid "%%d"\nmsgstr "%%d x"\n'
answers 'the flag I of no format' ours 'msgid "%%d"\nmsgstr "%%Id"\n'
answers 'a macro, two lines of flags' ours "$c"'#, no-wrap\n'"$macro"
answers 'a macro in another charset' ours "$c"'msgid "%%<PRId64>"\nmsgstr "\303\251 %%<PRId64>"\n'
answers 'a macro, a header without fields' ours "$c$macro" -c -v
answers 'a macro, untranslated' ours "$ab"'#, c-format\nmsgid "%%<PRId64>"\nmsgstr ""\n'
answers 'a macro, obsolete' ours "$ab"'#, c-format\n#~ msgid "%%<PRId64>"\n#~ msgstr "%%<PRId64>"\n'
answers 'a macro without the flag' ours "$macro"

# --- directives of C that only GNU msgfmt reads -------------------------------------------------------------------------

# unread NAME LOG DIRECTIVE FORM ARGUMENT..: as answers, of a c-format message
unread() { answers "only GNU reads $1" "$2" "$c"'msgid "a '"$3"'"\nmsgstr "b '"$4"'"\n' "${@:5}"; }
refused='GNU\t1\tc-format not read here' accepted='GNU\t0\tc-format not read here'
for pair in '%%Zu %%s' '%%Zd %%s' '%%hs %%d' '%%hhc %%s' '%%LS %%d' '%%lp %%d' '%%llf %%s' '%%qm %%d' '%%lll%% %%d' '%%1$m %%d' \
  '%%01$d %%s' '%%1$*02$d %%s' '%%1$-5.*02$d %%s' '%%0000000001$d %%s' "%%-+ #0'5.*hs %%d" '%%"\n"Zu %%s' '\\45Zu %%s'; do
  unread "$pair" "$refused" "${pair% *}" "${pair##* }" -c
done
unread 'the same' "$accepted" '%%Zu' '%%zu' -c
unread 'one of several' "$refused" '100%% %%s %%d %%hs' '%%s' --check-format
unread 'without -c' ours '%%Zu' '%%s'
unread 'the header checked' ours '%%Zu' '%%s' --check-header
for it in '%%-05.3lu' '%%1$*2$.*3$hhn' '%%.*Lf' '%%*.*%%' '%%lc %%ls %%S' '%%qd %%jx %%to %%zi' '%%123456789012d'; do
  unread "not: $it" ours "$it" "$it" -c
done
for it in '%%Z' '%%hy' '%%hK %%w' 'Zu hs %%'; do unread "not, $it" ours "$it" '%%d' -c; done
plain='msgid "a %%Zu"\nmsgstr "b %%s"\n'
answers 'only GNU reads it, fuzzy' ours "$ab#, c-format, fuzzy\n$plain" -c
answers 'only GNU reads it, fuzzy' "$refused" "$ab#, c-format, fuzzy\n$plain" -c -f
answers 'only GNU reads it, obsolete' ours "$ab$c"'#~ msgid "%%Zu"\n#~ msgstr "%%s"\n' -c
answers 'only GNU reads it, untranslated' ours "$ab$c"'msgid "%%Zu"\nmsgstr ""\n' -c
answers 'only GNU reads it, without the flag' ours "$plain" -c
answers 'only GNU reads it, no-c-format' ours "#, no-c-format\n$plain" -c
answers 'only GNU reads it, a plural' "$refused" \
  "$c"'msgid "one"\nmsgid_plural "%%Zu more"\nmsgstr[0] "%%s"\nmsgstr[1] "%%d"\n' --check-format

# --- newlines without -c ------------------------------------------------------------------------------------------------

newlines='GNU\t1\tnewlines differ'
answers 'newline, octal and n' ours 'msgid "a\\012"\nmsgstr "b\\n"\n'
answers 'newline, octal' "$newlines" 'msgid "a\\012"\nmsgstr "b"\n'
answers 'newline, octal in the msgstr' "$newlines" 'msgid "a"\nmsgstr "b\\12"\n'
answers 'newline, octal at the beginning' "$newlines" 'msgid "a"\nmsgstr "\\012b"\n'
answers 'newline, digits that are none' ours 'msgid "a"\nmsgstr "\\\\012"\n'
answers 'newline, an empty form' "$newlines" \
  'msgid "a\\n"\nmsgid_plural "b\\n"\nmsgstr[0] "c\\n"\nmsgstr[1] ""\n'
answers 'newline, an empty msgid with a context' ours 'msgctxt "c"\nmsgid ""\nmsgstr "b\\n"\n'

# --- the header: plural rules and charsets ------------------------------------------------------------------------------

# rule NAME LOG RULE ARGUMENT..: as answers, of a text whose header has this rule and that has no plural message
rule() {
  local name=$1 line=${2/#ours/ours\\t0\\t-} it=$3
  { header UTF-8 fr | sed '2s/"$//' | sed '2s/$/Plural-Forms: RULE\\n"/' && printf "$ab"; } > in.po
  sed -i "s/RULE/$(printf "$it" | sed 's/[&/]/\\&/g')/" in.po
  shift 3
  is_of "driver, texts, a rule, $name${*:+, $*}" "$line\tin.po" /dev/null "$gnu" --no-hash "$@" -o x.mo in.po
}
broken='GNU\t1\tunreadable plural rule'
rule 'of a template' "$broken" 'nplurals=INTEGER; plural=EXPRESSION;' -c
rule 'of a template' "$broken" 'nplurals=INTEGER; plural=EXPRESSION;' --check-header
rule 'of a template' ours 'nplurals=INTEGER; plural=EXPRESSION;' --check-format
rule 'of a template' ours 'nplurals=INTEGER; plural=EXPRESSION;'
rule 'with a no-break space' "$broken" 'nplurals=2; plural=\302\240n!=1;' -c
rule 'without an operand' "$broken" 'nplurals=2; plural=n!=;' -c
rule 'with two operands' "$broken" 'nplurals=2; plural=n 1;' -c
rule 'with one =' "$broken" 'nplurals=2; plural=n=1;' -c
rule 'not closed' "$broken" 'nplurals=2; plural=(n!=1;' -c
rule 'half a choice' "$broken" 'nplurals=2; plural=n?1;' -c
rule 'crossed' "$broken" 'nplurals=2; plural=(n?1):0;' -c
rule 'good' ours 'nplurals= 2; plural=n%%10 == 1 && n %% 100!=11 ? (n<=1||!n ? 0:1) : 1 ;' -c
rule 'without a semicolon' ours 'nplurals=2; plural=(n != 1)' -c
rule 'without plural=' ours 'nplurals=x;' -c

# charset NAME LOG CHARSET [TEXT]: as answers, of a text in this charset, without -c
charset() {
  local line=${2/#ours/ours\\t0\\t-}
  { header "$3" fr && printf "${4:-$ab}"; } > in.po
  is_of "driver, texts, charset, $1" "$line\tin.po" /dev/null "$gnu" --no-hash -o x.mo in.po
}
charset 'in small letters' ours utf-8
charset 'ASCII' ours ASCII
charset 'ASCII with other bytes' 'GNU\t1\tcharset=ASCII' ASCII 'msgid "a"\nmsgstr "\303\240"\n'
charset 'UTF8' 'GNU\t0\tcharset=UTF8' UTF8
charset 'of a template' 'GNU\t0\tcharset=CHARSET' CHARSET
charset 'with a carriage return' 'GNU\t0\tcharset=UTF-8\\r' 'UTF-8\r'
charset 'in quotes' 'GNU\t0\tcharset="UTF-8"' '\"UTF-8\"'
printf 'msgid ""\nmsgstr "Language: fr\\n"\n\n'"$ab" > in.po
is_of 'driver, texts, no charset' 'GNU\t0\tno charset\tin.po' /dev/null "$gnu" --no-hash -o x.mo in.po
{ printf 'msgid "charset=latin1"\nmsgstr "charset=latin1"\n' && header UTF-8 fr; } > in.po
is_of 'driver, texts, charset= outside of the header' 'ours\t0\t-\tin.po' /dev/null "$gnu" --no-hash -o x.mo in.po
{ printf '#~ msgid ""\n#~ msgstr "Content-Type: text/plain; charset=latin1\\n"\n' && printf "$ab"; } > in.po
is_of 'driver, texts, an obsolete header' 'ours\t0\t-\tin.po' /dev/null "$gnu" --no-hash -o x.mo in.po

# --- random texts -------------------------------------------------------------------------------------------------------

unset MSGFMT_OR_GNU_LOG
for it in '' -c '--statistics --use-fuzzy'; do
  read -r -a words <<< "$it"
  mkdir random
  python3 -B "$top/tests/driver/texts.py" "$driver" "$gnu" random --texts "${TEXTS:-700}" "${words[@]}"
  rm -r random
done
