#!/usr/bin/env bash
# Lists of languages: which locale answers, by the rules of docs/reference/look-ups.md, worked out by hand. Each table is one script of
# bin/catserve; each row is a list, a call with its texts, and the answer.
. "$(dirname "$0")/../lib/common"

program=${CATSERVE:-bin/catserve}
if [ ! -x "$program" ]; then
  failed languages "there is no $program: make builds it"
  exit 0
fi

# load LOCALE TEXT: adds a load to the script
load() {
  printf '%b' "$2" > "$room/text"
  printf 'load\tapp\t%s\t-\t%d\n' "$1" "$(wc -l < "$room/text")" >> "$room/loads"
  cat "$room/text" >> "$room/loads"
}

# message ID TRANSLATION: the text of one entry
message() { printf 'msgid "%s"\\nmsgstr "%s"\\n' "$1" "$2"; }

# table: reads rows `LIST | CALL | ANSWER` (tabs as \t), and asks each after the loads so far
table() {
  local list call answer number=0 rows=() wanted=()
  cp "$room/loads" "$room/script"
  while IFS='|' read -r list call answer; do
    list=${list%% } call=${call# } call=${call%% } answer=${answer# }
    printf "ask\t0\tapp\t$list\t$call\n" >> "$room/script"
    rows+=("$list, $call") wanted+=("$answer")
  done
  "$program" < "$room/script" > "$room/out" 2> "$room/err" || failed languages "$(cat "$room/err")"
  mapfile -t got < <(sed -n 's/^0\t[0-9]*\t//p' "$room/out")
  for number in "${!rows[@]}"; do
    if [ "${got[number]-no answer}" = "${wanted[number]}" ]; then
      ok "languages, ${rows[number]}"
    else
      failed "languages, ${rows[number]}" "'${got[number]-no answer}' and not '${wanted[number]}'"
    fi
  done
}

hundred=$(printf 'a%.0s' $(seq 100))
hi='gettext\thi'

# French and German
load fr "$(message hi salut)"
load de "$(message hi hallo)"
table << END
 | $hi | hi
: | $hi | hi
C | $hi | hi
POSIX | $hi | hi
C:fr | $hi | hi
POSIX:de | $hi | hi
fr:C | $hi | salut
de:POSIX | $hi | hallo
sv:C:de | $hi | hi
c:fr | $hi | salut
Cfr:de | $hi | hallo
POSIX.x:de | $hi | hallo
fr | $hi | salut
fr:de | $hi | salut
de:fr | $hi | hallo
sv:de | $hi | hallo
sv:fi:no | $hi | hi
:::de | $hi | hallo
sv::de | $hi | hallo
de: | $hi | hallo
fr_CA | $hi | salut
fr_CA:de | $hi | salut
fr_CA.UTF-8 | $hi | hi
fr_CA.UTF-8:de | $hi | hallo
fr_CA@euro | $hi | hi
fr_CA@euro:de | $hi | hallo
fr.UTF-8:de | $hi | hallo
fr@euro:de | $hi | hallo
fr_CA_QC | $hi | salut
fr_ | $hi | salut
_fr:de | $hi | hallo
_ | $hi | hi
C_X | $hi | hi
C_X:de | $hi | hallo
POSIX_X:de | $hi | hallo
a_b_c | $hi | hi
a_b_c:de | $hi | hallo
fr-CA:de | $hi | hallo
FR:de | $hi | hallo
no name!:de | $hi | hallo
é:de | $hi | hallo
fr\0:de | $hi | hallo
\0fr | $hi | hi
$hundred | $hi | hi
$hundred:de | $hi | hallo
${hundred}_x:fr | $hi | salut
END

# `C` and `POSIX` have catalogues, which no member `C` or `POSIX` finds
load C "$(message hi 'in C')"
load POSIX "$(message hi 'in POSIX')"
table << END
C | $hi | hi
POSIX | $hi | hi
sv:C | $hi | hi
C_X | $hi | in C
POSIX_X:de | $hi | in POSIX
sv:C_X:de | $hi | in C
C.UTF-8:de | $hi | hallo
END

# a locale before its language, and one with a codeset as it is
load fr_CA "$(message hi allo)$(message yes oui)"
load fr "$(message hi salut)$(message no non)"
load fr_CA.UTF-8 "$(message hi 'allo, UTF-8')"
table << END
fr_CA | $hi | allo
fr_CA | gettext\tyes | oui
fr_CA | gettext\tno | non
fr_CA:de | gettext\tnever | never
fr_BE | $hi | salut
fr:fr_CA | $hi | salut
fr:fr_CA | gettext\tyes | oui
fr_CA.UTF-8 | $hi | allo, UTF-8
fr_CA.UTF-8 | gettext\tno | no
fr_CA.UTF-8:fr_CA | gettext\tno | non
END

# the first that has the message, and not the first that has a catalogue
: > "$room/loads"
load fr "$(message both 'fr both')$(message same same)"
load de "$(message both 'de both')$(message german 'de german')$(message same 'de same')"
load sv "$(message german 'sv german')$(message swedish 'sv swedish')"
table << END
fr_CA::de:C:sv | gettext\tgerman | de german
fr_CA::de:C:sv | gettext\tswedish | swedish
fr_CA::de:C:sv | gettext\tboth | fr both
fr:de:sv | gettext\tswedish | sv swedish
sv:de | gettext\tgerman | sv german
fr:de | gettext\tsame | same
END

# the rule is that of the catalogue that has the message; contexts; a list that leads nowhere
polish='nplurals=3; plural=n==1 ? 0 : n%%10>=2 && n%%10<=4 && (n%%100<10 || n%%100>=20) ? 1 : 2;'
: > "$room/loads"
load de 'msgid ""\nmsgstr "nplurals=2; plural=n-1;"\n'"$(message x y)"
load pl "msgid \"\"\nmsgstr \"Plural-Forms: ${polish//%%/%}\"\nmsgid \"file\"\nmsgid_plural \"files\"
msgstr[0] \"plik\"\nmsgstr[1] \"pliki\"\nmsgstr[2] \"plikow\"\nmsgctxt \"menu\"\nmsgid \"open\"\nmsgstr \"otworz\"\n"
table << END
de:pl | ngettext\tfile\tfiles\t5 | plikow
de:pl | ngettext\tfile\tfiles\t1 | plik
de:pl | ngettext\tfile\tfiles\t22 | pliki
de:sv | ngettext\tfile\tfiles\t5 | files
de:sv | ngettext\tfile\tfiles\t1 | file
pl:de | gettext\tx | y
de:pl | pgettext\tmenu\topen | otworz
de:pl | gettext\topen | open
de:C:pl | pgettext\tmenu\topen | open
de:pl | npgettext\tmenu\tfile\tfiles\t2 | files
END
