#!/usr/bin/env bash
# Runs a program with more rights than its user has, set-uid to root and then with a capability, linked with
# libkobdzila-intl.so and with the C library alone. By no value of LANGUAGE may it read a catalogue outside of the
# folder that it names itself; and what it reads is what the C library reads, which goes one folder up for LANGUAGE=..
no_program=1
. "$(dirname "$0")/../lib/common"
. tests/lib/c_common
name='gettext of a set-uid program'

if [ "$(id -u)" != 0 ] || ! command -v setpriv > /dev/null || ! command -v python3 > /dev/null; then
  skipped "$name" 'only root can make one and run it as another user, by setpriv; python3 makes the catalogues'
  exit 0
fi
has_library "$name" || exit 0
chmod 755 "$room"
cp "$library/libkobdzila-intl.so" "$room"
compiles "$name" alone tests/intl/ask_gettext.c || exit 0
compiles "$name" ours tests/intl/ask_gettext.c -Wl,--no-as-needed -L"$room" -l:libkobdzila-intl.so -Wl,-rpath,"$room" ||
  exit 0

# the program's catalogues, and those of the user who attacks it
python3 -B - "$room" << 'END_OF_PYTHON'
import sys
from pathlib import Path
sys.path.insert(0, "tests/intl")
import intl_answers as answers
room = Path(sys.argv[1])
for folder, locale in (("messages", "fr"), ("messages", "de"), ("user", "evil"), ("user", "fr"), ("user", "..")):
    text = b"stolen" if folder == "user" else b"its own"
    answers.install(room / folder, locale, "app", answers.mo({b"a": text}))
END_OF_PYTHON
chmod -R a+rX "$room/messages" "$room/user"

# asks PROGRAM LANGUAGE: what the program says, run by another user
asks() {
  env -i ${QEMU_LD_PREFIX:+QEMU_LD_PREFIX="$QEMU_LD_PREFIX"} LC_ALL=C.UTF-8 LANGUAGE="$2" setpriv --reuid=65534 --regid=65534 --clear-groups \
    "$room/$1" bind app "$room/messages" ask app a user 2>&1
}

# the languages that an attacker may try; the first one works if the program has no more rights than its user
long=$(printf 'a%.0s' $(seq 5000))
languages=(../user/evil ../../../../../../../../../../../../..$room/user/evil ../user/evil:fr fr:../user/evil
  /../user/evil ../messages/fr .. . ../.. ':' '' "$long" "$long:fr" "../$long:fr" fr xx:fr C:fr 'fr/../../user/evil'
  'evil_../../user' '@../../user/evil' '.../user/evil')

# answers_as MODE USER: with no value of LANGUAGE the programs differ, and in a secure mode nothing is stolen
answers_as() {
  local language own got wrong='' count=0
  for language in "${languages[@]}"; do
    own=$(asks alone "$language") got=$(asks ours "$language")
    count=$((count + 1))
    [ "$own" = "$got" ] || { [ "$1" != plain ] && [ "$language" = .. ]; } ||
      wrong+="LANGUAGE=${language:0:60}: '$got', and alone '$own'; "
    grep -qx "user $2" <<< "$got" || wrong+="it ran as '$got'; "
    [ "$1" = plain ] || ! grep -q stolen <<< "$got" || wrong+="LANGUAGE=${language:0:60}: the user's text is printed; "
  done
  if [ -z "$wrong" ]; then
    ok "gettext of a program, $1: $count values of LANGUAGE"
  else
    failed "$name, $1" "$wrong"
  fi
}

answers_as plain 65534
if grep -q 'stolen' <<< "$(asks ours ../user/evil)"; then
  ok "$name: the attack reads the user's file without more rights"
else
  failed "$name" "the attack doesn't work even for a program without more rights: $(asks ours ../user/evil)"
fi
chmod 4755 "$room/alone" "$room/ours"
if asks ours fr | grep -qx 'user 0'; then
  answers_as set-uid 0
else
  skipped "$name" "the folder for files doesn't let programs be set-uid"
fi
chmod 755 "$room/alone" "$room/ours"
if ! tests/lib/needs setcap libcap2-bin; then
  skipped "$name, with a capability" 'no setcap, and it could not be installed'
elif ! setcap cap_net_raw+ep "$room/alone" 2> "$room/err" || ! setcap cap_net_raw+ep "$room/ours" 2> "$room/err"; then
  skipped "$name, with a capability" "setcap: $(cat "$room/err")"
else
  answers_as 'with a capability' 65534
fi
