#!/usr/bin/env bash
# Shows how bin/msgfmt writes FILE: whose it is afterwards, and its mode; that a call which fails leaves the old file
# and no other; what a killed run leaves, and that the next one removes it; names next to FILE that are taken; concurrent
# runs; standard output by the names of files, and a non-blocking input.
. "$(dirname "$0")/../lib/common"
tests=$PWD/tests
can_trouble=
makes_library trouble 'calls that fail' && can_trouble=1
cp "$program" "$room/msgfmt"
program=$room/msgfmt
chmod 755 "$room" "$program"

# Two texts, and what their MO files are: the run to standard output has nothing to do with FILE.
printf 'msgid ""\nmsgstr "Content-Type: text/plain; charset=UTF-8\\n"\n\nmsgid "hi"\nmsgstr "salut"\n' > "$room/in.po"
awk 'BEGIN { for (i = 0; i < 20000; i++) printf "msgid \"%d\"\nmsgstr \"x%d of a longer text\"\n", i, i }' > "$room/big.po"
"$program" -o - - < "$room/in.po" > "$room/in.mo" || exit 1
"$program" -o - - < "$room/big.po" > "$room/big.mo" || exit 1
chmod 644 "$room"/*.po "$room"/*.mo

# in_folder: a new folder to work in
in_folder() {
  cd "$room" || exit 1
  rm -rf "$room/folder"
  mkdir "$room/folder"
  cd "$room/folder" || exit 1
}

# to_file WORD..: runs the program, after the words of $under
under=()
to_file() {
  "${under[@]}" "$program" "$@" < /dev/null > "$room/out" 2> "$room/err"
  status=$?
}

# there NAME FILE..: the folder has these files and no other. Else NAME failed.
there() {
  local name=$1 found
  shift
  found=$(ls -A | tr '\n' ' ')
  [ "$found" = "$(printf '%s\n' "$@" | sort | tr '\n' ' ')" ] && return
  failed "$name" "there are these files: ${found:0:300}"
  return 1
}

# whole NAME FILE [MO]: the last run ended well, said nothing and made FILE, which is the MO file of in.po (or MO)
whole() {
  judge "$1" 0 '' || return
  cmp -s "$2" "${3:-$room/in.mo}" && return
  failed "$1" "$2 is another file, of $(wc -c < "$2") bytes"
  return 1
}

# is NAME WHAT WANTED: WHAT is as wanted
is() {
  [ "$2" = "$3" ] && return
  failed "$1" "it is '$2' and not '$3'"
  return 1
}

owner_and_mode() { stat -c '%u:%g %a' "$1"; }

# --- owner, group and mode ---------------------------------------------------------------------------------------

user=65534
can_switch=
if [ "$(id -u)" = 0 ] && command -v setpriv > /dev/null && setpriv --reuid=$user --clear-groups true 2> /dev/null; then
  can_switch=1
fi

# owned FILE OWNER MODE: a file with old bytes
owned() {
  echo old > "$1"
  chown "$2" "$1"
  chmod "$3" "$1"
}

if [ -n "$can_switch" ]; then
  for mode in 600 644 4755 2750; do
    in_folder
    owned out.mo $user:1234 $mode
    exec 3< out.mo
    to_file -o out.mo "$room/in.po"
    name="root replaces another user's file of mode $mode: owner, group and mode stay"
    whole "$name" out.mo && there "$name" out.mo && is "$name" "$(owner_and_mode out.mo)" "$user:1234 $mode" &&
      is "$name" "$(cat <&3)" old && ok "$name"
    exec 3<&-
  done

  in_folder
  chmod 777 .
  owned out.mo $user:1234 640
  before=$(stat -c %i out.mo)
  under=(setpriv --reuid=$user --regid=$user --groups 1234)
  to_file -o out.mo "$room/in.po"
  name="a user's own file of another of his groups keeps the group"
  whole "$name" out.mo && is "$name" "$(owner_and_mode out.mo)" "$user:1234 640" && there "$name" out.mo &&
    if [ "$(stat -c %i out.mo)" != "$before" ]; then ok "$name"; else failed "$name" 'it was not replaced'; fi

  under=(setpriv --reuid=$user --regid=$user --clear-groups)
  for owner in "$user:1234 640 640" '0:0 666 666' '0:0 6777 777'; do
    read -r owner mode wanted <<< "$owner"
    in_folder
    chmod 777 .
    owned out.mo "$owner" "$mode"
    before=$(stat -c %i out.mo)
    to_file -o out.mo "$room/in.po"
    name="a file of $owner and mode $mode, which a user can't give away, is written straight"
    whole "$name" out.mo && is "$name" "$(owner_and_mode out.mo)" "$owner $wanted" && there "$name" out.mo &&
      is "$name" "$(stat -c %i out.mo)" "$before" && ok "$name"
  done
  under=()
else
  skipped 'owner and group' 'this is not root, or setpriv is not here'
fi

# --- calls that fail, and runs that are killed -------------------------------------------------------------------

if [ -n "$can_trouble" ]; then
  for call in write fchmod rename; do
    in_folder
    echo old > out.mo
    chmod 640 out.mo
    under=(env "TROUBLE=$call" FILE_HAS=.msgfmt- "LD_PRELOAD=$room/trouble.so")
    to_file -o out.mo "$room/in.po"
    name="where $call fails, the old file stays, and no other is left"
    judge "$name" 1 'msgfmt: cannot write out.mo' && there "$name" out.mo && is "$name" "$(cat out.mo)" old && ok "$name"
  done

  # (fsync reports what on a network file system otherwise only close reports: close(2))
  in_folder
  echo old > out.mo
  under=(env TROUBLE=fsync NETWORK=1 FILE_HAS=.msgfmt- "LD_PRELOAD=$room/trouble.so")
  to_file -o out.mo "$room/in.po"
  name="where a network's disk has no room for what was written, the old file stays, and no other is left"
  judge "$name" 1 'msgfmt: cannot write out.mo' && there "$name" out.mo && is "$name" "$(cat out.mo)" old && ok "$name"
  ln out.mo other.mo
  chmod 555 .
  [ -z "$can_switch" ] || chown $user out.mo
  under=(env TROUBLE=fsync NETWORK=1 FILE_HAS=out.mo "LD_PRELOAD=$room/trouble.so")
  [ -z "$can_switch" ] || under=(setpriv --reuid=$user --regid=$user --clear-groups "${under[@]}")
  to_file -o out.mo "$room/in.po"
  name="where a network's disk has no room for a file that is written straight, that is said"
  judge "$name" 1 'msgfmt: cannot write out.mo' && there "$name" other.mo out.mo && ok "$name"
  chmod 755 .
  in_folder
  under=(env TROUBLE=fsync FILE_HAS=.msgfmt- "LD_PRELOAD=$room/trouble.so")
  to_file -o out.mo "$room/in.po"
  name='a file on a disk of this machine is not waited for'
  whole "$name" out.mo && there "$name" out.mo && ok "$name"

  in_folder
  under=(env TROUBLE=flock FILE_HAS=.msgfmt- "LD_PRELOAD=$room/trouble.so")
  to_file -o out.mo "$room/in.po"
  name='where there are no locks, a file is made all the same'
  whole "$name" out.mo && there "$name" out.mo && ok "$name"

  for signal in 9 15; do
    for call in flock write fchown fchmod rename; do
      [ $call != fchown ] || [ -n "$can_switch" ] || continue
      in_folder
      echo old > out.mo
      [ -z "$can_switch" ] || chown $user out.mo
      under=(env "TROUBLE=$call" SIGNAL=$signal FILE_HAS=.msgfmt- "LD_PRELOAD=$room/trouble.so")
      (umask 0 && to_file -o out.mo "$room/in.po") 2> /dev/null
      left=(.out.mo.msgfmt-*)
      name="signal $signal at $call leaves the old file, and one beside it that the next run takes away"
      is "$name" "$(cat out.mo)" old && is "$name" "${#left[@]} $(stat -c %F "${left[0]}" 2>&1)" \
        "1 regular $([[ $call = f@(lock|chown) || $call = write ]] && echo 'empty ')file" || continue
      if [ $call != rename ]; then is "$name" "$(stat -c %a "${left[0]}")" 600 || continue; fi
      under=()
      to_file -o out.mo "$room/in.po"
      whole "$name" out.mo && there "$name" out.mo && ok "$name"
    done
  done
  under=()
fi

if command -v python3 > /dev/null; then
  in_folder
  cp "$room/big.mo" out.mo
  name='200 runs that are killed leave a whole file, and what they leave beside it the next run takes away'
  if wrong=$(python3 "$tests/msgfmt/kill_runs.py" "$program" "$room/big.po" "$room/big.mo" 2>&1); then
    to_file -o out.mo "$room/in.po"
    whole "$name" out.mo && there "$name" out.mo && ok "$name ($wrong)"
  else
    failed "$name" "$wrong"
  fi
else
  skipped 'runs that are killed' 'no python3'
fi

# --- names that are taken ----------------------------------------------------------------------------------------

in_folder
(
  seq -f '.msgfmt-%.0f' 0 9999
  seq -f '.out.mo.msgfmt-%.0f' 0 9999
) | xargs touch
to_file -o out.mo "$room/in.po"
name='20,000 files of such names are in the way of no run'
whole "$name" out.mo && is "$name" "$(ls -A | grep -cE '^\.msgfmt-[0-9]+$')" 10000 && ok "$name"

# take_names OWNER: takes the first 200 numbered names of out.mo by folders, links, pipes and files of OWNER
take_names() {
  local number
  for number in {0..199}; do
    case $((number % 6)) in
      0) mkdir ".out.mo.msgfmt-$number" ;;
      1) ln -s victim ".out.mo.msgfmt-$number" ;;
      2) ln -s nothing ".out.mo.msgfmt-$number" ;;
      3) mkfifo ".out.mo.msgfmt-$number" ;;
      4) echo theirs > ".out.mo.msgfmt-$number" && chown "$1" ".out.mo.msgfmt-$number" ;;
      5) echo theirs > ".out.mo.msgfmt-$number" && chmod 666 ".out.mo.msgfmt-$number" &&
        chown "$1" ".out.mo.msgfmt-$number" ;;
    esac
  done
  echo victim > victim
}

# state: the names, kinds, owners and modes of all but out.mo, and the texts of the files
state() {
  find . -mindepth 1 ! -name out.mo -printf '%p %y %u %m %l\n' | sort
  find . -type f ! -name out.mo -exec cat {} +
}

# stays NAME: runs the program on out.mo twice; nothing else of the folder is changed
stays() {
  local before
  before=$(state)
  for _ in 1 2; do
    under=(timeout $((5 * slower)) "${user_is[@]}")
    to_file -o out.mo "$room/in.po"
    whole "$1" out.mo || return
    [ "$(state)" = "$before" ] && continue
    failed "$1" "it changed: $(diff <(echo "$before") <(state) | head -n 3 | tr '\n' ' ')"
    return
  done
  ok "$1"
}

if [ -n "$can_switch" ]; then
  user_is=()
  in_folder
  take_names $user
  stays "folders, links, pipes and another user's files of such names stay as they are: root"
  in_folder
  take_names 0
  chmod 1777 .
  user_is=(setpriv --reuid=$user --regid=$user --clear-groups)
  stays "folders, links, pipes and another user's files of such names stay as they are: a user"
  under=()
else
  skipped 'names that are taken' 'this is not root, or setpriv is not here'
fi

in_folder
echo victim > victim
ln victim .out.mo.msgfmt-0
ln victim .out.mo.msgfmt-1
to_file -o out.mo "$room/in.po"
name='a file that also has such a name keeps its bytes'
whole "$name" out.mo && is "$name" "$(cat victim)" victim && ok "$name"

for long in "$(printf 'x%.0s' {1..255})" "$(printf 'é%.0s' {1..127})"; do
  in_folder
  echo old > "$long"
  to_file -o "$long" "$room/in.po"
  name="a FILE whose name has ${#long} bytes"
  whole "$name" "$long" && there "$name" "$long" && ok "$name"
done

in_folder
part=$(printf 'd%.0s' {1..250})
deep=$(printf "$part/%.0s" {1..16})$(printf 'e%.0s' {1..74})
mkdir -p "$deep"
for old in '' old; do
  path=$deep/o.mo
  [ -z "$old" ] || echo old > "$path"
  to_file -o "$path" "$room/in.po"
  name="a FILE whose path has ${#path} bytes, ${old:-new}"
  whole "$name" "$path" && is "$name" "$(ls -A "$deep")" o.mo && ok "$name"
  rm "$path"
done

# --- runs at once ------------------------------------------------------------------------------------------------

# Eight runs at once, twenty times: each ends well, whoever reads meanwhile has one of the two files, and it stays.
in_folder
cp "$room/in.mo" out.mo
name='eight runs at once on one FILE: each ends well, and nobody sees part of a file'
(
  while [ ! -e "$room/stop" ]; do
    cat out.mo > "$room/seen"
    cmp -s "$room/seen" "$room/in.mo" || cmp -s "$room/seen" "$room/big.mo" || echo torn
  done
) > "$room/torn" &
reader=$!
for turn in {1..20}; do
  runs=()
  for it in in big in big in big in big; do
    "$program" -o out.mo "$room/$it.po" > /dev/null 2>> "$room/runs" &
    runs+=($!)
  done
  for run in "${runs[@]}"; do wait "$run" || echo "turn $turn: status $?" >> "$room/runs"; done
done
touch "$room/stop"
wait $reader
if [ -s "$room/runs" ]; then
  failed "$name" "$(head -n 3 "$room/runs" | tr '\n' ' ')"
elif [ -s "$room/torn" ]; then
  failed "$name" "$(wc -l < "$room/torn") times another one was read"
elif ! cmp -s out.mo "$room/in.mo" && ! cmp -s out.mo "$room/big.mo"; then
  failed "$name" 'the last one is neither'
else
  there "$name" out.mo && ok "$name"
fi

# --- descriptors and streams -------------------------------------------------------------------------------------

{
  echo first
  cat "$room/in.mo"
  echo last
} > "$room/between"
for path in /dev/stdout /dev/fd/1 /proc/self/fd/1; do
  in_folder
  (
    echo first
    "$program" -o $path "$room/in.po" 2> "$room/err"
    status=$?
    echo last
    exit $status
  ) > out
  status=$?
  name="$path is the stream at its place, and not its file"
  whole "$name" out "$room/between" && there "$name" out && ok "$name"
done
in_folder
echo old > out
before=$(stat -c %i out)
"$program" -o /dev/fd/3 "$room/in.po" 2> "$room/err" 3<> out
status=$?
name='the file behind /dev/fd/3 is written, and not replaced'
whole "$name" out && there "$name" out && is "$name" "$(stat -c %i out)" "$before" && ok "$name"
"$program" -o /dev/stdout "$room/in.po" 2> "$room/err" | cat > out
status=${PIPESTATUS[0]}
name='/dev/stdout is a pipe'
whole "$name" out && ok "$name"
for path in /dev/stdout /dev/fd/77 /dev/fd/x /dev/fd/-1; do
  "$program" -o $path "$room/in.po" 2> "$room/err" >&-
  status=$?
  name="$path, which is not open"
  judge "$name" 1 "msgfmt: cannot write $path" && ok "$name"
done

if command -v python3 > /dev/null; then
  python3 - "$program" > "$room/streams" 2>&1 << 'END'
import os, subprocess, sys
there, here = os.pipe()
os.set_blocking(there, False)
run = subprocess.run([sys.argv[1], "-o", "-", "-"], stdin=there, capture_output=True, text=True)
print(run.returncode, run.stdout, run.stderr)
END
  name='a standard input that does not block, and has nothing yet, is named'
  is "$name" "$(cat "$room/streams")" '1  msgfmt: cannot read -' && ok "$name"
else
  skipped 'an input that does not block' 'no python3'
fi
