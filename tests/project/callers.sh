#!/usr/bin/env bash
# Checks that the pages quote the sources: each program of README.md and docs/, and each clause of
# docs/guide/rattle.md and docs/internals/proofs.md (tests/project/callers.py); and each definition and clause of
# docs/internals/statement.md (tools/statement), where a changed word has to be found as well.
no_program=1
. "$(dirname "$0")/../lib/common"

python3 -B tests/project/callers.py

page=docs/internals/statement.md
if wrong=$(tools/statement --check); then
  ok "$page: $(grep -c '^<!-- ' "$page") blocks, as in the sources"
else
  failed "$page" "$wrong: run tools/statement, and read the page again"
fi
mkdir -p "$room/docs/internals" "$room/tools"
cp tools/statement "$room/tools/"
ln -s "$PWD/crates" "$room/crates"
sed 's/^  pub legal : IsLegal most history$/  pub legal : ⊤/' "$page" > "$room/$page"
if wrong=$("$room/tools/statement" --check); then
  failed "$page" 'a changed definition is not found'
elif [[ $wrong == *Promise.antt*IsRun* ]]; then
  ok "$page: a changed definition is found"
else
  failed "$page" "a changed definition is found as: $wrong"
fi
