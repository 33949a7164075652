#!/usr/bin/env bash
# Rules for the sources that neither the prover nor the formatter looks at (tests/project/style.py), over what git
# tracks.
no_program=1
. "$(dirname "$0")/../lib/common"

if ! command -v python3 > /dev/null || ! git ls-files --error-unmatch tests/project/style.py > /dev/null 2>&1; then
  skipped style 'no python3, or no git repository'
  exit 0
fi
python3 -B tests/project/style.py "$@"
