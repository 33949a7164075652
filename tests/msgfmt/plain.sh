#!/usr/bin/env bash
# Compares bin/msgfmt with tests/msgfmt/plain.py, a slow and plain reading of PO texts that was written from the rules
# alone, on worked texts, on each front of two texts and on random ones (tests/msgfmt/plain_texts.py).
. "$(dirname "$0")/../lib/common"

if ! command -v python3 > /dev/null; then
  skipped plain 'no python3'
  exit 0
fi
python3 -B tests/msgfmt/plain_compare.py "$program"
