#!/usr/bin/env bash
# The tables of crates/charsets and of the crates of rows against iconv: each byte and each two bytes of each charset, and
# each name. Whether tools/make_charsets writes the files that are committed.
no_program=1
. "$(dirname "$0")/../lib/common"

if ! command -v python3 > /dev/null || ! command -v iconv > /dev/null; then
  skipped charsets 'no python3, or no iconv'
  exit 0
fi
if ! iconv --version 2> /dev/null | grep -qi 'glibc\|gnu libc'; then
  skipped charsets 'iconv is not that of GNU libc'
  exit 0
fi
python3 -B tests/driver/charsets.py
