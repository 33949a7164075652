#!/usr/bin/env bash
# In C.UTF-8 the C library translates by the variable LANGUAGE, and since glibc 2.39 not at all. libkobdzila-intl.so does as
# the C library that it runs with; for other versions a small library says that it is of one.
. "$(dirname "$0")/../lib/common"
. tests/lib/c_common
name='gettext, C.UTF-8'

asks_in_utf8 || exit 0
cat > "$room/version.c" << 'END'
#include <stdlib.h>
const char *gnu_get_libc_version(void) { return getenv("VERSION_OF_GLIBC"); }
END
links_shared version || exit 0

# answer LOCALE WORD..: the translation of a word in this locale, with these words for env
answer() {
  env LC_ALL="$1" LANGUAGE=fr "${@:2}" "$room/ask" env LANGUAGE fr locale "$1" bind garden "$room/locale" domain garden ask - Winter 2>&1
}
ours=$library/libkobdzila-intl.so
for it in C C.UTF-8; do
  if [ "$(answer "$it" LD_PRELOAD="$ours")" = "$(answer "$it")" ]; then ok "$name: $it, as the C library"
  else failed "$name: $it" "'$(answer "$it" LD_PRELOAD="$ours")' and not '$(answer "$it")'"; fi
done
for it in 2.36:Hiver 2.38:Hiver 2.39:Winter 2.41:Winter 3.1:Winter; do
  said=$(answer C.UTF-8 VERSION_OF_GLIBC="${it%:*}" LD_PRELOAD="$room/version.so:$ours")
  if grep -qw "${it#*:}" <<< "$said"; then ok "$name: glibc ${it%:*}"; else failed "$name: glibc ${it%:*}" "it said '$said'"; fi
done
