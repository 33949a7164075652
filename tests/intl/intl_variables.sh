#!/usr/bin/env bash
# Asks gettext of libkobdzila-intl.so in a program with a getenv of its own, as bash has: what it returns is gone at its
# next call.
. "$(dirname "$0")/../lib/common"
. tests/lib/c_common
name='gettext, a getenv of the program'

asks_in_utf8 || exit 0
cat > "$room/getenv.c" << 'END'
#define _GNU_SOURCE
#include <string.h>
#include <unistd.h>
char *getenv(const char *name) {
    static char value[8192];
    size_t len = strlen(name);
    for (char **at = environ; at && *at; at++)
        if (!strncmp(*at, name, len) && (*at)[len] == '=' && strlen(*at) < sizeof value)
            return strcpy(value, *at + len + 1);
    return NULL;
}
END
links_shared getenv || exit 0

# (a long name of UTF-8: a copy of it in place of `fr` would be written over other memory)
said=$(env LC_ALL=C.UTF-8 LANGUAGE=fr OUTPUT_CHARSET="UTF-8//$(printf 'x%.0s' $(seq 4000))" \
  LD_PRELOAD="$room/getenv.so:$library/libkobdzila-intl.so" "$room/ask" bind garden "$room/locale" domain garden \
  ask - Winter ask garden Winter ask - none 2>&1)
wanted="$room/locale 77
garden 77
Hiver 77
Hiver 77
none 77"
if [ "$said" = "$wanted" ]; then ok "$name: LANGUAGE and OUTPUT_CHARSET"; else failed "$name" "it said '$said'"; fi
