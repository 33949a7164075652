/* A plugin whose constructor calls gettext and its kin, as libraries do. tests/intl/gettext_chains.c loads it. */
#include <libintl.h>
#include <stdio.h>
#include <stdlib.h>
#include <string.h>

__attribute__((constructor)) static void ask(void) {
    char domain[40];
    snprintf(domain, sizeof domain, "plugin%d", rand() % 1000);
    dgettext(domain, "text");
    bindtextdomain(domain, "/nowhere");
    dngettext(domain, "file", "files", 2);
    textdomain(domain);
    if (strcmp(gettext("nothing"), "nothing"))
        puts("wrong: a plugin is given a text");
}
