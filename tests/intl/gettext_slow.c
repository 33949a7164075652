/* A module of iconv for a codeset SLOW, which takes as long to load as the test wants: its constructor makes the file
 * $SLOW.begun, and waits for the file $SLOW. It converts nothing. tests/intl/intl_chains.sh puts it on the GCONV_PATH.
 * */
#define _GNU_SOURCE
#include <fcntl.h>
#include <gconv.h>
#include <stdio.h>
#include <stdlib.h>
#include <unistd.h>

__attribute__((constructor)) static void load_slowly(void) {
    char begun[4096];
    const char *end = getenv("SLOW");
    if (!end)
        return;
    snprintf(begun, sizeof begun, "%s.begun", end);
    close(open(begun, O_CREAT | O_WRONLY, 0600));
    while (access(end, F_OK))
        usleep(1000);
}

int gconv(void);
int gconv(void) { return __GCONV_ILLEGAL_INPUT; }
