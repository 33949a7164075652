/* The words of the command line. The C library passes them to every constructor, as it does to main: glibc, that is. */
#include "machine.h"

#include <string.h>

static int count;
static char **words;

__attribute__((constructor)) static void keep(int argc, char **argv) {
    count = argc;
    words = argv;
}

size_t rattle_arg_count(void) { return (size_t)count; }

ssize_t rattle_arg(size_t place, unsigned char *to, size_t room) {
    if (place >= (size_t)count || !words[place])
        return -1;
    size_t len = strlen(words[place]);
    memcpy(to, words[place], len < room ? len : room);
    return len <= room ? (ssize_t)len : -2;
}
