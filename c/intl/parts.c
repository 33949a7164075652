/* What system-dependent parts of strings stand for: the macros of <inttypes.h> with a directive (C standard, section
 * 7.8.1), and the flag I of the GNU C library's printf. */
#define _POSIX_C_SOURCE 200809L
#include "intl.h"

#include <inttypes.h>
#include <string.h>

#define SIZES(macro)                                                                                                  \
    { macro##8, macro##16, macro##32, macro##64, macro##LEAST8, macro##LEAST16, macro##LEAST32, macro##LEAST64,       \
      macro##FAST8, macro##FAST16, macro##FAST32, macro##FAST64, macro##MAX, macro##PTR }

static const char *const sizes[] = { "8",      "16",    "32",     "64",     "LEAST8", "LEAST16", "LEAST32",
                                     "LEAST64", "FAST8", "FAST16", "FAST32", "FAST64", "MAX",     "PTR" };
enum { SIZES_COUNT = sizeof sizes / sizeof *sizes };

static const char directives[] = "dioux" "X";
static const char *const values[][SIZES_COUNT] = { SIZES(PRId), SIZES(PRIi), SIZES(PRIo),
                                                   SIZES(PRIu), SIZES(PRIx), SIZES(PRIX) };

const char *part_value(const char *name) {
    if (!strcmp(name, "I"))
        return "I";
    if (strncmp(name, "PRI", 3) || !name[3])
        return NULL;
    const char *directive = strchr(directives, name[3]);
    for (int i = 0; directive && i < SIZES_COUNT; i++)
        if (!strcmp(name + 4, sizes[i]))
            return values[directive - directives][i];
    return NULL;
}
