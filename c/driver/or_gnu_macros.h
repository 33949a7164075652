/* Texts with system-dependent strings, such as `%<PRIu64>`, which Kobdzila's msgfmt refuses and libkobdzila compiles. */
#ifndef OR_GNU_MACROS_H
#define OR_GNU_MACROS_H

#include "or_gnu.h"

/* A PO text in UTF-8 to compile. */
struct macro_text {
    struct part text;
    const char *name;               /* what stands before a line that is said of it */
    bool checked, keeps_fuzzy;      /* as in msgfmt */
    unsigned long long header_line; /* that of the header's first keyword, or 0 */
    size_t plain_macros;            /* how many messages have one without being flagged c-format */
    bool has_gnu;                   /* GNU msgfmt compiles a text of which another message has a macro in the end */
};

/* Compile a text and write its MO file to `output`, or to the descriptor `standard_output` if that is `-` and the
 * descriptor isn't -1. The answer is the one that msgfmt would give if it compiled such texts. It ends the run if memory
 * runs out. */
struct answer compile_macros(const struct macro_text *text, const char *output, int standard_output);

#endif
