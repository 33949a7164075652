/* Where a text may be broken into lines, and how many columns its characters take. */
#ifndef BREAKS_H
#define BREAKS_H

#include <stdbool.h>
#include <stdint.h>

enum chance { NO_BREAK, MAY_BREAK, MUST_BREAK };

/* What is known of the characters of a text up to here; all zero at its front. */
struct behind {
    uint8_t base, last;     /* classes: of the last character that is no space or mark, and of the last one */
    bool has_base;          /* there is such a character, since the front or a mandatory break */
    bool has_spaces;        /* spaces follow it */
    bool joins_hebrew;      /* the last two characters are a Hebrew letter and a hyphen */
    unsigned flags_in_row;  /* how many regional indicators the text ends with */
};

/* Return whether a line may end before this character, the next of a text. A mandatory break is behind it. */
enum chance chance_before(struct behind *behind, uint32_t character);

/* Return the number of columns that a character takes: 0, 1 or 2. */
int columns_of(uint32_t character);

#endif
