/* Where a line may end: Unicode Standard Annex #14, "Unicode Line Breaking Algorithm", by the tables of Unicode 14, which
 * GNU msgunfmt 0.21 has on Debian 12. What the annex leaves to choice is as there: characters of Thai and the like, which
 * take a dictionary, are letters. As there, a comma, a colon or a full stop doesn't hold the letter behind it (LB29). */
#include "breaks.h"
#include "break_tables.h"

#include <stddef.h>

#define ONE(class) (1ull << (class))
#define ALL (~0ull)
#define LETTERS (ONE(AL) | ONE(HL))
#define IDEOGRAPHS (ONE(ID) | ONE(EB) | ONE(EM))
#define HANGUL (ONE(JL) | ONE(JV) | ONE(JT) | ONE(H2) | ONE(H3))
#define CLOSING (ONE(CL) | ONE(CP))
#define OPENING (ONE(OP) | ONE(WIDE_OP))

/* Characters that stay on one line: one of `before` with one of `after` behind it. */
struct rule {
    uint64_t before, after;
};

/* Also if spaces are between them: LB11, LB13 to LB17. */
static const struct rule over_spaces[] = {
    {ALL, ONE(WJ)}, {ALL, CLOSING | ONE(EX) | ONE(INFIX) | ONE(SY)}, {OPENING, ALL}, {ONE(QU), OPENING},
    {ONE(CL), ONE(NS)}, {ONE(B2), ONE(B2)},
};

/* If nothing is between them: LB11 to LB12a, LB19 to LB28, LB30 and LB30b. */
static const struct rule side_by_side[] = {
    {ONE(WJ) | ONE(GL), ALL}, {ALL & ~(ONE(BA) | ONE(HY)), ONE(GL)}, {ALL, ONE(QU)}, {ONE(QU), ALL},
    {ALL, ONE(BA) | ONE(HY) | ONE(NS)}, {ONE(BB), ALL}, {ONE(SY), ONE(HL)}, {ALL, ONE(IN)},
    {LETTERS, ONE(NU)}, {ONE(NU), LETTERS}, {ONE(PR), IDEOGRAPHS}, {IDEOGRAPHS, ONE(PO)},
    {ONE(PR) | ONE(PO), LETTERS}, {LETTERS, ONE(PR) | ONE(PO)},
    {CLOSING | ONE(NU), ONE(PR) | ONE(PO)}, {ONE(PR) | ONE(PO), OPENING | ONE(NU)},
    {ONE(HY) | ONE(INFIX) | ONE(NU) | ONE(SY), ONE(NU)},
    {ONE(JL), ONE(JL) | ONE(JV) | ONE(H2) | ONE(H3)}, {ONE(JV) | ONE(H2), ONE(JV) | ONE(JT)},
    {ONE(JT) | ONE(H3), ONE(JT)}, {HANGUL, ONE(PO)}, {ONE(PR), HANGUL},
    {LETTERS, LETTERS}, {LETTERS | ONE(NU), ONE(OP)}, {ONE(CP), LETTERS | ONE(NU)}, {ONE(EB), ONE(EM)},
};

static bool holds(const struct rule *rules, size_t count, unsigned before, unsigned after) {
    for (size_t place = 0; place < count; place++)
        if (rules[place].before & ONE(before) && rules[place].after & ONE(after))
            return true;
    return false;
}

/* Return the value of the range that a character is in, or 255 for none. */
static uint8_t value_in(const struct range *ranges, size_t count, uint32_t character) {
    size_t first = 0, behind = count;
    while (first < behind) {
        size_t middle = (first + behind) / 2;
        if (character > ranges[middle].last)
            first = middle + 1;
        else if (character < ranges[middle].first)
            behind = middle;
        else
            return ranges[middle].value;
    }
    return UINT8_MAX;
}

enum { FIRST_SYLLABLE = 0xac00, LAST_SYLLABLE = 0xd7a3, ENDINGS = 28 };

static enum class class_of(uint32_t character) {
    if (character >= FIRST_SYLLABLE && character <= LAST_SYLLABLE)
        return (character - FIRST_SYLLABLE) % ENDINGS ? H3 : H2;
    uint8_t value = value_in(class_ranges, sizeof class_ranges / sizeof *class_ranges, character);
    return value == UINT8_MAX ? AL : (enum class)value;
}

int columns_of(uint32_t character) {
    uint8_t value = value_in(width_ranges, sizeof width_ranges / sizeof *width_ranges, character);
    return value == UINT8_MAX ? 1 : value;
}

/* A mark joins the character before it, but not a space: then it counts as a letter (LB8 to LB10). */
static enum chance before_mark(struct behind *behind) {
    bool is_first = !behind->has_base, is_free = !is_first && (behind->base == ZW || behind->has_spaces);
    if (is_first || is_free) {
        behind->base = AL;
        behind->has_base = true;
        behind->has_spaces = false;
    }
    return is_free ? MAY_BREAK : NO_BREAK;
}

/* The rules from LB8 on, for a character that is no space or mark. */
static bool stays(const struct behind *behind, enum class class) {
    if (behind->base == ZW)
        return false;
    if (behind->last == ZWJ || behind->joins_hebrew)
        return true;
    if (behind->base == RI && class == RI) /* LB30a: two of them are a flag */
        return !behind->has_spaces && behind->flags_in_row % 2;
    if (holds(over_spaces, sizeof over_spaces / sizeof *over_spaces, behind->base, class))
        return true;
    return !behind->has_spaces &&
           holds(side_by_side, sizeof side_by_side / sizeof *side_by_side, behind->base, class);
}

static enum chance before_other(struct behind *behind, enum class class) {
    bool is_kept = !behind->has_base || stays(behind, class);
    behind->base = (uint8_t)class;
    behind->has_base = true;
    behind->has_spaces = false;
    return is_kept ? NO_BREAK : MAY_BREAK;
}

enum chance chance_before(struct behind *behind, uint32_t character) {
    enum class class = class_of(character);
    enum chance chance = NO_BREAK;
    switch (class) {
    case BK:
        *behind = (struct behind){0};
        chance = MUST_BREAK;
        break;
    case SP: behind->has_spaces = true; break;
    case ZW:
        behind->base = ZW;
        behind->has_base = true;
        behind->has_spaces = false;
        break;
    case CM:
    case ZWJ: chance = before_mark(behind); break;
    default: chance = before_other(behind, class);
    }
    behind->joins_hebrew = behind->last == HL && (class == HY || class == BA);
    behind->last = (uint8_t)class;
    behind->flags_in_row = class == RI ? behind->flags_in_row + 1 : 0;
    return chance;
}
