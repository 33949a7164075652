/* The tokens of a PO text, with the lines of obsolete entries (`#~`) and of previous msgids (`#|`), whose tokens GNU
 * msgfmt reads as well. */
#include "or_gnu_text.h"

#include <string.h>

const char *find(struct part part, const char *word, size_t rare) {
    size_t len = strlen(word), room = (size_t)(part.end - part.at);
    const char *from = part.at + rare, *end = part.end - (len - rare - 1);
    while (len <= room && from < end && (from = memchr(from, word[rare], (size_t)(end - from)))) {
        if (!memcmp(from - rare, word, len))
            return from - rare;
        from++;
    }
    return NULL;
}

static bool is_blank(char byte) { return byte == ' ' || byte == '\t' || byte == '\r' || byte == '\v' || byte == '\f'; }

static bool is_digit(char byte) { return byte >= '0' && byte <= '9'; }

static bool is_in_word(char byte) {
    static const bool are[256] = {
        ['$'] = 1, ['_'] = 1, ['0'] = 1, ['1'] = 1, ['2'] = 1, ['3'] = 1, ['4'] = 1, ['5'] = 1, ['6'] = 1, ['7'] = 1,
        ['8'] = 1, ['9'] = 1, ['A'] = 1, ['B'] = 1, ['C'] = 1, ['D'] = 1, ['E'] = 1, ['F'] = 1, ['G'] = 1, ['H'] = 1,
        ['I'] = 1, ['J'] = 1, ['K'] = 1, ['L'] = 1, ['M'] = 1, ['N'] = 1, ['O'] = 1, ['P'] = 1, ['Q'] = 1, ['R'] = 1,
        ['S'] = 1, ['T'] = 1, ['U'] = 1, ['V'] = 1, ['W'] = 1, ['X'] = 1, ['Y'] = 1, ['Z'] = 1, ['a'] = 1, ['b'] = 1,
        ['c'] = 1, ['d'] = 1, ['e'] = 1, ['f'] = 1, ['g'] = 1, ['h'] = 1, ['i'] = 1, ['j'] = 1, ['k'] = 1, ['l'] = 1,
        ['m'] = 1, ['n'] = 1, ['o'] = 1, ['p'] = 1, ['q'] = 1, ['r'] = 1, ['s'] = 1, ['t'] = 1, ['u'] = 1, ['v'] = 1,
        ['w'] = 1, ['x'] = 1, ['y'] = 1, ['z'] = 1,
    };
    return are[(unsigned char)byte];
}

/* Take a `#~`, `#|` or `#~|`, after its `#`. False if there is none. */
static bool take_mark(struct lexer *lexer) {
    bool is_obsolete = lexer->at < lexer->end && *lexer->at == '~';
    const char *bar = lexer->at + is_obsolete;
    bool is_previous = bar < lexer->end && *bar == '|';
    lexer->obsolete |= is_obsolete;
    lexer->saw_obsolete |= is_obsolete;
    lexer->previous |= is_previous;
    lexer->at += is_obsolete + is_previous;
    return is_obsolete || is_previous;
}

/* Go to the next token or comment, behind the `#` of that. */
static void skip_to_token(struct lexer *lexer) {
    for (; lexer->at < lexer->end; lexer->at++) {
        if (*lexer->at == '\n') {
            lexer->line++;
            lexer->obsolete = lexer->previous = false;
        } else if (!is_blank(*lexer->at)) {
            return;
        }
    }
}

/* Take a comment, with the end of its line. (As in GNU msgfmt what follows a comment behind `#|` is still behind it.) */
static void take_comment(struct lexer *lexer, struct token *token) {
    const char *end = memchr(lexer->at, '\n', (size_t)(lexer->end - lexer->at));
    token->kind = COMMENT;
    token->part = (struct part){lexer->at, end ? end : lexer->end};
    lexer->at = end ? end + 1 : lexer->end;
    lexer->line += end != NULL;
    lexer->obsolete = false;
}

/* Whether the byte after a backslash may stand there. */
static bool is_escape(char byte) { return memchr("tbrfva\\\"nx01234567", byte, 18); }

/* Take a string, behind its first quote. One that isn't closed on its line, or has an escape that is none, is junk. */
static void take_string(struct lexer *lexer, struct token *token) {
    const char *line_end = memchr(lexer->at, '\n', (size_t)(lexer->end - lexer->at));
    const char *end = line_end ? line_end : lexer->end, *from = lexer->at;
    const char *quote = memchr(from, '"', (size_t)(end - from));
    token->kind = STRING;
    for (const char *slash; quote && (slash = memchr(from, '\\', (size_t)(quote - from)));) {
        from = slash + 2;
        if (!is_escape(slash[1]))
            token->kind = JUNK;
        if (from > quote)
            quote = memchr(from, '"', (size_t)(end - from));
    }
    if (!quote)
        token->kind = JUNK;
    token->part = (struct part){lexer->at, quote ? quote : end};
    lexer->at = quote ? quote + 1 : end;
}

static enum kind keyword_of(struct part word, bool is_previous) {
    if (is(word, "msgid"))
        return MSGID;
    if (is(word, "msgid_plural"))
        return MSGID_PLURAL;
    if (is(word, "msgctxt"))
        return MSGCTXT;
    if (is_previous)
        return JUNK;
    return is(word, "msgstr") ? MSGSTR : is(word, "domain") ? DOMAIN : JUNK;
}

static void take_word(struct lexer *lexer, struct token *token) {
    const char *from = lexer->at, *at = from;
    bool is_number = is_digit(*at);
    while (at < lexer->end && (is_number ? is_digit(*at) : is_in_word(*at)))
        at++;
    lexer->at = at > from ? at : from + 1;
    token->part = (struct part){from, lexer->at};
    token->kind = is_number ? NUMBER : keyword_of(token->part, token->previous);
    if (*from == '[' || *from == ']')
        token->kind = *from == '[' ? OPEN : CLOSE;
}

struct token next_token(struct lexer *lexer) {
    bool is_comment = false;
    skip_to_token(lexer);
    while (!is_comment && lexer->at < lexer->end && *lexer->at == '#') {
        lexer->at++;
        if (take_mark(lexer))
            skip_to_token(lexer);
        else
            is_comment = true;
    }
    struct token token = {END, {lexer->at, lexer->at}, lexer->line, lexer->obsolete, lexer->previous};
    if (is_comment) {
        take_comment(lexer, &token);
    } else if (lexer->at < lexer->end && *lexer->at == '"') {
        lexer->at++;
        take_string(lexer, &token);
    } else if (lexer->at < lexer->end) {
        take_word(lexer, &token);
    }
    return token;
}
