/* Whether the plural rule of a header can be read (GNU gettext manual, "Plural forms"). GNU msgfmt -c refuses one that
 * can't be, Kobdzila's only if there is a plural message. */
#include "or_gnu_text.h"

#include <string.h>

enum { MOST_EXPRESSION = 1000, MOST_DIGITS = 19 }; /* bytes of an expression, and digits of a number below 2^64 */

/* Take an operator between two operands; the `?` and `:` of a choice are taken elsewhere. */
static const char *behind_operator(const char *at) {
    static const char *const operators[] = {"||", "&&", "==", "!=", "<=", ">=", "<", ">", "+", "-", "*", "/", "%"};
    for (size_t place = 0; place < sizeof operators / sizeof *operators; place++)
        if (!strncmp(at, operators[place], strlen(operators[place])))
            return at + strlen(operators[place]);
    return NULL;
}

/* Take `n` or a number. */
static const char *behind_operand(const char *at) {
    size_t digits = strspn(at, "0123456789");
    return *at == 'n' ? at + 1 : digits && digits <= MOST_DIGITS ? at + digits : NULL;
}

/* What is open, from the outside in: `(`, or the `?` of a choice whose `:` is still to come. */
struct open {
    char marks[MOST_EXPRESSION];
    size_t count;
};

/* Take what may follow an operand: an operator, `?` or `:`, after which an operand follows, or `)`. */
static const char *behind_follower(struct open *open, const char *at, bool *wants_operand) {
    char last = open->count ? open->marks[open->count - 1] : '\0';
    *wants_operand = *at != ')';
    if (*at == '?')
        open->marks[open->count++] = '?';
    else if ((*at == ':' && last == '?') || (*at == ')' && last == '('))
        open->count--;
    else
        return behind_operator(at);
    return at + 1;
}

/* Whether a text is an expression. Whatever binds more tightly, an operand may stand where an operand is wanted. */
static bool is_expression(const char *at) {
    struct open open = {.count = 0};
    bool wants_operand = true;
    while (at && *(at += strspn(at, " \t"))) {
        if (!wants_operand) {
            at = behind_follower(&open, at, &wants_operand);
        } else if (*at == '(' || *at == '!') {
            if (*at++ == '(')
                open.marks[open.count++] = '(';
        } else {
            at = behind_operand(at);
            wants_operand = false;
        }
    }
    return at && !wants_operand && open.count == 0;
}

/* Whether `plural=` is followed by an expression. */
static bool has_expression(struct spelled rest) {
    char text[MOST_EXPRESSION + 1];
    size_t len = 0;
    for (int byte; (byte = next_byte(&rest)) > 0 && byte != ';' && byte != '\n'; text[len++] = (char)byte)
        if (len == MOST_EXPRESSION)
            return false;
    text[len] = '\0';
    return is_expression(text);
}

bool has_broken_rule(struct part header) {
    struct spelled count = spelled(header), expression = spelled(header);
    if (!skip_behind(&count, "nplurals=") || !skip_behind(&expression, "plural="))
        return false;
    int byte;
    do
        byte = next_byte(&count);
    while (byte == ' ' || byte == '\t');
    return byte < '0' || byte > '9' || !has_expression(expression);
}
