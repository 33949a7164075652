/* Plural rules compiled from C, which bench/plural/run compares with those of po_header. Prints for each the sum of its
 * forms and the picoseconds of a number; `bench headers` prints the headers that have the rules. */
#include <stdint.h>
#include <stdio.h>
#include <string.h>
#include <time.h>

typedef uint64_t (*rule_fn)(uint64_t);

struct rule {
    const char *text;
    uint64_t nplurals;
    rule_fn fn;
};

#define RULE(name, expr) \
    static __attribute__((noinline)) uint64_t name(uint64_t n) { return (uint64_t)(expr); } \
    static const char name##_text[] = #expr;
#include "rules.h"
#undef RULE

#define ENTRY(name, nplurals) { name##_text, nplurals, name }
static const struct rule rules[] = {
#include "table.h"
};
#define COUNT (sizeof rules / sizeof *rules)

static double now(void) {
    struct timespec t;
    clock_gettime(CLOCK_MONOTONIC, &t);
    return t.tv_sec * 1e9 + t.tv_nsec;
}

static uint64_t compiled_sum(const struct rule *rule, uint64_t top, uint64_t rounds) {
    rule_fn volatile fn = rule->fn;
    uint64_t sum = 0;
    for (uint64_t r = 0; r < rounds; r++)
        for (uint64_t n = 0; n < top; n++) {
            uint64_t form = fn(n);
            sum += form < rule->nplurals ? form : 0;
        }
    return sum;
}

int main(int count, char **words) {
    const uint64_t top = 1001, rounds = 200;
    int tells_headers = count == 2 && strcmp(words[1], "headers") == 0;
    for (size_t i = 0; i < COUNT; i++) {
        if (tells_headers) {
            printf("Plural-Forms: nplurals=%d; plural=%s;\n", (int)rules[i].nplurals, rules[i].text);
            continue;
        }
        double start = now();
        uint64_t sum = compiled_sum(&rules[i], top, rounds);
        printf("%llu %.0f\n", (unsigned long long)sum, (now() - start) * 1000 / (top * rounds));
    }
}
