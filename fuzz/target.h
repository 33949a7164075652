/* What the targets share. Each is a function LLVMFuzzerTestOneInput, as libFuzzer, AFL++ and replay.c call it: it takes
 * any bytes, and aborts if something is wrong that a sanitizer doesn't see. */
#ifndef TARGET_H
#define TARGET_H

#ifndef _GNU_SOURCE
#define _GNU_SOURCE
#endif

#include <stdbool.h>
#include <stddef.h>
#include <stdint.h>
#include <stdio.h>
#include <stdlib.h>
#include <string.h>

int LLVMFuzzerTestOneInput(const uint8_t *data, size_t size);

/* End the run as a finding, unless `held`. */
#define REQUIRE(held)                                                                                                  \
    do {                                                                                                               \
        if (!(held)) {                                                                                                 \
            fprintf(stderr, "%s:%d: this doesn't hold: %s\n", __FILE__, __LINE__, #held);                              \
            abort();                                                                                                   \
        }                                                                                                              \
    } while (0)

/* What of an input isn't used yet. */
struct rest {
    const uint8_t *at, *end;
};

/* Take the next byte, or 0 at the end. */
static inline unsigned take_byte(struct rest *rest) { return rest->at < rest->end ? *rest->at++ : 0; }

/* Take the bytes up to the next `stop`, which is skipped, or all that are left. The result is a copy with a NUL. */
static inline char *take_until(struct rest *rest, int stop, size_t *len) {
    size_t left = (size_t)(rest->end - rest->at);
    const uint8_t *found = left ? memchr(rest->at, stop, left) : NULL;
    *len = found ? (size_t)(found - rest->at) : left;
    char *copy = malloc(*len + 1);
    REQUIRE(copy);
    if (*len)
        memcpy(copy, rest->at, *len);
    copy[*len] = '\0';
    rest->at += *len + (found ? 1 : 0);
    return copy;
}

#endif
