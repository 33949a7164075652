/* Memory for the proved part. Every block has an address of its own, so one without bytes gets as many as its alignment. */
#include "machine.h"
#include "memory.h"

#include <stdalign.h>
#include <stdlib.h>

_Static_assert(alignof(max_align_t) >= 16, "malloc aligns for every value of the proved part");

static char nothing;

static struct tried tried(void *block) { return (struct tried){block != NULL, block ? block : &nothing}; }

static size_t at_least_one(size_t len, size_t align) { return len ? len : align; }

struct tried rattle_alloc(size_t len, size_t align) { return tried(kobdzila_malloc(at_least_one(len, align))); }

struct tried rattle_realloc(void *block, size_t kept, size_t len, size_t align) {
    (void)kept; /* (realloc keeps all that fits) */
    return tried(kobdzila_realloc(block, at_least_one(len, align)));
}

void rattle_dealloc(void *block) { free(block); }
