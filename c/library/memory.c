/* Memory for the proved part: malloc and realloc, which also ask the system for large pages if a block is large. In a
 * catalogue of 80,000 messages every look-up touches another page; with pages of 4 kB, the processor waits for address
 * translations as often as for the data. A large PO text is compiled in fewer page faults. */
#define _DEFAULT_SOURCE
#include "memory.h"

#include <errno.h>
#include <stdint.h>
#include <stdlib.h>
#include <sys/mman.h>
#include <unistd.h>

#define LARGE_PAGE ((size_t)2 << 20)

/* Tell the system that the pages of a block may be large. It is only a hint, so failure doesn't matter. All pages that
 * the block touches are named: malloc maps a large block by itself, and the system moves a mapping in one piece, when
 * the block grows, only if all of its pages have the same advice. */
static void *with_large_pages(void *block, size_t len) {
#ifdef MADV_HUGEPAGE
    if (block && len >= LARGE_PAGE) {
        int cause = errno;
        size_t page = (size_t)sysconf(_SC_PAGESIZE), before = (uintptr_t)block & (page - 1);
        madvise((unsigned char *)block - before, (before + len + page - 1) & -page, MADV_HUGEPAGE);
        errno = cause;
    }
#endif
    return block;
}

/* Not aligned_alloc: a program may replace malloc, realloc and free, and nothing else. */
void *kobdzila_malloc(size_t len) { return with_large_pages(malloc(len), len); }

void *kobdzila_realloc(void *block, size_t len) { return with_large_pages(realloc(block, len), len); }
