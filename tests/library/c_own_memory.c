/* A program that brings its own malloc, calloc, realloc and free, and no more, as programs do that are linked with an
 * allocator of their own. It opens the MO file of its first word by libkobdzila; each block that is freed must be one
 * of its own. Run by tests/library/c_trouble.sh. */
#define _DEFAULT_SOURCE
#include "kobdzila.h"

#include <errno.h>
#include <stdint.h>
#include <stdio.h>
#include <string.h>
#include <sys/mman.h>
#include <unistd.h>

#define MARK 0x6b6f62647a696c61u

/* What lies before each block. */
struct head {
    uint64_t mark, len;
};

static unsigned char *arena, *next;
static const size_t whole = (size_t)1 << 30;

static void stop(const char *why) {
    if (write(2, why, strlen(why)) < 0)
        _exit(4);
    _exit(3);
}

void *malloc(size_t len) {
    if (!arena)
        next = arena = mmap(NULL, whole, PROT_READ | PROT_WRITE, MAP_PRIVATE | MAP_ANONYMOUS | MAP_NORESERVE, -1, 0);
    if (arena == MAP_FAILED || len > whole - (size_t)(next - arena) - 64) {
        errno = ENOMEM;
        return NULL;
    }
    struct head *head = (struct head *)(void *)next;
    *head = (struct head){ MARK, len };
    next += (sizeof *head + len + 15) & ~(size_t)15;
    return head + 1;
}

static struct head *head_of(void *block) {
    struct head *head = (struct head *)block - 1;
    if ((unsigned char *)block < arena || (unsigned char *)block >= next || head->mark != MARK)
        stop("a block of another allocator is freed\n");
    return head;
}

void free(void *block) {
    if (block)
        head_of(block)->mark = 0;
}

void *calloc(size_t n, size_t len) { return malloc(n * len); }

void *realloc(void *old, size_t len) {
    void *block = malloc(len);
    if (block && old) {
        size_t before = head_of(old)->len;
        memcpy(block, old, before < len ? before : len);
        free(old);
    }
    return block;
}

int main(int argc, char **argv) {
    kob_catalogue *c = argc == 2 ? kob_open_file(argv[1], KOB_MO, 0, NULL) : NULL;
    if (!c || strcmp(kob_gettext(c, "last"), "one"))
        stop("the file isn't read\n");
    kob_set *none = kob_set_new(), *set = kob_set_with(none, "app", "fr", c, NULL);
    if (!set || strcmp(kob_set_gettext(set, "app", "fr", "last"), "one"))
        stop("the set isn't made\n");
    kob_release(c);
    kob_set_release(none);
    kob_set_release(set);
    return 0;
}
