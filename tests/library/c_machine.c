/* Calls each function of c/machine as the toolchain's contracts allow (rattle/libc/src/heap.rt and rattle/os/src/c.rt of its
 * folder), and compares what they answer. It says nothing if all is right. tests/library/c_machine.sh links it with the
 * toolchain's own functions as well.
 *
 *   c_machine memory         blocks of all sizes, also when there is no memory (it is linked with --wrap=malloc,realloc)
 *   c_machine words a '' é   the words of the command line, which are these
 *   c_machine cause          errno, in two threads
 */
#include "machine.h"

#include <errno.h>
#include <pthread.h>
#include <stdint.h>
#include <stdio.h>
#include <string.h>

static int wrong;

static void expect(bool holds, const char *what, size_t number) {
    if (!holds) {
        printf("%s (%zu)\n", what, number);
        wrong = 1;
    }
}

/* --- memory */

static bool is_refused;

void *__real_malloc(size_t len);
void *__real_realloc(void *block, size_t len);
void *__wrap_malloc(size_t len);
void *__wrap_realloc(void *block, size_t len);

void *__wrap_malloc(size_t len) { return is_refused ? NULL : __real_malloc(len); }
void *__wrap_realloc(void *block, size_t len) { return is_refused ? NULL : __real_realloc(block, len); }

static unsigned char byte_at(size_t place) { return (unsigned char)(place * 7 + place / 256); }

static void fill(unsigned char *block, size_t len) {
    for (size_t i = 0; i < len; i++)
        block[i] = byte_at(i);
}

static bool is_filled(const unsigned char *block, size_t len) {
    for (size_t i = 0; i < len; i++)
        if (block[i] != byte_at(i))
            return false;
    return true;
}

/* A block that grows, shrinks, is refused, and ends with no byte. */
static void resize(size_t len, size_t align) {
    struct tried it = rattle_alloc(len, align), more, less, none;
    expect(it.ok && it.block && (uintptr_t)it.block % align == 0, "a block isn't aligned", len);
    fill(it.block, len);
    is_refused = true;
    more = rattle_realloc(it.block, len, 4 * len + align, align);
    is_refused = false;
    expect(!more.ok && more.block && more.block != it.block, "a refused block isn't told", len);
    expect(is_filled(it.block, len), "a refused change changed the block", len);
    more = rattle_realloc(it.block, len, 4 * len + align, align);
    expect(more.ok && (uintptr_t)more.block % align == 0 && is_filled(more.block, len), "a larger block lost bytes", len);
    fill(more.block, 4 * len + align);
    less = rattle_realloc(more.block, len / 2, len / 2, align);
    expect(less.ok && is_filled(less.block, len / 2), "a smaller block lost bytes", len);
    none = rattle_realloc(less.block, 0, 0, align);
    expect(none.ok && none.block, "a block without bytes is none", len);
    rattle_dealloc(none.block);
}

static void memory(void) {
    struct tried one = rattle_alloc(0, 1), other = rattle_alloc(0, 16), refused;
    expect(one.ok && other.ok && one.block != other.block, "two blocks without bytes are one", 0);
    rattle_dealloc(one.block);
    rattle_dealloc(other.block);
    is_refused = true;
    refused = rattle_alloc(8, 8);
    is_refused = false;
    expect(!refused.ok && refused.block, "a refused block isn't told", 8);
    for (size_t align = 1; align <= 16; align *= 2)
        for (size_t len = align; len < ((size_t)3 << 20); len = len * 3 / align * align + align)
            resize(len, align);
}

/* --- the words of the command line */

static void words(int count, char **given) {
    expect(rattle_arg_count() == (size_t)count, "the number of words", (size_t)count);
    for (size_t i = 0; i < (size_t)count; i++) {
        size_t len = strlen(given[i]);
        for (size_t room = 0; room < len + 3; room++) {
            unsigned char to[4096];
            memset(to, '#', sizeof to);
            ssize_t got = rattle_arg(i, to, room);
            size_t copied = room < len ? room : len;
            expect(got == (room < len ? -2 : (ssize_t)len), "a word's length", i);
            expect(memcmp(to, given[i], copied) == 0 && to[copied] == '#', "a word's bytes", i);
        }
    }
    unsigned char none = '#';
    expect(rattle_arg((size_t)count, &none, 1) == -1 && none == '#', "a word after the last", (size_t)count);
    expect(rattle_arg(SIZE_MAX, &none, 1) == -1, "a word far after the last", (size_t)count);
}

/* --- errno */

static void *in_thread(void *nothing) {
    expect(rattle_errno() != EINTR, "another thread's errno", EINTR);
    rattle_set_errno(ENOSPC);
    expect(errno == ENOSPC, "errno isn't set in a thread", ENOSPC);
    return nothing;
}

static void cause(void) {
    pthread_t thread;
    rattle_set_errno(EINTR);
    expect(errno == EINTR, "errno isn't set", EINTR);
    expect(pthread_create(&thread, NULL, in_thread, NULL) == 0 && pthread_join(thread, NULL) == 0, "a thread", 0);
    expect(rattle_errno() == EINTR, "errno isn't kept", EINTR);
    errno = EAGAIN;
    expect(rattle_errno() == EAGAIN, "errno isn't returned", EAGAIN);
}

int main(int count, char **given) {
    if (count > 1 && strcmp(given[1], "memory") == 0)
        memory();
    else if (count > 1 && strcmp(given[1], "words") == 0)
        words(count, given);
    else if (count > 1 && strcmp(given[1], "cause") == 0)
        cause();
    else
        expect(false, "usage: c_machine memory | words WORD .. | cause", 0);
    return wrong;
}
