/* What the proved part asks of C, on any machine: memory, the words of the command line, and errno. Its toolchain has
 * these functions as compiled archives, and for x86-64 alone. What each must do is the toolchain's to say, in
 * rattle/libc/src/heap.rt and rattle/os/src/c.rt of its folder; the proofs assume that it does. */
#ifndef MACHINE_H
#define MACHINE_H

#include <stdbool.h>
#include <stddef.h>
#include <sys/types.h>

/* Whether there was memory, and the block. If there was none, `block` is an address all the same, and nothing may be read
 * or written there. */
struct tried {
    bool ok;
    void *block;
};

/* Get a block of `len` bytes for values of an alignment that divides 16. */
struct tried rattle_alloc(size_t len, size_t align);

/* Make a block one of `len` bytes, of which the first `kept` stay as they were. It may move. Without memory it stays as it
 * was. */
struct tried rattle_realloc(void *block, size_t kept, size_t len, size_t align);

/* Free what either of them answered. */
void rattle_dealloc(void *block);

/* How many words the command line has, with the program's own name. */
size_t rattle_arg_count(void);

/* Copy the word at `place`, without its NUL, and return its length: -1 if there is none, -2 if it is longer than `room`,
 * of which every byte is filled then. */
ssize_t rattle_arg(size_t place, unsigned char *to, size_t room);

/* Return or set the calling thread's errno. */
int rattle_errno(void);
void rattle_set_errno(int cause);

#endif
