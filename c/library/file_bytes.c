#ifndef _GNU_SOURCE
#define _GNU_SOURCE
#endif
#include "file_bytes.h"

#include "held.h"

#include <errno.h>
#include <fcntl.h>
#include <pthread.h>
#include <sys/syscall.h>
#include <unistd.h>

#define FIRST_ROOM 65536
#define PIECE 16384

int file_status(int file, const char *name, struct stat *status) {
    return !syscall(SYS_newfstatat, file, name, status, AT_EMPTY_PATH);
}

/* Look at a file by its name, or at an open one without a name: its mode and its size. False and errno on failure. */
static int look_at(int file, const char *name, unsigned *mode, unsigned long long *size) {
    struct stat status;
    if (!file_status(file, name, &status))
        return 0;
    *mode = status.st_mode;
    *size = (unsigned long long)status.st_size;
    return 1;
}

static int look_at_open(int file, unsigned *mode, unsigned long long *size) { return look_at(file, "", mode, size); }

/* Whether a file couldn't be opened since another program has a lease on it (fcntl(2)), as a file server may, which gives
 * it back to somebody who waits. */
static int is_leased(const char *name) {
    unsigned mode;
    unsigned long long size;
    return errno == EWOULDBLOCK && look_at(AT_FDCWD, name, &mode, &size) && S_ISREG(mode);
}

/* Open a file for reading, with O_CLOEXEC; -1 and errno on failure. Opening doesn't wait for a FIFO's writer, but reads
 * from the descriptor do wait. */
static int open_to_read(const char *name) {
    int file, how = O_RDONLY | O_CLOEXEC | O_NOCTTY | O_NONBLOCK;
    while ((file = open(name, how)) < 0)
        if (how & O_NONBLOCK && is_leased(name))
            how &= ~O_NONBLOCK;
        else if (errno != EINTR)
            return -1;
    fcntl(file, F_SETFL, fcntl(file, F_GETFL) & ~O_NONBLOCK);
    return file;
}

/* Read until there are `room` bytes or the file ends. False if it can't be read. */
static int fill(int file, unsigned char *bytes, size_t room, size_t *len) {
    while (*len < room) {
        ssize_t more = read(file, bytes + *len, room - *len);
        if (more == 0)
            break;
        if (more > 0)
            *len += (size_t)more;
        else if (errno != EINTR)
            return 0;
    }
    return 1;
}

/* Read a file of unknown size into a block that starts with `room` bytes and doubles, until the file ends or more than
 * `most` bytes are read. */
static unsigned char *read_all(int file, size_t room, size_t most, size_t *len) {
    unsigned char *bytes = malloc(room);
    *len = 0;
    while (bytes && fill(file, bytes, room, len)) {
        if (*len < room || *len > most)
            return bytes;
        room = room > most / 2 ? most + 1 : 2 * room;
        unsigned char *more = realloc(bytes, room);
        if (!more)
            break;
        bytes = more;
    }
    free_quietly(bytes);
    return NULL;
}

unsigned char *opened_bytes(int file, enum kinds_of_files kinds, size_t most, size_t *len) {
    unsigned mode;
    unsigned long long size;
    if (!look_at_open(file, &mode, &size))
        return NULL;
    if (!S_ISREG(mode)) {
        if (kinds == ALL_FILES)
            return read_all(file, FIRST_ROOM, most, len);
        errno = EINVAL;
        return NULL;
    }
    if (size > most) {
        *len = most + 1;
        return malloc(1);
    }
    /* files in /proc report size 0 */
    if (size == 0)
        return read_all(file, FIRST_ROOM, most, len);
    unsigned char *bytes = malloc((size_t)size);
    *len = 0;
    if (bytes && fill(file, bytes, (size_t)size, len))
        return bytes;
    free_quietly(bytes);
    return NULL;
}

/* Give at most `most` bytes of an open file to a taker. False if it can't be read. */
static int give_pieces(int file, size_t most, size_t *len, struct taker taker) {
    unsigned char piece[PIECE];
    *len = 0;
    for (;;) {
        size_t wanted = most - *len < PIECE ? most - *len : PIECE, got = 0;
        if (!fill(file, piece, wanted, &got))
            return 0;
        taker.add(taker.to, piece, got);
        *len += got;
        if (got < wanted || *len == most)
            return 1;
    }
}

int opened_pieces(int file, size_t most, size_t *len, struct taker taker) {
    unsigned mode;
    unsigned long long size;
    if (!look_at_open(file, &mode, &size))
        return 0;
    /* files in /proc report size 0 */
    int has_size = S_ISREG(mode) && size > 0;
    if (has_size && size > most) {
        *len = most + 1;
        return 1;
    }
    taker.begin(taker.to, has_size ? (size_t)size : 0);
    return give_pieces(file, has_size ? (size_t)size : most + 1, len, taker);
}

int is_regular(int file) {
    unsigned mode;
    unsigned long long size;
    return look_at_open(file, &mode, &size) && S_ISREG(mode);
}

struct open_file begin_reading(const char *name) {
    struct open_file file;
    pthread_setcancelstate(PTHREAD_CANCEL_DISABLE, &file.cancelled_how);
    file.number = open_to_read(name);
    return file;
}

void end_reading(struct open_file file) {
    int cause = errno;
    if (file.number >= 0)
        close(file.number);
    pthread_setcancelstate(file.cancelled_how, NULL);
    errno = cause;
}

unsigned char *file_bytes(const char *name, enum kinds_of_files kinds, size_t most, size_t *len) {
    struct open_file file = begin_reading(name);
    unsigned char *bytes = file.number < 0 ? NULL : opened_bytes(file.number, kinds, most, len);
    end_reading(file);
    return bytes;
}
