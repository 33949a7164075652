/* Reading whole files, for kob_open_file and for the catalogues that gettext looks for. */
#ifndef FILE_BYTES_H
#define FILE_BYTES_H

#include <stddef.h>
#include <sys/stat.h>

/* Get what fstatat(2) says of a file by its name, or of an open one if the name is empty. False and errno on failure.
 * With glibc's headers that function needs its 2.33 at run time. A filter of system calls may be older than statx, as
 * that of an old Docker is. */
int file_status(int file, const char *name, struct stat *status);

enum kinds_of_files { REGULAR_FILES, ALL_FILES };

/* Read the file `name` into a block from malloc, which the caller frees. A regular file is read up to the size that it
 * has when it is opened; any other file, such as a FIFO or a device, to its end. A file of more than `most` bytes isn't
 * read to its end: *len is then `most + 1`, and the contents of the block are meaningless.
 *
 * Return NULL if the file can't be opened or read, or memory runs out; errno says why. It is EINVAL if only regular
 * files are wanted and this is another kind. No call waits for a FIFO's writer: a FIFO without one counts as empty. */
unsigned char *file_bytes(const char *name, enum kinds_of_files kinds, size_t most, size_t *len);

/* Read an open file likewise, from its position on. */
unsigned char *opened_bytes(int file, enum kinds_of_files kinds, size_t most, size_t *len);

/* A file that is open for reading: its descriptor, -1 if it couldn't be opened, and whether the thread could be
 * cancelled before. It can't be while it reads, since it would leave the descriptor and a block behind. */
struct open_file {
    int number, cancelled_how;
};

/* Begin to read the file `name`; errno says why that isn't possible. */
struct open_file begin_reading(const char *name);

/* Close the file, and keep errno. */
void end_reading(struct open_file file);

/* Is the open file a regular one, which can be read once more? */
int is_regular(int file);

/* Where the bytes of a file go, piece by piece: `begin` is told once how many there are, or 0 where the file doesn't
 * say so. */
struct taker {
    void (*begin)(void *to, size_t len);
    void (*add)(void *to, const unsigned char *piece, size_t len);
    void *to;
};

/* Give the bytes of an open file, of any kind, to a taker. Return false and errno where opened_bytes would return NULL:
 * what was begun then isn't whole. */
int opened_pieces(int file, size_t most, size_t *len, struct taker taker);

#endif
