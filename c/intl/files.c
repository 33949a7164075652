/* Catalogues by file name. A file is opened once, and again if it has changed when a folder was bound to its text
 * domain. Catalogues are kept for as long as the program runs, since it may keep any string that it was given. */
#define _GNU_SOURCE
#include "intl.h"

#include "file_bytes.h"

#include <errno.h>
#include <fcntl.h>
#include <stdlib.h>

static struct named *files;

struct file *file_of(const char *name) {
    return (struct file *)find_or_add_named(&files, name, sizeof(struct file));
}

/* Make it the file's catalogue. */
static void take(struct file *f, struct catalogue *catalogue) {
    catalogue->earlier = f->catalogue;
    f->catalogue = catalogue;
    f->is_shown = 0;
}

int may_pass(int cause) { return cause == ENOMEM || cause == EMFILE || cause == ENFILE; }

static struct stamp stamp_of(const char *name) {
    struct stat s;
    if (!file_status(AT_FDCWD, name, &s))
        return (struct stamp){ 0 };
    return (struct stamp){ s.st_dev, s.st_ino, (uint64_t)s.st_size, s.st_mtim, s.st_ctim };
}

static int is_same_time(struct timespec a, struct timespec b) { return a.tv_sec == b.tv_sec && a.tv_nsec == b.tv_nsec; }

static int is_same(struct stamp a, struct stamp b) {
    return a.device == b.device && a.inode == b.inode && a.size == b.size && is_same_time(a.written, b.written) &&
           is_same_time(a.changed, b.changed);
}

/* Open the file. UNREAD if that can be done at another time. */
static enum standing standing_now(struct file *f) {
    size_t len;
    struct catalogue *catalogue;
    enum standing standing = MISSING;
    unsigned char *bytes = file_bytes(f->named.name, REGULAR_FILES, MOST_MO, &len);
    if (bytes)
        standing = opened(bytes, len, &catalogue);
    else if (may_pass(errno))
        standing = UNREAD;
    free(bytes);
    if (standing == TAKEN)
        take(f, catalogue);
    return standing;
}

int is_known(const struct file *f, unsigned long bindings) {
    return f->standing != UNREAD && f->bindings == bindings;
}

enum standing standing_of(struct file *f, unsigned long bindings) {
    if (is_known(f, bindings))
        return f->standing;
    struct stamp stamp = stamp_of(f->named.name);
    if (f->standing == UNREAD || !is_same(stamp, f->stamp)) {
        enum standing now = standing_now(f);
        if (now == UNREAD)
            return f->standing; /* what it was stays until the file can be opened */
        f->standing = now;
        f->stamp = stamp;
    }
    f->bindings = bindings;
    return f->standing;
}
