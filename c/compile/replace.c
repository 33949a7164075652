/* Writing a file in one step: under a temporary name next to it, which then takes its place. A run that fails removes the
 * temporary file; what a killed run left, the next run for the same file takes over. So runs at the same time need
 * names of their own: a temporary file is locked as long as it is written. */
#include "replace.h"
#include "or_gnu.h"

#include <errno.h>
#include <fcntl.h>
#include <stdarg.h>
#include <stdio.h>
#include <stdlib.h>
#include <string.h>
#include <sys/file.h>
#include <sys/stat.h>
#include <unistd.h>

enum { MOST_NAMES = 16, MOST_OF_NAME = 100 }; /* temporary names for one file; bytes of its name in them */

char *text_of(const char *words, ...) {
    char *text = NULL;
    va_list values;
    va_start(values, words);
    int len = vasprintf(&text, words, values);
    va_end(values);
    if (len < 0)
        stop_for_memory();
    return text;
}

/* A temporary file, and whether it was made now, and not left by a killed run. */
struct temporary {
    char *name;
    int file;
    bool is_new;
};

/* Whether a locked file is still the one of this name, and fit to be written: another run may have renamed it, and a
 * stranger may have put it there. One that is new may belong to another user, as where NFS squashes root. */
static bool is_ours(int file, const char *name, bool is_new) {
    struct stat open, named;
    return fstat(file, &open) == 0 && lstat(name, &named) == 0 && open.st_dev == named.st_dev &&
           open.st_ino == named.st_ino && S_ISREG(open.st_mode) && (is_new || open.st_uid == geteuid()) &&
           open.st_nlink == 1;
}

/* Open a new file of this name and mode, or the one that a killed run left. -1 and EEXIST if the name is taken, or
 * another errno. On a file system without locks it has to be new. */
static int claim(const char *name, mode_t mode, bool *made) {
    enum { HOW = O_RDWR | O_NOFOLLOW | O_CLOEXEC | O_NOCTTY | O_NONBLOCK };
    int file = open(name, HOW | O_CREAT | O_EXCL, mode);
    bool is_new = *made = file >= 0;
    if (!is_new && errno != EEXIST)
        return -1;
    if (!is_new && (file = open(name, HOW)) < 0) {
        errno = EEXIST;
        return -1;
    }
    bool is_locked = flock(file, LOCK_EX | LOCK_NB) == 0;
    bool is_free = is_locked || (is_new && errno != EWOULDBLOCK);
    if (is_free && is_ours(file, name, is_new) && (is_new || (fchmod(file, 0600) == 0 && ftruncate(file, 0) == 0)))
        return file;
    close(file);
    errno = EEXIST;
    return -1;
}

/* Open a temporary file next to `name`, of this mode if it is made. Returns 0 or an errno. */
static int open_temporary(struct temporary *temporary, const char *name, mode_t mode) {
    const char *slash = strrchr(name, '/'), *base = slash ? slash + 1 : name;
    for (int number = 0; number < MOST_NAMES; number++) {
        temporary->name = text_of("%.*s.%.*s.%s-%d", (int)(base - name), name, MOST_OF_NAME, base, program_name,
                                  number);
        temporary->file = claim(temporary->name, mode, &temporary->is_new);
        if (temporary->file >= 0)
            return 0;
        int cause = errno;
        free(temporary->name);
        if (cause != EEXIST)
            return cause;
    }
    return EEXIST;
}

/* Give a file this mode. One of another user keeps that with which it was made, which nobody else can read. */
static int set_mode(int file, mode_t mode) { return fchmod(file, mode) < 0 && errno != EPERM ? errno : 0; }

/* Give a file the owner, the group and the mode of the one that it replaces, as far as this process may. */
static int dress(int file, const struct stat *old) {
    mode_t mode = old->st_mode & 07777;
    struct stat now;
    if (fstat(file, &now) < 0)
        return errno;
    bool is_same = now.st_uid == old->st_uid && now.st_gid == old->st_gid;
    if (!is_same && fchown(file, old->st_uid, old->st_gid) < 0) {
        mode &= 0777;
        if (fchown(file, (uid_t)-1, old->st_gid) < 0)
            mode &= 0707 | (mode & 07) << 3; /* (the group may do what everybody may) */
    }
    return set_mode(file, mode);
}

/* Have a network file system take what was written. It may tell only at a close, of any of a file's descriptors, that a
 * disk is full. Returns 0 or an errno. */
static int hand_over(int file) {
    int again = fcntl(file, F_DUPFD_CLOEXEC, 0);
    return again >= 0 && close(again) < 0 ? errno : 0;
}

/* Write a regular or new file; `old` is NULL for a new one. That is made as any new file, so that the rules of its folder
 * apply to it (acl(5)). */
static int replace(const char *name, const char *bytes, size_t len, const struct stat *old, mode_t mode) {
    struct temporary temporary;
    int cause = open_temporary(&temporary, name, old ? 0600 : 0666);
    if (cause)
        return cause;
    if (!write_all(temporary.file, bytes, len))
        cause = errno;
    if (!cause && old)
        cause = dress(temporary.file, old);
    else if (!cause && !temporary.is_new)
        cause = set_mode(temporary.file, mode);
    if (!cause)
        cause = hand_over(temporary.file);
    if (!cause && rename(temporary.name, name) < 0)
        cause = errno;
    if (cause)
        unlink(temporary.name);
    if (close(temporary.file) < 0 && !cause)
        cause = errno;
    free(temporary.name);
    return cause;
}

/* Remove the file that a link names. */
static void remove_target(const char *name) {
    char *target = realpath(name, NULL);
    if (target)
        unlink(target);
    free(target);
}

/* Write a device or a pipe, with `more` O_CREAT the file that a dangling link names, or with O_TRUNC an existing file. */
static int write_through(const char *name, int more, const char *bytes, size_t len, mode_t mode) {
    int file = open(name, O_WRONLY | O_CLOEXEC | O_NOCTTY | more, mode);
    if (file < 0)
        return errno;
    int cause = write_all(file, bytes, len) ? 0 : errno;
    if (close(file) < 0 && !cause)
        cause = errno;
    if (cause && more == O_CREAT)
        remove_target(name);
    return cause;
}

/* Whether a link leads to a device or a pipe, such as /dev/stdout, which may have no other name. */
static bool leads_to_stream(const char *name) {
    struct stat there;
    return stat(name, &there) == 0 && !S_ISREG(there.st_mode) && !S_ISDIR(there.st_mode);
}

int write_in_one_step(const char *name, const char *bytes, size_t len, mode_t mode) {
    struct stat old;
    int open_as = descriptor_of(name); /* (a file that is open stays the one that its owner reads and writes) */
    if (open_as == STDOUT_FILENO || open_as == STDERR_FILENO)
        return write_all(open_as, bytes, len) ? 0 : errno;
    if (open_as >= 0)
        return write_through(name, O_TRUNC, bytes, len, mode);
    if (lstat(name, &old) < 0)
        return errno == ENOENT ? replace(name, bytes, len, NULL, mode) : errno;
    if (S_ISLNK(old.st_mode) && leads_to_stream(name))
        return write_through(name, 0, bytes, len, mode);
    if (S_ISLNK(old.st_mode)) {
        char *target = realpath(name, NULL);
        if (!target && errno == ENOENT)
            return write_through(name, O_CREAT, bytes, len, mode);
        int cause = target ? write_in_one_step(target, bytes, len, mode) : errno;
        free(target);
        return cause;
    }
    if (S_ISDIR(old.st_mode))
        return EISDIR;
    if (!S_ISREG(old.st_mode))
        return write_through(name, 0, bytes, len, mode);
    return replace(name, bytes, len, &old, mode);
}

/* Whether a folder refuses a temporary file or its renaming: no permission, a read-only file system, a mount point, another
 * device, a name that is too long. */
static bool is_refused(int cause) {
    return cause == EACCES || cause == EPERM || cause == EROFS || cause == EBUSY || cause == EXDEV || cause == ENAMETOOLONG;
}

int write_where_allowed(const char *name, const char *bytes, size_t len, mode_t mode) {
    int cause = write_in_one_step(name, bytes, len, mode);
    if (!is_refused(cause) || access(name, W_OK) < 0)
        return cause;
    return write_through(name, O_TRUNC, bytes, len, mode);
}

int make_folders(const char *name) {
    char *path = text_of("%s", name), *last = strrchr(path, '/');
    int cause = 0;
    if (last)
        *last = '\0';
    if (last && *path && access(path, F_OK) < 0)
        for (char *at = path + 1; at && !cause;) {
            at = strchrnul(at, '/');
            char byte = *at;
            *at = '\0';
            if (mkdir(path, 0777) < 0 && errno != EEXIST)
                cause = errno;
            *at = byte;
            at = byte ? at + 1 : NULL;
        }
    free(path);
    return cause;
}
