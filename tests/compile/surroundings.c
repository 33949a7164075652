/* Loaded into kob-compile by LD_PRELOAD: what it meets in other places than this machine. */
#define _GNU_SOURCE
#include <dirent.h>
#include <dlfcn.h>
#include <errno.h>
#include <fcntl.h>
#include <signal.h>
#include <stdlib.h>
#include <sys/stat.h>
#include <sys/syscall.h>
#include <unistd.h>

/* With SQUASHED, new files belong to another user, who alone may give them a mode: NFS that squashes root. */
uid_t geteuid(void) { return getuid() + (getenv("SQUASHED") ? 1 : 0); }

int fchmod(int file, mode_t mode) {
    if (!getenv("SQUASHED"))
        return (int)syscall(SYS_fchmod, file, mode);
    errno = EPERM;
    return -1;
}

/* With STOPPED, SIGTERM comes while the first folder is read; each folder is a dot on standard error. */
DIR *fdopendir(int folder) {
    static DIR *(*next)(int);
    if (!next)
        *(void **)&next = dlsym(RTLD_NEXT, "fdopendir");
    if (getenv("STOPPED")) {
        static int count;
        if (write(STDERR_FILENO, ".", 1) == 1 && count++ == 0)
            raise(SIGTERM);
    }
    return next(folder);
}

/* With BROKEN, the disk fails behind the first entry of a folder that isn't a dot. */
struct dirent *readdir(DIR *folder) {
    static struct dirent *(*next)(DIR *);
    static int count;
    if (!next)
        *(void **)&next = dlsym(RTLD_NEXT, "readdir");
    if (getenv("BROKEN") && count) {
        errno = EIO;
        return NULL;
    }
    struct dirent *entry = next(folder);
    count += entry && entry->d_name[0] != '.';
    return entry;
}

/* With FULL, the disk of a file server is full, which it tells only when what was written is closed. */
int close(int file) {
    int how = fcntl(file, F_GETFL);
    if (syscall(SYS_close, file) < 0)
        return -1;
    if (!getenv("FULL") || (how & O_ACCMODE) != O_RDWR)
        return 0;
    errno = EDQUOT;
    return -1;
}
