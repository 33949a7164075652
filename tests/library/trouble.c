/* Troubles a program that is linked with the GNU C library at one call on a file.

     gcc -shared -fPIC -O2 -o trouble.so trouble.c
     TROUBLE=close FILE_HAS=.msgfmt- LD_PRELOAD=$PWD/trouble.so PROGRAM WORD..
     TROUBLE=rename SIGNAL=9 FILE_HAS=.msgfmt- LD_PRELOAD=$PWD/trouble.so PROGRAM WORD..

   TROUBLE names the call: flock, write, fchown, fchmod, fsync, close or rename (then of the old name). It is troubled
   where the file's path has FILE_HAS in it and the file is open for writing: the program gets the signal SIGNAL in front
   of the call, or, where there is none, the call fails and says that the quota is full. (A file is closed all the same.)

   Where NETWORK is set, each file says that it stands on a file system without a device, as a network's does. */
#define _GNU_SOURCE
#include <dlfcn.h>
#include <errno.h>
#include <fcntl.h>
#include <limits.h>
#include <signal.h>
#include <stdio.h>
#include <stdlib.h>
#include <string.h>
#include <sys/stat.h>
#include <sys/types.h>
#include <unistd.h>

/* Says whether this call is the one, on this file, and sends the signal if there is one. */
static int is_troubled(const char *call, const char *path) {
  const char *wanted = getenv("TROUBLE"), *part = getenv("FILE_HAS"), *number = getenv("SIGNAL");
  if (wanted == NULL || part == NULL || strcmp(wanted, call) != 0 || strstr(path, part) == NULL)
    return 0;
  if (number != NULL)
    raise(atoi(number));
  errno = EDQUOT;
  return 1;
}

static int is_troubled_at(const char *call, int fd) {
  char link[64], path[PATH_MAX];
  int flags = fcntl(fd, F_GETFL);
  if (flags < 0 || (flags & O_ACCMODE) == O_RDONLY)
    return 0;
  snprintf(link, sizeof link, "/proc/self/fd/%d", fd);
  ssize_t length = readlink(link, path, sizeof path - 1);
  if (length < 0)
    return 0;
  path[length] = 0;
  return is_troubled(call, path);
}

#define NEXT(name, ...) ((int (*)(__VA_ARGS__))dlsym(RTLD_NEXT, name))

int flock(int fd, int how) { return is_troubled_at("flock", fd) ? -1 : NEXT("flock", int, int)(fd, how); }

ssize_t write(int fd, const void *bytes, size_t count) {
  if (is_troubled_at("write", fd))
    return -1;
  return ((ssize_t (*)(int, const void *, size_t))dlsym(RTLD_NEXT, "write"))(fd, bytes, count);
}

int fchown(int fd, uid_t owner, gid_t group) {
  return is_troubled_at("fchown", fd) ? -1 : NEXT("fchown", int, uid_t, gid_t)(fd, owner, group);
}

int fchmod(int fd, mode_t mode) {
  return is_troubled_at("fchmod", fd) ? -1 : NEXT("fchmod", int, mode_t)(fd, mode);
}

int fsync(int fd) { return is_troubled_at("fsync", fd) ? -1 : NEXT("fsync", int)(fd); }

int statx(int folder, const char *path, int flags, unsigned mask, struct statx *found) {
  int status = NEXT("statx", int, const char *, int, unsigned, struct statx *)(folder, path, flags, mask, found);
  if (status == 0 && getenv("NETWORK") != NULL) {
    found->stx_dev_major = 0;
    found->stx_dev_minor = 4000;
  }
  return status;
}

int close(int fd) {
  int troubled = is_troubled_at("close", fd);
  int status = NEXT("close", int)(fd);
  if (!troubled)
    return status;
  errno = EDQUOT;
  return -1;
}

int rename(const char *from, const char *to) {
  return is_troubled("rename", from) ? -1 : NEXT("rename", const char *, const char *)(from, to);
}
