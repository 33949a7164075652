/* Refuses one request for memory of a program that is linked with the GNU C library.

     gcc -shared -fPIC -O2 -o refuse_nth.so refuse_nth.c
     REFUSE_NTH=3 REFUSED=/tmp/refused LD_PRELOAD=$PWD/refuse_nth.so PROGRAM WORD..

   The requests of malloc, calloc, realloc and the aligned ones are counted from 1, once the libraries are loaded.
   The one with the number REFUSE_NTH is answered with a null pointer and ENOMEM, all others as ever. At the refusal
   the file REFUSED is made, so it shows whether the run made that many requests. */
#include <errno.h>
#include <fcntl.h>
#include <stdlib.h>
#include <unistd.h>

extern void *__libc_malloc(size_t size);
extern void *__libc_calloc(size_t count, size_t size);
extern void *__libc_realloc(void *old, size_t size);
extern void *__libc_memalign(size_t alignment, size_t size);

static unsigned long wanted; /* 0: none, also until the libraries are loaded */
static unsigned long count;

__attribute__((constructor)) static void begin(void) {
  const char *number = getenv("REFUSE_NTH");
  wanted = number ? strtoul(number, NULL, 10) : 0;
}

/* Says whether this request is the one to be refused. */
static int is_refused(void) {
  if (wanted == 0 || __atomic_add_fetch(&count, 1, __ATOMIC_RELAXED) != wanted)
    return 0;
  const char *file = getenv("REFUSED");
  int made = file ? open(file, O_WRONLY | O_CREAT, 0644) : -1;
  if (made >= 0)
    close(made);
  errno = ENOMEM;
  return 1;
}

void *malloc(size_t size) { return is_refused() ? NULL : __libc_malloc(size); }

void *calloc(size_t items, size_t size) { return is_refused() ? NULL : __libc_calloc(items, size); }

/* (realloc to no bytes frees, and asks for nothing) */
void *realloc(void *old, size_t size) { return size != 0 && is_refused() ? NULL : __libc_realloc(old, size); }

void *reallocarray(void *old, size_t items, size_t size) {
  size_t whole;
  if (__builtin_mul_overflow(items, size, &whole)) {
    errno = ENOMEM;
    return NULL;
  }
  return realloc(old, whole);
}

void *memalign(size_t alignment, size_t size) { return is_refused() ? NULL : __libc_memalign(alignment, size); }

void *aligned_alloc(size_t alignment, size_t size) { return memalign(alignment, size); }

int posix_memalign(void **place, size_t alignment, size_t size) {
  void *made = memalign(alignment, size);
  if (made == NULL)
    return ENOMEM;
  *place = made;
  return 0;
}
