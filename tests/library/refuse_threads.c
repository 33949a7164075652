/* Refuses a program threads. It is for a program that is linked with the GNU C library.

     gcc -shared -fPIC -O2 -o refuse_threads.so refuse_threads.c
     REFUSE_FROM=2 REFUSED=/tmp/refused LD_PRELOAD=$PWD/refuse_threads.so PROGRAM WORD..

   The calls of pthread_create are counted from 1. The one with the number REFUSE_FROM and all later ones are answered
   with EAGAIN, as by a system that has no room for a thread. At the first refusal the file REFUSED is made, so it
   shows whether the run asked for that many threads. */
#define _GNU_SOURCE
#include <dlfcn.h>
#include <errno.h>
#include <fcntl.h>
#include <pthread.h>
#include <stdlib.h>
#include <unistd.h>

typedef int create_thread(pthread_t *thread, const pthread_attr_t *attributes, void *(*start)(void *), void *argument);

static unsigned long count;

/* Says whether this thread is refused. */
static int is_refused(void) {
  const char *first = getenv("REFUSE_FROM");
  unsigned long number = __atomic_add_fetch(&count, 1, __ATOMIC_RELAXED);
  if (first == NULL || number < strtoul(first, NULL, 10))
    return 0;
  const char *file = getenv("REFUSED");
  int made = file ? open(file, O_WRONLY | O_CREAT, 0644) : -1;
  if (made >= 0)
    close(made);
  return 1;
}

int pthread_create(pthread_t *thread, const pthread_attr_t *attributes, void *(*start)(void *), void *argument) {
  if (is_refused())
    return EAGAIN;
  create_thread *real = (create_thread *)dlsym(RTLD_NEXT, "pthread_create");
  return real ? real(thread, attributes, start, argument) : EAGAIN;
}
