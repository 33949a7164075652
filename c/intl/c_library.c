/* The C library's own functions, looked up once. */
#define _GNU_SOURCE
#include "intl.h"

#include <dlfcn.h>
#include <pthread.h>

static struct c_library found;
static pthread_once_t once = PTHREAD_ONCE_INIT;

static void find(void) {
    *(void **)&found.textdomain = dlsym(RTLD_NEXT, "textdomain");
    *(void **)&found.bindtextdomain = dlsym(RTLD_NEXT, "bindtextdomain");
    *(void **)&found.bind_textdomain_codeset = dlsym(RTLD_NEXT, "bind_textdomain_codeset");
    *(void **)&found.setlocale = dlsym(RTLD_NEXT, "setlocale");
}

const struct c_library *c_library(void) {
    pthread_once(&once, find);
    return &found;
}

/* Before there are threads, if possible: a child forked while another thread looks them up would wait forever. */
__attribute__((constructor)) static void find_early(void) { c_library(); }
