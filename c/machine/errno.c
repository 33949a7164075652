/* The calling thread's errno, which is a macro in C. */
#include "machine.h"

#include <errno.h>

int rattle_errno(void) { return errno; }

void rattle_set_errno(int cause) { errno = cause; }
