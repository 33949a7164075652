/* Writing files in one step, for the programs that write what libkobdzila makes. */
#ifndef REPLACE_H
#define REPLACE_H

#include <stddef.h>
#include <sys/types.h>

/* End the run, with the program's own message and status. */
_Noreturn void stop_for_memory(void);
/* Return `words` formatted; it ends the run if memory runs out. */
char *text_of(const char *words, ...) __attribute__((format(printf, 1, 2)));

/* Write a file in one step: a reader has the whole old file or the whole new one. Returns 0, or the errno of why it
 * can't be written, which leaves the old file as it was. */
int write_in_one_step(const char *name, const char *bytes, size_t len, mode_t mode);
/* Write a file as `write_in_one_step` does, but an existing file directly if its folder refuses a temporary file, or to
 * rename it. So msgfmt writes, and GNU's programs write so always. */
int write_where_allowed(const char *name, const char *bytes, size_t len, mode_t mode);
/* Make the folders that lead to a file. Returns 0 or an errno. */
int make_folders(const char *name);

#endif
