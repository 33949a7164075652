/* MO files whose keys are out of order. */
#ifndef SORTED_H
#define SORTED_H

#include <stddef.h>

#include <kobdzila.h>

/* Return a copy of an MO file of `len` bytes whose tables are in ascending order of the keys, with the last entry of
 * each key, or NULL if memory runs out or the file isn't whole. The caller frees it. */
unsigned char *sorted_mo(const unsigned char *file, size_t len);

/* Open an MO file as kob_open_mo does, whatever the order of its keys is. */
kob_catalogue *open_mo(const void *file, size_t len, kob_refusal *why);

/* Open the MO file `name` as kob_open_file does, whatever the order of its keys is. A file that isn't regular can be
 * read once only: there KOB_MO_ORDER is a refusal. */
kob_catalogue *open_mo_file(const char *name, kob_refusal *why);

#endif
