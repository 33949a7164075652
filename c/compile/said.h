/* What msgfmt says of a catalogue that it has compiled: the fields that its header lacks, and its statistics. */
#ifndef SAID_H
#define SAID_H

#include "kobdzila.h"

enum { FIELD_COUNT = 8, COUNTS_SIZE = 200 }; /* fields of a header, and bytes of a line of statistics with its NUL */

/* The fields that a header is expected to have, in the order in which msgfmt looks for them. */
extern const char *const fields[FIELD_COUNT];

/* Return the counts of a compiled PO text. */
kob_counts statistics_of(const kob_catalogue *catalogue);
/* Return a bit for each field that the catalogue's header lacks, in the order of `fields`; 0 if it has no header. */
unsigned missing_fields(const kob_catalogue *catalogue);
/* Return how many messages have a macro in their msgid or a form. That of a format that Kobdzila takes for invalid, such as
 * `%Zu %<PRIu64>`, stays there, and GNU msgfmt may know better. */
size_t left_macros(const kob_catalogue *catalogue);
/* Write the line of `msgfmt --statistics`, with its full stop and a NUL. */
void write_counts(char line[COUNTS_SIZE], kob_counts counts);

#endif
