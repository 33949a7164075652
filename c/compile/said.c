/* What msgfmt says of a catalogue, for the programs that compile one by libkobdzila. */
#include "said.h"
#include "or_gnu_text.h"

#include <stdbool.h>
#include <stdio.h>
#include <string.h>

#pragma weak kob_find
#pragma weak kob_entry_at
#pragma weak kob_form_at
#pragma weak kob_statistics

kob_counts statistics_of(const kob_catalogue *catalogue) {
    kob_counts counts;
    kob_statistics(catalogue, &counts);
    return counts;
}

const char *const fields[FIELD_COUNT] = {"Project-Id-Version", "PO-Revision-Date", "Last-Translator", "Language-Team",
                                         "MIME-Version", "Content-Type", "Content-Transfer-Encoding", "Language"};

static bool has_field(const char *header, const char *field) {
    size_t len = strlen(field);
    for (const char *line = header; line; line = strchr(line, '\n'), line = line ? line + 1 : NULL)
        if (!strncmp(line, field, len) && line[len] == ':')
            return true;
    return false;
}

unsigned missing_fields(const kob_catalogue *catalogue) {
    kob_text header = kob_find(catalogue, (kob_text){NULL, 0}, (kob_text){"", 0}, NULL);
    unsigned missing = 0;
    for (unsigned place = 0; header.at && place < FIELD_COUNT; place++)
        missing |= has_field(header.at, fields[place]) ? 0 : 1u << place;
    return missing;
}

static bool has_macro(kob_text text) { return names_macro((struct part){text.at, text.at + text.len}); }

size_t left_macros(const kob_catalogue *catalogue) {
    size_t count = 0;
    kob_entry entry;
    for (size_t place = 0; kob_entry_at(catalogue, place, &entry); place++) {
        bool is_left = has_macro(entry.msgid);
        for (size_t form = 0; !is_left && form < entry.forms; form++)
            is_left = has_macro(kob_form_at(catalogue, place, form));
        count += is_left;
    }
    return count;
}

/* Append `, 2 fuzzy translations` and the like, if the count isn't 0. */
static char *append(char *to, size_t count, const char *one, const char *many) {
    return count ? to + sprintf(to, ", %zu %s", count, count == 1 ? one : many) : to;
}

void write_counts(char line[COUNTS_SIZE], kob_counts counts) {
    char *to = line + sprintf(line, "%zu translated message%s", counts.translated, counts.translated == 1 ? "" : "s");
    to = append(to, counts.fuzzy, "fuzzy translation", "fuzzy translations");
    to = append(to, counts.untranslated, "untranslated message", "untranslated messages");
    strcpy(to, ".");
}
