/* Converts a PO text to UTF-8 by libkobdzila, as GNU msgfmt does since 0.22, so that Kobdzila's msgfmt can compile it. */
#include "kobdzila.h"
#include "or_gnu.h"
#include "or_gnu_formats.h"
#include "or_gnu_text.h"

#include <stdlib.h>
#include <string.h>
#include <strings.h>

#pragma weak kob_recode_po
#pragma weak kob_po_text
#pragma weak kob_po_free

/* Charsets that GNU msgfmt calls portable, but for ASCII and UTF-8; of another name it warns. Those that libkobdzila
 * doesn't decode aren't listed. */
static const char *const portable[] = {
    "ANSI_X3.4-1968", "ISO-8859-1", "ISO_8859-1", "ISO-8859-2", "ISO_8859-2", "ISO-8859-3", "ISO_8859-3",
    "ISO-8859-4", "ISO_8859-4", "ISO-8859-5", "ISO_8859-5", "ISO-8859-6", "ISO_8859-6", "ISO-8859-7", "ISO_8859-7",
    "ISO-8859-8", "ISO_8859-8", "ISO-8859-9", "ISO_8859-9", "ISO-8859-13", "ISO_8859-13", "ISO-8859-14",
    "ISO_8859-14", "ISO-8859-15", "ISO_8859-15", "KOI8-R", "KOI8-U", "KOI8-T", "CP850", "CP866", "CP874", "CP1250",
    "CP1251", "CP1252", "CP1253", "CP1254", "CP1256", "CP1257", "GB2312", "EUC-JP", "EUC-KR", "BIG5", "GBK",
    "TIS-620", "GEORGIAN-PS"};

static bool is_portable(const char *name, size_t len) {
    for (size_t i = 0; i < sizeof portable / sizeof *portable; i++)
        if (strlen(portable[i]) == len && !strncasecmp(portable[i], name, len))
            return true;
    return false;
}

/* Whether the first charset that a text names is one of them. */
static bool may_be_recoded(struct part text) {
    static const char mark[] = "charset=";
    const char *at = memmem(text.at, (size_t)(text.end - text.at), mark, strlen(mark));
    if (!at)
        return false;
    at += strlen(mark);
    size_t len = 0;
    while (at + len < text.end && at[len] && !strchr(" \t\n\\\"", at[len]))
        len++;
    return is_portable(at, len);
}

enum recoding recode_text(struct part text, char **bytes, size_t *len) {
    kob_refusal why;
    if (!has_library() || !may_be_recoded(text))
        return AS_IT_IS;
    kob_po_file *file = kob_recode_po(text.at, (size_t)(text.end - text.at), &why);
    if (!file)
        return why.fault == KOB_MEMORY ? NO_MEMORY : why.fault == KOB_PO_NO_CHARACTER ? NO_CHARACTER : AS_IT_IS;
    kob_text made = kob_po_text(file);
    *len = made.len;
    *bytes = malloc(made.len + 1);
    if (*bytes)
        memcpy(*bytes, made.at, made.len);
    kob_po_free(file);
    return *bytes ? RECODED : NO_MEMORY;
}
