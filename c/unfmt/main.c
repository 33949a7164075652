/* kob-msgunfmt: writes the PO text of MO files, with libkobdzila. See kob-msgunfmt(1). */
#include "unfmt.h"
#include "file_bytes.h"
#include "kobdzila.h"
#include "or_gnu.h"
#include "replace.h"

#include <errno.h>
#include <limits.h>
#include <signal.h>
#include <stdlib.h>
#include <string.h>
#include <sys/stat.h>
#include <unistd.h>

enum { MOST_FILE = 268435456 }; /* bytes of the largest MO file */

const char program_name[] = "kob-msgunfmt";

/* A message: its msgid, and its part of its file's PO text. */
struct entry {
    kob_text msgid, text;
    bool has_context;
    size_t number; /* in the order of the files */
};

/* A file's catalogue and PO text, from which all strings are borrowed. */
struct source {
    kob_catalogue *catalogue;
    kob_po_file *file;
};

struct run {
    struct options options;
    struct source *sources;
    struct entry *entries;
    size_t count;
};

void stop_for_memory(void) {
    tell("kob-msgunfmt: out of memory");
    _exit(FAILED);
}

/* ---- reading */

static bool is_stream(const char *name) { return !strcmp(name, "-"); }

static const char *told_name(const char *name) { return is_stream(name) ? "standard input" : name; }

/* Return what to do about a fault, or nothing. */
static const char *advice_for(enum kob_fault fault) {
    switch (fault) {
    case KOB_MO_MAGIC: return ": name a file that msgfmt has written";
    case KOB_MO_BAD_TEXT:
    case KOB_MO_CHARSET: return ": use GNU msgunfmt, and msgconv -t UTF-8 on what it writes";
    default: return "";
    }
}

/* Read a file, or standard input; NULL, and it was told why. */
static unsigned char *read_file(const char *name, size_t *len) {
    unsigned char *bytes = is_stream(name) ? opened_bytes(STDIN_FILENO, ALL_FILES, MOST_FILE, len)
                                           : file_bytes(name, ALL_FILES, MOST_FILE, len);
    if (!bytes && errno == ENOMEM)
        stop_for_memory();
    if (!bytes)
        tell("kob-msgunfmt: cannot read %s: %s", told_name(name), strerror(errno));
    return bytes;
}

static bool open_source(const struct run *run, const char *name, struct source *source) {
    size_t len;
    kob_refusal why;
    unsigned char *bytes = read_file(name, &len);
    if (!bytes)
        return false;
    source->catalogue = kob_open_mo(bytes, len, &why);
    free(bytes);
    if (!source->catalogue && why.fault == KOB_MEMORY)
        stop_for_memory();
    if (!source->catalogue) {
        tell("kob-msgunfmt: %s: %s%s", told_name(name), kob_fault_text(why.fault), advice_for(why.fault));
        return false;
    }
    source->file = kob_write_po(source->catalogue, run->options.escapes ? KOB_ESCAPED : 0);
    if (!source->file)
        stop_for_memory();
    return true;
}

/* Take the messages of a file, whose text has them in their order, with empty lines between them. */
static void take_entries(struct run *run, const struct source *source) {
    size_t count = kob_count(source->catalogue);
    struct entry *more = realloc(run->entries, (run->count + count + 1) * sizeof *more);
    if (!more)
        stop_for_memory();
    run->entries = more;
    kob_text rest = kob_po_text(source->file);
    for (size_t place = 0; place < count; place++) {
        kob_entry entry;
        const char *gap = memmem(rest.at, rest.len, "\n\n", 2);
        size_t len = gap ? (size_t)(gap - rest.at) + 1 : rest.len, past = gap ? len + 1 : len;
        kob_entry_at(source->catalogue, place, &entry);
        run->entries[run->count] = (struct entry){entry.msgid, {rest.at, len}, entry.context.at, run->count};
        run->count++;
        rest = (kob_text){rest.at + past, rest.len - past};
    }
}

static bool read_files(struct run *run) {
    run->sources = calloc((size_t)run->options.name_count, sizeof *run->sources);
    if (!run->sources)
        stop_for_memory();
    for (int place = 0; place < run->options.name_count; place++) {
        if (!open_source(run, run->options.names[place], &run->sources[place]))
            return false;
        take_entries(run, &run->sources[place]);
    }
    return true;
}

static void free_run(struct run *run) {
    for (int place = 0; run->sources && place < run->options.name_count; place++) {
        kob_po_free(run->sources[place].file);
        kob_release(run->sources[place].catalogue);
    }
    free(run->sources);
    free(run->entries);
}

/* ---- writing */

/* Compare two messages by their msgids as bytes; those with the same keep their order. */
static int by_msgid(const void *left, const void *right) {
    const struct entry *a = left, *b = right;
    size_t len = a->msgid.len < b->msgid.len ? a->msgid.len : b->msgid.len;
    int order = memcmp(a->msgid.at, b->msgid.at, len);
    if (!order)
        order = (a->msgid.len > b->msgid.len) - (a->msgid.len < b->msgid.len);
    return order ? order : (a->number > b->number) - (a->number < b->number);
}

static bool is_header(const struct entry *entry) { return !entry->msgid.len && !entry->has_context; }

/* Return the text of all messages. */
static struct output text_of_all(const struct run *run) {
    const char *gap = run->options.is_strict ? "#\n" : "\n";
    struct output all = {0};
    struct layout layout = {run->options.wraps ? run->options.width : INT_MAX, run->options.indents};
    for (size_t place = 0; place < run->count; place++) {
        if (place)
            add(&all, gap, strlen(gap));
        add_entry(&all, &layout, run->entries[place].text.at, run->entries[place].text.len);
    }
    return all;
}

/* Write the output. Returns 0 or an errno. A file that may only be read isn't replaced either. */
static int write_to(const char *name, const char *bytes, size_t len) {
    mode_t masked = umask(0);
    umask(masked);
    if (!name)
        return write_all(STDOUT_FILENO, bytes, len) ? 0 : errno;
    if (descriptor_of(name) < 0 && access(name, W_OK) < 0 && errno != ENOENT)
        return errno;
    return write_where_allowed(name, bytes, len, 0666 & ~masked);
}

static enum status write_output(const struct run *run) {
    const char *name = run->options.output && !is_stream(run->options.output) ? run->options.output : NULL;
    struct output all = text_of_all(run);
    int cause = write_to(name, all.bytes, all.len);
    free(all.bytes);
    if (cause)
        tell("kob-msgunfmt: cannot write %s: %s", name ? name : "standard output", strerror(cause));
    return cause ? FAILED : DONE;
}

/* Whether there is a message, or the text is to be written without one. */
static bool is_wanted(const struct run *run) {
    return run->options.forces || run->count > 1 || (run->count == 1 && !is_header(run->entries));
}

int main(int count, char **words) {
    struct run run = {0};
    enum status status;
    if (!read_options(&run.options, count, words, &status))
        return status;
    signal(SIGXFSZ, SIG_IGN); /* (a file that is too large is an error of its own) */
    status = read_files(&run) ? DONE : FAILED;
    if (status == DONE && run.options.sorts)
        qsort(run.entries, run.count, sizeof *run.entries, by_msgid);
    if (status == DONE && is_wanted(&run))
        status = write_output(&run);
    free_run(&run);
    return status;
}
