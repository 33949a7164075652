/* A model of how msgfmt compiles a PO text, without its checks: read the text, cut it into entries, sort them, lay out
 * the MO file and write it. It shows what copies of texts cost, and how much time is left without any check.
 *
 *   model pool IN.po OUT.mo     as msgfmt works: the texts of all entries go into one buffer, and the MO file is written
 *                               into the memory of the PO text
 *   model lent IN.po OUT.mo     a text that is one string without an escape stays in the PO text until the MO file is
 *                               laid out, in memory of its own
 *
 * Both write the same file. The PO text has to be one that msgfmt accepts, without an obsolete entry's strings outside
 * comments. (bench/copies/run makes such texts, and prints both times.) */
#define _POSIX_C_SOURCE 200809L
#include <fcntl.h>
#include <stdbool.h>
#include <stdint.h>
#include <stdio.h>
#include <stdlib.h>
#include <string.h>
#include <sys/stat.h>
#include <unistd.h>

/* The allocator that msgfmt is linked with (c/library/memory.c). */
void *kobdzila_malloc(size_t len);
void *kobdzila_realloc(void *block, size_t len);

enum { MOST_FORMS = 6, HEADER = 28, ROWS = 16, EOT = 4 };

typedef struct {
    const char *at;
    size_t len;
} text;

typedef struct {
    char *at;
    size_t len, room;
} buffer;

/* A part of an entry: a string of the PO text, or what was copied of several or of one with escapes. */
typedef struct {
    text lent;
    buffer own;
    size_t strings;
} part;

typedef struct {
    part context, id, plural, forms[MOST_FORMS];
    size_t form_count;
    bool has_context, has_plural, is_fuzzy;
} entry;

/* Where the texts of an entry lie: in the PO text, or from an offset on in the buffer of all texts. */
typedef struct {
    text key, kept;
    size_t plural;
    bool is_key_stored, is_kept_stored, is_kept;
} span;

typedef struct {
    uint64_t front[2];
    text key, kept;
    uint32_t plural, number;
} draft;

static bool lends;
static buffer decoded, stored, spans;

static void stop(const char *why) {
    fprintf(stderr, "model: %s\n", why);
    exit(1);
}

static void *checked(void *block) {
    if (!block)
        stop("out of memory");
    return block;
}

static void put(buffer *to, const void *bytes, size_t len) {
    if (to->len + len > to->room) {
        size_t twice = 2 * to->room, least = to->len + len;
        to->room = twice > least ? twice : least;
        to->at = checked(kobdzila_realloc(to->at, to->room));
    }
    if (len)
        memcpy(to->at + to->len, bytes, len);
    to->len += len;
}

static text whole_of(const buffer *it) { return (text){ it->at, it->len }; }

static text text_of(const part *it) { return it->lent.at ? it->lent : whole_of(&it->own); }

static void clear(part *it) {
    it->lent = (text){ 0 };
    it->own.len = it->strings = 0;
}

/* Adds a string to a part. A first one that lies in the PO text is lent. */
static void add(part *to, text string, bool is_plain) {
    if (!string.len)
        return;
    if (to->strings++ == 0 && lends && is_plain) {
        to->lent = string;
        return;
    }
    if (to->lent.at)
        put(&to->own, to->lent.at, to->lent.len);
    to->lent.at = NULL;
    put(&to->own, string.at, string.len);
}

/* The number of bytes before the next quote or backslash. */
static size_t run_at(const char *at) {
    const char *end = at;
    while (*end != '"' && *end != '\\')
        end++;
    return (size_t)(end - at);
}

/* The byte of an escape, and what follows it. */
static const char *unescaped(const char *at, char *byte) {
    static const char letters[] = "n\nt\tr\rb\bf\fv\va\a";
    if (*at < '0' || *at > '7') {
        const char *letter = strchr(letters, *at);
        *byte = letter ? letter[1] : *at;
        return at + 1;
    }
    unsigned value = 0;
    for (int k = 0; k < 3 && *at >= '0' && *at <= '7'; k++)
        value = 8 * value + (unsigned)(*at++ - '0');
    *byte = (char)value;
    return at;
}

/* Adds the string that begins behind this quote. */
static void add_string(part *to, const char *at) {
    size_t run = run_at(at);
    if (at[run] == '"') {
        add(to, (text){ at, run }, true);
        return;
    }
    decoded.len = 0;
    while (put(&decoded, at, run), at += run, *at == '\\') {
        char byte;
        at = unescaped(at + 1, &byte);
        put(&decoded, &byte, 1);
        run = run_at(at);
    }
    add(to, whole_of(&decoded), false);
}

static void begin(entry *it, bool has_context, bool is_fuzzy) {
    clear(&it->context);
    clear(&it->id);
    clear(&it->plural);
    for (size_t k = 0; k < MOST_FORMS; k++)
        clear(&it->forms[k]);
    it->form_count = 0;
    it->has_context = has_context;
    it->has_plural = false;
    it->is_fuzzy = is_fuzzy;
}

static void store(text it) { put(&stored, it.at, it.len); }

/* The key of an entry: lent, or stored with its context in front. */
static void end_key(const entry *it, span *to) {
    to->key = text_of(&it->id);
    if (lends && !it->has_context && it->id.lent.at)
        return;
    size_t start = stored.len;
    if (it->has_context) {
        store(text_of(&it->context));
        put(&stored, &(char){ EOT }, 1);
    }
    store(text_of(&it->id));
    to->key = (text){ NULL, stored.len - start };
    to->is_key_stored = true;
}

/* What is kept of an entry besides its key: its only form, lent or stored, or its plural and its forms, stored. */
static void end_kept(const entry *it, span *to) {
    to->kept = text_of(&it->forms[0]);
    if (lends && !it->has_plural && it->form_count == 1 && it->forms[0].lent.at)
        return;
    size_t start = stored.len;
    if (it->has_plural)
        store(text_of(&it->plural));
    to->plural = stored.len - start;
    for (size_t k = 0; k < it->form_count; k++) {
        if (k)
            put(&stored, "", 1);
        store(text_of(&it->forms[k]));
    }
    to->kept = (text){ NULL, stored.len - start };
    to->is_kept_stored = true;
}

static void end(const entry *it) {
    span to = { 0 };
    end_key(it, &to);
    to.is_kept = !it->is_fuzzy && text_of(&it->forms[0]).len;
    if (to.is_kept)
        end_kept(it, &to);
    put(&spans, &to, sizeof to);
}

/* The part that the keyword at the front of a line leads to, which may begin an entry; NULL where there is none. */
static part *part_at(const char *line, entry *it, bool *is_open, bool *is_fuzzy, const part *last) {
    bool is_context = !strncmp(line, "msgctxt", 7);
    if (!strncmp(line, "msgid_plural", 12)) {
        it->has_plural = true;
        return &it->plural;
    }
    if (is_context || (!strncmp(line, "msgid", 5) && last != &it->context)) {
        if (*is_open)
            end(it);
        begin(it, is_context, *is_fuzzy);
        *is_open = true;
        *is_fuzzy = false;
        return is_context ? &it->context : &it->id;
    }
    if (!strncmp(line, "msgid", 5))
        return &it->id;
    if (strncmp(line, "msgstr", 6))
        return NULL;
    if (it->form_count == MOST_FORMS)
        stop("too many forms");
    return &it->forms[it->form_count++];
}

/* Cuts a PO text into entries. It ends with a newline. */
static void collect(const char *at, size_t len) {
    static entry it;
    const char *last = at + len;
    bool is_open = false, is_fuzzy = false;
    part *into = NULL;
    while (at < last) {
        const char *next = (const char *)memchr(at, '\n', (size_t)(last - at)) + 1;
        if (*at == '#') {
            is_fuzzy |= at[1] == ',' && (size_t)(next - at) >= 8 && !memcmp(at + 3, "fuzzy", 5);
        } else if (*at != '\n') {
            part *found = *at == '"' ? NULL : part_at(at, &it, &is_open, &is_fuzzy, into);
            const char *quote = memchr(at, '"', (size_t)(next - at));
            into = found ? found : into;
            if (!into || !quote)
                stop("a line without a string");
            add_string(into, quote + 1);
        }
        at = next;
    }
    if (is_open)
        end(&it);
}

/* Eight bytes of a text from an index on, as a number that sorts as they do. */
static uint64_t front_of(text it, size_t from) {
    uint64_t number = 0;
    for (size_t k = from; k < from + 8; k++)
        number = number << 8 | (k < it.len ? (unsigned char)it.at[k] : 0);
    return number;
}

/* The entries with their texts, which no longer move. */
static draft *drafts_of(size_t count) {
    draft *drafts = checked(kobdzila_malloc(count * sizeof *drafts));
    const char *next = stored.at;
    for (size_t i = 0; i < count; i++) {
        span *it = (span *)(void *)spans.at + i;
        if (it->is_key_stored)
            it->key.at = next, next += it->key.len;
        if (it->is_kept_stored)
            it->kept.at = next, next += it->kept.len;
        if (!it->is_kept)
            it->kept.at = NULL;
        drafts[i] = (draft){ { front_of(it->key, 0), front_of(it->key, 8) }, it->key, it->kept, (uint32_t)it->plural, (uint32_t)i };
    }
    free(spans.at);
    return drafts;
}

static int compare(const void *one, const void *other) {
    const draft *a = one, *b = other;
    for (int k = 0; k < 2; k++)
        if (a->front[k] != b->front[k])
            return a->front[k] < b->front[k] ? -1 : 1;
    int order = memcmp(a->key.at, b->key.at, a->key.len < b->key.len ? a->key.len : b->key.len);
    if (!order)
        order = (a->key.len > b->key.len) - (a->key.len < b->key.len);
    return order ? order : a->number < b->number ? -1 : 1;
}

/* Drops the entries that aren't kept, and returns how many are left. */
static size_t keep(draft *drafts, size_t count) {
    size_t kept = 0;
    for (size_t i = 0; i < count; i++)
        if (drafts[i].kept.at)
            drafts[kept++] = drafts[i];
    return kept;
}

static size_t size_of(const draft *drafts, size_t count) {
    size_t size = HEADER + ROWS * count;
    for (size_t i = 0; i < count; i++)
        size += drafts[i].key.len + 1 + (drafts[i].plural ? 1 : 0) + drafts[i].kept.len + 1;
    return size;
}

static void word(unsigned char *at, size_t value) {
    for (int k = 0; k < 4; k++)
        at[k] = (unsigned char)(value >> 8 * k);
}

static char *copied(char *to, const char *from, size_t len) {
    memcpy(to, from, len);
    to[len] = 0;
    return to + len + 1;
}

/* Writes the MO file of the drafts (GNU gettext manual, "MO Files"). */
static void lay_out(char *file, const draft *drafts, size_t count) {
    const size_t header[] = { 0x950412de, 0, count, HEADER, HEADER + 8 * count, 0, HEADER + ROWS * count };
    unsigned char *row = (unsigned char *)file + HEADER;
    char *to = file + HEADER + ROWS * count;
    for (size_t k = 0; k < 7; k++)
        word((unsigned char *)file + 4 * k, header[k]);
    for (int side = 0; side < 2; side++)
        for (size_t i = 0; i < count; i++, row += 8) {
            const draft *it = &drafts[i];
            char *start = to;
            if (side == 0) {
                to = copied(to, it->key.at, it->key.len);
                if (it->plural)
                    to = copied(to, it->kept.at, it->plural);
            } else {
                to = copied(to, it->kept.at + it->plural, it->kept.len - it->plural);
            }
            word(row, (size_t)(to - start - 1));
            word(row + 4, (size_t)(start - file));
        }
}

static char *read_text(const char *name, size_t *len) {
    struct stat status;
    int file = open(name, O_RDONLY);
    if (file < 0 || fstat(file, &status))
        stop("the PO file can't be read");
    *len = (size_t)status.st_size;
    char *bytes = checked(kobdzila_malloc(*len));
    for (size_t got = 0; got < *len;) {
        ssize_t more = read(file, bytes + got, *len - got);
        if (more <= 0)
            stop("the PO file can't be read");
        got += (size_t)more;
    }
    close(file);
    return bytes;
}

static void write_file(const char *name, const char *bytes, size_t len) {
    int file = open(name, O_WRONLY | O_CREAT | O_TRUNC, 0666);
    for (size_t gone = 0; gone < len;) {
        ssize_t more = write(file, bytes + gone, len - gone);
        if (more <= 0)
            stop("the MO file can't be written");
        gone += (size_t)more;
    }
    close(file);
}

int main(int argc, char **argv) {
    size_t len;
    if (argc != 4)
        stop("usage: model pool|lent IN.po OUT.mo");
    lends = !strcmp(argv[1], "lent");
    char *bytes = read_text(argv[2], &len);
    collect(bytes, len);
    size_t count = spans.len / sizeof(span);
    draft *drafts = drafts_of(count);
    qsort(drafts, count, sizeof *drafts, compare);
    count = keep(drafts, count);
    size_t size = size_of(drafts, count);
    char *file = checked(lends ? kobdzila_malloc(size) : kobdzila_realloc(bytes, size));
    lay_out(file, drafts, count);
    write_file(argv[3], file, size);
    printf("%zu of %zu bytes of texts were copied\n", stored.len, size - HEADER - ROWS * count);
    return 0;
}
