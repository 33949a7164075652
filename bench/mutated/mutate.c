/* Opens mutated MO files by libkobdzila, and asks each that is taken. Run by bench/mutated/run and tests/mo/mutated.sh.
 *
 *   mutate SEED COUNT ANSWERS LINES FILE..
 *
 * The FILEs are mutated in turn, COUNT times together, by numbers that follow from SEED: bytes, words of the tables,
 * the plural rule, pieces that are moved, left out or put in, and the file's end. No memory lies behind the last byte
 * of a mutated file. Each answer, `accepted N` or `refused K`, is a line of the file ANSWERS, and each mutated file is
 * a line for catsession in LINES; `-` for either leaves it out. It tells how far it is on standard error, once a
 * minute. */
#define _GNU_SOURCE
#include "kobdzila.h"

#include <inttypes.h>
#include <stdint.h>
#include <stdio.h>
#include <stdlib.h>
#include <string.h>
#include <sys/mman.h>
#include <time.h>
#include <unistd.h>

#define ROOM ((size_t)4 << 20) /* the greatest mutated file */

struct bytes {
    unsigned char *at;
    size_t len;
};

/* ---- numbers by chance (xorshift64*) */

static uint64_t state;

static uint64_t chance(uint64_t below) {
    state ^= state >> 12;
    state ^= state << 25;
    state ^= state >> 27;
    return (state * 0x2545f4914f6cdd1du >> 11) % below;
}

/* ---- mutations, each of which leaves at most ROOM bytes */

static uint32_t word_at(struct bytes b, size_t at) {
    uint32_t word;
    memcpy(&word, b.at + at, sizeof word);
    return word;
}

static void put_word(struct bytes *b, size_t at, uint32_t word) {
    if (at + sizeof word <= b->len)
        memcpy(b->at + at, &word, sizeof word);
}

/* a word that a table may hold, or should not */
static uint32_t odd_word(struct bytes b) {
    const uint32_t len = (uint32_t)b.len;
    const uint32_t words[] = { 0, 1, 2, 4, len, len - 1, len + 1, len / 2, 0x7fffffff, 0x80000000, 0xffffffff,
                               0xfffffffe, 0x10000, 28, 36, (uint32_t)chance(len + 1), word_at(b, 8), word_at(b, 12) };
    return words[chance(sizeof words / sizeof *words)];
}

static void change_byte(struct bytes *b) {
    static const unsigned char bytes[] = {
        0, 1, 4, '\n', ' ', '0', '=', ';', 0x7f, 0x80, 0xbf, 0xc0, 0xed, 0xf4, 0xff
    };
    unsigned char any = (unsigned char)chance(256);
    b->at[chance(b->len)] = chance(2) ? any : bytes[chance(sizeof bytes)];
}

/* Whether the file has a revision other than 0.0, and room for a header of twelve words. */
static int has_long_header(struct bytes b) { return b.len >= 48 && word_at(b, 4); }

static void change_header(struct bytes *b) { put_word(b, 4 * chance(has_long_header(*b) ? 12 : 7), odd_word(*b)); }

/* a word of the segments, of the tables of descriptors, or of a descriptor */
static void change_dependent(struct bytes *b) {
    static const size_t tables[] = { 32, 40, 44 };
    size_t at = word_at(*b, tables[chance(3)]) + 4 * chance(2 * (word_at(*b, 36) % 1000) + 2);
    if (chance(2) && at + 4 <= b->len)
        at = word_at(*b, at) + 4 * chance(5);
    if (at + 4 <= b->len)
        put_word(b, at, chance(2) ? odd_word(*b) : word_at(*b, at) + (uint32_t)chance(9) - 4);
}

/* a word of the tables of strings, changed by a little or to anything */
static void change_table(struct bytes *b) {
    if (b->len < 36)
        return;
    if (has_long_header(*b) && chance(2)) {
        change_dependent(b);
        return;
    }
    size_t table = word_at(*b, chance(2) ? 12 : 16), rows = word_at(*b, 8);
    size_t at = table + 4 * chance(2 * (rows % 100000) + 1);
    if (at + 4 <= b->len)
        put_word(b, at, chance(2) ? odd_word(*b) : word_at(*b, at) + (uint32_t)chance(9) - 4);
}

static void swap_rows(struct bytes *b) {
    if (b->len < 36 || word_at(*b, 8) < 2)
        return;
    size_t table = word_at(*b, chance(2) ? 12 : 16), rows = word_at(*b, 8) % 100000 + 1;
    size_t one = table + 8 * chance(rows), other = table + 8 * chance(rows);
    unsigned char row[8];
    if (one + 8 > b->len || other + 8 > b->len)
        return;
    memcpy(row, b->at + one, 8);
    memmove(b->at + one, b->at + other, 8);
    memcpy(b->at + other, row, 8);
}

/* the plural rule, or the charset */
static void change_fields(struct bytes *b) {
    const char *field = chance(3) ? "plural=" : "charset=";
    static const char marks[] = "n0123456789()?:!%&|<>=+-*/; \\\n";
    unsigned char *at = memmem(b->at, b->len, field, strlen(field));
    if (!at)
        return;
    for (uint64_t i = chance(6) + 1; i; i--) {
        size_t place = (size_t)(at - b->at) + chance(60);
        if (place < b->len)
            b->at[place] = (unsigned char)marks[chance(sizeof marks - 1)];
    }
}

static void move_piece(struct bytes *b) {
    size_t from = chance(b->len), to = chance(b->len), most = b->len - (from > to ? from : to);
    memmove(b->at + to, b->at + from, chance(most + 1));
}

static void leave_out(struct bytes *b) {
    size_t at = chance(b->len), len = chance(b->len - at < 40 ? b->len - at : 40);
    memmove(b->at + at, b->at + at + len, b->len - at - len);
    b->len -= len;
}

static void put_in(struct bytes *b) {
    size_t at = chance(b->len), len = chance(40);
    if (b->len + len > ROOM)
        return;
    memmove(b->at + at + len, b->at + at, b->len - at);
    memset(b->at + at, chance(2) ? 0 : (int)chance(256), len);
    b->len += len;
}

static void cut(struct bytes *b) {
    b->len = chance(3) ? b->len - chance(b->len < 64 ? b->len : 64) : chance(b->len) + 1;
}

static void swap_bytes(struct bytes *b) {
    for (size_t at = 0; at + 4 <= b->len && at < 28; at += 4)
        put_word(b, at, __builtin_bswap32(word_at(*b, at)));
}

static void mutate(struct bytes *b) {
    static void (*const all[])(struct bytes *) = { change_byte, change_byte, change_header, change_table, change_table,
                                                   change_table, swap_rows, change_fields, change_fields, move_piece,
                                                   leave_out, put_in, cut, swap_bytes };
    for (uint64_t i = chance(4) + 1; i && b->len >= 28; i--)
        all[chance(chance(8) ? 9 : sizeof all / sizeof *all)](b);
}

/* ---- opening and asking */

static uint64_t asked, taken;

static void ask_entry(const kob_catalogue *c, const kob_set *set, size_t place) {
    const kob_text app = { "app", 3 }, fr = { "sv:fr", 5 };
    const unsigned long long n = chance(4) ? chance(200) : state;
    kob_entry e;
    if (!kob_entry_at(c, place, &e))
        return;
    kob_text found = kob_find(c, e.context, e.msgid, NULL), form = kob_find(c, e.context, e.msgid, &n);
    kob_text last = kob_form_at(c, place, e.forms - 1), none = kob_form_at(c, place, e.forms);
    kob_text by_set = kob_set_find(set, app, fr, e.context, e.msgid, &n);
    asked += 3;
    int is_closed = found.at && !found.at[found.len] && form.at && !form.at[form.len] && last.at && !none.at;
    if (!is_closed || by_set.at != form.at || by_set.len != form.len) {
        fprintf(stderr, "an entry's answers aren't its own\n");
        abort();
    }
}

static void ask_all(const kob_catalogue *c) {
    kob_set *none = kob_set_new(), *set = kob_set_with(none, "app", "fr", c, NULL);
    size_t count = kob_count(c);
    for (size_t i = 0; i < count && i < 6; i++)
        ask_entry(c, set, count <= 6 ? i : chance(count));
    kob_ngettext(c, "no such message", "none", chance(9));
    kob_pgettext(c, "\xff", "\xe9");
    kob_set_release(none);
    kob_set_release(set);
}

/* Whether catsession, which reads revision 0.0 alone, refuses the file for its revision. */
static int is_revised(struct bytes b) {
    static const unsigned char low[] = { 0xde, 0x12, 0x04, 0x95 }, high[] = { 0x95, 0x04, 0x12, 0xde };
    return b.len >= 28 && (!memcmp(b.at, low, 4) || !memcmp(b.at, high, 4)) && word_at(b, 4);
}

static void tell(FILE *answers, struct bytes b) {
    kob_refusal why;
    kob_catalogue *c = kob_open_mo(b.at, b.len, &why);
    if (answers && is_revised(b))
        fprintf(answers, "refused %d\n", KOB_MO_REVISION);
    else if (answers && c)
        fprintf(answers, "accepted %zu\n", kob_count(c));
    else if (answers)
        fprintf(answers, "refused %d\n", why.fault);
    if (c) {
        taken++;
        ask_all(c);
    }
    kob_release(c);
}

/* (catsession answers by rounds: here each has 1,000 lines) */
static void put_line(FILE *lines, struct bytes b, uint64_t number) {
    static const char digits[] = "0123456789abcdef";
    static char text[2 * ROOM];
    for (size_t i = 0; i < b.len; i++) {
        text[2 * i] = digits[b.at[i] >> 4];
        text[2 * i + 1] = digits[b.at[i] & 15];
    }
    fputs("loadmo\tapp\tfr\t", lines);
    fwrite(text, 1, 2 * b.len, lines);
    fputs(number % 1000 == 999 ? "\ngo\n" : "\n", lines);
}

static FILE *opened(const char *name) {
    FILE *file = strcmp(name, "-") ? fopen(name, "w") : NULL;
    if (strcmp(name, "-") && !file)
        exit(2);
    return file;
}

static struct bytes read_whole(const char *name) {
    FILE *file = fopen(name, "rb");
    struct bytes b = { malloc(ROOM), 0 };
    if (!file || !b.at)
        exit(2);
    b.len = fread(b.at, 1, ROOM, file);
    fclose(file);
    b.at = realloc(b.at, b.len + 1);
    return b;
}

/* The mutated file with this number, of the one that is given, in the last bytes of `room`. */
static struct bytes mutated(struct bytes whole, uint64_t seed, uint64_t number, unsigned char *work,
                            unsigned char *room) {
    struct bytes b = { work, whole.len };
    state = (seed * 0x9e3779b97f4a7c15u + number * 0xbf58476d1ce4e5b9u) | 1;
    for (int i = 0; i < 4; i++)
        chance(2);
    memcpy(work, whole.at, whole.len);
    mutate(&b);
    b.at = memcpy(room + ROOM - b.len, work, b.len);
    return b;
}

static void say_how_far(uint64_t done) {
    fprintf(stderr, "%" PRIu64 " mutated files, %" PRIu64 " taken, %" PRIu64 " questions\n", done, taken, asked);
}

static void open_all(struct bytes *whole, uint64_t files, uint64_t seed, uint64_t count, FILE *answers, FILE *lines) {
    unsigned char *room = mmap(NULL, ROOM + 4096, PROT_READ | PROT_WRITE, MAP_PRIVATE | MAP_ANONYMOUS, -1, 0);
    unsigned char *work = malloc(ROOM);
    if (!work || room == MAP_FAILED || mprotect(room + ROOM, 4096, PROT_NONE))
        exit(2);
    time_t last = time(NULL);
    for (uint64_t i = 0; i < count; i++) {
        struct bytes b = mutated(whole[i % files], seed, i, work, room);
        if (lines)
            put_line(lines, b, i);
        tell(answers, b);
        if (i % 1000 == 0 && time(NULL) - last >= 60) {
            last = time(NULL);
            say_how_far(i);
        }
    }
    say_how_far(count);
    free(work);
}

int main(int argc, char **argv) {
    if (argc < 6)
        return 2;
    uint64_t files = (uint64_t)argc - 5;
    FILE *answers = opened(argv[3]), *lines = opened(argv[4]);
    struct bytes *whole = calloc(files, sizeof *whole);
    for (uint64_t i = 0; whole && i < files; i++)
        whole[i] = read_whole(argv[5 + i]);
    if (whole)
        open_all(whole, files, strtoull(argv[1], NULL, 10), strtoull(argv[2], NULL, 10), answers, lines);
    for (uint64_t i = 0; whole && i < files; i++)
        free(whole[i].at);
    free(whole);
    return !whole || (answers && fclose(answers)) || (lines && fclose(lines));
}
