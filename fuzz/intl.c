/* A catalogue file, and gettext and its relatives of libkobdzila-intl next to those of the C library.
 *
 * The first byte says in which codeset the answers are wanted, and the rest is the file. It is asked for the msgids
 * that it seems to have and for some others, in this process by c/intl, whose functions are linked before the C
 * library's. This process must survive each file. If the file is as the GNU gettext manual describes MO files, the C
 * library alone is asked in a child. If the child survives as well, all answers must be the same.
 *
 * Both keep what they have read of a file. So each input has a folder of its own, and run ends a process after some
 * thousands of them. */
#include "target.h"

#include <dlfcn.h>
#include <libintl.h>
#include <limits.h>
#include <locale.h>
#include <sys/mman.h>
#include <sys/resource.h>
#include <sys/stat.h>
#include <sys/wait.h>
#include <unistd.h>

enum { MOST_IDS = 24, ID_SIZE = 400, ANSWER_SIZE = 1000, SECONDS_OF_CHILD = 2 };
enum { LEAST_FILE = 48, MAGIC = 0x950412de, MOST_RULE = 1000, MOST_CHARSET = 64 };

static const unsigned long numbers[] = { 0, 1, 2, 5, 11, 101, 1000000, ULONG_MAX };
enum { NUMBERS = sizeof numbers / sizeof *numbers, ASKED = 1 + NUMBERS };
static const char *const codesets[] = { "UTF-8", "UTF-8", "ISO-8859-1", "ASCII//TRANSLIT", "KOI8-R", "no-such" };
enum { CODESETS = sizeof codesets / sizeof *codesets };

/* The functions of this library, or of the C library. */
struct functions {
    char *(*dcgettext)(const char *, const char *, int);
    char *(*dcngettext)(const char *, const char *, const char *, unsigned long, int);
    char *(*bindtextdomain)(const char *, const char *);
    char *(*bind_textdomain_codeset)(const char *, const char *);
};

/* The answers of one of them; its memory is shared with the child. */
struct answers {
    volatile int is_done;
    char texts[MOST_IDS * ASKED][ANSWER_SIZE];
};

struct ids {
    size_t count;
    char texts[MOST_IDS][ID_SIZE];
};

static char root[64];
static struct functions here, theirs;
static struct answers *ours, *wanted;

/* --- the file ------------------------------------------------------------------------------------------------- */

struct file {
    const uint8_t *at;
    size_t len;
    bool is_swapped;
};

static bool holds(const struct file *file, uint64_t from, uint64_t len) {
    return from <= file->len && len <= file->len - from;
}

static uint32_t word(const struct file *file, uint64_t from) {
    uint32_t value;
    memcpy(&value, file->at + from, sizeof value);
    return file->is_swapped ? __builtin_bswap32(value) : value;
}

/* A string of a table: its bytes; NULL if it isn't inside the file with a NUL after it. */
static const char *string_at(const struct file *file, uint32_t table, uint32_t place, uint32_t *len) {
    uint64_t from = table + 8ull * place;
    if (!holds(file, from, 8))
        return NULL;
    *len = word(file, from);
    uint32_t at = word(file, from + 4);
    return holds(file, at, *len + 1ull) && !file->at[at + (uint64_t)*len] ? (const char *)file->at + at : NULL;
}

static bool has_header(struct file *file) {
    if (file->len < LEAST_FILE)
        return false;
    file->is_swapped = word(file, 0) == __builtin_bswap32(MAGIC);
    return word(file, 0) == MAGIC;
}

/* The hash function of GNU gettext's hash tables (P. J. Weinberger's; intl/hash-string.c). */
static uint32_t hash_of(const char *text) {
    uint32_t hash = 0;
    for (; *text; text++) {
        hash = (hash << 4) + (uint8_t)*text;
        uint32_t high = hash & 0xf0000000;
        hash ^= high ? high >> 24 ^ high : 0;
    }
    return hash;
}

static bool is_prime(uint32_t n) {
    for (uint32_t by = 2; by <= n / by; by++)
        if (n % by == 0)
            return false;
    return n > 2;
}

/* Whether the hash table leads to each string, and every search in it ends. */
static bool has_hash_table(const struct file *file, uint32_t strings) {
    uint32_t size = word(file, 20), table = word(file, 24), used = 0, len;
    if (size <= 2)
        return true;
    if (size > file->len || !is_prime(size) || !holds(file, table, 4ull * size))
        return false;
    for (uint32_t slot = 0; slot < size; slot++) {
        used += word(file, table + 4ull * slot) != 0;
        if (word(file, table + 4ull * slot) > strings)
            return false;
    }
    for (uint32_t place = 0; place < strings; place++) {
        const char *text = string_at(file, word(file, 12), place, &len);
        uint32_t hash = hash_of(text), slot = hash % size, step = 1 + hash % (size - 2), found, tries = 0;
        while ((found = word(file, table + 4ull * slot)) != 0 && found != place + 1 && tries++ < size)
            slot = slot >= size - step ? slot - (size - step) : slot + step;
        if (found != place + 1)
            return false;
    }
    return used == strings && used < size;
}

/* Whether the header is one that both read alike: it names a charset of some letters, and a rule of bounded length. */
static bool has_plain_header(const char *header, uint32_t len) {
    const char *charset = memmem(header, len, "charset=", 8), *rule = memmem(header, len, "plural=", 7);
    if (memchr(header, '\0', len))
        return false;
    if (!charset)
        return true;
    charset += 8;
    size_t name = strspn(charset, "ABCDEFGHIJKLMNOPQRSTUVWXYZabcdefghijklmnopqrstuvwxyz0123456789_-");
    return name && name <= MOST_CHARSET && (!charset[name] || strchr(" \t\n", charset[name])) &&
           (!rule || strcspn(rule, "\n") <= MOST_RULE);
}

/* Whether the file is as the manual says ("MO Files"): revision 0, strings in ascending order, each with its NUL, a
 * hash table that leads to all of them or none; with as many texts in each translation as the entry can have. */
static bool is_well_formed(const uint8_t *bytes, size_t size) {
    struct file file = { bytes, size, false };
    if (!has_header(&file) || word(&file, 4))
        return false;
    uint32_t strings = word(&file, 8), id_len, len;
    if (strings > size / 8)
        return false;
    const char *before = NULL;
    for (uint32_t place = 0; place < strings; place++) {
        const char *id = string_at(&file, word(&file, 12), place, &id_len);
        const char *text = string_at(&file, word(&file, 16), place, &len);
        if (!id || !text || (before && strcmp(before, id) >= 0) || (!id_len && !has_plain_header(text, len)))
            return false;
        /* (a msgid and one plural, or no NUL at all) */
        size_t first = strlen(id);
        if (first < id_len ? first + 1 + strlen(id + first + 1) != id_len : strlen(text) != len)
            return false;
        before = id;
    }
    return has_hash_table(&file, strings);
}

size_t LLVMFuzzerMutate(uint8_t *data, size_t size, size_t most) __attribute__((weak));
size_t LLVMFuzzerCustomMutator(uint8_t *data, size_t size, size_t most, unsigned seed);

/* Half of the changes are libFuzzer's own. The others move one word of the file by one or two, and most words are
 * offsets and lengths: so strings and tables end next to the end of the file, which they rarely do by chance. */
size_t LLVMFuzzerCustomMutator(uint8_t *data, size_t size, size_t most, unsigned seed) {
    static const uint32_t steps[] = { 1, 2, UINT32_MAX, UINT32_MAX - 1 };
    if (size <= LEAST_FILE || seed % 2 == 0)
        return LLVMFuzzerMutate(data, size, most);
    struct file file = { data + 1, size - 1, false };
    has_header(&file);
    uint64_t place = seed / 8 % (file.len / 4) * 4;
    uint32_t moved = word(&file, place) + steps[seed / 2 % 4];
    if (file.is_swapped)
        moved = __builtin_bswap32(moved);
    memcpy(data + 1 + place, &moved, sizeof moved);
    return size;
}

/* Take the msgids that the file seems to have, and some that it hasn't. */
static void find_ids(struct ids *ids, const uint8_t *bytes, size_t size) {
    static const char *const others[] = { "", "hi", "file", "no such message", "menu\4Open" };
    struct file file = { bytes, size, false };
    for (ids->count = 0; ids->count < sizeof others / sizeof *others; ids->count++)
        snprintf(ids->texts[ids->count], ID_SIZE, "%s", others[ids->count]);
    has_header(&file);
    for (uint32_t place = 0; size >= LEAST_FILE && place < MOST_IDS && ids->count < MOST_IDS; place++) {
        uint32_t len;
        const char *text = string_at(&file, word(&file, 12), place, &len);
        if (text && strlen(text) < ID_SIZE)
            strcpy(ids->texts[ids->count++], text);
    }
}

/* --- asking --------------------------------------------------------------------------------------------------- */

static void keep(char to[ANSWER_SIZE], const char *answer) { snprintf(to, ANSWER_SIZE, "%s", answer); }

static void ask(const struct functions *by, const char *folder, unsigned codeset, const struct ids *ids,
                struct answers *answers) {
    answers->is_done = 0;
    by->bindtextdomain("shop", folder);
    by->bind_textdomain_codeset("shop", codesets[codeset]);
    for (size_t id = 0; id < ids->count; id++) {
        char (*to)[ANSWER_SIZE] = answers->texts + id * ASKED;
        keep(to[0], by->dcgettext("shop", ids->texts[id], LC_MESSAGES));
        for (size_t which = 0; which < NUMBERS; which++)
            keep(to[1 + which], by->dcngettext("shop", ids->texts[id], "the plural", numbers[which], LC_MESSAGES));
    }
    answers->is_done = 1;
}

void __sanitizer_set_death_callback(void (*callback)(void)) __attribute__((weak));

static void leave(void) { _exit(1); }

/* Ask the C library alone in a child. Whether it has lived. */
static bool ask_child(const char *folder, unsigned codeset, const struct ids *ids) {
    wanted->is_done = 0;
    pid_t child = fork();
    REQUIRE(child >= 0);
    if (child == 0) {
        struct rlimit cpu = { SECONDS_OF_CHILD, SECONDS_OF_CHILD }, none = { 0, 0 };
        setrlimit(RLIMIT_CPU, &cpu);
        setrlimit(RLIMIT_CORE, &none);
        for (int number = 1; number < 32; number++)
            signal(number, SIG_DFL);
        /* what the C library does to itself is no finding */
        if (__sanitizer_set_death_callback)
            __sanitizer_set_death_callback(leave);
        close(STDERR_FILENO);
        ask(&theirs, folder, codeset, ids, wanted);
        _exit(0);
    }
    int how;
    while (waitpid(child, &how, 0) < 0)
        ;
    return WIFEXITED(how) && wanted->is_done;
}

static void remove_root(void) {
    if (*root)
        rmdir(root);
}

static void *of_c_library(const char *name) {
    void *found = dlsym(RTLD_NEXT, name);
    REQUIRE(found);
    return found;
}

static void begin(void) {
    static const char *const folders[] = { "/dev/shm", "/tmp" };
    *(void **)&theirs.dcgettext = of_c_library("dcgettext");
    *(void **)&theirs.dcngettext = of_c_library("dcngettext");
    *(void **)&theirs.bindtextdomain = of_c_library("bindtextdomain");
    *(void **)&theirs.bind_textdomain_codeset = of_c_library("bind_textdomain_codeset");
    here = (struct functions){ dcgettext, dcngettext, bindtextdomain, bind_textdomain_codeset };
    REQUIRE(here.dcgettext != theirs.dcgettext);
    snprintf(root, sizeof root, "%s/kobdzila-intl.XXXXXX", folders[access(folders[0], W_OK) != 0]);
    REQUIRE(mkdtemp(root) && atexit(remove_root) == 0);
    size_t size = 2 * sizeof *ours;
    ours = mmap(NULL, size, PROT_READ | PROT_WRITE, MAP_SHARED | MAP_ANONYMOUS, -1, 0);
    REQUIRE(ours != MAP_FAILED);
    wanted = ours + 1;
    unsetenv("OUTPUT_CHARSET");
    setenv("LANGUAGE", "ll", 1);
    REQUIRE(setlocale(LC_ALL, "C.UTF-8"));
}

/* Write the file where catalogues of the folder are, or remove it and its folders. */
static void put_file(const char *folder, const uint8_t *bytes, size_t len) {
    char path[256];
    static const char *const parts[] = { "", "/ll", "/ll/LC_MESSAGES" };
    for (int place = 0; bytes && place < 3; place++) {
        snprintf(path, sizeof path, "%s%s", folder, parts[place]);
        REQUIRE(mkdir(path, 0700) == 0);
    }
    snprintf(path, sizeof path, "%s/ll/LC_MESSAGES/shop.mo", folder);
    if (bytes) {
        FILE *file = fopen(path, "wb");
        REQUIRE(file && fwrite(bytes, 1, len, file) == len && fclose(file) == 0);
        return;
    }
    unlink(path);
    for (int place = 2; place >= 0; place--) {
        snprintf(path, sizeof path, "%s%s", folder, parts[place]);
        rmdir(path);
    }
}

int LLVMFuzzerTestOneInput(const uint8_t *data, size_t size) {
    static unsigned long number;
    static struct ids ids;
    if (!*root)
        begin();
    if (size == 0)
        return 0;
    unsigned codeset = data[0] % CODESETS;
    char folder[128];
    snprintf(folder, sizeof folder, "%s/%lu", root, number++);
    put_file(folder, data + 1, size - 1);
    find_ids(&ids, data + 1, size - 1);
    bool has_lived = is_well_formed(data + 1, size - 1) && ask_child(folder, codeset, &ids);
    ask(&here, folder, codeset, &ids, ours);
    put_file(folder, NULL, 0);
    if (!has_lived)
        return 0;
    for (size_t place = 0; place < ids.count * ASKED; place++) {
        if (strcmp(ours->texts[place], wanted->texts[place]))
            fprintf(stderr, "msgid '%s', question %zu: '%s' and not '%s'\n", ids.texts[place / ASKED], place % ASKED,
                    ours->texts[place], wanted->texts[place]);
        REQUIRE(!strcmp(ours->texts[place], wanted->texts[place]));
    }
    return 0;
}
