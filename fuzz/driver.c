/* The arguments of msgfmt-or-gnu, its scan of the PO text, its log and the table of a log (c/driver/or_gnu_*.c).
 *
 * The input is words, each followed by a NUL; an empty word ends them, and the rest is the PO text. That text is then
 * also taken for a log. Nothing that the driver prints or logs may have a control character or be cut into more lines
 * or fields than there are files. */
#include "target.h"

#include "or_gnu.h"

#include <errno.h>
#include <getopt.h>
#include <sys/mman.h>
#include <unistd.h>

const char program_name[] = "msgfmt-or-gnu";
enum { MOST_WORDS = 40, MOST_PRINTED = 1 << 20 };

/* What the driver writes to its streams is kept here (the linker puts this function in the place of write_all). */
static char printed[MOST_PRINTED + 1];
static size_t printed_len;
static char log_name[64];
static int log_file = -1;

bool __real_write_all(int descriptor, const char *bytes, size_t len);
bool __wrap_write_all(int descriptor, const char *bytes, size_t len);

bool __wrap_write_all(int descriptor, const char *bytes, size_t len) {
    if (descriptor != STDOUT_FILENO && descriptor != STDERR_FILENO)
        return __real_write_all(descriptor, bytes, len);
    size_t room = MOST_PRINTED - printed_len, kept = len < room ? len : room;
    memcpy(printed + printed_len, bytes, kept);
    printed_len += kept;
    return true;
}

/* Whether bytes are UTF-8 without control characters, but for those in `but` (Unicode 15, table 3-7). */
static bool is_plain(const char *bytes, size_t len, const char *but) {
    const uint8_t *at = (const uint8_t *)bytes, *end = at + len;
    while (at < end) {
        size_t more = *at < 0x80 ? 0 : *at < 0xc2 ? 9 : *at < 0xe0 ? 1 : *at < 0xf0 ? 2 : *at < 0xf5 ? 3 : 9;
        if (more > (size_t)(end - at) - 1 || (!more && ((*at < 0x20 && !memchr(but, *at, strlen(but))) || *at == 0x7f)))
            return false;
        if (more && (at[1] < (*at == 0xe0 ? 0xa0 : *at == 0xf0 ? 0x90 : 0x80) ||
                     at[1] > (*at == 0xed ? 0x9f : *at == 0xf4 ? 0x8f : 0xbf)))
            return false;
        if (*at == 0xc2 && at[1] < 0xa0) /* C1 controls */
            return false;
        for (size_t place = 2; place <= more; place++)
            if ((at[place] & 0xc0) != 0x80)
                return false;
        at += more + 1;
    }
    return true;
}

static size_t count_of(const char *bytes, size_t len, char byte) {
    size_t count = 0;
    for (size_t place = 0; place < len; place++)
        count += bytes[place] == byte;
    return count;
}

/* Summarise the log, and return the status. */
static int summary(void) {
    printed_len = 0;
    int status = summarise(log_name);
    REQUIRE(is_plain(printed, printed_len, "\n"));
    return status;
}

/* A run's log: a line for each file, with five fields, and a table that counts them all. */
static void check_log(const struct request *request, const char *why) {
    size_t files = request->input_count ? (size_t)request->input_count : 1, len = 0;
    REQUIRE(ftruncate(log_file, 0) == 0);
    printed_len = 0;
    log_files(request, "GNU", 1, why, 12.5);
    REQUIRE(printed_len == 0 && lseek(log_file, 0, SEEK_SET) == 0);
    char *log = read_all(log_file, &len), all[64];
    REQUIRE(log && is_plain(log, len, "\n\t"));
    REQUIRE(count_of(log, len, '\n') == files && count_of(log, len, '\t') == 4 * files);
    free(log);
    REQUIRE(summary() == 0);
    snprintf(all, sizeof all, "\nall   %7zu %7zu ", files, files);
    REQUIRE(memmem(printed, printed_len, all, strlen(all)));
}

/* Any bytes as a log: lines are counted or reported, none is lost. */
static void check_other_log(const char *bytes, size_t len) {
    REQUIRE(ftruncate(log_file, 0) == 0 && __real_write_all(log_file, bytes, len));
    size_t lines = count_of(bytes, len, '\n') + (len && bytes[len - 1] != '\n'), bad = 0;
    int status = summary();
    if (printed_len == MOST_PRINTED)
        return;
    for (char *at = printed, *end = printed + printed_len; at < end; at = memchr(at, '\n', (size_t)(end - at)) + 1)
        bad += !strncmp(at, "msgfmt-or-gnu: ", 15);
    char *all = memmem(printed, printed_len, "\nall ", 5);
    REQUIRE(all && status == (bad ? 1 : 0));
    REQUIRE(strtoul(all + 5, NULL, 10) + bad == lines);
}

static void check_needs(const struct request *request, const char *text, size_t len) {
    struct needs needs = needs_of(request, text, len);
    REQUIRE(memchr(needs.why, '\0', sizeof needs.why) && is_plain(needs.why, strlen(needs.why), ""));
    REQUIRE(needs.line <= count_of(text, len, '\n') + 1);
    /* a line end at the end changes nothing */
    char *longer = malloc(len + 1);
    REQUIRE(longer);
    memcpy(longer, text, len);
    longer[len] = '\n';
    struct needs same = needs_of(request, longer, len + 1);
    REQUIRE(needs.line == same.line && !strcmp(needs.why, same.why));
    free(longer);
    if (*needs.why)
        check_log(request, needs.why);
}

static void open_log(void) {
    log_file = memfd_create("log", 0);
    REQUIRE(log_file >= 0);
    snprintf(log_name, sizeof log_name, "/proc/self/fd/%d", log_file);
    setenv("MSGFMT_OR_GNU_LOG", log_name, 1);
}

int LLVMFuzzerTestOneInput(const uint8_t *data, size_t size) {
    struct rest rest = { data, data + size };
    char *words[MOST_WORDS + 2] = { strdup("msgfmt"), NULL }, *kept[MOST_WORDS + 2];
    int count = 1;
    size_t len = 1;
    if (log_file < 0)
        open_log();
    while (count < MOST_WORDS && rest.at < rest.end) {
        words[count] = take_until(&rest, '\0', &len);
        if (!len)
            break;
        count++;
    }
    if (!len) {
        free(words[count]);
        words[count] = NULL;
    }
    memcpy(kept, words, sizeof words);
    optind = 0; /* (getopt_long begins anew) */
    struct request *request = read_words(count, words);
    REQUIRE(request && request->input_count >= 0 && request->input_count < count && !request->given[count]);
    REQUIRE(memchr(request->why, '\0', sizeof request->why) && is_plain(request->why, strlen(request->why), ""));
    REQUIRE(!request->output || !is_utf8(request->output) || is_plain(request->output, 0, ""));
    check_log(request, request->why);
    size_t text_len = (size_t)(rest.end - rest.at);
    char *text = malloc(text_len ? text_len : 1);
    REQUIRE(text);
    memcpy(text, rest.at, text_len);
    check_needs(request, text, text_len);
    check_other_log(text, text_len);
    free(text);
    free(request->given);
    free(request->folders);
    free(request);
    for (int place = 0; place < count; place++)
        free(kept[place]);
    return 0;
}
