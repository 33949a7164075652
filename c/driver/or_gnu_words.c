/* The arguments of msgfmt-or-gnu: GNU msgfmt's options, read by getopt_long as GNU msgfmt reads them, and which of them
 * Kobdzila's msgfmt can serve (GNU gettext manual, "Invoking the msgfmt Program"). */
#include "or_gnu.h"

#include <getopt.h>
#include <stdlib.h>
#include <string.h>
#include <unistd.h>

enum { NO_LETTER = 256, CHECK_DOMAIN, CHECK_FORMAT, CHECK_HEADER, ENDIANNESS, NO_CONVERT, NO_HASH, STATISTICS };
enum { REDUNDANCY = NO_HASH }; /* neither matters for what is compiled here */

static const char letters[] = "a:cCd:D:fhjl:L:o:Pr:vVx";

/* Options with NO_LETTER are those that only GNU msgfmt serves. */
static const struct option options[] = {
    {"alignment", required_argument, NULL, 'a'},
    {"check", no_argument, NULL, 'c'},
    {"check-accelerators", optional_argument, NULL, NO_LETTER},
    {"check-compatibility", no_argument, NULL, 'C'},
    {"check-domain", no_argument, NULL, CHECK_DOMAIN},
    {"check-format", no_argument, NULL, CHECK_FORMAT},
    {"check-header", no_argument, NULL, CHECK_HEADER},
    {"csharp", no_argument, NULL, NO_LETTER},
    {"csharp-resources", no_argument, NULL, NO_LETTER},
    {"desktop", no_argument, NULL, NO_LETTER},
    {"directory", required_argument, NULL, 'D'},
    {"endianness", required_argument, NULL, ENDIANNESS},
    {"help", no_argument, NULL, 'h'},
    {"java", no_argument, NULL, 'j'},
    {"java2", no_argument, NULL, NO_LETTER},
    {"keyword", optional_argument, NULL, NO_LETTER},
    {"language", required_argument, NULL, 'L'},
    {"locale", required_argument, NULL, 'l'},
    {"no-convert", no_argument, NULL, NO_CONVERT},
    {"no-hash", no_argument, NULL, NO_HASH},
    {"no-redundancy", no_argument, NULL, REDUNDANCY},
    {"output-file", required_argument, NULL, 'o'},
    {"properties-input", no_argument, NULL, 'P'},
    {"qt", no_argument, NULL, NO_LETTER},
    {"resource", required_argument, NULL, 'r'},
    {"source", no_argument, NULL, NO_LETTER},
    {"statistics", no_argument, NULL, STATISTICS},
    {"strict", no_argument, NULL, NO_LETTER},
    {"stringtable-input", no_argument, NULL, NO_LETTER},
    {"tcl", no_argument, NULL, NO_LETTER},
    {"template", required_argument, NULL, NO_LETTER},
    {"use-fuzzy", no_argument, NULL, 'f'},
    {"use-untranslated", no_argument, NULL, NO_LETTER},
    {"verbose", no_argument, NULL, 'v'},
    {"version", no_argument, NULL, 'V'},
    {"xml", no_argument, NULL, 'x'},
    {0},
};

/* Keep the first reason why GNU msgfmt is needed. */
static void needs_gnu(struct request *request, const char *before, const char *what) {
    if (request->why[0])
        return;
    size_t len = (size_t)(stpcpy(request->why, before) - request->why);
    show(request->why + len, sizeof request->why - len, what, strlen(what), DOUBLED);
}

/* Note an option that only GNU msgfmt serves, given by its letter or by its place in the table. */
static void only_gnu(struct request *request, int code, int place) {
    char letter[] = {'-', (char)code, '\0'};
    if (place >= 0)
        needs_gnu(request, "--", options[place].name);
    else
        needs_gnu(request, "", letter);
}

/* Note an argument that isn't an option of GNU msgfmt, or an option without its value: GNU msgfmt reports it. */
static void bad_option(struct request *request, char **words) {
    char letter[] = {'-', (char)optopt, '\0'};
    const char *word = words[optind - 1];
    bool is_long = !strncmp(word, "--", 2) || optopt == 0 || optopt >= NO_LETTER;
    needs_gnu(request, "bad option ", is_long ? word : letter);
}

/* Take an option whose value doesn't matter. False if it isn't one. */
static bool take_flag(struct request *request, int code) {
    switch (code) {
    case 'c': request->checks_format = request->checks_header = true; break;
    case 'C': request->checks_compatibility = true; break;
    case 'f': request->keeps_fuzzy = true; break;
    case 'h': request->wants_help = true; break;
    case 'v': request->verbosity++; break;
    case 'V': request->wants_version = true; break;
    case CHECK_FORMAT: request->checks_format = true; break;
    case CHECK_HEADER: request->checks_header = true; break;
    case CHECK_DOMAIN: break; /* it warns about `domain` lines, and texts with those go to GNU msgfmt anyway */
    case NO_CONVERT: request->keeps_charset = true; break;
    case NO_HASH: break;
    case STATISTICS: request->wants_statistics = true; break;
    default: return false;
    }
    return true;
}

static void take(struct request *request, int code, int place, char **words) {
    switch (code) {
    case '?': bad_option(request, words); break;
    case 'o': request->output = optarg; break;
    case 'D': request->folders[request->folder_count++] = optarg; break;
    case 'a':
        if (strcmp(optarg, "1"))
            needs_gnu(request, "--alignment=", optarg);
        break;
    case ENDIANNESS:
        if (strcmp(optarg, "little"))
            needs_gnu(request, "--endianness=", optarg);
        break;
    default:
        if (!take_flag(request, code))
            only_gnu(request, code, place);
    }
}

/* Note what only GNU msgfmt answers before it reads a PO file, and what Kobdzila's msgfmt can't do. */
static void look_at_names(struct request *request) {
    if (request->wants_version)
        needs_gnu(request, "", "--version");
    if (request->wants_help)
        needs_gnu(request, "", "--help");
    if (request->input_count == 0)
        needs_gnu(request, "", "no PO file is named");
    if (request->input_count > 1)
        needs_gnu(request, "", "more than one PO file");
    if (request->output && !is_utf8(request->output))
        needs_gnu(request, "", "a name that isn't UTF-8");
    /* (messages and an MO file couldn't be told apart there) */
    if (request->output && descriptor_of(request->output) == STDERR_FILENO)
        needs_gnu(request, "", "FILE is the error output");
}

struct request *read_words(int count, char **words) {
    struct request *request = calloc(1, sizeof *request);
    char **given = calloc((size_t)count + 1, sizeof *given);
    const char **folders = calloc((size_t)count + 1, sizeof *folders);
    if (!request || !given || !folders) {
        free(request);
        free(given);
        free(folders);
        return NULL;
    }
    memcpy(given, words, (size_t)count * sizeof *words);
    request->given = given;
    request->folders = folders;
    opterr = 0;
    for (int code, place = -1; (code = getopt_long(count, words, letters, options, &place)) != -1; place = -1)
        take(request, code, place, words);
    request->inputs = words + optind;
    request->input_count = count - optind;
    look_at_names(request);
    return request;
}
