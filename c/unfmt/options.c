/* The arguments of kob-msgunfmt. */
#include "unfmt.h"
#include "or_gnu.h"

#include <errno.h>
#include <getopt.h>
#include <limits.h>
#include <stdio.h>
#include <stdlib.h>

static const char help[] =
    "usage: kob-msgunfmt [OPTION].. [FILE]..\n"
    "\n"
    "Write the PO text of MO files, as GNU msgunfmt does. Without FILE, or with -, read standard input.\n"
    "\n"
    "  -o, --output-file=FILE  write FILE, and not standard output\n"
    "  -e, --no-escape         write characters as they are (the default)\n"
    "  -E, --escape            write octal escapes for bytes other than printable ASCII\n"
    "      --force-po          write a text even if there is no message\n"
    "  -i, --indent            indent the strings\n"
    "      --strict            write lines with # between the messages\n"
    "  -w, --width=NUMBER      break lines that are longer (79); 0 breaks none\n"
    "      --no-wrap           break lines only after newlines in a string\n"
    "  -s, --sort-output       sort the messages by their msgid\n"
    "  -v, --verbose           accepted, and changes nothing\n"
    "  -h, --help              print this\n"
    "  -V, --version           print the version\n"
    "\n"
    "The status is 0, or 1 if a file can't be read or written, or is refused.\n";

enum { FORCE_PO = 256, STRICT, NO_WRAP, FOR_GNU };
enum { WIDTH = 79, LEAST_WIDTH = 20 };

static const struct option long_options[] = {
    {"output-file", required_argument, NULL, 'o'},
    {"no-escape", no_argument, NULL, 'e'},
    {"escape", no_argument, NULL, 'E'},
    {"force-po", no_argument, NULL, FORCE_PO},
    {"indent", no_argument, NULL, 'i'},
    {"strict", no_argument, NULL, STRICT},
    {"width", required_argument, NULL, 'w'},
    {"no-wrap", no_argument, NULL, NO_WRAP},
    {"sort-output", no_argument, NULL, 's'},
    {"verbose", no_argument, NULL, 'v'},
    {"help", no_argument, NULL, 'h'},
    {"version", no_argument, NULL, 'V'},
    {"java", no_argument, NULL, FOR_GNU},
    {"csharp", no_argument, NULL, FOR_GNU},
    {"csharp-resources", no_argument, NULL, FOR_GNU},
    {"tcl", no_argument, NULL, FOR_GNU},
    {"properties-output", no_argument, NULL, FOR_GNU},
    {"stringtable-output", no_argument, NULL, FOR_GNU},
    {"color", optional_argument, NULL, FOR_GNU},
    {0},
};

/* Read the number of -w. Less than LEAST_WIDTH is that, and 0 breaks no line. */
static bool take_width(struct options *options, const char *word) {
    char *end;
    errno = 0;
    unsigned long width = strtoul(word, &end, 10);
    if (*word < '0' || *word > '9' || *end) {
        tell("kob-msgunfmt: -w %s: not a number of columns", word);
        return false;
    }
    if (width == 0)
        options->wraps = false;
    options->width = width > INT_MAX / 2 ? INT_MAX / 2 : width < LEAST_WIDTH ? LEAST_WIDTH : (int)width;
    return true;
}

/* Take an option. False if it isn't one. */
static bool take(struct options *options, int code) {
    switch (code) {
    case 'o': options->output = optarg; break;
    case 'e': options->escapes = false; break;
    case 'E': options->escapes = true; break;
    case FORCE_PO: options->forces = true; break;
    case 'i': options->indents = true; break;
    case STRICT: options->is_strict = true; break;
    case 'w': return take_width(options, optarg);
    case NO_WRAP: options->wraps = false; break;
    case 's': options->sorts = true; break;
    case 'v': break;
    default:
        tell(code == '?' ? "try kob-msgunfmt --help" : "kob-msgunfmt: this option needs GNU msgunfmt");
        return false;
    }
    return true;
}

/* Print what was asked for. */
static enum status print(const char *text) {
    return fputs(text, stdout) >= 0 && fflush(stdout) == 0 ? DONE : FAILED;
}

bool read_options(struct options *options, int count, char **words, enum status *status) {
    static char standard_input[] = "-", *only_input[] = {standard_input, NULL};
    *options = (struct options){.wraps = true, .width = WIDTH};
    *status = FAILED;
    for (int code; (code = getopt_long(count, words, "o:eEiw:svhV", long_options, NULL)) != -1;) {
        if (code == 'h' || code == 'V') {
            *status = print(code == 'h' ? help : "kob-msgunfmt (Kobdzila) " KOBDZILA_VERSION "\n");
            return false;
        }
        if (!take(options, code))
            return false;
    }
    options->name_count = count > optind ? count - optind : 1;
    options->names = count > optind ? words + optind : only_input;
    return true;
}
