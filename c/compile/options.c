/* The arguments of kob-compile. */
#include "compile.h"
#include "or_gnu.h"

#include <getopt.h>
#include <sched.h>
#include <stdlib.h>
#include <string.h>

static const char help[] =
    "usage: kob-compile [OPTION].. [FOLDER|FILE]..\n"
    "\n"
    "Compile the PO files of a project to MO files, all at once: those named, and those in the folders named\n"
    "(the current one, if none is). A PO file is compiled if it isn't older than its MO file.\n"
    "\n"
    "  -o, --output=FOLDER   write FOLDER/LANGUAGE/LC_MESSAGES/DOMAIN.mo, and not next to each PO file\n"
    "  -d, --domain=DOMAIN   the text domain of po/LANGUAGE.po; elsewhere compile DOMAIN.po alone\n"
    "      --exclude=NAME    don't look into folders that are called NAME; may be given several times\n"
    "      --force           compile all, older or not\n"
    "  -c                    run the checks of `msgfmt -c`\n"
    "  -f, --use-fuzzy       use fuzzy messages in the output\n"
    "      --statistics      print the number of messages of each PO file\n"
    "      --check           check all with -c, and write nothing\n"
    "      --no-gnu          don't run GNU msgfmt on what is refused\n"
    "  -j, --jobs=N          compile N at once; by default as many as there are processors\n"
    "      --watch           go on, and compile each PO file that changes\n"
    "      --json            print what was done as JSON\n"
    "      --sarif=FILE      write what was refused as SARIF 2.1.0\n"
    "  -q, --quiet           print no table\n"
    "  -h, --help            print this\n"
    "  -V, --version         print the version\n"
    "\n"
    "The status is 0, 1 if a PO file was refused, 2 for wrong arguments, and 3 if a file could not be read or written.\n";

enum { EXCLUDE = 256, FORCE, STATISTICS, CHECK, NO_GNU, WATCH, JSON, SARIF };
enum { MOST_JOBS = 1024 };

static const struct option long_options[] = {
    {"output", required_argument, NULL, 'o'},
    {"domain", required_argument, NULL, 'd'},
    {"exclude", required_argument, NULL, EXCLUDE},
    {"force", no_argument, NULL, FORCE},
    {"use-fuzzy", no_argument, NULL, 'f'},
    {"statistics", no_argument, NULL, STATISTICS},
    {"check", no_argument, NULL, CHECK},
    {"no-gnu", no_argument, NULL, NO_GNU},
    {"jobs", required_argument, NULL, 'j'},
    {"watch", no_argument, NULL, WATCH},
    {"json", no_argument, NULL, JSON},
    {"sarif", required_argument, NULL, SARIF},
    {"quiet", no_argument, NULL, 'q'},
    {"help", no_argument, NULL, 'h'},
    {"version", no_argument, NULL, 'V'},
    {0},
};

/* Return how many processors this process may use. */
static unsigned processors(void) {
    cpu_set_t set;
    int count = sched_getaffinity(0, sizeof set, &set) == 0 ? CPU_COUNT(&set) : 1;
    return count > 0 ? (unsigned)count : 1;
}

/* Read the number of -j. False if it isn't one from 1 on. */
static bool take_jobs(struct options *options, const char *word) {
    char *end;
    unsigned long jobs = strtoul(word, &end, 10);
    bool is_number = *word >= '0' && *word <= '9' && !*end && jobs > 0;
    options->jobs = jobs < MOST_JOBS ? (unsigned)jobs : MOST_JOBS;
    if (!is_number)
        tell("kob-compile: -j %s: not a number of threads", word);
    return is_number;
}

/* Take an option without a value. False if it isn't one. */
static bool take_flag(struct options *options, int code) {
    switch (code) {
    case 'c': options->checks = true; break;
    case 'f': options->keeps_fuzzy = true; break;
    case 'q': options->is_quiet = true; break;
    case FORCE: options->forces = true; break;
    case STATISTICS: options->wants_statistics = true; break;
    case CHECK: options->checks = options->only_checks = true; break;
    case NO_GNU: options->without_gnu = true; break;
    case WATCH: options->watches = true; break;
    case JSON: options->wants_json = true; break;
    default: return false;
    }
    return true;
}

static bool take(struct options *options, int code) {
    switch (code) {
    case 'o': options->output = optarg; break;
    case 'd': options->domain = optarg; break;
    case EXCLUDE: options->excluded[options->excluded_count++] = optarg; break;
    case SARIF: options->sarif = optarg; break;
    case 'j': return take_jobs(options, optarg);
    default: return take_flag(options, code);
    }
    return true;
}

/* Say why the arguments are wrong. */
static bool is_wrong(const char *why) {
    tell("kob-compile: %s; try --help", why);
    return false;
}

static bool are_consistent(const struct options *options) {
    if (options->domain && (!*options->domain || strchr(options->domain, '/')))
        return is_wrong("the DOMAIN of -d is a name without a slash");
    if (options->output && !*options->output)
        return is_wrong("the FOLDER of -o is empty");
    if (options->only_checks && options->output)
        return is_wrong("--check writes nothing, so it takes no -o");
    if (options->wants_json && options->sarif && !strcmp(options->sarif, "-"))
        return is_wrong("standard output has room for one of --json and --sarif=-");
    return true;
}

/* Print what was asked for. */
static enum status print(const char *text) {
    return fputs(text, stdout) >= 0 && fflush(stdout) == 0 ? DONE : TROUBLE;
}

bool read_options(struct options *options, int count, char **words, enum status *status) {
    static char here[] = ".", *only_here[] = {here, NULL};
    *options = (struct options){.jobs = processors(), .excluded = calloc((size_t)count + 1, sizeof *words)};
    if (!options->excluded)
        stop_for_memory();
    *status = USAGE;
    for (int code; (code = getopt_long(count, words, "o:d:cfj:qhV", long_options, NULL)) != -1;) {
        if (code == 'h' || code == 'V') {
            *status = print(code == 'h' ? help : "kob-compile (Kobdzila) " KOBDZILA_VERSION "\n");
            return false;
        }
        if (!take(options, code))
            return false;
    }
    options->place_count = count > optind ? count - optind : 1;
    options->places = count > optind ? words + optind : only_here;
    return are_consistent(options);
}
