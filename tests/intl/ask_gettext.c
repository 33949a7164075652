/* Asks gettext and its kin what the words of its command line say, and prints each answer as a line: its text, in which
 * bytes that aren't printed stand as \xNN, and errno, which was 77 before the call. It is compiled for the C library's
 * gettext. tests/intl/intl_answers.py and tests/intl/intl_secure.sh run it.
 *
 *   locale NAME               setlocale(LC_ALL, NAME)
 *   messages NAME             setlocale(LC_MESSAGES, NAME)
 *   uselocale NAME            uselocale of a new locale of this name; `-`: of the process's again
 *   thread                    all words after this one are for a new thread
 *   domain NAME               textdomain; `-` is NULL, here and below
 *   bind DOMAIN FOLDER        bindtextdomain
 *   codeset DOMAIN CODESET    bind_textdomain_codeset
 *   env NAME VALUE            setenv
 *   chdir FOLDER
 *   user                      prints the effective user's number
 *   descriptors N             leaves the program N file descriptors
 *   put FROM TO               makes TO a link to the file FROM, in place of the file that it is
 *   rewrite FROM TO           writes the bytes of FROM over TO in place, and puts its modification time back
 *   remove FILE
 *   ask DOMAIN MSGID          dgettext; gettext for the domain `-`
 *   plural DOMAIN N           dngettext of `file` and `files`
 *   null DOMAIN N             dngettext of NULL and `files`
 *   of CATEGORY DOMAIN MSGID  dcgettext in the category of this number
 *   first                     prints the first answer of `ask` once more, from where it was
 *
 * The last four before `first` ask three times, and the answers must be the same.
 */
#define _GNU_SOURCE
#include <errno.h>
#include <libintl.h>
#include <locale.h>
#include <pthread.h>
#include <stdio.h>
#include <stdlib.h>
#include <string.h>
#include <sys/resource.h>
#include <sys/stat.h>
#include <unistd.h>

static void print(const char *text) {
    int cause = errno;
    for (const unsigned char *c = (const unsigned char *)(text ? text : "(null)"); *c; c++)
        if (*c >= ' ' && *c < 0x7f && *c != '\\')
            putchar(*c);
        else
            printf("\\x%02x", *c);
    printf(" %d\n", cause);
}

static const char *text_of(const char *word) { return strcmp(word, "-") ? word : NULL; }

static void use(const char *name) {
    locale_t locale = text_of(name) ? newlocale(LC_ALL_MASK, name, (locale_t)0) : LC_GLOBAL_LOCALE;
    if (!locale)
        exit(3);
    uselocale(locale);
}

static void limit_descriptors(unsigned long n) {
    struct rlimit limit;
    getrlimit(RLIMIT_NOFILE, &limit);
    limit.rlim_cur = n;
    if (setrlimit(RLIMIT_NOFILE, &limit))
        exit(3);
}

/* The file appears at once, as an installer puts it there. */
static void put(const char *from, const char *to) {
    char new[4096];
    snprintf(new, sizeof new, "%s.new", to);
    unlink(new);
    if (link(from, new) || rename(new, to))
        exit(3);
    unlink(new);
}

/* (At once the time of the change would be that of the last one, for a clock that ticks.) */
static void rewrite(const char *from, const char *to) {
    char bytes[4096];
    struct stat before;
    FILE *in = fopen(from, "r"), *out = fopen(to, "r+");
    usleep(50000);
    if (!in || !out || fstat(fileno(out), &before))
        exit(3);
    size_t len = fread(bytes, 1, sizeof bytes, in);
    const struct timespec times[] = { before.st_atim, before.st_mtim };
    if ((off_t)len != before.st_size || fwrite(bytes, 1, len, out) != len || fflush(out) ||
        futimens(fileno(out), times))
        exit(3);
    fclose(in);
    fclose(out);
}

static const char *first;

static const char *ask(const char *domain, const char *msgid) {
    const char *text = domain ? dgettext(domain, msgid) : gettext(msgid);
    if (!first)
        first = text;
    return text;
}

/* Whether it is the answer that was given before. */
static const char *again(const char *before, const char *now) {
    return !before || !now ? now : strcmp(before, now) ? "another answer" : now;
}
#define THRICE(call) again(again(call, call), call)

static void *run(void *words);

static void run_in_thread(char **words) {
    pthread_t thread;
    if (pthread_create(&thread, NULL, run, words))
        exit(3);
    pthread_join(thread, NULL);
}

/* Does what the word says, and gives the one after its own. */
static char **step(char **words) {
    const char *what = words[0], *a = words[1] ? words[1] : "", *b = words[1] && words[2] ? words[2] : "";
    errno = 77;
    if (!strcmp(what, "locale"))
        return setlocale(LC_ALL, a) ? words + 2 : (puts("no such locale"), words + 2);
    if (!strcmp(what, "messages"))
        return setlocale(LC_MESSAGES, a) ? words + 2 : (puts("no such locale"), words + 2);
    if (!strcmp(what, "uselocale"))
        return use(a), words + 2;
    if (!strcmp(what, "domain"))
        return print(textdomain(text_of(a))), words + 2;
    if (!strcmp(what, "chdir"))
        return chdir(a) ? exit(3) : (void)0, words + 2;
    if (!strcmp(what, "user"))
        return printf("user %u\n", (unsigned)geteuid()), words + 1;
    if (!strcmp(what, "descriptors"))
        return limit_descriptors(strtoul(a, NULL, 10)), words + 2;
    if (!strcmp(what, "bind"))
        return print(bindtextdomain(text_of(a), text_of(b))), words + 3;
    if (!strcmp(what, "codeset"))
        return print(bind_textdomain_codeset(a, text_of(b))), words + 3;
    if (!strcmp(what, "env"))
        return setenv(a, b, 1) ? exit(3) : (void)0, words + 3;
    if (!strcmp(what, "ask"))
        return print(THRICE(ask(text_of(a), text_of(b)))), words + 3;
    if (!strcmp(what, "plural"))
        return print(THRICE(dngettext(a, "file", "files", strtoul(b, NULL, 10)))), words + 3;
    if (!strcmp(what, "null"))
        return print(THRICE(dngettext(text_of(a), NULL, "files", strtoul(b, NULL, 10)))), words + 3;
    if (!strcmp(what, "of"))
        return print(THRICE(dcgettext(b, words[3], atoi(a)))), words + 4;
    if (!strcmp(what, "put"))
        return put(a, b), words + 3;
    if (!strcmp(what, "rewrite"))
        return rewrite(a, b), words + 3;
    if (!strcmp(what, "remove"))
        return unlink(a), words + 2;
    if (!strcmp(what, "first"))
        return print(first), words + 1;
    exit(3);
}

static void *run(void *all) {
    char **words = all;
    while (*words) {
        if (!strcmp(*words, "thread")) {
            run_in_thread(words + 1);
            break;
        }
        words = step(words);
    }
    return NULL;
}

int main(int argc, char **argv) {
    (void)argc;
    setlocale(LC_ALL, "");
    run(argv + 1);
    return 0;
}
