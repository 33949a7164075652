/* Asks gettext where a lock that is held too long, or taken twice, is waited for without end. Run by
 * tests/intl/intl_chains.sh.
 *
 *   gettext_chains dlopen FOLDER TIMES PLUGIN   loads a plugin, whose constructor calls gettext, beside a thread that is
 *                                               answered in ever new codesets, for each of which a module is loaded
 *   gettext_chains signals FOLDER TIMES         a handler calls gettext, wherever the thread is in a call of its own
 *   gettext_chains threads FOLDER TIMES         16 threads ask, and the children that one more thread forks meanwhile
 *   gettext_chains opening FOLDER SLOW          all calls come back while a thread loads a module (gettext_slow.c), also in
 *                                               a child that is forked
 *
 * FOLDER has catalogues fr/LC_MESSAGES/DOMAIN.mo, where DOMAIN is one of those below: they translate `text` as `é texte`,
 * and `file` as `un é` and `deux é`, each in a charset or with strings of its own. LANGUAGE is fr, and LC_ALL a locale in
 * UTF-8. It prints what went wrong, and nothing else. */
#define _GNU_SOURCE
#include <dlfcn.h>
#include <iconv.h>
#include <libintl.h>
#include <locale.h>
#include <pthread.h>
#include <signal.h>
#include <stdatomic.h>
#include <stdio.h>
#include <stdlib.h>
#include <string.h>
#include <sys/wait.h>
#include <time.h>
#include <unistd.h>

#define ASKING 16
#define PATIENCE (100 * SLOWER) /* seconds */

/* GCC's sanitizers don't hold the locks of their allocator in a fork, so a child that takes memory may hang. */
#if defined(__SANITIZE_ADDRESS__) || defined(__SANITIZE_THREAD__)
#define FORKS 0
#else
#define FORKS times
#endif

static const char *const domains[] = { "utf8", "latin", "system", "full", "terms" };
static const char *const codesets[] = { "UTF-8", "ISO-8859-1", "ISO-8859-15", "CP1252", "ASCII", "MACINTOSH" };
enum { DOMAINS = sizeof domains / sizeof *domains, CODESETS = sizeof codesets / sizeof *codesets };

/* Codesets that glibc has in modules of their own. */
static const char *const modules[] = {
    "KOI8-R", "KOI8-U", "ISO-8859-2", "ISO-8859-3", "ISO-8859-4", "ISO-8859-5", "ISO-8859-7", "ISO-8859-9",
    "ISO-8859-13", "ISO-8859-16", "CP1250", "CP1251", "CP1253", "CP1254", "CP1257", "CP437", "CP850", "CP852", "CP866",
    "EUC-JP", "EUC-KR", "GB18030", "GBK", "BIG5", "SJIS", "TIS-620", "IBM037", "IBM273", "IBM277", "IBM278", "IBM280",
    "IBM284", "IBM285", "IBM297", "IBM500", "IBM871", "UTF-16", "UTF-7", "UTF-32", "ISO-2022-JP", "ISO-2022-KR",
    "HP-ROMAN8", "JOHAB", "VISCII", "TCVN5712-1", "ARMSCII-8"
};
enum { MODULES = sizeof modules / sizeof *modules };

static const char *folder;
static atomic_int ended, wrong;
static int times;

static void fault(const char *what, const char *text) {
    if (!atomic_exchange(&wrong, 1))
        printf("wrong: %s '%s'\n", what, text);
    fflush(stdout);
}

/* A domain of this catalogue in this codeset: a link of the catalogue's file has its name. */
static const char *domain_in(char *to, int domain, int codeset) {
    sprintf(to, "%s_%s", domains[domain], codesets[codeset]);
    return to;
}

/* What the texts are in each codeset, by iconv itself. */
static char texts[CODESETS][3][40];

static void convert_texts(void) {
    const char *in_utf8[] = { "é texte", "un é", "deux é" };
    for (int i = 0; i < CODESETS * 3; i++) {
        char to[40], *in = (char *)in_utf8[i % 3], *out = texts[i / 3][i % 3];
        size_t left = strlen(in), room = sizeof texts[0][0] - 1;
        snprintf(to, sizeof to, "%s//TRANSLIT", codesets[i / 3]);
        iconv_t descriptor = iconv_open(to, "UTF-8");
        iconv(descriptor, &in, &left, &out, &room);
        iconv_close(descriptor);
    }
}

static void ask_one(int domain, int codeset) {
    char name[60];
    domain_in(name, domain, codeset);
    const char *text = dgettext(name, "text"), *two = dngettext(name, "file", "files", 2);
    if (strcmp(text, texts[codeset][0]))
        fault(name, text);
    if (strcmp(two, texts[codeset][2]))
        fault(name, two);
    if (strcmp(dgettext(name, "none"), "none"))
        fault(name, "a text that isn't there");
}

static void bind_all(void) {
    char name[60];
    for (int i = 0; i < DOMAINS * CODESETS; i++) {
        domain_in(name, i / CODESETS, i % CODESETS);
        bindtextdomain(name, folder);
        bind_textdomain_codeset(name, codesets[i % CODESETS]);
    }
}

/* Ask in a codeset that nobody has asked in. */
static void ask_module(unsigned i) {
    char name[60], codeset[60];
    snprintf(name, sizeof name, "utf8_%s", codesets[i % CODESETS]);
    snprintf(codeset, sizeof codeset, "%s//X%u", modules[i % MODULES], i);
    bind_textdomain_codeset(name, codeset);
    dgettext(name, "text");
}

/* ---- dlopen */

static void *ask_modules(void *none) {
    for (unsigned i = 0; i < MODULES; i++)
        ask_module(i);
    atomic_store(&ended, 1);
    return none;
}

static int load_often(const char *plugin) {
    pthread_t thread;
    alarm(PATIENCE);
    if (pthread_create(&thread, NULL, ask_modules, NULL))
        return 2;
    for (int i = 0; i < 100 || !atomic_load(&ended); i++) {
        void *loaded = dlopen(plugin, RTLD_NOW);
        if (!loaded)
            return 3;
        dlclose(loaded);
    }
    pthread_join(thread, NULL);
    return 0;
}

/* A module is loaded once in a process. */
static void load_in_children(const char *plugin) {
    for (int i = 0; i < times && !atomic_load(&wrong); i += 100) {
        pid_t child = fork();
        if (child == 0) {
            srand((unsigned)i);
            _exit(load_often(plugin));
        }
        int status = -1;
        if (child < 0 || waitpid(child, &status, 0) != child || status)
            fault("beside dlopen:", WIFSIGNALED(status) ? strsignal(WTERMSIG(status)) : "a plugin isn't loaded");
    }
}

/* ---- signals */

static timer_t timer;
static atomic_ulong handled;

static void ring_soon(void) {
    static unsigned long turn;
    struct itimerspec soon = { .it_value.tv_nsec = 2000 + (long)(turn++ * 7919 % 100000) };
    timer_settime(timer, 0, &soon, NULL);
}

/* The last signal may be handled when the timer is deleted. */
static void handle(int signal) {
    (void)signal;
    ask_one(0, 0);
    ask_one(1, 0);
    ask_one(0, 1);
    atomic_fetch_add(&handled, 1);
    if (!atomic_load(&ended))
        ring_soon();
}

static void interrupt_often(void) {
    struct sigaction action = { .sa_handler = handle, .sa_flags = SA_RESTART };
    struct sigevent event = { .sigev_notify = SIGEV_SIGNAL, .sigev_signo = SIGUSR1 };
    char domain[40];
    ask_one(0, 0);
    ask_one(1, 0);
    ask_one(0, 1);
    sigaction(SIGUSR1, &action, NULL);
    timer_create(CLOCK_MONOTONIC, &event, &timer);
    ring_soon();
    for (int i = 0; i < times && !atomic_load(&wrong); i++) {
        snprintf(domain, sizeof domain, "new%d", i % 500);
        dgettext(domain, "text");
        bindtextdomain(domain, i % 2 ? "/a" : "/b");
        textdomain(domain);
        ask_one(0, 0);
        if (i % 16 == 0)
            setlocale(LC_ALL, "C.UTF-8");
        if (i % 64 == 0) {
            snprintf(domain, sizeof domain, "utf8_%s", codesets[3]);
            bind_textdomain_codeset(domain, modules[i / 64 % MODULES]);
            dgettext(domain, "text");
        }
    }
    atomic_store(&ended, 1);
    timer_delete(timer);
    if (atomic_load(&handled) < 10)
        fault("hardly any signal came:", "");
}

/* ---- threads */

static void *ask(void *first) {
    for (unsigned i = (unsigned)(size_t)first; !atomic_load(&ended); i++) {
        ask_one((int)(i % DOMAINS), (int)(i / DOMAINS % (CODESETS - 1)));
        if (i % 50 == 0)
            usleep(100);
    }
    return NULL;
}

/* Its domains aren't those that the others ask for. */
static void *ask_anew(void *none) {
    char name[60];
    for (unsigned i = 0; !atomic_load(&ended); i++) {
        domain_in(name, (int)(i % DOMAINS), CODESETS - 1);
        bind_textdomain_codeset(name, modules[i % MODULES]);
        dgettext(name, "text");
        usleep(200);
    }
    return none;
}

static void ask_in_child(int i) {
    char name[60];
    alarm(PATIENCE);
    for (int each = 0; each < DOMAINS * (CODESETS - 1); each++)
        ask_one(each % DOMAINS, each / DOMAINS);
    domain_in(name, i % DOMAINS, CODESETS - 1);
    bind_textdomain_codeset(name, modules[i % MODULES]);
    dgettext(name, "text");
    _exit(atomic_load(&wrong));
}

static void run_threads(void) {
    pthread_t threads[ASKING + 1];
    for (int i = 0; i <= ASKING; i++)
        pthread_create(&threads[i], NULL, i < ASKING ? ask : ask_anew, (void *)(size_t)(i * 7));
    for (int i = 0; i < FORKS && !atomic_load(&wrong); i++) {
        pid_t child = fork();
        if (child == 0)
            ask_in_child(i);
        int status = -1;
        if (child < 0 || waitpid(child, &status, 0) != child || status)
            fault("in a child:", WIFSIGNALED(status) ? strsignal(WTERMSIG(status)) : "another answer");
    }
    sleep(1);
    atomic_store(&ended, 1);
    for (int i = 0; i <= ASKING; i++)
        pthread_join(threads[i], NULL);
}

/* ---- opening */

static void *ask_slowly(void *none) {
    bind_textdomain_codeset("utf8_MACINTOSH", "SLOW");
    dgettext("utf8_MACINTOSH", "text");
    return none;
}

/* What glibc's lock over its modules isn't needed for. */
static void call_all(const char *new) {
    for (int each = 0; each < DOMAINS * (CODESETS - 1); each++)
        ask_one(each % DOMAINS, each / DOMAINS);
    bindtextdomain(new, folder);
    textdomain(new);
    dgettext(new, "text");
    if (!setlocale(LC_ALL, "C.UTF-8"))
        fault("there is no locale", "C.UTF-8");
}

static void call_in_child(void) {
    alarm(PATIENCE);
    call_all("child");
    bind_textdomain_codeset("latin_MACINTOSH", "KOI8-R");
    if (strcmp(dgettext("latin_MACINTOSH", "text"), "text"))
        fault("glibc's lock was taken, and there is a new conversion", "");
    _exit(atomic_load(&wrong));
}

static void call_while_opening(const char *slow) {
    char begun[4096];
    pthread_t thread;
    int status = -1;
    snprintf(begun, sizeof begun, "%s.begun", slow);
    alarm(PATIENCE);
    for (int each = 0; each < DOMAINS * (CODESETS - 1); each++)
        ask_one(each % DOMAINS, each / DOMAINS);
    pthread_create(&thread, NULL, ask_slowly, NULL);
    while (access(begun, F_OK))
        usleep(1000);
    call_all("parent");
    pid_t child = fork();
    if (child == 0)
        call_in_child();
    if (child < 0 || waitpid(child, &status, 0) != child || status)
        fault("in a child:", WIFSIGNALED(status) ? strsignal(WTERMSIG(status)) : "another answer");
    fclose(fopen(slow, "w"));
    pthread_join(thread, NULL);
}

int main(int argc, char **argv) {
    if (argc < 4 || !setlocale(LC_ALL, ""))
        return 2;
    folder = argv[2];
    times = atoi(argv[3]);
    convert_texts();
    bind_all();
    if (!strcmp(argv[1], "dlopen") && argc == 5)
        load_in_children(argv[4]);
    else if (!strcmp(argv[1], "signals"))
        interrupt_often();
    else if (!strcmp(argv[1], "threads"))
        run_threads();
    else if (!strcmp(argv[1], "opening"))
        call_while_opening(argv[3]);
    else
        return 2;
    return atomic_load(&wrong);
}
