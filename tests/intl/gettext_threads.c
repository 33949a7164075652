/* Asks gettext from threads while others change what it stands on. Run by tests/intl/intl_threads.sh and
 * bench/intl_threads.
 *
 *   gettext_threads FOLDER OTHER SECONDS TIMES
 *
 * FOLDER and OTHER have catalogues fr/LC_MESSAGES/app.mo, which translate `text` as `one` and `other`; LANGUAGE is fr,
 * and LC_ALL a locale in UTF-8. Eight threads ask, half of them in a locale of their own; two bind the text domain to
 * the folders by turns; one replaces the catalogue in FOLDER by the other one and back; one changes the process's locale
 * by turns; one forks TIMES times, and each child asks; one is cancelled TIMES times while it asks for files that nobody
 * has asked for. All of it goes on for SECONDS at least.
 * Then one text domain is bound to one folder a million times, which allocates nothing and leaves a look-up as fast as
 * it was.
 *
 * It prints what went wrong, and nothing else. What hangs is ended by an alarm. */
#define _GNU_SOURCE
#include <libintl.h>
#include <locale.h>
#include <malloc.h>
#include <pthread.h>
#include <stdatomic.h>
#include <stdio.h>
#include <stdlib.h>
#include <string.h>
#include <sys/wait.h>
#include <time.h>
#include <unistd.h>

#define ASKING 8
#define PATIENCE (20 * SLOWER) /* seconds */

/* GCC's sanitizers don't hold the locks of their allocator in a fork, so a child that takes memory may hang. */
#if defined(__SANITIZE_ADDRESS__) || defined(__SANITIZE_THREAD__)
#define FORKS 0
#else
#define FORKS times
#endif

static const char *folders[2];
static atomic_int ended, wrong;
static int times;

static void fault(const char *what, const char *text) {
    if (!atomic_exchange(&wrong, 1))
        printf("wrong: %s '%s'\n", what, text);
}

/* One of the texts that may be; the process's locale is C at times, and then there are no translations. */
static int is_known(const char *text) {
    return !strcmp(text, "one") || !strcmp(text, "other") || !strcmp(text, "text");
}

static void *ask(void *own_locale) {
    locale_t locale = own_locale ? newlocale(LC_ALL_MASK, "C.UTF-8", (locale_t)0) : (locale_t)0;
    if (locale)
        uselocale(locale);
    const struct timespec pause = { 0, 100000 };
    for (unsigned i = 1; !atomic_load(&ended); i++) {
        const char *text = dgettext("app", "text");
        if (!is_known(text) || (locale && !strcmp(text, "text")))
            fault("an answer is", text);
        text = dngettext("app", "text", "texts", 1);
        if (!is_known(text))
            fault("an answer with a number is", text);
        if (strcmp(dgettext("nobody", "text"), "text"))
            fault("a domain without catalogues has", dgettext("nobody", "text"));
        if (i % 100 == 0)
            nanosleep(&pause, NULL);
    }
    uselocale(LC_GLOBAL_LOCALE);
    if (locale)
        freelocale(locale);
    return NULL;
}

static void *rebind(void *none) {
    const struct timespec pause = { 0, 20000 };
    for (unsigned i = 0; !atomic_load(&ended); i++) {
        bindtextdomain("app", folders[i % 2]);
        textdomain(i % 2 ? "app" : "nobody");
        nanosleep(&pause, NULL);
    }
    return none;
}

/* Each catalogue appears at once, in place of the one before. */
static void *replace(void *none) {
    char place[4096], kept[4100], other[4096], new[4100];
    snprintf(place, sizeof place, "%s/fr/LC_MESSAGES/app.mo", folders[0]);
    snprintf(other, sizeof other, "%s/fr/LC_MESSAGES/app.mo", folders[1]);
    snprintf(kept, sizeof kept, "%s.one", place);
    snprintf(new, sizeof new, "%s.new", place);
    unlink(kept);
    if (link(place, kept))
        fault("a file isn't linked:", kept);
    const struct timespec pause = { 0, 100000 };
    for (unsigned i = 0; !atomic_load(&ended) || i % 2; i++) {
        unlink(new);
        if (link(i % 2 ? kept : other, new) || rename(new, place))
            fault("a file isn't replaced:", place);
        nanosleep(&pause, NULL);
    }
    unlink(new);
    return none;
}

static void *change_locale(void *none) {
    const struct timespec pause = { 0, 20000 };
    for (unsigned i = 0; !atomic_load(&ended); i++) {
        setlocale(i % 4 < 2 ? LC_MESSAGES : LC_ALL, i % 2 ? "C" : "C.UTF-8");
        nanosleep(&pause, NULL);
    }
    return none;
}

static void *fork_often(void *none) {
    for (int i = 0; i < FORKS && !atomic_load(&wrong); i++) {
        pid_t child = fork();
        if (child == 0) {
            alarm(PATIENCE);
            _exit(is_known(dgettext("app", "text")) && is_known(gettext("text")) ? 0 : 1);
        }
        int status = -1;
        if (child < 0 || waitpid(child, &status, 0) != child || status)
            fault("a child hangs, or its answer is wrong", status == -1 ? "no child" : strsignal(WTERMSIG(status)));
    }
    return none;
}

static void *ask_for_new_files(void *round) {
    char domain[40];
    for (unsigned i = 0;; i++) {
        snprintf(domain, sizeof domain, "new%p_%u", round, i);
        dgettext(domain, "text");
        pthread_testcancel();
    }
    return NULL;
}

static void *cancel_often(void *none) {
    for (int i = 0; i < times && !atomic_load(&wrong); i++) {
        pthread_t thread;
        if (pthread_create(&thread, NULL, ask_for_new_files, (void *)(size_t)(i % 4 + 1)))
            break;
        struct timespec moment = { 0, 1000 * (i % 200) };
        nanosleep(&moment, NULL);
        pthread_cancel(thread);
        pthread_join(thread, NULL);
    }
    return none;
}

static void run_threads(unsigned seconds) {
    pthread_t asking[ASKING], changing[4], counted[2];
    for (int i = 0; i < ASKING; i++)
        pthread_create(&asking[i], NULL, ask, i % 2 ? &wrong : NULL);
    pthread_create(&changing[0], NULL, rebind, NULL);
    pthread_create(&changing[1], NULL, rebind, NULL);
    pthread_create(&changing[2], NULL, change_locale, NULL);
    pthread_create(&changing[3], NULL, replace, NULL);
    pthread_create(&counted[0], NULL, fork_often, NULL);
    pthread_create(&counted[1], NULL, cancel_often, NULL);
    struct timespec second = { 1, 0 };
    for (unsigned i = 0; i < seconds && !atomic_load(&wrong); i++)
        nanosleep(&second, NULL);
    pthread_join(counted[0], NULL);
    pthread_join(counted[1], NULL);
    atomic_store(&ended, 1);
    for (int i = 0; i < 4; i++)
        pthread_join(changing[i], NULL);
    for (int i = 0; i < ASKING; i++)
        pthread_join(asking[i], NULL);
}

static double processor_seconds(void) { return (double)clock() / CLOCKS_PER_SEC; }

static double look_ups(void) {
    double start = processor_seconds();
    for (int i = 0; i < 10000; i++)
        dgettext("app", "text");
    return processor_seconds() - start;
}

static void bind_equally(void) {
    setlocale(LC_ALL, "C.UTF-8");
    bindtextdomain("app", folders[0]);
    double before = look_ups();
    size_t taken = mallinfo2().uordblks;
    for (int i = 0; i < 1000000; i++)
        bindtextdomain("app", folders[0]);
    if (mallinfo2().uordblks > taken + 1000000)
        fault("a million equal bindings take", "memory");
    if (look_ups() > 20 * before + 0.1)
        fault("after a million equal bindings look-ups are", "slow");
}

int main(int argc, char **argv) {
    if (argc != 5 || !setlocale(LC_ALL, "C.UTF-8"))
        return 2;
    unsigned seconds = (unsigned)atoi(argv[3]);
    folders[0] = argv[1];
    folders[1] = argv[2];
    times = atoi(argv[4]);
    alarm(seconds + 240 * SLOWER);
    bindtextdomain("app", folders[0]);
    run_threads(seconds);
    if (!atomic_load(&wrong))
        bind_equally();
    return atomic_load(&wrong);
}
