/* A server that translates messages from several threads while its catalogues are replaced.
 *
 *     cc -pthread server.c $(pkg-config --cflags --libs kobdzila) -o server
 *     ./server FOLDER SOCKET [THREADS]
 *
 * FOLDER has a file LOCALE.mo for each locale. A client connects to the Unix socket SOCKET and sends lines, each a list
 * of languages, a tab and a msgid; it gets back the version, a tab and the translation. A file that is written in
 * FOLDER, or moved there, is loaded at once; `kill -HUP` shows all that were loaded, in one step. Readers never wait
 * for that. */
#define _GNU_SOURCE
#include <kobdzila.h>

#include <dirent.h>
#include <errno.h>
#include <poll.h>
#include <pthread.h>
#include <signal.h>
#include <stdio.h>
#include <stdlib.h>
#include <string.h>
#include <sys/inotify.h>
#include <sys/signalfd.h>
#include <sys/socket.h>
#include <sys/un.h>
#include <unistd.h>

#define DOMAIN "server"

static kob_store *store;
static int listening;

static void stop(const char *what) {
    perror(what);
    exit(1);
}

/* Load FOLDER/name, if its name ends in .mo. A file that is refused changes nothing: the one before stays. */
static void load(const char *folder, const char *name) {
    char path[4096], locale[256];
    size_t len = strlen(name);
    if (len < 4 || len >= sizeof locale || strcmp(name + len - 3, ".mo"))
        return;
    snprintf(locale, sizeof locale, "%.*s", (int)len - 3, name);
    snprintf(path, sizeof path, "%s/%s", folder, name);
    kob_refusal why;
    kob_catalogue *catalogue = kob_open_file(path, KOB_MO, 0, &why);
    int is_loaded = catalogue && kob_store_load(store, DOMAIN, locale, catalogue, &why);
    kob_release(catalogue);
    fprintf(stderr, "%s: %s\n", name, is_loaded ? "loaded" : kob_fault_text(why.fault));
}

static void load_all(const char *folder) {
    DIR *files = opendir(folder);
    if (!files)
        stop(folder);
    for (const struct dirent *file; (file = readdir(files));)
        load(folder, file->d_name);
    closedir(files);
}

/* If it fails, all loads are still pending, and the next signal publishes them. */
static void publish(void) {
    unsigned long long version;
    if (kob_store_publish(store, &version))
        fprintf(stderr, "version %llu\n", version);
    else
        fprintf(stderr, "not published\n");
}

/* Answer the lines of one client. Each is answered from one version, whatever is published meanwhile. */
static void serve(FILE *client, kob_reader *reader) {
    char line[4096];
    while (fgets(line, sizeof line, client)) {
        line[strcspn(line, "\n")] = 0;
        char *msgid = strchr(line, '\t');
        if (!msgid)
            break;
        *msgid++ = 0;
        const kob_set *set = kob_reader_enter(reader);
        const char *text = kob_set_gettext(set, DOMAIN, line, msgid);
        dprintf(fileno(client), "%llu\t%s\n", kob_set_version(set), text);
    }
}

/* Each thread has a reader of its own. */
static void *work(void *none) {
    kob_reader *reader = kob_store_reader(store);
    for (;;) {
        int connected = reader ? accept4(listening, NULL, NULL, SOCK_CLOEXEC) : -1;
        FILE *client = connected < 0 ? NULL : fdopen(connected, "r");
        if (client) {
            serve(client, reader);
            fclose(client);
        } else if (connected >= 0)
            close(connected);
        else if (!reader || (errno != EINTR && errno != ECONNABORTED))
            stop("accept");
    }
    return none;
}

static void start(const char *name, int threads) {
    struct sockaddr_un address = { .sun_family = AF_UNIX };
    listening = socket(AF_UNIX, SOCK_STREAM | SOCK_CLOEXEC, 0);
    snprintf(address.sun_path, sizeof address.sun_path, "%s", name);
    unlink(name);
    if (bind(listening, (const struct sockaddr *)&address, sizeof address) || listen(listening, 64))
        stop(name);
    for (pthread_t thread; threads > 0; threads--)
        if ((errno = pthread_create(&thread, NULL, work, NULL)))
            stop("thread");
}

/* Load each file that `changes` names. */
static void load_changed(int changes, const char *folder) {
    _Alignas(struct inotify_event) char events[8192];
    ssize_t len = read(changes, events, sizeof events);
    for (char *at = events; len > 0 && at < events + len;) {
        const struct inotify_event *event = (const struct inotify_event *)(const void *)at;
        if (event->mask & IN_Q_OVERFLOW)
            load_all(folder);
        else if (event->len)
            load(folder, event->name);
        at += sizeof *event + event->len;
    }
}

int main(int argc, char **argv) {
    if (argc < 3)
        return fprintf(stderr, "usage: server FOLDER SOCKET [THREADS]\n"), 2;
    const char *folder = argv[1], *name = argv[2];
    sigset_t taken;
    sigemptyset(&taken);
    sigaddset(&taken, SIGHUP);
    sigaddset(&taken, SIGTERM);
    sigaddset(&taken, SIGINT);
    pthread_sigmask(SIG_BLOCK, &taken, NULL); /* before there are threads, which inherit it */
    signal(SIGPIPE, SIG_IGN);
    struct pollfd from[] = { { inotify_init1(IN_CLOEXEC | IN_NONBLOCK), POLLIN, 0 },
                             { signalfd(-1, &taken, SFD_CLOEXEC | SFD_NONBLOCK), POLLIN, 0 } };
    if (inotify_add_watch(from[0].fd, folder, IN_CLOSE_WRITE | IN_MOVED_TO) < 0)
        stop(folder);
    store = kob_store_new();
    if (!store)
        stop("store");
    load_all(folder);
    publish();
    start(name, argc > 3 ? atoi(argv[3]) : 8);
    while (poll(from, 2, -1) >= 0 || errno == EINTR) {
        struct signalfd_siginfo signal;
        if (from[0].revents)
            load_changed(from[0].fd, folder);
        if (!from[1].revents || read(from[1].fd, &signal, sizeof signal) != sizeof signal)
            continue;
        if (signal.ssi_signo != SIGHUP)
            break;
        publish();
    }
    unlink(name);
    exit(0); /* the other threads may be answering: their memory goes with the process */
}
