/* Compiling on each change: inotify tells of files that were written and closed, or renamed into their place, and of new
 * folders. Changes within a moment are taken together, since editors save several files at once and a file in steps. */
#include "compile.h"
#include "or_gnu.h"

#include <errno.h>
#include <limits.h>
#include <poll.h>
#include <signal.h>
#include <stdlib.h>
#include <string.h>
#include <sys/inotify.h>
#include <sys/stat.h>
#include <unistd.h>

enum { QUIET = 30, MOST_QUIETS = 10 }; /* milliseconds without a change that end a moment, and how many at most */
enum { PAUSE = 500 }; /* milliseconds between two looks for an argument that isn't there */
enum { GOES = IN_DELETE | IN_MOVED_FROM }; /* which matters for a LINGUAS alone */
enum { CHANGES = IN_CLOSE_WRITE | IN_MOVED_TO | IN_CREATE | IN_MOVE_SELF | GOES };

struct folder {
    char *path;    /* NULL if no folder has this number */
    bool is_given; /* it is an argument, or that of a file which is one: no folder above it is watched */
};

struct watcher {
    const struct options *options;
    int there; /* how many of the arguments are there, as far as was heard */
    int inotify;
    struct folder *folders; /* by the number of their watch */
    size_t folder_count;
    char **changed; /* PO files, and folders that came: all in them may have changed */
    size_t changed_count;
    bool has_lost;  /* the system has left changes out */
    bool is_full;   /* no more folders can be watched */
    bool has_news;
    sigset_t signals; /* that are blocked, but for the wait */
};

/* ---- folders */

void watch_folder(struct watcher *watcher, const char *path, bool is_given) {
    int number = inotify_add_watch(watcher->inotify, path, CHANGES | IN_ONLYDIR);
    if (number < 0) {
        if (errno != ENOENT && !watcher->is_full)
            tell("kob-compile: cannot watch %s: %s", path,
                 errno == ENOSPC ? "fs.inotify.max_user_watches is too small" : strerror(errno));
        watcher->is_full |= errno == ENOSPC;
        return;
    }
    if ((size_t)number >= watcher->folder_count) {
        size_t count = 2 * (size_t)number + 2;
        struct folder *folders = realloc(watcher->folders, count * sizeof *folders);
        if (!folders)
            stop_for_memory();
        for (size_t place = watcher->folder_count; place < count; place++)
            folders[place] = (struct folder){0};
        watcher->folders = folders;
        watcher->folder_count = count;
    }
    free(watcher->folders[number].path);
    watcher->folders[number] = (struct folder){text_of("%s", path), is_given};
}

/* Count the arguments that are there. */
static int count_places(const struct options *options) {
    int count = 0;
    for (int place = 0; place < options->place_count; place++)
        count += access(options->places[place], F_OK) == 0;
    return count;
}

/* Look for an argument that has come back, or has come at last: all in it may have changed. */
static void look_for_places(struct watcher *watcher) {
    if (count_places(watcher->options) > watcher->there)
        watcher->has_lost = watcher->has_news = true;
}

/* Whether a path is that of a file or a folder, or of what is in the folder. */
static bool is_at_or_in(const char *path, const char *place) {
    size_t len = strlen(place);
    return !strncmp(path, place, len) && (path[len] == '\0' || path[len] == '/');
}

bool was_changed(const struct watcher *watcher, const char *path) {
    for (size_t place = 0; place < watcher->changed_count; place++)
        if (is_at_or_in(path, watcher->changed[place]))
            return true;
    return watcher->has_lost;
}

static void forget_changes(struct watcher *watcher) {
    for (size_t place = 0; place < watcher->changed_count; place++)
        free(watcher->changed[place]);
    free(watcher->changed);
    watcher->changed = NULL;
    watcher->changed_count = 0;
    watcher->has_lost = watcher->has_news = false;
}

/* ---- events */

/* Whether a file that was made has nothing in it yet: it will be written and closed. One that was linked into its place
 * is there as a whole, and no other event comes. */
static bool is_still_empty(const char *path) {
    struct stat about;
    return lstat(path, &about) < 0 || (S_ISREG(about.st_mode) && about.st_size == 0);
}

static void add_change(struct watcher *watcher, const char *folder, const struct inotify_event *event) {
    char *path = path_of(folder, event->name);
    bool is_made = !(event->mask & (IN_CLOSE_WRITE | IN_MOVED_TO));
    bool counts = !is_made || !is_still_empty(path);
    watcher->has_news |= counts; /* (also if it was changed before a round that wasn't possible) */
    if (!counts || was_changed(watcher, path)) {
        free(path);
        return;
    }
    char **changed = realloc(watcher->changed, (watcher->changed_count + 1) * sizeof *changed);
    if (!changed)
        stop_for_memory();
    watcher->changed = changed;
    watcher->changed[watcher->changed_count++] = path;
}

static void take_event(struct watcher *watcher, const struct inotify_event *event) {
    size_t number = (size_t)event->wd;
    if (event->mask & IN_Q_OVERFLOW) {
        watcher->has_lost = watcher->has_news = true;
        return;
    }
    if (event->wd < 0 || number >= watcher->folder_count || !watcher->folders[number].path)
        return;
    struct folder *folder = &watcher->folders[number];
    if (event->mask & IN_MOVE_SELF && folder->is_given) {
        inotify_rm_watch(watcher->inotify, event->wd); /* (then it is ignored) */
    } else if (event->mask & IN_IGNORED) {
        watcher->there -= folder->is_given;
        free(folder->path);
        *folder = (struct folder){0};
    } else if (event->len && !strcmp(event->name, "LINGUAS")) {
        watcher->has_news = true;
    } else if (event->len && !(event->mask & GOES)) {
        bool is_folder = event->mask & IN_ISDIR;
        if (is_folder ? event->name[0] != '.' : is_po_name(event->name))
            add_change(watcher, folder->path, event);
    }
}

static void take_events(struct watcher *watcher) {
    enum { ROOM = 64 * (sizeof(struct inotify_event) + NAME_MAX + 1) };
    _Alignas(struct inotify_event) char events[ROOM];
    ssize_t len;
    while ((len = read(watcher->inotify, events, sizeof events)) > 0)
        for (char *at = events; at < events + len;) {
            const struct inotify_event *event = (const void *)at;
            take_event(watcher, event);
            at += sizeof *event + event->len;
        }
}

/* Wait for events, for some milliseconds or without end (-1). False if there was none, or a signal came. */
static bool hear(struct watcher *watcher, int milliseconds) {
    struct pollfd from = {.fd = watcher->inotify, .events = POLLIN};
    struct timespec most = {.tv_nsec = milliseconds * 1000000L};
    sigset_t before;
    pthread_sigmask(SIG_BLOCK, &watcher->signals, &before);
    int ready = stopped_by ? 0 : ppoll(&from, 1, milliseconds < 0 ? NULL : &most, &before);
    pthread_sigmask(SIG_SETMASK, &before, NULL);
    if (ready > 0)
        take_events(watcher);
    return ready > 0;
}

/* Wait until something has changed, and then nothing for a moment. False if a signal came. */
static bool wait_for_changes(struct watcher *watcher) {
    while (!watcher->has_news && !stopped_by) {
        hear(watcher, watcher->there < watcher->options->place_count ? PAUSE : -1);
        look_for_places(watcher);
    }
    for (int count = 0; count < MOST_QUIETS && hear(watcher, QUIET); count++)
        continue;
    return !stopped_by;
}

/* ---- rounds */

static int by_path(const void *one, const void *two) {
    return strcmp(((const struct catalogue *)one)->po, ((const struct catalogue *)two)->po);
}

/* Leave out what was there before and hasn't changed since. What became of it stays: it may be refused, or lack fields. */
static void leave_out(struct catalogues *all, struct catalogues *before) {
    for (size_t place = 0; place < all->count; place++) {
        struct catalogue *it = &all->at[place], now = *it;
        struct catalogue *known = before->count ? bsearch(it, before->at, before->count, sizeof *it, by_path) : NULL;
        if (!known || it->is_changed)
            continue;
        *it = *known;
        *known = now;
        it->is_kept = true;
        if (it->outcome == IS_COMPILED)
            it->outcome = IS_CURRENT;
    }
}

static void print_round(const struct run *run) {
    enum { ROOM = 4096 };
    char name[ROOM];
    for (size_t place = 0; place < run->catalogues.count; place++) {
        const struct catalogue *it = &run->catalogues.at[place];
        if (it->outcome != IS_COMPILED || run->options.is_quiet || run->options.wants_json)
            continue;
        const kob_counts *counts = &it->counts;
        unsigned tenths = tenths_of(counts->translated, counts->translated + counts->fuzzy + counts->untranslated);
        show(name, sizeof name, it->po, strlen(it->po), DOUBLED);
        printf("%s: %u.%u %% translated\n", name, tenths / 10, tenths % 10);
    }
    fflush(stdout);
}

/* Compile what has changed. USAGE if no round is possible, such as for two PO files with one MO file: what changed is
 * compiled when there is one. */
static enum status compile_round(struct run *run, struct watcher *watcher, bool is_first) {
    struct catalogues before = run->catalogues;
    run->catalogues = (struct catalogues){0};
    run->finished = 0;
    clock_gettime(CLOCK_MONOTONIC, &run->start);
    watcher->there = count_places(&run->options);
    enum status found = find_catalogues(run, watcher);
    if (found == USAGE) {
        free_catalogues(&run->catalogues);
        run->catalogues = before;
        watcher->has_news = false;
        return USAGE;
    }
    if (!is_first)
        leave_out(&run->catalogues, &before);
    free_catalogues(&before);
    forget_changes(watcher);
    compile_all(run);
    if (is_first)
        report_counts(run);
    else
        print_round(run);
    report_troubles(run);
    enum status status = status_of(run);
    print_for_machines(run, status > found ? status : found);
    return DONE;
}

enum status watch(struct run *run) {
    struct watcher watcher = {.options = &run->options, .inotify = raised(inotify_init1(IN_NONBLOCK | IN_CLOEXEC))};
    if (watcher.inotify < 0) {
        tell("kob-compile: cannot watch files: %s", strerror(errno));
        return TROUBLE;
    }
    sigemptyset(&watcher.signals);
    for (const int *number = ending_signals; *number; number++)
        sigaddset(&watcher.signals, *number);
    enum status status = compile_round(run, &watcher, true);
    while (status == DONE && wait_for_changes(&watcher))
        compile_round(run, &watcher, false);
    forget_changes(&watcher);
    for (size_t place = 0; place < watcher.folder_count; place++)
        free(watcher.folders[place].path);
    free(watcher.folders);
    close(watcher.inotify);
    return status;
}
