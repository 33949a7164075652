/* Finding the PO files of a project. Folders are looked into as far down as they go, without following symbolic links;
 * hidden folders, node_modules and the virtual environments of Python are left out. A file LINGUAS lists which PO files
 * of its folder count (GNU gettext manual, "po/LINGUAS"). */
#include "compile.h"
#include "or_gnu.h"

#include <dirent.h>
#include <errno.h>
#include <fcntl.h>
#include <stdlib.h>
#include <string.h>
#include <sys/stat.h>
#include <unistd.h>

/* A search, and how it went. */
struct search {
    struct run *run;
    struct watcher *watcher;
    enum status status;
    size_t without_domain, collisions; /* PO files */
};

/* The names in a folder that matter. */
struct listing {
    char **files, **folders;
    size_t file_count, folder_count;
    bool has_linguas, is_environment;
};

static void cannot(struct search *search, const char *what, const char *path, int cause) {
    tell("kob-compile: cannot %s %s: %s", what, path, strerror(cause));
    search->status = TROUBLE;
}

/* ---- one PO file */

static struct catalogue *room_for_one(struct catalogues *all) {
    if (all->count == all->room) {
        size_t room = all->room ? 2 * all->room : 256;
        struct catalogue *at = realloc(all->at, room * sizeof *at);
        if (!at)
            stop_for_memory();
        all->at = at;
        all->room = room;
    }
    all->at[all->count] = (struct catalogue){0};
    return &all->at[all->count];
}

/* Whether the MO file is newer than the PO file. One of the same instant isn't: a clock has ticks, and the PO file may
 * have changed within one. */
static bool is_newer(const struct stat *mo, const struct stat *po) {
    if (mo->st_mtim.tv_sec != po->st_mtim.tv_sec)
        return mo->st_mtim.tv_sec > po->st_mtim.tv_sec;
    return mo->st_mtim.tv_nsec > po->st_mtim.tv_nsec;
}

static void free_catalogue(struct catalogue *it) {
    free(it->po);
    free(it->mo);
    free(it->language);
    free(it->domain);
    free(it->why);
    free_format_faults(&it->formats);
}

/* Add a PO file, whose path the catalogue takes. */
static void add_file(struct search *search, char *path, const struct stat *about) {
    const struct options *options = &search->run->options;
    struct catalogue *it = room_for_one(&search->run->catalogues);
    struct stat made;
    it->po = path;
    it->size = about->st_size;
    it->time = about->st_mtim;
    if (!place_catalogue(options, it)) {
        if (search->without_domain++ == 0)
            tell("kob-compile: %s: -o needs -d DOMAIN for a PO file that isn't in LANGUAGE/LC_MESSAGES", path);
        free_catalogue(it);
        return;
    }
    if (options->domain && strcmp(it->domain, options->domain)) {
        free_catalogue(it);
        return;
    }
    it->is_changed = search->watcher && was_changed(search->watcher, path);
    bool is_forced = options->forces || options->only_checks || it->is_changed;
    if (!is_forced && stat(it->mo, &made) == 0 && is_newer(&made, about))
        it->outcome = IS_CURRENT;
    search->run->catalogues.count++;
}

/* ---- a folder */

static void add_name(char ***names, size_t *count, const char *name) {
    if ((*count & (*count - 1)) == 0) { /* a power of two is full, and so is none */
        char **more = realloc(*names, (*count ? 2 * *count : 1) * sizeof *more);
        if (!more)
            stop_for_memory();
        *names = more;
    }
    if (!((*names)[(*count)++] = strdup(name)))
        stop_for_memory();
}

static bool is_excluded(const struct options *options, const char *name) {
    if (name[0] == '.' || !strcmp(name, "node_modules"))
        return true;
    for (int place = 0; place < options->excluded_count; place++)
        if (!strcmp(name, options->excluded[place]))
            return true;
    return false;
}

/* Return what kind of file an entry of a folder is: one of DT_REG, DT_DIR, DT_LNK or another. */
static unsigned char kind_of(int folder, const struct dirent *entry) {
    struct stat about;
    if (entry->d_type != DT_UNKNOWN)
        return entry->d_type;
    return fstatat(folder, entry->d_name, &about, AT_SYMLINK_NOFOLLOW) == 0 ? (unsigned char)IFTODT(about.st_mode) : DT_UNKNOWN;
}

/* List a folder. Returns 0, or the errno of why it can't be read to its end. */
static int list_folder(const struct options *options, DIR *folder, struct listing *listing) {
    for (struct dirent *entry; errno = 0, (entry = readdir(folder));) {
        const char *name = entry->d_name;
        bool is_folder = kind_of(dirfd(folder), entry) == DT_DIR;
        if (is_po_name(name) && name[0] != '.' && !is_folder)
            add_name(&listing->files, &listing->file_count, name);
        else if (!strcmp(name, "LINGUAS"))
            listing->has_linguas = true;
        else if (!strcmp(name, "pyvenv.cfg"))
            listing->is_environment = true;
        else if (is_folder && !is_excluded(options, name))
            add_name(&listing->folders, &listing->folder_count, name);
    }
    return errno;
}

static void free_names(char **names, size_t count) {
    for (size_t place = 0; place < count; place++)
        free(names[place]);
    free(names);
}

char *path_of(const char *folder, const char *name) {
    if (!strcmp(folder, "."))
        return text_of("%s", name);
    return text_of("%s%s%s", folder, folder[strlen(folder) - 1] == '/' ? "" : "/", name);
}

static void look_at_file(struct search *search, int folder, const char *path, const char *name) {
    struct stat about;
    char *file = path_of(path, name);
    if (fstatat(folder, name, &about, 0) < 0) {
        if (errno != ENOENT) /* it vanished, which is as if it had not been there, or is a dangling link */
            cannot(search, "read", file, errno);
    } else if (S_ISREG(about.st_mode)) {
        add_file(search, file, &about);
        return;
    }
    free(file);
}

/* Look at the PO file of a language that LINGUAS lists. That of a manual (GNOME's `help/LINGUAS`) is in a folder of the
 * language, into which the search goes in any case. */
static void look_at_language(struct search *search, int folder, const char *path, const char *language) {
    char *po = text_of("%s.po", language), *in_folder = text_of("%s/%s.po", language, language);
    if (faccessat(folder, po, F_OK, 0) == 0 || errno != ENOENT) {
        look_at_file(search, folder, path, po);
    } else if (faccessat(folder, in_folder, F_OK, 0) < 0) {
        char *name = path_of(path, "LINGUAS");
        tell("kob-compile: %s lists %s, and there is no %s", name, language, po);
        search->status = TROUBLE;
        free(name);
    }
    free(po);
    free(in_folder);
}

/* Look at the PO files that LINGUAS lists: words, with comments from # to the end of the line. */
static void look_at_linguas(struct search *search, int folder, const char *path) {
    char *name = path_of(path, "LINGUAS"), *bytes = NULL, *save = NULL;
    size_t len = 0;
    int file = openat(folder, "LINGUAS", O_RDONLY | O_CLOEXEC | O_NOCTTY | O_NONBLOCK); /* (it may be a pipe) */
    if (file < 0 || !(bytes = read_all(file, &len)))
        cannot(search, "read", name, errno);
    if (file >= 0)
        close(file);
    for (char *at = bytes; at && (at = strchr(at, '#'));)
        while (*at && *at != '\n')
            *at++ = ' ';
    for (char *word = bytes ? strtok_r(bytes, " \t\r\n", &save) : NULL; word; word = strtok_r(NULL, " \t\r\n", &save))
        look_at_language(search, folder, path, word);
    free(bytes);
    free(name);
}

static void look_into(struct search *search, int parent, const char *name, const char *path);

static void look_at_listing(struct search *search, int folder, const char *path, const struct listing *listing) {
    if (listing->is_environment)
        return;
    if (listing->has_linguas)
        look_at_linguas(search, folder, path);
    for (size_t place = 0; !listing->has_linguas && place < listing->file_count; place++)
        look_at_file(search, folder, path, listing->files[place]);
    for (size_t place = 0; place < listing->folder_count; place++) {
        char *below = path_of(path, listing->folders[place]);
        look_into(search, folder, listing->folders[place], below);
        free(below);
    }
}

/* Look into a folder: `name` below the open folder `parent`, whose path is `path`. */
static void look_into(struct search *search, int parent, const char *name, const char *path) {
    struct listing listing = {0};
    if (stopped_by)
        return;
    bool is_given = parent == AT_FDCWD;
    if (search->watcher) /* (before it is read, so that nothing comes between) */
        watch_folder(search->watcher, path, is_given);
    int file = openat(parent, name, O_RDONLY | O_DIRECTORY | O_CLOEXEC | (is_given ? 0 : O_NOFOLLOW));
    DIR *folder = file < 0 ? NULL : fdopendir(file);
    if (!folder) {
        if (is_given || errno != ENOENT)
            cannot(search, "read", path, errno);
        if (file >= 0)
            close(file);
        return;
    }
    int cause = list_folder(&search->run->options, folder, &listing);
    if (cause)
        cannot(search, "read", path, cause);
    look_at_listing(search, dirfd(folder), path, &listing);
    free_names(listing.files, listing.file_count);
    free_names(listing.folders, listing.folder_count);
    closedir(folder);
}

/* ---- the arguments */

/* A path without `.` and slashes that don't count, so that a file has one name: ./po//fr.po is po/fr.po. */
static char *plain_path(const char *place) {
    char *path = text_of("%s", place), *to = path + (*place == '/');
    for (const char *at = place; *(at += strspn(at, "/"));) {
        size_t len = strcspn(at, "/");
        if (len != 1 || *at != '.') {
            if (to > path && to[-1] != '/')
                *to++ = '/';
            memcpy(to, at, len);
            to += len;
        }
        at += len;
    }
    if (to == path && *place)
        *to++ = '.';
    *to = '\0';
    return path;
}

static void look_at_place(struct search *search, const char *place) {
    struct stat about;
    char *path = plain_path(place);
    if (stat(place, &about) < 0) { /* (a slash behind the name of a file counts here) */
        cannot(search, "read", place, errno);
    } else if (S_ISDIR(about.st_mode)) {
        look_into(search, AT_FDCWD, path, path);
    } else if (S_ISREG(about.st_mode)) {
        if (search->watcher) {
            const char *slash = strrchr(path, '/');
            char *folder = slash ? text_of("%.*s", (int)(slash - path) + (slash == path), path) : text_of(".");
            watch_folder(search->watcher, folder, true);
            free(folder);
        }
        add_file(search, path, &about);
        return;
    } else {
        tell("kob-compile: %s is neither a folder nor a regular file", path);
        search->status = TROUBLE;
    }
    free(path);
}

static int by_path(const void *one, const void *two) {
    return strcmp(((const struct catalogue *)one)->po, ((const struct catalogue *)two)->po);
}

/* Leave out files that were found twice. */
static void drop_repeated(struct catalogues *all) {
    size_t kept = 0;
    for (size_t place = 0; place < all->count; place++)
        if (kept && !strcmp(all->at[kept - 1].po, all->at[place].po))
            free_catalogue(&all->at[place]);
        else
            all->at[kept++] = all->at[place];
    all->count = kept;
}

static int by_output(const void *one, const void *two) {
    const struct catalogue *const *first = one, *const *second = two;
    int order = strcmp((*first)->mo, (*second)->mo);
    return order ? order : strcmp((*first)->po, (*second)->po);
}

/* Look for PO files that would be written to one MO file. */
static void look_for_collisions(struct search *search) {
    struct catalogues *all = &search->run->catalogues;
    const struct catalogue **sorted = malloc((all->count + 1) * sizeof *sorted);
    if (!sorted)
        stop_for_memory();
    for (size_t place = 0; place < all->count; place++)
        sorted[place] = &all->at[place];
    qsort(sorted, all->count, sizeof *sorted, by_output);
    for (size_t place = 1; place < all->count; place++)
        if (!strcmp(sorted[place - 1]->mo, sorted[place]->mo) && search->collisions++ == 0)
            tell("kob-compile: %s and %s would both be %s: name the folder of one of them", sorted[place - 1]->po,
                 sorted[place]->po, sorted[place]->mo);
    free(sorted);
}

/* Say how many more of the same there are, after the first. */
static void tell_more(size_t count, const char *what) {
    if (count > 1)
        tell("kob-compile: and %zu more %s", count - 1, what);
}

enum status find_catalogues(struct run *run, struct watcher *watcher) {
    struct search search = {.run = run, .watcher = watcher};
    struct catalogues *all = &run->catalogues;
    for (int place = 0; place < run->options.place_count; place++)
        look_at_place(&search, run->options.places[place]);
    if (all->count) {
        qsort(all->at, all->count, sizeof *all->at, by_path);
        drop_repeated(all);
    }
    if (run->options.output)
        look_for_collisions(&search);
    tell_more(search.without_domain, "need -d DOMAIN");
    tell_more(search.collisions, "share an MO file");
    return search.without_domain || search.collisions ? USAGE : search.status;
}

void free_catalogues(struct catalogues *all) {
    for (size_t place = 0; place < all->count; place++)
        free_catalogue(&all->at[place]);
    free(all->at);
    *all = (struct catalogues){0};
}
