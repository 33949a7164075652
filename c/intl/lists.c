/* The files to search for a message: one list for each folder, category, domain and languages used so far. Only a few
 * lists are kept, since a program can use any number of languages. */
#define _POSIX_C_SOURCE 200809L
#include "intl.h"

#include <stdlib.h>
#include <string.h>

#define MOST_LISTS 32
#define MOST_ALIAS 400

static struct list *lists; /* most recently used first */

static int is_for(const struct list *l, const char *folder, const char *category, const char *domain,
                  const char *languages) {
    return !strcmp(l->languages, languages) && !strcmp(l->domain, domain) && !strcmp(l->folder, folder) &&
           !strcmp(l->category, category);
}

static void free_list(struct list *l) {
    free(l->files);
    free(l);
}

/* Make an empty list. */
static struct list *new_list(const char *folder, const char *category, const char *domain, const char *languages) {
    size_t texts = strlen(folder) + strlen(category) + strlen(domain) + strlen(languages) + 4;
    struct list *l = malloc(sizeof *l + texts);
    if (!l)
        return NULL;
    *l = (struct list){ .folder = l->texts };
    l->category = stpcpy(l->texts, folder) + 1;
    l->domain = stpcpy((char *)l->category, category) + 1;
    l->languages = stpcpy((char *)l->domain, domain) + 1;
    strcpy((char *)l->languages, languages);
    return l;
}

/* False if memory ran out. */
static int add_file(struct list *l, struct file *file) {
    if (!file)
        return 0;
    if (!(l->count & (l->count - 1))) {
        struct file **more = realloc(l->files, (l->count ? 2 * l->count : 1) * sizeof *more);
        if (!more)
            return 0;
        l->files = more;
    }
    l->files[l->count++] = file;
    return 1;
}

/* Add the files of one locale. `room` must hold a normalized codeset followed by the name of a file. */
static int add_locale(struct list *l, const char *locale, char *room) {
    const char *alias = alias_value(locale);
    const char *text = alias ? alias : locale;
    size_t len = strlen(text);
    struct name name = parts_of(text, len, room);
    char *path = room + len + 4, *at = stpcpy(stpcpy(path, l->folder), "/");
    for (int parts = FIRST_FOLDER; (parts = next_folder(&name, parts)) >= 0;) {
        char *end = stpcpy(put_name(at, &name, parts), "/");
        stpcpy(stpcpy(stpcpy(stpcpy(end, l->category), "/"), l->domain), ".mo");
        if (!add_file(l, file_of(path)))
            return 0;
    }
    return 1;
}

/* Whether this name would lead to files in another folder. */
static int leaves_folder(const char *locale) { return strchr(locale, '/') || !strcmp(locale, ".."); }

/* Add the files of the languages up to C, which ends the list. A program that has more privileges than its caller stays
 * in the folder. */
static int add_languages(struct list *l, char *locale, char *room) {
    for (const char *at = l->languages; *at;) {
        size_t len = strcspn(at, ":");
        memcpy(locale, at, len);
        locale[len] = 0;
        at += len + (at[len] == ':');
        if (!strcmp(locale, "C") || !strcmp(locale, "POSIX"))
            return 1;
        if (len && !(is_secure() && leaves_folder(locale)) && !add_locale(l, locale, room))
            return 0;
    }
    return 1;
}

/* False if memory or file descriptors ran out: what a name is an alias for isn't known then. */
static int fill_list(struct list *l) {
    size_t most = strlen(l->languages) + MOST_ALIAS;
    size_t path = strlen(l->folder) + 2 * most + strlen(l->category) + strlen(l->domain) + 16;
    char *locale = malloc(most + 1), *room = malloc(most + 4 + path);
    int is_filled = locale && room && know_aliases() && add_languages(l, locale, room);
    free(locale);
    free(room);
    return is_filled;
}

static void keep_list(struct list *l) {
    l->next = lists;
    lists = l;
    size_t count = 1;
    while (l->next && count++ < MOST_LISTS)
        l = l->next;
    if (l->next) {
        free_list(l->next);
        l->next = NULL;
    }
}

const struct list *list_for(const char *folder, const char *category, const char *domain, const char *languages) {
    for (struct list **at = &lists; *at; at = &(*at)->next) {
        struct list *l = *at;
        if (!is_for(l, folder, category, domain, languages))
            continue;
        *at = l->next;
        l->next = lists;
        return lists = l;
    }
    struct list *l = new_list(folder, category, domain, languages);
    if (!l || !fill_list(l)) {
        if (l)
            free_list(l);
        return NULL;
    }
    keep_list(l);
    return l;
}
