/* Where a PO file's MO file is: its language and its text domain by its path.
 *
 *   .. / LANGUAGE / LC_MESSAGES / DOMAIN.po   the layout in which catalogues are installed (GNU gettext manual, "Locating
 *                                             Message Catalog Files"), as Django and Babel have it. DOMAIN may have
 *                                             slashes, as Sphinx has them
 *   .. / po / LANGUAGE / DOMAIN.po            that of KDE, where LANGUAGE is written as a language is
 *   .. / LANGUAGE.po                          that of a folder po (the same manual, "Files You Must Create or Alter") */
#include "compile.h"

#include <stdlib.h>
#include <string.h>

static const char messages[] = "LC_MESSAGES";

bool is_po_name(const char *name) {
    size_t len = strlen(name);
    return len > 3 && !strcmp(name + len - 3, ".po");
}

/* Return how long a path is without `.po`. */
static size_t stem_length(const char *path) {
    const char *slash = strrchr(path, '/');
    return strlen(path) - (is_po_name(slash ? slash + 1 : path) ? 3 : 0);
}

/* Find the last LC_MESSAGES in a path that is a whole component, and not its first; NULL if there is none. */
static const char *find_messages(const char *path) {
    const char *found = NULL;
    size_t len = sizeof messages - 1;
    for (const char *at = path; (at = strstr(at, messages)); at += len)
        if (at > path + 1 && at[-1] == '/' && at[len] == '/')
            found = at;
    return found;
}

static char *copy_of(const char *at, size_t len) {
    char *copy = strndup(at, len);
    if (!copy)
        stop_for_memory();
    return copy;
}

/* Return where the component of a path begins that ends at `end`. */
static const char *component_before(const char *path, const char *end) {
    while (end > path && end[-1] != '/')
        end--;
    return end;
}

/* Whether a name is written as a language is: `de`, `pt_BR`, `sr@latin`, `zh-Hant` (the same manual, "Locale Names"). */
static bool is_language(const char *at, const char *end) {
    size_t letters = strspn(at, "abcdefghijklmnopqrstuvwxyz");
    at += letters;
    return (letters == 2 || letters == 3) && at <= end && (at == end || strchr("_-@", *at));
}

/* Find the LANGUAGE of `po/LANGUAGE/DOMAIN.po`, whose DOMAIN begins at `name`; NULL if the path isn't of this form. */
static const char *find_language(const char *path, const char *name) {
    if (name == path)
        return NULL;
    const char *first = component_before(path, name - 1);
    bool is_in_po = first - path >= 3 && !strncmp(first - 3, "po/", 3) && (first - path == 3 || first[-4] == '/');
    return is_in_po && is_language(first, name - 1) ? first : NULL;
}

/* Give the catalogue the language and the domain that its path names. */
static void name_by_path(const struct options *options, struct catalogue *it) {
    const char *path = it->po, *end = path + stem_length(path), *found = find_messages(path);
    const char *name = found ? found + sizeof messages : component_before(path, end);
    const char *last = found ? found - 1 : name - 1;
    const char *first = found ? component_before(path, last) : find_language(path, name);
    if (first) {
        it->language = copy_of(first, (size_t)(last - first));
        it->domain = copy_of(name, (size_t)(end - name));
    } else {
        it->language = copy_of(name, (size_t)(end - name));
        it->domain = options->domain ? copy_of(options->domain, strlen(options->domain)) : NULL;
    }
}

bool place_catalogue(const struct options *options, struct catalogue *it) {
    name_by_path(options, it);
    if (!options->output) {
        it->mo = text_of("%.*s.mo", (int)stem_length(it->po), it->po);
        return true;
    }
    if (!it->domain)
        return false;
    const char *slash = options->output[strlen(options->output) - 1] == '/' ? "" : "/";
    it->mo = text_of("%s%s%s/%s/%s.mo", options->output, slash, it->language, messages, it->domain);
    return true;
}
