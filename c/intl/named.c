/* Lists that are searched by name: the text domains, and the files of catalogues. */
#define _POSIX_C_SOURCE 200809L
#include "intl.h"

#include <stdlib.h>
#include <string.h>

struct named *find_named(struct named *list, const char *name) {
    while (list && strcmp(list->name, name))
        list = list->next;
    return list;
}

struct named *find_or_add_named(struct named **list, const char *name, size_t size) {
    struct named *found = find_named(*list, name);
    if (found)
        return found;
    size_t len = strlen(name);
    struct named *added = calloc(1, size + len + 1);
    if (!added)
        return NULL;
    *added = (struct named){ *list, memcpy((char *)added + size, name, len + 1) };
    return *list = added;
}
