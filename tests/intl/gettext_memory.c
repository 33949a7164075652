/* Asks gettext twice for each text, and prints those that aren't translated the second time. It says nothing if a call
 * told it that memory ran out. Run by tests/intl/intl_memory.sh.
 *
 *   gettext_memory FOLDER
 *
 * FOLDER has catalogues fr/LC_MESSAGES/DOMAIN.mo. LANGUAGE is fr, and LC_ALL a locale in UTF-8. */
#include <libintl.h>
#include <locale.h>
#include <pthread.h>
#include <stdio.h>
#include <string.h>

static void ask_twice(const char *domain, const char *text, const char *two) {
    dgettext(domain, "text");
    dngettext(domain, "file", "files", 2);
    const char *said = dgettext(domain, "text"), *said_two = dngettext(domain, "file", "files", 2);
    if (strcmp(said, text) || strcmp(said_two, two))
        printf("%s: '%s', '%s'; ", domain, said, said_two);
}

static void *ask_all(void *none) {
    ask_twice("utf8", "é texte", "deux é");
    ask_twice("latin", "\xe9 texte", "deux \xe9");
    ask_twice("coded", "日", "二");
    return none;
}

/* False if a call fails. */
static int begin(const char *folder) {
    return setlocale(LC_ALL, "") && bindtextdomain("utf8", folder) && bindtextdomain("latin", folder) &&
           bindtextdomain("coded", folder) && bind_textdomain_codeset("latin", "ISO-8859-1");
}

int main(int argc, char **argv) {
    pthread_t thread;
    if (argc != 2)
        return 2;
    if (!begin(argv[1]))
        return 0;
    ask_all(NULL);
    if (!pthread_create(&thread, NULL, ask_all, NULL))
        pthread_join(thread, NULL);
    return 0;
}
