/* The first look-up of a program: the translation of "write error" in the French catalogue gettext-tools. With
 * -DKOBDZILA it asks libkobdzila, which is given the MO file; else the C library's gettext, by LANGUAGE and the locale. */
#include <stdio.h>
#ifdef KOBDZILA
#include <kobdzila.h>
int main(int count, char **arguments) {
    kob_catalogue *c = count == 2 ? kob_open_file(arguments[1], KOB_MO, 0, NULL) : NULL;
    if (!c)
        return 1;
    puts(kob_gettext(c, "write error"));
    kob_release(c);
}
#else
#include <libintl.h>
#include <locale.h>
int main(void) {
    if (!setlocale(LC_ALL, ""))
        return 1;
    textdomain("gettext-tools");
    puts(gettext("write error"));
}
#endif
