/* What a new user of libkobdzila writes: prints the library's version, and a plural form of the PO file that is named. */
#include <kobdzila.h>
#include <stdio.h>

int main(int count, char **words) {
    kob_refusal why;
    kob_catalogue *c = count == 2 ? kob_open_file(words[1], KOB_PO, KOB_CHECKED, &why) : NULL;
    if (!c)
        return 1;
    printf("%s: %s\n", kob_version(), kob_ngettext(c, "file", "files", 2));
    kob_release(c);
}
