/* What a run did, as one line of JSON (RFC 8259). */
#include "compile.h"
#include "or_gnu.h"

#include <string.h>

/* Print a string. A byte that isn't UTF-8 becomes the lone surrogate that Python's os.fsdecode has for it. */
void print_json_text(FILE *to, const char *text) {
    const unsigned char *at = (const unsigned char *)text, *end = at + strlen(text);
    fputc('"', to);
    for (size_t len; at < end; at += len ? len : 1) {
        unsigned which;
        len = character_at(at, (size_t)(end - at), &which);
        if (len == 0)
            fprintf(to, "\\udc%02x", *at);
        else if (*at == '"' || *at == '\\')
            fprintf(to, "\\%c", *at);
        else if (*at < 0x20 || *at == 0x7f)
            fprintf(to, "\\u%04x", *at);
        else
            fwrite(at, 1, len, to);
    }
    fputc('"', to);
}

static void print_text_member(FILE *to, const char *name, const char *text) {
    fprintf(to, ",\"%s\":", name);
    print_json_text(to, text);
}

static void print_warnings(FILE *to, const struct catalogue *it) {
    const char *before = "";
    if (!it->missing)
        return;
    fprintf(to, ",\"header_line\":%u,\"missing_fields\":[", it->header_line);
    for (unsigned place = 0; place < FIELD_COUNT; place++)
        if (it->missing & 1u << place) {
            fprintf(to, "%s\"%s\"", before, fields[place]);
            before = ",";
        }
    fputc(']', to);
}

/* Print what is wrong with formats, all of it. */
static void print_formats(FILE *to, const struct format_faults *formats) {
    for (size_t place = 0; place < formats->count; place++) {
        const struct format_fault *it = &formats->at[place];
        fprintf(to, "%s{\"line\":%u", place ? "," : ",\"formats\":[", it->line);
        print_text_member(to, "msgid", it->id);
        print_text_member(to, "why", it->why);
        fputs(place + 1 < formats->count ? "}" : "}]", to);
    }
}

static void print_catalogue(FILE *to, const struct run *run, const struct catalogue *it) {
    static const char *const outcomes[] = {"not reached", "up to date", "compiled", "refused", "not read",
                                           "not written"};
    bool is_checked = it->outcome == IS_COMPILED && run->options.only_checks;
    fputs("{\"po\":", to);
    print_json_text(to, it->po);
    print_text_member(to, "mo", it->mo);
    print_text_member(to, "language", it->language);
    if (it->domain)
        print_text_member(to, "domain", it->domain);
    print_text_member(to, "outcome", is_checked ? "checked" : outcomes[it->outcome]);
    if (it->outcome == IS_COMPILED || it->outcome == IS_REFUSED)
        print_text_member(to, "by", it->by_gnu ? "GNU" : "Kobdzila");
    if (it->outcome == IS_COMPILED)
        fprintf(to, ",\"translated\":%zu,\"fuzzy\":%zu,\"untranslated\":%zu,\"bytes\":%zu", it->counts.translated,
                it->counts.fuzzy, it->counts.untranslated, it->mo_size);
    print_warnings(to, it);
    if (it->line)
        fprintf(to, ",\"line\":%u", it->line);
    if (it->why)
        print_text_member(to, "why", it->why);
    print_formats(to, &it->formats);
    fputc('}', to);
}

void print_json(const struct run *run, FILE *to, enum status status) {
    fprintf(to, "{\"version\":\"%s\",\"status\":%d,\"seconds\":%.3f,\"catalogues\":[", KOBDZILA_VERSION, (int)status,
            seconds_since(run->start));
    for (size_t place = 0; place < run->catalogues.count; place++) {
        if (place)
            fputc(',', to);
        print_catalogue(to, run, &run->catalogues.at[place]);
    }
    fputs("]}\n", to);
}
