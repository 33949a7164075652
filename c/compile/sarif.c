/* What was refused, as SARIF 2.1.0 (OASIS, "Static Analysis Results Interchange Format"), which code hosts show next to
 * the lines. */
#include "compile.h"
#include "or_gnu.h"

#include <errno.h>
#include <stdlib.h>
#include <string.h>
#include <unistd.h>

/* The faults of PO texts up to KOB_PO_NEWLINE_MISMATCH are rules of their own, which come first. */
enum { WARNING_RULE = KOB_PO_NEWLINE_MISMATCH - KOB_PO_TOO_LARGE + 1, FLAGS_RULE, TROUBLE_RULE, FORMATS_RULE,
       CHARACTER_RULE, READ_BACK_RULE, RULE_COUNT };

/* Return the number of a catalogue's rule. */
static int rule_of(const struct catalogue *it) {
    if (it->outcome != IS_REFUSED)
        return TROUBLE_RULE;
    if (it->formats.count)
        return FORMATS_RULE;
    switch (it->fault) {
    case KOB_NO_FAULT: return FLAGS_RULE;
    case KOB_PO_NO_CHARACTER: return CHARACTER_RULE;
    case KOB_PO_NOT_READ_BACK: return READ_BACK_RULE;
    default: return (int)it->fault - KOB_PO_TOO_LARGE;
    }
}

static const char *text_of_rule(int rule) {
    if (rule == WARNING_RULE)
        return "header field missing";
    if (rule == FLAGS_RULE)
        return "flags in a line of #=";
    if (rule == FORMATS_RULE)
        return "format not valid or with other arguments";
    if (rule == CHARACTER_RULE || rule == READ_BACK_RULE)
        return kob_fault_text(rule == CHARACTER_RULE ? KOB_PO_NO_CHARACTER : KOB_PO_NOT_READ_BACK);
    return rule == TROUBLE_RULE ? "file not readable or not writable"
                                : kob_fault_text((enum kob_fault)(rule + KOB_PO_TOO_LARGE));
}

/* Print a rule's name: its text with hyphens. */
static void print_rule_id(FILE *to, int rule) {
    fputc('"', to);
    for (const char *at = text_of_rule(rule); *at; at++)
        fputc(*at == ' ' ? '-' : *at, to);
    fputc('"', to);
}

static void print_rules(FILE *to) {
    for (int rule = 0; rule < RULE_COUNT; rule++) {
        fputs(rule ? ",\n          {\"id\": " : "\n          {\"id\": ", to);
        print_rule_id(to, rule);
        fprintf(to, ", \"shortDescription\": {\"text\": \"%s\"}}", text_of_rule(rule));
    }
}

/* Print a path as a reference to a file (RFC 3986): all bytes but a few are escaped. */
static void print_uri(FILE *to, const char *path) {
    static const char plain[] = "abcdefghijklmnopqrstuvwxyzABCDEFGHIJKLMNOPQRSTUVWXYZ0123456789-._~/@+";
    fputs(*path == '/' ? "\"file://" : "\"", to);
    for (const unsigned char *at = (const unsigned char *)path; *at; at++)
        if (strchr(plain, *at))
            fputc(*at, to);
        else
            fprintf(to, "%%%02X", *at);
    fputc('"', to);
}

static void print_result(FILE *to, bool *has_one, int rule, const char *level, const char *text, const char *path,
                         unsigned line) {
    fputs(*has_one ? ",\n        {\"ruleId\": " : "\n        {\"ruleId\": ", to);
    print_rule_id(to, rule);
    fprintf(to, ", \"ruleIndex\": %d, \"level\": \"%s\", \"message\": {\"text\": ", rule, level);
    print_json_text(to, text);
    fputs("},\n         \"locations\": [{\"physicalLocation\": {\"artifactLocation\": {\"uri\": ", to);
    print_uri(to, path);
    if (*path != '/')
        fputs(", \"uriBaseId\": \"%SRCROOT%\"", to);
    fputc('}', to);
    if (line)
        fprintf(to, ", \"region\": {\"startLine\": %u}", line);
    fputs("}}]}", to);
    *has_one = true;
}

static void print_results(FILE *to, const struct run *run) {
    bool has_one = false;
    for (size_t place = 0; place < run->catalogues.count; place++) {
        const struct catalogue *it = &run->catalogues.at[place];
        for (unsigned field = 0; field < FIELD_COUNT; field++)
            if (it->missing & 1u << field) {
                char *text = text_of("header field '%s' missing", fields[field]);
                print_result(to, &has_one, WARNING_RULE, "warning", text, it->po, it->header_line);
                free(text);
            }
        if (it->why)
            print_result(to, &has_one, rule_of(it), "error", it->why, it->outcome == IS_UNWRITTEN ? it->mo : it->po,
                         it->line);
        for (size_t fault = 1; fault < it->formats.count; fault++)
            print_result(to, &has_one, FORMATS_RULE, "error", it->formats.at[fault].why, it->po, it->formats.at[fault].line);
    }
}

static void print_log(FILE *to, const struct run *run) {
    fputs("{\n  \"$schema\": \"https://json.schemastore.org/sarif-2.1.0.json\",\n  \"version\": \"2.1.0\",\n"
          "  \"runs\": [\n    {\n      \"tool\": {\n        \"driver\": {\n          \"name\": \"kob-compile\",\n"
          "          \"version\": \"" KOBDZILA_VERSION "\",\n          \"rules\": [", to);
    print_rules(to);
    fputs("]\n        }\n      },\n      \"results\": [", to);
    print_results(to, run);
    fputs("]\n    }\n  ]\n}\n", to);
}

bool write_sarif(const struct run *run) {
    const char *name = run->options.sarif;
    char *bytes = NULL;
    size_t len = 0;
    FILE *to = open_memstream(&bytes, &len);
    if (!to)
        stop_for_memory();
    print_log(to, run);
    if (fclose(to) != 0)
        stop_for_memory();
    int cause = strcmp(name, "-") ? write_in_one_step(name, bytes, len, run->mode)
                                  : write_all(STDOUT_FILENO, bytes, len) ? 0 : errno;
    if (cause)
        tell("kob-compile: cannot write %s: %s", name, strerror(cause));
    free(bytes);
    return cause == 0;
}
