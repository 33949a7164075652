/* What is made of a catalogue or a PO file, the C part: memory. The texts and lists are made in crates/kobdzila_c
 * (exports.h). A handle is a value of the proved library, of one kind whatever was made. */
#include "held.h"

static struct held_output *held_output(void *made) { return made; }

static uint64_t number_of_output(const void *made, uint32_t which, size_t index) {
    return kobdzila_output_number(made, which, index);
}

static void free_output(void *made) {
    if (!made)
        return;
    int cause = errno;
    kobdzila_output_close(held_output(made));
    free_quietly(made);
    errno = cause;
}

/* Return what was made. If there is none, free it, store the reason in *why and return NULL. */
static void *made_or_refused(void *made, kob_refusal *why) {
    enum kob_fault fault = (enum kob_fault)number_of_output(made, FAULT, 0);
    refuse(why, fault, (unsigned)number_of_output(made, LINE, 0));
    if (fault == KOB_NO_FAULT)
        return made;
    free_output(made);
    return NULL;
}

/* ---- PO files */

kob_po_file *kob_write_po(const kob_catalogue *catalogue, unsigned options) {
    void *made = malloc(kobdzila_output_size());
    if (!made)
        return NULL;
    kobdzila_write_po(read_catalogue(catalogue), options & KOB_ESCAPED, held_output(made));
    return made_or_refused(made, NULL);
}

kob_po_file *kob_recode_po(const void *bytes, size_t len, kob_refusal *why) {
    void *made = malloc(kobdzila_output_size());
    if (!made)
        return refuse(why, KOB_MEMORY, 0);
    kobdzila_recode(len ? bytes : "", len, held_output(made));
    return made_or_refused(made, why);
}

kob_text kob_po_text(const kob_po_file *file) {
    struct lent out;
    kobdzila_output_text((const struct held_output *)file, &out);
    return (kob_text){ (const char *)out.at, out.len };
}

void kob_po_free(kob_po_file *file) { free_output(file); }

/* ---- faults of formats */

kob_format_faults *kob_check_formats(const void *bytes, size_t len, unsigned options, kob_refusal *why) {
    if (len > MOST_PO)
        return refuse(why, KOB_PO_TOO_LARGE, 0);
    void *made = malloc(kobdzila_output_size());
    if (!made)
        return refuse(why, KOB_MEMORY, 0);
    kobdzila_format_faults(len ? bytes : "", len, options & KOB_CHECKED, options & KOB_USE_FUZZY, held_output(made));
    return made_or_refused(made, why);
}

size_t kob_format_fault_count(const kob_format_faults *faults) { return number_of_output(faults, COUNT, 0); }

int kob_format_fault_at(const kob_format_faults *faults, size_t index, kob_format_fault *fault) {
    if (index >= kob_format_fault_count(faults))
        return 0;
    fault->line = (unsigned)number_of_output(faults, FAULT_LINE, index);
    fault->language = (enum kob_format_language)number_of_output(faults, FAULT_LANGUAGE, index);
    fault->form = (unsigned)number_of_output(faults, FAULT_FORM, index);
    fault->difference = (enum kob_format_difference)number_of_output(faults, FAULT_DIFFERENCE, index);
    return 1;
}

void kob_format_faults_free(kob_format_faults *faults) { free_output(faults); }
