/* Running catserve and catsession on an input through a pipe, and what they print. */
#ifndef PROGRAMS_H
#define PROGRAMS_H

#include "target.h"

/* What a program printed, and its exit status. The strings are followed by a NUL. */
struct run {
    int status;
    char *output, *errors;
    size_t output_len, errors_len;
};

/* Run a program of bin/ (or of the folder PROGRAMS) on the bytes. They are written in `pieces` pieces of about the same
 * size; a piece is written when the program has read the one before. A program that a signal ends is a finding. */
struct run run_program(const char *name, char *const words[], const uint8_t *bytes, size_t len, unsigned pieces);

void free_run(struct run *run);

/* Tell the fuzzer what an output is like: for each line, its words with numbers left out, and the words of the line
 * before. New ones count as new code does, since the programs themselves aren't instrumented. */
void note_lines(const char *text, size_t len);

#endif
