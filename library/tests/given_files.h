/* What examples that link have in common: the files that their arguments name, and how they end. */
#ifndef GIVEN_FILES_H
#define GIVEN_FILES_H

#include "read_file.h"

#define FILES 16

/* Reads the host and what may be libraries for it, and gives how many files there are. */
static size_t given_files(int argc, char **argv, pslink_file files[FILES])
{
    size_t count = 0;

    if (argc < 2 || argc > FILES + 1) {
        fputs("usage: embed HOST [FILE]..\n", stderr);
        exit(2);
    }
    for (; argv[count + 1] != NULL; count++)
        files[count] = read_file(argv[count + 1]);
    return count;
}

/* Writes the linked file to standard output, or says why there is none; and gives the exit status. */
static int status_of(const pslink_answer *answer, const unsigned char *out)
{
    char text[PSLINK_FAULT_TEXT_MAX];

    if (answer->status == PSLINK_DONE)
        return fwrite(out, 1, answer->size, stdout) != answer->size || fflush(stdout) != 0;
    if (pslink_fault_text(answer, text, sizeof text) != 0)
        fprintf(stderr, "pslink: %s\n", text);
    return answer->status == PSLINK_REFUSED ? 1 : 4;
}

#endif
