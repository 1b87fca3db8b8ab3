
#include <string.h>

#include "given_files.h"

static pslink_file shelf[FILES];
static size_t count;

/* Whether the type of a file names this byte order, as " little\n", and it is no linked file. */
static int is_of_order(const pslink_file *file, const char *order)
{
    char type[16];
    pslink_answer answer;
    const size_t length = strlen(order);

    return pslink_text(PSLINK_TYPE, file, 1, type, sizeof type, &answer) == PSLINK_DONE && answer.size > length &&
           memcmp(type + answer.size - length, order, length) == 0 && memcmp(type, "linked", 6) != 0;
}

/* The first file behind the host that has the unit of this name, in the host's byte order. */
static int find(const char *name, pslink_file *library)
{
    const char *order = is_of_order(&shelf[0], " big\n") ? " big\n" : " little\n";
    char names[16][8];
    pslink_answer answer;
    size_t at, k;

    for (k = 1; k < count; k++) {
        if (!is_of_order(&shelf[k], order))
            continue;
        if (pslink_text(PSLINK_HAD, &shelf[k], 1, names, sizeof names, &answer) != PSLINK_DONE)
            continue;
        for (at = 0; at < answer.size / sizeof *names; at++) {
            if (memcmp(names[at], name, sizeof *names) == 0) {
                *library = shelf[k];
                return 1;
            }
        }
    }
    return 0;
}

/* Calls the example of EMBEDDING.md, which stands above: links a host with those of the other files that it needs. */
int main(int argc, char **argv)
{
    static unsigned char out[PSLINK_LINKED_MAX];
    static pslink_file files[FILES];
    pslink_answer answer;

    count = given_files(argc, argv, shelf);
    files[0] = shelf[0];
    link_found(files, FILES, find, out, sizeof out, &answer);
    return status_of(&answer, out);
}
