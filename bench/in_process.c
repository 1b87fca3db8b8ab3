/* Times links or texts in one process: prints the microseconds that one takes, over many. With NO_CHECK it needs no
 * function that makes texts. WHAT is the number of a text in pslink.h.
 * Usage: in_process TURNS link|check|WHAT HOST [LIB]... */
#define _POSIX_C_SOURCE 200809L
#include <pslink.h>
#include <stdio.h>
#include <stdlib.h>
#include <string.h>
#include <time.h>

#include "read_file.h"

#define FILES 101

static pslink_file files[FILES];
static unsigned char out[PSLINK_LINKED_MAX];

static double microseconds(void)
{
    struct timespec now;

    clock_gettime(CLOCK_MONOTONIC, &now);
    return 1e6 * (double)now.tv_sec + 1e-3 * (double)now.tv_nsec;
}

static uint32_t link_once(size_t count)
{
    pslink_answer answer;

    return pslink_link(files, count, out, sizeof out, &answer);
}

#ifdef NO_CHECK
#define text_once link_once
#else
static uint32_t what = PSLINK_CHECK;

static uint32_t text_once(size_t count)
{
    pslink_answer answer;

    return pslink_text(what, files, count, out, sizeof out, &answer);
}
#endif

int main(int argc, char **argv)
{
    int turns = argc > 3 ? atoi(argv[1]) : 0, turn;
    uint32_t (*call)(size_t count), status = PSLINK_DONE;
    size_t count = 0;
    double start;

    if (turns < 1 || argc > FILES + 3)
        return 2;
    call = strcmp(argv[2], "link") == 0 ? link_once : text_once;
#ifndef NO_CHECK
    if (strcmp(argv[2], "check") != 0)
        what = (uint32_t)strtoul(argv[2], NULL, 10);
#endif
    for (; count + 3 < (size_t)argc; count++)
        files[count] = read_file(argv[count + 3]);
    start = microseconds();
    for (turn = 0; turn < turns; turn++)
        status = call(count);
    printf("%.2f\n", (microseconds() - start) / turns);
    return status == PSLINK_DONE || status == PSLINK_REFUSED ? 0 : 1;
}
