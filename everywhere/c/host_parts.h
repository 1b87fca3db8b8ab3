/* What host.c has for host_unix.c and host_windows.c. */
#ifndef PSLINK_HOST_PARTS_H
#define PSLINK_HOST_PARTS_H

#include "host.h"

#define LONGEST_PATH 4095
/* the most bytes of a read or a write: a count of these fits an int */
#define MOST_AT_ONCE 0x40000000u

/* Keeps texts for host_arg, the program's name first. */
void keep_arguments(int count, char **given);

/* What host_open answers where a call failed with this errno. */
int64_t why(int error);

/* Makes a path a text with a 0 at its end, and answers 0; or why no file has it. */
int64_t ended(const void *path, size_t length, char text[LONGEST_PATH + 1]);

#endif
