/* What the command line asks of its host. host.rt.txt says what each answers: a number below 0 is why
 * there is nothing, by these names. */
#ifndef PSLINK_HOST_H
#define PSLINK_HOST_H

#include <stddef.h>
#include <stdint.h>

enum {
    HOST_MISSING = -1,
    HOST_FOLDER = -2,
    HOST_FORBIDDEN = -3,
    HOST_NO_PATH = -4,
    HOST_OTHER = -5
};

/* A path as it comes: bytes of UTF-8 without a 0 behind them. */
int64_t host_arg(size_t number, void *room, size_t size);
int64_t host_open(const void *path, size_t length);
int64_t host_create(const void *path, size_t length);
uint64_t host_length(int64_t file);
int64_t host_read(int64_t file, void *room, size_t size);
int64_t host_write(int64_t file, const void *bytes, size_t size);
int64_t host_close(int64_t file);
uint32_t host_are_one(const void *path, size_t length, const void *other, size_t other_length);
uint32_t host_leads_to_output(const void *path, size_t length);

/* Keeps the arguments of the process, and makes its streams those of bytes; 0 where there is no
 * memory for them. */
int host_begin(int argc, char **argv);

#endif
