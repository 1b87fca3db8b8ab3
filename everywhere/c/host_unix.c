/* The host of the command line by the C library of a Unix. */
#define _FILE_OFFSET_BITS 64
#define _POSIX_C_SOURCE 200809L
#include "host_parts.h"

#include <errno.h>
#include <fcntl.h>
#include <signal.h>
#include <sys/stat.h>
#include <unistd.h>

static int64_t opened(const void *path, size_t length, int flags)
{
    char text[LONGEST_PATH + 1];
    const int64_t fault = ended(path, length, text);
    int file;

    if (fault != 0)
        return fault;
    do
        file = open(text, flags | O_CLOEXEC, 0666);
    while (file < 0 && errno == EINTR);
    return file < 0 ? why(errno) : file;
}

int64_t host_open(const void *path, size_t length)
{
    return opened(path, length, O_RDONLY);
}

int64_t host_create(const void *path, size_t length)
{
    return opened(path, length, O_WRONLY | O_CREAT | O_TRUNC);
}

uint64_t host_length(int64_t file)
{
    struct stat state;

    return fstat((int)file, &state) == 0 && S_ISREG(state.st_mode) && state.st_size > 0 ? (uint64_t)state.st_size : 0;
}

int64_t host_read(int64_t file, void *room, size_t size)
{
    ssize_t count;

    do
        count = read((int)file, room, size < MOST_AT_ONCE ? size : MOST_AT_ONCE);
    while (count < 0 && errno == EINTR);
    return count < 0 ? why(errno) : (int64_t)count;
}

int64_t host_write(int64_t file, const void *bytes, size_t size)
{
    ssize_t count;

    do
        count = write((int)file, bytes, size < MOST_AT_ONCE ? size : MOST_AT_ONCE);
    while (count < 0 && errno == EINTR);
    return count < 0 ? why(errno) : (int64_t)count;
}

/* (a close that a signal breaks off has closed the file) */
int64_t host_close(int64_t file)
{
    return close((int)file) == 0 || errno == EINTR ? 0 : why(errno);
}

/* What the system knows of the file that a path leads to; 0 where there is none. */
static int identify(const void *path, size_t length, struct stat *one)
{
    char text[LONGEST_PATH + 1];

    return ended(path, length, text) == 0 && stat(text, one) == 0;
}

static uint32_t are_one(const struct stat *one, const struct stat *two)
{
    return one->st_ino != 0 && one->st_ino == two->st_ino && one->st_dev == two->st_dev;
}

uint32_t host_are_one(const void *path, size_t length, const void *other, size_t other_length)
{
    struct stat one, two;

    return identify(path, length, &one) && identify(other, other_length, &two) && S_ISREG(one.st_mode) && are_one(&one, &two);
}

uint32_t host_leads_to_output(const void *path, size_t length)
{
    struct stat one, two;

    return identify(path, length, &one) && fstat(STDOUT_FILENO, &two) == 0 && are_one(&one, &two);
}

int host_begin(int argc, char **argv)
{
    keep_arguments(argc, argv);
    /* (a pipe that nobody reads is an error of a write, as the command expects it) */
    signal(SIGPIPE, SIG_IGN);
    return 1;
}
