/* What both systems have in common: the arguments, a path with its end, and why a call failed. The rest of a host is host_unix.c or
 * host_windows.c. */
#include "host_parts.h"

#include <errno.h>
#include <string.h>

static int arguments;
static char **texts;

void keep_arguments(int count, char **given)
{
    arguments = count;
    texts = given;
}

int64_t host_arg(size_t number, void *room, size_t size)
{
    size_t length;

    if (number >= (size_t)arguments)
        return -1;
    length = strlen(texts[number]);
    if (length > size)
        return -2;
    memcpy(room, texts[number], length);
    return (int64_t)length;
}

int64_t why(int error)
{
    switch (error) {
    case ENOENT:
    case ENOTDIR:
        return HOST_MISSING;
    case EISDIR:
        return HOST_FOLDER;
    case EACCES:
    case EPERM:
        return HOST_FORBIDDEN;
    default:
        return HOST_OTHER;
    }
}

int64_t ended(const void *path, size_t length, char text[LONGEST_PATH + 1])
{
    if (memchr(path, 0, length) != NULL)
        return HOST_NO_PATH;
    if (length > LONGEST_PATH)
        return HOST_OTHER;
    memcpy(text, path, length);
    text[length] = '\0';
    return 0;
}
