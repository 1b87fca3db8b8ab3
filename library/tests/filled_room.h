/* Room that is filled before a call, and whether the call left it so. */
#include <stddef.h>
#include <stdlib.h>
#include <string.h>

#define FILLER 0x5A

/* A block of so many bytes, each filled. Ends the program where there is no memory. */
static unsigned char *filled_room(size_t size)
{
    unsigned char *room = (unsigned char *)malloc(size);

    if (room == NULL)
        exit(4);
    memset(room, FILLER, size);
    return room;
}

/* Each byte from one on is as it was before. */
static int is_untouched(const unsigned char *room, size_t from, size_t size)
{
    for (; from < size; from++)
        if (room[from] != FILLER)
            return 0;
    return 1;
}
