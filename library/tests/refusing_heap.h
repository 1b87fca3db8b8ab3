/* A heap that gives what the header asks of one and no more, and that refuses an allocation
 * (-Wl,--wrap=malloc,--wrap=realloc,--wrap=free); and a count of what is otherwise than it should be. */
#include <stddef.h>
#include <stdio.h>
#include <stdlib.h>
#include <string.h>

#define ALIGNED 16 /* what the blocks of the C library are aligned to, and the most that the header asks for */

void *__real_malloc(size_t size);
void __real_free(void *block);

/* Which allocation from now on is refused: 0 for the first, -1 for none; and how many were requested. */
static long refused_at = -1;
static long asked;

static int is_refused(void)
{
    return refused_at >= 0 && asked++ == refused_at;
}

/* A block that is aligned to the highest power of two up to 16 that divides its size, and to no higher one below 16. Its size is
 * in front of it, where the next lower multiple of 16 is. */
static char *least_aligned(size_t size)
{
    const size_t power = size & (~size + 1), offset = power < ALIGNED ? power : 0;
    char *whole = size > (size_t)-1 - 2 * ALIGNED ? NULL : (char *)__real_malloc(ALIGNED + offset + size);

    if (whole == NULL)
        return NULL;
    memcpy(whole, &size, sizeof size);
    return whole + ALIGNED + offset;
}

/* What the C library has of a block. */
static char *whole_of(void *block)
{
    return (char *)block - (size_t)block % ALIGNED - ALIGNED;
}

void *__wrap_malloc(size_t size)
{
    return is_refused() ? NULL : least_aligned(size);
}

void __wrap_free(void *block)
{
    if (block != NULL)
        __real_free(whole_of(block));
}

void *__wrap_realloc(void *block, size_t size)
{
    char *grown = is_refused() ? NULL : least_aligned(size);
    size_t before;

    if (grown == NULL || block == NULL)
        return grown;
    memcpy(&before, whole_of(block), sizeof before);
    memcpy(grown, block, before < size ? before : size);
    __wrap_free(block);
    return grown;
}

static int failures;

static void check(int is_well, const char *what, size_t number)
{
    if (!is_well) {
        failures++;
        printf("library: %s, at %zu\n", what, number);
    }
}
