/* Prints how many bytes of stack a link of these files takes, at most, then a check, and then any call: they are made on a thread whose
 * stack was filled before. Usage: stack HOST [LIB]... */
#define _GNU_SOURCE
#include <pslink.h>
#include <pthread.h>
#include <stdio.h>
#include <stdlib.h>
#include <string.h>

#include "read_file.h"
#include "texts.h"

#define STACK (1 << 20)
#define FILLER 0x5A
#define FILES 600

static pslink_file files[FILES];
static size_t count;
static unsigned char *stack;

/* How many bytes of the stack are no longer as they were filled, from the first of them to its upper end. */
static size_t taken(void)
{
    size_t untouched = 0;

    while (untouched < STACK && stack[untouched] == FILLER)
        untouched++;
    return STACK - untouched;
}

static void *nothing(void *unused)
{
    return unused;
}

/* A link of the host beside all libraries, and the line of its fault. */
static void *a_link(void *room)
{
    pslink_answer answer;
    char text[PSLINK_FAULT_TEXT_MAX];

    pslink_link(files, count, room, PSLINK_LINKED_MAX, &answer);
    pslink_fault_text(&answer, text, sizeof text);
    return room;
}

/* A report, for a person and as a document. */
static void *a_check(void *room)
{
    pslink_answer answer;

    pslink_text(PSLINK_CHECK, files, count, room, PSLINK_LINKED_MAX, &answer);
    pslink_text(PSLINK_CHECK | PSLINK_JSON, files, count, room, PSLINK_LINKED_MAX, &answer);
    return room;
}

/* A link, and each text in each of its forms. */
static void *all_calls(void *room)
{
    pslink_answer answer;
    uint32_t what;

    a_link(room);
    for (what = 0; what < TEXTS; what++) {
        pslink_text(what, files, count, room, PSLINK_LINKED_MAX, &answer);
        pslink_text(what | PSLINK_JSON, files, count, room, PSLINK_LINKED_MAX, &answer);
    }
    return room;
}

/* The bytes of stack that a thread of this takes. */
static size_t of_thread(void *(*body)(void *), void *room)
{
    pthread_attr_t attributes;
    pthread_t thread;

    memset(stack, FILLER, STACK);
    if (pthread_attr_init(&attributes) != 0 || pthread_attr_setstack(&attributes, stack, STACK) != 0 ||
        pthread_create(&thread, &attributes, body, room) != 0)
        exit(4);
    pthread_join(thread, NULL);
    pthread_attr_destroy(&attributes);
    return taken();
}

int main(int argc, char **argv)
{
    void *room = malloc(PSLINK_LINKED_MAX);
    size_t of_nothing, of_all, of_check;

    stack = (unsigned char *)aligned_alloc(4096, STACK);
    if (argc < 2 || argc > FILES + 1 || room == NULL || stack == NULL)
        return 2;
    for (; count + 1 < (size_t)argc; count++)
        files[count] = read_file(argv[count + 1]);
    /* (what a thread itself takes of its stack is counted once more, and taken off) */
    of_nothing = of_thread(nothing, room);
    of_all = of_thread(all_calls, room);
    of_check = of_thread(a_check, room);
    printf("%zu %zu %zu\n", of_thread(a_link, room) - of_nothing, of_check - of_nothing, of_all - of_nothing);
    return 0;
}
