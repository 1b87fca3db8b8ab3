/* The functions of pslink.h over those that are proved, which write what is answered: lays files one after another, and refuses
 * misuse. */
#include "faults.h"
#include "kinds.h"
#include "proved.h"

#include <stdlib.h>
#include <string.h>

#define NUMBERED 25 /* the bytes of "file " and of the longest number */
#define ALIGNED 16  /* a block whose size this divides is aligned to it, as pslink.h asks of malloc */
#define FILES_OF(laid) (laid)->host, (laid)->host_length, (laid)->libs, (laid)->libs_length, (laid)->lengths, (laid)->count
#define NAMES_OF(laid) (laid)->names, (laid)->names_length, (laid)->name_lengths, (laid)->name_count
#define ROOM_OF(out, room) (out) == NULL ? (void *)&nothing : (void *)(out), (out) == NULL ? 0 : (room)

/* Files as the proved functions take them, and the block in which libraries and names are one after another. */
struct laid {
    void *block;
    const void *host, *libs, *names;
    const size_t *lengths, *name_lengths;
    size_t host_length, libs_length, names_length, count, name_count;
};

static size_t nothing; /* what is pointed to where no byte is read or written */

/* What texts call a file; `line` has room for its number. */
static const char *name_of(const pslink_file *file, size_t number, char line[NUMBERED + 1])
{
    char *first = line + NUMBERED;

    if (file->name != NULL)
        return file->name;
    *first = '\0';
    do
        *--first = (char)('0' + number % 10);
    while ((number /= 10) != 0);
    return (const char *)memcpy(first - 5, "file ", 5);
}

/* How many bytes files, their names and two lengths for each have, and PSLINK_DONE; or why they are not taken. */
static uint32_t measure(const pslink_file *files, size_t count, int named, size_t *total)
{
    char line[NUMBERED + 1];
    size_t k, name;

    if (files == NULL || count == 0)
        return PSLINK_MISUSE;
    if (count > PTRDIFF_MAX / (2 * sizeof(size_t)))
        return PSLINK_NO_MEMORY;
    *total = count * 2 * sizeof(size_t);
    for (k = 0; k < count; k++) {
        if (files[k].bytes == NULL && files[k].length != 0)
            return PSLINK_MISUSE;
        name = named ? strlen(name_of(&files[k], k, line)) : 0;
        if (files[k].length > PTRDIFF_MAX - *total || name > PTRDIFF_MAX - *total - files[k].length)
            return PSLINK_NO_MEMORY;
        *total += files[k].length + name;
    }
    return PSLINK_DONE;
}

/* Puts one after another in the block: the lengths of files, those of names, the libraries, and the names. */
static void fill(const pslink_file *files, struct laid *laid)
{
    size_t k, *lengths = (size_t *)laid->block, *name_lengths = lengths + laid->count + 1;
    char line[NUMBERED + 1], *libs = (char *)(name_lengths + laid->count + 1), *names = libs;

    for (k = 1; k <= laid->count; names += lengths[k++])
        if ((lengths[k] = files[k].length) != 0)
            memcpy(names, files[k].bytes, lengths[k]);
    laid->libs_length = (size_t)(names - libs);
    laid->libs = libs;
    laid->lengths = lengths + 1;
    laid->names = libs = names;
    laid->name_lengths = name_lengths;
    for (k = 0; k < laid->name_count; names += name_lengths[k++]) {
        const char *name = name_of(&files[k], k, line);

        memcpy(names, name, name_lengths[k] = strlen(name));
    }
    laid->names_length = (size_t)(names - libs);
}

/* What is answered where nothing was called: a status, and nothing else. */
static uint32_t bare(uint32_t status, pslink_answer *answer)
{
    if (answer != NULL)
        *answer = (pslink_answer){.status = status, .file = -1, .record = -1, .reference = -1, .slot = -1, .kind = -1};
    return status;
}

/* Lays files out, or answers why not. The host is not copied, nor is a library that is alone, where no names are wanted. */
static uint32_t lay(const pslink_file *files, size_t count, int named, struct laid *laid, pslink_answer *answer)
{
    static const pslink_file none = {NULL, NULL, 0};
    const pslink_file *alone;
    size_t total;
    const uint32_t status = answer == NULL ? PSLINK_MISUSE : measure(files, count, named, &total);

    if (status != PSLINK_DONE)
        return bare(status, answer);
    alone = count == 2 ? &files[1] : &none;
    *laid = (struct laid){NULL, files->length == 0 ? &nothing : files->bytes, alone->length == 0 ? &nothing : alone->bytes, &nothing,
                          &laid->libs_length, &nothing, files->length, alone->length, 0, count - 1, named ? count : 0};
    if (!named && count <= 2)
        return PSLINK_DONE;
    /* (so the lengths, which come first in it, are aligned) */
    laid->block = malloc((total - files->length + ALIGNED - 1) / ALIGNED * ALIGNED);
    if (laid->block == NULL)
        return bare(PSLINK_NO_MEMORY, answer);
    fill(files, laid);
    return PSLINK_DONE;
}

uint32_t pslink_link(const pslink_file *files, size_t count, void *out, size_t room, pslink_answer *answer)
{
    struct laid laid;
    uint32_t status = lay(files, count, 0, &laid, answer);

    if (status != PSLINK_DONE)
        return status;
    status = pslink_link_nonnull(FILES_OF(&laid), ROOM_OF(out, room), answer);
    free(laid.block);
    return status;
}

uint32_t pslink_text(uint32_t what, const pslink_file *files, size_t count, void *out, size_t room, pslink_answer *answer)
{
    const uint32_t lines = what & ~(uint32_t)PSLINK_JSON;
    struct laid laid;
    uint32_t status;

    /* (a text that there is not is no want of memory) */
    if (lines >= sizeof kinds / sizeof *kinds || !(lines == what ? kinds[lines].is_there : kinds[lines].has_document))
        return bare(PSLINK_MISUSE, answer);
    status = lay(files, count, kinds[lines].has_names, &laid, answer);
    if (status != PSLINK_DONE)
        return status;
    status = pslink_text_nonnull(what, FILES_OF(&laid), NAMES_OF(&laid), ROOM_OF(out, room), answer);
    free(laid.block);
    return status;
}

size_t pslink_fault_text(const pslink_answer *answer, char *out, size_t room)
{
    return answer == NULL ? 0 : pslink_fault_text_nonnull(answer, ROOM_OF(out, room));
}

const char *pslink_fault(uint32_t fault, uint32_t part)
{
    return fault < sizeof faults / sizeof *faults && part <= PSLINK_REMEDY ? faults[fault][part] : NULL;
}

const char *pslink_status(uint32_t status)
{
    return status < sizeof statuses / sizeof *statuses ? statuses[status] : NULL;
}
