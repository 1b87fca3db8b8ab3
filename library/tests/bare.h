/* Answers with nothing but a status, and with a size. (Of padding nothing is said.) */
#include <pslink.h>
#include <string.h>

static int has_fault(const pslink_answer *answer)
{
    return answer->fault != 0 || answer->file != -1 || answer->record != -1 || answer->reference != -1 || answer->slot != -1 ||
           answer->kind != -1 || memcmp(answer->about, "\0\0\0\0\0\0\0\0", 9) != 0;
}

/* What the status says, and of which result: nothing of a fault, of a link or of warnings. */
static int is_sized(const pslink_answer *answer, uint32_t status, size_t size)
{
    static const uint32_t none[8];

    return answer->status == status && answer->size == size && !has_fault(answer) && answer->segments == 0 &&
           answer->private_words == 0 && answer->blocks == 0 && answer->warnings == 0 &&
           memcmp(answer->reserved, none, sizeof none) == 0;
}

static int is_bare(const pslink_answer *answer, uint32_t status)
{
    return is_sized(answer, status, 0);
}

static int is_small(const pslink_answer *answer, size_t size)
{
    return is_sized(answer, PSLINK_TOO_SMALL, size);
}
