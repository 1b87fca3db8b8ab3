/* A library of another release: of the next second number or, with RELEASE, of that one. It links nothing, and answers each call with the
 * status of refused memory or, with STATUS, with that, and then with SIZE(room) as the size of what it has no room for. With ESCAPES it has
 * one finding, in a path with each escape that JSON has. */
#include <pslink.h>
#include <string.h>

#ifndef RELEASE
#define RELEASE (PSLINK_RELEASE_NUMBER + 100)
#endif
#ifndef STATUS
#define STATUS PSLINK_NO_MEMORY
#endif
#ifndef SIZE
#define SIZE(room) 0
#endif

uint32_t pslink_release_number(void)
{
    return RELEASE;
}

uint32_t pslink_link(const pslink_file *files, size_t count, void *out, size_t room, pslink_answer *answer)
{
    (void)files, (void)count, (void)out, (void)room;
    memset(answer, 0, sizeof *answer);
    answer->size = SIZE(room);
    return answer->status = STATUS;
}

#ifdef ESCAPES
uint32_t pslink_text(uint32_t what, const pslink_file *files, size_t count, void *out, size_t room, pslink_answer *answer)
{
    static const char found[] = "{\"findings\":[\n{\"weight\":\"note\","
                                "\"path\":\"a\\\"\\\\\\/\\b\\f\\n\\r\\t\\u0000\\u0001\\u001f\\u00E9\\u2028\\uFFFF\\uD83D\\uDCBEb\","
                                "\"segment\":null,\"record\":null,\"text\":\"\\ud83d\\udcbe\"}\n]}\n";

    pslink_link(files, count, out, room, answer);
    answer->status = PSLINK_DONE;
    answer->size = what == (PSLINK_FINDINGS | PSLINK_JSON) ? strlen(found) : 0;
    if (room < answer->size)
        return answer->status = PSLINK_TOO_SMALL;
    memcpy(out, found, answer->size);
    return PSLINK_DONE;
}
#else
uint32_t pslink_text(uint32_t what, const pslink_file *files, size_t count, void *out, size_t room, pslink_answer *answer)
{
    (void)what;
    return pslink_link(files, count, out, room, answer);
}
#endif

size_t pslink_fault_text(const pslink_answer *answer, char *out, size_t room)
{
    (void)answer, (void)out, (void)room;
    return 0;
}

const char *pslink_fault(uint32_t fault, uint32_t part)
{
    (void)fault, (void)part;
    return NULL;
}

const char *pslink_status(uint32_t status)
{
    (void)status;
    return NULL;
}
