/* Two libraries of Rattle in one program: the second is the same one, whose exported functions have other names. */
#include <pslink.h>

uint32_t other_link(const pslink_file *files, size_t count, void *out, size_t room, pslink_answer *answer);

int main(void)
{
    const pslink_file none = {NULL, NULL, 0};
    pslink_answer answer;

    return pslink_link(&none, 1, NULL, 0, &answer) != PSLINK_REFUSED || other_link(&none, 1, NULL, 0, &answer) != PSLINK_REFUSED;
}
