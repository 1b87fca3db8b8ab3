/* What the proved crate, crates/pslink, exports to library/pslink.c, and the library to nobody. No pointer is NULL. */
#include <pslink.h>

uint32_t pslink_link_nonnull(const void *host, size_t host_length, const void *libs, size_t libs_length, const size_t *lengths,
                             size_t count, void *out, size_t room, pslink_answer *answer);
uint32_t pslink_text_nonnull(uint32_t what, const void *host, size_t host_length, const void *libs, size_t libs_length,
                             const size_t *lengths, size_t count, const void *names, size_t names_length,
                             const size_t *name_lengths, size_t name_count, void *out, size_t room, pslink_answer *answer);
size_t pslink_fault_text_nonnull(const pslink_answer *answer, void *out, size_t room);
