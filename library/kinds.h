/* made by man/make_constants.py from crates/ps_c_texts/src/kinds.rt: of each text by its number, whether it has a document, and whether files
 * have names in it */
#include <pslink.h>

static const struct {
    unsigned char is_there, has_document, has_names;
} kinds[] = {
    [PSLINK_MAP] = {1, 1, 0},
    [PSLINK_REFERENCES] = {1, 1, 0},
    [PSLINK_SHOW] = {1, 1, 0},
    [PSLINK_CHECK] = {1, 1, 1},
    [PSLINK_LIST] = {1, 1, 1},
    [PSLINK_UNITS] = {1, 1, 1},
    [PSLINK_FINDINGS] = {1, 1, 1},
    [PSLINK_WANTED] = {1, 0, 0},
    [PSLINK_HAD] = {1, 0, 0},
    [PSLINK_TYPE] = {1, 0, 0},
};
