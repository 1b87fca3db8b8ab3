/* The texts by their numbers: whether each has a document, and whether files have names in it. */
#include <pslink.h>

static const struct {
    int has_document, has_names;
} texts[] = {
    [PSLINK_MAP] = {1, 0},   [PSLINK_REFERENCES] = {1, 0}, [PSLINK_SHOW] = {1, 0},   [PSLINK_CHECK] = {1, 1}, [PSLINK_LIST] = {1, 1},
    [PSLINK_UNITS] = {1, 1}, [PSLINK_FINDINGS] = {1, 1},   [PSLINK_WANTED] = {0, 0}, [PSLINK_HAD] = {0, 0},  [PSLINK_TYPE] = {0, 0},
};

enum { TEXTS = sizeof texts / sizeof *texts };
