
#include "given_files.h"

/* Calls the example of EMBEDDING.md, which stands above: links a host with those of the other files that are libraries for it. */
int main(int argc, char **argv)
{
    static unsigned char out[PSLINK_LINKED_MAX];
    static pslink_file files[FILES];
    const size_t count = keep_libraries(files, given_files(argc, argv, files));
    pslink_answer answer;

    pslink_link(files, count, out, sizeof out, &answer);
    return status_of(&answer, out);
}
