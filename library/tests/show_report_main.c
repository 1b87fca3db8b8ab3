
#include "read_file.h"

/* Calls the example of EMBEDDING.md, which stands above: the report on a host and one library, which are called by their paths. */
int main(int argc, char **argv)
{
    pslink_file files[2];

    if (argc != 3)
        return 2;
    files[0] = read_file(argv[1]);
    files[1] = read_file(argv[2]);
    return show_report(files, 2);
}
