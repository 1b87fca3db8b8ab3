
#include "read_file.h"

/* Calls the example of pslink.h, which stands above: links a file with a second one, or else with itself. */
int main(int argc, char **argv)
{
    pslink_file host, library;

    if (argc < 2)
        return 2;
    host = read_file(argv[1]);
    library = read_file(argv[argc > 2 ? 2 : 1]);
    return link_two(host.bytes, host.length, library.bytes, library.length, stdout);
}
