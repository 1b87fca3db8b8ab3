/* main over the archive that rattle made for this machine itself. */
#include "host.h"

uint32_t pslink_command(void);

#define NO_MEMORY 4

int main(int argc, char **argv)
{
    return host_begin(argc, argv) ? (int)pslink_command() : NO_MEMORY;
}
