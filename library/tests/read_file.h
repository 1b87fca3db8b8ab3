/* A whole file, in a block of just its size: a read past its end is seen by a sanitizer. Ends the program where it fails. */
#ifndef READ_FILE_H
#define READ_FILE_H

#include <pslink.h>
#include <stdio.h>
#include <stdlib.h>

static pslink_file read_file(const char *path)
{
    pslink_file file = {path, NULL, 0};
    FILE *stream = fopen(path, "rb");
    long size;
    void *bytes;

    if (stream == NULL || fseek(stream, 0, SEEK_END) != 0 || (size = ftell(stream)) < 0)
        exit(3);
    rewind(stream);
    bytes = malloc(size == 0 ? 1 : (size_t)size);
    if (bytes == NULL)
        exit(4);
    if (fread(bytes, 1, (size_t)size, stream) != (size_t)size)
        exit(3);
    fclose(stream);
    file.bytes = bytes;
    file.length = (size_t)size;
    return file;
}

#endif
