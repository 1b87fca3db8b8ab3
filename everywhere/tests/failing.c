/* Linked beside host_unix.c by --wrap: the call of the system with the number FAIL_AT, from 1 on, fails with the number FAIL_WITH of
 * errno. What it was is written to the file FAILED, as `write 1` or `open host`. Without FAIL_AT no call fails. */
#include <errno.h>
#include <fcntl.h>
#include <stdio.h>
#include <stdlib.h>
#include <sys/stat.h>
#include <unistd.h>

int __real_open64(const char *path, int flags, ...);
ssize_t __real_read(int file, void *room, size_t size);
ssize_t __real_write(int file, const void *bytes, size_t size);
int __real_close(int file);
int __real_stat64(const char *path, struct stat *state);
int __real_fstat64(int file, struct stat *state);

/* the files that were created, by their numbers */
static int created[1024];

static int fails(const char *call, const char *path, int file)
{
    static int calls;
    const char *at = getenv("FAIL_AT"), *with = getenv("FAIL_WITH"), *name = getenv("FAILED");
    FILE *told;

    if (at == NULL || ++calls != atoi(at))
        return 0;
    told = fopen(name == NULL ? "/dev/null" : name, "w");
    if (told != NULL) {
        if (path != NULL)
            fprintf(told, "%s %s\n", call, path);
        else
            fprintf(told, "%s %d %s\n", call, file, file < 3 ? "stream" : created[file] ? "created" : "opened");
        fclose(told);
    }
    errno = with == NULL ? EIO : atoi(with);
    return 1;
}

int __wrap_open64(const char *path, int flags, int mode)
{
    int file;

    if (fails(flags & O_CREAT ? "create" : "open", path, 0))
        return -1;
    file = __real_open64(path, flags, mode);
    if (file >= 0 && file < 1024)
        created[file] = flags & O_CREAT;
    return file;
}

ssize_t __wrap_read(int file, void *room, size_t size)
{
    return fails("read", NULL, file) ? -1 : __real_read(file, room, size);
}

ssize_t __wrap_write(int file, const void *bytes, size_t size)
{
    return fails("write", NULL, file) ? -1 : __real_write(file, bytes, size);
}

int __wrap_close(int file)
{
    return fails("close", NULL, file) ? -1 : __real_close(file);
}

int __wrap_stat64(const char *path, struct stat *state)
{
    return fails("stat", path, 0) ? -1 : __real_stat64(path, state);
}

int __wrap_fstat64(int file, struct stat *state)
{
    return fails("fstat", NULL, file) ? -1 : __real_fstat64(file, state);
}
