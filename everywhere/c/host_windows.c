/* The host of the command line by the C library of Windows, where paths and arguments are UTF-16 and no path leads to the streams:
 * /dev/stdin and /dev/stdout do so here. */
#define WIN32_LEAN_AND_MEAN
#include "host_parts.h"

#include <errno.h>
#include <fcntl.h>
#include <io.h>
#include <stdlib.h>
#include <string.h>
#include <sys/stat.h>
#include <wchar.h>
#include <windows.h>
#include <shellapi.h>

static const char INPUT_PATH[] = "/dev/stdin", OUTPUT_PATH[] = "/dev/stdout";

/* a path of this many units or more is found by its long form alone */
#define LONG_PATH 240
#define LONG_MARK L"\\\\?\\"
#define LONG_MARK_LENGTH 4
#define ROOM (LONGEST_PATH + LONG_MARK_LENGTH + MAX_PATH + 1)

/* Paths --------------------------------------------------------------------------------------------------------------------------- */

/* Makes a long path one that Windows finds: whole, and with the mark of such a path before it. */
static int lengthen(wchar_t wide[ROOM])
{
    wchar_t whole[ROOM];
    DWORD length;

    if (wcslen(wide) < LONG_PATH || wcsncmp(wide, L"\\\\", 2) == 0)
        return 1;
    length = GetFullPathNameW(wide, ROOM, whole, NULL);
    if (length == 0 || length + LONG_MARK_LENGTH >= ROOM)
        return 0;
    wcscpy(wide, LONG_MARK);
    wcscat(wide, whole);
    return 1;
}

/* The path as Windows has it; or why no file has it. */
static int64_t widened(const void *path, size_t length, wchar_t wide[ROOM])
{
    char text[LONGEST_PATH + 1];
    const int64_t fault = ended(path, length, text);

    if (fault != 0)
        return fault;
    if (MultiByteToWideChar(CP_UTF8, MB_ERR_INVALID_CHARS, text, -1, wide, LONGEST_PATH + 1) == 0)
        return HOST_NO_PATH;
    return lengthen(wide) ? 0 : HOST_OTHER;
}

static int is_path(const void *path, size_t length, const char *wanted)
{
    return length == strlen(wanted) && memcmp(path, wanted, length) == 0;
}

static int64_t opened(const void *path, size_t length, int flags)
{
    wchar_t wide[ROOM];
    const int64_t fault = widened(path, length, wide);
    DWORD attributes;
    int file;

    if (fault != 0)
        return fault;
    attributes = GetFileAttributesW(wide);
    /* (the C library says of a folder that it may not be opened) */
    if (attributes != INVALID_FILE_ATTRIBUTES && (attributes & FILE_ATTRIBUTE_DIRECTORY) != 0)
        return HOST_FOLDER;
    file = _wopen(wide, flags | _O_BINARY | _O_NOINHERIT, _S_IREAD | _S_IWRITE);
    return file < 0 ? why(errno) : file;
}

static int64_t duplicate(int stream)
{
    const int file = _dup(stream);

    return file < 0 ? why(errno) : file;
}

int64_t host_open(const void *path, size_t length)
{
    return is_path(path, length, INPUT_PATH) ? duplicate(0) : opened(path, length, _O_RDONLY);
}

int64_t host_create(const void *path, size_t length)
{
    return is_path(path, length, OUTPUT_PATH) ? duplicate(1) : opened(path, length, _O_WRONLY | _O_CREAT | _O_TRUNC);
}

/* Files --------------------------------------------------------------------------------------------------------------------------- */

uint64_t host_length(int64_t file)
{
    struct _stat64 state;

    return _fstat64((int)file, &state) == 0 && (state.st_mode & _S_IFMT) == _S_IFREG && state.st_size > 0 ? (uint64_t)state.st_size : 0;
}

int64_t host_read(int64_t file, void *room, size_t size)
{
    const int count = _read((int)file, room, (unsigned)(size < MOST_AT_ONCE ? size : MOST_AT_ONCE));

    return count < 0 ? why(errno) : count;
}

int64_t host_close(int64_t file)
{
    return _close((int)file) == 0 ? 0 : why(errno);
}

/* How many of these bytes are whole characters of UTF-8: all, but for a character at the end that is cut off. */
static size_t whole_characters(const unsigned char *bytes, size_t size)
{
    size_t back = 1, needed;

    while (back < 4 && back < size && (bytes[size - back] & 0xC0) == 0x80)
        back++;
    if (size == 0)
        return 0;
    needed = bytes[size - back] >= 0xF0 ? 4 : bytes[size - back] >= 0xE0 ? 3 : bytes[size - back] >= 0xC0 ? 2 : 1;
    return needed > back ? size - back : size;
}

/* What a stream has begun to write to a console: the first bytes of a character. */
struct begun {
    unsigned char bytes[4];
    size_t count;
};

/* Writes text to a console, which takes UTF-16; a character that is cut off waits for its rest. */
static int64_t write_console(HANDLE console, struct begun *begun, const unsigned char *bytes, size_t size)
{
    unsigned char text[1024];
    wchar_t wide[1024];
    const size_t most = sizeof text - sizeof begun->bytes, taken = size < most ? size : most;
    size_t whole;
    int units;
    DWORD written;

    memcpy(text, begun->bytes, begun->count);
    memcpy(text + begun->count, bytes, taken);
    whole = whole_characters(text, begun->count + taken);
    units = whole == 0 ? 0 : MultiByteToWideChar(CP_UTF8, 0, (const char *)text, (int)whole, wide, 1024);
    if (units > 0 && !WriteConsoleW(console, wide, (DWORD)units, &written, NULL))
        return HOST_OTHER;
    begun->count += taken - whole;
    memcpy(begun->bytes, text + whole, begun->count);
    return (int64_t)taken;
}

int64_t host_write(int64_t file, const void *bytes, size_t size)
{
    static struct begun begun[2];
    const HANDLE handle = (HANDLE)_get_osfhandle((int)file);
    DWORD mode;
    int count;

    if ((file == 1 || file == 2) && GetConsoleMode(handle, &mode))
        return write_console(handle, &begun[file - 1], bytes, size);
    count = _write((int)file, bytes, (unsigned)(size < MOST_AT_ONCE ? size : MOST_AT_ONCE));
    return count < 0 ? why(errno) : count;
}

/* Which file a path leads to ------------------------------------------------------------------------------------------------------- */

/* The file of a handle, by its volume and its number; 0 where it is none of a disk. */
static int identify(HANDLE handle, BY_HANDLE_FILE_INFORMATION *one)
{
    return handle != INVALID_HANDLE_VALUE && GetFileType(handle) == FILE_TYPE_DISK && GetFileInformationByHandle(handle, one);
}

static int identify_path(const void *path, size_t length, BY_HANDLE_FILE_INFORMATION *one)
{
    wchar_t wide[ROOM];
    HANDLE handle;
    int is_known;

    if (widened(path, length, wide) != 0)
        return 0;
    handle = CreateFileW(wide, 0, FILE_SHARE_READ | FILE_SHARE_WRITE | FILE_SHARE_DELETE, NULL, OPEN_EXISTING, FILE_ATTRIBUTE_NORMAL, NULL);
    is_known = identify(handle, one);
    if (handle != INVALID_HANDLE_VALUE)
        CloseHandle(handle);
    return is_known;
}

static uint32_t are_one(const BY_HANDLE_FILE_INFORMATION *one, const BY_HANDLE_FILE_INFORMATION *two)
{
    return one->dwVolumeSerialNumber == two->dwVolumeSerialNumber && one->nFileIndexHigh == two->nFileIndexHigh &&
           one->nFileIndexLow == two->nFileIndexLow;
}

uint32_t host_are_one(const void *path, size_t length, const void *other, size_t other_length)
{
    BY_HANDLE_FILE_INFORMATION one, two;

    return identify_path(path, length, &one) && identify_path(other, other_length, &two) && are_one(&one, &two);
}

uint32_t host_leads_to_output(const void *path, size_t length)
{
    BY_HANDLE_FILE_INFORMATION one, two;

    if (is_path(path, length, OUTPUT_PATH))
        return 1;
    return identify_path(path, length, &one) && identify(GetStdHandle(STD_OUTPUT_HANDLE), &two) && are_one(&one, &two);
}

/* Arguments ----------------------------------------------------------------------------------------------------------------------- */

/* A text of UTF-16 as UTF-8, in which half of a pair is U+FFFD; NULL where there is no memory. */
static char *narrowed(const wchar_t *wide)
{
    const int size = WideCharToMultiByte(CP_UTF8, 0, wide, -1, NULL, 0, NULL, NULL);
    char *text = malloc((size_t)size + 1);

    if (text != NULL) {
        text[0] = '\0';
        WideCharToMultiByte(CP_UTF8, 0, wide, -1, text, size, NULL, NULL);
    }
    return text;
}

int host_begin(int argc, char **argv)
{
    wchar_t **wide = CommandLineToArgvW(GetCommandLineW(), &argc);
    char **given = wide == NULL ? NULL : calloc((size_t)argc + 1, sizeof *given);
    int k;

    (void)argv;
    if (given == NULL)
        return 0;
    /* (what usage calls the program: no path and no .exe) */
    given[0] = _strdup("pslink");
    for (k = 0; k < argc; k++) {
        if (k > 0)
            given[k] = narrowed(wide[k]);
        if (given[k] == NULL)
            return 0;
    }
    keep_arguments(argc, given);
    for (k = 0; k < 3; k++)
        _setmode(k, _O_BINARY);
    return 1;
}
