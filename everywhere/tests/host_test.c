/* Calls the functions of a host as no command does, or where a command does not say what they answered: what does not fit, what is no path,
 * a folder that is to be created, a call that a signal breaks off, a file that another has to itself. Works in a folder that is empty, and is
 * called with the arguments `one` and `two ä`. Its standard output is one line, `to the output`. Prints each answer that is otherwise, and
 * then ends with 1. Called with the argument `terminal` it writes four lines, for terminal.py: `café 5 €` twice, and `é` twice. */
#include "host.h"

#include <stdio.h>
#include <string.h>

#if defined _WIN32
#include <direct.h>
#include <fcntl.h>
#include <io.h>
#include <wchar.h>
#include <windows.h>
#define make_folder(name) _mkdir(name)
#else
#include <fcntl.h>
#include <signal.h>
#include <sys/stat.h>
#include <sys/time.h>
#include <unistd.h>
#define make_folder(name) mkdir(name, 0777)
#endif

#define NO_ARGUMENT -1
#define TOO_LONG -2
#define PATH(text) text, sizeof(text) - 1
#define LONG 5000
/* a hundred of them */
#define TEN "llllllllll"
#define LETTERS TEN TEN TEN TEN TEN TEN TEN TEN TEN TEN

static int differences;

static void is(const char *what, int64_t found, int64_t wanted)
{
    if (found != wanted) {
        fprintf(stderr, "host_test: %s: %ld, and not %ld\n", what, (long)found, (long)wanted);
        differences++;
    }
}

static void is_below_0(const char *what, int64_t found)
{
    is(what, found < 0, 1);
}

/* An argument, and what of the room is not touched. */
static void test_arguments(void)
{
    char room[16] = "................";

    is("an argument", host_arg(1, room, 3), 3);
    is("its bytes, and no other", memcmp(room, "one.............", sizeof room), 0);
    is("an argument with a blank and two bytes for a letter", host_arg(2, room, sizeof room), 6);
    is("its bytes", memcmp(room, "two \xC3\xA4..........", sizeof room), 0);
    is("an argument that does not fit", host_arg(2, room, 5), TOO_LONG);
    is("an argument past the last", host_arg(3, room, sizeof room), NO_ARGUMENT);
    is("the argument of the greatest number", host_arg((size_t)-1, room, sizeof room), NO_ARGUMENT);
}

/* Puts text into a new file, in pieces as the host takes them. */
static void put(const char *path, const char *text)
{
    const int64_t file = host_create(path, strlen(path));
    int64_t written = 1;

    is("a file that is created", file >= 3, 1);
    for (; *text != '\0' && written > 0; text += written)
        written = host_write(file, text, strlen(text));
    is("what is written", (int64_t)strlen(text), 0);
    is("its closing", host_close(file), 0);
}

/* Bytes come back as they were written: ends of lines, what ends a text on some systems, and more than fits a line. */
static void test_bytes(void)
{
    static const char text[] = "1\n2\r\n3\x1A" "4567890123456789012345678901234567890123456789";
    char room[100];
    int64_t file;

    put("bytes", text);
    file = host_open(PATH("bytes"));
    is("the length of bytes", (int64_t)host_length(file), sizeof text - 1);
    is("a read of bytes", host_read(file, room, sizeof room), sizeof text - 1);
    is("the bytes", memcmp(room, text, sizeof text - 1), 0);
    host_close(file);
}

/* A file that is written and read, piece by piece, and written anew. */
static void test_file(void)
{
    char room[8] = "........";
    int64_t file;

    put("made", "12345");
    file = host_open(PATH("made"));
    is("its length", (int64_t)host_length(file), 5);
    is("a read of less than there is", host_read(file, room, 3), 3);
    is("its bytes, and no other", memcmp(room, "123.....", sizeof room), 0);
    is("a read of more than there is", host_read(file, room, sizeof room), 2);
    is("the bytes of that", memcmp(room, "453.....", sizeof room), 0);
    is("a read at the end", host_read(file, room, sizeof room), 0);
    is_below_0("a write to a file that is read", host_write(file, "x", 1));
    is("the closing of a file that is read", host_close(file), 0);
    put("made", "1");
    file = host_open(PATH("made"));
    is("the length of a file that is written anew", (int64_t)host_length(file), 1);
    host_close(file);
    file = host_create(PATH("made"));
    is("the length of a file that is created", (int64_t)host_length(file), 0);
    is_below_0("a read of a file that is written", host_read(file, room, sizeof room));
    host_close(file);
#if !defined _WIN32
    is_below_0("the closing of a file that is closed", host_close(file));
#endif
}

/* Why a folder cannot be read: a system may open one, and say so then. */
static int64_t read_folder(void)
{
    char room[8];
    const int64_t file = host_open(PATH("folder"));
    int64_t answer = file;

    if (file >= 0) {
        answer = host_read(file, room, sizeof room);
        host_close(file);
    }
    return answer;
}

/* What no file can be read from, or made at. */
static void test_paths(void)
{
    static char longer[LONG];

    memset(longer, 'n', sizeof longer);
    make_folder("folder");
    put("plain", "text");
    is("a path of no file", host_open(PATH("nowhere")), HOST_MISSING);
    is("a path of no bytes", host_open(PATH("")), HOST_MISSING);
    is("a path in no folder", host_create(PATH("nowhere/made")), HOST_MISSING);
    is("a folder that is read", read_folder(), HOST_FOLDER);
    is("a folder that is created", host_create(PATH("folder")), HOST_FOLDER);
    is("a path with a 0", host_open(PATH("plain\0x")), HOST_NO_PATH);
    is("a path with a 0 at its end", host_open(PATH("plain\0")), HOST_NO_PATH);
    is("a path with a 0 that is created", host_create(PATH("cut\0x")), HOST_NO_PATH);
    is("what is before a 0", host_open(PATH("cut")), HOST_MISSING);
    is("a path that is too long", host_open(longer, LONG), HOST_OTHER);
    put("b\xC3\xA4r \xE2\x82\xAC", "text");
    is("another path of it", host_are_one(PATH("b\xC3\xA4r \xE2\x82\xAC"), PATH("./b\xC3\xA4r \xE2\x82\xAC")), 1);
}

static void test_places(void)
{
    is("two paths of a file", host_are_one(PATH("plain"), PATH("./plain")), 1);
    is("two files", host_are_one(PATH("plain"), PATH("made")), 0);
    is("a file and none", host_are_one(PATH("plain"), PATH("nowhere")), 0);
    is("a folder, which is no regular file", host_are_one(PATH("folder"), PATH("folder")), 0);
    is("a path with a 0, and a file", host_are_one(PATH("plain\0x"), PATH("plain")), 0);
    is("a file that is not the output", host_leads_to_output(PATH("plain")), 0);
    is("a path with a 0 of the output", host_leads_to_output(PATH("/dev/stdout\0x")), 0);
    is("the output", host_leads_to_output(PATH("/dev/stdout")), 1);
}

/* The streams: one that can be opened by its path, and one that takes bytes as they are. */
static void test_streams(void)
{
    const int64_t file = host_open(PATH("/dev/stdin"));

    is("the input by its path", file >= 0, 1);
    host_close(file);
    is("a line on the output", host_write(1, PATH("to the output\n")), 14);
}

#if defined _WIN32
/* The folder LETTERS/LETTERS/LETTERS. */
static void make_long_folder(void)
{
    static wchar_t whole[2000] = L"\\\\?\\";
    unsigned k;

    GetCurrentDirectoryW(1000, whole + 4);
    for (k = 0; k < 3; k++) {
        wcscat(whole, L"\\" LETTERS);
        CreateDirectoryW(whole, NULL);
    }
}

/* The input by its path is the stream: what was read of it is gone. (wine opens such a path of Linux as a file) */
static void test_input(void)
{
    char room[2] = "..";
    int64_t file;
    unsigned k;

    _dup2(_open("plain", _O_RDONLY | _O_BINARY), 0);
    for (k = 0; k < 2; k++) {
        file = host_open(PATH("/dev/stdin"));
        host_read(file, room + k, 1);
        host_close(file);
    }
    is("two bytes of the input, one after the other", memcmp(room, "te", 2), 0);
}

/* A file that another has to itself, a path that is no UTF-8, one that is longer than most of Windows takes, and a device. */
static void test_system(void)
{
    const HANDLE held = CreateFileW(L"plain", GENERIC_READ, 0, NULL, OPEN_EXISTING, FILE_ATTRIBUTE_NORMAL, NULL);
    int64_t file;

    is("a file that is held", held != INVALID_HANDLE_VALUE, 1);
    is("a file that another has to itself", host_open(PATH("plain")), HOST_FORBIDDEN);
    is("the same that is created", host_create(PATH("plain")), HOST_FORBIDDEN);
    CloseHandle(held);
    is("a path that is no UTF-8", host_open(PATH("p\xFF")), HOST_NO_PATH);
    make_long_folder();
    put(LETTERS "/" LETTERS "/" LETTERS "/made", "text");
    put("NUL", "text");
    file = host_open(PATH("NUL"));
    is("the length of what the device kept", (int64_t)host_length(file), 0);
    is("its closing", host_close(file), 0);
    test_input();
}
#else
static int ends[2];

/* (what ends the wait of a call that this breaks off) */
static void put_byte(int signal)
{
    (void)signal;
    if (write(ends[1], "x", 1) != 1)
        _exit(2);
}

static void take_bytes(int signal)
{
    static char room[1 << 17];

    (void)signal;
    if (read(ends[0], room, sizeof room) <= 0)
        _exit(2);
}

static void open_end(int signal)
{
    (void)signal;
    if (open("pipe", O_RDWR) < 0)
        _exit(2);
}

/* Has this handler break off the call that is made then, after a tenth of a second. */
static void break_off(void (*handler)(int))
{
    const struct itimerval soon = {{0, 0}, {0, 100000}};
    struct sigaction action;

    memset(&action, 0, sizeof action);
    action.sa_handler = handler;
    sigaction(SIGALRM, &action, NULL);
    setitimer(ITIMER_REAL, &soon, NULL);
}

/* A call that a signal breaks off is made again, and a pipe that nobody reads is an error. */
static void test_system(void)
{
    static char much[1 << 16];
    int64_t file;

    is("a pipe", pipe(ends), 0);
    break_off(put_byte);
    is("a read that is broken off", host_read(ends[0], much, sizeof much), 1);
    /* (one that has nothing in it, also where that read failed) */
    is("another pipe", pipe(ends), 0);
    is("what fills a pipe", host_write(ends[1], much, sizeof much), sizeof much);
    break_off(take_bytes);
    is("a write that is broken off", host_write(ends[1], much, 1), 1);
    is("a pipe with a name", mkfifo("pipe", 0600), 0);
    break_off(open_end);
    file = host_open(PATH("pipe"));
    is("an open that is broken off", file >= 0, 1);
    host_close(file);
    close(ends[0]);
    is_below_0("a write to a pipe that nobody reads", host_write(ends[1], "x", 1));
}
#endif

/* Writes to both streams, byte by byte and at once; on Windows also to one of them in the middle of a character of the other. */
static void write_lines(void)
{
    static const char line[] = "caf\xC3\xA9 5 \xE2\x82\xAC\n";
    const size_t length = sizeof line - 1;
    size_t k;

    for (k = 0; k < length; k++)
        is("a byte of a line", host_write(1, line + k, 1), 1);
    is("a line at once", host_write(2, line, length), (int64_t)length);
#if defined _WIN32
    is("the first half of a character", host_write(1, "\xC3", 1), 1);
    is("a line on the other stream", host_write(2, PATH("\xC3\xA9\n")), 3);
    is("the other half", host_write(1, PATH("\xA9\n")), 2);
#else
    is("a line", host_write(2, PATH("\xC3\xA9\n")), 3);
    is("and another", host_write(1, PATH("\xC3\xA9\n")), 3);
#endif
}

int main(int argc, char **argv)
{
    is("the beginning", host_begin(argc, argv), 1);
    if (argc == 2 && strcmp(argv[1], "terminal") == 0) {
        write_lines();
        return differences > 0;
    }
    test_arguments();
    test_bytes();
    test_file();
    test_paths();
    test_places();
    test_streams();
    test_system();
    return differences > 0;
}
