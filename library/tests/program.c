/* The program pslink over the library: what it prints, writes and answers is that of the program that is proved, so that
 * .ci/samples and .ci/damage take either.
 * Usage: program link HOST OUT [LIB]... | map [--references] [--json] HOST [LIB]... | check [--strict] [--json] HOST [LIB]... |
 * check --unit FILE... | show [--json] FILE | list [--json] FILE... | serve STDOUT STDERR */
#define _POSIX_C_SOURCE 200809L
#include <pslink.h>
#include <stdio.h>
#include <stdlib.h>
#include <string.h>
#include <unistd.h>

#include "read_file.h"

#define LIBRARIES 4096

/* The host and the libraries, each called by its path. */
struct files {
    pslink_file all[1 + LIBRARIES];
    size_t count;
};

static void read_files(struct files *files, const char *host, char **libs, int count)
{
    int k;

    if (count > LIBRARIES)
        exit(2);
    files->all[0] = read_file(host);
    for (k = 0; k < count; k++)
        files->all[1 + k] = read_file(libs[k]);
    files->count = 1 + (size_t)count;
}

static void free_files(const struct files *files)
{
    size_t k;

    for (k = 0; k < files->count; k++)
        free((void *)(uintptr_t)files->all[k].bytes);
}

static int refused(const pslink_answer *answer)
{
    char text[PSLINK_FAULT_TEXT_MAX];

    if (pslink_fault_text(answer, text, sizeof text) != 0)
        fprintf(stderr, "pslink: %s\n", text);
    return (int)answer->status;
}

/* A block that grows to this size; an exit where there is no memory. */
static char *grown(char *block, size_t size)
{
    block = (char *)realloc(block, size);
    if (block == NULL)
        exit(4);
    return block;
}

static int link_files(const struct files *files, const char *path)
{
    char *out = grown(NULL, PSLINK_LINKED_MAX);
    pslink_answer answer;
    FILE *stream = NULL;
    int status = 3;

    pslink_link(files->all, files->count, out, PSLINK_LINKED_MAX, &answer);
    if (answer.status != PSLINK_DONE)
        status = refused(&answer);
    else if ((stream = fopen(path, "wb")) != NULL && fwrite(out, 1, answer.size, stream) == answer.size && fclose(stream) == 0)
        status = 0;
    if (status == 0)
        printf("segments %u private words %u blocks %u\n", (unsigned)answer.segments, (unsigned)answer.private_words,
               (unsigned)answer.blocks);
    free(out);
    return status;
}

/* The verdict of a report is what a link answers: the fault with its parts, or what the linked file has. */
static int is_of_link(const pslink_answer *verdict, const struct files *files)
{
    char *out = grown(NULL, PSLINK_LINKED_MAX);
    pslink_answer one;

    pslink_link(files->all, files->count, out, PSLINK_LINKED_MAX, &one);
    free(out);
    return (one.status == PSLINK_REFUSED) == (verdict->fault != 0) && one.fault == verdict->fault && one.file == verdict->file &&
           one.record == verdict->record && one.reference == verdict->reference && one.slot == verdict->slot &&
           one.kind == verdict->kind && memcmp(one.about, verdict->about, sizeof one.about) == 0 && one.segments == verdict->segments &&
           one.private_words == verdict->private_words && one.blocks == verdict->blocks;
}

/* Prints a text. Its status says whether the files are refused; of a report as lines, what the program's `check` ends with. */
static int print_text(uint32_t what, const struct files *files, int strict)
{
    char *out = NULL;
    size_t size = 0;
    pslink_answer answer;
    int status;

    while (pslink_text(what, files->all, files->count, out, size, &answer) == PSLINK_TOO_SMALL && answer.size > size) {
        size = answer.size;
        out = grown(out, size);
    }
    if (answer.status != PSLINK_DONE)
        status = refused(&answer);
    else if ((what & ~PSLINK_JSON) == PSLINK_CHECK && !is_of_link(&answer, files))
        status = 32;
    else if (fwrite(out, 1, answer.size, stdout) != answer.size)
        status = 3;
    else
        status = what == PSLINK_CHECK && (answer.fault != 0 || (strict && answer.warnings != 0));
    free(out);
    return status;
}

/* A command and its flags, each once and in this order. */
struct request {
    int is_link, is_map, is_show, is_check, is_list, strict, unit, references, json;
};

/* Whether the next word is this one, which is then behind. */
static int takes(char ***words, int *count, const char *word)
{
    if (*count == 0 || strcmp(**words, word) != 0)
        return 0;
    (*words)++;
    (*count)--;
    return 1;
}

static struct request requested(char ***words, int *count)
{
    struct request it = {0, 0, 0, 0, 0, 0, 0, 0, 0};

    it.is_link = takes(words, count, "link");
    it.is_map = !it.is_link && takes(words, count, "map");
    it.is_show = !it.is_map && takes(words, count, "show");
    it.is_check = !it.is_show && takes(words, count, "check");
    it.is_list = !it.is_check && takes(words, count, "list");
    it.strict = it.is_check && takes(words, count, "--strict");
    it.unit = it.is_check && takes(words, count, "--unit");
    it.references = it.is_map && takes(words, count, "--references");
    it.json = takes(words, count, "--json");
    return it;
}

static uint32_t text_of(const struct request *it)
{
    if (it->is_map)
        return it->references ? PSLINK_REFERENCES : PSLINK_MAP;
    if (it->is_show)
        return PSLINK_SHOW;
    if (it->is_list)
        return PSLINK_LIST;
    return it->unit ? PSLINK_UNITS : PSLINK_CHECK;
}

/* The status of a command, of so many words. A file that cannot be read ends the program. */
static int command(char **words, int count)
{
    static struct files files;
    const struct request it = requested(&words, &count);
    int first = 1 + it.is_link, status;

    if (!(it.is_link || it.is_map || it.is_show || it.is_check || it.is_list) || count < first || (it.is_show && count > 1))
        return 2;
    read_files(&files, words[0], words + first, count - first);
    if (it.is_link)
        status = link_files(&files, words[1]);
    else
        status = print_text(text_of(&it) | (it.json ? PSLINK_JSON : 0), &files, it.strict);
    free_files(&files);
    return status;
}

/* Answers the commands that come on standard input, as .ci/commands.py says. */
static int serve(const char *out, const char *error)
{
    static char line[1 << 16], *words[LIBRARIES];
    FILE *answers = fdopen(dup(STDOUT_FILENO), "w");

    while (answers != NULL && fgets(line, sizeof line, stdin) != NULL) {
        int count = 0, status;
        char *word;

        for (word = strtok(line, "\t\n"); word != NULL && count < LIBRARIES; word = strtok(NULL, "\t\n"))
            words[count++] = word;
        if (count == 0 || freopen(out, "wb", stdout) == NULL || freopen(error, "wb", stderr) == NULL)
            return 3;
        status = command(words, count);
        fprintf(answers, "%d\n", status);
        fflush(stdout);
        fflush(stderr);
        fflush(answers);
    }
    return 0;
}

int main(int argc, char **argv)
{
    if (argc == 4 && strcmp(argv[1], "serve") == 0)
        return serve(argv[2], argv[3]);
    return argc >= 2 ? command(argv + 1, argc - 1) : 2;
}
