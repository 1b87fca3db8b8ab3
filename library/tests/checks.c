/* What a C caller may rely on, of a host that its library completes: prints what is otherwise, and is then not 0. malloc and
 * realloc are those of refusing_heap.h (-Wl,--wrap=malloc,--wrap=realloc,--wrap=free), and HIGHEST_FAULT is the highest number of a fault
 * (-DHIGHEST_FAULT=NUMBER). Usage: checks HOST LIBRARY LINKED MAP SHOW */
#include <pslink.h>
#include <pthread.h>
#include <stdio.h>
#include <stdlib.h>
#include <string.h>

#include "bare.h"
#include "filled_room.h"
#include "read_file.h"
#include "refusing_heap.h"
#include "texts.h"

#define ROOM 70000

static pslink_file host, library, linked, map, show;

/* (with the library twice, the files are copied, and the first of the two is used) */
enum call { LINK, LINK_COPIED, MAP, MAP_COPIED, SHOW, CALLS };

static uint32_t make(enum call call, void *out, size_t size, pslink_answer *answer)
{
    const pslink_file files[3] = {host, library, library};

    switch (call) {
    case LINK:
        return pslink_link(files, 2, out, size, answer);
    case LINK_COPIED:
        return pslink_link(files, 3, out, size, answer);
    case MAP:
        return pslink_text(PSLINK_MAP, files, 2, out, size, answer);
    case MAP_COPIED:
        return pslink_text(PSLINK_MAP, files, 3, out, size, answer);
    default:
        return pslink_text(PSLINK_SHOW, &library, 1, out, size, answer);
    }
}

static const pslink_file *result_of(enum call call)
{
    return call == LINK || call == LINK_COPIED ? &linked : call == SHOW ? &show : &map;
}

/* The link of a host and one library. */
static uint32_t link_two(pslink_file first, pslink_file second, void *out, size_t size, pslink_answer *answer)
{
    const pslink_file files[2] = {first, second};

    return pslink_link(files, 2, out, size, answer);
}

/* Room of each length up to that of the result and one more. */
static void check_rooms(enum call call)
{
    const pslink_file *result = result_of(call);
    size_t size;

    for (size = 0; size <= result->length + 1; size++) {
        unsigned char *room = filled_room(size + 1);
        pslink_answer answer;
        uint32_t status;

        memset(&answer, 0xFF, sizeof answer);
        status = make(call, size == 0 ? NULL : room, size, &answer);
        check(status == answer.status, "the status is not the answer's", size);
        check(answer.size == result->length, "another length is needed", size);
        if (size < result->length) {
            check(is_small(&answer, result->length), "a room that is too small is taken", size);
            check(is_untouched(room, 0, size + 1), "a room that is too small is written to", size);
        } else {
            check(status == PSLINK_DONE && answer.size == result->length && !has_fault(&answer), "room enough is not taken", size);
            check(memcmp(room, result->bytes, result->length) == 0, "the result is another", size);
            check(is_untouched(room, result->length, size + 1), "what is behind the result is written to", size);
        }
        free(room);
    }
}

/* Each allocation refused in turn. */
static void check_memory(enum call call)
{
    const pslink_file *result = result_of(call);
    static unsigned char room[ROOM];
    pslink_answer answer;
    long turn;

    for (turn = 0; turn < 1000; turn++) {
        uint32_t status;

        memset(room, FILLER, sizeof room);
        asked = 0;
        refused_at = turn;
        status = make(call, room, sizeof room, &answer);
        refused_at = -1;
        if (asked <= turn) {
            check(status == PSLINK_DONE && memcmp(room, result->bytes, result->length) == 0,
                  "with all memory it is not done", (size_t)turn);
            check(turn > 0, "no memory was asked for", (size_t)call);
            if (call == LINK)
                printf("a link requests memory %ld times\n", turn);
            return;
        }
        check(status == PSLINK_NO_MEMORY && is_bare(&answer, status), "memory is refused, and the answer is another",
              (size_t)turn);
        check(is_untouched(room, 0, sizeof room), "memory is refused, and the room is written to", (size_t)turn);
    }
    check(0, "there is no end of memory that is asked for", (size_t)call);
}

/* A refusal of one library or none requests no memory; of up to 256 that of their copy alone; of more it may. */
static void check_refusals(void)
{
    static unsigned char room[100];
    static const char lib[512];
    static pslink_file files[301];
    char text[PSLINK_FAULT_TEXT_MAX];
    pslink_answer answer;
    size_t count, size;
    long turn;

    files[0] = host;
    for (count = 1; count <= 300; count++) {
        files[count].bytes = lib;
        files[count].length = sizeof lib;
    }
    for (count = 0; count <= 300; count++)
        for (turn = 0; turn < 2; turn++) {
            const int is_refused = count <= (turn == 0 ? 1 : 256);
            uint32_t status;

            memset(room, FILLER, sizeof room);
            asked = 0;
            refused_at = turn;
            status = pslink_link(files, count + 1, room, sizeof room, &answer);
            refused_at = -1;
            check(status == (is_refused ? PSLINK_REFUSED : PSLINK_NO_MEMORY), "without memory a refusal is another", count);
            check(!is_refused || (asked == (count > 1) && answer.fault == 13), "a refusal asks for other memory", count);
            check(is_untouched(room, 0, sizeof room), "a refusal writes to the room", count);
        }
    check(pslink_link(files, 301, NULL, 0, &answer) == PSLINK_REFUSED, "three hundred libraries are not read", 300);
    check(answer.fault == 13 && answer.file == 0 && answer.slot == 7 && answer.kind == -1 && answer.record == -1 &&
              answer.reference == -1 && answer.size == 0,
          "the fault is another", 300);
    check(strcmp(answer.about, "UTIL    ") == 0, "the missing unit is another", 300);
    size = pslink_fault_text(&answer, NULL, 0);
    check(size == sizeof "refused 13 MissingUnit file 0 slot 7", "the text has another length", size);
    memset(text, FILLER, sizeof text);
    check(pslink_fault_text(&answer, text, size - 1) == size && is_untouched((unsigned char *)text, 0, sizeof text),
          "a text is written where it does not fit", size);
    check(pslink_fault_text(&answer, text, size) == size && strcmp(text, "refused 13 MissingUnit file 0 slot 7") == 0,
          "the text is another", size);
    check(is_untouched((unsigned char *)text, size, sizeof text), "what is behind the text is written to", size);
}

/* The fault of the second library, which is cut, has its file and nothing more. */
static void check_file_of_a_fault(void)
{
    static const char wanted[] = "refused 1 ShortFile file 2", lib[512];
    static unsigned char room[100];
    const pslink_file files[3] = {host, {NULL, lib, 512}, {NULL, lib, 510}};
    char text[PSLINK_FAULT_TEXT_MAX];
    pslink_answer answer;

    memset(room, FILLER, sizeof room);
    check(pslink_link(files, 3, room, sizeof room, &answer) == PSLINK_REFUSED, "a library that is cut is taken", 2);
    check(answer.fault == 1 && answer.file == 2, "the fault of a cut library is another", 2);
    answer.fault = 0;
    answer.file = -1;
    check(is_bare(&answer, PSLINK_REFUSED), "the fault of a cut library has more", 2);
    answer.fault = 1;
    answer.file = 2;
    check(is_untouched(room, 0, sizeof room), "a refusal writes to the room", 2);
    check(pslink_fault_text(&answer, text, sizeof text) == sizeof wanted && strcmp(text, wanted) == 0,
          "the text of a cut library is another", 2);
}

/* Libraries anywhere in memory, one of no bytes among them, are linked as by their order. */
static void check_order(void)
{
    static unsigned char out[ROOM], other[1 << 16];
    pslink_file changed = library;
    pslink_answer answer;
    size_t k;

    memcpy(other, library.bytes, library.length);
    other[512 + 4] ^= 1; /* an instruction of the unit, no operand of a reference */
    changed.bytes = other;
    for (k = 0; k < 2; k++) {
        const pslink_file files[3] = {host, k == 0 ? library : changed, k == 0 ? changed : library};

        check(pslink_link(files, 3, out, sizeof out, &answer) == PSLINK_DONE && answer.size == linked.length, "two libraries are not linked", k);
        check((memcmp(out, linked.bytes, linked.length) == 0) == (k == 0), "of two libraries another is used", k);
    }
    memcpy(other, library.bytes, library.length);
    other[196] = 4; /* the kind of the unit's entry */
    check(link_two(host, changed, out, sizeof out, &answer) == PSLINK_REFUSED && answer.fault == PSLINK_FAULT_NOT_A_UNIT &&
              answer.file == 1 && answer.kind == 4 && answer.slot == 7,
          "what is no unit has another kind", answer.fault);
    for (k = 1; k <= 3; k++) {
        pslink_file files[4] = {host, library, library, library};

        files[k].bytes = NULL;
        files[k].length = 0;
        check(pslink_link(files, 4, out, sizeof out, &answer) == PSLINK_REFUSED && answer.fault == PSLINK_FAULT_SHORT_FILE &&
                  answer.file == (ptrdiff_t)k,
              "a library of no bytes is no short file", k);
    }
}

/* What no caller may do has a status of its own, and nothing else. */
static void check_misuse(void)
{
    const pslink_file files[3] = {{"HOST", NULL, 1536}, host, {NULL, NULL, 1}}, nothing = {NULL, NULL, 0};
    static unsigned char room[100];
    char text[PSLINK_FAULT_TEXT_MAX];
    pslink_answer answer;
    uint32_t what;

    memset(room, FILLER, sizeof room);
    check(pslink_link(NULL, 2, room, sizeof room, &answer) == PSLINK_MISUSE && is_bare(&answer, PSLINK_MISUSE), "no files are taken", 0);
    check(pslink_link(files, 0, room, sizeof room, &answer) == PSLINK_MISUSE && is_bare(&answer, PSLINK_MISUSE), "no host is taken", 0);
    check(pslink_link(files, 1, room, sizeof room, &answer) == PSLINK_MISUSE && is_bare(&answer, PSLINK_MISUSE), "no bytes are taken", 1);
    check(pslink_link(files + 1, 2, room, sizeof room, &answer) == PSLINK_MISUSE && is_bare(&answer, PSLINK_MISUSE), "no bytes are taken", 2);
    check(pslink_link(&host, 1, room, sizeof room, NULL) == PSLINK_MISUSE, "no answer is taken", 0);
    for (what = 0; what < 1200; what++) {
        const uint32_t number = what & ~PSLINK_JSON;
        const int is_text = number < TEXTS && (number == what || texts[number].has_document);

        check((pslink_text(what, &host, 1, NULL, 0, &answer) == PSLINK_MISUSE) == !is_text, "a text that there is not is made", what);
        check(is_text || is_bare(&answer, PSLINK_MISUSE), "a text that there is not has an answer", what);
        check(pslink_text(what, NULL, 1, room, sizeof room, &answer) == PSLINK_MISUSE, "no files are taken for a text", what);
        check(pslink_text(what, files, 0, room, sizeof room, &answer) == PSLINK_MISUSE, "no host is taken for a text", what);
        check(pslink_text(what, files + 1, 2, room, sizeof room, &answer) == PSLINK_MISUSE && is_bare(&answer, PSLINK_MISUSE),
              "no bytes are taken for a text", what);
        check(pslink_text(what, &host, 1, room, sizeof room, NULL) == PSLINK_MISUSE, "no answer is taken for a text", what);
    }
    check(pslink_text(UINT32_MAX, &host, 1, NULL, 0, &answer) == PSLINK_MISUSE, "a text that there is not is made", what);
    check(is_untouched(room, 0, sizeof room), "a call that is none writes to the room", 0);
    check(pslink_fault_text(&answer, text, sizeof text) == 0, "misuse is told as a fault", 0);
    check(pslink_fault_text(NULL, text, sizeof text) == 0, "no answer is told as a fault", 0);
    check(pslink_link(&nothing, 1, NULL, 0, &answer) == PSLINK_REFUSED && answer.fault == 1, "nothing is not refused as a short file", 0);
    check(pslink_text(PSLINK_SHOW, &nothing, 1, NULL, 0, &answer) == PSLINK_REFUSED && answer.fault == 1, "nothing is shown", 0);
    memset(&answer, 0xFF, sizeof answer);
    check(pslink_fault_text(&answer, text, sizeof text) == 0, "a fault of no number has a text", 255);
    check(pslink_release_number() == PSLINK_RELEASE_NUMBER, "the release is another", pslink_release_number());
}

/* NULL as of a malloc that failed: there is no room, whatever its length. */
static void check_null(void)
{
    const pslink_file one = {NULL, library.bytes, library.length}, none = {NULL, NULL, 0};
    pslink_answer answer;

    check(link_two(host, one, NULL, 4096, &answer) == PSLINK_TOO_SMALL && is_small(&answer, 1536), "no room is enough for a linked file", 0);
    check(make(LINK_COPIED, NULL, 4096, &answer) == PSLINK_TOO_SMALL && is_small(&answer, 1536),
          "no room is enough for a linked file, of files that are copied", 0);
    check(make(MAP, NULL, 4096, &answer) == PSLINK_TOO_SMALL && answer.size > 0, "no room is enough for a map", 0);
    check(pslink_text(PSLINK_SHOW, &host, 1, NULL, 4096, &answer) == PSLINK_TOO_SMALL && answer.size > 0, "no room is enough for a show", 0);
    check(link_two(none, one, NULL, 0, &answer) == PSLINK_REFUSED && answer.fault == PSLINK_FAULT_SHORT_FILE && answer.file == 0,
          "a host that is not there is no short file", 0);
    check(link_two(host, none, NULL, 0, &answer) == PSLINK_REFUSED && answer.fault == PSLINK_FAULT_SHORT_FILE && answer.file == 1,
          "a library that is not there is no short file", 1);
}

/* The text of each fault with the largest numbers, and the names of faults and statuses. */
static void check_texts(void)
{
    static const char *const statuses[] = {"done", "the files are refused", "the call is not as pslink.h says", NULL, "out of memory",
                                           "out is smaller than the result", "a name of a file is no UTF-8", NULL, NULL};
    char text[PSLINK_FAULT_TEXT_MAX], wanted[2 * PSLINK_FAULT_TEXT_MAX];
    pslink_answer answer;
    size_t longest = 0, size;
    uint32_t number;

    memset(&answer, 0xFF, sizeof answer);
    answer.slot = 255;
    answer.file = answer.record = answer.reference = PTRDIFF_MAX;
    for (number = 0; number < 600; number++) {
        const char *name = pslink_fault(number, PSLINK_NAME);

        answer.fault = number;
        answer.kind = number == PSLINK_FAULT_NOT_A_UNIT ? 65535 : -1;
        check((name != NULL) == (1 <= number && number <= HIGHEST_FAULT), "a fault has no name, or what is none has one", number);
        memset(text, FILLER, sizeof text);
        if (name == NULL) {
            check(pslink_fault_text(&answer, text, sizeof text) == 0 && is_untouched((unsigned char *)text, 0, sizeof text),
                  "what is no fault has a text", number);
            continue;
        }
        snprintf(wanted, sizeof wanted, "refused %u %s%s file %td slot 255 record %td reference %td", (unsigned)number, name,
                 number == PSLINK_FAULT_NOT_A_UNIT ? " kind 65535" : "", PTRDIFF_MAX, PTRDIFF_MAX, PTRDIFF_MAX);
        size = strlen(wanted) + 1;
        longest = size > longest ? size : longest;
        check(pslink_fault_text(&answer, text, size - 1) == size && is_untouched((unsigned char *)text, 0, sizeof text),
              "a text is written where it does not fit", number);
        check(pslink_fault_text(&answer, NULL, sizeof text) == size, "a text is written where no room is", number);
        check(pslink_fault_text(&answer, text, size) == size && strcmp(text, wanted) == 0, "a longest text is another", number);
        check(is_untouched((unsigned char *)text, size, sizeof text), "what is behind a text is written to", number);
    }
    check(longest > 100 && longest <= PSLINK_FAULT_TEXT_MAX, "the longest text has another length", longest);
    check(strcmp(pslink_fault(PSLINK_FAULT_MISSING_UNIT, PSLINK_NAME), "MissingUnit") == 0, "the name of a fault is another",
          PSLINK_FAULT_MISSING_UNIT);
    for (number = 0; number < sizeof statuses / sizeof *statuses; number++) {
        const char *said = pslink_status(number);

        check(said == NULL ? statuses[number] == NULL : statuses[number] != NULL && strcmp(said, statuses[number]) == 0,
              "what a status says is another", number);
    }
    check(pslink_status(UINT32_MAX) == NULL, "what is no status says something", UINT32_MAX);
}

/* What each fault means and what to do about it: ASCII that is printed. */
static void check_sentences(void)
{
    static const struct {
        uint32_t fault;
        const char *meaning, *remedy;
    } known[] = {
        {PSLINK_FAULT_SHORT_FILE, "The file has less than the 512 bytes of a segment dictionary.",
         "The file is truncated, or no code file. Copy it again, as binary, or give the code file."},
        {PSLINK_FAULT_TWO_HOSTS, "A second segment is a host program.", "Keep one of them in the file."},
        {PSLINK_FAULT_MISSING_UNIT,
         "No library has the unit that the slot wants or, if a record is reported, that the UNITREF in this record requests.",
         "Give the library that has it. If you gave it, see DAMAGED FILES in pslink(1)."},
        {PSLINK_FAULT_TRUNCATED, "The file ends before the code does.", "Copy the file again, as binary."},
        {PSLINK_FAULT_NO_SLOT,
         "The host has no empty slot from 7 to 15 left for the unit that the UNITREF in this record requests.",
         "Join two units into one, or take linked segments out of the host."},
    };
    uint32_t number, part;
    size_t k;

    for (part = 0; part < 6; part++)
        for (number = 0; number < 600; number++) {
            const char *sentence = pslink_fault(number, part), *at;

            check((sentence != NULL) == (1 <= number && number <= HIGHEST_FAULT && part <= PSLINK_REMEDY),
                  "a fault has no sentence, or what is none has one", number);
            if (sentence == NULL)
                continue;
            check(sentence == pslink_fault(number, part), "a sentence is elsewhere", number);
            check(part == PSLINK_NAME || sentence[strlen(sentence) - 1] == '.', "a sentence does not end", number);
            for (at = sentence; *at != 0; at++)
                check(*at >= ' ' && *at <= '~', "a sentence has a byte that is not printed", number);
        }
    check(pslink_fault(UINT32_MAX, PSLINK_NAME) == NULL && pslink_fault(1, UINT32_MAX) == NULL, "there is a fault of the highest number", 0);
    for (k = 0; k < sizeof known / sizeof *known; k++) {
        check(strcmp(pslink_fault(known[k].fault, PSLINK_MEANING), known[k].meaning) == 0, "what a fault means is another", known[k].fault);
        check(strcmp(pslink_fault(known[k].fault, PSLINK_REMEDY), known[k].remedy) == 0, "what to do about a fault is another",
              known[k].fault);
    }
}

/* Lengths that no block of memory can have. */
static void check_too_long(void)
{
    const pslink_file too_long[3] = {host, {NULL, library.bytes, PTRDIFF_MAX}, {NULL, library.bytes, SIZE_MAX}};
    pslink_answer answer;
    uint32_t what;

    for (what = 0; what < TEXTS; what++) {
        check(pslink_text(what, too_long, 2, NULL, 0, &answer) == PSLINK_NO_MEMORY && is_bare(&answer, PSLINK_NO_MEMORY),
              "a library that is too long is taken", what);
        check(pslink_text(what, too_long, 3, NULL, 0, &answer) == PSLINK_NO_MEMORY, "libraries that are too long are taken", what);
        check(pslink_text(what, too_long, SIZE_MAX, NULL, 0, &answer) == PSLINK_NO_MEMORY, "too many libraries are taken", what);
    }
    check(pslink_link(too_long, 2, NULL, 0, &answer) == PSLINK_NO_MEMORY && is_bare(&answer, PSLINK_NO_MEMORY),
          "a library that is too long is taken", 1);
    check(pslink_link(too_long, 3, NULL, 0, &answer) == PSLINK_NO_MEMORY, "libraries that are too long are taken", 2);
    check(pslink_link(too_long, SIZE_MAX, NULL, 0, &answer) == PSLINK_NO_MEMORY, "too many libraries are taken", 3);
    check(pslink_link(&host, SIZE_MAX / (2 * sizeof(size_t)) + 2, NULL, 0, &answer) == PSLINK_NO_MEMORY, "too many libraries are taken", 4);
#if PSLINK_LINKED_MAX != 1025 * 512 || PSLINK_FAULT_TEXT_MAX < 125 || PSLINK_FAULT_MISSING_UNIT != 13
    check(0, "the constants are others", 0);
#endif
}

static void *link_often(void *is_well)
{
    static const int turns = 200;
    unsigned char *room = (unsigned char *)malloc(PSLINK_LINKED_MAX);
    int turn;

    for (turn = 0; turn < turns; turn++) {
        enum call call = (enum call)(turn % CALLS);
        const pslink_file *result = result_of(call);
        pslink_answer answer;

        if (room == NULL || make(call, room, PSLINK_LINKED_MAX, &answer) != PSLINK_DONE ||
            memcmp(room, result->bytes, result->length) != 0)
            *(int *)is_well = 0;
    }
    free(room);
    return NULL;
}

static void check_threads(void)
{
    pthread_t threads[8];
    int are_well[8];
    size_t k;

    for (k = 0; k < 8; k++) {
        are_well[k] = 1;
        check(pthread_create(&threads[k], NULL, link_often, &are_well[k]) == 0, "no thread is started", k);
    }
    for (k = 0; k < 8; k++) {
        pthread_join(threads[k], NULL);
        check(are_well[k], "a thread has another result", k);
    }
}

int main(int argc, char **argv)
{
    int call;

    if (argc != 6)
        return 2;
    host = read_file(argv[1]);
    library = read_file(argv[2]);
    linked = read_file(argv[3]);
    map = read_file(argv[4]);
    show = read_file(argv[5]);
    for (call = 0; call < CALLS; call++) {
        check_rooms((enum call)call);
        check_memory((enum call)call);
    }
    check_refusals();
    check_file_of_a_fault();
    check_order();
    check_misuse();
    check_null();
    check_texts();
    check_sentences();
    check_too_long();
    check_threads();
    return failures != 0;
}
