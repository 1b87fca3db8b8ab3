/* What a C caller may rely on of a report, of a host that its library completes: prints what is otherwise, and is then not 0. malloc
 * and realloc are those of refusing_heap.h (-Wl,--wrap=malloc,--wrap=realloc,--wrap=free). Usage: check_reports HOST LIBRARY */
#include <pslink.h>
#include <stdio.h>
#include <stdlib.h>
#include <string.h>

#include "bare.h"
#include "filled_room.h"
#include "read_file.h"
#include "refusing_heap.h"
#include "texts.h"

#define ROOM 8192
/* Where the library says how many words the private variable of record 1 has. */
#define WORDS_OF_STATE (1024 + 32 + 14)

/* What the sample pair is reported as, and the host alone. */
static const char pair[] =
    "file 0 HOST: 1536 bytes, little-endian\n"
    "file 1 LIB1: 1536 bytes, little-endian\n"
    "slot 01 DEMO: the host program, from HOST entry 01, 18 bytes\n"
    "slot 07 UTIL: a unit that the host wants, from LIB1 entry 02, 24 bytes\n"
    "slots without a segment: 00 02 03 04 05 06 08 09 10 11 12 13 14 15\n"
    "links: segments 2 private words 4 blocks 3\n"
    "references of UTIL: 2 of 2 lead to operands, 1 of them to 80 00\n";
static const char alone[] =
    "file 0 HOST: 1536 bytes, little-endian\n"
    "slot 01 DEMO: the host program, from HOST entry 01, 18 bytes\n"
    "slot 07 UTIL: a unit that the host wants, which no library has\n"
    "slots without a segment: 00 02 03 04 05 06 08 09 10 11 12 13 14 15\n"
    "pslink: refused 13 MissingUnit file 0 slot 7\n"
    "  file HOST\n"
    "  segment UTIL, of slot 07 of the host\n"
    "  no library is given\n"
    "  No library has the unit that the slot wants.\n"
    "  Give a library that has UTIL, after HOST.\n";

/* The texts that are made of a report, so that the answer has its verdict and its warnings. */
static const uint32_t of_report[] = {PSLINK_CHECK, PSLINK_CHECK | PSLINK_JSON, PSLINK_FINDINGS, PSLINK_FINDINGS | PSLINK_JSON};

static pslink_file host, library;

/* The report of the pair, or of the host alone where `count` is 0. */
static uint32_t make(size_t count, void *out, size_t size, pslink_answer *answer)
{
    const pslink_file files[2] = {host, library};

    return pslink_text(PSLINK_CHECK, files, 1 + count, out, size, answer);
}

/* Whether the verdict, with so many warnings, is that the pair is linked. */
static int is_linked(const pslink_answer *answer, size_t warnings)
{
    return answer->status == PSLINK_DONE && !has_fault(answer) && answer->segments == 2 && answer->private_words == 4 &&
           answer->blocks == 3 && answer->warnings == warnings;
}

/* Whether it is that the host alone lacks its unit. */
static int is_alone(const pslink_answer *answer)
{
    return answer->status == PSLINK_DONE && answer->fault == PSLINK_FAULT_MISSING_UNIT && answer->file == 0 && answer->slot == 7 &&
           answer->record == -1 && answer->reference == -1 && answer->kind == -1 && strcmp(answer->about, "UTIL    ") == 0 &&
           answer->segments == 0 && answer->private_words == 0 && answer->blocks == 0 && answer->warnings == 0;
}

/* Room of each length up to that of the report and one more, of files that are linked and of a host that is refused. */
static void check_rooms(size_t count)
{
    const char *report = count == 1 ? pair : alone;
    const size_t length = strlen(report);
    size_t size;

    for (size = 0; size <= length + 1; size++) {
        unsigned char *room = filled_room(size + 1);
        pslink_answer answer;
        uint32_t status;

        memset(&answer, 0xFF, sizeof answer);
        status = make(count, size == 0 ? NULL : room, size, &answer);
        check(status == answer.status, "the status is not the answer's", size);
        check(answer.size == length, "another length is needed", size);
        if (size < length) {
            check(is_small(&answer, length), "a room that is too small is taken", size);
            check(is_untouched(room, 0, size + 1), "a room that is too small is written to", size);
        } else {
            check(count == 1 ? is_linked(&answer, 0) : is_alone(&answer), "the verdict is another", count);
            check(memcmp(room, report, length) == 0, "the report is another", size);
            check(is_untouched(room, length, size + 1), "what is behind the report is written to", size);
        }
        free(room);
    }
}

/* The verdict is what a link answers, which has the fault, whole: of the lines and of the document. */
static void check_verdicts(void)
{
    const pslink_file files[2] = {host, library};
    char text[PSLINK_FAULT_TEXT_MAX];
    static unsigned char room[ROOM];
    pslink_answer answer;
    size_t k;

    for (k = 0; k < sizeof of_report / sizeof *of_report; k++) {
        pslink_text(of_report[k], files, 2, room, sizeof room, &answer);
        check(is_linked(&answer, 0), "the verdict of the pair is another", of_report[k]);
        check(pslink_fault_text(&answer, text, sizeof text) == 0, "the pair has a fault", of_report[k]);
        pslink_text(of_report[k], files, 1, room, sizeof room, &answer);
        check(is_alone(&answer), "the verdict of the host alone is another", of_report[k]);
        check(pslink_fault_text(&answer, text, sizeof text) != 0 && strcmp(text, "refused 13 MissingUnit file 0 slot 7") == 0,
              "the fault of the host alone is another", of_report[k]);
    }
}

/* The unit's private variable has two words, and the operand is the third: one warning. */
static void check_warnings(void)
{
    static unsigned char room[ROOM], other[1 << 16];
    pslink_file files[2] = {host, library};
    pslink_answer answer;
    size_t k;

    memcpy(other, library.bytes, library.length);
    other[WORDS_OF_STATE] = 2;
    files[1].bytes = other;
    for (k = 0; k < sizeof of_report / sizeof *of_report; k++)
        check(pslink_text(of_report[k], files, 2, room, sizeof room, &answer) == PSLINK_DONE && answer.fault == 0 &&
                  answer.warnings == 1,
              "there is another count of warnings", answer.warnings);
    check(pslink_text(PSLINK_LIST, files, 2, room, sizeof room, &answer) == PSLINK_DONE && answer.warnings == 0,
          "warnings are told of another text", answer.warnings);
}

/* A host alone has no map. */
static int lacks_its_unit(uint32_t what, size_t count, uint32_t status)
{
    return status == PSLINK_REFUSED && (what & ~PSLINK_JSON) <= PSLINK_REFERENCES && count == 1;
}

/* The status of a text in this room, for which the allocation of this turn is refused. */
static uint32_t text_refused(long turn, uint32_t what, const pslink_file *files, size_t count, unsigned char *room, pslink_answer *answer)
{
    uint32_t status;

    memset(room, FILLER, ROOM);
    asked = 0;
    refused_at = turn;
    status = pslink_text(what, files, count, room, ROOM, answer);
    refused_at = -1;
    return status;
}

/* Each allocation refused in turn, of each text in each form. */
static void check_memory(uint32_t what, size_t count)
{
    static unsigned char room[ROOM];
    const pslink_file files[3] = {host, library, library};
    pslink_answer answer;
    long turn;

    for (turn = 0; turn < 1000; turn++) {
        const uint32_t status = text_refused(turn, what, files, count, room, &answer);

        if (asked <= turn) {
            check(status == PSLINK_DONE || lacks_its_unit(what, count, status), "with all memory it is not done", what);
            check((turn == 0) == (status == PSLINK_REFUSED || (what == PSLINK_HAD && count <= 2)), "memory is asked for otherwise", what);
            return;
        }
        check(status == PSLINK_NO_MEMORY ? is_bare(&answer, status) : lacks_its_unit(what, count, status),
              "memory is refused, and the answer is another", (size_t)turn);
        check(is_untouched(room, 0, sizeof room), "memory is refused, and the room is written to", (size_t)turn);
    }
    check(0, "there is no end of memory that is asked for", what);
}

/* A text that there is not, where no memory is had: the call asks for none. */
static void check_no_text(void)
{
    static const uint32_t none[] = {TEXTS, PSLINK_WANTED | PSLINK_JSON, PSLINK_HAD | PSLINK_JSON, PSLINK_TYPE | PSLINK_JSON,
                                    PSLINK_CHECK | 2 * PSLINK_JSON};
    const pslink_file files[3] = {host, library, library};
    pslink_answer answer;
    size_t k;

    for (k = 0; k < sizeof none / sizeof *none; k++) {
        asked = refused_at = 0;
        check(pslink_text(none[k], files, 3, NULL, 0, &answer) == PSLINK_MISUSE && is_bare(&answer, PSLINK_MISUSE) && asked == 0,
              "a text that there is not asks for memory", none[k]);
        refused_at = -1;
    }
}

static void check_all_memory(void)
{
    uint32_t what;
    size_t count;

    for (what = 0; what < TEXTS; what++)
        for (count = 1; count <= 3; count++) {
            check_memory(what, count);
            if (texts[what].has_document)
                check_memory(what | PSLINK_JSON, count);
        }
    check_no_text();
}

/* Each allocation refused in turn of a text of these files: with the last of them it is the whole text. */
static void check_whole_text(uint32_t what, const pslink_file *files, size_t count)
{
    static unsigned char whole[ROOM], room[ROOM];
    pslink_answer answer;
    size_t length;
    long turn;

    check(pslink_text(what, files, count, whole, sizeof whole, &answer) == PSLINK_DONE, "with all memory it is not done", what);
    length = answer.size;
    for (turn = 0; turn < 1000; turn++) {
        const uint32_t status = text_refused(turn, what, files, count, room, &answer);

        if (asked <= turn) {
            check(status == PSLINK_DONE && answer.size == length && memcmp(room, whole, length) == 0, "the whole text is another", what);
            check(turn != 0, "no memory is asked for", what);
            return;
        }
        check(status == PSLINK_NO_MEMORY && is_bare(&answer, status), "memory is refused, and the answer is another", (size_t)turn);
        check(is_untouched(room, 0, sizeof room), "memory is refused, and the room is written to", (size_t)turn);
    }
    check(0, "there is no end of memory that is asked for", what);
}

/* Files of which a report has lines of each kind: of a warning, of a unit that two libraries have, of a library that is not used, and of
 * what to do; files that are refused, of which each has a line of its units; and libraries without a host, which are listed. */
static void check_whole_texts(void)
{
    static unsigned char other[1 << 16];
    pslink_file warned[3] = {host, library, library}, refused[3] = {host, host, host}, listed[3] = {library, library, library};
    const pslink_file *sets[3] = {warned, refused, listed};
    size_t k;

    memcpy(other, library.bytes, library.length);
    other[WORDS_OF_STATE] = 2;
    warned[1].bytes = other;
    for (k = 0; k < sizeof sets / sizeof *sets; k++) {
        check_whole_text(PSLINK_CHECK, sets[k], 3);
        check_whole_text(PSLINK_CHECK | PSLINK_JSON, sets[k], 3);
        check_whole_text(PSLINK_FINDINGS, sets[k], 3);
        check_whole_text(PSLINK_FINDINGS | PSLINK_JSON, sets[k], 3);
        check_whole_text(PSLINK_LIST, sets[k], 3);
        check_whole_text(PSLINK_LIST | PSLINK_JSON, sets[k], 3);
    }
}

/* Names that are no UTF-8, are empty, or are not there; and some that are right. */
static void check_names(void)
{
    static const struct {
        const char *host, *library;
        uint32_t status;
    } cases[] = {
        {"HOST", "LIB", PSLINK_DONE},
        {"", "", PSLINK_DONE},
        {"H\xC3\xA9", "LIB", PSLINK_DONE},
        {"\xF0\x9F\x92\xBE", "", PSLINK_DONE},
        {NULL, NULL, PSLINK_DONE},
        {"H\xC3", "\xA9LIB", PSLINK_WRONG_NAMES},
        {"\xFF", "LIB", PSLINK_WRONG_NAMES},
        {NULL, "\xFF", PSLINK_WRONG_NAMES},
        {"HOST\xC0\x80", "", PSLINK_WRONG_NAMES},
        {"HOST\xED\xA0\x80", "LIB", PSLINK_WRONG_NAMES},
    };
    static unsigned char room[ROOM];
    pslink_file files[2] = {host, library}, none = {NULL, NULL, 0};
    pslink_answer answer;
    uint32_t what;
    size_t k;

    for (k = 0; k < sizeof cases / sizeof *cases; k++) {
        files[0].name = cases[k].host;
        files[1].name = cases[k].library;
        for (what = 0; what < TEXTS; what++) {
            uint32_t status;

            memset(room, FILLER, sizeof room);
            status = pslink_text(what, files, 2, room, sizeof room, &answer);
            check(status == (texts[what].has_names ? cases[k].status : PSLINK_DONE) && answer.status == status, "names are taken otherwise", k);
            check(status == PSLINK_DONE || (is_bare(&answer, status) && is_untouched(room, 0, sizeof room)),
                  "names that are not taken leave something", k);
            if (texts[what].has_document)
                check(pslink_text(what | PSLINK_JSON, files, 2, room, sizeof room, &answer) == status, "a document takes other names", k);
        }
        check(pslink_link(files, 2, room, sizeof room, &answer) == PSLINK_DONE, "names are looked at for a link", k);
    }
    check(pslink_text(PSLINK_CHECK, &none, 1, room, sizeof room, &answer) == PSLINK_DONE && answer.fault == PSLINK_FAULT_SHORT_FILE,
          "nothing has no report", 0);
}

/* What a report calls a file: its name, also one of no bytes, and without one its number. */
static void check_called(void)
{
    static const struct {
        const char *host, *library, *report;
    } cases[] = {
        {"HOST", "LIB1", "file 0 HOST: 1536 bytes, little-endian\nfile 1 LIB1: 1536 bytes, little-endian\n"},
        {"", "LIB1", "file 0 : 1536 bytes, little-endian\nfile 1 LIB1: 1536 bytes, little-endian\n"},
        {"HOST", "", "file 0 HOST: 1536 bytes, little-endian\nfile 1 : 1536 bytes, little-endian\n"},
        {"", NULL, "file 0 : 1536 bytes, little-endian\nfile 1 file 1: 1536 bytes, little-endian\n"},
        {NULL, "", "file 0 file 0: 1536 bytes, little-endian\nfile 1 : 1536 bytes, little-endian\n"},
    };
    static unsigned char room[ROOM];
    pslink_file files[2] = {host, library};
    pslink_answer answer;
    size_t k;

    for (k = 0; k < sizeof cases / sizeof *cases; k++) {
        files[0].name = cases[k].host;
        files[1].name = cases[k].library;
        check(pslink_text(PSLINK_CHECK, files, 2, room, sizeof room, &answer) == PSLINK_DONE &&
                  memcmp(room, cases[k].report, strlen(cases[k].report)) == 0,
              "a report calls files otherwise", k);
    }
}

/* A character as a document has it: docs/JSON.md says which have a letter behind a backslash, and which a number. */
static void put_escape(char *escape, unsigned character)
{
    static const char characters[] = "\b\t\n\f\r\"\\", letters[] = "btnfr\"\\";
    const char *at = character < 128 ? strchr(characters, (int)character) : NULL;

    if (at != NULL)
        sprintf(escape, "\\%c", letters[at - characters]);
    else
        sprintf(escape, "\\u%04X", character);
}

/* A name with each character on which a terminal would act, a quote, a backslash, and one that is above U+FFFF. */
static void check_escapes(void)
{
    static unsigned char room[ROOM + 1];
    char name[16], escape[8], wanted[64];
    pslink_answer answer;
    pslink_file file = host;
    unsigned character;

    file.name = name;
    for (character = 1; character < 160; character++) {
        if (character >= ' ' && character < 127 && character != '"' && character != '\\')
            continue;
        if (character < 128)
            sprintf(name, "\xF0\x9F\x92\xBE%cb", (char)character);
        else
            sprintf(name, "\xF0\x9F\x92\xBE\xC2%cb", (char)character);
        put_escape(escape, character);
        sprintf(wanted, "{\"path\":\"\xF0\x9F\x92\xBE%sb\",", escape);
        check(pslink_text(PSLINK_LIST | PSLINK_JSON, &file, 1, room, ROOM, &answer) == PSLINK_DONE, "a file is not listed", character);
        room[answer.size] = 0;
        check(strstr((const char *)room, wanted) != NULL, "a document has a character of a name otherwise", character);
    }
}

/* What files without names are called, up to a number of four digits. */
static void check_numbers(void)
{
    static unsigned char room[1 << 19];
    static pslink_file files[1002];
    char line[80];
    pslink_answer answer;
    size_t k;

    for (k = 0; k < 1002; k++)
        files[k] = library;
    for (k = 0; k < 1002; k++)
        files[k].name = NULL;
    check(pslink_text(PSLINK_LIST, files, 1002, room, sizeof room - 1, &answer) == PSLINK_DONE, "a thousand files are not listed", 0);
    room[answer.size] = 0;
    for (k = 0; k < 1002; k++) {
        snprintf(line, sizeof line, "%sfile %zu: little-endian, 1536 bytes, library\n", k == 0 ? "" : "\n", k);
        check(strstr((const char *)room, line) != NULL, "a file without a name is called otherwise", k);
    }
}

/* A text of the pair, in room that is just enough: it is what is given as its length. */
static size_t text_of(uint32_t what, size_t count, unsigned char *room, size_t size)
{
    const pslink_file files[2] = {host, library};
    pslink_answer answer, again;

    memset(room, FILLER, size);
    check(pslink_text(what, files, 1 + count, NULL, 4096, &answer) == PSLINK_TOO_SMALL && answer.size > 0 && answer.size < size &&
              is_small(&answer, answer.size),
          "no room is enough for a text", what);
    check(pslink_text(what, files, 1 + count, room, answer.size - 1, &again) == PSLINK_TOO_SMALL && is_small(&again, answer.size) &&
              is_untouched(room, 0, size),
          "a text is put where it does not fit", what);
    check(pslink_text(what, files, 1 + count, room, answer.size, &again) == PSLINK_DONE && again.size == answer.size &&
              is_untouched(room, answer.size, size),
          "a text is put otherwise", what);
    return answer.size;
}

/* Each text beside another, or by what it begins and ends with. */
static void check_texts(void)
{
    static const char list[] = "HOST: little-endian, 1536 bytes, host", map[] = "segment 01 DEMO     file 0 ", show[] = "order little\n";
    static unsigned char room[ROOM], other[ROOM];
    pslink_file short_host = host;
    pslink_answer answer;
    size_t size;
    uint32_t what;

    size = text_of(PSLINK_MAP, 1, other, sizeof other);
    check(memcmp(other, map, strlen(map)) == 0, "the map is another", size);
    check(text_of(PSLINK_REFERENCES, 1, room, sizeof room) > size && memcmp(room, other, size) == 0,
          "the map with its references does not begin with the map", size);
    size = text_of(PSLINK_SHOW, 1, room, sizeof room);
    check(memcmp(room, show, strlen(show)) == 0, "the show is another", size);
    check(text_of(PSLINK_SHOW, 0, other, sizeof other) == size && memcmp(room, other, size) == 0, "libraries have part in a show", size);
    size = text_of(PSLINK_CHECK, 0, room, sizeof room);
    check(size == strlen(alone) && memcmp(room, alone, size) == 0, "the report is another", size);
    text_of(PSLINK_LIST, 1, room, sizeof room);
    check(memcmp(room, list, strlen(list)) == 0, "the list is another", sizeof list);
    text_of(PSLINK_UNITS, 1, room, sizeof room);
    check(strstr((const char *)room, "LIB1: slot 02 UTIL     by itself, no fault\n") != NULL, "units by themselves are others", 0);
    for (what = 0; what < TEXTS; what++) {
        if (!texts[what].has_document)
            continue;
        size = text_of(what | PSLINK_JSON, 1, room, sizeof room);
        check(room[0] == '{' && memcmp(room + size - 2, "}\n", 2) == 0, "a document is none", what);
    }
    check(pslink_text(PSLINK_MAP | PSLINK_JSON, &host, 1, room, sizeof room, &answer) == PSLINK_REFUSED &&
              answer.fault == PSLINK_FAULT_MISSING_UNIT && strcmp(answer.about, "UTIL    ") == 0,
          "a map that is refused has another name", answer.fault);
    short_host.length = 511;
    check(pslink_text(PSLINK_SHOW | PSLINK_JSON, &short_host, 1, room, sizeof room, &answer) == PSLINK_REFUSED &&
              answer.fault == PSLINK_FAULT_SHORT_FILE && answer.about[0] == 0,
          "a short file is shown", answer.fault);
}

/* What is found, one by one: nothing in the pair; and in a library that was padded, whose procedure has another number, whose private
 * variable has two words where the operand is the third, and whose first operand has lost its bit 7, what is harmless, a note, a warning
 * and a note, which are lines of the report before its last one. */
static void check_findings(void)
{
    static const char last[] = "copy or compile again: LIB1; see WARNINGS in pslink(1)\n";
    static const char none[] = "{\"findings\":[\n]}\n";
    static const char lines[] =
        "harmless: LIB1: its last 2 bytes are 1A: it was padded, as by CP/M\n"
        "note: LIB1, segment UTIL: the attribute table of procedure 1 says that it is procedure 3: the code may be damaged\n"
        "warning: LIB1, segment UTIL, record 1: the operand at byte 4 is word 2 of a variable that has 2\n"
        "note: LIB1, segment UTIL, record 0: the operand at byte 1 may be damaged: its bit 7 is clear, and a compiler sets it\n";
    static const char items[] =
        "{\"findings\":[\n"
        "{\"weight\":\"harmless\",\"path\":\"LIB1\",\"segment\":null,"
        "\"record\":null,\"text\":\"its last 2 bytes are 1A: it was padded, as by CP/M\"},\n"
        "{\"weight\":\"note\",\"path\":\"LIB1\",\"segment\":{\"name\":\"UTIL    \",\"name_hex\":\"5554494C20202020\"},"
        "\"record\":null,\"text\":\"the attribute table of procedure 1 says that it is procedure 3: the code may be damaged\"},\n"
        "{\"weight\":\"warning\",\"path\":\"LIB1\",\"segment\":{\"name\":\"UTIL    \",\"name_hex\":\"5554494C20202020\"},"
        "\"record\":1,\"text\":\"the operand at byte 4 is word 2 of a variable that has 2\"},\n"
        "{\"weight\":\"note\",\"path\":\"LIB1\",\"segment\":{\"name\":\"UTIL    \",\"name_hex\":\"5554494C20202020\"},"
        "\"record\":0,\"text\":\"the operand at byte 1 may be damaged: its bit 7 is clear, and a compiler sets it\"}\n"
        "]}\n";
    static unsigned char room[ROOM], other[ROOM], file[1 << 16];
    const pslink_file kept = library, files[2] = {host, library};
    pslink_answer answer;
    size_t size;

    memset(&answer, 0xFF, sizeof answer);
    memset(room, FILLER, sizeof room);
    check(pslink_text(PSLINK_FINDINGS, files, 2, room, sizeof room, &answer) == PSLINK_DONE && answer.size == 0 &&
              is_untouched(room, 0, sizeof room),
          "something is found in the pair", answer.size);
    size = text_of(PSLINK_FINDINGS | PSLINK_JSON, 1, room, sizeof room);
    check(size == strlen(none) && memcmp(room, none, size) == 0, "the document of nothing is another", size);
    memcpy(file, library.bytes, library.length);
    file[512 + 18] = 3;
    file[512 + 1] = 0;
    file[WORDS_OF_STATE] = 2;
    memset(file + library.length, 0x1A, 2);
    library.bytes = file;
    library.length += 2;
    size = text_of(PSLINK_FINDINGS, 1, room, sizeof room);
    check(size == strlen(lines) && memcmp(room, lines, size) == 0, "what is found is said otherwise", size);
    memcpy(room + size, last, strlen(last));
    size += strlen(last);
    check(make(1, other, sizeof other, &answer) == PSLINK_DONE && answer.warnings == 1 && answer.size > size &&
              memcmp(other + answer.size - size, room, size) == 0,
          "the report ends with other lines", answer.size);
    size = text_of(PSLINK_FINDINGS | PSLINK_JSON, 1, room, sizeof room);
    check(size == strlen(items) && memcmp(room, items, size) == 0, "the document of what is found is another", size);
    library = kept;
}

/* Whether this text of files is what is put: names of units, or a line, which are ASCII. */
static int is_text(uint32_t what, pslink_file one, const pslink_file *lib, const char *wanted)
{
    static unsigned char room[ROOM];
    const pslink_file files[2] = {one, lib == NULL ? one : *lib};
    const size_t size = strlen(wanted);
    pslink_answer answer;

    memset(&answer, 0xFF, sizeof answer);
    memset(room, FILLER, sizeof room);
    return pslink_text(what, files, lib == NULL ? 1 : 2, room, sizeof room, &answer) == PSLINK_DONE && answer.size == size &&
           !has_fault(&answer) && memcmp(room, wanted, size) == 0 && is_untouched(room, size, sizeof room);
}

/* The names of units that are wanted and had, in rooms of each kind; nothing is refused. */
static void check_units(void)
{
    static unsigned char room[ROOM];
    const pslink_file nothing = {NULL, NULL, 0};
    pslink_answer answer;

    memset(&answer, 0xFF, sizeof answer);
    memset(room, FILLER, sizeof room);
    check(pslink_text(PSLINK_WANTED, &host, 1, NULL, 99, &answer) == PSLINK_TOO_SMALL && is_small(&answer, 8),
          "the host wants another number of units", answer.size);
    check(pslink_text(PSLINK_WANTED, &host, 1, room, 7, &answer) == PSLINK_TOO_SMALL && is_untouched(room, 0, sizeof room),
          "a name is put where it does not fit", answer.size);
    check(pslink_text(PSLINK_WANTED, &host, 1, room, 8, &answer) == PSLINK_DONE && answer.size == 8 &&
              memcmp(room, "UTIL    ", 8) == 0 && is_untouched(room, 8, sizeof room),
          "the host wants another unit", answer.size);
    check(is_text(PSLINK_WANTED, host, &library, "UTIL    "), "the host wants another unit beside the library", 0);
    check(is_text(PSLINK_HAD, host, NULL, ""), "the host has a unit", 0);
    check(is_text(PSLINK_HAD, library, NULL, "UTIL    "), "the library has other units", 0);
    check(pslink_text(PSLINK_WANTED, &nothing, 1, room, sizeof room, &answer) == PSLINK_REFUSED &&
              answer.fault == PSLINK_FAULT_SHORT_FILE && answer.file == 0,
          "nothing wants units", answer.fault);
    check(pslink_text(PSLINK_HAD, &nothing, 1, room, sizeof room, &answer) == PSLINK_REFUSED &&
              answer.fault == PSLINK_FAULT_SHORT_FILE && answer.file == 0,
          "nothing has units", answer.fault);
}

/* A copy of a file, to be changed. */
static pslink_file copied(pslink_file file, unsigned char *copy)
{
    memcpy(copy, file.bytes, file.length);
    file.bytes = copy;
    return file;
}

/* Each name that is wanted is there once: where two slots want it, and where a slot wants a unit that no library has and the unit of
 * another slot uses. The host wants UTIL by slot 7, and is to want another by slot 8. In the library the first record of UTIL, a
 * PUBLREF, is to be a UNITREF, of type 1 and format 1. */
static void check_each_once(void)
{
    static unsigned char wants[ROOM], uses[ROOM];
    const pslink_file both = copied(host, wants), using = copied(library, uses);

    memcpy(uses + 1024, "AUX     \1\0\1", 11);
    check(is_text(PSLINK_WANTED, host, &using, "UTIL    AUX     "), "a unit that UTIL uses is not wanted", 0);
    wants[208] = 3; /* the kind of slot 8 */
    memcpy(wants + 128, "UTIL    ", 8);
    check(is_text(PSLINK_WANTED, both, NULL, "UTIL    "), "two slots of one unit want other names, and no library has it", 0);
    check(is_text(PSLINK_WANTED, both, &library, "UTIL    "), "two slots of one unit want other names", 0);
    memcpy(wants + 128, "AUX     ", 8);
    check(is_text(PSLINK_WANTED, both, NULL, "UTIL    AUX     "), "two slots want other units", 0);
    check(is_text(PSLINK_WANTED, both, &using, "UTIL    AUX     "), "a unit that a slot and a record want is not there once", 0);
}

/* A linked file wants no unit and has none, and neither does one in which no name can be read; a file with kinds in both orders is
 * refused. */
static void check_other_files(void)
{
    static unsigned char out[ROOM], other[ROOM], room[ROOM];
    const pslink_file files[2] = {host, library};
    const pslink_file *one;
    pslink_file file = {NULL, out, 0};
    pslink_answer answer = {0};

    check(pslink_link(files, 2, out, sizeof out, &answer) == PSLINK_DONE, "the pair is not linked", answer.fault);
    file.length = answer.size;
    check(is_text(PSLINK_WANTED, file, NULL, "") && is_text(PSLINK_WANTED, file, &library, ""), "a linked file wants units", 0);
    check(is_text(PSLINK_HAD, file, NULL, ""), "a linked file has units", 0);
    for (one = files; one < files + 2; one++) {
        file = copied(*one, other);
        memset(other + 64, 1, 128);
        check(is_text(PSLINK_WANTED, file, &library, "") && is_text(PSLINK_HAD, file, NULL, ""), "what has no name to read has units",
              (size_t)(one - files));
        other[193] = 1; /* the kind of slot 0 in the other order */
        memset(room, FILLER, sizeof room);
        check(pslink_text(PSLINK_WANTED, &file, 1, room, sizeof room, &answer) == PSLINK_REFUSED &&
                  answer.fault == PSLINK_FAULT_NO_ORDER && answer.file == 0 && is_untouched(room, 0, sizeof room),
              "a file of both orders wants units", answer.fault);
        check(pslink_text(PSLINK_HAD, &file, 1, room, sizeof room, &answer) == PSLINK_REFUSED &&
                  answer.fault == PSLINK_FAULT_NO_ORDER && answer.file == 0 && is_untouched(room, 0, sizeof room),
              "a file of both orders has units", answer.fault);
    }
}

/* A file with the words of its dictionary in the other byte order. */
static pslink_file turned(pslink_file file, unsigned char *copy)
{
    size_t at;

    file = copied(file, copy);
    for (at = 0; at < 224; at = at == 62 ? 192 : at + 2) {
        const unsigned char first = copy[at];

        copy[at] = copy[at + 1];
        copy[at + 1] = first;
    }
    return file;
}

/* The line of what a file is, of each type, in both byte orders; no file is refused, and no library has part in it. */
static void check_types(void)
{
    static const char pascal[] = "PROGRAM DEMO;\nUSES UTIL;\nBEGIN\nEND.\n";
    static unsigned char linked[ROOM], mixed[ROOM], other[ROOM];
    const pslink_file files[2] = {host, library}, nothing = {NULL, NULL, 0}, text = {NULL, pascal, sizeof pascal - 1};
    pslink_file file = {NULL, linked, 0};
    pslink_answer answer = {0};

    check(is_text(PSLINK_TYPE, host, NULL, "host little\n"), "a host has another type", 0);
    check(is_text(PSLINK_TYPE, host, &nothing, "host little\n"), "a host has another type beside a library", 0);
    check(is_text(PSLINK_TYPE, turned(host, other), NULL, "host big\n"), "a host has another type", 1);
    check(is_text(PSLINK_TYPE, library, &host, "library little\n"), "a library has another type", 0);
    check(is_text(PSLINK_TYPE, turned(library, other), NULL, "library big\n"), "a library has another type", 1);
    check(pslink_link(files, 2, linked, sizeof linked, &answer) == PSLINK_DONE, "the pair is not linked", answer.fault);
    file.length = answer.size;
    check(is_text(PSLINK_TYPE, file, NULL, "linked little\n"), "a linked file has another type", 0);
    /* (slot 3 has the code of slot 2 and the kind 0) */
    file = copied(library, mixed);
    memcpy(mixed + 12, mixed + 8, 4);
    memcpy(mixed + 88, "OTHER   ", 8);
    check(is_text(PSLINK_TYPE, file, NULL, "mixed little\n"), "a library with a linked segment has another type", 0);
    check(is_text(PSLINK_TYPE, turned(file, other), NULL, "mixed big\n"), "a library with a linked segment has another type", 1);
    check(is_text(PSLINK_TYPE, nothing, &library, "other\n") && is_text(PSLINK_TYPE, text, NULL, "other\n"), "what is no code file has a type", 0);
    file = host;
    file.length = 511;
    check(is_text(PSLINK_TYPE, file, NULL, "other\n"), "a file of 511 bytes has a type", 0);
    file = copied(library, other);
    other[193] = 1; /* the kind of slot 0 in the other order */
    check(is_text(PSLINK_TYPE, file, NULL, "other\n"), "a file of both orders has a type", 0);
    check(pslink_text(PSLINK_TYPE, &library, 1, NULL, 0, &answer) == PSLINK_TOO_SMALL && is_small(&answer, 15), "another room is asked for",
          answer.size);
}

int main(int argc, char **argv)
{
    size_t count;

    if (argc != 3)
        return 2;
    host = read_file(argv[1]);
    library = read_file(argv[2]);
    host.name = "HOST";
    library.name = "LIB1";
    for (count = 0; count <= 1; count++)
        check_rooms(count);
    check_all_memory();
    check_whole_texts();
    check_verdicts();
    check_warnings();
    check_names();
    check_called();
    check_escapes();
    check_numbers();
    check_texts();
    check_findings();
    check_units();
    check_each_once();
    check_other_files();
    check_types();
    return failures != 0;
}
