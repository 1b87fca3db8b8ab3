/*
 * pslink.h: the Linker of UCSD Pascal II.0 for Pascal units, as a library.
 *
 * A program of the p-System that uses separately compiled units is two or more code files: the host
 * file, which has the program, and library files, which have the units. Linking joins them into one
 * code file that the p-System runs. This library does that from memory to memory: it reads no file,
 * writes none, prints nothing and keeps nothing between calls.
 *
 *     #include <pslink.h>
 *     #include <stdio.h>
 *
 *     // Writes the file to which host and library are linked; both are whole code files that were
 *     // read before. Returns 0 where that was done.
 *     int link_two(const void *host, size_t host_length, const void *library,
 *                  size_t library_length, FILE *stream)
 *     {
 *         const pslink_file files[2] = {{"host.code", host, host_length},
 *                                       {"library.code", library, library_length}};
 *         static unsigned char out[PSLINK_LINKED_MAX];
 *         char line[PSLINK_FAULT_TEXT_MAX];
 *         pslink_answer answer;
 *
 *         if (pslink_link(files, 2, out, sizeof out, &answer) == PSLINK_DONE)
 *             return fwrite(out, 1, answer.size, stream) != answer.size || fflush(stream) != 0;
 *         if (pslink_fault_text(&answer, line, sizeof line) != 0)
 *             fprintf(stderr, "pslink: %s\n", line);
 *         else
 *             fprintf(stderr, "pslink: %s\n", pslink_status(answer.status));
 *         return 1;
 *     }
 *
 * Build it with -lpslink (pkg-config: pslink).
 *
 * Any bytes may be given as a file: one that is no code file is refused. That the result is right
 * is proved: what is in `out` after PSLINK_DONE, which fault a refusal names, and the answer. Of a
 * report all is proved but what it calls a file that cannot be opened, which notes there are, and
 * the explanation of a fault. The proofs are of functions in the library that it does not export.
 * The functions of this header are C, and are tested: they lay files one after another for the
 * proved functions, and refuse misuse. What is asked of the caller is on this page:
 *
 * - A pointer with its length names memory of the caller that is there for the whole call: it may
 *   be read, and for `out` and `answer` also written. A name ends with a 0. `files` and `answer`
 *   are aligned as their types are.
 * - `out` and `answer` overlap each other in no byte, and nothing else that the call is given.
 *   Inputs may overlap one another. No thread writes to what is given during the call, and none
 *   reads `out` or `answer`.
 * - malloc, realloc and free are one allocator, which aligns a block to each power of two up to 16
 *   that divides its size.
 * - `answer` need not be set before a call. Each field of it is written by each call.
 *
 * Threads: any number of threads may call at once. There is no lock and no state.
 * Memory: a call takes memory by malloc and realloc of the C library and returns all of it by free
 * before it ends. A link of a host with one library or none requests none before it has read the
 * files; with more, it first requests memory for their copy, one after another.
 * Stack: leave a call 64 KB.
 * Signals: pslink_link and pslink_text are not to be called from a signal handler, nor, where the
 * process has threads, in a child between fork and exec.
 *
 * Versions: until 1.0, what breaks a caller raises the second number of the release. What breaks one
 * that is built raises the number with which the name of the shared object ends, libpslink.so.3. What
 * is added raises the third, and says since when it is there; its symbol has a node of that release,
 * so a program does not start with a library that is too old for it.
 */
#ifndef PSLINK_H
#define PSLINK_H

#include <stddef.h>
#include <stdint.h>

#ifdef __cplusplus
extern "C" {
#endif

/* The release of pslink that this header is of, and the same as a number to compare: 10000 times
   its first part, 100 times its second, and its third. */
#define PSLINK_RELEASE "0.4.0"
#define PSLINK_RELEASE_NUMBER 400u

/*
 * What pslink_link and pslink_text return: the statuses of the program pslink. Its status 3, of a
 * file that cannot be read or written, is not used: the library reads and writes none.
 */
#define PSLINK_DONE 0u        /* done: `out` begins with the result, of `size` bytes */
#define PSLINK_REFUSED 1u     /* the files are refused, for the fault in `answer` */
#define PSLINK_MISUSE 2u      /* the call is not as this page says: `files` or `answer` is NULL,
                                 `count` is 0, bytes with a length are NULL, or there is no such text */
#define PSLINK_NO_MEMORY 4u   /* malloc or realloc returned NULL, or the files and their names have
                                 more than PTRDIFF_MAX bytes together: no memory is as long */
#define PSLINK_TOO_SMALL 5u   /* `out` is shorter than the result, which has `size` bytes */
#define PSLINK_WRONG_NAMES 6u /* a name of a file is no UTF-8, and the text has names */

/* What pslink_text makes: lines of text, each ended by a byte 10. */
/* made by man/make_constants.py from crates/ps_c_texts/src/kinds.rt: the texts */
#define PSLINK_MAP 0u        /* the map of the link: what it puts where */
#define PSLINK_REFERENCES 1u /* that map, and then each place at which the link stores bytes */
#define PSLINK_SHOW 2u       /* what the first file has: its slots, and its link information */
#define PSLINK_CHECK 3u      /* the report on the files, for a person: where each segment comes from,
                                whether they are linked, what a fault means in these files and what to
                                do about it, and what else is found */
#define PSLINK_LIST 4u       /* what each file has */
#define PSLINK_UNITS 5u      /* that list, and after each file what is wrong with its units by
                                themselves */
#define PSLINK_FINDINGS 6u   /* what the report finds, one by one: lines of it, each of which begins
                                with `warning: `, `note: ` or `harmless: `; nothing where it finds
                                nothing */
/* end */

/* Names of units, eight bytes each as the files have them, one after another: `size / 8` of them.
   There is none where files[0] is linked already, or where its list says that it is something else
   than a code file. */
/* made by man/make_constants.py from crates/ps_c_texts/src/kinds.rt: the names of units */
#define PSLINK_WANTED 7u /* the units that a link takes from libraries, or would take if a library had
                            them, each once. First come those that the slots of the host want, by
                            slot. Then come those that a record requests, of the host or of a unit
                            that was found, and no slot of the host has: in the order of their
                            requests, ten of these at most. They are told as far as a link reads: a
                            segment that cannot be read requests none, and no unit is looked for after
                            one that is missing */
#define PSLINK_HAD 8u    /* the units whose code the first file has, by slot */
/* end */

/* The type of a file, of any bytes: one line, ended by a byte 10, of at most 15 bytes. No file is
   refused. It is there since the release after 0.4.0: in an earlier one that is PSLINK_MISUSE. */
/* made by man/make_constants.py from crates/ps_c_texts/src/kinds.rt: the type of a file */
#define PSLINK_TYPE 9u /* what the first file is for, and its byte order: a word for each, as
                          `library little`. The first word is `host`, `library`, `linked` or `mixed`,
                          which is a file that has linked segments and others and no host program. The
                          second is `little` or `big`. Of any other file the line is `other` */
/* end */

/* PSLINK_MAP | PSLINK_JSON and so on: one JSON document in place of lines, as the program prints it
   with --json. Names of units and the type of a file have none: that is PSLINK_MISUSE. */
#define PSLINK_JSON 256u

/* What pslink_fault has of a fault. */
#define PSLINK_NAME 0u    /* its name, as "MissingUnit" */
#define PSLINK_MEANING 1u /* what it means, as "No segment of the file is a host program." */
#define PSLINK_REMEDY 2u  /* what to do about it, as "Keep one of them in the file.", where `the file`
                             is the one at fault. A report says both of the files at hand. */

/* How many bytes a linked file has at most: with this capacity, no link is PSLINK_TOO_SMALL. */
#define PSLINK_LINKED_MAX 524800u

/* How many bytes the line of a fault has at most, the closing 0 counted. */
#define PSLINK_FAULT_TEXT_MAX 160u

/* The faults, by their numbers. pslink(1) says when each is reported, and what to do about it. */
/* made by man/make_constants.py from crates/ps_words/src/fault.rt */
#define PSLINK_FAULT_SHORT_FILE         1
#define PSLINK_FAULT_NO_ORDER           2
#define PSLINK_FAULT_ORDER_MISMATCH     3
#define PSLINK_FAULT_NO_HOST            4
#define PSLINK_FAULT_TWO_HOSTS          5
#define PSLINK_FAULT_DOUBLED_SEGMENT    6
#define PSLINK_FAULT_SEGMENT_PROCEDURE  7
#define PSLINK_FAULT_NATIVE_SEGMENT     8
#define PSLINK_FAULT_INTRINSIC          9
#define PSLINK_FAULT_UNKNOWN_KIND       10
#define PSLINK_FAULT_BAD_LENGTH         11
#define PSLINK_FAULT_BAD_ADDRESS        12
#define PSLINK_FAULT_MISSING_UNIT       13
#define PSLINK_FAULT_NOT_A_UNIT         14
#define PSLINK_FAULT_DOUBLED_UNIT       15
#define PSLINK_FAULT_TRUNCATED          16
#define PSLINK_FAULT_BAD_PROC_DICT      17
#define PSLINK_FAULT_NATIVE_PROCEDURE   18
#define PSLINK_FAULT_RECORDS_TRUNCATED  19
#define PSLINK_FAULT_UNKNOWN_RECORD     20
#define PSLINK_FAULT_NATIVE_RECORD      21
#define PSLINK_FAULT_SEPARATE_RECORD    22
#define PSLINK_FAULT_BAD_FORMAT         23
#define PSLINK_FAULT_DOUBLED_DEFINITION 24
#define PSLINK_FAULT_DOUBLED_PRIVATE    25
#define PSLINK_FAULT_NO_ROOM            26
#define PSLINK_FAULT_DATA_TOO_LARGE     27
#define PSLINK_FAULT_MISSING_DEFINITION 28
#define PSLINK_FAULT_ILL_KIND           29
#define PSLINK_FAULT_MISSING_UNIT_REF   30
#define PSLINK_FAULT_OUTSIDE_CODE       31
#define PSLINK_FAULT_RESERVED_PLACE     32
#define PSLINK_FAULT_OVERLAP            33
#define PSLINK_FAULT_OPERAND_TOO_LARGE  34
#define PSLINK_FAULT_NO_SLOT            35
/* end */

/* A whole code file in memory. */
typedef struct pslink_file {
    const char *name;  /* what texts call it, UTF-8, also ""; or NULL: "file 0" for the first, and
                          so on */
    const void *bytes; /* NULL where it has none */
    size_t length;
} pslink_file;

/*
 * What a call answers. After another status than PSLINK_DONE, PSLINK_REFUSED and PSLINK_TOO_SMALL
 * it has nothing but the status. A part that the fault does not have is -1.
 *
 * `fault` is 0 where the files have none. After PSLINK_REFUSED it is the first fault of all, and so
 * it is after PSLINK_DONE of a report or of what it finds: it is the verdict, which is what a link of
 * the files answers. `segments`, `private_words` and `blocks` are of a link that is done, and of a
 * report, or of what it finds, whose verdict is that the files are linked.
 *
 * `about` is what the fault is about, eight bytes as the files have them and a closing 0: of a fault
 * of a record that could be read, its name, which is the unit that is requested or the symbol; of any
 * other fault of a slot, the name of the unit that is wanted or requested there, or of the segment.
 * So after PSLINK_FAULT_MISSING_UNIT it is the unit to look for. It is "" where there is none.
 */
typedef struct pslink_answer {
    uint32_t status;        /* what the function returned */
    uint32_t fault;         /* the number of the fault, PSLINK_FAULT_SHORT_FILE and so on, or 0 */
    ptrdiff_t file;         /* the file at fault: files[file] */
    ptrdiff_t record;       /* the index of the record in its segment's link information, from 0 */
    ptrdiff_t reference;    /* the index of the reference in its record, from 0 */
    int32_t slot;           /* the slot of the host's segment dictionary, 0 to 15 */
    int32_t kind;           /* fault 14 NotAUnit: the kind word of the library's entry */
    char about[9];          /* what the fault is about: `name` until 0.4.0 */
    uint32_t segments;      /* how many segments the linked file has, at most 16 */
    uint32_t private_words; /* the words of all private variables, 0 to 32767 */
    uint32_t blocks;        /* how many blocks of 512 bytes it has, at most 1025 */
    uint32_t warnings;      /* how many warnings a report has, also where what it finds was made */
    size_t size;            /* how many bytes the result has, also after PSLINK_TOO_SMALL */
    uint32_t reserved[8];   /* 0: kept for what a later release adds */
} pslink_answer;

/*
 * Links a host file with the units that it uses, taken from libraries, and puts the linked file at
 * the front of `out`; what follows it there stays as it was. Returns the status. After any status
 * but PSLINK_DONE each byte of `out` is as it was before the call.
 *
 * `files`: the host, and then the libraries, `count` in all. Of the libraries that have a unit, the
 * first is used. A program that uses no unit has a `count` of 1.
 * `out`: `room` bytes for the result. Where it is NULL, `room` is taken for 0, whatever it is: so
 * `out` from a malloc that failed is PSLINK_TOO_SMALL.
 */
uint32_t pslink_link(const pslink_file *files, size_t count, void *out, size_t room,
                     pslink_answer *answer);

/*
 * Puts what the program prints of these files at the front of `out`, in the same way: `what` is the
 * number of a text, as PSLINK_MAP, with | PSLINK_JSON or without. pslink(1) has the lines, docs/JSON.md
 * the documents. It is text without a closing 0, UTF-8 where names of files are in it. Its length is not
 * bounded by a constant: call with `out` NULL, and then with a capacity of `answer.size`.
 *
 * `files`: as those of pslink_link. A list and units treat all files alike; a show, the names of
 * provided units and the type of a file are of files[0] alone.
 *
 * A map and its references are refused as a link is, a show and names of units as 1 ShortFile or
 * 2 NoOrder only. A report, what it finds, a list, its units and the type of a file are never
 * PSLINK_REFUSED. What is wrong with the files is in the text of a report, a list and units; of a
 * report and of what it finds the verdict is in `answer`, with the number of warnings.
 */
uint32_t pslink_text(uint32_t what, const pslink_file *files, size_t count, void *out, size_t room,
                     pslink_answer *answer);

/*
 * The line of the fault in `answer`, as "refused 13 MissingUnit file 0 slot 7", with a closing 0.
 * Returns how many bytes it takes, the closing 0 counted, at most PSLINK_FAULT_TEXT_MAX. Where `room`
 * is less, or `out` is NULL, nothing is written. Returns 0, and writes nothing, where `answer` has no
 * fault.
 */
size_t pslink_fault_text(const pslink_answer *answer, char *out, size_t room);

/* What there is of the fault of this number, PSLINK_NAME to PSLINK_REMEDY: ASCII that is never freed,
   or NULL where there is no such fault, or no such part. */
const char *pslink_fault(uint32_t fault, uint32_t part);

/* What a status says, in the same way, as "out of memory"; NULL where no function returns it. */
const char *pslink_status(uint32_t status);

/* The release of the library: PSLINK_RELEASE_NUMBER of its own header. */
uint32_t pslink_release_number(void);

#ifdef __cplusplus
}
#endif

#endif
