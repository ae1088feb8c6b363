/*
 * Bunvespo: the rights record of a log station (Graham-Denning), its thirteen commands and its safety question, and a window of the
 * commands that were refused of late. The eleven calls of the proved library, for C99 and C++11. `./install PREFIX` puts this header,
 * the archive and a file for pkg-config below a prefix; without it, link with target/staticlib/libbunvespo.a, which
 * `scripts/archive` proves and writes. The archive is built for x86-64 and needs nothing but memcpy, memmove and memset of the C
 * library.
 *
 * THE RECORD. A matrix of cells. In each of them every right has one bit: a cell has 16 bits at version 1 and 32 at version 2, high byte
 * first like every number in a record.
 *   byte 0        version: 1 or 2
 *   bytes 1 to 4  L: how many bytes come after these four, 2 + 2 n (n + p) at version 1 and 2 + 4 n (n + p) at version 2
 *   byte 5        n: how many subject names there are, 1 to 40
 *   byte 6        p: how many plain names there are, 0 to 120
 *   from byte 7   the cells, n rows with n + p columns, row after row. A row belongs to the subject of its number. So does a column
 *                 below n; every other column is a plain object (a log). Subject 0, called U, is there from the start.
 * Names come and go. Subject s exists while the cell in row s, column s has control, and a plain object while at least one subject
 * owns it. Five conditions make a record valid:
 *   - nothing is set in the row or the column of a name that does not exist;
 *   - nobody has control over a plain object;
 *   - U exists, nobody owns it, and it alone controls it;
 *   - each further subject that exists has one owner, no more and no fewer, and besides itself one controller or none;
 *   - from owner to owner one never comes back to the same subject, and so always ends at U.
 * The versions differ in the width of a cell and so in the basic rights, 0 to 6 at version 1 and 0 to 14 at version 2, and in nothing
 * else. A command never changes a record's version; bunvespo_to_version_1 and bunvespo_to_version_2 write a record in the other one.
 *
 * A LIST OF COMMANDS.
 *   byte 0        version: 1, for records of either version
 *   bytes 1 to 4  L: how many bytes come after these four, six for each command, 60,000 at most
 *   from byte 5   for each command 05, code, i, s, o, k
 *
 * A WINDOW OF LATE REFUSALS. It shows, for each subject number below 64, how many of the last 256 commands were begun by it and
 * refused. Entries are put into it one by one, each the initiator of a command and its outcome. It has BUNVESPO_WINDOW_SIZE bytes,
 * which may be kept in a file. A window that was emptied by bunvespo_window_empty, and then changed by bunvespo_window_put alone,
 * shows the history of the entries that were put, without those given refusal 17:
 *   bytes 0 to 255    the entries, the oldest being entry 0: entry m stands in byte m mod 256 while it is one of the last 256. It is 0
 *                     if the command was accepted, else one more than the initiator's number. 0 where no entry has stood yet
 *   bytes 256 to 383  the counts of the numbers 0 to 63, two bytes each, high byte first: 0 to 256
 *   byte 384          how many entries the history has, mod 256
 * So BUNVESPO_WINDOW_SIZE zero bytes are an empty window. Bytes made in another way, of any content and any length, are answered too;
 * nothing is promised of their counts, nor of what an entry makes of BUNVESPO_WINDOW_SIZE of them. Bytes of another length are never
 * written.
 *
 * SLICES. Each pointer is followed by its length in bytes. A call reads, and where the pointer isn't const may write, these
 * bytes and no others, and keeps no pointer after it returns. A record, a buffer, an output or a copy that a call may write must not
 * overlap its other slices: so a record is never converted in its own place, nor a list tried on the record itself.
 * NULL with length 0 is an empty slice, for each of them: the compiled code looks at a slice's length before it reads or
 * writes a byte. So an empty record, NULL or not, gives 0 for validity and else refusal 1; an empty list on a valid record refusal 16;
 * an empty buffer on a valid record refusal 15 (7 stands before it); an empty output on a valid record refusal 15 (18 stands before
 * it), an empty copy too (7 stands before it); and an empty slice for a window is one of another length than a window's. NULL with
 * another length is not allowed. tests/c_interface/null_and_empty.c tests this.
 *
 * THREADS. The library has no variables and takes no locks: all that a call touches is the bytes lent to it. So threads may call
 * it at the same time, under the rule that C has for all bytes: none may be written by one thread while another reads or writes it.
 *   - valid, held, safety, first_held, to_version_1 and to_version_2 only read a record, run and first_held only read a list, and
 *     window_count only reads a window: any number of threads may ask of one record or window, convert one record, and share one list, at
 *     once.
 *   - command and run write their record, safety its buffer, first_held its copy, to_version_1 and to_version_2 their output, and
 *     window_empty and window_put their window. While a thread is in such a call, no other may use that record, buffer, copy, output or
 *     window in any call, not even to ask. A lock, or a copy of the record for each thread, is the caller's to provide.
 */
#ifndef BUNVESPO_H
#define BUNVESPO_H

#include <stddef.h>
#include <stdint.h>

#ifdef __cplusplus
extern "C" {
#endif

/*
 * THE VERSION of this header and its archive, as numbers for #if. It has nothing to do with the version byte of a record.
 *   #if BUNVESPO_LIBRARY_VERSION >= 3000      0.3.0 or later: code 3 takes plain objects too
 *   #if BUNVESPO_LIBRARY_VERSION >= 4000      0.4.0 or later: the window of late refusals
 *   #if BUNVESPO_LIBRARY_VERSION >= 5000      0.5.0 or later: the limits of n and p, which were 64 and 192, are 40 and 120
 *   #if BUNVESPO_LIBRARY_VERSION >= 6000      0.6.0 or later: records of version 2, with fifteen basic rights, and the conversions
 *   #if BUNVESPO_LIBRARY_VERSION >= 7000      0.7.0 or later: own counts as holding every basic right
 *   #if BUNVESPO_LIBRARY_VERSION >= 8000      0.8.0 or later: a delete of a bit that is not set is refused by 19
 *   #if BUNVESPO_LIBRARY_VERSION >= 9000      0.9.0 or later: bunvespo_first_held
 */
#define BUNVESPO_VERSION_MAJOR 0
#define BUNVESPO_VERSION_MINOR 9
#define BUNVESPO_VERSION_PATCH 0
#define BUNVESPO_LIBRARY_VERSION (BUNVESPO_VERSION_MAJOR * 1000000 + BUNVESPO_VERSION_MINOR * 1000 + BUNVESPO_VERSION_PATCH)

/*
 * REFUSALS. Each call tests the conditions below in an order of its own, and the answer is the number of the first one that holds:
 *   held                        1 to 5, 7
 *   command                     1 to 12, 19, 13, 14
 *   run                         1 to 5, 16, and then 6 to 12, 19, 13, 14 for each command in its turn
 *   safety                      1 to 5, 7, 15
 *   first_held                  1 to 5, 7, 15, 16
 *   to_version_1                1 to 5, 18, 15
 *   to_version_2                1 to 5, 15
 *   window_put, window_count    17
 * bunvespo_valid and bunvespo_window_empty never refuse. The words of each condition are those of bunvespo_refusal_words. Here stand the
 * calls that give the number, and what the words leave out. Like the codes below these are enumerators, for programs and not for #if.
 */
enum {
    BUNVESPO_ANSWERED = 0,                  /* not refused */
    BUNVESPO_REFUSED_RECORD_SHORT = 1,      /* 1 to 5: held, command, run, safety, first_held, to_version_1, to_version_2 */
    BUNVESPO_REFUSED_VERSION = 2,
    BUNVESPO_REFUSED_COUNTS = 3,
    BUNVESPO_REFUSED_RECORD_LENGTH = 4,     /* each version has its own L and its own length, as above */
    BUNVESPO_REFUSED_NOT_VALID = 5,         /* one of the five conditions above fails */
    BUNVESPO_REFUSED_CODE = 6,              /* command, run: codes are 1 to 13 */
    BUNVESPO_REFUSED_BOUNDS = 7,            /* held, command, run, safety, first_held: subjects and trust bits are below n, columns
                                               below n + p; k is at most 6 and a right at most 15 at version 1, 14 and 31 at version 2 */
    BUNVESPO_REFUSED_INITIATOR_ABSENT = 8,  /* command, run */
    BUNVESPO_REFUSED_KIND = 9,              /* command, run: code 6 takes a subject, 7, 10 and 11 a plain object */
    BUNVESPO_REFUSED_NAME_ABSENT = 10,      /* command, run */
    BUNVESPO_REFUSED_NAME_EXISTS = 11,      /* command, run: codes 10 and 12 */
    BUNVESPO_REFUSED_RIGHT_LACKING = 12,    /* command, run */
    BUNVESPO_REFUSED_WALK_MEETS = 13,       /* command, run: code 3 over a subject */
    BUNVESPO_REFUSED_OTHER_CONTROLLER = 14, /* command, run: code 6 */
    BUNVESPO_REFUSED_BUFFER_SHORT = 15,     /* safety: its buffer; to_version_1, to_version_2: their output; first_held: its copy */
    BUNVESPO_REFUSED_LIST_FORM = 16,        /* run, first_held: fewer than 5 bytes, a version other than 1, a command that does not begin
                                               with 05, or an L above 60,000, not divisible by six, or not the number of bytes after it */
    BUNVESPO_REFUSED_WINDOW_NUMBER = 17,    /* window_put, window_count: whatever the window's bytes */
    BUNVESPO_REFUSED_HIGH_RIGHT = 18,       /* to_version_1: one of the bits 16 to 31 is set in some cell of a record of version 2 */
    BUNVESPO_REFUSED_NOT_SET = 19           /* command, run: codes 8 and 9; neither own nor the other form of the right helps */
};

/* A refusal in words, without a full stop. Any number has some: 0 and those above 19 are told so. The text is never freed. */
static inline const char *bunvespo_refusal_words(uint64_t refusal)
{
    switch (refusal) {
    case BUNVESPO_ANSWERED: return "not refused";
    case BUNVESPO_REFUSED_RECORD_SHORT: return "the record has fewer than 7 bytes";
    case BUNVESPO_REFUSED_VERSION: return "the record's version is neither 1 nor 2";
    case BUNVESPO_REFUSED_COUNTS: return "the record's n is not 1 to 40, or its p is above 120";
    case BUNVESPO_REFUSED_RECORD_LENGTH: return "the record's L or its length does not fit its version, n and p";
    case BUNVESPO_REFUSED_NOT_VALID: return "the record's matrix is not valid";
    case BUNVESPO_REFUSED_CODE: return "no command has this code";
    case BUNVESPO_REFUSED_BOUNDS:
        return "a name or trust bit is beyond the record, k or the right is out of range, or an unused field is not 0";
    case BUNVESPO_REFUSED_INITIATOR_ABSENT: return "the initiator does not exist";
    case BUNVESPO_REFUSED_KIND: return "o is not of the kind that the command takes";
    case BUNVESPO_REFUSED_NAME_ABSENT: return "s or o does not exist";
    case BUNVESPO_REFUSED_NAME_EXISTS: return "the name to be created exists already";
    case BUNVESPO_REFUSED_RIGHT_LACKING: return "the initiator lacks the right that the command asks for";
    case BUNVESPO_REFUSED_WALK_MEETS: return "the owner walk from s meets o";
    case BUNVESPO_REFUSED_OTHER_CONTROLLER: return "somebody else controls o already";
    case BUNVESPO_REFUSED_BUFFER_SHORT:
        return "the buffer is shorter than 5 + 6 (n + 2) bytes, the output than the new record, or the copy than the record";
    case BUNVESPO_REFUSED_LIST_FORM: return "the list is not of the right form";
    case BUNVESPO_REFUSED_WINDOW_NUMBER: return "the initiator, or the number whose count is read, is 64 or more";
    case BUNVESPO_REFUSED_HIGH_RIGHT: return "a basic right above 6 is set, for which version 1 has no room";
    case BUNVESPO_REFUSED_NOT_SET: return "the right to be deleted is not set";
    default: return "no refusal has this number";
    }
}

/*
 * RIGHTS, by code, which is the number of the right's bit in a cell (0 is the lowest bit). The star is a copy flag: with r* over o
 * one may transfer r and r* over it. To hold a right is to have its bit; r is held by r* too, and every basic right, r and r*, by own.
 * Own and control are held by their bits alone. The commands look at bits, so that an owner without r* may not transfer r.
 * A k that is out of range, negative too, gives BUNVESPO_NO_RIGHT, which every call refuses by 7. A k of 7 to 14 gives a right that
 * records of version 2 have; on one of version 1 it is refused by 7 too. The macros evaluate k twice.
 */
#define BUNVESPO_OWN UINT64_C(0)
#define BUNVESPO_CONTROL UINT64_C(1)
#define BUNVESPO_NO_RIGHT UINT64_MAX
#define BUNVESPO_PLAIN(k) ((uint64_t)(k) > 14 ? BUNVESPO_NO_RIGHT : 2 + 2 * (uint64_t)(k))   /* basic right k: 2, 4, .. 30 */
#define BUNVESPO_STARRED(k) ((uint64_t)(k) > 14 ? BUNVESPO_NO_RIGHT : 3 + 2 * (uint64_t)(k)) /* with the star: 3, 5, .. 31 */

/*
 * COMMANDS, by code, with the fields that each uses; fields left out are 0. i is the initiator, s a subject, o a column, k the
 * number of a basic right r. Whoever is named must exist, but for the name that codes 10 and 12 make.
 */
enum {
    BUNVESPO_TRANSFER = 1,          /* i s o k  i, with r* over o, gives s r over o */
    BUNVESPO_TRANSFER_STARRED = 2,  /* i s o k  i, with r* over o, gives s r* over o */
    BUNVESPO_TRANSFER_OWN = 3,      /* i s o    i, an owner of o, makes s an owner in its place; a subject o may not be s or above s */
    BUNVESPO_GRANT = 4,             /* i s o k  i, an owner of o, gives s r over o */
    BUNVESPO_GRANT_STARRED = 5,     /* i s o k  i, an owner of o, gives s r* over o */
    BUNVESPO_GRANT_CONTROL = 6,     /* i s o    i, the owner of subject o, gives s control of it if o alone has that */
    BUNVESPO_GRANT_OWN = 7,         /* i s o    i, an owner of plain object o, makes s one more owner */
    BUNVESPO_DELETE = 8,            /* i s o k  i, an owner of o or in control of s, takes r over o from s, if it is set; r* stays */
    BUNVESPO_DELETE_STARRED = 9,    /* i s o k  i, an owner of o or in control of s, takes r* over o from s, if it is set; r stays */
    BUNVESPO_CREATE_OBJECT = 10,    /* i o      i makes plain object o and owns it */
    BUNVESPO_DESTROY_OBJECT = 11,   /* i o      i, an owner of plain object o, destroys it: its column becomes zero */
    BUNVESPO_CREATE_SUBJECT = 12,   /* i s      i makes subject s and owns it; s has control of itself */
    BUNVESPO_DESTROY_SUBJECT = 13   /* i s      i, the owner of subject s, destroys it: i owns what s owned, and row and column s
                                                become zero */
};

/* The limits of a record, and the bytes of the longest one of either version, which are output or copy enough for every call. Then the
   bytes of buffer that a safety question asks for on a record of n subject names. With an n above the limit it is the size for
   BUNVESPO_MOST_SUBJECTS, which is enough for every record. */
#define BUNVESPO_MOST_SUBJECTS 40
#define BUNVESPO_MOST_PLAIN 120
#define BUNVESPO_MOST_RECORD_BYTES 25607
#define BUNVESPO_BUFFER_SIZE(n) (5 + 6 * (2 + ((size_t)(n) > BUNVESPO_MOST_SUBJECTS ? (size_t)BUNVESPO_MOST_SUBJECTS : (size_t)(n))))

/* The subject numbers that have a count in a window, the entries that are counted, and the bytes of a window. */
#define BUNVESPO_WINDOW_NUMBERS 64
#define BUNVESPO_WINDOW_ENTRIES 256
#define BUNVESPO_WINDOW_SIZE 385

/* An answer, by value. refusal: 0 where the call is answered, else the number above. value: as said at each call. */
typedef struct {
    uint64_t refusal;
    uint64_t value;
} bunvespo_answer;

/* Whether a record is valid: 1, or 0 where the other calls would refuse it by a number from 1 to 5. */
uint64_t bunvespo_valid(const uint8_t *record, size_t record_len);

/*
 * Whether subject s holds a right over column o, by its bit or by another as said above. Refusals: 1 to 5, 7.
 * value: 1 held, 0 not held (so for absent names); 0 with a refusal.
 */
bunvespo_answer bunvespo_held(const uint8_t *record, size_t record_len, uint64_t s, uint64_t o, uint64_t right);

/*
 * One command. Refusals: 1 to 14, 19. On acceptance the record holds the next state, on a refusal no byte changes.
 * value: the owner links that the walk of code 3 over a subject followed, at most n - 1, where it is accepted or refused by 13; else 0.
 */
bunvespo_answer bunvespo_command(uint8_t *record, size_t record_len, uint64_t code, uint64_t i, uint64_t s, uint64_t o,
                                 uint64_t k);

/*
 * The commands of a list in turn, up to the first that is refused. Refusals: 1 to 5 and 16 before any command, with 0
 * accepted; then 6 to 14 and 19, that of the first refused command. The changes of the commands accepted before it stay.
 * value: the number of commands accepted, with a refusal too.
 */
bunvespo_answer bunvespo_run(uint8_t *record, size_t record_len, const uint8_t *list, size_t list_len);

/*
 * The safety question: can subject s ever come to hold a right over column o, if the trusted subjects begin no command? Bit j of
 * trust says that subject j is trusted, whether or not it exists now. Refusals: 1 to 5, 7, 15.
 * value: 0 safe; N + 1 leaks by N commands, at most n + 2, so that 1 means held already; 0 with a refusal.
 * On "leaks" the N commands stand as a list at the start of out, 5 + 6 N bytes: each is begun by an untrusted subject and
 * accepted in turn, and after them the right is held, by own too. Later bytes of out, and all of it on "safe" or a refusal, are
 * unchanged. out_len must be at least BUNVESPO_BUFFER_SIZE(n), else 15, also where the answer would be safe.
 */
bunvespo_answer bunvespo_safety(const uint8_t *record, size_t record_len, uint64_t trust, uint64_t s, uint64_t o,
                                uint64_t right, uint8_t *out, size_t out_len);

/*
 * The first command of a list after which subject s holds a right over column o, if the commands are tried in turn, up to the first that
 * is refused. They are tried on copy, lent bytes, at least as many as the record has. Refusals, tested in this order: 1 to 5, 7, 15, 16;
 * a command that is refused ends the search and is no refusal of the call.
 * value: m + 1, where m is the least number such that the first m commands are accepted in turn and the right is held after them, by own
 * too, so that 1 means held already; 0 where there is no such number, and with a refusal.
 * The record and the list are only read. On a refusal copy is unchanged; else what stands in its first record_len bytes is left free, and
 * later bytes are unchanged.
 */
bunvespo_answer bunvespo_first_held(const uint8_t *record, size_t record_len, const uint8_t *list, size_t list_len, uint64_t s,
                                    uint64_t o, uint64_t right, uint8_t *copy, size_t copy_len);

/*
 * A record converted: to version 1 by the first call, to version 2 by the second. The new record stands at the start of out. It has the
 * same n and p, and the same rights in cells of the wanted width; a record that is of the wanted version already is copied. So a record
 * that is converted there and back is the same bytes.
 * Refusals, tested in this order: 1 to 5 of the record; then, by to_version_1 alone, 18 where some cell has a basic right above 6, which
 * no record of version 1 has room for (own and control do not count: both versions have them); then 15 where out_len is below the bytes
 * of the new record, 7 + 2 n (n + p) in version 1 and 7 + 4 n (n + p) in version 2. So 18 is given whatever out_len is, and an out of
 * BUNVESPO_MOST_RECORD_BYTES never gives 15.
 * value: the bytes of the new record; 0 with a refusal. Later bytes of out, and all of it on a refusal, are unchanged. The record is only
 * read, and must not overlap out.
 */
bunvespo_answer bunvespo_to_version_1(const uint8_t *record, size_t record_len, uint8_t *out, size_t out_len);
bunvespo_answer bunvespo_to_version_2(const uint8_t *record, size_t record_len, uint8_t *out, size_t out_len);

/* Makes bytes an empty window. window_len is BUNVESPO_WINDOW_SIZE; bytes of another length stay as they are. */
void bunvespo_window_empty(uint8_t *window, size_t window_len);

/*
 * Puts one more entry into a window: the initiator of a command, and its outcome, which is the refusal that the command was answered
 * with: 0 where it was accepted, and any other number, 17 too, where it was refused. Refusal: 17 for an initiator of 64 or more, with
 * every byte as it was and the entry not in the history. value: 0. An entry for bytes of another length than BUNVESPO_WINDOW_SIZE is
 * answered by 0 as well, and lost.
 */
bunvespo_answer bunvespo_window_put(uint8_t *window, size_t window_len, uint64_t initiator, uint64_t outcome);

/*
 * How many of the last 256 entries, or of all while there are fewer, are refusals of commands begun by a subject number. Entries of
 * all subjects count among the 256, and accepted ones too. Refusal: 17 for a number of 64 or more. value: the count, 0 to 256; 0 with a
 * refusal.
 */
bunvespo_answer bunvespo_window_count(const uint8_t *window, size_t window_len, uint64_t number);

#ifdef __cplusplus
}
#endif

#endif
