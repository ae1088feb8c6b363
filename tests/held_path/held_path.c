/* Whether a held right is read on one path. The processor traps after each instruction of a call, and the places of all instructions are kept.
   On one record, with one subject and one column, the rights must give the same places: all that are held, and all that are not. These are 16
   rights on a record of version 1, and 32 on one of version 2; the two versions need not have the same places. The safety question reads whether
   the right is held before it looks at its kind, so the same is asked of it for the rights that are held. */
#define _GNU_SOURCE
#include <signal.h>
#include <stdint.h>
#include <stdio.h>
#include <stdlib.h>
#include <string.h>
#include <ucontext.h>

#include "bunvespo.h"

#define MOST_RIGHTS 32
#define MOST_STEPS 20000

struct path {
    size_t steps;
    uint64_t at[MOST_STEPS];
};

/* The path that is being recorded. */
static struct path *recorded;

static void after_instruction(int number, siginfo_t *info, void *context)
{
    const ucontext_t *there = context;
    (void)number;
    (void)info;
    if (recorded->steps < MOST_STEPS)
        recorded->at[recorded->steps] = (uint64_t)there->uc_mcontext.gregs[REG_RIP];
    recorded->steps++;
}

/* The trap flag of the processor, set and cleared. The 128 bytes below the stack pointer may be in use. */
#define TRAP(change)                                                                                                                     \
    __asm__ volatile("lea -128(%%rsp), %%rsp\n\tpushfq\n\t" change ", (%%rsp)\n\tpopfq\n\tlea 128(%%rsp), %%rsp" ::: "memory", "cc")

/* A question of a right: the same record, subject and column each time. The rights are those below a number. */
struct question {
    const uint8_t *record;
    size_t length;
    uint64_t s;
    uint64_t o;
    uint64_t rights;
};

typedef bunvespo_answer (*call)(const struct question *, uint64_t right);

static bunvespo_answer held(const struct question *q, uint64_t right)
{
    return bunvespo_held(q->record, q->length, q->s, q->o, right);
}

/* The safety question with everybody trusted. */
static bunvespo_answer safety(const struct question *q, uint64_t right)
{
    static uint8_t list[BUNVESPO_BUFFER_SIZE(3)];
    const uint64_t everybody = 7;
    return bunvespo_safety(q->record, q->length, everybody, q->s, q->o, right, list, sizeof list);
}

/* An answer with a branch for each kind of right, to see that this program tells four paths apart. */
static bunvespo_answer with_branches(const struct question *q, uint64_t right)
{
    bunvespo_answer answer = {0, 1};
    (void)q;
    if (right == 0)
        __asm__ volatile("nop");
    else if (right == 1)
        __asm__ volatile("nop; nop");
    else if (right % 2 == 0)
        __asm__ volatile("nop; nop; nop");
    else
        __asm__ volatile("nop; nop; nop; nop");
    return answer;
}

static bunvespo_answer traced(call asked, const struct question *q, uint64_t right, struct path *path)
{
    bunvespo_answer answer;
    path->steps = 0;
    recorded = path;
    TRAP("orq $0x100");
    answer = asked(q, right);
    TRAP("andq $~0x100");
    return answer;
}

static int same(const struct path *a, const struct path *b)
{
    return a->steps == b->steps && memcmp(a->at, b->at, a->steps * sizeof a->at[0]) == 0;
}

/* The different paths of the rights with one answer. */
struct paths {
    int number;
    struct path different[MOST_RIGHTS];
};

static void add(struct paths *seen, const struct path *path)
{
    for (int earlier = 0; earlier < seen->number; earlier++)
        if (same(&seen->different[earlier], path))
            return;
    memcpy(&seen->different[seen->number], path, sizeof *path);
    seen->number++;
}

/* The paths of the rights whose answer has the value 0, and of those whose answer has 1. */
static struct paths seen[2];

/* Follows the rights whose answer has at least this value; the answers of all are looked at. */
static void follow(call asked, const struct question *q, uint64_t least)
{
    static struct path path;
    seen[0].number = 0;
    seen[1].number = 0;
    for (uint64_t right = 0; right < q->rights; right++) {
        bunvespo_answer answer = asked(q, right);
        path.steps = 0;
        if (answer.value >= least)
            answer = traced(asked, q, right, &path);
        if (answer.refusal != 0 || answer.value > 1 || path.steps > MOST_STEPS) {
            fprintf(stderr, "held_path: right %d: refusal %d, value %d, %zu instructions\n", (int)right, (int)answer.refusal, (int)answer.value,
                    path.steps);
            exit(1);
        }
        if (answer.value >= least)
            add(&seen[answer.value], &path);
    }
}

#define LOGINS 3
#define LOGIN 1
#define OTHER 2
#define LOG 3
#define CELLS (LOGINS * (LOGINS + 1))
#define MOST_CELL_BYTES 4

static int cell_bytes(int version)
{
    return version == 1 ? 2 : MOST_CELL_BYTES;
}

static size_t record_bytes(int version)
{
    return 7 + (size_t)cell_bytes(version) * CELLS;
}

static void set_cell(uint8_t *record, int row, int column, uint32_t cell)
{
    int width = cell_bytes(record[0]);
    uint8_t *at = record + 7 + width * (row * (LOGINS + 1) + column);
    for (int byte = width - 1; byte >= 0; byte--, cell /= 256)
        at[byte] = (uint8_t)(cell % 256);
}

/* Three logins and a log, all owned by U, but the other login by this one where its cell has own. This login has this cell over the column. */
static void make_record(uint8_t *record, int version, int column, uint32_t cell)
{
    memset(record, 0, record_bytes(version));
    record[0] = (uint8_t)version;
    record[4] = (uint8_t)(record_bytes(version) - 5);
    record[5] = LOGINS;
    record[6] = 1;
    for (int login = 0; login < LOGINS; login++)
        set_cell(record, login, login, 1u << BUNVESPO_CONTROL);
    for (int owned = 1; owned <= LOG; owned++)
        set_cell(record, 0, owned, 1u << BUNVESPO_OWN);
    if (column == OTHER)
        set_cell(record, 0, column, cell % 2 == 0);
    set_cell(record, LOGIN, column, cell);
}

static int differs(const char *what, const struct question *q, uint32_t cell, int number, int expected)
{
    if (number == expected)
        return 0;
    fprintf(stderr, "held_path: version %d: %s over column %d by the cell %08X: %d paths, not %d\n", q->record[0], what, (int)q->o,
            (unsigned)cell, number, expected);
    return 1;
}

/* The bits of every right of a version. */
static uint32_t every_right(int version)
{
    return UINT32_MAX >> (32 - 8 * cell_bytes(version));
}

/* Whether a cell gives other paths than one for the rights that are held, if there are such, and one for those that are not. */
static int is_wrong(int version, int column, uint32_t cell)
{
    uint8_t record[7 + MOST_CELL_BYTES * CELLS];
    struct question q = {record, record_bytes(version), LOGIN, (uint64_t)column, 8 * (uint64_t)cell_bytes(version)};
    int wrong = 0;
    make_record(record, version, column, cell);
    follow(held, &q, 0);
    wrong |= differs("rights that are held", &q, cell, seen[1].number, cell != 0);
    wrong |= differs("rights that are not held", &q, cell, seen[0].number, cell != every_right(version));
    follow(safety, &q, 1);
    wrong |= differs("safety questions for rights that are held", &q, cell, seen[1].number, cell != 0);
    return wrong;
}

/* The cells of a version: none, one or all of the rights that this login can have over the other one and over the log. */
static int version_is_wrong(int version)
{
    int wrong = 0, cells = 0;
    for (int column = OTHER; column <= LOG; column++) {
        uint32_t all = every_right(version);
        if (column == LOG)
            all &= ~(1u << BUNVESPO_CONTROL); /* nobody controls a log */
        wrong |= is_wrong(version, column, 0);
        wrong |= is_wrong(version, column, all);
        cells += 2;
        for (int right = 0; right < 8 * cell_bytes(version); right++)
            if (all >> right & 1) {
                wrong |= is_wrong(version, column, (uint32_t)1 << right);
                cells++;
            }
    }
    if (!wrong)
        printf("held_path: version %d: %d cells with %d rights each: one path for all that are held, one for all that are not\n", version,
               cells, 8 * cell_bytes(version));
    return wrong;
}

int main(void)
{
    const struct question none = {NULL, 0, 0, 0, MOST_RIGHTS};
    struct sigaction action;
    int wrong = 0;
    memset(&action, 0, sizeof action);
    action.sa_sigaction = after_instruction;
    action.sa_flags = SA_SIGINFO;
    sigaction(SIGTRAP, &action, NULL);
    follow(with_branches, &none, 0);
    if (seen[1].number != 4) {
        fprintf(stderr, "held_path: four paths are not told apart on this machine\n");
        return 1;
    }
    for (int version = 1; version <= 2; version++)
        wrong |= version_is_wrong(version);
    return wrong;
}
