/* eskihrum.h: the planner for C and C++. Link libeskihrum.a, which `tools/build.sh archive` puts into
 * target/staticlib. C11 or C++11, x86-64.
 *
 *     eskihrum_task tasks[] = {{1, 12, 4, 12}, {1, 24, 9, 18}};
 *     eskihrum_record records[2];
 *     eskihrum_answer answer = eskihrum_force_tasks(1, ESKIHRUM_FP, tasks, 2, records, 2);
 *     if (!answer.yes) puts(eskihrum_text(answer.number));
 *
 * Every call answers every input. What it answers is proved of the archive's functions; this header is not
 * proved: checks/border.py compares it with their source, and rust/header runs it against a second program.
 *
 * What a call needs, and what it leaves alone:
 * - It keeps nothing between calls: no global variable, no allocation, no lock. Any number of threads may
 *   call at once, each with lists of its own.
 * - Of the C library it needs memcpy and memset, and nothing else.
 * - It touches no memory but the lists that it is lent and its stack, of which it takes less than 8 KB.
 * - It always returns, but its time has no smaller limit than that. Most tables take less than a millisecond,
 *   the slowest tables known most of a second (docs/BENCHMARK.md): not for a loop with a deadline of its own.
 * - It uses the SSE2 registers and the red zone below the stack pointer: not for interrupt handlers, nor for
 *   kernel code, which is built without them.
 * - Lists that are lent in one call do not overlap. A list of length 0 may be NULL. Tasks, records and
 *   answers stand where a uint32_t may stand.
 */
#ifndef ESKIHRUM_H
#define ESKIHRUM_H

#include <stddef.h>
#include <stdint.h>

#ifdef __cplusplus
#define ESKIHRUM_HOLDS(fact) static_assert(fact, #fact)
extern "C" {
#else
#define ESKIHRUM_HOLDS(fact) _Static_assert(fact, #fact)
#endif

/* The project's version, and what this header knows of the archive. An archive serves it exactly if
 * eskihrum_abi() is at least ESKIHRUM_ABI: calls and numbers are added, and never change their meaning. */
#define ESKIHRUM_VERSION "0.2.0"
#define ESKIHRUM_ABI 6

/* A table has at most so many tasks; room for so many records is always enough. */
#define ESKIHRUM_TASKS 32

/* The lowest level; 1 is the highest. */
#define ESKIHRUM_LEVELS 32

/* Room for so many bytes from the start place on is always enough: no plan is longer. */
#define ESKIHRUM_PLAN_BYTES 1003

enum { ESKIHRUM_EDF = 0, ESKIHRUM_FP = 1 };
enum { ESKIHRUM_NON_PREEMPTIVE = 0, ESKIHRUM_PREEMPTIVE = 1 };

/* A task as it is given: any numbers, and a wrong one gets its refusal. Times are in quanta. Its place in the
 * list, from 1, is its level. */
typedef struct eskihrum_task {
    uint32_t flag;     /* ESKIHRUM_PREEMPTIVE or ESKIHRUM_NON_PREEMPTIVE */
    uint32_t period;   /* T, 1 to 1,000,000 */
    uint32_t cost;     /* C, 1 to D */
    uint32_t deadline; /* D, 1 to T */
} eskihrum_task;

/* A task with a level of its own, for the functions whose names end in _levels. Under FP another task counts
 * as higher if its level is smaller or equal, and as lower if it is greater: two tasks may share one. EDF
 * ignores levels, and still refuses one that is none. */
typedef struct eskihrum_level_task {
    uint32_t flag;     /* as in an eskihrum_task, these four */
    uint32_t period;   /* T */
    uint32_t cost;     /* C */
    uint32_t deadline; /* D */
    uint32_t level;    /* 1 to ESKIHRUM_LEVELS */
} eskihrum_level_task;

/* What the planner says of a task. */
typedef struct eskihrum_record {
    uint32_t flag;   /* the flag that was tested last */
    uint32_t forced; /* 1 if forcing changed the flag */
    uint32_t bound;  /* the bound, or 0 for none */
} eskihrum_record;

/* The answer to every call, now and later. A field is 0 where it has nothing to say. Fields are only ever
 * added, first in place of reserved ones and then at the end: docs/C.md says which are kept for what. */
typedef struct eskihrum_answer {
    uint32_t number;       /* the refusal's number, 0 for none: eskihrum_text says what it means */
    uint32_t place;        /* its place: a line for 1 to 12 of a plan, otherwise a task, or 0 for none */
    uint32_t yes;          /* 1 if every task has a bound under the flags in the records, or if the plan that
                              was asked for is written; else 0 */
    uint32_t forced;       /* how many tasks forcing made non-preemptive */
    uint32_t passes;       /* how many tests of the whole table forcing made, under refusals 14 and 15 too */
    uint32_t records;      /* how many records were written: one for each task, or 0 in a refusal */
    uint32_t rounds;       /* edition 2: how many rounds the last test had, with a no too; 0 in a refusal */
    uint32_t cores;        /* the fewest cores with which forcing accepts, where they were asked for */
    uint32_t word;         /* the flags in the records as one word: bit 0 for task 1, a 1 for non-preemptive,
                              zeros from bit n up; 0 in a refusal */
    uint32_t end_low;      /* the place after the last byte written into a buffer: eskihrum_end puts */
    uint32_t end_high;     /* its two halves together */
    uint32_t reserved[5];  /* 0 */
} eskihrum_answer;

/* Each field stands where the archive has its number. */
#define ESKIHRUM_AT(type, field, place) ESKIHRUM_HOLDS(offsetof(type, field) == (place) * sizeof(uint32_t))
ESKIHRUM_AT(eskihrum_task, flag, 0);
ESKIHRUM_AT(eskihrum_task, period, 1);
ESKIHRUM_AT(eskihrum_task, cost, 2);
ESKIHRUM_AT(eskihrum_task, deadline, 3);
ESKIHRUM_HOLDS(sizeof(eskihrum_task) == 4 * sizeof(uint32_t));
ESKIHRUM_AT(eskihrum_level_task, flag, 0);
ESKIHRUM_AT(eskihrum_level_task, period, 1);
ESKIHRUM_AT(eskihrum_level_task, cost, 2);
ESKIHRUM_AT(eskihrum_level_task, deadline, 3);
ESKIHRUM_AT(eskihrum_level_task, level, 4);
ESKIHRUM_HOLDS(sizeof(eskihrum_level_task) == 5 * sizeof(uint32_t));
ESKIHRUM_AT(eskihrum_record, flag, 0);
ESKIHRUM_AT(eskihrum_record, forced, 1);
ESKIHRUM_AT(eskihrum_record, bound, 2);
ESKIHRUM_HOLDS(sizeof(eskihrum_record) == 3 * sizeof(uint32_t));
ESKIHRUM_AT(eskihrum_answer, number, 0);
ESKIHRUM_AT(eskihrum_answer, place, 1);
ESKIHRUM_AT(eskihrum_answer, yes, 2);
ESKIHRUM_AT(eskihrum_answer, forced, 3);
ESKIHRUM_AT(eskihrum_answer, passes, 4);
ESKIHRUM_AT(eskihrum_answer, records, 5);
ESKIHRUM_AT(eskihrum_answer, rounds, 6);
ESKIHRUM_AT(eskihrum_answer, cores, 7);
ESKIHRUM_AT(eskihrum_answer, word, 8);
ESKIHRUM_AT(eskihrum_answer, end_low, 9);
ESKIHRUM_AT(eskihrum_answer, end_high, 10);
ESKIHRUM_HOLDS(sizeof(eskihrum_answer) == 16 * sizeof(uint32_t));

/* ---- The archive's functions, on flat numbers. Those further down count tasks and records instead. ---- */

/* What the archive knows: compare it with ESKIHRUM_ABI. */
uint32_t eskihrum_abi(void);

/* The test, and forcing, of the plan of text_len bytes at text. records has three numbers to a record, answer
 * the numbers of an eskihrum_answer; both get as much as they have room for, and keep the rest. The result is
 * the answer's yes. */
uint32_t eskihrum_flat_test_plan(const uint8_t *text, size_t text_len, uint32_t *records, size_t records_len,
                                 uint32_t *answer, size_t answer_len);
uint32_t eskihrum_flat_force_plan(const uint8_t *text, size_t text_len, uint32_t *records, size_t records_len,
                                  uint32_t *answer, size_t answer_len);

/* The same for cores, policy and a table of numbers, four to a task: flag, T, C, D. Where the last task has
 * fewer than four, those that are missing count as 0, and so it is refused. */
uint32_t eskihrum_flat_test_tasks(uint32_t cores, uint32_t policy, const uint32_t *tasks, size_t tasks_len,
                                  uint32_t *records, size_t records_len, uint32_t *answer, size_t answer_len);
uint32_t eskihrum_flat_force_tasks(uint32_t cores, uint32_t policy, const uint32_t *tasks, size_t tasks_len,
                                   uint32_t *records, size_t records_len, uint32_t *answer,
                                   size_t answer_len);

/* The same four under the second edition of the test: the answer has its rounds, and 15 stands for 14. */
uint32_t eskihrum_flat_test_plan_2(const uint8_t *text, size_t text_len, uint32_t *records,
                                   size_t records_len, uint32_t *answer, size_t answer_len);
uint32_t eskihrum_flat_force_plan_2(const uint8_t *text, size_t text_len, uint32_t *records,
                                    size_t records_len, uint32_t *answer, size_t answer_len);
uint32_t eskihrum_flat_test_tasks_2(uint32_t cores, uint32_t policy, const uint32_t *tasks, size_t tasks_len,
                                    uint32_t *records, size_t records_len, uint32_t *answer,
                                    size_t answer_len);
uint32_t eskihrum_flat_force_tasks_2(uint32_t cores, uint32_t policy, const uint32_t *tasks, size_t tasks_len,
                                     uint32_t *records, size_t records_len, uint32_t *answer,
                                     size_t answer_len);

/* The fewest cores, 1 to 16, with which forcing accepts a plan, or a table of numbers, with the records of
 * that forcing. The number of cores that is given is checked, and otherwise not used. The result is the
 * answer's yes; where 16 cores are too few the refusal is 14, with place and passes as found there. */
uint32_t eskihrum_flat_fewest_plan(const uint8_t *text, size_t text_len, uint32_t *records,
                                   size_t records_len, uint32_t *answer, size_t answer_len);
uint32_t eskihrum_flat_fewest_tasks(uint32_t cores, uint32_t policy, const uint32_t *tasks, size_t tasks_len,
                                    uint32_t *records, size_t records_len, uint32_t *answer,
                                    size_t answer_len);

/* A table of numbers as a plan, and the plan of text_len bytes at text as changed by forcing, into the buffer
 * from the place start on. The answer's end place is the one after the last byte written; the bytes before
 * the start and those from the end on stay. The result is the answer's yes: 1 where the plan is written. */
uint32_t eskihrum_flat_write_tasks(uint32_t cores, uint32_t policy, const uint32_t *tasks, size_t tasks_len,
                                   uint8_t *buffer, size_t buffer_len, size_t start, uint32_t *answer,
                                   size_t answer_len);
uint32_t eskihrum_flat_write_changed(const uint8_t *text, size_t text_len, uint8_t *buffer, size_t buffer_len,
                                     size_t start, uint32_t *answer, size_t answer_len);

/* What the calls on a table of numbers do, with five numbers to a task: flag, T, C, D, level. Where the last
 * task has fewer than five, those that are missing count as 0, and so it is refused. A plan has no levels:
 * writing is refused with 18, after all others, where they are not 1, 2 and so on in table order. */
uint32_t eskihrum_flat_test_levels(uint32_t cores, uint32_t policy, const uint32_t *tasks, size_t tasks_len,
                                   uint32_t *records, size_t records_len, uint32_t *answer,
                                   size_t answer_len);
uint32_t eskihrum_flat_force_levels(uint32_t cores, uint32_t policy, const uint32_t *tasks, size_t tasks_len,
                                    uint32_t *records, size_t records_len, uint32_t *answer,
                                    size_t answer_len);
uint32_t eskihrum_flat_test_levels_2(uint32_t cores, uint32_t policy, const uint32_t *tasks, size_t tasks_len,
                                     uint32_t *records, size_t records_len, uint32_t *answer,
                                     size_t answer_len);
uint32_t eskihrum_flat_force_levels_2(uint32_t cores, uint32_t policy, const uint32_t *tasks,
                                      size_t tasks_len, uint32_t *records, size_t records_len,
                                      uint32_t *answer, size_t answer_len);
uint32_t eskihrum_flat_fewest_levels(uint32_t cores, uint32_t policy, const uint32_t *tasks, size_t tasks_len,
                                     uint32_t *records, size_t records_len, uint32_t *answer,
                                     size_t answer_len);
uint32_t eskihrum_flat_write_levels(uint32_t cores, uint32_t policy, const uint32_t *tasks, size_t tasks_len,
                                    uint8_t *buffer, size_t buffer_len, size_t start, uint32_t *answer,
                                    size_t answer_len);

/* The two older calls: job is ESKIHRUM_TEST, or ESKIHRUM_FORCE and any other number. Their answer is one
 * number, whose parts the macros give. They stay as they are. */
enum { ESKIHRUM_TEST = 0, ESKIHRUM_FORCE = 1 };
uint64_t eskihrum_plan(uint32_t job, const uint8_t *text, size_t text_len, uint32_t *records,
                       size_t records_len);
uint64_t eskihrum_tasks(uint32_t job, uint32_t cores, uint32_t policy, const uint32_t *tasks,
                        size_t tasks_len, uint32_t *records, size_t records_len);
#define ESKIHRUM_YES(answer) ((uint32_t)((uint64_t)(answer) >> 32))
#define ESKIHRUM_NUMBER(answer) ((uint32_t)((uint64_t)(answer) & 255))
#define ESKIHRUM_PLACE(answer) ((uint32_t)((uint64_t)(answer) >> 8 & 255))
#define ESKIHRUM_FORCED(answer) ((uint32_t)((uint64_t)(answer) >> 16 & 255))
#define ESKIHRUM_PASSES(answer) ((uint32_t)((uint64_t)(answer) >> 24 & 255))

/* ---- A function for each job. ---- */

/* How many numbers n things of `size` numbers are. From `most` things on the answer is the same, so that a
 * count which is far too large cannot wrap round to a small one. */
static inline size_t eskihrum_numbers(size_t n, size_t most, size_t size) {
    return (n < most ? n : most) * size;
}

/* An answer of which nothing is said yet. */
static inline eskihrum_answer eskihrum_no_answer(void) {
    const eskihrum_answer none = {0, 0, 0, 0, 0, 0, 0, 0, 0, 0, 0, {0, 0, 0, 0, 0}};
    return none;
}

/* A job on a plan, and one on a list of tasks, by one of the archive's functions. */
typedef uint32_t eskihrum_on_plan(const uint8_t *, size_t, uint32_t *, size_t, uint32_t *, size_t);
typedef uint32_t eskihrum_on_tasks(uint32_t, uint32_t, const uint32_t *, size_t, uint32_t *, size_t,
                                   uint32_t *, size_t);

static inline eskihrum_answer eskihrum_ask_plan(eskihrum_on_plan *job, const void *text, size_t bytes,
                                                eskihrum_record *records, size_t room) {
    eskihrum_answer answer = eskihrum_no_answer();
    job((const uint8_t *)text, bytes, (uint32_t *)records, eskihrum_numbers(room, ESKIHRUM_TASKS, 3),
        (uint32_t *)&answer, 16);
    return answer;
}

static inline eskihrum_answer eskihrum_ask_numbers(eskihrum_on_tasks *job, uint32_t cores, uint32_t policy,
                                                   const uint32_t *tasks, size_t tasks_len,
                                                   eskihrum_record *records, size_t room) {
    eskihrum_answer answer = eskihrum_no_answer();
    job(cores, policy, tasks, tasks_len,
        (uint32_t *)records, eskihrum_numbers(room, ESKIHRUM_TASKS, 3), (uint32_t *)&answer, 16);
    return answer;
}

static inline eskihrum_answer eskihrum_ask_tasks(eskihrum_on_tasks *job, uint32_t cores, uint32_t policy,
                                                 const eskihrum_task *tasks, size_t n,
                                                 eskihrum_record *records, size_t room) {
    return eskihrum_ask_numbers(job, cores, policy, (const uint32_t *)tasks,
                                eskihrum_numbers(n, ESKIHRUM_TASKS + 1, 4), records, room);
}

static inline eskihrum_answer eskihrum_ask_levels(eskihrum_on_tasks *job, uint32_t cores, uint32_t policy,
                                                  const eskihrum_level_task *tasks, size_t n,
                                                  eskihrum_record *records, size_t room) {
    return eskihrum_ask_numbers(job, cores, policy, (const uint32_t *)tasks,
                                eskihrum_numbers(n, ESKIHRUM_TASKS + 1, 5), records, room);
}

/* The test of a plan: the `bytes` bytes at text. room is how many records there is room for at records. The
 * first answer.records of them are written, for each task its flag as given and its bound; others keep their
 * contents. A no is no refusal: the records without a bound say why. */
static inline eskihrum_answer eskihrum_test_plan(const void *text, size_t bytes, eskihrum_record *records,
                                                 size_t room) {
    return eskihrum_ask_plan(eskihrum_flat_test_plan, text, bytes, records, room);
}

/* Forcing of a plan: makes preemptive tasks without a bound non-preemptive, and tests again. Where it
 * accepts, the records have the flags at the end, and answer.word has them in one word: these are to be
 * installed. A refusal writes none, and its word is 0. */
static inline eskihrum_answer eskihrum_force_plan(const void *text, size_t bytes, eskihrum_record *records,
                                                  size_t room) {
    return eskihrum_ask_plan(eskihrum_flat_force_plan, text, bytes, records, room);
}

/* The test of n tasks on so many cores under ESKIHRUM_EDF or ESKIHRUM_FP, as that of a plan. */
static inline eskihrum_answer eskihrum_test_tasks(uint32_t cores, uint32_t policy, const eskihrum_task *tasks,
                                                  size_t n, eskihrum_record *records, size_t room) {
    return eskihrum_ask_tasks(eskihrum_flat_test_tasks, cores, policy, tasks, n, records, room);
}

/* Forcing of n tasks, as that of a plan. */
static inline eskihrum_answer eskihrum_force_tasks(uint32_t cores, uint32_t policy,
                                                   const eskihrum_task *tasks, size_t n,
                                                   eskihrum_record *records, size_t room) {
    return eskihrum_ask_tasks(eskihrum_flat_force_tasks, cores, policy, tasks, n, records, room);
}

/* The same jobs under the second edition of the test, which accepts what the first does, and more.
 * answer.rounds is how many rounds the last test had. Forcing that finds no pass ends in 15, which does not
 * say that there is none. A test can need many rounds: hundreds of thousands are known. */
static inline eskihrum_answer eskihrum_test_plan_2(const void *text, size_t bytes, eskihrum_record *records,
                                                   size_t room) {
    return eskihrum_ask_plan(eskihrum_flat_test_plan_2, text, bytes, records, room);
}

static inline eskihrum_answer eskihrum_force_plan_2(const void *text, size_t bytes, eskihrum_record *records,
                                                    size_t room) {
    return eskihrum_ask_plan(eskihrum_flat_force_plan_2, text, bytes, records, room);
}

static inline eskihrum_answer eskihrum_test_tasks_2(uint32_t cores, uint32_t policy,
                                                    const eskihrum_task *tasks, size_t n,
                                                    eskihrum_record *records, size_t room) {
    return eskihrum_ask_tasks(eskihrum_flat_test_tasks_2, cores, policy, tasks, n, records, room);
}

static inline eskihrum_answer eskihrum_force_tasks_2(uint32_t cores, uint32_t policy,
                                                     const eskihrum_task *tasks, size_t n,
                                                     eskihrum_record *records, size_t room) {
    return eskihrum_ask_tasks(eskihrum_flat_force_tasks_2, cores, policy, tasks, n, records, room);
}

/* The fewest cores, 1 to 16, with which forcing accepts a plan: answer.cores, with the records, forced count
 * and passes of that forcing. With every larger number it accepts as well, and with every smaller one it
 * refuses with 14. The number in the head is checked, and otherwise not used. Where 16 cores are too few the
 * refusal is 14, with place and passes as found there. */
static inline eskihrum_answer eskihrum_fewest_plan(const void *text, size_t bytes, eskihrum_record *records,
                                                   size_t room) {
    return eskihrum_ask_plan(eskihrum_flat_fewest_plan, text, bytes, records, room);
}

/* The fewest cores for n tasks, as those of a plan: cores is checked, and otherwise not used. */
static inline eskihrum_answer eskihrum_fewest_tasks(uint32_t cores, uint32_t policy,
                                                    const eskihrum_task *tasks, size_t n,
                                                    eskihrum_record *records, size_t room) {
    return eskihrum_ask_tasks(eskihrum_flat_fewest_tasks, cores, policy, tasks, n, records, room);
}

/* The end place of what a call has written into a buffer, 0 in a refusal. */
static inline size_t eskihrum_end(eskihrum_answer answer) {
    return (size_t)((uint64_t)answer.end_high << 32 | answer.end_low);
}

/* Writes the plan of n tasks into the buffer of `bytes` bytes, from the place start on; eskihrum_end of the
 * answer is the place after it. The bytes before the start and those from the end on stay. Refused as a test
 * is, and then with 16 where there is too little room, or where the start lies past the buffer's end; a
 * refusal writes nothing. */
static inline eskihrum_answer eskihrum_write_tasks(uint32_t cores, uint32_t policy,
                                                   const eskihrum_task *tasks, size_t n, void *buffer,
                                                   size_t bytes, size_t start) {
    eskihrum_answer answer = eskihrum_no_answer();
    eskihrum_flat_write_tasks(cores, policy, (const uint32_t *)tasks,
                              eskihrum_numbers(n, ESKIHRUM_TASKS + 1, 4), (uint8_t *)buffer, bytes, start,
                              (uint32_t *)&answer, 16);
    return answer;
}

/* Forces the plan of text_bytes bytes at text and writes the plan as changed, with the flags at the end of
 * forcing: what a loader installs. Refused as forcing is, and then with 16, as eskihrum_write_tasks is. */
static inline eskihrum_answer eskihrum_write_changed(const void *text, size_t text_bytes, void *buffer,
                                                     size_t bytes, size_t start) {
    eskihrum_answer answer = eskihrum_no_answer();
    eskihrum_flat_write_changed((const uint8_t *)text, text_bytes, (uint8_t *)buffer, bytes, start,
                                (uint32_t *)&answer, 16);
    return answer;
}

/* The jobs on a list of tasks, each with a level of its own: test, forcing, both under the second edition,
 * the fewest cores. Refused as without levels, and with 17 where a task's level is not 1 to 32, after 11 of
 * that task and under both policies. */
static inline eskihrum_answer eskihrum_test_levels(uint32_t cores, uint32_t policy,
                                                   const eskihrum_level_task *tasks, size_t n,
                                                   eskihrum_record *records, size_t room) {
    return eskihrum_ask_levels(eskihrum_flat_test_levels, cores, policy, tasks, n, records, room);
}

static inline eskihrum_answer eskihrum_force_levels(uint32_t cores, uint32_t policy,
                                                    const eskihrum_level_task *tasks, size_t n,
                                                    eskihrum_record *records, size_t room) {
    return eskihrum_ask_levels(eskihrum_flat_force_levels, cores, policy, tasks, n, records, room);
}

static inline eskihrum_answer eskihrum_test_levels_2(uint32_t cores, uint32_t policy,
                                                     const eskihrum_level_task *tasks, size_t n,
                                                     eskihrum_record *records, size_t room) {
    return eskihrum_ask_levels(eskihrum_flat_test_levels_2, cores, policy, tasks, n, records, room);
}

static inline eskihrum_answer eskihrum_force_levels_2(uint32_t cores, uint32_t policy,
                                                      const eskihrum_level_task *tasks, size_t n,
                                                      eskihrum_record *records, size_t room) {
    return eskihrum_ask_levels(eskihrum_flat_force_levels_2, cores, policy, tasks, n, records, room);
}

static inline eskihrum_answer eskihrum_fewest_levels(uint32_t cores, uint32_t policy,
                                                     const eskihrum_level_task *tasks, size_t n,
                                                     eskihrum_record *records, size_t room) {
    return eskihrum_ask_levels(eskihrum_flat_fewest_levels, cores, policy, tasks, n, records, room);
}

/* Writes the plan of n tasks as eskihrum_write_tasks does. The lines of a plan carry no level: after all
 * other refusals comes 18, with place 0, where the levels are not 1, 2 and so on in table order. */
static inline eskihrum_answer eskihrum_write_levels(uint32_t cores, uint32_t policy,
                                                    const eskihrum_level_task *tasks, size_t n, void *buffer,
                                                    size_t bytes, size_t start) {
    eskihrum_answer answer = eskihrum_no_answer();
    eskihrum_flat_write_levels(cores, policy, (const uint32_t *)tasks,
                               eskihrum_numbers(n, ESKIHRUM_TASKS + 1, 5), (uint8_t *)buffer, bytes, start,
                               (uint32_t *)&answer, 16);
    return answer;
}

/* What a refusal's number means, in the words of docs/REFUSALS.md, and what to do about it. The tables are
 * written by `python3 checks/border.py --write`. */
static inline const char *eskihrum_text(uint32_t number) {
    switch (number) {
    case 0: return "Not refused.";
    /* texts: begin */
    case 1: return "Fewer bytes are left than the due line and its line end need, or the last line end is "
                   "missing.";
    case 2: return "A byte is no digit 0-9, A-F or a-f where one is due, or the byte after the line's "
                   "digits is not 0A.";
    case 3: return "The bytes of the line, its check byte included, do not sum to 0 modulo 256.";
    case 4: return "The line's first byte is not the kind that is due: 01 for the head, 02 for a task.";
    case 5: return "The number of cores is not 1 to 16.";
    case 6: return "The policy is neither 0 (EDF) nor 1 (FP).";
    case 7: return "The number of tasks is not 1 to 32.";
    case 8: return "The flag is neither 0 (non-preemptive) nor 1 (preemptive).";
    case 9: return "The period T is not 1 to 1,000,000 quanta.";
    case 10: return "The deadline D is not 1 to T.";
    case 11: return "The execution time C is not 1 to D.";
    case 12: return "Bytes follow the last line.";
    case 13: return "The caller's list has fewer records than the table has tasks.";
    case 14: return "Forcing has ended, and the task still has no bound. No choice of further "
                    "non-preemptive tasks passes the test.";
    case 15: return "Forcing under the second edition has ended, all tasks are non-preemptive, and the task "
                    "has no bound. Another choice of non-preemptive tasks may pass.";
    case 16: return "The buffer has too little room for the plan from the start place on, or the start "
                    "place lies past its end.";
    case 17: return "The level is not 1 to 32.";
    case 18: return "The levels are not 1, 2 and so on in table order, and plan lines carry no others.";
    /* texts: end */
    default: return "There is no such refusal.";
    }
}

static inline const char *eskihrum_advice(uint32_t number) {
    switch (number) {
    case 0: return "Nothing is to be done.";
    /* advice: begin */
    case 1: return "Send the whole file again; end the last line with one byte 0A; compare the head's count "
                   "with the task lines.";
    case 2: return "Write digits 0-9 and A-F, in either case, two to a byte, and end each line with one "
                   "byte 0A.";
    case 3: return "Send the line again, or work its check byte out anew: plan says on standard error which "
                   "one fits.";
    case 4: return "Put the head first, and then only task lines.";
    case 5: return "Give the number of cores of the chip.";
    case 6: return "Give 0 or 1.";
    case 7: return "Give 1 to 32 tasks; split a longer table by chip.";
    case 8: return "Give 0 or 1.";
    case 9: return "Give T in quanta.";
    case 10: return "Give a D of at most T.";
    case 11: return "Give a C of at least 1 and at most D.";
    case 12: return "Send one plan in a file, and compare the head's count with the task lines.";
    case 13: return "Lend a list of at least n records; 32 are always enough.";
    case 14: return "Shorten an execution time, lengthen a period, take a task away or add a core: none of "
                    "these turns a yes into a no. A deadline can go either way, so try it in both "
                    "directions. The place is the lowest-numbered task without a bound after forcing.";
    case 15: return "Give other tasks as non-preemptive, or change times, tasks or cores, and try again. "
                    "The place is the lowest-numbered task without a bound.";
    case 16: return "Lend a longer buffer, or start earlier: a plan has 11 bytes and 31 for each task, "
                    "1,003 at most.";
    case 17: return "Give a level from 1, the highest, to 32; two tasks may share one. Where the place in "
                    "the table is the level, leave it out, or use the calls without levels.";
    case 18: return "Put the tasks in the order of their levels, with one task to a level, and leave the "
                    "levels out. A table whose tasks share a level is tested and forced from C and Rust.";
    /* advice: end */
    default: return "Compare the number with docs/REFUSALS.md.";
    }
}

#ifdef __cplusplus
}
#endif

#endif
