/* header.c: every function and macro of include/eskihrum.h behind a function that can be linked. What a
 * wrapper answers is handed on by the names of its fields, in an order of this file's own. */
#include "eskihrum.h"

enum { FIELDS = 7 };

static void hand_on(eskihrum_answer answer, uint32_t told[FIELDS]) {
    told[0] = answer.records;
    told[1] = answer.passes;
    told[2] = answer.forced;
    told[3] = answer.yes;
    told[4] = answer.place;
    told[5] = answer.number;
    told[6] = answer.word;
}

void header_test_plan(const uint8_t *text, size_t bytes, eskihrum_record *records, size_t room,
                      uint32_t told[FIELDS]) {
    hand_on(eskihrum_test_plan(text, bytes, records, room), told);
}

void header_force_plan(const uint8_t *text, size_t bytes, eskihrum_record *records, size_t room,
                       uint32_t told[FIELDS]) {
    hand_on(eskihrum_force_plan(text, bytes, records, room), told);
}

void header_test_tasks(uint32_t cores, uint32_t policy, const eskihrum_task *tasks, size_t n,
                       eskihrum_record *records, size_t room, uint32_t told[FIELDS]) {
    hand_on(eskihrum_test_tasks(cores, policy, tasks, n, records, room), told);
}

void header_force_tasks(uint32_t cores, uint32_t policy, const eskihrum_task *tasks, size_t n,
                        eskihrum_record *records, size_t room, uint32_t told[FIELDS]) {
    hand_on(eskihrum_force_tasks(cores, policy, tasks, n, records, room), told);
}

/* Both jobs under the second edition: the round count is handed on by itself. */
uint32_t header_plan_2(int force, const uint8_t *text, size_t bytes, eskihrum_record *records, size_t room,
                       uint32_t told[FIELDS]) {
    eskihrum_answer answer = force ? eskihrum_force_plan_2(text, bytes, records, room)
                                   : eskihrum_test_plan_2(text, bytes, records, room);
    hand_on(answer, told);
    return answer.rounds;
}

uint32_t header_tasks_2(int force, uint32_t cores, uint32_t policy, const eskihrum_task *tasks, size_t n,
                        eskihrum_record *records, size_t room, uint32_t told[FIELDS]) {
    eskihrum_answer answer = force ? eskihrum_force_tasks_2(cores, policy, tasks, n, records, room)
                                   : eskihrum_test_tasks_2(cores, policy, tasks, n, records, room);
    hand_on(answer, told);
    return answer.rounds;
}

/* What is answered of the fewest cores: their number is handed on by itself. */
uint32_t header_fewest_plan(const uint8_t *text, size_t bytes, eskihrum_record *records, size_t room,
                            uint32_t told[FIELDS]) {
    eskihrum_answer answer = eskihrum_fewest_plan(text, bytes, records, room);
    hand_on(answer, told);
    return answer.cores;
}

uint32_t header_fewest_tasks(uint32_t cores, uint32_t policy, const eskihrum_task *tasks, size_t n,
                             eskihrum_record *records, size_t room, uint32_t told[FIELDS]) {
    eskihrum_answer answer = eskihrum_fewest_tasks(cores, policy, tasks, n, records, room);
    hand_on(answer, told);
    return answer.cores;
}

/* The jobs on tasks with levels, by edition; the round count is handed on by itself, or the fewest cores. */
uint32_t header_levels(int force, int edition, uint32_t cores, uint32_t policy,
                       const eskihrum_level_task *tasks, size_t n, eskihrum_record *records, size_t room,
                       uint32_t told[FIELDS]) {
    eskihrum_answer answer;
    if (edition == 2)
        answer = force ? eskihrum_force_levels_2(cores, policy, tasks, n, records, room)
                       : eskihrum_test_levels_2(cores, policy, tasks, n, records, room);
    else
        answer = force ? eskihrum_force_levels(cores, policy, tasks, n, records, room)
                       : eskihrum_test_levels(cores, policy, tasks, n, records, room);
    hand_on(answer, told);
    return answer.rounds;
}

uint32_t header_fewest_levels(uint32_t cores, uint32_t policy, const eskihrum_level_task *tasks, size_t n,
                              eskihrum_record *records, size_t room, uint32_t told[FIELDS]) {
    eskihrum_answer answer = eskihrum_fewest_levels(cores, policy, tasks, n, records, room);
    hand_on(answer, told);
    return answer.cores;
}

size_t header_write_levels(uint32_t cores, uint32_t policy, const eskihrum_level_task *tasks, size_t n,
                           uint8_t *buffer, size_t bytes, size_t start, uint32_t told[FIELDS]) {
    eskihrum_answer answer = eskihrum_write_levels(cores, policy, tasks, n, buffer, bytes, start);
    hand_on(answer, told);
    return eskihrum_end(answer);
}

/* What a writer answers: the end place is handed on by itself. */
size_t header_write_tasks(uint32_t cores, uint32_t policy, const eskihrum_task *tasks, size_t n,
                          uint8_t *buffer, size_t bytes, size_t start, uint32_t told[FIELDS]) {
    eskihrum_answer answer = eskihrum_write_tasks(cores, policy, tasks, n, buffer, bytes, start);
    hand_on(answer, told);
    return eskihrum_end(answer);
}

size_t header_write_changed(const uint8_t *text, size_t text_bytes, uint8_t *buffer, size_t bytes,
                            size_t start, uint32_t told[FIELDS]) {
    eskihrum_answer answer = eskihrum_write_changed(text, text_bytes, buffer, bytes, start);
    hand_on(answer, told);
    return eskihrum_end(answer);
}

/* An end place that has more than 32 bits, from its two halves. */
size_t header_end(uint32_t low, uint32_t high) {
    eskihrum_answer answer = eskihrum_no_answer();
    answer.end_low = low;
    answer.end_high = high;
    return eskihrum_end(answer);
}

/* The older calls, their answer taken apart by the macros. */
static uint32_t job_of(int force) {
    return force ? ESKIHRUM_FORCE : ESKIHRUM_TEST;
}

static void take_apart(uint64_t answer, uint32_t told[FIELDS]) {
    told[0] = 0;
    told[1] = ESKIHRUM_PASSES(answer);
    told[2] = ESKIHRUM_FORCED(answer);
    told[3] = ESKIHRUM_YES(answer);
    told[4] = ESKIHRUM_PLACE(answer);
    told[5] = ESKIHRUM_NUMBER(answer);
    told[6] = 0;
}

void header_plan(int force, const uint8_t *text, size_t bytes, uint32_t *records, size_t records_len,
                 uint32_t told[FIELDS]) {
    take_apart(eskihrum_plan(job_of(force), text, bytes, records, records_len), told);
}

void header_tasks(int force, uint32_t cores, uint32_t policy, const uint32_t *tasks, size_t tasks_len,
                  uint32_t *records, size_t records_len, uint32_t told[FIELDS]) {
    take_apart(eskihrum_tasks(job_of(force), cores, policy, tasks, tasks_len, records, records_len), told);
}

/* What an answer is that nothing was written to: a field that no archive knows is 0. */
uint32_t header_reserved(const uint8_t *text, size_t bytes, eskihrum_record *records, size_t room) {
    eskihrum_answer answer = eskihrum_force_plan(text, bytes, records, room);
    uint32_t all = 0;
    for (size_t i = 0; i < sizeof answer.reserved / sizeof answer.reserved[0]; i++) all |= answer.reserved[i];
    return all | answer.rounds | answer.cores | answer.end_low | answer.end_high;
}

const char *header_text(uint32_t number) {
    return eskihrum_text(number);
}

const char *header_advice(uint32_t number) {
    return eskihrum_advice(number);
}

uint32_t header_edf(void) {
    return ESKIHRUM_EDF;
}

uint32_t header_fp(void) {
    return ESKIHRUM_FP;
}

uint32_t header_preemptive(void) {
    return ESKIHRUM_PREEMPTIVE;
}

uint32_t header_non_preemptive(void) {
    return ESKIHRUM_NON_PREEMPTIVE;
}

size_t header_most(void) {
    return ESKIHRUM_TASKS;
}

size_t header_lowest_level(void) {
    return ESKIHRUM_LEVELS;
}

size_t header_plan_bytes(void) {
    return ESKIHRUM_PLAN_BYTES;
}

/* Whether the archive serves this header. */
int header_served(void) {
    return eskihrum_abi() >= ESKIHRUM_ABI;
}
