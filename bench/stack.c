/* stack.c: how much stack one call of the archive takes. A thread runs the call on a stack that was filled
 * with a pattern; what the call overwrote is counted, less what a thread that does nothing overwrites.
 *
 * The plan is read from the standard input. `stack` prints the bytes of a test, of forcing, of forcing with
 * an answer of its own, of a test and of forcing under edition 2, and of the fewest cores; `stack tasks`
 * those of forcing, of that under edition 2 and of the fewest cores on the plan's tasks, with five numbers to
 * a task; `stack write` those of the two calls that write a plan: the plan's tasks, and the plan as changed.
 * Link it with -z now: otherwise the first call of memcpy, which the system looks up then, counts with some
 * kilobytes. */
#include <pthread.h>
#include <stdio.h>
#include <stdlib.h>
#include <string.h>

#include "eskihrum.h"

enum { SIZE = 1 << 18, PATTERN = 0xA5, HEAD_LINE = 11, TASK_LINE = 31 };

static uint8_t text[4096];
static size_t length;
static uint32_t records[3 * ESKIHRUM_TASKS];
static uint32_t tasks[4 * ESKIHRUM_TASKS], levels[5 * ESKIHRUM_TASKS];
static size_t tasks_length, levels_length;
static uint8_t buffer[ESKIHRUM_PLAN_BYTES];
static uint32_t answer[sizeof(eskihrum_answer) / sizeof(uint32_t)];

static void *nothing(void *job) {
    return job;
}

static void *test(void *job) {
    eskihrum_plan(ESKIHRUM_TEST, text, length, records, sizeof records / sizeof *records);
    return job;
}

static void *force(void *job) {
    eskihrum_plan(ESKIHRUM_FORCE, text, length, records, sizeof records / sizeof *records);
    return job;
}

static void *force_answer(void *job) {
    eskihrum_flat_force_plan(text, length, records, sizeof records / sizeof *records, answer,
                             sizeof answer / sizeof *answer);
    return job;
}

static void *force_second(void *job) {
    eskihrum_flat_force_plan_2(text, length, records, sizeof records / sizeof *records, answer,
                               sizeof answer / sizeof *answer);
    return job;
}

static void *test_second(void *job) {
    eskihrum_flat_test_plan_2(text, length, records, sizeof records / sizeof *records, answer,
                              sizeof answer / sizeof *answer);
    return job;
}

static void *force_list(void *job) {
    eskihrum_flat_force_levels(1, ESKIHRUM_FP, levels, levels_length, records,
                               sizeof records / sizeof *records, answer, sizeof answer / sizeof *answer);
    return job;
}

static void *force_list_second(void *job) {
    eskihrum_flat_force_levels_2(1, ESKIHRUM_FP, levels, levels_length, records,
                                 sizeof records / sizeof *records, answer, sizeof answer / sizeof *answer);
    return job;
}

static void *fewest_list(void *job) {
    eskihrum_flat_fewest_levels(1, ESKIHRUM_FP, levels, levels_length, records,
                                sizeof records / sizeof *records, answer, sizeof answer / sizeof *answer);
    return job;
}

static void *fewest(void *job) {
    eskihrum_flat_fewest_plan(text, length, records, sizeof records / sizeof *records, answer,
                              sizeof answer / sizeof *answer);
    return job;
}

static void *write_tasks(void *job) {
    eskihrum_flat_write_tasks(1, ESKIHRUM_EDF, tasks, tasks_length, buffer, sizeof buffer, 0, answer,
                              sizeof answer / sizeof *answer);
    return job;
}

static void *write_changed(void *job) {
    eskihrum_flat_write_changed(text, length, buffer, sizeof buffer, 0, answer,
                                sizeof answer / sizeof *answer);
    return job;
}

static size_t used(void *(*run)(void *)) {
    uint8_t *stack = aligned_alloc(4096, SIZE);
    pthread_attr_t attributes;
    pthread_t thread;
    size_t untouched = 0;
    if (stack == NULL) exit(3);
    memset(stack, PATTERN, SIZE);
    pthread_attr_init(&attributes);
    if (pthread_attr_setstack(&attributes, stack, SIZE) != 0) exit(3);
    if (pthread_create(&thread, &attributes, run, NULL) != 0) exit(3);
    pthread_join(thread, NULL);
    while (untouched < SIZE && stack[untouched] == PATTERN) untouched++;
    free(stack);
    return SIZE - untouched;
}

/* The numbers of the task lines, four to a task, and five with its place; what is no line is left out. */
static void take_tasks(void) {
    for (size_t at = HEAD_LINE; at + TASK_LINE <= length && tasks_length < sizeof tasks / sizeof *tasks;
         at += TASK_LINE) {
        unsigned flag, period, cost, deadline;
        if (sscanf((char *)text + at, "02%2x%8x%8x%8x", &flag, &period, &cost, &deadline) != 4) return;
        tasks[tasks_length++] = flag;
        tasks[tasks_length++] = period;
        tasks[tasks_length++] = cost;
        tasks[tasks_length++] = deadline;
        memcpy(levels + levels_length, tasks + tasks_length - 4, 4 * sizeof *tasks);
        levels[levels_length + 4] = (uint32_t)(tasks_length / 4);
        levels_length += 5;
    }
}

int main(int count, char **words) {
    length = fread(text, 1, sizeof text - 1, stdin);
    take_tasks();
    size_t empty = used(nothing);
    if (count == 2 && strcmp(words[1], "write") == 0) {
        printf("tasks %zu changed %zu\n", used(write_tasks) - empty, used(write_changed) - empty);
    } else if (count == 2 && strcmp(words[1], "tasks") == 0) {
        printf("force %zu edition 2 %zu fewest %zu\n", used(force_list) - empty,
               used(force_list_second) - empty, used(fewest_list) - empty);
    } else {
        printf("test %zu force %zu answer %zu edition 2 %zu and %zu fewest %zu\n", used(test) - empty,
               used(force) - empty, used(force_answer) - empty, used(test_second) - empty,
               used(force_second) - empty, used(fewest) - empty);
    }
    return 0;
}
