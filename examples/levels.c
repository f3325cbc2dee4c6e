/* levels.c: tasks that share a priority. Two like tasks on one level hold each other up, and on two levels only
 * the lower one waits. Such a table is tested and forced from here; the lines of a plan carry no levels, so it
 * is not written as one, and a level past 32 is refused at once.
 *
 *     cc -Iinclude examples/levels.c target/staticlib/libeskihrum.a -o target/levels && target/levels
 */
#include <stdio.h>

#include "eskihrum.h"

static void told(const char *what, eskihrum_answer answer) {
    printf("%s: refused %u place %u\n", what, answer.number, answer.place);
    fprintf(stderr, "levels: %s\n", eskihrum_text(answer.number));
}

int main(void) {
    eskihrum_level_task tasks[] = {
        {ESKIHRUM_PREEMPTIVE, 6, 2, 6, 1}, /* flag, T, C, D, level */
        {ESKIHRUM_PREEMPTIVE, 6, 2, 6, 1},
    };
    eskihrum_record records[2];
    char plan[ESKIHRUM_PLAN_BYTES];

    eskihrum_answer one = eskihrum_force_levels(1, ESKIHRUM_FP, tasks, 2, records, 2);
    if (!one.yes) return 1;
    printf("one level: bounds %u and %u\n", records[0].bound, records[1].bound);
    told("as a plan", eskihrum_write_levels(1, ESKIHRUM_FP, tasks, 2, plan, sizeof plan, 0));

    tasks[1].level = 2;
    eskihrum_answer two = eskihrum_force_levels(1, ESKIHRUM_FP, tasks, 2, records, 2);
    if (!two.yes) return 1;
    printf("two levels: bounds %u and %u\n", records[0].bound, records[1].bound);

    tasks[1].level = ESKIHRUM_LEVELS + 1;
    told("level 33", eskihrum_force_levels(1, ESKIHRUM_FP, tasks, 2, records, 2));
    return 0;
}
