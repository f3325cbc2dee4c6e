/* tasks.c: a table from C, without a plan text. Tests case a of document 01 as it is, forces it, and says of
 * each task what is to be installed.
 *
 *     cc -Iinclude examples/tasks.c target/staticlib/libeskihrum.a -o target/tasks
 */
#include <stdio.h>

#include "eskihrum.h"

int main(void) {
    const eskihrum_task tasks[] = {
        {ESKIHRUM_PREEMPTIVE, 12, 4, 12}, /* flag, T, C, D */
        {ESKIHRUM_PREEMPTIVE, 24, 9, 18},
    };
    const size_t n = sizeof tasks / sizeof tasks[0];
    eskihrum_record records[sizeof tasks / sizeof tasks[0]];

    eskihrum_answer tested = eskihrum_test_tasks(1, ESKIHRUM_FP, tasks, n, records, n);
    printf("as given: %s\n", tested.yes ? "yes" : "no");

    eskihrum_answer forced = eskihrum_force_tasks(1, ESKIHRUM_FP, tasks, n, records, n);
    if (!forced.yes) {
        printf("refused: %s\n", eskihrum_text(forced.number));
        return 1;
    }
    for (size_t i = 0; i < forced.records; i++)
        printf("task %zu: %s, bound %u\n", i + 1, records[i].flag == ESKIHRUM_PREEMPTIVE ? "P" : "N",
               records[i].bound);
    return 0;
}
