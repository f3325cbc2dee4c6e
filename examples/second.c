/* second.c: a table of its own under both editions of the test. The first edition ends in 14, and the second
 * accepts the table as it is; the tables of the second part end in 15.
 *
 *     cc -Iinclude examples/second.c target/staticlib/libeskihrum.a -o target/second && target/second
 */
#include <stdio.h>

#include "eskihrum.h"

static void told(const char *edition, eskihrum_answer answer) {
    if (answer.yes) {
        printf("%s: accepted, %u forced in %u passes, %u rounds\n", edition, answer.forced, answer.passes,
               answer.rounds);
    } else {
        printf("%s: refused %u place %u passes %u rounds %u\n", edition, answer.number, answer.place,
               answer.passes, answer.rounds);
    }
}

int main(void) {
    const eskihrum_task cases[] = {{1, 10, 4, 10}, {1, 10, 4, 10}, {1, 20, 8, 19}};
    const eskihrum_task full[] = {{1, 1, 1, 1}, {1, 1, 1, 1}};
    eskihrum_record records[3];
    told("edition 1", eskihrum_force_tasks(2, ESKIHRUM_FP, cases, 3, records, 3));
    told("edition 2", eskihrum_force_tasks_2(2, ESKIHRUM_FP, cases, 3, records, 3));
    eskihrum_answer none = eskihrum_force_tasks_2(1, ESKIHRUM_EDF, full, 2, records, 3);
    told("edition 2", none);
    puts(eskihrum_text(none.number));
    return 0;
}
