/* writer.c: a table from C as plan lines, and the plan that is to be installed. Writes case a of document 01
 * into a buffer, forces it, and prints the plan as changed.
 *
 *     cc -Iinclude examples/writer.c target/staticlib/libeskihrum.a -o target/writer
 *     target/writer [ROOM]     ROOM is how many bytes of the buffer are lent; 16 is the refusal of too few
 */
#include <stdio.h>
#include <stdlib.h>

#include "eskihrum.h"

static int refused(eskihrum_answer answer) {
    printf("refused %u place %u\n", answer.number, answer.place);
    fprintf(stderr, "writer: %s %s\n", eskihrum_text(answer.number), eskihrum_advice(answer.number));
    return 2;
}

int main(int argc, char **argv) {
    const eskihrum_task tasks[] = {
        {ESKIHRUM_PREEMPTIVE, 12, 4, 12}, /* flag, T, C, D */
        {ESKIHRUM_PREEMPTIVE, 24, 9, 18},
    };
    const size_t n = sizeof tasks / sizeof tasks[0];
    char sent[ESKIHRUM_PLAN_BYTES], changed[ESKIHRUM_PLAN_BYTES];
    const size_t asked = argc > 1 ? strtoul(argv[1], NULL, 10) : sizeof sent;
    const size_t room = asked < sizeof sent ? asked : sizeof sent;

    eskihrum_answer answer = eskihrum_write_tasks(1, ESKIHRUM_FP, tasks, n, sent, room, 0);
    if (!answer.yes) return refused(answer);
    answer = eskihrum_write_changed(sent, eskihrum_end(answer), changed, sizeof changed, 0);
    if (!answer.yes) return refused(answer);
    fwrite(changed, 1, eskihrum_end(answer), stdout);
    return 0;
}
