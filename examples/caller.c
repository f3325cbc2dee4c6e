/* caller.c: the planner from C. Reads a plan from standard input, lends room for as many records as the
 * first word says (32 without one), forces, and writes the answer. With room for fewer records than the plan
 * has tasks it gets 13. The exit status is 0 for accepted, 1 for refusal 14, 2 for any other, 3 for no plan.
 *
 *     cc -Iinclude examples/caller.c target/staticlib/libeskihrum.a -o target/caller
 *     target/caller 1 < examples/b.plan
 */
#include <stdio.h>
#include <stdlib.h>

#include "eskihrum.h"

int main(int argc, char **argv) {
    static char text[4096];
    eskihrum_record records[ESKIHRUM_TASKS];
    size_t room = argc > 1 ? strtoul(argv[1], NULL, 10) : ESKIHRUM_TASKS;
    size_t bytes = fread(text, 1, sizeof text, stdin);
    if (ferror(stdin) || room > ESKIHRUM_TASKS) {
        fputs("caller: no plan could be read, or the room is more than 32\n", stderr);
        return 3;
    }
    eskihrum_answer answer = eskihrum_force_plan(text, bytes, records, room);
    if (!answer.yes) {
        printf("refused %u place %u\n", answer.number, answer.place);
        fprintf(stderr, "caller: %s %s\n", eskihrum_text(answer.number), eskihrum_advice(answer.number));
        return answer.number == 14 ? 1 : 2;
    }
    printf("accepted, %u forced in %u passes, bound of task 1: %u\n", answer.forced, answer.passes,
           records[0].bound);
    return 0;
}
