/* start.c: how much stack a program's `main` takes, without the start of its process. Preloaded (LD_PRELOAD),
 * it stands before `main`: it fills the stack below it with a pattern, calls `main`, and writes to the file
 * that STACK_FILE names how many bytes were overwritten. What ran before, the loader and the C library's
 * start, lies above and is not counted. */
#define _GNU_SOURCE
#include <dlfcn.h>
#include <stdint.h>
#include <stdio.h>
#include <stdlib.h>

enum { SIZE = 1 << 16, PATTERN = 0xA5 };

typedef int entry(int, char **, char **);
static entry *real;

/* Both loops stand in this function itself: what lies below its stack pointer is nobody's, and then
 * `main`'s. */
static int before(int count, char **words, char **names) {
    volatile uint8_t *end;
    int bytes = SIZE;
    __asm__ volatile("mov %%rsp, %0" : "=r"(end));
    for (int i = 1; i <= SIZE; i++) end[-i] = PATTERN;
    int status = real(count, words, names);
    while (bytes > 0 && end[-bytes] == PATTERN) bytes--;
    const char *path = getenv("STACK_FILE");
    FILE *file = path == NULL ? NULL : fopen(path, "w");
    if (file != NULL) {
        fprintf(file, "%d\n", bytes);
        fclose(file);
    }
    return status;
}

int __libc_start_main(entry *program, int count, char **words, void (*first)(void), void (*last)(void),
                      void (*loader)(void), void *stack) {
    real = program;
    int (*start)(entry *, int, char **, void (*)(void), void (*)(void), void (*)(void), void *);
    *(void **)&start = dlsym(RTLD_NEXT, "__libc_start_main");
    return start(before, count, words, first, last, loader, stack);
}
