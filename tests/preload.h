/* What the libraries for LD_PRELOAD share: each reports what it saw in one line of a file, when the program ends. */
#define _GNU_SOURCE
#include <dlfcn.h>
#include <errno.h>
#include <fcntl.h>
#include <pthread.h>
#include <stdatomic.h>
#include <stdio.h>
#include <stdlib.h>
#include <string.h>
#include <unistd.h>

/* Whether anything is counted: from the start of the program's own code on, until the report. */
static atomic_int counts;

/* The function of this name that would be called without this library. */
#define NEXT(name) \
    static _Atomic(__typeof__(&name)) next; \
    if (!next) next = (__typeof__(&name))dlsym(RTLD_NEXT, #name)

/* Writes the line of the report, and returns its length. */
static int write_line(char *line);

/* It is called at exit, and by _exit, which skips what is called at exit. */
__attribute__((destructor)) static void report(void)
{
    const char *file = getenv(REPORT);
    char line[MOST_CHARACTERS];
    if (!atomic_exchange(&counts, 0) || !file) return;
    int length = write_line(line);
    int to = open(file, O_WRONLY | O_CREAT | O_TRUNC, 0600);
    if (to < 0 || write(to, line, length) != length) abort();
    close(to);
}

void _exit(int status)
{
    NEXT(_exit);
    report();
    next(status);
    abort();
}
