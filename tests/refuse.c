/*
 * A library for LD_PRELOAD that refuses memory, or the start of a thread, and reports what it saw.
 *
 * REFUSE_ALLOCATION=N       the Nth allocation is refused
 * REFUSE_ALLOCATIONS_FROM=N the Nth allocation is refused, and each one after it
 * REFUSE_THREAD=N           the start of the Nth thread is refused
 * REFUSE_REPORT=FILE        at the end this file gets one line,
 *                           "allocations A threads T started S joined J bytes B refused R":
 *                           how many allocations and threads were asked for, how many threads were started and
 *                           joined, how many bytes were asked for in all, and how often something was refused
 *
 * Allocations and threads are counted from the start of the program's own code on, those of the C library among them,
 * and in all threads. A program that hasn't ended after ten minutes is ended by a signal. On a busy machine, threads
 * that take turns under one lock may need more than one.
 */
#define REPORT "REFUSE_REPORT"
#define MOST_CHARACTERS 192
#include "preload.h"

static atomic_ulong allocations, threads, started, joined, bytes, refused;
static unsigned long one_allocation, first_allocation, one_thread;

/* dlsym itself may call calloc, before that is found: then it gets zeros from here, which are never given back. */
static _Alignas(16) char early[4096];
static atomic_size_t early_used;

static unsigned long number_of(const char *name)
{
    const char *text = getenv(name);
    return text ? strtoul(text, NULL, 10) : 0;
}

__attribute__((constructor)) static void begin(void)
{
    one_allocation = number_of("REFUSE_ALLOCATION");
    first_allocation = number_of("REFUSE_ALLOCATIONS_FROM");
    one_thread = number_of("REFUSE_THREAD");
    alarm(600);
    counts = 1;
}

static int write_line(char *line)
{
    return sprintf(line, "allocations %lu threads %lu started %lu joined %lu bytes %lu refused %lu\n",
                   allocations, threads, started, joined, bytes, refused);
}

static int is_refused(size_t size)
{
    if (!counts) return 0;
    bytes += size;
    unsigned long n = ++allocations;
    if (n != one_allocation && (!first_allocation || n < first_allocation)) return 0;
    refused++;
    errno = ENOMEM;
    return 1;
}

void *malloc(size_t size)
{
    NEXT(malloc);
    return is_refused(size) ? NULL : next(size);
}

void *calloc(size_t count, size_t size)
{
    static _Thread_local int asks;
    static _Atomic(__typeof__(&calloc)) next;
    if (!next && asks) {
        size_t at = atomic_fetch_add(&early_used, (count * size + 15) / 16 * 16);
        return at + count * size <= sizeof early ? early + at : NULL;
    }
    if (!next) {
        asks = 1;
        next = (__typeof__(&calloc))dlsym(RTLD_NEXT, "calloc");
        asks = 0;
    }
    return is_refused(count * size) ? NULL : next(count, size);
}

void free(void *room)
{
    NEXT(free);
    if ((char *)room < early || (char *)room >= early + sizeof early) next(room);
}

void *realloc(void *room, size_t size)
{
    NEXT(realloc);
    return is_refused(size) ? NULL : next(room, size);
}

void *aligned_alloc(size_t alignment, size_t size)
{
    NEXT(aligned_alloc);
    return is_refused(size) ? NULL : next(alignment, size);
}

int posix_memalign(void **room, size_t alignment, size_t size)
{
    NEXT(posix_memalign);
    return is_refused(size) ? ENOMEM : next(room, alignment, size);
}

int pthread_create(pthread_t *thread, const pthread_attr_t *how, void *(*run)(void *), void *with)
{
    NEXT(pthread_create);
    if (counts && ++threads == one_thread) {
        refused++;
        return EAGAIN;
    }
    int status = next(thread, how, run, with);
    if (counts && status == 0) started++;
    return status;
}

int pthread_join(pthread_t thread, void **answer)
{
    NEXT(pthread_join);
    int status = next(thread, answer);
    if (counts && status == 0) joined++;
    return status;
}
