/*
 * A library for LD_PRELOAD that counts how often each thread of a program yields, and can order when threads run. It
 * doesn't let them yield: how often they do doesn't depend on that, and on a busy machine each yield takes long.
 *
 * COUNT_REPORT=FILE at the end this file gets one line, "N N N.. apart A": how often the program's first thread
 *                   yielded, then each other one, in the order in which they were started; and how many of these ended
 *                   before the next one was started, where that was asked for
 * COUNT_APART=N a thread's starter waits until that thread has ended: so all that it sends is there before anybody
 *                   looks. If it hasn't ended after N seconds, it waits for others, and no start waits any more
 * COUNT_LATE=1      a thread begins only when the first thread waits for one to end
 * COUNT_TURNS=N     the first thread and the one other thread take turns: each time the other one yields, it waits
 *                   until the first one has yielded N times, and this waits then until the other one yields again or
 *                   has ended
 * COUNT_RANDOM=HEX  the system's random bytes are these, two digits each, again and again; with `none` it has none
 *
 * Yields are counted from the start of the program's own code on. A program that hasn't ended after five minutes is
 * ended by a signal.
 */
#define MOST_THREADS 64
#define REPORT "COUNT_REPORT"
#define MOST_CHARACTERS (MOST_THREADS * 22)
#include "preload.h"
#include <sched.h>
#include <time.h>

static atomic_ulong yields[MOST_THREADS];
static atomic_int has_ended[MOST_THREADS];
static atomic_int threads = 1, joins, apart;
static int seconds_apart, starts_late;
static unsigned long turn;
static const char *random_bytes;

/* Whose turn it is, if two threads take turns: how many yields of the first one are left, and whether the other one
 * waits for them. */
static atomic_ulong left;
static atomic_int waits;

/* Which thread this is; the first one is 0. */
static _Thread_local int self;

struct job {
    void *(*run)(void *);
    void *with;
    int number;
};

static void really_yield(void)
{
    NEXT(sched_yield);
    next();
}

__attribute__((constructor)) static void begin(void)
{
    const char *text = getenv("COUNT_TURNS");
    turn = text ? strtoul(text, NULL, 10) : 0;
    text = getenv("COUNT_APART");
    seconds_apart = text ? atoi(text) : 0;
    starts_late = getenv("COUNT_LATE") != NULL;
    random_bytes = getenv("COUNT_RANDOM");
    alarm(300);
    counts = 1;
}

static int write_line(char *line)
{
    int length = 0;
    for (int thread = 0; thread < threads; thread++) length += sprintf(line + length, "%lu ", yields[thread]);
    return length + sprintf(line + length, "apart %d\n", apart);
}

/* The first thread has yielded once more: after so many yields it is the other one's turn. */
static void end_turn(void)
{
    while (!waits && !has_ended[1]) really_yield();
    if (has_ended[1] || --left > 0) return;
    waits = 0;
    while (!waits && !has_ended[1]) really_yield();
}

/* The other thread waits for its turn. If the first one waits for it to end, it has the turn. */
static void await_turn(void)
{
    left = turn;
    waits = 1;
    while (waits && !joins) really_yield();
}

int sched_yield(void)
{
    if (counts) yields[self]++;
    if (turn && threads > 1) self == 0 ? end_turn() : await_turn();
    return 0;
}

static void *run_job(void *with)
{
    struct job job = *(struct job *)with;
    free(with);
    self = job.number;
    while (starts_late && !joins) usleep(50);
    void *answer = job.run(job.with);
    has_ended[self] = 1;
    return answer;
}

/* Waits until a thread has ended, and notes whether it has. */
static void await_end(int thread)
{
    time_t last = time(NULL) + seconds_apart;
    while (!has_ended[thread] && time(NULL) <= last) usleep(50);
    if (has_ended[thread]) {
        apart++;
    } else {
        seconds_apart = 0;
    }
}

int pthread_create(pthread_t *thread, const pthread_attr_t *how, void *(*run)(void *), void *with)
{
    NEXT(pthread_create);
    struct job *job = malloc(sizeof *job);
    int number = threads++;
    if (!job || number >= MOST_THREADS) abort();
    *job = (struct job){run, with, number};
    int status = next(thread, how, run_job, job);
    if (status == 0 && seconds_apart) await_end(number);
    return status;
}

int pthread_join(pthread_t thread, void **answer)
{
    NEXT(pthread_join);
    joins = 1;
    return next(thread, answer);
}

static int digit(char c)
{
    return c <= '9' ? c - '0' : c - 'a' + 10;
}

int getentropy(void *to, size_t length)
{
    NEXT(getentropy);
    if (!random_bytes) return next(to, length);
    if (strcmp(random_bytes, "none") == 0) {
        errno = EIO;
        return -1;
    }
    size_t digits = strlen(random_bytes);
    for (size_t at = 0; at < length; at++) {
        const char *two = random_bytes + at * 2 % digits;
        ((unsigned char *)to)[at] = digit(two[0]) * 16 + digit(two[1]);
    }
    return 0;
}
