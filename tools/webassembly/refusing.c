// The heap of a module that is only made to be tried: it refuses one request for memory, which the host chooses.
#define rattle_alloc plain_alloc
#define rattle_realloc plain_realloc
#include "heap.c"
#undef rattle_alloc
#undef rattle_realloc

// So many requests are still to come up to the one that is refused; 0: none is.
word until_refused;

static _Bool is_refused(void) {
    return until_refused > 0 && --until_refused == 0;
}

struct tried rattle_alloc(word size, word align) {
    return is_refused() ? result_of(0) : plain_alloc(size, align);
}

struct tried rattle_realloc(void *at, word kept, word size, word align) {
    return is_refused() ? result_of(0) : plain_realloc(at, kept, size, align);
}
