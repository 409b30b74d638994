// Tries the heap of the module for WebAssembly (tools/webassembly/heap.c) as a program of this machine, with a memory
// that grows by pages as that of a module does. tests/wasm compiles and runs it. The last line is
// `N passed, M failed`.
#include <stdint.h>
#include <stdio.h>
#include <string.h>
#include <sys/mman.h>

static uint64_t grow_memory(int memory, uint64_t pages);
#define __builtin_wasm_memory_grow(memory, pages) grow_memory(memory, pages)
#include "../tools/webassembly/heap.c"

#define MOST_PAGES (1ul << 16)
// Both numbers that mean a refused growth: that of WebAssembly, and that of binaryen's lowering.
static const uint64_t refusals[] = {UINT64_MAX, UINT32_MAX};

static unsigned char *memory;
static uint64_t first_page, grown, most_pages = MOST_PAGES, refusal = UINT64_MAX;
static int passed, failed;

static uint64_t grow_memory(int which, uint64_t pages) {
    if (which != 0 || pages > most_pages || grown > most_pages - pages) {
        return refusal;
    }
    mprotect(memory + grown * PAGE, pages * PAGE, PROT_READ | PROT_WRITE);
    grown += pages;
    return first_page + grown - pages;
}

static void expect(_Bool is_so, const char *what, uint64_t number) {
    if (is_so) {
        passed++;
    } else {
        failed++;
        printf("heap: FAILED: %s: %lu\n", what, number);
    }
}

// Whether so many bytes are in the memory as far as it has grown, at an address that 16 divides.
static _Bool is_inside(word at, word size) {
    word begin = (word)memory, end_of_memory = begin + grown * PAGE;
    return at % 16 == 0 && at >= begin && at <= end_of_memory && size <= end_of_memory - at;
}

// Begins anew with a memory that can't grow beyond so many pages, and says so by one of the refusals.
static void begin(uint64_t pages, uint64_t how) {
    mprotect(memory, MOST_PAGES * PAGE, PROT_NONE);
    memset(freed, 0, sizeof freed);
    end = limit = grown = 0;
    most_pages = pages;
    refusal = how;
}

static void try_each_class(void) {
    for (word class = 0; class < CLASSES; class++) {
        begin(MOST_PAGES, UINT64_MAX);
        word most = 16ul << class, least = class == 0 ? 0 : most / 2 + 1;
        struct tried one = rattle_alloc(most, 16), other = rattle_alloc(least, 1);
        expect(one.ok == 1 && is_inside(one.at, most), "the largest block of a class", class);
        expect(other.ok == 1 && is_inside(other.at, most), "the smallest block of a class", class);
        expect(other.at >= one.at + most || one.at >= other.at + most, "two blocks lie apart", class);
        // Its first and its last byte are its own.
        *(unsigned char *)one.at = 1;
        ((unsigned char *)one.at)[most - 1] = 2;
        memset((void *)other.at, 3, least < 64 ? least : 64);
        _Bool stays = *(unsigned char *)one.at == 1 && ((unsigned char *)one.at)[most - 1] == 2;
        expect(stays, "a block's bytes stay", class);
        rattle_dealloc((void *)one.at);
        expect(rattle_alloc(most, 16).at == one.at, "a freed block is used again", class);
        rattle_dealloc((void *)one.at);
        rattle_dealloc((void *)other.at);
        expect(rattle_alloc(least, 1).at == other.at && rattle_alloc(most, 1).at == one.at, "so are both", class);
        rattle_dealloc((void *)one.at);
        rattle_dealloc((void *)other.at);
    }
}

static void try_too_large(void) {
    begin(MOST_PAGES, UINT64_MAX);
    expect(rattle_alloc(1ul << 30, 16).ok == 1, "a block of 1 GiB", 1);
    const word sizes[] = {(1ul << 30) + 1, 1ul << 32, 1ul << 62, (1ul << 63) - 1};
    for (int i = 0; i < 4; i++) {
        uint64_t before = grown;
        struct tried it = rattle_alloc(sizes[i], 16);
        expect(it.ok == 0 && it.at != 0 && grown == before, "a block of more than 1 GiB is refused", sizes[i]);
    }
}

static void try_refused_growth(uint64_t how) {
    begin(0, how);
    struct tried none = rattle_alloc(16, 16);
    expect(none.ok == 0 && none.at != 0 && grown == 0, "no memory", how);
    most_pages = 1;
    struct tried one = rattle_alloc(1000, 16);
    _Bool is_there = one.ok == 1 && is_inside(one.at, 1024) && grown == 1;
    expect(is_there, "as many pages as are needed, if no more can be had", how);
    memset((void *)one.at, 7, 1000);
    expect(rattle_alloc(PAGE, 16).ok == 0, "more than the page", how);
    struct tried larger = rattle_realloc((void *)one.at, 1000, PAGE, 16);
    expect(larger.ok == 0 && larger.at != 0, "no memory for another size", how);
    _Bool stays = 1;
    for (int i = 0; i < 1000; i++) {
        stays = stays && ((unsigned char *)one.at)[i] == 7;
    }
    expect(stays, "the block stays as it was", how);
    uint64_t count = 0;
    while (rattle_alloc(16, 16).ok) {
        count++;
    }
    expect(count == (PAGE - HEADER - 1024) / 32, "the rest of the page is used", count);
    most_pages = 100;
    larger = rattle_realloc((void *)one.at, 1000, PAGE, 16);
    is_there = larger.ok == 1 && is_inside(larger.at, PAGE) && ((unsigned char *)larger.at)[999] == 7;
    expect(is_there, "later there is memory", how);
    expect(rattle_alloc(1024, 16).at == one.at, "the block that moved is used again", how);
}

static void try_sizes_of_one_block(void) {
    begin(MOST_PAGES, UINT64_MAX);
    struct tried it = rattle_alloc(3, 1);
    memcpy((void *)it.at, "abc", 3);
    struct tried same = rattle_realloc((void *)it.at, 3, 16, 1);
    expect(same.ok == 1 && same.at == it.at, "a size of the same class", 16);
    for (word size = 17; size <= 1ul << 20; size *= 3) {
        word was = it.at;
        it = rattle_realloc((void *)it.at, 3, size, 1);
        _Bool has_moved = it.ok == 1 && it.at != was && is_inside(it.at, size);
        expect(has_moved && !memcmp((void *)it.at, "abc", 3), "a larger size", size);
        memset((unsigned char *)it.at + 3, 9, size - 3);
    }
    it = rattle_realloc((void *)it.at, 1ul << 18, 2, 1);
    expect(it.ok == 1 && !memcmp((void *)it.at, "ab", 2), "a smaller size", 2);
}

// A block at the end of the memory moves to an earlier one: no byte behind the memory is read.
static void try_last_block(void) {
    begin(2, UINT64_MAX);
    word large = rattle_alloc(PAGE / 2, 16).at, last = large;
    rattle_dealloc((void *)large);
    for (struct tried it = rattle_alloc(16, 16); it.ok; it = rattle_alloc(16, 16)) {
        last = it.at;
    }
    memcpy((void *)last, "the last block..", 16);
    struct tried moved = rattle_realloc((void *)last, 16, PAGE / 2, 16);
    _Bool is_same = !memcmp((void *)large, "the last block..", 16);
    expect(moved.ok == 1 && moved.at == large && is_same, "the last block", last);
}

static void try_with_growing_host(void) {
    begin(MOST_PAGES, UINT64_MAX);
    word before = rattle_alloc(100, 16).at;
    word host = grow_memory(0, 3) * PAGE;
    memset((void *)host, 5, 3 * PAGE);
    _Bool apart = 1;
    for (int i = 0; i < 1000; i++) {
        struct tried it = rattle_alloc(4096, 16);
        apart = apart && it.ok == 1 && is_inside(it.at, 4096) && (it.at + 4096 <= host || it.at >= host + 3 * PAGE);
        memset((void *)it.at, i, 4096);
    }
    expect(apart, "blocks beside the host's pages", host);
    _Bool stays = is_inside(before, 128);
    for (word i = 0; i < 3 * PAGE; i++) {
        stays = stays && ((unsigned char *)host)[i] == 5;
    }
    expect(stays, "the host's pages stay as they are", host);
}

// Many blocks at once: each is filled with a byte of its own, which must be there whenever it is looked at.
static void try_many_blocks(void) {
    enum { BLOCKS = 300, STEPS = 200000 };
    static unsigned char *at[BLOCKS];
    static word sizes[BLOCKS];
    uint64_t dice = 1, wrong = 0;
    begin(MOST_PAGES, UINT32_MAX);
    for (int step = 0; step < STEPS; step++) {
        dice = dice * 6364136223846793005u + 1442695040888963407u;
        word which = (dice >> 33) % BLOCKS, size = 1 + (dice >> 17) % (1ul << (dice >> 60));
        word kept = sizes[which] < size ? sizes[which] : size;
        for (word i = 0; i < sizes[which]; i++) {
            wrong += at[which][i] != which % 251;
        }
        if (sizes[which] && step % 3 == 0) {
            rattle_dealloc(at[which]);
            sizes[which] = 0;
            continue;
        }
        struct tried it = sizes[which] ? rattle_realloc(at[which], sizes[which], size, 8) : rattle_alloc(size, 8);
        wrong += it.ok != 1 || !is_inside(it.at, size);
        at[which] = (unsigned char *)it.at;
        for (word i = 0; i < kept; i++) {
            wrong += at[which][i] != which % 251;
        }
        sizes[which] = size;
        memset(at[which], which % 251, size);
    }
    expect(wrong == 0, "bytes of blocks that changed, or blocks that don't lie in the memory", wrong);
}

int main(void) {
    memory = mmap(0, (MOST_PAGES + 1) * PAGE, PROT_NONE, MAP_PRIVATE | MAP_ANONYMOUS | MAP_NORESERVE, -1, 0);
    if (memory == MAP_FAILED) {
        printf("heap: FAILED: no address space of 4 GiB\n0 passed, 1 failed\n");
        return 1;
    }
    memory = (unsigned char *)(((word)memory + PAGE - 1) / PAGE * PAGE);
    first_page = (word)memory / PAGE;
    try_each_class();
    try_too_large();
    for (int i = 0; i < 2; i++) {
        try_refused_growth(refusals[i]);
    }
    try_sizes_of_one_block();
    try_last_block();
    try_with_growing_host();
    try_many_blocks();
    printf("%d passed, %d failed\n", passed, failed);
    return failed > 0;
}
