// The heap of the module for WebAssembly: what the allocator `Global` of Rattle calls. Nothing proves this file, and
// tests/wasm tries it.
//
// A block has a header of 16 bytes with its class, and behind that 16 << class bytes. Each class has a list of its
// freed blocks, and a new block is taken from there. If the list is empty, a block is cut from pages by which the heap
// has made the memory grow. The host may make it grow too: the heap uses only the pages that it got itself.
//
// As Rattle's contracts say, no alignment is more than 16, no size is 2^63 or more, and a size of 0 is never freed.

typedef unsigned long word;

// What a call returns in Rattle: whether there was memory, and the block's address.
struct tried {
    word ok;
    word at;
};

struct block {
    word class;
    struct block *next;
};

#define PAGE 65536ul
#define HEADER sizeof(struct block)
// The largest block has 1 GiB.
#define CLASSES 27ul
// So many pages are asked for at a time, if no more are needed.
#define STEP 16ul
// A growth that is refused returns -1. Lowered to addresses of 32 bits it returns -1 or 2^32 - 1, and never more pages
// than fit into 2^32 bytes.
#define REFUSED 0xfffffffful

static struct block *freed[CLASSES];
// From `end` to `limit` is memory of the heap that no block has used.
static word end;
static word limit;

// Returns the least class whose blocks have so many bytes.
static word class_of(word size) {
    word class = 0;
    while (class < CLASSES && 16ul << class < size) {
        class++;
    }
    return class;
}

// Makes the memory grow by so many pages. Returns whether it did.
static _Bool grow_by(word pages) {
    word old = __builtin_wasm_memory_grow(0, pages);
    if (old >= REFUSED) {
        return 0;
    }
    // The host has made it grow in between: what is left of the earlier pages isn't used any more.
    if (old * PAGE != limit) {
        end = old * PAGE;
    }
    limit = (old + pages) * PAGE;
    return 1;
}

// Makes the memory grow by so many bytes at least. Returns whether it did.
static _Bool grow(word size) {
    word pages = (size + PAGE - 1) / PAGE;
    return (pages < STEP && grow_by(STEP)) || grow_by(pages);
}

// Returns the address of a block of so many bytes, or 0.
static word block_of(word size) {
    word class = class_of(size);
    if (class == CLASSES) {
        return 0;
    }
    struct block *block = freed[class];
    if (block) {
        freed[class] = block->next;
        return (word)block + HEADER;
    }
    word whole = HEADER + (16ul << class);
    if (limit - end < whole && !grow(whole)) {
        return 0;
    }
    block = (struct block *)end;
    block->class = class;
    end += whole;
    return (word)block + HEADER;
}

static struct tried result_of(word at) {
    // Where there is none, the address is still one that isn't null.
    struct tried tried = {at != 0, at ? at : HEADER};
    return tried;
}

// Tries to get a block.
struct tried rattle_alloc(word size, word align) {
    return result_of(block_of(size));
}

// Frees a block.
void rattle_dealloc(void *at) {
    struct block *block = (struct block *)((word)at - HEADER);
    block->next = freed[block->class];
    freed[block->class] = block;
}

// Tries to give a block another size. Its first `kept` bytes stay as they are. If there is no memory, the block stays.
struct tried rattle_realloc(void *at, word kept, word size, word align) {
    struct block *block = (struct block *)((word)at - HEADER);
    if (class_of(size) == block->class) {
        return result_of((word)at);
    }
    word to = block_of(size);
    if (to) {
        __builtin_memcpy((void *)to, at, kept < size ? kept : size);
        rattle_dealloc(at);
    }
    return result_of(to);
}
