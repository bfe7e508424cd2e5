/* Memory for the engine in a page: the three functions that the kit's libraries allocate by, and two by which the page
   gets room for what it passes to the engine.

   Each block has a head of 16 bytes, and a size that is one of its class: there are four classes to a doubling. A block
   that is given back goes into the list of its class, and is taken from there again. Blocks are neither cut nor joined.
   What was never used lies behind all blocks, and the memory grows there.

   No proof covers this file. It is trusted that these functions do what the contracts in the kit's libc/src/heap.rt
   say: a block is as large as asked, overlaps no other, begins at a multiple of 16, and keeps what is in it until it is
   given back; a refusal changes nothing. One thread runs in a module, so no list is ever seen half changed.

   It is compiled for wasm64, where a pointer has 64 bits, as in the engine's code. */

typedef unsigned long u64;

_Static_assert(sizeof(u64) == 8 && sizeof(void *) == 8, "heap.c is for a target with 64-bit pointers");

/* All addresses are below this one, so memory is refused from here on. The stack lies at the bottom of the memory. If it
   overflows, its addresses fall below 0, and with 32 bits they are above this limit: there is no memory there, so the
   module is stopped before it overwrites anything. */
#define LIMIT (1ul << 31)
#define PAGE 65536ul
#define CLASSES 112

/* What the kit calls Tried. */
struct tried {
    u64 ok;
    void *at;
};

struct head {
    u64 class;
    struct head *next; /* while the block is in a list */
};

extern unsigned char __heap_base;

static struct head *lists[CLASSES];
static u64 unused; /* the address behind all blocks; 0 at first */

static u64 size_of(u64 class) { return (4 + class % 4) << (class / 4 + 2); }

/* The least class whose blocks have this size. */
static u64 class_for(u64 size) {
    if (size <= 16)
        return 0;
    u64 last = size - 1, top = 63 - __builtin_clzl(last);
    return 4 * (top - 4) + (last >> (top - 2)) % 4 + 1;
}

static u64 rounded_up(u64 number, u64 to) { return (number + to - 1) / to * to; }

static u64 memory_bytes(void) { return __builtin_wasm_memory_size(0) * PAGE; }

/* Whether there are this many bytes behind all blocks. Lets the memory grow if there aren't. Whether it grew is seen by
   its size alone: the answer of memory.grow is a number of 32 bits in the page's module, so its -1 isn't one here. */
static int has_unused(u64 bytes) {
    u64 wanted = unused + bytes, had = memory_bytes();
    if (wanted > LIMIT)
        return 0;
    if (wanted > had)
        __builtin_wasm_memory_grow(0, rounded_up(wanted - had, PAGE) / PAGE);
    return wanted <= memory_bytes();
}

/* A new block of this class, or 0. */
static void *cut(u64 class) {
    u64 bytes = sizeof(struct head) + rounded_up(size_of(class), 16);
    if (!unused)
        unused = rounded_up((u64)&__heap_base, 16);
    if (!has_unused(bytes))
        return 0;
    struct head *head = (struct head *)unused;
    unused += bytes;
    head->class = class;
    return head + 1;
}

static void *take(u64 size) {
    if (size > LIMIT)
        return 0;
    u64 class = class_for(size);
    struct head *head = lists[class];
    if (!head)
        return cut(class);
    lists[class] = head->next;
    return head + 1;
}

static struct head *head_of(void *block) { return (struct head *)block - 1; }

static void give_back(void *block) {
    struct head *head = head_of(block);
    head->next = lists[head->class];
    lists[head->class] = head;
}

/* An answer to the engine. Its pointer isn't null, even if there is no block. */
static struct tried tried(void *block) {
    struct tried answer = {block != 0, block ? block : (void *)16};
    return answer;
}

/* The alignment divides 16. For no bytes there is a block too. */
struct tried rattle_alloc(u64 size, u64 alignment) { return tried(take(size ? size : alignment)); }

/* The block stays where it is if it is large enough, and not much too large. */
struct tried rattle_realloc(void *block, u64 kept, u64 size, u64 alignment) {
    u64 has = size_of(head_of(block)->class);
    if (!size)
        size = alignment;
    if (size <= has && has <= 4 * size + 64)
        return tried(block);
    void *other = take(size);
    if (!other)
        return tried(size <= has ? block : 0);
    __builtin_memcpy(other, block, kept < size ? kept : size);
    give_back(block);
    return tried(other);
}

void rattle_dealloc(void *block) { give_back(block); }

/* For the page: room for its texts, or 0. */
__attribute__((export_name("exhibit_take"))) void *exhibit_take(u64 size) { return take(size); }

__attribute__((export_name("exhibit_give_back"))) void exhibit_give_back(void *block) { give_back(block); }
