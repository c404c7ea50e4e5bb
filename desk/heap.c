// The heap of the program in a page, in place of the C library's. Blocks come in classes of sizes, four to each
// doubling, and each class has a list of its freed blocks. A block is never split or joined. The 16 bytes before it
// hold its class. All addresses are multiples of 16, the greatest alignment that the program asks for.

typedef unsigned long u64;
typedef unsigned char u8;

// What an allocation answers: whether there was memory, and the block, or else the address of an unused byte.
struct tried {
    u64 ok;
    void *block;
};

#define PAGE 65536ul
#define HEAD 16ul
#define LEAST 16ul
#define MOST (1ul << 40)
#define CLASSES 160

extern u8 __heap_base;

static u64 next;
static u64 end;
static u64 limit = MOST;
static u64 freed[CLASSES];

static unsigned class_of(u64 size) {
    if (size <= LEAST) return 0;
    unsigned top = 63 - __builtin_clzl(size - 1);
    return (top - 4) * 4 + (((size - 1) >> (top - 2)) & 3) + 1;
}

static u64 size_of(unsigned class) {
    if (class == 0) return LEAST;
    unsigned top = (class - 1) / 4 + 4, quarter = (class - 1) % 4;
    return (5ul + quarter) << (top - 2);
}

static u64 rounded(u64 size, u64 unit) {
    return (size + unit - 1) / unit * unit;
}

// Asks the engine for so many pages, and answers whether it gave them. Memory of 32 bits answers the greatest number of 32
// bits where it did not, and memory of 64 bits that of 64.
static int grow_by(u64 pages) {
    return (u64)__builtin_wasm_memory_grow(0, pages) < 0xfffffffful;
}

// Takes memory from the engine up to this address, and an eighth more if possible, so that this is done seldom.
static int grow_to(u64 address) {
    u64 pages = __builtin_wasm_memory_size(0), least = rounded(address, PAGE) / PAGE - pages, more = least + pages / 8;
    if (address > limit) return 0;
    if ((pages + more) * PAGE > limit || !grow_by(more)) {
        if (!grow_by(least)) return 0;
    }
    end = __builtin_wasm_memory_size(0) * PAGE;
    return 1;
}

static void *take(u64 size) {
    if (size > MOST) return 0;
    unsigned class = class_of(size);
    if (freed[class]) {
        u64 *block = (u64 *)freed[class];
        freed[class] = *block;
        return block;
    }
    if (!next) {
        next = rounded((u64)&__heap_base, 16);
        end = __builtin_wasm_memory_size(0) * PAGE;
    }
    u64 at = next, whole = HEAD + rounded(size_of(class), 16);
    if (at + whole > end && !grow_to(at + whole)) return 0;
    next = at + whole;
    *(u64 *)at = class;
    return (void *)(at + HEAD);
}

static u64 *class_in_front(void *block) {
    return (u64 *)((u64)block - HEAD);
}

static void give(void *block) {
    u64 class = *class_in_front(block);
    *(u64 *)block = freed[class];
    freed[class] = (u64)block;
}

// What the program's runtime calls.

struct tried rattle_alloc(u64 size, u64 align) {
    static u8 nobodys;
    void *block = align <= 16 ? take(size) : 0;
    return block ? (struct tried){1, block} : (struct tried){0, &nobodys};
}

void rattle_dealloc(void *block) {
    give(block);
}

// A block keeps its place if it is large enough, and less than twice as large as needed or of the least size.
struct tried rattle_realloc(void *block, u64 kept, u64 size, u64 align) {
    u64 room = size_of(*class_in_front(block));
    if (size <= room && (room == LEAST || 2 * size > room)) return (struct tried){1, block};
    struct tried tried = rattle_alloc(size, align);
    if (tried.ok) {
        __builtin_memcpy(tried.block, block, kept < size ? kept : size);
        give(block);
    }
    return tried;
}

// What the page calls: memory for itself, and a limit on the program's memory.

void *desk_take(u64 size) {
    return take(size);
}

void desk_limit(u64 bytes) {
    limit = bytes;
}
