// What the module asks of a C library that a page has not: memory. No proof covers it.
// A block has a size that is a power of two from 32 bytes on, and 16 bytes before it that say which. A freed block is kept for the next of
// its size. The memory grows as it has to, and never shrinks; a page throws it away with the instance.
typedef unsigned long long u64;
struct tried { u64 ok, at; };
struct block { u64 class; struct block *next; };
extern unsigned char __heap_base;
static struct block *freed[48];
static u64 top, end;
#define PAGE 65536
#define HEAD 16

static struct block *taken(u64 size) {
    int class = 5;
    while (((u64)1 << class) < size + HEAD) if (++class == 48) return 0;
    struct block *block = freed[class];
    if (block) { freed[class] = block->next; return block; }
    u64 whole = (u64)1 << class;
    if (!top) { top = ((u64)&__heap_base + HEAD - 1) & ~(u64)(HEAD - 1); end = __builtin_wasm_memory_size(0) * PAGE; }
    if (end - top < whole) {
        u64 pages = (whole - (end - top) + PAGE - 1) / PAGE;
        if (pages < 16) pages = 16;
        if (__builtin_wasm_memory_grow(0, pages) == (u64)-1) return 0;
        end += pages * PAGE;
    }
    block = (struct block *)top;
    top += whole;
    block->class = class;
    return block;
}

struct tried rattle_alloc(u64 size, u64 align) {
    struct block *block = size >> 47 || align > HEAD ? 0 : taken(size);
    return (struct tried){block != 0, block ? (u64)block + HEAD : HEAD};
}

void rattle_dealloc(void *at) {
    struct block *block = (struct block *)((u64)at - HEAD);
    block->next = freed[block->class];
    freed[block->class] = block;
}

struct tried rattle_realloc(void *at, u64 kept, u64 size, u64 align) {
    struct block *block = (struct block *)((u64)at - HEAD);
    u64 whole = (u64)1 << block->class;
    if (size < whole && size + HEAD <= whole && size + HEAD > whole >> 2) return (struct tried){1, (u64)at};
    struct tried made = rattle_alloc(size, align);
    if (made.ok) {
        __builtin_memcpy((void *)made.at, at, kept < size ? kept : size);
        rattle_dealloc(at);
    }
    return made;
}

// Room for the texts that a page hands in and gets back; 0 where there is none.
u64 obl0_room(u64 size) { struct tried it = rattle_alloc(size, 16); return it.ok ? it.at : 0; }
void obl0_free(u64 at) { rattle_dealloc((void *)at); }
