// The heap under the library in a WebAssembly module: what the toolchain's C functions for memory do elsewhere, and two calls for the page.
// A block has a power of two of bytes, at least 32, and a list holds the free blocks of each size. The memory grows as it must.
typedef unsigned long long u64;
typedef unsigned char u8;

extern u8 __heap_base;

#define HEAD 16 // bytes before each block, which hold the logarithm of its size
#define PAGE 65536ull
#define MOST (1ull << 33)

static u8 *next; // where no block is yet
static u8 *free_of[64];

/** Returns the logarithm of the smallest size that holds a number of bytes. */
static int class_of(u64 bytes) { return bytes <= 32 ? 5 : 64 - __builtin_clzll(bytes - 1); }

/** Takes a block for a number of bytes, or returns null where there is no memory. */
static u8 *get(u64 bytes) {
    if (bytes > MOST) return 0;
    int class = class_of(bytes + HEAD);
    u8 *block = free_of[class];
    if (block) {
        free_of[class] = *(u8 **)(block + HEAD);
        return block + HEAD;
    }
    if (!next) next = (u8 *)(((u64)&__heap_base + 15) & ~15ull);
    u64 end = (u64)next + (1ull << class), have = __builtin_wasm_memory_size(0) * PAGE;
    if (end > have && __builtin_wasm_memory_grow(0, (end - have + PAGE - 1) / PAGE) == (unsigned long)-1) return 0;
    block = next;
    next = (u8 *)end;
    *(u64 *)block = class;
    return block + HEAD;
}

/** Puts a block in front of the free ones of its size. */
static void put(u8 *at) {
    u8 *block = at - HEAD;
    u64 class = *(u64 *)block;
    *(u8 **)at = free_of[class];
    free_of[class] = block;
}

// The library's calls. Each answers whether there is memory, and where, at the address that comes first. Blocks are aligned to 16 bytes, and
// no type of the library wants more.

void rattle_alloc(u64 *out, u64 bytes, u64 align) {
    (void)align;
    u8 *at = get(bytes);
    out[0] = at != 0;
    out[1] = at ? (u64)at : 16;
}

/** Gives a block another size, and copies the bytes that are to stay. It stays where it is unless it grows, or shrinks below a quarter. */
void rattle_realloc(u64 *out, u8 *at, u64 stay, u64 bytes, u64 align) {
    (void)align;
    u64 size = 1ull << *(u64 *)(at - HEAD);
    if (bytes + HEAD <= size && bytes + HEAD > size / 4) {
        out[0] = 1;
        out[1] = (u64)at;
        return;
    }
    u8 *to = get(bytes);
    if (!to) {
        out[0] = 0;
        out[1] = (u64)at;
        return;
    }
    __builtin_memcpy(to, at, stay);
    put(at);
    out[0] = 1;
    out[1] = (u64)to;
}

void rattle_dealloc(u8 *at) { put(at); }

/** Takes memory for what the page passes, or returns 0 where there is none. */
u8 *page_alloc(u64 bytes) { return get(bytes); }

void page_free(u8 *at) { put(at); }

typedef unsigned __int128 u128;
typedef union {
    u128 all;
    struct {
        u64 low, high;
    };
} Wide;

/** Returns the product of two numbers of 128 bits, as the compiler asks for by this name. */
u128 __multi3(u128 one, u128 other) {
    Wide a = {one}, b = {other}, product;
    u64 half = 0xffffffff;
    u64 low = (a.low & half) * (b.low & half);
    u64 left = (a.low >> 32) * (b.low & half) + (low >> 32);
    u64 right = (a.low & half) * (b.low >> 32) + (left & half);
    product.low = right << 32 | (low & half);
    product.high = (a.low >> 32) * (b.low >> 32) + (left >> 32) + (right >> 32) + a.low * b.high + a.high * b.low;
    return product.all;
}
