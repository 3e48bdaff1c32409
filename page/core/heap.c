// The heap of a page, in the place of the C library's: the three functions that Rattle's Global calls, over the memory above the module's data, which
// grows. A block has 2^k bytes; the first 16 of them, before what is handed out, have k. Freed blocks of a size are a list. Blocks are aligned to 16.
typedef unsigned long long u64;
typedef unsigned long word; // an address
typedef unsigned char u8;
struct Tried { u64 ok, at; };

#define PAGE 65536
#define HEAD 16
#define LARGEST 30
// So many pages are asked for at once, where they can be had.
#define GROWTH 16

extern u8 __heap_base;
static u64 top, end, most = (u64)1 << 32;
static void *freed[LARGEST + 1];

// Whether the memory reaches so far, or can be made to.
static int reach(u64 to) {
    if (to <= end) return 1;
    if (to > most) return 0;
    u64 pages = (to - end + PAGE - 1) / PAGE, more = pages < GROWTH ? GROWTH : pages;
    if (end + more * PAGE <= most && __builtin_wasm_memory_grow(0, more) != (word)-1) {
        end += more * PAGE;
        return 1;
    }
    if (end + pages * PAGE > most || __builtin_wasm_memory_grow(0, pages) == (word)-1) return 0;
    end += pages * PAGE;
    return 1;
}

// Room for so many bytes, or null.
static void *take(u64 n) {
    if (n > ((u64)1 << LARGEST) - HEAD) return 0;
    u64 k = 5;
    while (((u64)1 << k) - HEAD < n) k++;
    void **block = freed[k];
    if (block) {
        freed[k] = *block;
        return block;
    }
    if (!top) {
        top = ((word)&__heap_base + HEAD - 1) & ~(u64)(HEAD - 1);
        end = (u64)__builtin_wasm_memory_size(0) * PAGE;
    }
    if (!reach(top + ((u64)1 << k))) return 0;
    u8 *at = (u8 *)(word)top;
    top += (u64)1 << k;
    *(u64 *)at = k;
    return at + HEAD;
}

static u64 size_of(void *p) { return *(u64 *)((u8 *)p - HEAD); }

struct Tried rattle_alloc(u64 n, u64 align) {
    void *p = align <= HEAD ? take(n) : 0;
    return (struct Tried){p != 0, (word)p};
}

void rattle_dealloc(void *p) {
    u64 k = size_of(p);
    *(void **)p = freed[k];
    freed[k] = p;
}

struct Tried rattle_realloc(void *p, u64 kept, u64 n, u64 align) {
    if (n <= ((u64)1 << size_of(p)) - HEAD) return (struct Tried){1, (word)p};
    void *q = align <= HEAD ? take(n) : 0;
    if (!q) return (struct Tried){0, (word)p};
    __builtin_memcpy(q, p, kept < n ? kept : n);
    rattle_dealloc(p);
    return (struct Tried){1, (word)q};
}

// Room for what the page passes, null where there is none, and back.
__attribute__((export_name("page_room"))) void *page_room(u64 n) { return take(n); }
__attribute__((export_name("page_done"))) void page_done(void *p) { rattle_dealloc(p); }

// From now on the memory as a whole grows to so many bytes at most.
__attribute__((export_name("page_most"))) void page_most(u64 n) { most = n; }

// What clang calls for 128 bits and for bytes, where no library is linked.
typedef unsigned __int128 u128;
typedef union { u128 whole; struct { u64 low, high; }; } Halves;

u128 __multi3(u128 x, u128 y) {
    Halves a = {x}, b = {y}, product;
    u64 a0 = a.low & 0xffffffff, a1 = a.low >> 32, b0 = b.low & 0xffffffff, b1 = b.low >> 32;
    u64 first = a0 * b0, second = a1 * b0 + (first >> 32), third = a0 * b1 + (second & 0xffffffff);
    product.low = third << 32 | (first & 0xffffffff);
    product.high = a1 * b1 + (second >> 32) + (third >> 32) + a.low * b.high + a.high * b.low;
    return product.whole;
}

u128 __ashlti3(u128 x, int n) {
    Halves a = {x}, r;
    r.low = n & 64 ? 0 : a.low << n;
    r.high = n & 64 ? a.low << (n & 63) : a.high << n | a.low >> 1 >> (63 - n);
    return r.whole;
}

u128 __lshrti3(u128 x, int n) {
    Halves a = {x}, r;
    r.high = n & 64 ? 0 : a.high >> n;
    r.low = n & 64 ? a.high >> (n & 63) : a.low >> n | a.high << 1 << (63 - n);
    return r.whole;
}

int memcmp(const void *x, const void *y, word n) {
    const u8 *a = x, *b = y;
    for (word i = 0; i < n; i++)
        if (a[i] != b[i]) return a[i] < b[i] ? -1 : 1;
    return 0;
}
