// The heap under the page's module: what the kit's crate libc calls, over the module's own memory. No proof covers it.
// Blocks have sizes of powers of two from 16 on, with one list of free blocks for each size, and a header of 16 bytes.
// Where there is no further memory, a larger block that is free is parted.
typedef unsigned long long u64;
typedef unsigned char u8;
typedef struct { u64 ok; void *p; } Tried;

extern u8 __heap_base;
#ifndef LIMIT
#define LIMIT ((u64)1 << 30)
#endif
enum { HEADER = 16, PAGE = 65536, LEAST_PAGES = 16 };

// What is not given out yet lies from `top` to `end`.
static u64 top, end;
static void *free_blocks[64];

static u64 class_of(u64 n) { return n <= 16 ? 4 : 64 - __builtin_clzll(n - 1); }

// Has room for so many bytes at `top`, of further memory.
static _Bool grown(u64 size) {
    u64 last = (u64)__builtin_wasm_memory_size(0) * PAGE;
    if (!top) {
        top = ((u64)&__heap_base + 15) & ~(u64)15;
        end = last;
    }
    u64 from = end == last ? top : last;
    u64 pages = from + size <= last ? 0 : (from + size - last + PAGE - 1) / PAGE;
    if (pages && pages < LEAST_PAGES) pages = LEAST_PAGES;
    if (last + pages * PAGE > LIMIT) return 0;
    if (pages && __builtin_wasm_memory_grow(0, pages) == (u64)-1) return 0;
    top = from;
    end = last + pages * PAGE;
    return 1;
}

// Has room for so many bytes at `top`, in a larger block that is free.
static _Bool parted(u64 k) {
    for (u64 larger = k + 1; larger < 64; larger++) {
        u8 *block = free_blocks[larger];
        if (block) {
            free_blocks[larger] = *(void **)block;
            top = (u64)block - HEADER;
            end = (u64)block + ((u64)1 << larger);
            return 1;
        }
    }
    return 0;
}

static void *taken(u64 n) {
    if (n > LIMIT) return 0;
    u64 k = class_of(n);
    void **block = free_blocks[k];
    if (block) {
        free_blocks[k] = *block;
        return block;
    }
    u64 size = ((u64)1 << k) + HEADER;
    if ((!top || top + size > end) && !grown(size) && !parted(k)) return 0;
    u64 *header = (u64 *)top;
    header[0] = k;
    top += size;
    return header + 2;
}

static void freed(void *p) {
    u64 k = ((u64 *)p)[-2];
    *(void **)p = free_blocks[k];
    free_blocks[k] = p;
}

Tried rattle_alloc(u64 n, u64 align) {
    (void)align;
    void *p = taken(n);
    Tried t = {p != 0, p};
    return t;
}

Tried rattle_realloc(void *p, u64 kept, u64 n, u64 align) {
    (void)align;
    Tried t = {1, p};
    u64 k = ((u64 *)p)[-2];
    if (n <= (u64)1 << k) return t;
    void *q = taken(n);
    if (!q) { t.ok = 0; return t; }
    __builtin_memcpy(q, p, kept);
    freed(p);
    t.p = q;
    return t;
}

void rattle_dealloc(void *p) { freed(p); }

// Whether a call is on its way, or trapped: a global of the module, which no store reaches.
__asm__(".globaltype in_call, i32\nin_call:");
_Bool module_enter(void) {
    int was;
    __asm__ volatile("global.get in_call\nlocal.set %0" : "=r"(was));
    __asm__ volatile("i32.const 1\nglobal.set in_call");
    return was;
}
void module_leave(void) { __asm__ volatile("i32.const 0\nglobal.set in_call"); }

// What the host calls for room for what it passes.
void *page_alloc(u64 n) { return taken(n); }
void page_free(void *p) { freed(p); }

// LLVM calls this for a product of 128 bits, and there is no libgcc. It may not multiply 128 bits itself.
typedef unsigned __int128 u128;
typedef union { u128 whole; struct { u64 low, high; }; } Halves;
u128 __multi3(u128 x, u128 y) {
    Halves a = {x}, b = {y}, product;
    u64 a0 = a.low & 0xffffffff, a1 = a.low >> 32, b0 = b.low & 0xffffffff, b1 = b.low >> 32;
    u64 first = a0 * b0, second = a1 * b0 + (first >> 32), third = a0 * b1 + (second & 0xffffffff);
    product.low = third << 32 | (first & 0xffffffff);
    product.high = a1 * b1 + (second >> 32) + (third >> 32) + a.low * b.high + a.high * b.low;
    return product.whole;
}

// Shifts of 128 bits, by n from 0 to 127. They may not shift 128 bits themselves.
u128 __ashlti3(u128 x, int n) {
    Halves a = {x}, r;
    if (n >= 64) { r.low = 0; r.high = a.low << (n - 64); }
    else if (n == 0) r = a;
    else { r.low = a.low << n; r.high = a.high << n | a.low >> (64 - n); }
    return r.whole;
}
u128 __lshrti3(u128 x, int n) {
    Halves a = {x}, r;
    if (n >= 64) { r.high = 0; r.low = a.high >> (n - 64); }
    else if (n == 0) r = a;
    else { r.low = a.low >> n | a.high << (64 - n); r.high = a.high >> n; }
    return r.whole;
}
