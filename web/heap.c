/* What the module takes from C where the program has a C library: memory, copies of it, and products of 128 bits.
 *
 * A block has a power of two of bytes, and its head says which. Blocks that were given back are linked in a list for each power, and
 * taken from there again before the memory grows. Nothing else is kept.
 */
typedef unsigned long size;
typedef unsigned char byte;
typedef struct block { size power; struct block *next; } block;
typedef struct { size is_there; void *at; } taken;
typedef struct { size low, high; } product;

enum { HEAD = sizeof(block), LEAST = 5, POWERS = 32, PAGE = 65536 };

extern byte __heap_base;
static block *given_back[POWERS];
static size fresh, end;

static size power_for(size bytes) {
    size power = LEAST;
    while (((size)1 << power) - HEAD < bytes) power++;
    return power;
}

/* So many bytes that were never given out, or none. */
static block *grown(size bytes) {
    if (!fresh) fresh = ((size)&__heap_base + 15) & ~(size)15, end = __builtin_wasm_memory_size(0) * PAGE;
    if (end - fresh < bytes) {
        size pages = (bytes - (end - fresh) + PAGE - 1) / PAGE;
        if (__builtin_wasm_memory_grow(0, pages) == (size)-1) return 0;
        end += pages * PAGE;
    }
    block *made = (block *)fresh;
    fresh += bytes;
    return made;
}

void *take(size bytes) {
    if (bytes > ((size)1 << (POWERS - 1)) - HEAD) return 0;
    size power = power_for(bytes);
    block *made = given_back[power];
    if (made) given_back[power] = made->next;
    else if (!(made = grown((size)1 << power))) return 0;
    made->power = power;
    return (byte *)made + HEAD;
}

void give(void *at) {
    block *made = (block *)((byte *)at - HEAD);
    made->next = given_back[made->power];
    given_back[made->power] = made;
}

/* The three calls of the proved code: whether there is memory, and where. */
taken rattle_alloc(size bytes, size align) {
    void *at = take(bytes ? bytes : align);
    return (taken){at != 0, at ? at : (void *)given_back};
}

taken rattle_realloc(void *at, size old, size bytes, size align) {
    (void)old;
    block *made = (block *)((byte *)at - HEAD);
    size room = ((size)1 << made->power) - HEAD;
    if (bytes <= room) return (taken){1, at};
    taken larger = rattle_alloc(bytes, align);
    if (larger.is_there) __builtin_memcpy(larger.at, at, room), give(at);
    return larger;
}

void rattle_dealloc(void *at) { give(at); }

/* The engine's own copies, which need bulk memory; the compiler calls these by name. */
void *memcpy(void *to, const void *from, size bytes) { return __builtin_memcpy(to, from, bytes); }
void *memmove(void *to, const void *from, size bytes) { return __builtin_memmove(to, from, bytes); }
void *memset(void *to, int value, size bytes) { return __builtin_memset(to, value, bytes); }

/* The low 128 bits of a product, of products of 32 bits: one of 128 written here would be a call of this. */
product __multi3(size a, size a_high, size b, size b_high) {
    size a0 = a & 0xffffffff, a1 = a >> 32, b0 = b & 0xffffffff, b1 = b >> 32;
    size middle = a1 * b0 + (a0 * b0 >> 32);
    size other = a0 * b1 + (middle & 0xffffffff);
    return (product){a * b, a1 * b1 + (middle >> 32) + (other >> 32) + a_high * b + a * b_high};
}
