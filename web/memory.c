// The memory of the module: the heap that proved code asks for, over a list of free blocks for each size, and the functions
// of the C library over bytes that compiled code names.
typedef __SIZE_TYPE__ size_t;
typedef unsigned char byte;

// A page of WebAssembly's memory, and by how many the heap grows at least.
enum { PAGE = 65536, STEP = 16 };
// Each block begins with its size's number, in as many bytes as keep what is behind it aligned.
enum { HEAD = 16 };
// More than any run needs that a page is for.
static const size_t MOST = (size_t)1 << 32;

struct block {
    size_t kind;
    struct block *next;
};

static struct block *free_of[4 * 64];
extern byte __heap_base;
static size_t top, end;

// Blocks have four sizes for each doubling: of kind 4 b + q, 2^b and q quarters of it.
static size_t size_of(size_t kind) { return ((size_t)4 + kind % 4) << (kind / 4 - 2); }

// The kind of the smallest size that has room for n bytes, n >= HEAD.
static size_t kind_of(size_t n) {
    size_t doubling = 63 - __builtin_clzl(n), quarter = (size_t)1 << (doubling - 2);
    return 4 * doubling + (n - 4 * quarter + quarter - 1) / quarter;
}

static _Bool grow(size_t pages) {
    if (__builtin_wasm_memory_grow(0, pages) == (size_t)-1) return 0;
    end += pages * PAGE;
    return 1;
}

// n or more, to the next multiple of the alignment.
static size_t aligned(size_t n) { return (n + HEAD - 1) / HEAD * HEAD; }

// A block of this kind behind all others, or none if the memory can't grow.
static struct block *new_block(size_t kind) {
    size_t bytes = HEAD + aligned(size_of(kind));
    if (!top) {
        top = aligned((size_t)&__heap_base);
        end = __builtin_wasm_memory_size(0) * PAGE;
    }
    if (top + bytes > MOST) return 0;
    if (top + bytes > end) {
        size_t pages = (top + bytes - end + PAGE - 1) / PAGE;
        if (!(pages < STEP && grow(STEP)) && !grow(pages)) return 0;
    }
    struct block *made = (struct block *)top;
    made->kind = kind;
    top += bytes;
    return made;
}

void *malloc(size_t n) {
    if (n > MOST) return 0;
    size_t kind = kind_of(n < HEAD ? HEAD : n);
    struct block *it = free_of[kind];
    if (it) free_of[kind] = it->next;
    else it = new_block(kind);
    return it ? (byte *)it + HEAD : 0;
}

static struct block *block_of(void *p) { return (struct block *)((byte *)p - HEAD); }

void free(void *p) {
    if (!p) return;
    struct block *it = block_of(p);
    it->next = free_of[it->kind];
    free_of[it->kind] = it;
}

void *realloc(void *p, size_t n) {
    size_t room = size_of(block_of(p)->kind);
    if (n <= room && n >= room / 2) return p;
    void *q = malloc(n);
    if (!q) return 0;
    __builtin_memcpy(q, p, n < room ? n : room);
    free(p);
    return q;
}

// What rattle's heap asks: whether there is a block, and its address. A request of no bytes has one too. 16 is a multiple of
// each alignment that is asked for.
struct tried {
    size_t ok;
    void *p;
};

static struct tried tried(void *p) {
    static byte nothing[HEAD] __attribute__((aligned(HEAD)));
    return p ? (struct tried){1, p} : (struct tried){0, nothing};
}

struct tried rattle_alloc(size_t n, size_t alignment) { return tried(malloc(n ? n : alignment)); }

struct tried rattle_realloc(void *p, size_t kept, size_t n, size_t alignment) {
    (void)kept;
    return tried(realloc(p, n ? n : alignment));
}

void rattle_dealloc(void *p) { free(p); }

// Instructions of WebAssembly's: the compiler calls no function for them.
void *memcpy(void *to, const void *from, size_t n) { return __builtin_memcpy(to, from, n); }
void *memmove(void *to, const void *from, size_t n) { return __builtin_memmove(to, from, n); }
void *memset(void *to, int value, size_t n) { return __builtin_memset(to, value, n); }

int memcmp(const void *a, const void *b, size_t n) {
    const byte *x = a, *y = b;
    for (; n; n--, x++, y++)
        if (*x != *y) return *x - *y;
    return 0;
}

int bcmp(const void *a, const void *b, size_t n) { return memcmp(a, b, n); }
