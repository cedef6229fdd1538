// The heap of the module. A block has one of eight sizes between two powers of two, which a word before it tells, and is kept in a list
// of its size when it is free. New ones are cut off the end of the memory, which grows until the host refuses.
typedef __SIZE_TYPE__ size_t;

extern char __heap_base;

// The most bytes of the memory, once it is lowered to addresses of 32 bits.
#define MOST ((size_t)1 << 32)

enum { PAGE = 65536, CLASSES = 48 * 8, NEAR = 4 };

struct head {
    size_t class;
    struct head *next; // while it is free
};

static struct head *free_blocks[CLASSES];
static size_t end; // of what was cut off

static size_t size_of(size_t class) {
    return (8 + class % 8) << (class / 8 + 4);
}

// The least class with room for so many bytes and the head.
static size_t class_of(size_t size) {
    size_t need = size + sizeof(struct head);
    size_t class = 0;
    if (need > 128) class = (size_t)(64 - 8 - __builtin_clzll(need - 1)) * 8; // that of the power of two below
    while (size_of(class) < need) class++;
    return class;
}

static size_t memory(void) {
    return __builtin_wasm_memory_size(0) * PAGE;
}

// Whether the memory has so many bytes after the end, once it has grown. A refusal is seen by its size: lowered to 32 bits, the -1 of
// memory.grow is no longer one of 64.
static int has_room(size_t size) {
    size_t have = memory();
    if (have - end >= size) return 1;
    // An eighth more at once, since each growth costs the host some time.
    size_t pages = (size - (have - end) + PAGE - 1) / PAGE, ample = pages + have / PAGE / 8;
    __builtin_wasm_memory_grow(0, ample);
    if (memory() == have) __builtin_wasm_memory_grow(0, pages);
    return memory() - end >= size;
}

static struct head *cut(size_t class) {
    size_t size = size_of(class);
    if (!end) end = ((size_t)&__heap_base + 15) & ~(size_t)15;
    if (size > MOST - end || !has_room(size)) return 0;
    struct head *head = (struct head *)end;
    end += size;
    return head;
}

void *malloc(size_t size) {
    if (size > MOST) return 0;
    size_t class = class_of(size);
    for (size_t near = class; near <= class + NEAR; near++) {
        struct head *head = free_blocks[near];
        if (head) {
            free_blocks[near] = head->next;
            return head + 1;
        }
    }
    struct head *head = cut(class);
    if (!head) return 0;
    head->class = class;
    return head + 1;
}

void free(void *at) {
    if (!at) return;
    struct head *head = (struct head *)at - 1;
    head->next = free_blocks[head->class];
    free_blocks[head->class] = head;
}

void *realloc(void *at, size_t size) {
    if (!at) return malloc(size);
    struct head *head = (struct head *)at - 1;
    size_t held = size_of(head->class) - sizeof(struct head);
    if (size <= held && size >= held / 4) return at;
    void *to = malloc(size);
    if (!to) return 0;
    __builtin_memcpy(to, at, held < size ? held : size);
    free(at);
    return to;
}

int memcmp(const void *a, const void *b, size_t n) {
    const unsigned char *x = a, *y = b;
    for (size_t i = 0; i < n; i++)
        if (x[i] != y[i]) return x[i] < y[i] ? -1 : 1;
    return 0;
}

int bcmp(const void *a, const void *b, size_t n) {
    return memcmp(a, b, n);
}

// The low 128 bits of a product.
typedef unsigned long long u64;
typedef unsigned __int128 u128;
typedef union {
    u128 whole;
    struct {
        u64 low, high;
    };
} Halves;

u128 __multi3(u128 x, u128 y) {
    Halves a = {x}, b = {y}, product;
    u64 a0 = a.low & 0xffffffff, a1 = a.low >> 32, b0 = b.low & 0xffffffff, b1 = b.low >> 32;
    u64 first = a0 * b0;
    u64 second = a1 * b0 + (first >> 32);
    u64 third = a0 * b1 + (second & 0xffffffff);
    product.low = third << 32 | (first & 0xffffffff);
    product.high = a1 * b1 + (second >> 32) + (third >> 32) + a.low * b.high + a.high * b.low;
    return product.whole;
}

// Shifts of 128 bits, by 0 to 127. A shift by 1 and then by 63 - n is one by 64 - n that is defined at n = 0.
u128 __ashlti3(u128 x, int n) {
    Halves a = {x}, shifted;
    shifted.low = n & 64 ? 0 : a.low << (n & 63);
    shifted.high = n & 64 ? a.low << (n & 63) : a.high << (n & 63) | a.low >> 1 >> (63 - (n & 63));
    return shifted.whole;
}

u128 __lshrti3(u128 x, int n) {
    Halves a = {x}, shifted;
    shifted.low = n & 64 ? a.high >> (n & 63) : a.low >> (n & 63) | a.high << 1 << (63 - (n & 63));
    shifted.high = n & 64 ? 0 : a.high >> (n & 63);
    return shifted.whole;
}

// A room for the words, a file or the answer of the host, and 0 where there is none.
size_t room(size_t size) {
    return (size_t)malloc(size);
}
