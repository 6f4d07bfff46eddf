/* The memory of the calls that are counted, and what copies and fills it: the same on every machine, whatever its C
   library and its processor. */
typedef __SIZE_TYPE__ size_t;

/* The bytes of all growths so far, and of what is kept now. */
struct {
    size_t asked, kept;
} heap;

/* ---- copies and fills, by 16 bytes and then by one */

typedef long long words __attribute__((vector_size(16), aligned(1), may_alias));
enum { WORDS = sizeof(words) };

void *memmove(void *to, const void *from, size_t count) {
    char *a = to;
    const char *b = from;
    if (a <= b) {
        for (; count >= WORDS; count -= WORDS, a += WORDS, b += WORDS)
            *(words *)a = *(const words *)b;
        for (; count > 0; count--)
            *a++ = *b++;
    } else {
        for (; count >= WORDS; count -= WORDS)
            *(words *)(a + count - WORDS) = *(const words *)(b + count - WORDS);
        for (; count > 0; count--)
            a[count - 1] = b[count - 1];
    }
    return to;
}

void *memcpy(void *restrict to, const void *restrict from, size_t count) {
    return memmove(to, from, count);
}

void *memset(void *to, int byte, size_t count) {
    char *a = to;
    words all = (words){0x0101010101010101, 0x0101010101010101} * (byte & 255);
    for (; count >= WORDS; count -= WORDS, a += WORDS)
        *(words *)a = all;
    for (; count > 0; count--)
        *a++ = (char)byte;
    return to;
}

/* ---- memory */

/* A block has a front, behind which the library's memory stands at a multiple of 16: how many bytes the block has, and
   how many were asked for. Behind it one that was given back says which is the next of its length. */
struct block {
    size_t length, size;
    struct block *next;
};
enum { FRONT = 16, LEAST = 32 };

/* Blocks are taken from here, one behind the other, where none of the length was given back. */
static _Alignas(16) char arena[(size_t)1 << 30];
static size_t used;
/* Those given back, by their length in 16 bytes, and the larger ones, whose lengths are powers of two, by its bits. */
enum { SMALL = 4096 };
static struct block *small[SMALL / 16 + 1], *large[64];

/* Begins anew, where nothing is kept. */
void heap_begin(void) {
    used = 0;
    for (size_t i = 0; i < sizeof small / sizeof *small; i++)
        small[i] = 0;
    for (size_t i = 0; i < sizeof large / sizeof *large; i++)
        large[i] = 0;
}

static size_t length_for(size_t size) {
    size_t length = size + FRONT < LEAST ? LEAST : (size + FRONT + 15) / 16 * 16;
    return length <= SMALL ? length : (size_t)1 << (64 - __builtin_clzl(length - 1));
}

static struct block **place_of(size_t length) {
    return length <= SMALL ? &small[length / 16] : &large[63 - __builtin_clzl(length)];
}

static struct block *taken(size_t length) {
    struct block **place = place_of(length), *block = *place;
    if (block) {
        *place = block->next;
        return block;
    }
    if (length > sizeof arena - used)
        return 0;
    block = (struct block *)(arena + used);
    used += length;
    block->length = length;
    return block;
}

/* What the library asks of its allocator. */
struct answer {
    long is_some;
    void *at;
};

struct answer rattle_alloc(size_t size, size_t align) {
    struct block *block = align <= 16 ? taken(length_for(size)) : 0;
    if (!block)
        return (struct answer){0, 0};
    block->size = size;
    heap.asked += size;
    heap.kept += size;
    return (struct answer){1, (char *)block + FRONT};
}

void rattle_dealloc(void *at) {
    struct block *block = (struct block *)((char *)at - FRONT);
    struct block **place = place_of(block->length);
    heap.kept -= block->size;
    block->next = *place;
    *place = block;
}

struct answer rattle_realloc(void *at, size_t old, size_t size, size_t align) {
    struct answer answer = rattle_alloc(size, align);
    if (answer.is_some) {
        memmove(answer.at, at, old < size ? old : size);
        rattle_dealloc(at);
    }
    return answer;
}
