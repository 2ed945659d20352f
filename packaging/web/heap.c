/*
 * The heap of the WebAssembly module: the three calls by which proved code allocates, and two by which the page gets
 * room for what it hands in. It stands where the C library's malloc stands for the program, and like that it isn't
 * proved.
 *
 * Blocks have one of four sizes to each power of two. A block that is given back is kept for the next one of its size;
 * the last block of all grows where it is, and goes back to the free end. Where the memory can't grow any more, a call
 * says that it failed, and nothing is changed.
 */
typedef unsigned long long size;
typedef unsigned char byte;

/* What the proved code is answered: whether there is a block, and where. */
typedef struct {
    size is_there;
    void *block;
} tried;

enum { PAGE = 65536, ALIGNMENT = 16, CLASSES = 192 };
#define MOST_BYTES (1ULL << 40)

extern byte __heap_base;
static byte nowhere;         /* what a failed call points to: never read */
static size free_end;        /* where the first byte stands that never was of a block; 0 before the first call */
static size memory_end;      /* where the memory ends */
static void *kept[CLASSES];  /* of each class the blocks that were given back, each with the next one in it */

/* The class of a number of bytes: 0 for up to 32, then four classes to each power of two. */
static size class_of(size bytes) {
    if (bytes <= 32) return 0;
    size power = 63 - __builtin_clzll(bytes - 1);
    size quarter = ((bytes - 1) >> (power - 2)) & 3;
    return (power - 5) * 4 + quarter + 1;
}

/* How many bytes a block of a class has: 32, 40, 48, 56, 64, 80, 96, 112, 128, .. */
static size bytes_of(size class) {
    if (class == 0) return 32;
    return (5 + ((class - 1) & 3)) << ((class - 1) / 4 + 3);
}

/* Where the class of a block is written: in the 16 bytes before it. */
static size *class_at(void *block) {
    return (size *)((byte *)block - ALIGNMENT);
}

/* How far the next block stands behind a block of a class. */
static size step_of(size class) {
    return (bytes_of(class) + 2 * ALIGNMENT - 1) & ~(size)(ALIGNMENT - 1);
}

/* Makes sure that so many bytes are free at the end; 0 where the memory can't grow by them. */
static int has_room(size bytes) {
    if (free_end == 0) {
        free_end = ((size)&__heap_base + ALIGNMENT - 1) & ~(size)(ALIGNMENT - 1);
        memory_end = __builtin_wasm_memory_size(0) * PAGE;
    }
    size free_bytes = memory_end > free_end ? memory_end - free_end : 0;
    if (bytes <= free_bytes) return 1;
    size pages = (bytes - free_bytes + PAGE - 1) / PAGE;
    if (__builtin_wasm_memory_grow(0, pages) == (unsigned long)-1) return 0;
    memory_end += pages * PAGE;
    return 1;
}

/* A block of at least so many bytes, or 0. */
static void *take(size bytes) {
    if (bytes > MOST_BYTES) return 0;
    size class = class_of(bytes);
    void *block = kept[class];
    if (block) {
        kept[class] = *(void **)block;
        return block;
    }
    if (!has_room(step_of(class))) return 0;
    block = (void *)(free_end + ALIGNMENT);
    free_end += step_of(class);
    *class_at(block) = class;
    return block;
}

/* Whether a block is the last one, behind which all is free. */
static int is_last(void *block) {
    return (size)block - ALIGNMENT + step_of(*class_at(block)) == free_end;
}

static void give(void *block) {
    if (is_last(block)) {
        free_end = (size)block - ALIGNMENT;
        return;
    }
    size class = *class_at(block);
    *(void **)block = kept[class];
    kept[class] = block;
}

/* Makes the last block one of at least so many bytes where it stands; 0 where the memory can't grow. */
static int grown_in_place(void *block, size bytes) {
    size class = class_of(bytes);
    size more = step_of(class) - step_of(*class_at(block));
    if (!has_room(more)) return 0;
    free_end += more;
    *class_at(block) = class;
    return 1;
}

static tried answer(void *block) {
    return (tried){block != 0, block ? block : &nowhere};
}

/* A block of so many bytes, or, where they are none, of the size of its alignment. */
tried rattle_alloc(size bytes, size alignment) {
    if (alignment > ALIGNMENT) return answer(0);
    return answer(take(bytes ? bytes : alignment));
}

/* The block as one of so many bytes, with the first `used` ones as they were. */
tried rattle_realloc(void *block, size used, size bytes, size alignment) {
    if (alignment > ALIGNMENT || bytes > MOST_BYTES) return answer(0);
    if (bytes == 0) bytes = alignment;
    if (bytes <= bytes_of(*class_at(block))) return answer(block);
    if (is_last(block)) return answer(grown_in_place(block, bytes) ? block : 0);
    void *other = take(bytes);
    if (!other) return answer(0);
    __builtin_memcpy(other, block, used < bytes ? used : bytes);
    give(block);
    return answer(other);
}

void rattle_dealloc(void *block) {
    give(block);
}

__attribute__((export_name("host_alloc"))) void *host_alloc(size bytes) {
    return take(bytes);
}

__attribute__((export_name("host_free"))) void host_free(void *block) {
    give(block);
}
