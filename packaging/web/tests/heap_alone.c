/*
 * Tries heap.c by itself, on the machine at hand: blocks are taken, resized and given back at random, and each has to
 * keep what was written into it, at an aligned place, apart from all others, also where the memory can't grow any more.
 *   cc -O2 -o heap_alone heap_alone.c && ./heap_alone
 */
#include <stdio.h>
#include <stdlib.h>
#include <string.h>

enum { PAGES = 256, FIRST_PAGES = 2, BLOCKS = 400, CALLS = 300000 };

/* a memory that can grow to so many pages; its first part is no heap */
static unsigned char memory[PAGES * 65536] __attribute__((aligned(65536)));
static unsigned long pages = FIRST_PAGES;

static unsigned long grown(unsigned long more) {
    if (more > PAGES - pages) return (unsigned long)-1;
    pages += more;
    return pages - more;
}

/* in a module addresses begin at 0, and here the memory's */
#define __builtin_wasm_memory_size(index) (pages + (unsigned long)memory / 65536)
#define __builtin_wasm_memory_grow(index, more) grown(more)
/* (so the declaration there is one of this pointer, and its address is where it points) */
#define __heap_base (*heap_begins)
unsigned char *heap_begins = memory + 1000;
#define export_name(name) unused
#include "../heap.c"

static struct {
    unsigned char *at;
    size bytes;
    unsigned char mark;
} blocks[BLOCKS];

static unsigned long refused, wrong;

static void check(int i) {
    for (size k = 0; k < blocks[i].bytes; k++) wrong += blocks[i].at[k] != blocks[i].mark;
}

static void fill_block(int i, void *at, size bytes) {
    static unsigned char next;
    blocks[i].at = at;
    blocks[i].bytes = bytes;
    blocks[i].mark = ++next;
    memset(at, blocks[i].mark, bytes);
    unsigned char *first = at;
    wrong += (size)at % ALIGNMENT != 0 || first < memory || first + bytes > memory + pages * 65536;
}

static size some_bytes(void) {
    return rand() % (1 << (rand() % 19));
}

static void resize(int i) {
    size bytes = some_bytes();
    tried it = rattle_realloc(blocks[i].at, blocks[i].bytes, bytes, 8);
    if (!it.is_there) {
        refused++;
        return;
    }
    size kept_bytes = bytes < blocks[i].bytes ? bytes : blocks[i].bytes;
    for (size k = 0; k < kept_bytes; k++) wrong += ((unsigned char *)it.block)[k] != blocks[i].mark;
    fill_block(i, it.block, bytes);
}

int main(void) {
    for (int call = 0; call < CALLS; call++) {
        int i = rand() % BLOCKS;
        if (!blocks[i].at) {
            size bytes = some_bytes();
            tried it = rattle_alloc(bytes, 1);
            if (it.is_there) fill_block(i, it.block, bytes);
            else refused++;
            continue;
        }
        check(i);
        if (rand() % 3) {
            resize(i);
        } else {
            rattle_dealloc(blocks[i].at);
            blocks[i].at = 0;
        }
    }
    printf("heap: %d calls, %lu of them refused for want of memory, %lu faults\n", CALLS, refused, wrong);
    return wrong != 0 || refused == 0;
}
