#include "blocks.h"

#include <stdio.h>
#include <stdlib.h>
#include <string.h>
#include <sys/mman.h>

/* In each of these places are pages for a block, and behind them one that can't be touched. */
enum { PLACES = 16, PAGES = 1 << 20, PAGE = 4096, BEFORE = 64 };

static struct {
    uint8_t *pages;
    bool is_taken, is_read_only;
} places[PLACES];

static void stop(const char *why) {
    perror(why);
    exit(2);
}

static int free_place(void) {
    for (int at = 0; at < PLACES; at++) {
        if (places[at].is_taken)
            continue;
        if (!places[at].pages) {
            places[at].pages = mmap(NULL, PAGES + PAGE, PROT_READ | PROT_WRITE, MAP_PRIVATE | MAP_ANONYMOUS, -1, 0);
            if (places[at].pages == MAP_FAILED || mprotect(places[at].pages + PAGES, PAGE, PROT_NONE) != 0)
                stop("mmap");
        }
        return at;
    }
    return -1;
}

struct block new_block(size_t length, bool in_pages) {
    struct block block = {NULL, length, length + BEFORE <= PAGES && in_pages ? free_place() : -1};
    if (block.page_block < 0) {
        /* malloc(0) may return a null pointer. */
        block.bytes = length ? malloc(length) : malloc(1);
        if (!block.bytes)
            stop("malloc");
    } else {
        places[block.page_block].is_taken = true;
        block.bytes = places[block.page_block].pages + PAGES - length;
        memset(block.bytes - BEFORE, FILL, BEFORE);
    }
    memset(block.bytes, FILL, length);
    return block;
}

static void protect(const struct block *block, int how) {
    if (mprotect(places[block->page_block].pages, PAGES, how) != 0)
        stop("mprotect");
}

void make_read_only(const struct block *block) {
    if (block->page_block < 0)
        return;
    protect(block, PROT_READ);
    places[block->page_block].is_read_only = true;
}

bool is_filled(const struct block *block, size_t start) {
    size_t before = block->page_block < 0 ? 0 : BEFORE;
    for (const uint8_t *at = block->bytes - before; at < block->bytes + block->length; at++)
        if (*at != FILL && (at < block->bytes || at >= block->bytes + start))
            return false;
    return true;
}

void free_block(struct block *block) {
    if (block->page_block < 0) {
        free(block->bytes);
    } else {
        if (places[block->page_block].is_read_only)
            protect(block, PROT_READ | PROT_WRITE);
        places[block->page_block].is_taken = places[block->page_block].is_read_only = false;
    }
    block->bytes = NULL;
}
