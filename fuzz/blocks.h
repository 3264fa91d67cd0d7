/* Memory of an exact size for what calls read and write. */
#ifndef BLOCKS_H
#define BLOCKS_H

#include <stdbool.h>
#include <stddef.h>
#include <stdint.h>

/* What a block holds before a call. */
enum { FILL = 0xa5 };

struct block {
    uint8_t *bytes;
    size_t length;
    int page_block; /* the number of the pages that it is in, or -1 if it is of malloc */
};

/* A block that is filled. Behind a block in pages is one that nobody may touch; a block of malloc is guarded where the
 * address sanitizer sees the access. */
struct block new_block(size_t length, bool in_pages);

/* Lets nobody write to a block in pages. */
void make_read_only(const struct block *block);

/* Whether the bytes from `start` on, and those before the block, are as they were filled. */
bool is_filled(const struct block *block, size_t start);

void free_block(struct block *block);

#endif
