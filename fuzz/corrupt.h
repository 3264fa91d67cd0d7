/* Changes of a shard's bytes that make it corrupt, or another shard. */
#ifndef CORRUPT_H
#define CORRUPT_H

#include "random.h"
#include <stddef.h>

enum { ROW = 48, FOOTER = 200, ROOM = 1 << 18 };

/* The bytes of a shard, and room for more. */
struct bytes {
    uint8_t bytes[ROOM];
    size_t length;
};

/* Makes one change. What is moved between shards comes from `other`. */
void corrupt(struct bytes *shard, const struct bytes *other, struct random *random);

/* The hash at the start of some row of the shard, or a random one. */
void some_hash(const struct bytes *shard, struct random *random, uint64_t words[4]);

/* The same of rows one after another. */
void some_hashes(const struct bytes *shard, struct random *random, uint64_t (*hashes)[4], size_t count);

#endif
