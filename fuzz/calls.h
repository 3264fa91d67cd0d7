/* The calls of xet.h, and what must hold of each on any bytes. */
#ifndef CALLS_H
#define CALLS_H

#include "../bindings/c/xet.h"
#include "blocks.h"
#include "random.h"

enum { SHARDS = 4, RESULTS = XET_MALFORMED + 1 };

/* What the calls of a case are given. Each list is a block of its own. */
struct input {
    struct block shards[SHARDS];
    size_t count; /* of the shards, at least two */
    struct block chunks, xorbs, text;
    xet_hash file;
    xet_export_options export;
    xet_minimal_options minimal;
    xet_subset_options subset;
    uint64_t version; /* of the format: 2 or 3, or a wrong one */
    bool in_pages; /* outputs are blocks in pages */
};

/* What was done, for the process that reports it. */
struct tally {
    uint64_t number; /* of the case that is made */
    uint64_t cases;
    uint64_t calls;
    uint64_t results[RESULTS];
};

/* Makes all calls, and ends the process with a line that says why where one does what it must not. */
void make_calls(const struct input *input, struct random *random, struct tally *tally);

#endif
