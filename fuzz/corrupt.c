#include "corrupt.h"

#include <string.h>

/* A number at which sums, products and casts go wrong. */
static uint64_t odd_number(const struct bytes *shard, struct random *random) {
    static const uint64_t rows[] = {12, 16, ROW};
    uint64_t near = below(random, 3) ? below(random, 4) : below(random, 1024);
    switch (below(random, 8)) {
    case 0:
        return near;
    case 1:
        return ((uint64_t)1 << 63) - near;
    case 2:
        return ((uint64_t)1 << 63) + near;
    case 3:
        return -near;
    case 4:
        return ((uint64_t)1 << (31 + below(random, 2))) - near;
    case 5:
        /* So many rows wrap. */
        return UINT64_MAX / rows[below(random, 3)] + near;
    case 6:
        return shard->length - near;
    default:
        return next_number(random) >> below(random, 64);
    }
}

static void put(struct bytes *shard, size_t at, size_t width, uint64_t number) {
    if (at + width <= shard->length)
        memcpy(shard->bytes + at, &number, width);
}

static uint64_t number_at(const struct bytes *shard, size_t at, size_t width) {
    uint64_t number = 0;
    if (at + width <= shard->length)
        memcpy(&number, shard->bytes + at, width);
    return number;
}

/* Near what is there, or odd. */
static uint64_t changed(const struct bytes *shard, size_t at, size_t width, struct random *random) {
    uint64_t there = number_at(shard, at, width), step = below(random, 4) ? 1 : 1 + below(random, 64);
    switch (below(random, 4)) {
    case 0:
        return there + step;
    case 1:
        return there - step;
    default:
        return odd_number(shard, random);
    }
}

static size_t row_count(const struct bytes *shard) {
    return shard->length < ROW + FOOTER ? 0 : (shard->length - ROW - FOOTER) / ROW;
}

/* Where some row starts, if the shard has one. */
static size_t some_row(const struct bytes *shard, struct random *random) {
    return ROW + ROW * below(random, row_count(shard));
}

static void flip_bits(struct bytes *shard, struct random *random) {
    for (uint64_t left = 1 + below(random, 4); left > 0 && shard->length > 0; left--)
        shard->bytes[below(random, shard->length)] ^= 1 << below(random, 8);
}

/* An offset, a count, a time or a word of the key. */
static void change_footer(struct bytes *shard, struct random *random) {
    if (shard->length < FOOTER)
        return;
    size_t at = shard->length - FOOTER + 8 * below(random, FOOTER / 8);
    put(shard, at, 8, changed(shard, at, 8, random));
}

/* Flags, a count of rows, or another number of a row. */
static void change_row(struct bytes *shard, struct random *random) {
    size_t at = some_row(shard, random) + 32 + 4 * (below(random, 2) ? 1 : below(random, 4));
    put(shard, at, 4, changed(shard, at, 4, random));
}

static void change_flags(struct bytes *shard, struct random *random) {
    size_t at = some_row(shard, random) + 32;
    put(shard, at, 4, number_at(shard, at, 4) ^ (uint64_t)1 << (29 + below(random, 3)));
}

/* A number anywhere, such as in a table. */
static void change_number(struct bytes *shard, struct random *random) {
    size_t width = once_in(random, 2) ? 4 : 8, at = 4 * below(random, shard->length / 4);
    put(shard, at, width, changed(shard, at, width, random));
}

static void change_version(struct bytes *shard, struct random *random) {
    put(shard, 32, 8, below(random, 4) ? 2 + below(random, 2) : odd_number(shard, random));
}

static void cut(struct bytes *shard, struct random *random) {
    size_t length = below(random, 3) ? 1 + below(random, 2 * ROW) : below(random, shard->length);
    shard->length -= length < shard->length ? length : 0;
}

static void remove_bytes(struct bytes *shard, size_t at, size_t length) {
    if (at + length > shard->length)
        return;
    memmove(shard->bytes + at, shard->bytes + at + length, shard->length - at - length);
    shard->length -= length;
}

static void insert_row(struct bytes *shard, size_t at, const uint8_t *row) {
    if (at > shard->length || shard->length + ROW > ROOM)
        return;
    memmove(shard->bytes + at + ROW, shard->bytes + at, shard->length - at);
    memcpy(shard->bytes + at, row, ROW);
    shard->length += ROW;
}

/* A row goes to another place, or there too, from here or another shard. */
static void move_row(struct bytes *shard, const struct bytes *other, struct random *random) {
    const struct bytes *from = once_in(random, 2) ? shard : other;
    if (row_count(from) == 0 || row_count(shard) == 0)
        return;
    uint8_t row[ROW];
    size_t at = some_row(from, random);
    memcpy(row, from->bytes + at, ROW);
    if (from == shard && once_in(random, 2))
        remove_bytes(shard, at, ROW);
    insert_row(shard, some_row(shard, random), row);
}

static void exchange_rows(struct bytes *shard, struct random *random) {
    if (row_count(shard) == 0)
        return;
    uint8_t row[ROW], *first = shard->bytes + some_row(shard, random), *second = shard->bytes + some_row(shard, random);
    memcpy(row, first, ROW);
    memmove(first, second, ROW);
    memcpy(second, row, ROW);
}

/* A row becomes the end of a section, or that of another shard at the same place. */
static void replace_row(struct bytes *shard, const struct bytes *other, struct random *random) {
    size_t at = some_row(shard, random);
    if (at + ROW > shard->length)
        return;
    memset(shard->bytes + at, 0xff, 32);
    memset(shard->bytes + at + 32, 0, 16);
    if (at + ROW <= other->length && below(random, 2))
        memcpy(shard->bytes + at, other->bytes + at, ROW);
}

/* The end of one shard behind the beginning of another. */
static void exchange_ends(struct bytes *shard, const struct bytes *other, struct random *random) {
    size_t at = some_row(shard, random);
    if (at > shard->length || at > other->length)
        return;
    memcpy(shard->bytes + at, other->bytes + at, other->length - at);
    shard->length = other->length;
}

void corrupt(struct bytes *shard, const struct bytes *other, struct random *random) {
    switch (below(random, 14)) {
    case 0:
        return flip_bits(shard, random);
    case 1:
    case 2:
    case 3:
        return change_footer(shard, random);
    case 4:
    case 5:
        return change_row(shard, random);
    case 6:
        return change_flags(shard, random);
    case 7:
        return change_number(shard, random);
    case 8:
        return change_version(shard, random);
    case 9:
        return cut(shard, random);
    case 10:
        return move_row(shard, other, random);
    case 11:
        return exchange_rows(shard, random);
    case 12:
        return replace_row(shard, other, random);
    default:
        return exchange_ends(shard, other, random);
    }
}

void some_hash(const struct bytes *shard, struct random *random, uint64_t words[4]) {
    some_hashes(shard, random, (uint64_t (*)[4])words, 1);
}

void some_hashes(const struct bytes *shard, struct random *random, uint64_t (*hashes)[4], size_t count) {
    size_t at = some_row(shard, random);
    for (size_t done = 0; done < count; done++, at += ROW) {
        bool is_there = at + ROW <= shard->length;
        for (size_t word = 0; word < 4; word++)
            hashes[done][word] = is_there ? number_at(shard, at + 8 * word, 8) : next_number(random);
        if (once_in(random, 32))
            hashes[done][below(random, 4)] ^= (uint64_t)1 << below(random, 64);
    }
}
