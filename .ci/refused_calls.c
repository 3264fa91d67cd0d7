/* Runs each call of bindings/c/xet.h on two shards with its 1st, 2nd .. allocation refused, until a run meets no
 * refusal: refused_calls FIRST SECOND. A refused call has to return XET_OUT_OF_MEMORY, write 0 to its count and leave
 * its other outputs; or, since an arena that is refused a block asks for a smaller one, to do what it does without a
 * refusal. Link with -Wl,--wrap=malloc,--wrap=realloc. */
#include "xet.h"
#include <stdio.h>
#include <stdlib.h>
#include <string.h>

/* The first calls write no count, and the last four do not allocate. */
enum { ROOM = 1 << 20, COUNTING = 5, ALLOCATING = 31, CALLS = ALLOCATING + 4 };

void *__real_malloc(size_t size);
void *__real_realloc(void *block, size_t size);
void *__wrap_malloc(size_t size);
void *__wrap_realloc(void *block, size_t size);

/* The allocations that are made before one is refused, or -1, and whether one was. */
static long left = -1;
static bool was_refused;

static bool is_refused(void) {
    bool refused = left == 0;
    if (left >= 0)
        left--;
    was_refused = was_refused || refused;
    return refused;
}

void *__wrap_malloc(size_t size) {
    return is_refused() ? NULL : __real_malloc(size);
}

void *__wrap_realloc(void *block, size_t size) {
    return is_refused() ? NULL : __real_realloc(block, size);
}

static uint8_t first[ROOM], second[ROOM];
static size_t first_length, second_length;
/* All outputs of a call, but for its count. */
static union {
    uint8_t bytes[ROOM];
    xet_hash hashes[100];
    xet_finding findings[100];
    xet_disagreement disagreements[100];
    xet_segment run;
    xet_info info;
    xet_chunk_row rows[1000];
    xet_chunk_place places[8];
    uint32_t starts[8];
    struct {
        xet_file file;
        xet_file_segment segments[100];
    } found;
    struct {
        xet_place place;
        xet_file file;
        xet_xorb xorb;
        xet_file_segment segments[100];
        xet_chunk chunks[100];
    } listed;
    struct {
        xet_listed_file files[100];
        xet_file_segment segments[1000];
        xet_listed_xorb xorbs[100];
        xet_chunk chunks[1000];
    } lists;
    struct {
        xet_disagreement first;
        uint8_t bytes[ROOM];
    } agreeing;
} out, before, whole;
/* The records of the first shard. */
static xet_listed_file files[100];
static xet_file_segment segments[1000];
static xet_listed_xorb xorbs[100];
static xet_chunk chunks_of_xorbs[1000];
static xet_counts counts;
static xet_info info;

static size_t read_shard(const char *name, uint8_t *bytes) {
    FILE *file = fopen(name, "rb");
    size_t length = file ? fread(bytes, 1, ROOM, file) : 0;
    if (!file || fclose(file) != 0)
        exit(2);
    return length;
}

static uint32_t call(int number, size_t *count) {
    const xet_export_options export = {.key = {7, 1, 0, 0}, .now = 1000, .valid_seconds = 60};
    const xet_minimal_options minimal = {.now = 9, .verification = true};
    const xet_subset_options subset = {.now = 9};
    const xet_merge_options strict = {.strict = true}, by_tables = {.by_tables = true};
    const xet_hash file = {{100, 1, 0, 0}}, chunks[2] = {{{21, 1, 0, 0}}, {{22, 1, 0, 0}}}, xorb = {{10, 1, 0, 0}};
    const xet_hash twice_and_none[3] = {file, file, {{99, 1, 0, 0}}};
    const xet_bytes both[2] = {{first, first_length}, {second, second_length}};
    const xet_bytes twice[2] = {{first, first_length}, {first, first_length}};
    size_t differing = 0;
    const char *name = "0000000000000001000000000000000200000000000000030000000000000004.mdb";
    if (number < COUNTING || number >= ALLOCATING)
        *count = 0;
    switch (number) {
    case 0:
        return xet_find_file(first, first_length, &file, &out.found.file, out.found.segments, 100);
    case 1:
        return xet_file_at(first, first_length, 0, &out.listed.place, &out.listed.file, out.listed.segments, 100);
    case 2:
        return xet_xorb_at(first, first_length, 0, &out.listed.place, &out.listed.xorb, out.listed.chunks, 100);
    case 3:
        return xet_file_in(first + info.file_section, info.xorb_section - info.file_section, 3, &out.listed.place,
                           &out.listed.file, out.listed.segments, 100);
    case 4:
        return xet_xorb_in(first + info.xorb_section, info.file_table - info.xorb_section, &out.listed.place,
                           &out.listed.xorb, out.listed.chunks, 100);
    case 5:
        return xet_merge_all(both, 2, 3, out.bytes, ROOM, count);
    case 6:
        return xet_merge(twice, 2, &strict, 3, out.agreeing.bytes, ROOM, count, &differing, &out.agreeing.first);
    case 7:
        return xet_merge(both, 2, &by_tables, 3, out.agreeing.bytes, ROOM, count, &differing, &out.agreeing.first);
    case 8:
        return xet_union(first, first_length, second, second_length, 3, out.bytes, ROOM, count);
    case 9:
        return xet_difference(first, first_length, second, second_length, 2, out.bytes, ROOM, count);
    case 10:
        return xet_concatenate(both, 1, out.bytes, ROOM, count);
    case 11:
        return xet_find_disagreements(both, 2, out.disagreements, 100, count);
    case 12: {
        bool malformed = true;
        uint32_t error = xet_find_malformed(twice, 2, &malformed, &out.agreeing.first);
        *count = malformed;
        return error;
    }
    case 13:
        return xet_export(first, first_length, &export, 3, out.bytes, ROOM, count);
    case 14:
        return xet_minimal(first, first_length, &minimal, 3, out.bytes, ROOM, count);
    case 15:
        return xet_subset(first, first_length, &subset, &xorb, 1, 2, out.bytes, ROOM, count);
    case 16:
        return xet_convert(second, second_length, 2, out.bytes, ROOM, count);
    case 17:
        return xet_complete(first, first_length, &file, 3, out.bytes, ROOM, count);
    case 18:
        return xet_write(files, counts.files, segments, counts.segments, xorbs, counts.xorbs, chunks_of_xorbs,
                         counts.chunks, UINT64_MAX, 3, out.bytes, ROOM, count);
    case 19: {
        xet_counts found;
        uint32_t error = xet_records(first, first_length, out.lists.files, 100, out.lists.segments, 1000,
                                     out.lists.xorbs, 100, out.lists.chunks, 1000, &found);
        *count = found.files + found.segments + found.xorbs + found.chunks;
        return error;
    }
    case 20:
        return xet_check(second, second_length, out.findings, 100, count);
    case 21:
        return xet_eligible(first, first_length, out.hashes, 100, count);
    case 22:
        return xet_query_chunks(first, first_length, chunks, 2, count, &out.run);
    case 23:
        return xet_query_at(first, first_length, chunks, 2, 0, 0, count, &out.run);
    case 24:
        return xet_chunk_rows(first, first_length, out.rows, 1000, count);
    case 25:
        return xet_find_rows(first + info.file_table, 12 * info.files, 100, out.starts, 8, count);
    case 26:
        return xet_find_places(first + info.chunk_table, 16 * info.chunks, 21, out.places, 8, count);
    case 27:
        return xet_hash_to_hex(&file, out.bytes, ROOM, count);
    case 28:
        return xet_shard_name(&file, out.bytes, ROOM, count);
    case 29:
        return xet_concatenate_span(both, 1, 100, out.bytes, first_length - 100, count);
    case 30: {
        xet_counts found;
        uint32_t error = xet_find_files(first, first_length, twice_and_none, 3, out.lists.files, 100,
                                        out.lists.segments, 1000, &found);
        *count = found.files + found.segments;
        return error;
    }
    case ALLOCATING:
        return xet_hash_from_hex((const uint8_t *)name, 64, out.hashes);
    case ALLOCATING + 1:
        return xet_parse_shard_name((const uint8_t *)name, 68, out.hashes);
    case ALLOCATING + 2:
        return xet_hash_bytes(&file, first, first_length, out.hashes) | xet_hmac(&file, chunks, out.hashes);
    default:
        return xet_version() == XET_VERSION_NUMBER ? xet_load(first, first_length, &out.info) : XET_OTHER;
    }
}

int main(int words, char **names) {
    if (words != 3)
        return 2;
    first_length = read_shard(names[1], first);
    second_length = read_shard(names[2], second);
    if (xet_load(first, first_length, &info) != 0)
        return 2;
    if (xet_records(first, first_length, files, 100, segments, 1000, xorbs, 100, chunks_of_xorbs, 1000, &counts) != 0)
        return 2;
    for (int number = 0; number < CALLS; number++) {
        long turn = 0;
        size_t count_of_whole = 12345;
        memset(&out, 0xaa, sizeof out);
        before = out;
        if (call(number, &count_of_whole) != XET_OK) {
            printf("call %d fails without a refusal\n", number);
            return 1;
        }
        whole = out;
        do {
            size_t count = 12345;
            out = before;
            left = turn++, was_refused = false;
            uint32_t error = call(number, &count);
            left = -1;
            bool stays = count == 0 && memcmp(&out, &before, sizeof out) == 0;
            bool is_whole = count == count_of_whole && memcmp(&out, &whole, sizeof out) == 0;
            if (error == XET_OK ? !is_whole : !was_refused || error != XET_OUT_OF_MEMORY || !stays) {
                printf("call %d, allocation %ld: %s, count %zu\n", number, turn, xet_error_name(error), count);
                return 1;
            }
        } while (was_refused);
        printf("call %d: %ld refusals\n", number, turn - 1);
    }
    return 0;
}
