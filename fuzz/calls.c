#include "calls.h"

#include <stdio.h>
#include <stdlib.h>
#include <string.h>

static struct tally *counts;
static const char *called;

static void require(bool holds, const char *what) {
    if (holds)
        return;
    printf("fuzz: case %llu: %s: %s\n", (unsigned long long)counts->number, called, what);
    fflush(stdout);
    exit(1);
}

/* The errors that a call may return, as bits. An allocation of a small size does not fail. */
#define BIT(error) ((uint32_t)1 << (error))
enum {
    OF_LOADING = BIT(XET_OK) | BIT(XET_IO) | BIT(XET_SHARD_VERSION),
    OF_SECTIONS = OF_LOADING | BIT(XET_INVALID_SHARD),
    OF_MERGING = OF_SECTIONS | BIT(XET_INVALID_ARGUMENTS),
    OF_STRICT_MERGING = OF_MERGING | BIT(XET_DISAGREE) | BIT(XET_MALFORMED),
    OF_FINDING = OF_SECTIONS | BIT(XET_TRUNCATED_HASH_COLLISION) | BIT(XET_INTERNAL_ERROR),
};

/* Counts a result, which has to be one of those that the call may return. */
static uint32_t result(uint32_t error, uint32_t allowed) {
    counts->calls++;
    require(error < RESULTS && (allowed & BIT(error)), xet_error_name(error));
    counts->results[error]++;
    return error;
}

/* A struct that a call is to fill. */
static struct block new_struct(const struct input *input, size_t size) {
    return new_block(size, input->in_pages);
}

/* A call that fills an array. */
struct filling {
    const char *name;
    size_t item;
    uint32_t allowed;
    uint32_t (*call)(const struct input *input, void *out, size_t capacity, size_t *written);
    enum { NO_SHARD, AS_ASKED, OF_INPUTS } version; /* of the shard that it writes */
};

#define SHARD(at) input->shards[at].bytes, input->shards[at].length

static uint32_t within(size_t room, uint32_t error, size_t written) {
    require(written <= room, "the result needs more room than xet.h says");
    return error;
}

static uint32_t within_room(uint32_t error, size_t bytes, size_t written) {
    return within(xet_union_room(bytes), error, written);
}

static uint32_t call_union(const struct input *input, void *out, size_t capacity, size_t *written) {
    uint32_t error = xet_union(SHARD(0), SHARD(1), input->version, out, capacity, written);
    return within_room(error, input->shards[0].length + input->shards[1].length, *written);
}

static uint32_t call_difference(const struct input *input, void *out, size_t capacity, size_t *written) {
    uint32_t error = xet_difference(SHARD(0), SHARD(1), input->version, out, capacity, written);
    return within_room(error, input->shards[1].length, *written);
}

static void list_shards(const struct input *input, xet_bytes list[SHARDS]) {
    for (size_t at = 0; at < input->count; at++)
        list[at] = (xet_bytes){SHARD(at)};
}

static size_t bytes_of(const xet_bytes *list, size_t count) {
    size_t bytes = 0;
    for (size_t at = 0; at < count; at++)
        bytes += list[at].length;
    return bytes;
}

static uint32_t call_merge_all(const struct input *input, void *out, size_t capacity, size_t *written) {
    xet_bytes list[SHARDS];
    list_shards(input, list);
    uint32_t error = xet_merge_all(list, input->count, input->version, out, capacity, written);
    return within_room(error, bytes_of(list, input->count), *written);
}

static uint32_t call_concatenate(const struct input *input, void *out, size_t capacity, size_t *written) {
    xet_bytes list[SHARDS];
    list_shards(input, list);
    return xet_concatenate(list, input->count, out, capacity, written);
}

/* The whole in two spans, cut where the first word of the chunks says: the bytes or the error of one call. A span that
 * passes the end is refused. */
static uint32_t call_concatenate_span(const struct input *input, void *out, size_t capacity, size_t *written) {
    xet_bytes list[SHARDS];
    list_shards(input, list);
    uint32_t error = xet_concatenate_span(list, input->count, 0, out, 0, written);
    size_t size = *written;
    if (error)
        return error;
    if (capacity < size) {
        error = xet_concatenate_span(list, input->count, size - capacity + 1, out, capacity, written);
        require(error == XET_INVALID_ARGUMENTS && *written == size, "a span passes the end");
        return xet_concatenate(list, input->count, out, capacity, written);
    }
    const xet_hash *chunk = (const void *)input->chunks.bytes;
    size_t cut = input->chunks.length ? (size_t)(chunk->words[0] % (size + 1)) : size / 2;
    uint8_t *spans = malloc(size);
    require(spans, "malloc");
    uint32_t first = xet_concatenate_span(list, input->count, 0, spans, cut, written);
    uint32_t second = xet_concatenate_span(list, input->count, cut, spans + cut, size - cut, written);
    error = xet_concatenate(list, input->count, out, capacity, written);
    require(error == (first ? first : second) && (error || (*written == size && !memcmp(spans, out, size))),
            "the spans are not the whole");
    free(spans);
    return error;
}

/* A record that no shard may have is told exactly if there is one, and is of a shard of the list. */
static void check_malformed(const struct input *input, const struct block *found, bool is_told) {
    xet_disagreement record;
    memcpy(&record, found->bytes, sizeof record);
    require(is_told || is_filled(found, 0), "the record is touched");
    require(!is_told || (record.first < input->count && record.first == record.second), "the record is of no shard");
}

static bool is_of_two(const struct input *input, const xet_disagreement *it) {
    return it->first < input->count && it->second < input->count && it->first != it->second;
}

/* A disagreement is told exactly if there is one, and names two shards of the list. */
static void check_disagreement(const struct input *input, const struct block *found, size_t differing, bool is_told) {
    xet_disagreement first;
    memcpy(&first, found->bytes, sizeof first);
    require((differing > 0) == is_told, "the count of disagreements is another");
    require(differing > 0 || is_filled(found, 0), "the disagreement is touched");
    require(differing == 0 || is_of_two(input, &first), "the disagreement is not of two shards");
}

static uint32_t merge(const struct input *input, const xet_merge_options *options, void *out, size_t capacity,
                      size_t *written) {
    xet_bytes list[SHARDS];
    list_shards(input, list);
    struct block found = new_struct(input, sizeof(xet_disagreement));
    size_t differing = 12345;
    void *first = found.bytes;
    uint32_t error =
        xet_merge(list, input->count, options, input->version, out, capacity, written, &differing, first);
    if (error == XET_MALFORMED) {
        require(differing == 0, "the count of disagreements is another");
        check_malformed(input, &found, true);
    } else {
        check_disagreement(input, &found, differing, error == XET_DISAGREE);
    }
    require(options->strict || (error != XET_DISAGREE && error != XET_MALFORMED), "a record is refused unasked");
    free_block(&found);
    return within_room(error, bytes_of(list, input->count), *written);
}

static uint32_t call_merge_strictly(const struct input *input, void *out, size_t capacity, size_t *written) {
    const xet_merge_options options = {.strict = true};
    return merge(input, &options, out, capacity, written);
}

/* The range is from the file's hash on, below it, or both, which has no hash; or it has all. */
static xet_merge_options range_of(const struct input *input) {
    xet_merge_options options = {.has_from = input->minimal.verification, .has_to = input->minimal.without_aux_rows};
    memcpy(options.from, input->file.words, sizeof options.from);
    memcpy(options.to, input->file.words, sizeof options.to);
    return options;
}

static uint32_t call_merge_range(const struct input *input, void *out, size_t capacity, size_t *written) {
    xet_merge_options options = range_of(input);
    options.strict = input->subset.all;
    return merge(input, &options, out, capacity, written);
}

/* If a merge by tables of one half of the hashes, and one of the other half, succeed, each has written what it writes
 * without them. */
static void check_both_halves(const struct input *input, const xet_merge_options *half, const void *out,
                              size_t written) {
    xet_bytes list[SHARDS];
    list_shards(input, list);
    xet_merge_options other = *half, plain = *half;
    other.has_from = half->has_to, other.has_to = half->has_from, plain.by_tables = false;
    size_t size, differing;
    xet_disagreement found;
    uint8_t none;
    if (xet_merge(list, input->count, &other, input->version, &none, 0, &size, &differing, &found) != XET_SHORT)
        return;
    uint8_t *again = malloc(written);
    require(again && xet_merge(list, input->count, &plain, input->version, again, written, &size, &differing, &found) ==
                         XET_OK, "without tables nothing is written");
    require(size == written && !memcmp(again, out, written), "by tables something else is written");
    free(again);
}

static uint32_t call_merge_by_tables(const struct input *input, void *out, size_t capacity, size_t *written) {
    xet_merge_options options = range_of(input);
    options.strict = input->subset.all;
    options.by_tables = true;
    uint32_t error = merge(input, &options, out, capacity, written);
    if (error == XET_OK && options.has_from != options.has_to)
        check_both_halves(input, &options, out, *written);
    return error;
}

/* The order of disagreements: those of files first, then by the hash. */
static int compare_disagreements(const xet_disagreement *one, const xet_disagreement *other) {
    if (one->is_xorb != other->is_xorb)
        return one->is_xorb ? 1 : -1;
    for (size_t at = 0; at < 4; at++)
        if (one->hash[at] != other->hash[at])
            return one->hash[at] < other->hash[at] ? -1 : 1;
    return 0;
}

/* All disagreements are in order, each of two shards; a strict merge shows the first, and how many there are, unless it
 * refuses a record of one shard. */
static void check_disagreements(const struct input *input, const xet_disagreement *all, size_t count) {
    const xet_merge_options strict = {.strict = true};
    xet_bytes list[SHARDS];
    list_shards(input, list);
    xet_disagreement first;
    size_t differing, written;
    uint8_t none;
    uint32_t error = xet_merge(list, input->count, &strict, 3, &none, 0, &written, &differing, &first);
    require((error == XET_DISAGREE) == (count > 0) || error == XET_MALFORMED, "a strict merge finds others");
    require(error == XET_MALFORMED || differing == count, "the count of disagreements is another");
    require(error != XET_DISAGREE || compare_disagreements(&first, all) == 0, "the first disagreement is another");
    for (size_t at = 0; at < count; at++) {
        require(is_of_two(input, &all[at]), "a disagreement is not of two shards");
        require(at == 0 || compare_disagreements(&all[at - 1], &all[at]) < 0, "disagreements are out of order");
    }
}

static uint32_t call_find_disagreements(const struct input *input, void *out, size_t capacity, size_t *written) {
    xet_bytes list[SHARDS];
    list_shards(input, list);
    xet_disagreement *all = out;
    uint32_t error = xet_find_disagreements(list, input->count, all, capacity, written);
    if (error != XET_OK)
        return error;
    check_disagreements(input, all, *written);
    /* The bytes between two fields may be any. */
    size_t start = offsetof(xet_disagreement, is_xorb) + sizeof(bool), end = offsetof(xet_disagreement, first);
    for (size_t at = 0; at < *written; at++)
        memset((uint8_t *)&all[at] + start, 0, end - start);
    return error;
}

static uint32_t call_export(const struct input *input, void *out, size_t capacity, size_t *written) {
    uint32_t error = xet_export(SHARD(0), &input->export, input->version, out, capacity, written);
    return within(xet_export_room(input->shards[0].length), error, *written);
}

static uint32_t call_minimal(const struct input *input, void *out, size_t capacity, size_t *written) {
    uint32_t error = xet_minimal(SHARD(0), &input->minimal, input->version, out, capacity, written);
    return within(xet_minimal_room(input->shards[0].length), error, *written);
}

static uint32_t call_subset(const struct input *input, void *out, size_t capacity, size_t *written) {
    const void *xorbs = input->xorbs.bytes;
    size_t count = input->xorbs.length / sizeof(xet_hash);
    uint32_t error = xet_subset(SHARD(0), &input->subset, xorbs, count, input->version, out, capacity, written);
    return within(xet_minimal_room(input->shards[0].length), error, *written);
}

static uint32_t call_convert(const struct input *input, void *out, size_t capacity, size_t *written) {
    uint32_t error = xet_convert(SHARD(0), input->version, out, capacity, written);
    return within(xet_export_room(input->shards[0].length), error, *written);
}

static uint32_t call_complete(const struct input *input, void *out, size_t capacity, size_t *written) {
    uint32_t error = xet_complete(SHARD(0), &input->file, input->version, out, capacity, written);
    return within(xet_export_room(input->shards[0].length), error, *written);
}

static uint32_t call_eligible(const struct input *input, void *out, size_t capacity, size_t *written) {
    return xet_eligible(SHARD(0), out, capacity, written);
}

static uint32_t call_check(const struct input *input, void *out, size_t capacity, size_t *written) {
    return xet_check(SHARD(0), out, capacity, written);
}

static uint32_t call_hash_to_hex(const struct input *input, void *out, size_t capacity, size_t *written) {
    return xet_hash_to_hex(&input->file, out, capacity, written);
}

static uint32_t call_shard_name(const struct input *input, void *out, size_t capacity, size_t *written) {
    return xet_shard_name(&input->file, out, capacity, written);
}

/* The file is filled also if its segments do not fit; of no file all is zero. */
static uint32_t call_find_file(const struct input *input, void *out, size_t capacity, size_t *written) {
    static const xet_file none;
    struct block file = new_struct(input, sizeof(xet_file));
    void *there = file.bytes;
    uint32_t error = xet_find_file(SHARD(0), &input->file, there, out, capacity);
    *written = 0;
    if (error == XET_OK || error == XET_SHORT) {
        xet_file found;
        memcpy(&found, file.bytes, sizeof found);
        *written = found.segments;
        require(found.found || memcmp(file.bytes, &none, sizeof none) == 0, "no file has something");
        require(found.has_sha256 || !memcmp(found.sha256, none.sha256, 32), "no SHA-256 is not zero");
        require(found.has_aux || !memcmp(found.aux_hash, none.aux_hash, 32), "no auxiliary hash is not zero");
    } else {
        require(is_filled(&file, 0), "the file is touched");
    }
    free_block(&file);
    return error;
}

/* What a lookup of each file finds: no error, or that of the first that has one. */
static uint32_t first_refusal(const struct input *input, const xet_hash *hashes, size_t count) {
    xet_file file;
    xet_file_segment none;
    for (size_t at = 0; at < count; at++) {
        uint32_t error = xet_find_file(SHARD(0), &hashes[at], &file, &none, 0);
        if (error != XET_OK && error != XET_SHORT)
            return error;
    }
    return XET_OK;
}

/* A file of a list is as a lookup of it alone shows it. */
static void check_listed(const struct input *input, const xet_hash *hash, const xet_listed_file *listed,
                         const xet_file_segment *segments) {
    static const xet_listed_file none = {.hash = {UINT64_MAX, UINT64_MAX, UINT64_MAX, UINT64_MAX}};
    size_t size = listed->segments * sizeof *segments;
    xet_file file;
    xet_file_segment *own = malloc(size + 1);
    require(own && xet_find_file(SHARD(0), hash, &file, own, listed->segments) == XET_OK, "a file has more segments");
    require(file.segments == listed->segments && !memcmp(own, segments, size), "a file has other segments");
    free(own);
    if (!file.found) {
        require(!memcmp(listed, &none, sizeof none), "a file that is not there has something");
        return;
    }
    require(!memcmp(listed->hash, hash, sizeof *hash) && listed->flags == file.flags, "a file has another hash");
    require(!memcmp(listed->sha256, file.sha256, 32) && !memcmp(listed->aux_hash, file.aux_hash, 32),
            "a file has other rows");
}

/* Looks up the file twice, and between them one with the same first word. */
static uint32_t call_find_files(const struct input *input, void *out, size_t capacity, size_t *written) {
    const xet_hash hashes[] = {input->file, {{input->file.words[0], 0, 0, 0}}, input->file};
    struct block files = new_struct(input, 3 * sizeof(xet_listed_file));
    struct block counted = new_struct(input, sizeof(xet_counts));
    void *there = files.bytes, *counts = counted.bytes;
    uint32_t error = xet_find_files(SHARD(0), hashes, 3, there, 3, out, capacity, counts);
    xet_counts found;
    memcpy(&found, counted.bytes, sizeof found);
    bool is_refused = error != XET_OK && error != XET_SHORT;
    require((is_refused ? error : XET_OK) == first_refusal(input, hashes, 3), "one file has another result");
    require(found.files == (is_refused ? 0 : 3) && !found.xorbs && !found.chunks, "the counts are others");
    require(error == XET_OK || is_filled(&files, 0), "an error touches a file");
    const xet_listed_file *listed = there;
    const xet_file_segment *segments = out;
    for (size_t at = 0; error == XET_OK && at < 3; at++) {
        check_listed(input, &hashes[at], &listed[at], segments);
        segments += listed[at].segments;
    }
    *written = found.segments;
    free_block(&files);
    free_block(&counted);
    return error;
}

/* Room for the records of a shard. */
struct lists {
    struct block files, segments, xorbs, chunks;
};

/* Reads all records into lists with room for so many. If `lacking` is the number of a list, 0 to 3, it has room for one
 * item less. */
static uint32_t read_lists(const struct input *input, xet_counts room, int lacking, struct lists *lists,
                           xet_counts *found) {
    size_t *rooms[] = {&room.files, &room.segments, &room.xorbs, &room.chunks};
    if (lacking >= 0)
        *rooms[lacking] -= 1;
    struct block out = new_struct(input, sizeof(xet_counts));
    *lists = (struct lists){new_struct(input, room.files * sizeof(xet_listed_file)),
                            new_struct(input, room.segments * sizeof(xet_file_segment)),
                            new_struct(input, room.xorbs * sizeof(xet_listed_xorb)),
                            new_struct(input, room.chunks * sizeof(xet_chunk))};
    void *files = lists->files.bytes, *segments = lists->segments.bytes, *xorbs = lists->xorbs.bytes;
    void *chunks = lists->chunks.bytes, *counted = out.bytes;
    uint32_t error = xet_records(SHARD(0), files, room.files, segments, room.segments, xorbs, room.xorbs, chunks,
                                 room.chunks, counted);
    memcpy(found, out.bytes, sizeof *found);
    if (error != XET_OK)
        require(is_filled(&lists->files, 0) && is_filled(&lists->segments, 0) && is_filled(&lists->xorbs, 0) &&
                    is_filled(&lists->chunks, 0),
                "an error touches a list");
    free_block(&out);
    return error;
}

static void free_lists(struct lists *lists) {
    free_block(&lists->files);
    free_block(&lists->segments);
    free_block(&lists->xorbs);
    free_block(&lists->chunks);
}

/* Reads all records, also with one item less of each kind, and writes them. */
static uint32_t call_write(const struct input *input, void *out, size_t capacity, size_t *written) {
    xet_counts counted = {0, 0, 0, 0}, again;
    struct lists lists;
    uint32_t error = read_lists(input, counted, -1, &lists, &counted);
    free_lists(&lists);
    const size_t numbers[] = {counted.files, counted.segments, counted.xorbs, counted.chunks};
    bool is_none = !numbers[0] && !numbers[1] && !numbers[2] && !numbers[3];
    *written = 0;
    if (error != XET_OK && error != XET_SHORT) {
        require(is_none, "the counts of an error are others");
        return error;
    }
    require(is_none == (error == XET_OK), "no room is enough");
    for (int lacking = 0; lacking < 4; lacking++) {
        if (numbers[lacking] == 0)
            continue;
        error = read_lists(input, counted, lacking, &lists, &again);
        free_lists(&lists);
        require(error == XET_SHORT && !memcmp(&again, &counted, sizeof again), "too little room is enough");
    }
    error = read_lists(input, counted, -1, &lists, &again);
    require(error == XET_OK && !memcmp(&again, &counted, sizeof again), "the room is too little");
    const void *files = lists.files.bytes, *segments = lists.segments.bytes, *xorbs = lists.xorbs.bytes;
    const void *chunks = lists.chunks.bytes;
    error = xet_write(files, counted.files, segments, counted.segments, xorbs, counted.xorbs, chunks, counted.chunks,
                      UINT64_MAX, input->version, out, capacity, written);
    free_lists(&lists);
    return within(xet_write_room(counted), error, *written);
}

static uint32_t call_chunk_rows(const struct input *input, void *out, size_t capacity, size_t *written) {
    return xet_chunk_rows(SHARD(0), out, capacity, written);
}

/* A section or a table of the first shard: from where it starts, by the footer, to where the next part starts. If they
 * are not in the shard, it is the whole shard. */
static xet_bytes part_of(const struct input *input, enum xet_part part) {
    xet_info info;
    if (xet_load(SHARD(0), &info) != XET_OK)
        return (xet_bytes){SHARD(0)};
    const uint64_t starts[] = {info.file_section, info.xorb_section, info.file_table,
                               info.xorb_table,   info.chunk_table,  info.footer};
    uint64_t start = starts[part - XET_FILE_SECTION], end = starts[part + 1 - XET_FILE_SECTION];
    if (start > end || end > input->shards[0].length)
        return (xet_bytes){SHARD(0)};
    return (xet_bytes){input->shards[0].bytes + start, (size_t)(end - start)};
}

static uint32_t call_find_rows(const struct input *input, void *out, size_t capacity, size_t *written) {
    xet_bytes table = part_of(input, XET_FILE_TABLE);
    return xet_find_rows(table.bytes, table.length, input->file.words[0], out, capacity, written);
}

static uint32_t call_find_places(const struct input *input, void *out, size_t capacity, size_t *written) {
    xet_bytes table = part_of(input, XET_CHUNK_TABLE);
    const xet_hash *chunk = (const void *)input->chunks.bytes;
    uint64_t word = input->chunks.length ? chunk->words[0] : 0;
    return xet_find_places(table.bytes, table.length, word, out, capacity, written);
}

static const struct filling fillings[] = {
    {"xet_union", 1, OF_MERGING, call_union, AS_ASKED},
    {"xet_difference", 1, OF_MERGING, call_difference, AS_ASKED},
    {"xet_merge_all", 1, OF_MERGING, call_merge_all, AS_ASKED},
    {"xet_merge, strictly", 1, OF_STRICT_MERGING, call_merge_strictly, AS_ASKED},
    {"xet_merge, in a range", 1, OF_STRICT_MERGING, call_merge_range, AS_ASKED},
    {"xet_merge, by tables", 1, OF_STRICT_MERGING, call_merge_by_tables, AS_ASKED},
    {"xet_concatenate", 1, OF_MERGING, call_concatenate, OF_INPUTS},
    {"xet_concatenate_span", 1, OF_MERGING, call_concatenate_span, OF_INPUTS},
    {"xet_find_disagreements", sizeof(xet_disagreement), OF_SECTIONS, call_find_disagreements, NO_SHARD},
    {"xet_export", 1, OF_MERGING, call_export, AS_ASKED},
    {"xet_minimal", 1, OF_MERGING, call_minimal, AS_ASKED},
    {"xet_subset", 1, OF_MERGING, call_subset, AS_ASKED},
    {"xet_convert", 1, OF_MERGING, call_convert, AS_ASKED},
    {"xet_complete", 1, OF_MERGING, call_complete, AS_ASKED},
    {"xet_records and xet_write", 1, OF_MERGING, call_write, AS_ASKED},
    {"xet_eligible", sizeof(xet_hash), OF_SECTIONS, call_eligible, NO_SHARD},
    {"xet_chunk_rows", sizeof(xet_chunk_row), OF_SECTIONS, call_chunk_rows, NO_SHARD},
    {"xet_find_rows", sizeof(uint32_t), BIT(XET_OK) | BIT(XET_INVALID_ARGUMENTS) | BIT(XET_TRUNCATED_HASH_COLLISION),
     call_find_rows, NO_SHARD},
    {"xet_find_places", sizeof(xet_chunk_place), BIT(XET_OK) | BIT(XET_INVALID_ARGUMENTS), call_find_places, NO_SHARD},
    {"xet_check", sizeof(xet_finding), BIT(XET_OK), call_check, NO_SHARD},
    {"xet_find_file", sizeof(xet_file_segment), OF_FINDING, call_find_file, NO_SHARD},
    {"xet_find_files", sizeof(xet_file_segment), OF_FINDING, call_find_files, NO_SHARD},
    {"xet_hash_to_hex", 1, BIT(XET_OK), call_hash_to_hex, NO_SHARD},
    {"xet_shard_name", 1, BIT(XET_OK), call_shard_name, NO_SHARD},
};

struct outcome {
    uint32_t error;
    size_t written;
};

/* Makes a call with room for so many items. What it leaves alone is what xet.h says. */
static struct block filled(const struct filling *filling, const struct input *input, size_t capacity,
                           struct outcome *outcome) {
    struct block out = new_block(capacity * filling->item, input->in_pages);
    size_t written = 12345;
    uint32_t error = filling->call(input, out.bytes, capacity, &written);
    result(error, filling->allowed | BIT(XET_SHORT));
    if (error == XET_OK) {
        require(written <= capacity, "more is written than there is room for");
        require(is_filled(&out, written * filling->item), "what is behind the output is touched");
    } else {
        require(error == XET_SHORT ? written > capacity : written == 0, "the count of an error is another");
        require(is_filled(&out, 0), "an error touches the output");
    }
    *outcome = (struct outcome){error, written};
    return out;
}

/* What a call writes as a shard can be loaded, in the version that was asked for. */
static void check_shard(const struct filling *filling, const struct input *input, const struct block *out,
                        size_t written) {
    xet_info info;
    require(xet_load(out->bytes, written, &info) == XET_OK, "what is written can't be loaded");
    require(filling->version == OF_INPUTS || info.version == input->version, "the version is another");
}

/* Asks for the size, and makes the call with exactly as much room, with more and with too little. */
static void check_filling(const struct filling *filling, const struct input *input, struct random *random) {
    struct outcome asked, outcome;
    called = filling->name;
    struct block none = filled(filling, input, 0, &asked), first = {0};
    free_block(&none);
    bool is_refused = asked.error != XET_OK && asked.error != XET_SHORT;
    size_t rooms[] = {asked.written, asked.written + 1 + below(random, 100), below(random, asked.written)};
    for (size_t at = 0; at < sizeof rooms / sizeof *rooms; at++) {
        struct block out = filled(filling, input, rooms[at], &outcome);
        uint32_t wanted = is_refused ? asked.error : rooms[at] < asked.written ? XET_SHORT : XET_OK;
        require(outcome.error == wanted && outcome.written == asked.written, "the room changes the result");
        if (at == 0) {
            first = out;
            if (!is_refused && filling->version != NO_SHARD)
                check_shard(filling, input, &out, outcome.written);
            continue;
        }
        bool is_same = wanted != XET_OK || !memcmp(out.bytes, first.bytes, first.length);
        require(is_same, "the room changes what is written");
        free_block(&out);
    }
    free_block(&first);
}

static void check_load(const struct input *input) {
    called = "xet_load";
    struct block info = new_struct(input, sizeof(xet_info));
    void *out = info.bytes;
    uint32_t error = result(xet_load(SHARD(0), out), OF_LOADING);
    require(error == XET_OK || is_filled(&info, 0), "an error touches the info");
    free_block(&info);
}

/* A run has no more chunks than there are hashes, and is written exactly if it has one. */
static void check_run(size_t hash_count, uint32_t error, size_t count, const struct block *run) {
    require(count <= hash_count && (error == XET_OK || count == 0), "the count is another");
    require(count > 0 || is_filled(run, 0), "no run is written");
    xet_segment segment;
    memcpy(&segment, run->bytes, sizeof segment);
    require(count == 0 || segment.end - segment.start == count, "the run has another length");
}

static void check_query(const struct input *input) {
    called = "xet_query_chunks";
    struct block run = new_struct(input, sizeof(xet_segment));
    size_t count = 12345, hash_count = input->chunks.length / sizeof(xet_hash);
    const void *hashes = input->chunks.bytes;
    void *out = run.bytes;
    uint32_t error = result(xet_query_chunks(SHARD(0), hashes, hash_count, &count, out), OF_SECTIONS);
    check_run(hash_count, error, count, &run);
    free_block(&run);
}

/* Looks for runs from the first chunks of the shard on, by its table or by its section. */
static void check_query_at(const struct input *input) {
    called = "xet_query_at";
    xet_chunk_row rows[8];
    size_t row_count, hash_count = input->chunks.length / sizeof(xet_hash);
    const void *hashes = input->chunks.bytes;
    xet_chunk_row *all = rows;
    if (xet_chunk_rows(SHARD(0), rows, 8, &row_count) == XET_SHORT) {
        all = malloc(row_count * sizeof *all);
        require(all && xet_chunk_rows(SHARD(0), all, row_count, &row_count) == XET_OK, "the rows are not there");
    }
    for (size_t at = 0; at < row_count && at < 8; at++) {
        struct block run = new_struct(input, sizeof(xet_segment));
        size_t count = 12345;
        void *out = run.bytes;
        uint32_t error = result(xet_query_at(SHARD(0), hashes, hash_count, all[at].row, all[at].index, &count, out),
                                OF_SECTIONS | BIT(XET_INVALID_ARGUMENTS));
        check_run(hash_count, error, count, &run);
        free_block(&run);
    }
    if (all != rows)
        free(all);
}

static void check_find_malformed(const struct input *input) {
    called = "xet_find_malformed";
    xet_bytes list[SHARDS];
    list_shards(input, list);
    struct block found = new_struct(input, sizeof(xet_disagreement)), told = new_struct(input, sizeof(bool));
    void *out = found.bytes;
    uint32_t error = result(xet_find_malformed(list, input->count, (void *)told.bytes, out), OF_SECTIONS);
    require(error == XET_OK || !*told.bytes, "an error tells a record");
    check_malformed(input, &found, *told.bytes);
    free_block(&found);
    free_block(&told);
}

static void check_texts(const struct input *input) {
    struct {
        const char *name;
        uint32_t (*call)(const uint8_t *text, size_t length, xet_hash *hash);
        uint32_t refusal;
    } calls[] = {
        {"xet_hash_from_hex", xet_hash_from_hex, XET_HASH_PARSING},
        {"xet_parse_shard_name", xet_parse_shard_name, XET_BAD_FILENAME},
    };
    for (size_t at = 0; at < 2; at++) {
        called = calls[at].name;
        struct block hash = new_struct(input, sizeof(xet_hash));
        void *out = hash.bytes;
        uint32_t error = calls[at].call(input->text.bytes, input->text.length, out);
        result(error, BIT(XET_OK) | BIT(calls[at].refusal));
        require(error == XET_OK || is_filled(&hash, 0), "an error touches the hash");
        free_block(&hash);
    }
}

/* Both write a hash, and have no error. */
static void check_hashes(const struct input *input) {
    called = "xet_hash_bytes";
    struct block hash = new_struct(input, sizeof(xet_hash));
    void *out = hash.bytes;
    result(xet_hash_bytes(&input->file, input->shards[0].bytes, input->shards[0].length, out), BIT(XET_OK));
    called = "xet_hmac";
    result(xet_hmac(&input->file, &input->file, out), BIT(XET_OK));
    free_block(&hash);
}

/* A call that reads the record at a row of a section. */
struct reading {
    const char *name;
    size_t record, item;
    uint32_t (*call)(const uint8_t *shard, size_t length, uint32_t row, xet_place *place, void *record, void *items,
                     size_t capacity);
    bool (*found)(const void *record, size_t *items);
};

static uint32_t call_file_at(const uint8_t *shard, size_t length, uint32_t row, xet_place *place, void *record,
                             void *items, size_t capacity) {
    return xet_file_at(shard, length, row, place, record, items, capacity);
}

static bool file_found(const void *record, size_t *items) {
    xet_file file;
    memcpy(&file, record, sizeof file);
    *items = file.segments;
    return file.found;
}

static uint32_t call_xorb_at(const uint8_t *shard, size_t length, uint32_t row, xet_place *place, void *record,
                             void *items, size_t capacity) {
    return xet_xorb_at(shard, length, row, place, record, items, capacity);
}

static bool xorb_found(const void *record, size_t *items) {
    xet_xorb xorb;
    memcpy(&xorb, record, sizeof xorb);
    *items = xorb.chunks;
    return xorb.found;
}

static const struct reading readings[] = {
    {"xet_file_at", sizeof(xet_file), sizeof(xet_file_segment), call_file_at, file_found},
    {"xet_xorb_at", sizeof(xet_xorb), sizeof(xet_chunk), call_xorb_at, xorb_found},
};

/* The same of the record at the front of bytes, of which there is one, at row 0. */
static uint32_t call_file_in(const uint8_t *bytes, size_t length, uint32_t row, xet_place *place, void *record,
                             void *items, size_t capacity) {
    return row ? XET_IO : xet_file_in(bytes, length, 3, place, record, items, capacity);
}

static uint32_t call_xorb_in(const uint8_t *bytes, size_t length, uint32_t row, xet_place *place, void *record,
                             void *items, size_t capacity) {
    return row ? XET_IO : xet_xorb_in(bytes, length, place, record, items, capacity);
}

static const struct reading part_readings[] = {
    {"xet_file_in", sizeof(xet_file), sizeof(xet_file_segment), call_file_in, file_found},
    {"xet_xorb_in", sizeof(xet_xorb), sizeof(xet_chunk), call_xorb_in, xorb_found},
};

/* Reads the record at a row with room for so many of its items, and returns the row of the next one, or 0 if there is
 * none. How many items it has is told also where they do not fit. */
static uint64_t check_row(const struct reading *reading, const struct input *input, xet_bytes bytes, uint32_t row,
                          size_t capacity, size_t *items) {
    struct block place = new_struct(input, sizeof(xet_place)), record = new_struct(input, reading->record);
    struct block out = new_struct(input, capacity * reading->item);
    void *there = place.bytes;
    uint32_t error = reading->call(bytes.bytes, bytes.length, row, there, record.bytes, out.bytes, capacity);
    result(error, OF_SECTIONS | BIT(XET_SHORT));
    xet_place found = {.next = 0};
    *items = 0;
    if (error == XET_OK || error == XET_SHORT) {
        memcpy(&found, place.bytes, sizeof found);
        bool is_there = reading->found(record.bytes, items);
        require(is_there ? found.next > row + *items : found.next == row && *items == 0, "the next row is another");
        require((*items > capacity) == (error == XET_SHORT), "the room is another");
        require(is_filled(&out, error == XET_OK ? *items * reading->item : 0), "more is touched than items");
        found.next = is_there ? found.next : 0;
    } else {
        require(is_filled(&place, 0) && is_filled(&record, 0) && is_filled(&out, 0), "an error touches an output");
    }
    free_block(&place);
    free_block(&record);
    free_block(&out);
    return found.next;
}

/* Walks through the first records of a section, at most so many. */
static void check_walk(const struct reading *reading, const struct input *input, xet_bytes bytes, int steps) {
    called = reading->name;
    uint64_t row = 0;
    for (int step = 0; step < steps && row <= UINT32_MAX; step++) {
        size_t items, again;
        uint64_t next = check_row(reading, input, bytes, (uint32_t)row, 0, &items);
        if (next == 0)
            return;
        bool is_same = check_row(reading, input, bytes, (uint32_t)row, items, &again) == next && again == items;
        require(is_same, "a row changes");
        row = next;
    }
}

void make_calls(const struct input *input, struct random *random, struct tally *tally) {
    counts = tally;
    for (size_t at = 0; at < sizeof fillings / sizeof *fillings; at++)
        check_filling(&fillings[at], input, random);
    check_load(input);
    check_query(input);
    check_query_at(input);
    check_find_malformed(input);
    for (int at = 0; at < 2; at++)
        check_walk(&readings[at], input, (xet_bytes){SHARD(0)}, 20);
    check_walk(&part_readings[0], input, part_of(input, XET_FILE_SECTION), 1);
    check_walk(&part_readings[1], input, part_of(input, XET_XORB_SECTION), 1);
    check_texts(input);
    check_hashes(input);
}
