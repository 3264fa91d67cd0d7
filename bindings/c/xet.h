/* Metadata shards of Xet storage, as bytes: the calls of crates/xet_c.
 *
 * Each call takes the bytes of shards, or a hash or its text, and writes to memory of the caller. Nothing is kept
 * between calls: there is no handle, and nothing to free. Shards of versions 2 and 3 of the format are read. Any number
 * of threads may call at once. This file is C99, and C++11.
 *
 * A call returns 0 or the number of an error. If the result is not 0, every output but a count stays as it was: what
 * `out`, `info`, `run`, `file`, `segments` and `hash` point to is not touched, unless a call says otherwise below. A
 * call that fills an array of the caller, `out` of `capacity` items, sets `*written` to the number of items that it
 * wrote, from the front; what is behind them stays. If they do not fit, the result is XET_SHORT and `*written` is the
 * number that is needed: call again with so much room. With any other error `*written` is 0. So `capacity` may be 0 to
 * ask for the size. What an output holds before a call is not read, so it may be uninitialized.
 *
 * A call that writes a shard takes the `version` of the format, 2 or 3: 3 is the usual one, and 2 is for readers that
 * do not know it. XET_INVALID_ARGUMENTS is the result if it is another, which is looked at first, or if it is 2 and a
 * file of the result has an auxiliary row, which version 2 does not have. A field of options that is zero means what is
 * usual: set a struct to zeros, and then what is to differ.
 *
 * Below, the errors of a call are named without those of `version`, without XET_SHORT, which each call with a
 * `capacity` may return, and without XET_OUT_OF_MEMORY, which each may but xet_load, xet_hash_from_hex,
 * xet_parse_shard_name, xet_hash_bytes, xet_hmac and xet_version.
 *
 * xet_export, xet_convert, xet_minimal, xet_subset, xet_eligible, xet_complete and xet_check find the two sections
 * behind the header; all other calls that read a shard's records go by the offsets in the footer. So of bytes with a
 * wrong footer one call may read other records than another. xet_check finds such a footer.
 *
 * What callers must uphold. Each pointer is valid for as many items as its length says, or for one item if it has no
 * length, is aligned for its type, and is not null, also if the length is 0. What an output points to overlaps neither
 * an input nor another output, and no other thread uses it during the call; inputs may be the same memory, and other
 * threads may read them. Each `bool` is 0 or 1. malloc, realloc and free are those of one allocator, whose blocks are
 * aligned for any type, and no call is made from a signal handler, or from the child of a fork of a process with
 * threads. Nothing checks this.
 *
 * What is proved, of callers that do: for any bytes, corrupt ones too, a call returns, its result and its outputs are
 * those that its contract in crates/xet_c/src states, it reads no memory but its inputs and its own, and writes none
 * but its outputs and its own. It never panics or aborts; the stack can run out. What is tested: that a failed
 * allocation is XET_OUT_OF_MEMORY, or that a smaller one serves, and that a call frees what it allocates. This file,
 * the C compiler and malloc are not part of the proof.
 */
#ifndef XET_H
#define XET_H

#define XET_VERSION "0.2.0"
#define XET_VERSION_NUMBER 200 /* 10000 times the first of the three, 100 times the second, and the third */

#include <stdbool.h>
#include <stddef.h>
#include <stdint.h>

#ifdef __cplusplus
extern "C" {
#endif

/* Why a call failed. No call returns those that are marked with a star. */
enum xet_error {
    XET_OK = 0,
    XET_IO = 1,                       /* the bytes end too early, or verification rows are missing */
    XET_INTERNAL_ERROR = 2,           /* a row of a table leads to the end of a section */
    XET_OTHER = 3,                    /* * */
    XET_TRUNCATED_HASH_COLLISION = 4, /* eight or more files share the first word of the hash */
    XET_SHARD_VERSION = 5,            /* another tag, or another version of the header or the footer */
    XET_BAD_FILENAME = 6,             /* a text is not the name of a shard file */
    XET_SHARD_NOT_FOUND = 7,          /* * */
    XET_FILE_NOT_FOUND = 8,           /* * */
    XET_QUERY_FAILED = 9,             /* * */
    XET_SMUDGE_QUERY_POLICY = 10,     /* * */
    XET_INVALID_SHARD = 11,           /* the bytes are not a valid shard, or two shards have no union */
    XET_INVALID_RANGE = 12,           /* * */
    XET_INVALID_ARGUMENTS = 13,       /* the call does not admit its arguments, as keys that differ */
    XET_MALFORMED_DATA = 14,          /* * */
    XET_HASH_MISMATCH = 15,           /* * */
    XET_HASH_PARSING = 16,            /* a text is not the digits of a hash */
    XET_CHUNK_HEADER_PARSE = 17,      /* * */
    XET_OUT_OF_MEMORY = 18,           /* an allocation failed */
    XET_SHORT = 19,                   /* the output does not fit the room that was given */
    XET_DISAGREE = 20,                /* two shards that have to agree do not */
    XET_MALFORMED = 21                /* a shard that has to be well-formed is not */
};

/* The name of an error, as "InvalidShard"; "Ok" of 0 and "Unknown" of other numbers. */
static inline const char *xet_error_name(uint32_t error) {
    static const char *const names[] = {
        "Ok", "Io", "InternalError", "Other", "TruncatedHashCollision", "ShardVersion", "BadFilename", "ShardNotFound",
        "FileNotFound", "QueryFailed", "SmudgeQueryPolicy", "InvalidShard", "InvalidRange", "InvalidArguments",
        "MalformedData", "HashMismatch", "HashParsing", "ChunkHeaderParse", "OutOfMemory", "Short",
        "Disagree", "Malformed",
    };
    return error < sizeof names / sizeof *names ? names[error] : "Unknown";
}

/* What an error means, in a sentence without a point; of a number that no call returns, "unknown error". */
static inline const char *xet_error_text(uint32_t error) {
    switch (error) {
    case XET_OK: return "no error";
    case XET_IO: return "the bytes end too early, or verification rows are missing";
    case XET_INTERNAL_ERROR: return "a row of a table leads to the end of a section";
    case XET_TRUNCATED_HASH_COLLISION: return "eight or more files share the first word of the hash";
    case XET_SHARD_VERSION: return "the bytes have another tag or version than a shard";
    case XET_BAD_FILENAME: return "the text is not the name of a shard file";
    case XET_INVALID_SHARD: return "the bytes are not a valid shard, or two shards have no union";
    case XET_INVALID_ARGUMENTS: return "the call does not admit its arguments, as keys that differ";
    case XET_HASH_PARSING: return "the text is not the digits of a hash";
    case XET_OUT_OF_MEMORY: return "an allocation failed";
    case XET_SHORT: return "the output does not fit the room that was given";
    case XET_DISAGREE: return "two shards that have to agree do not";
    case XET_MALFORMED: return "a shard that has to be well-formed is not";
    default: return "unknown error";
    }
}

/* A hash of 32 bytes, as four words: word 0 is the first eight bytes, lowest byte first, and so on. As text a shard's
 * hash is words 0, 1, 2 and 3, each as sixteen hexadecimal digits, highest first. */
typedef struct xet_hash {
    uint64_t words[4];
} xet_hash;

/* The bytes of a shard in memory. */
typedef struct xet_bytes {
    const uint8_t *bytes;
    size_t length;
} xet_bytes;

/* Chunks `start` to `end`, without `end`, of a xorb, and their bytes unpacked. */
typedef struct xet_segment {
    uint64_t xorb[4];
    uint32_t flags;
    uint32_t bytes;
    uint32_t start;
    uint32_t end;
} xet_segment;

/* What the header and the footer of a shard say. */
typedef struct xet_info {
    uint64_t version;              /* of the format: 2 or 3 */
    uint64_t files;                /* the rows of the table of files, 0 if it is left out */
    uint64_t xorbs;                /* the same of xorbs */
    uint64_t chunks;               /* the same of chunks */
    uint64_t key[4];               /* of the chunk hashes; all 0: they are not keyed */
    uint64_t creation;             /* seconds */
    uint64_t expiry;               /* seconds; none: UINT64_MAX, or 0 in minimal shards and subsets */
    uint64_t stored_bytes_on_disk; /* of all xorbs */
    uint64_t materialized_bytes;   /* of all files */
    uint64_t stored_bytes;         /* of all xorbs, unpacked */
    /* Where the parts start, in bytes from the front of the shard. A table ends where the next part starts; its rows
     * have 12 bytes, in the chunk table 16. A row of a section has 48. */
    uint64_t file_section;
    uint64_t xorb_section;
    uint64_t file_table;
    uint64_t xorb_table;
    uint64_t chunk_table;
    uint64_t footer;
    uint64_t footer_size;    /* as the header has it; the footer has 200 bytes, whatever this is */
    uint64_t footer_version; /* 1 */
    uint64_t reserved[6];    /* of the footer */
} xet_info;

/* Reads the header and the footer of a shard: its first 48 and its last 200 bytes. So `shard` may be these 248 bytes,
 * without what lies between them.
 *
 * XET_SHARD_VERSION: the tag is another, the version is neither 2 nor 3, or that of the footer is not 1.
 * XET_IO: there are too few bytes for a header and a footer. */
uint32_t xet_load(const uint8_t *shard, size_t length, xet_info *info);

/* The room that is enough for xet_merge of shards of so many bytes in all, whatever they hold, and for xet_difference
 * if its second shard has so many: 344 bytes, and 8/3 of these. */
static inline size_t xet_union_room(size_t bytes) {
    return bytes / 3 > (SIZE_MAX - 352) / 8 ? SIZE_MAX : 352 + bytes / 3 * 8;
}

/* The room that is enough for xet_export, xet_convert and xet_complete of so many bytes: 344, and 4/3 of these. */
static inline size_t xet_export_room(size_t bytes) {
    return bytes / 3 > (SIZE_MAX - 348) / 4 ? SIZE_MAX : 348 + bytes / 3 * 4;
}

/* The room that is enough for xet_minimal and xet_subset of a shard of so many bytes: 200 bytes more. */
static inline size_t xet_minimal_room(size_t bytes) {
    return bytes > SIZE_MAX - 200 ? SIZE_MAX : bytes + 200;
}

/* A hash under which two shards have records that do not agree, that of a xorb or of a file, and the places of two such
 * shards in the list, from 0 on. Of a record that no shard may have it is the hash, and the place of its shard
 * twice. */
typedef struct xet_disagreement {
    uint64_t hash[4];
    bool is_xorb;
    size_t first;
    size_t second;
} xet_disagreement;

/* Which records are merged, and what is asked of them. All zero: all records of any shards. */
typedef struct xet_merge_options {
    uint64_t from[4]; /* if `has_from` is set, only records whose hash is not below it */
    uint64_t to[4];   /* if `has_to` is set, only records whose hash is below it */
    bool has_from;
    bool has_to;
    bool strict;    /* these records have to be well-formed, and to agree wherever two have one hash */
    bool by_tables; /* these records are looked for where the tables of the shards say that they are */
} xet_merge_options;

/* Writes the union of one shard or more: the records of all under one key, with all tables, creation 0 and no expiry.
 * It is written to `out` itself, when all that can fail is done.
 *
 * Under each hash it has what is made of the records there by uniting the first half of the list with the second, each
 * made in the same way. Of two files it has the record whose flags have all of the other's, the first's if both do;
 * else the first's segments, with each optional part from the first where it has it, else from the second. Of two xorbs
 * it has the first's. If the sections of the inputs hold well-formed shards that agree pairwise, all this makes no
 * difference: the result is the bytes of their join, which has no order, or fails for memory or for too many rows.
 *
 * With `strict` nothing need be known of the inputs: the result is such a join, or an error. If it is XET_MALFORMED, a
 * record is one that xet_find_malformed looks for, and `found` shows it as that does. If it is XET_DISAGREE,
 * `*differing` is how many hashes have records that do not agree, and `found` is the first that xet_find_disagreements
 * would write. With any other result, and without `strict`, `*differing` is 0, and `found` stays.
 *
 * With a range of hashes each record counts by its own hash, files by that of the file and xorbs by that of the xorb.
 * Records outside of the range need not be well-formed, agree or have a union. Hashes are ordered by their first word,
 * then by the second, the third and the fourth, each as a number. So each range may be merged by a thread or a machine
 * of its own: xet_concatenate makes one shard of the results for ranges that follow one another, and of a join this is
 * the one merge.
 *
 * A merge reads all records of all shards. With `by_tables` it reads those alone that lie where a search for the bounds
 * in their tables leads. The tables are not trusted. Make calls for ranges that follow one another, the first without
 * `from` and the last without `to`. If all of them succeed, each has written what it writes without `by_tables`. If one
 * fails, make all without: they give the error, or the bytes of shards without tables.
 *
 * With `strict` errors come in this order: the first input that cannot be read, or whose records are not well-formed,
 * decides; then come records that do not agree, keys that differ, what has no union, an auxiliary row in version 2, and
 * XET_SHORT. Without it any of several causes may be told. If a merge fails so, merges of each shard alone, with
 * `capacity` 0, find the one that is at fault: XET_SHORT means that it is not. If none is, and the keys are one, two
 * files cannot be combined, and xet_find_disagreements writes which, or there are too many rows.
 *
 * XET_SHARD_VERSION, XET_IO: the errors of xet_load, of any shard; XET_IO also if a section ends too early.
 * XET_INVALID_SHARD: the hashes of a section do not ascend, a file has a row that its version does not have, or a
 *     section, here or in the union, has more than 4294967295 rows; or two files that have to be combined have
 *     different numbers of segments.
 * XET_INVALID_ARGUMENTS: there is no shard, or the keys differ; with `by_tables` also if a table leads to anything but
 *     whole records of the range with ascending hashes.
 * XET_DISAGREE, XET_MALFORMED. */
uint32_t xet_merge(const xet_bytes *shards, size_t count, const xet_merge_options *options, uint64_t version,
                   uint8_t *out, size_t capacity, size_t *written, size_t *differing, xet_disagreement *found);

/* Writes the union of all records of one shard or more: xet_merge without options. */
static inline uint32_t xet_merge_all(const xet_bytes *shards, size_t count, uint64_t version, uint8_t *out,
                                     size_t capacity, size_t *written) {
    const xet_merge_options options = {{0}, {0}, false, false, false, false};
    size_t differing;
    xet_disagreement found;
    return xet_merge(shards, count, &options, version, out, capacity, written, &differing, &found);
}

/* Writes the union of two shards: xet_merge_all of both. */
static inline uint32_t xet_union(const uint8_t *first, size_t first_length, const uint8_t *second,
                                 size_t second_length, uint64_t version, uint8_t *out, size_t capacity,
                                 size_t *written) {
    const xet_bytes shards[2] = {{first, first_length}, {second, second_length}};
    return xet_merge_all(shards, 2, version, out, capacity, written);
}

/* Writes the difference of two shards of one key: the second's records whose hashes the first does not have.
 *
 * The errors are those of xet_merge, without that of files that have to be combined. */
uint32_t xet_difference(const uint8_t *first, size_t first_length, const uint8_t *second, size_t second_length,
                        uint64_t version, uint8_t *out, size_t capacity, size_t *written);

/* Writes all hashes under which two of the shards have records that do not agree, each once: those of files before
 * those of xorbs, and each in ascending order. Two files agree if they have equal segments, and an equal optional part
 * wherever both have it, and two xorbs if they are equal. The keys of the shards do not count.
 *
 * XET_SHARD_VERSION, XET_IO, XET_INVALID_SHARD: the errors of xet_merge that one of the shards alone is the cause
 * of. */
uint32_t xet_find_disagreements(const xet_bytes *shards, size_t count, xet_disagreement *out, size_t capacity,
                                size_t *written);

/* Looks for a record that no shard may have: a file whose header has a reserved word that is not 0, or flags but those
 * of verification rows, a metadata row and an auxiliary row (bits 31, 30 and 29), or a xorb whose chunks have more than
 * 4294967295 bytes together. A shard without such a record is well-formed. A union keeps the reserved word and the
 * flags of one of its inputs, and whether records agree does not depend on them, so with such a record the order of a
 * merge may count.
 *
 * `*malformed` says whether one of the shards has such a record, and `found` shows one of the first shard that does. If
 * there is none, or with an error, `*malformed` is false, and `found` stays.
 *
 * The errors are those of xet_find_disagreements, without XET_SHORT. */
uint32_t xet_find_malformed(const xet_bytes *shards, size_t count, bool *malformed, xet_disagreement *found);

/* Writes the shard that has the records of one shard or more, in their order, with all tables, under the key of all and
 * without timestamps, in version 2 if all have it, else in version 3. The hashes of files have to ascend from each
 * shard to the next, and so have those of xorbs; a shard may have none of either. So it puts together what xet_merge
 * writes for ranges that follow one another, the first without `from` and the last without `to`: if the merged shards
 * are well-formed and agree, it is the bytes of the one merge. Of shards as this library writes them with all tables,
 * whose hashes ascend so and which have together at most 4294967295 rows a section, it fails for memory alone.
 *
 * Records are copied and not checked: of shards that are not trusted xet_check tells what is wrong with what is made of
 * them. `out` needs no more room than such shards have bytes in all. They are written to `out` at once, after all
 * tables were read a first time; beyond that it takes some hundred bytes of memory a shard.
 *
 * XET_INVALID_ARGUMENTS: there is no shard, the keys differ, or hashes do not ascend from one shard to the next.
 * XET_SHARD_VERSION, XET_IO: the errors of xet_load, of any of the shards.
 * XET_INVALID_SHARD: the tables of files and of xorbs do not have the rows that the footer counts, a section has not
 *     the last record that its table names, as in shards that lack tables, the rows of a section pass 4294967295 or a
 *     sum of bytes 64 bits, or the rows of a table of chunks do not ascend, or are not as many as the chunks. */
uint32_t xet_concatenate(const xet_bytes *shards, size_t count, uint8_t *out, size_t capacity, size_t *written);

/* Writes the `length` bytes from the offset `from` on of what xet_concatenate writes, and sets `*size` to the size of
 * the whole, also if they pass its end. So threads write a concatenation side by side: spans that follow one another
 * from 0 to the size are the whole if all succeed. A call with `length` 0 asks for the size alone.
 *
 * Each call reads and tests all tables of files and of xorbs, and of the tables of chunks the rows that the span has,
 * with some around them. So a table of chunks that does not ascend is found by one of the spans that are the whole.
 * Beside `out` a call takes memory for these rows and for the tables of files and of xorbs. The table of chunks is the
 * last before the footer, 16 bytes for each chunk. To merge a byte of it takes about as long as to copy 24, so let
 * spans that have more of it be shorter.
 *
 * XET_INVALID_ARGUMENTS: also if the span passes the end of the whole; with other causes `*size` is 0. The other errors
 *     are those of xet_concatenate. */
uint32_t xet_concatenate_span(const xet_bytes *shards, size_t count, size_t from, uint8_t *out, size_t length,
                              size_t *size);

/* What an export is to have. With flags of zero it has all parts. */
typedef struct xet_export_options {
    uint64_t key[4];        /* of the chunk hashes; zeros leave them as they are */
    uint64_t now;           /* the creation of the export, in seconds */
    uint64_t valid_seconds; /* it expires so many seconds later */
    bool without_files;     /* has neither files nor their table */
    bool without_aux_rows;  /* files have no auxiliary rows */
    bool without_xorb_table;
    bool without_chunk_table;
} xet_export_options;

/* Writes a shard with each chunk hash replaced by its keyed hash, and with the parts that are asked for.
 *
 * XET_SHARD_VERSION, XET_IO: the errors of xet_load; XET_IO also if a section ends too early.
 * XET_INVALID_ARGUMENTS: the chunk hashes are keyed already, or `now` and `valid_seconds` add up to 2^64 or more.
 * XET_INVALID_SHARD: a file has a row that its version does not have, or a section more than 4294967295 rows. */
uint32_t xet_export(const uint8_t *shard, size_t length, const xet_export_options *options, uint64_t version,
                    uint8_t *out, size_t capacity, size_t *written);

/* What a minimal shard is to have. */
typedef struct xet_minimal_options {
    uint64_t now;          /* its creation, in seconds */
    bool verification;     /* files have verification rows, which each has to have in the shard */
    bool without_aux_rows; /* files have no auxiliary rows */
} xet_minimal_options;

/* Writes the records of a shard without tables, with expiry 0, and with a mark at each chunk at which a file starts. So
 * it agrees with the shard, and so does a subset of it, only if each such chunk had its mark before. Only the header
 * and the sections are read, so the shard may end after them.
 *
 * XET_SHARD_VERSION: the tag is another, or the version is neither 2 nor 3.
 * XET_IO: the bytes end before the sections do; or verification rows are asked for and a file has none.
 * XET_INVALID_SHARD: a file has a row that its version does not have, or a section more than 4294967295 rows. */
uint32_t xet_minimal(const uint8_t *shard, size_t length, const xet_minimal_options *options, uint64_t version,
                     uint8_t *out, size_t capacity, size_t *written);

/* What a subset is to have. */
typedef struct xet_subset_options {
    uint64_t now;    /* its creation, in seconds */
    uint64_t expiry; /* in seconds; 0: none */
    bool all;        /* has all xorbs, whatever is listed */
} xet_subset_options;

/* Writes the xorbs of a shard with these hashes, and no files, without tables, and with a mark at each chunk at which a
 * file starts. A hash that no xorb has is passed over. Only the header and the sections are read.
 *
 * The errors are those of xet_minimal, without that of verification rows. No file is left that could have an auxiliary
 * row, so each shard has a subset in version 2. */
uint32_t xet_subset(const uint8_t *shard, size_t length, const xet_subset_options *options, const xet_hash *xorbs,
                    size_t xorb_count, uint64_t version, uint8_t *out, size_t capacity, size_t *written);

/* Writes the same shard in a version of the format: its records in their order, with its key and its times, and the
 * tables of which the footer says that they have rows.
 *
 * XET_SHARD_VERSION, XET_IO: the errors of xet_load; XET_IO also if a section ends too early.
 * XET_INVALID_SHARD: a file has a row that its version does not have, or a section more than 4294967295 rows. */
uint32_t xet_convert(const uint8_t *shard, size_t length, uint64_t version, uint8_t *out, size_t capacity,
                     size_t *written);

/* Writes the whole shard of which these bytes have the header and both sections, whatever comes after these: bytes of a
 * stream that end before the tables do, a minimal shard, or a shard with a wrong footer. It has all tables, creation 0
 * and no expiry. `key` is the one that the chunk hashes are under, which the footer then says; zeros are no key. So
 * each other call can be made on the result.
 *
 * The errors are those of xet_minimal, without that of verification rows. */
uint32_t xet_complete(const uint8_t *shard, size_t length, const xet_hash *key, uint64_t version, uint8_t *out,
                      size_t capacity, size_t *written);

/* Looks for a run of chunks with these hashes, which are not keyed, also if the shard's are. `*count` is how many
 * chunks, from the first hash on, a xorb has one after another, and `run` says where. If there is none, `*count` is 0
 * and `run` stays as it is: no hash is given, the shard has no table of chunks, or none of at most eight rows in it
 * with the first word of the first hash leads to a chunk with that hash. With an error `*count` is 0, and `run` stays.
 *
 * XET_SHARD_VERSION, XET_IO: the errors of xet_load; XET_IO also if a row that is read ends too early.
 * XET_INVALID_SHARD: a row of the table leads to no chunk, or a number does not fit its width. */
uint32_t xet_query_chunks(const uint8_t *shard, size_t length, const xet_hash *hashes, size_t hash_count, size_t *count,
                          xet_segment *run);

/* Looks for the run of these hashes, which are not keyed, that starts at one chunk: at an index of the xorb at a row of
 * the xorb section. An index over many shards says where the first word of the first hash is. `*count` is how many
 * chunks from there on have the hashes, one by one, and `run` says where they are. If no hash is given, or the chunk
 * has another hash than the first, `*count` is 0 and `run` stays as it is. With an error `*count` is 0, and `run`
 * stays.
 *
 * XET_SHARD_VERSION, XET_IO: the errors of xet_load; XET_IO also if a row that is read ends too early.
 * XET_INVALID_ARGUMENTS: there is no xorb at the row, since the section ends there, or it has no chunk at the index.
 * XET_INVALID_SHARD: a number does not fit its width. */
uint32_t xet_query_at(const uint8_t *shard, size_t length, const xet_hash *hashes, size_t hash_count, uint32_t row,
                      uint32_t index, size_t *count, xet_segment *run);

/* A row of a chunk table, as it lies in a shard: the first word of the chunk's hash, the row of the xorb section at
 * which its xorb starts, and its index among the chunks of the xorb. */
typedef struct xet_chunk_row {
    uint64_t word;
    uint32_t row;
    uint32_t index;
} xet_chunk_row;

/* Writes where the chunks of a shard are, for an index over many shards: the rows of its chunk table, or, if that is
 * left out, the rows that it would have, in the order of the xorb section. Where the shard has a key, each word is that
 * of a hash under it, as xet_hmac makes it. `capacity` and `*written` count rows.
 *
 * XET_SHARD_VERSION, XET_IO: the errors of xet_load; XET_IO also if the table or the section ends too early.
 * XET_INVALID_SHARD: there are more than 4294967295 rows. */
uint32_t xet_chunk_rows(const uint8_t *shard, size_t length, xet_chunk_row *out, size_t capacity, size_t *written);

/* Writes the hashes of the chunks that the global index keeps, each once and in ascending order: chunks that are
 * marked, those whose word 3 is a multiple of 1024, and those at which a file starts. Only the header and the sections
 * are read. `capacity` and `*written` count hashes, which are at most `length` / 48.
 *
 * XET_SHARD_VERSION: the tag is another, or the version is neither 2 nor 3.
 * XET_IO: the bytes end before the sections do.
 * XET_INVALID_SHARD: a file has a row that the version does not have, or a section more than 4294967295 rows. */
uint32_t xet_eligible(const uint8_t *shard, size_t length, xet_hash *out, size_t capacity, size_t *written);

/* A segment of a file, and the hash of its verification row, or zeros where the file has none. */
typedef struct xet_file_segment {
    xet_segment segment;
    uint64_t verification[4];
} xet_file_segment;

/* A file's record: its flags, the number of its segments, whether these have verification hashes, its SHA-256 and its
 * auxiliary hash, or zeros where it has none, and its reserved word. If there is no such file, `found` is false and all
 * else is zero. */
typedef struct xet_file {
    bool found;
    bool has_verification;
    bool has_sha256;
    bool has_aux;
    uint32_t flags;
    size_t segments;
    uint64_t sha256[4];
    uint64_t aux_hash[4];
    uint64_t reserved;
} xet_file;

/* Looks up the file with this hash by the table of files: a shard without that table, as a minimal shard, has no file
 * for this call, whatever its section has. Writes the file's segments to the front of `segments`, which has room for
 * `capacity`. With XET_SHORT they do not fit and `segments` stays as it is, but `file` is filled: `file->segments` is
 * the room that is needed. With any other error `file` stays as well.
 *
 * XET_SHARD_VERSION, XET_IO: the errors of xet_load; XET_IO also if a row that is read ends too early.
 * XET_TRUNCATED_HASH_COLLISION: eight or more files share the first word of the hash.
 * XET_INTERNAL_ERROR: a row of the table of files leads to the end of the section.
 * XET_INVALID_SHARD: the file has a row that the version does not have, or a number does not fit its width. */
uint32_t xet_find_file(const uint8_t *shard, size_t length, const xet_hash *hash, xet_file *file,
                       xet_file_segment *segments, size_t capacity);

/* Where a record is: its hash, its flags, and the row at which the next one is. */
typedef struct xet_place {
    uint64_t hash[4];
    uint32_t flags;
    uint64_t next;
} xet_place;

/* Reads the record at a row of the file section, and writes its segments to the front of `segments`, which has room for
 * `capacity`. The first record is at row 0, and the next one at `place->next`. At the end of the section there is no
 * file: `file->found` is false, all else is zero, and `place->next` is the row itself. With XET_SHORT the segments do
 * not fit and `segments` stays as it is, but `place` and `file` are filled. With any other error all outputs stay.
 *
 * XET_SHARD_VERSION, XET_IO: the errors of xet_load; XET_IO also if the bytes end before the record does.
 * XET_INVALID_SHARD: the file has a row that the version does not have, or a number does not fit its width. */
uint32_t xet_file_at(const uint8_t *shard, size_t length, uint32_t row, xet_place *place, xet_file *file,
                     xet_file_segment *segments, size_t capacity);

/* A xorb's record: its bytes, unpacked and on disk, and the number of its chunks. */
typedef struct xet_xorb {
    bool found;
    uint32_t bytes;
    uint32_t bytes_on_disk;
    size_t chunks;
} xet_xorb;

/* A chunk of a xorb: its hash, the offset and the number of its bytes, unpacked, its flags, and its reserved word. */
typedef struct xet_chunk {
    uint64_t hash[4];
    uint32_t start;
    uint32_t bytes;
    uint32_t flags;
    uint32_t reserved;
} xet_chunk;

/* The same of the xorb section. The errors are those of xet_file_at. */
uint32_t xet_xorb_at(const uint8_t *shard, size_t length, uint32_t row, xet_place *place, xet_xorb *xorb,
                     xet_chunk *chunks, size_t capacity);

/* Lookups in a shard of which only parts were read. xet_load reads both ends, and its `info` says where the other parts
 * are.
 *
 * xet_find_rows looks in the bytes of a file table, or of a xorb table, for the first word of a hash, and writes the
 * rows of the section at which records with such a hash start: 7 at most. A row is 48 bytes, so the file at row 5
 * starts at `info.file_section` + 5 * 48. Part of a table is enough, if it has all rows with the word: rows ascend by
 * their words, and have 12 bytes, 16 in a chunk table.
 *
 * XET_INVALID_ARGUMENTS: the bytes are no whole rows.
 * XET_TRUNCATED_HASH_COLLISION: eight or more rows have the word. */
uint32_t xet_find_rows(const uint8_t *table, size_t length, uint64_t word, uint32_t *rows, size_t capacity,
                       size_t *written);

/* Where a chunk is: the row of the xorb section at which its xorb starts, and its index among the chunks there. */
typedef struct xet_chunk_place {
    uint32_t row;
    uint32_t index;
} xet_chunk_place;

/* The same of a chunk table, and of the first word of a chunk's hash, which is keyed if the shard has a key. Writes 8
 * places at most, as many as a query looks at.
 *
 * XET_INVALID_ARGUMENTS: the bytes are no whole rows. */
uint32_t xet_find_places(const uint8_t *table, size_t length, uint64_t word, xet_chunk_place *places, size_t capacity,
                         size_t *written);

/* Reads the file's record at the front of some bytes, as xet_file_at reads the one at a row: the bytes of a shard from
 * that row on, as many as the record has or more. `place->next` is how many rows it has. Its hash is to be compared
 * with the one that was looked for. `version` is that of the shard.
 *
 * XET_IO: the bytes end before the record does, so more are needed.
 * XET_INVALID_ARGUMENTS: the version is neither 2 nor 3.
 * XET_INVALID_SHARD: the file has a row that the version does not have, or more rows than 32 bits count. */
uint32_t xet_file_in(const uint8_t *bytes, size_t length, uint64_t version, xet_place *place, xet_file *file,
                     xet_file_segment *segments, size_t capacity);

/* The same of a xorb, which is alike in both versions. The errors are those of xet_file_in, without
 * XET_INVALID_ARGUMENTS. */
uint32_t xet_xorb_in(const uint8_t *bytes, size_t length, xet_place *place, xet_xorb *xorb, xet_chunk *chunks,
                     size_t capacity);

/* A file of a list: its hash, its SHA-256 and its auxiliary hash, or zeros where it has none, its flags, and how many
 * items of the list of segments are its own. The flags say what it has: bit 31 verification hashes, 30 a SHA-256, 29 an
 * auxiliary hash. The first file has the first segments of the list, the second the segments behind them, and so on. */
typedef struct xet_listed_file {
    uint64_t hash[4];
    uint64_t sha256[4];
    uint64_t aux_hash[4];
    uint32_t flags;
    uint32_t segments;
} xet_listed_file;

/* A xorb of a list: its hash, its flags, how many items of the list of chunks are its own, and its bytes, unpacked and
 * on disk. Its chunks start where those of the xorb before it end. */
typedef struct xet_listed_xorb {
    uint64_t hash[4];
    uint32_t flags;
    uint32_t chunks;
    uint32_t bytes;
    uint32_t bytes_on_disk;
} xet_listed_xorb;

/* How many files, segments, xorbs and chunks there are in four lists. */
typedef struct xet_counts {
    size_t files;
    size_t segments;
    size_t xorbs;
    size_t chunks;
} xet_counts;

/* Reads all records of the sections to which the footer leads, also of a shard without tables, and writes them to the
 * fronts of four lists: files in the order of their section, their segments, xorbs, and their chunks. Where the shard
 * has a key, the chunk hashes are under it. Reserved words of files are not shown. `counts` says how many items each
 * list has. With XET_SHORT a list has too little room, and all lists stay as they are, so a call with all capacities 0
 * asks for the counts. With any other error the counts are 0.
 *
 * XET_SHARD_VERSION, XET_IO: the errors of xet_load; XET_IO also if a section ends too early.
 * XET_INVALID_SHARD: a file has a row that the version does not have, or a section more than 4294967295 rows. */
uint32_t xet_records(const uint8_t *shard, size_t length, xet_listed_file *files, size_t file_capacity,
                     xet_file_segment *segments, size_t segment_capacity, xet_listed_xorb *xorbs, size_t xorb_capacity,
                     xet_chunk *chunks, size_t chunk_capacity, xet_counts *counts);

/* Looks up `count` files as xet_find_file does each, and writes to the fronts of two lists a file for each hash, in
 * their order, and the segments of all. A file that is not found has a hash of all ones, which no file of a shard has,
 * and zeros else. `counts` says how many files, which is `count`, and segments there are; it has no xorbs or chunks.
 * With XET_SHORT a list has too little room, and both stay as they are. With any other error the counts are 0.
 *
 * The errors are those of xet_find_file, of one of the hashes: if one lookup fails, none is shown. Without a hash
 * nothing is read. */
uint32_t xet_find_files(const uint8_t *shard, size_t length, const xet_hash *hashes, size_t count,
                        xet_listed_file *files, size_t file_capacity, xet_file_segment *segments,
                        size_t segment_capacity, xet_counts *counts);

/* Writes the shard that has these files and xorbs, with all tables and without a key. The records may be in any order.
 * Of two files, or two xorbs, with one hash the later one counts. Reserved words of files are zeros; the hashes of
 * parts that a file's flags do not name are not read. `expiry` is in seconds, and UINT64_MAX means none.
 *
 * So take a shard without a key, as this library writes it with all tables and creation 0, in which reserved words of
 * files are zeros. The lists that xet_records makes of it are written as the bytes of the same shard, in the version
 * and with the expiry given.
 *
 * XET_INVALID_ARGUMENTS: the files' numbers of segments do not add up to the number of segments, or those of chunks to
 *     that of chunks; or there is no such shard: a hash is all ones, a file has flags of no known part, the chunks of a
 *     xorb have more than 4294967295 bytes in all, or the rows of the files, or of the xorbs, would pass 4294967295. */
uint32_t xet_write(const xet_listed_file *files, size_t file_count, const xet_file_segment *segments,
                   size_t segment_count, const xet_listed_xorb *xorbs, size_t xorb_count, const xet_chunk *chunks,
                   size_t chunk_count, uint64_t expiry, uint64_t version, uint8_t *out, size_t capacity,
                   size_t *written);

/* The room that is enough for xet_write of so many records: 344 bytes, 156 for a file, 96 for a segment, 60 for a xorb
 * and 64 for a chunk. */
static inline size_t xet_write_room(xet_counts counts) {
    const size_t most = SIZE_MAX / 1024;
    return counts.files > most || counts.segments > most || counts.xorbs > most || counts.chunks > most
               ? SIZE_MAX
               : 344 + 156 * counts.files + 96 * counts.segments + 60 * counts.xorbs + 64 * counts.chunks;
}

/* What is wrong with the bytes of a shard. XET_NO_TAG and XET_OTHER_VERSION have the part XET_HEADER, XET_NO_FOOTER has
 * XET_FOOTER, and XET_TOO_SHORT and XET_OTHER_SIZE have none. A kind that has no part or number has 0 there. */
enum xet_finding_kind {
    XET_NO_TAG = 1,       /* the first 32 bytes are not the tag of a shard */
    XET_OTHER_VERSION,    /* the header has the version `number`, which is neither 2 nor 3 */
    XET_NO_FOOTER,        /* the last 200 bytes are no footer: the bytes were cut or lengthened */
    XET_TOO_SHORT,        /* there are too few bytes for a header and a footer */
    XET_CUT,              /* the bytes end before the section `part` does */
    XET_REFUSED,          /* the section has a header that the version does not have, or more than 4294967295 rows */
    XET_OUT_OF_ORDER,     /* the hash of record `number` of the section, from 0 on, is not above the one before; of
                           * each section the first such record alone is a finding */
    XET_DIFFERS,          /* the part is not what the records imply; of a section, its end is not */
    XET_OTHER_SIZE,       /* the size is not `number`, which the records give */
    XET_MALFORMED_RECORD, /* no shard may have the record `number` of the section, from 0 on: a file with flags beside
                           * those of its parts, or with a reserved word that is not 0 in its header or in a row of an
                           * optional part, or a xorb whose chunks have more than 4294967295 bytes together */
    XET_REORDERED         /* a note: rows of the chunk table that share a first word stand in another order than the
                           * library writes, and nothing is lost */
};

/* The parts of a shard, in the order of its bytes. */
enum xet_part {
    XET_HEADER = 1,
    XET_FILE_SECTION,
    XET_XORB_SECTION,
    XET_FILE_TABLE,
    XET_XORB_TABLE,
    XET_CHUNK_TABLE,
    XET_FOOTER
};

typedef struct xet_finding {
    uint32_t kind;
    uint32_t part;
    uint64_t number;
} xet_finding;

/* Writes all that is wrong with the bytes of a shard. It is nothing if they are, byte for byte, what the library writes
 * of the records in them, in their version and with their key, their times and the tables of which the footer says that
 * they have rows, and if the hashes ascend and a shard may have each record. If the bytes can't be read, nothing else
 * is looked for.
 *
 * The original leaves rows of the chunk table that share a first word in any order. So of a shard that it wrote, in
 * which a chunk occurs more than once, this mostly writes the note XET_REORDERED, which is no fault: the bytes are as
 * above but for this order. Bytes with no other finding hold a well-formed shard, as xet_find_malformed asks for it. */
uint32_t xet_check(const uint8_t *shard, size_t length, xet_finding *out, size_t capacity, size_t *written);

/* Writes the 64 hexadecimal digits of a hash, in lower case, without a zero byte behind them. */
uint32_t xet_hash_to_hex(const xet_hash *hash, uint8_t *out, size_t capacity, size_t *written);

/* Reads a hash from its 64 hexadecimal digits, of either case. XET_HASH_PARSING: it is another text. */
uint32_t xet_hash_from_hex(const uint8_t *text, size_t length, xet_hash *hash);

/* Writes the name of the file of the shard with this hash: its 64 digits and `.mdb`, without a zero byte behind
 * them. */
uint32_t xet_shard_name(const xet_hash *hash, uint8_t *out, size_t capacity, size_t *written);

/* Reads the hash in the name of a shard file, which is 64 hexadecimal digits of either case and `.mdb`.
 * XET_BAD_FILENAME: it is another text, such as a path. */
uint32_t xet_parse_shard_name(const uint8_t *name, size_t length, xet_hash *hash);

/* Writes the hash of some bytes under a key: BLAKE3's keyed mode. The storage is said to name the file of a shard by
 * this hash of its bytes, under a key of its own. The result is XET_OK. */
uint32_t xet_hash_bytes(const xet_hash *key, const uint8_t *bytes, size_t length, xet_hash *hash);

/* Writes the hash of a hash under a key, which is that of its 32 bytes. An export under the key has it in place of the
 * hash of a chunk. The result is XET_OK. */
uint32_t xet_hmac(const xet_hash *key, const xet_hash *hash, xet_hash *keyed);

/* The version of the library, XET_VERSION_NUMBER of the header that belongs to it. */
uint32_t xet_version(void);

#ifdef __cplusplus
}
#endif

#endif
