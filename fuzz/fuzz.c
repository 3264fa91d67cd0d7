/* Makes all calls of xet.h on corrupted shards: fuzz SECONDS SEED FILE.., or fuzz --case NUMBER SEED FILE.. for one.
 *
 * A case is two to four shards of the files, some changed by the library's own calls into other forms, most of them
 * then corrupted, and arguments that suit them. It follows from the seed and the number of the case alone. A process
 * makes the cases, so that another one can say which of them ended it. */
#include "calls.h"
#include "corrupt.h"

#include <signal.h>
#include <stdio.h>
#include <stdlib.h>
#include <string.h>
#include <sys/mman.h>
#include <sys/wait.h>
#include <time.h>
#include <unistd.h>

/* A case takes milliseconds. */
enum { FILES = 64, LONGEST_CASE = 60 };

static struct bytes files[FILES];
static size_t file_count;

/* Blocks of the sanitizer that are too large are a failed allocation, as those of malloc are. */
const char *__asan_default_options(void);
const char *__asan_default_options(void) {
    return "allocator_may_return_null=1";
}

static void read_file(const char *name, struct bytes *into) {
    FILE *file = fopen(name, "rb");
    into->length = file ? fread(into->bytes, 1, ROOM, file) : 0;
    if (!file || into->length == 0 || into->length == ROOM) {
        fprintf(stderr, "fuzz: %s can't be read, or is too large\n", name);
        exit(2);
    }
    fclose(file);
}

/* The options of an export, under the key of the case or under none. */
static xet_export_options some_export(uint64_t key, struct random *random) {
    xet_export_options options = {
        .key = {below(random, 4) ? key : 0},
        .now = below(random, 1 << 30),
        .valid_seconds = below(random, 1 << 20),
        .without_files = once_in(random, 4),
        .without_aux_rows = once_in(random, 2),
        .without_xorb_table = once_in(random, 4),
        .without_chunk_table = once_in(random, 4),
    };
    if (once_in(random, 16))
        options.now = -below(random, 1 << 20);
    return options;
}

/* Puts what a call makes of a shard in its place. */
static void change_form(struct bytes *shard, uint64_t key, struct random *random) {
    static uint8_t made[ROOM];
    xet_export_options options = some_export(key, random);
    xet_minimal_options minimal = {.now = 9, .without_aux_rows = once_in(random, 2)};
    xet_subset_options all = {9, below(random, 2), true};
    xet_hash none = {{0}};
    size_t written = 0;
    uint32_t error;
    switch (below(random, 4)) {
    case 0:
        error = xet_minimal(shard->bytes, shard->length, &minimal, 3, made, ROOM, &written);
        break;
    case 1:
        error = xet_subset(shard->bytes, shard->length, &all, &none, 0, 3, made, ROOM, &written);
        break;
    default:
        error = xet_export(shard->bytes, shard->length, &options, 3, made, ROOM, &written);
    }
    if (error != XET_OK)
        return;
    memcpy(shard->bytes, made, written);
    shard->length = written;
}

static void make_shard(struct bytes *shard, size_t changes, uint64_t key, struct random *random) {
    const struct bytes *file = &files[below(random, file_count)];
    memcpy(shard->bytes, file->bytes, file->length);
    shard->length = file->length;
    if (once_in(random, 4))
        change_form(shard, key, random);
    if (once_in(random, 8) && shard->length > 32)
        shard->bytes[32] = 2;
    for (; changes > 0; changes--)
        corrupt(shard, &files[below(random, file_count)], random);
}

static struct block block_of(const void *bytes, size_t length, bool in_pages) {
    struct block block = new_block(length, in_pages);
    memcpy(block.bytes, bytes, length);
    make_read_only(&block);
    return block;
}

/* Hashes that start rows of a shard, one row after another or each of any row. */
static struct block block_of_hashes(const struct bytes *shard, size_t count, bool in_order, bool in_pages,
                                    struct random *random) {
    uint64_t hashes[32][4];
    if (in_order)
        some_hashes(shard, random, hashes, count);
    else
        for (size_t at = 0; at < count; at++)
            some_hash(shard, random, hashes[at]);
    return block_of(hashes, count * sizeof *hashes, in_pages);
}

/* The name of a shard's file, or its digits, or a text that is nearly that. */
static struct block block_of_text(const xet_hash *hash, bool in_pages, struct random *random) {
    uint8_t text[100];
    size_t length = 0;
    xet_shard_name(hash, text, sizeof text, &length);
    length -= once_in(random, 2) ? 4 : 0;
    if (once_in(random, 4))
        length -= below(random, length);
    if (once_in(random, 2) && length > 0)
        text[below(random, length)] = once_in(random, 2) ? 'A' + below(random, 8) : below(random, 256);
    return block_of(text, length, in_pages);
}

/* Makes the shards and the arguments of a case. */
static struct input make_case(struct random *random) {
    static struct bytes shards[SHARDS];
    uint64_t key = 7;
    struct input input = {.count = 2 + below(random, SHARDS - 1), .in_pages = once_in(random, 2)};
    for (size_t at = 0; at < input.count; at++) {
        size_t changes = at == 0 ? below(random, 8) : once_in(random, 4) ? 1 + below(random, 4) : 0;
        make_shard(&shards[at], changes, key, random);
        input.shards[at] = block_of(shards[at].bytes, shards[at].length, input.in_pages);
    }
    const struct bytes *from = &shards[once_in(random, 8)];
    some_hash(from, random, input.file.words);
    input.chunks = block_of_hashes(from, below(random, 20), true, input.in_pages, random);
    input.xorbs = block_of_hashes(from, below(random, 8), false, input.in_pages, random);
    input.text = block_of_text(&input.file, input.in_pages, random);
    input.export = some_export(key, random);
    input.subset = (xet_subset_options){next_number(random), below(random, 100), once_in(random, 4)};
    input.minimal = (xet_minimal_options){next_number(random), once_in(random, 2), once_in(random, 2)};
    input.version = once_in(random, 20) ? next_number(random) : 2 + below(random, 2);
    return input;
}

static void run_case(uint64_t seed, uint64_t number, struct tally *tally) {
    struct random random = {seed ^ (number * 0xd1342543de82ef95)};
    tally->number = number;
    alarm(LONGEST_CASE);
    struct input input = make_case(&random);
    make_calls(&input, &random, tally);
    tally->cases++;
    for (size_t at = 0; at < input.count; at++)
        free_block(&input.shards[at]);
    free_block(&input.chunks);
    free_block(&input.xorbs);
    free_block(&input.text);
}

/* Runs cases in a process of their own, for seconds of its processor time, and returns whether all is well. */
static bool run_cases(uint64_t seed, double seconds, struct tally *tally) {
    fflush(stdout);
    pid_t process = fork();
    if (process == 0) {
        double end = seconds * CLOCKS_PER_SEC;
        for (uint64_t number = 1; (double)clock() < end; number++)
            run_case(seed, number, tally);
        exit(0);
    }
    int status = 0;
    if (process < 0 || waitpid(process, &status, 0) != process) {
        perror("fuzz");
        return false;
    }
    if (status == 0)
        return true;
    if (WIFSIGNALED(status))
        printf("fuzz: case %llu ends by signal %d\n", (unsigned long long)tally->number, WTERMSIG(status));
    printf("fuzz: repeat it with --case %llu %llu\n", (unsigned long long)tally->number, (unsigned long long)seed);
    return false;
}

int main(int count, char **words) {
    bool is_one = count > 1 && strcmp(words[1], "--case") == 0;
    int first = is_one ? 4 : 3;
    if (count <= first || count - first > FILES) {
        fprintf(stderr, "usage: fuzz SECONDS SEED FILE.. | fuzz --case NUMBER SEED FILE..\n");
        return 2;
    }
    uint64_t seed = strtoull(words[first - 1], NULL, 10);
    for (int at = first; at < count; at++)
        read_file(words[at], &files[file_count++]);
    /* What the process of the cases writes here the other reads. */
    struct tally *tally = mmap(NULL, sizeof *tally, PROT_READ | PROT_WRITE, MAP_SHARED | MAP_ANONYMOUS, -1, 0);
    if (tally == MAP_FAILED)
        return 2;
    printf("fuzz: seed %llu\n", (unsigned long long)seed);
    if (is_one) {
        run_case(seed, strtoull(words[2], NULL, 10), tally);
    } else if (!run_cases(seed, strtod(words[1], NULL), tally)) {
        return 1;
    }
    printf("fuzz: %llu cases, %llu calls:", (unsigned long long)tally->cases, (unsigned long long)tally->calls);
    for (uint32_t error = 0; error < RESULTS; error++)
        if (tally->results[error] > 0)
            printf(" %s %llu", xet_error_name(error), (unsigned long long)tally->results[error]);
    printf("\n");
    return 0;
}
