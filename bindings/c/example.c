/* Prints the counts of two shards and writes their union: example FIRST.mdb SECOND.mdb UNION.mdb */
#include "xet.h"
#include <stdio.h>
#include <stdlib.h>

static void stop(const char *what, const char *why) {
    fprintf(stderr, "%s: %s\n", what, why);
    exit(1);
}

static uint8_t *read_shard(const char *name, size_t *length) {
    FILE *file = fopen(name, "rb");
    long size = file && fseek(file, 0, SEEK_END) == 0 ? ftell(file) : -1;
    uint8_t *bytes = size < 0 ? NULL : malloc((size_t)size + 1);
    if (!bytes || fseek(file, 0, SEEK_SET) != 0 || fread(bytes, 1, (size_t)size, file) != (size_t)size)
        stop(name, "cannot be read");
    fclose(file);
    *length = (size_t)size;
    xet_info info;
    uint32_t error = xet_load(bytes, *length, &info);
    if (error)
        stop(name, xet_error_text(error));
    printf("%s: %llu files, %llu xorbs, %llu chunks\n", name, (unsigned long long)info.files,
           (unsigned long long)info.xorbs, (unsigned long long)info.chunks);
    return bytes;
}

int main(int count, char **names) {
    if (count != 4)
        stop("example", "wants FIRST SECOND UNION");
    size_t lengths[2], written;
    uint8_t *first = read_shard(names[1], &lengths[0]), *second = read_shard(names[2], &lengths[1]);

    size_t room = xet_union_room(lengths[0] + lengths[1]);
    uint8_t *out = malloc(room);
    if (!out)
        stop("union", xet_error_text(XET_OUT_OF_MEMORY));
    uint32_t error = xet_union(first, lengths[0], second, lengths[1], 3, out, room, &written);
    if (error)
        stop("union", xet_error_text(error));
    FILE *file = fopen(names[3], "wb");
    if (!file || fwrite(out, 1, written, file) != written || fclose(file) != 0)
        stop(names[3], "cannot be written");
    printf("%s: %zu bytes\n", names[3], written);
    free(first);
    free(second);
    free(out);
    return 0;
}
