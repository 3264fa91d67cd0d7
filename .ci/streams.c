/* Preloaded into shardtool by .ci/vectors: makes a stream fail, or an allocation.

   STREAM is three numbers: a descriptor, 0 or 1, how many bytes are moved through it, two at a time, and the error of
   the next call: of each from then on, but of one alone if the error is EINTR.
   REFUSED is the number of the allocation that is refused, from 1. Then a byte is written to descriptor 2. */
extern void *__libc_malloc(unsigned long), *__libc_realloc(void *, unsigned long);
extern long __read(int, void *, unsigned long), __write(int, const void *, unsigned long);
extern char *getenv(const char *);
extern unsigned long strtoul(const char *, char **, int);
extern int *__errno_location(void);

enum { EINTR = 4 };
static unsigned long stream = -1ul, left, error, refused;

__attribute__((constructor)) static void begin(void) {
    char *at = getenv("STREAM");
    if (at) {
        stream = strtoul(at, &at, 10);
        left = strtoul(at, &at, 10);
        error = strtoul(at, &at, 10);
    }
    at = getenv("REFUSED");
    if (at) refused = strtoul(at, &at, 10);
}

static int is_refused(void) {
    if (!refused || --refused) return 0;
    __write(2, "!", 1);
    return 1;
}

void *malloc(unsigned long size) { return is_refused() ? 0 : __libc_malloc(size); }

void *realloc(void *old, unsigned long size) { return is_refused() ? 0 : __libc_realloc(old, size); }

/* How many of so many bytes a call moves, or -1 if it fails. */
static long moved(int through, unsigned long size) {
    if ((unsigned long)through != stream || !size) return size;
    if (!left) {
        *__errno_location() = error;
        if (error == EINTR) stream = -1ul;
        return -1;
    }
    if (size > 2) size = 2;
    if (size > left) size = left;
    left -= size;
    return size;
}

long read(int from, void *to, unsigned long size) {
    long count = moved(from, size);
    return count < 0 ? count : __read(from, to, count);
}

long write(int to, const void *from, unsigned long size) {
    long count = moved(to, size);
    return count < 0 ? count : __write(to, from, count);
}
