/* Preloaded into test_probe by .ci/refusals: counts its allocations and refuses one of them.

   Descriptor 98 is a file of 64-bit words, which .ci/refusals shares:
     0  how many allocations there are up to the one that is refused, itself included; 0 if none is
     1  how many there were
     2  how many marks there were: requests for 2^46 bytes, which are always refused and not counted
     3  how many allocations there were at the first mark
     4  and at the second
   Descriptor 99 is a pipe. Whenever the program asks for input, it gets the number of bytes that were read so far. */
extern void *__libc_malloc(unsigned long), *__libc_realloc(void *, unsigned long);
extern long __read(int, void *, unsigned long), write(int, const void *, unsigned long);
extern void *mmap(void *, unsigned long, int, int, int, long);

enum { LEFT, MADE, MARKS, AT_MARK };
static const unsigned long mark = 1ul << 46;
static unsigned long *shared;

__attribute__((constructor)) static void begin(void) {
    /* Readable and writable (3), shared (1). */
    void *words = mmap(0, 4096, 3, 1, 98, 0);
    if (words != (void *)-1) shared = words;
}

static int is_refused(unsigned long size) {
    if (!shared) return 0;
    if (size == mark) {
        if (shared[MARKS] < 2) shared[AT_MARK + shared[MARKS]] = shared[MADE];
        shared[MARKS]++;
        return 1;
    }
    shared[MADE]++;
    return shared[LEFT] && !--shared[LEFT];
}

void *malloc(unsigned long size) { return is_refused(size) ? 0 : __libc_malloc(size); }

void *realloc(void *old, unsigned long size) { return is_refused(size) ? 0 : __libc_realloc(old, size); }

long read(int from, void *to, unsigned long size) {
    static long total;
    if (from) return __read(from, to, size);
    write(99, &total, sizeof total);
    long count = __read(from, to, size);
    total += count;
    return count;
}
