/* Makes one call of a program that is started with this library fail, as a broken disk would: of those that open, read, list or
   look at a file, or with OF=writes of those that write, the one whose number, counted from 1, FAIL names. Where COUNT names a
   descriptor, the number of such calls so far stands in its file. */
typedef unsigned long size;

extern void *dlsym(void *handle, const char *name);
extern int *__errno_location(void);
extern char *getenv(const char *name);
extern long pwrite(int descriptor, const void *bytes, size count, long offset);

enum { INPUT_OUTPUT_ERROR = 5, LONGEST = 20 };
#define NEXT ((void *)-1)

static unsigned long reads, writes, failing, count_file;
static int of_writes;

static unsigned long number(const char *name) {
    const char *text = getenv(name);
    unsigned long value = 0;
    while (text && *text >= '0' && *text <= '9') value = 10 * value + (unsigned long)(*text++ - '0');
    return value;
}

__attribute__((constructor)) static void begin(void) {
    const char *of = getenv("OF");
    of_writes = of && *of == 'w';
    failing = number("FAIL");
    count_file = number("COUNT");
    reads = writes = 0;
}

static void tell(unsigned long number) {
    char text[LONGEST + 1];
    int at = LONGEST;
    text[at] = '\n';
    do text[--at] = (char)('0' + number % 10);
    while (number /= 10);
    if (pwrite((int)count_file, text + at, (size)(LONGEST + 1 - at), 0) < 0) count_file = 0;
}

static int fails(int is_write) {
    unsigned long nth = is_write ? ++writes : ++reads;
    if (is_write != of_writes) return 0;
    if (count_file) tell(nth);
    if (nth != failing) return 0;
    *__errno_location() = INPUT_OUTPUT_ERROR;
    return 1;
}

int open(const char *path, int flags, ...) {
    __builtin_va_list more;
    __builtin_va_start(more, flags);
    int mode = __builtin_va_arg(more, int);
    __builtin_va_end(more);
    int (*next)(const char *, int, ...) = dlsym(NEXT, "open");
    return fails(0) ? -1 : next(path, flags, mode);
}

int openat(int folder, const char *path, int flags, ...) {
    __builtin_va_list more;
    __builtin_va_start(more, flags);
    int mode = __builtin_va_arg(more, int);
    __builtin_va_end(more);
    int (*next)(int, const char *, int, ...) = dlsym(NEXT, "openat");
    return fails(0) ? -1 : next(folder, path, flags, mode);
}

long read(int descriptor, void *bytes, size count) {
    long (*next)(int, void *, size) = dlsym(NEXT, "read");
    return fails(0) ? -1 : next(descriptor, bytes, count);
}

long getdents64(int descriptor, void *bytes, size count) {
    long (*next)(int, void *, size) = dlsym(NEXT, "getdents64");
    return fails(0) ? -1 : next(descriptor, bytes, count);
}

int statx(int folder, const char *path, int flags, unsigned mask, void *found) {
    int (*next)(int, const char *, int, unsigned, void *) = dlsym(NEXT, "statx");
    return fails(0) ? -1 : next(folder, path, flags, mask, found);
}

long write(int descriptor, const void *bytes, size count) {
    long (*next)(int, const void *, size) = dlsym(NEXT, "write");
    return fails(1) ? -1 : next(descriptor, bytes, count);
}
