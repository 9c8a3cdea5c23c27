/* Refuses one growth of a program that is started with this library before all others, or from there on all of them, as often as is wanted
   of one start: the program stops before its beginning, and goes on from there in a child for each order that it gets. ORDERS and REPORTS
   name the descriptors. An order is the number of a growth, counted from 1 (0: none), and whether all that follow it are refused too. The child reads
   its input from the beginning.

   An order of a row, with a step, the last number and a set of ways, tries each growth of it in turn: where one is asked for, the child forks for each
   way, and there it is refused, with outputs that begin with what was written so far; what it writes and how far it reads changes nothing for the
   others. Each that doesn't end as one without memory does, with status 3 and that line alone, is told by an outcome, its outputs behind it. A growth
   that is asked for where there was a thread isn't tried so, since a child has one alone: the first is told. Behind its row the child ends.

   A report is the status of the order's child, as waitpid gives it, how many growths it asked for, the most bytes that one of them was for, the most
   bytes that it had at one time, as the allocator sets them aside, and the first growth that wasn't tried (0: none). An outcome has the number and
   the way behind the status, and the lengths of both outputs. No child takes more than SECONDS. Threads count together. */
typedef unsigned long size;

extern void *__libc_malloc(size bytes);
extern void *__libc_calloc(size count, size bytes);
extern void *__libc_realloc(void *block, size bytes);
extern void *__libc_memalign(size alignment, size bytes);
extern void __libc_free(void *block);
extern char __libc_single_threaded;
extern size malloc_usable_size(void *block);
extern int *__errno_location(void);
extern char *getenv(const char *name);
extern long read(int descriptor, void *bytes, size count);
extern long write(int descriptor, const void *bytes, size count);
extern long pread(int descriptor, void *bytes, size count, long offset);
extern long lseek(int descriptor, long offset, int whence);
extern int ftruncate(int descriptor, long length);
extern int memfd_create(const char *name, unsigned flags);
extern int dup2(int from, int to);
extern int close(int descriptor);
extern void *mmap(void *at, size bytes, int protection, int flags, int descriptor, long offset);
extern int fork(void);
extern int waitpid(int child, int *status, int options);
extern unsigned alarm(unsigned seconds);
extern void _exit(int status) __attribute__((noreturn));
extern int memcmp(const void *left, const void *right, size count);

enum { OUT_OF_MEMORY = 12, READ_AND_WRITE = 3, SHARED_AND_ANONYMOUS = 0x21, BROKEN = 125, CLOSED_ON_EXEC = 1 };
enum { FROM_BEGINNING = 0, FROM_HERE = 1, FROM_END = 2, DESCRIPTORS = 64, PIECE = 65536 };

/* Which growths are refused: this one alone, or all that follow it too; a row has a set of these, as bits. */
enum way { ALONE = 0, WITH_ALL = 1, WAYS = 2 };

/* (step and last: 0 where it is no row) */
struct order {
    unsigned long number, way, step, last;
};
struct counts {
    unsigned long asked, largest, most;
    long held;
    unsigned long first_left;
};
struct report {
    unsigned long is_outcome, status, asked, largest, most, first_left;
};
struct outcome {
    unsigned long is_outcome, status, number, way, lengths[2];
};

static struct order order;
/* (in a page that a child shares with what started it) */
static struct counts *counts;
static struct counts own_counts;
static int reports;
static int outputs[2] = {-1, -1};

static unsigned long number(const char *name) {
    const char *text = getenv(name);
    unsigned long value = 0;
    while (text && *text >= '0' && *text <= '9') value = 10 * value + (unsigned long)(*text++ - '0');
    return value;
}

static void tell(const void *bytes, size count) {
    for (size at = 0; at < count;) {
        long done = write(reports, (const char *)bytes + at, count - at);
        if (done <= 0) _exit(BROKEN);
        at += (size)done;
    }
}

__attribute__((constructor)) static void begin(void) {
    int orders = (int)number("ORDERS");
    reports = (int)number("REPORTS");
    if (!orders || !reports) return;
    void *page = mmap(0, sizeof *counts, READ_AND_WRITE, SHARED_AND_ANONYMOUS, -1, 0);
    if (page == (void *)-1) _exit(BROKEN);
    while (read(orders, &order, sizeof order) == (long)sizeof order) {
        counts = page;
        *counts = (struct counts){0};
        lseek(0, 0, FROM_BEGINNING);
        int child = fork(), status = 0;
        if (child == 0) {
            close(orders);
            if (!order.step) close(reports);
            alarm((unsigned)number("SECONDS"));
            return;
        }
        counts = 0;
        if (child < 0 || waitpid(child, &status, 0) != child) _exit(BROKEN);
        const struct counts *found = page;
        struct report report = {0, (unsigned long)status, found->asked, found->largest, found->most, found->first_left};
        tell(&report, sizeof report);
    }
    _exit(0);
}

/* Makes a copy of what was written so far to an output, to which is written on. */
static void copy_output(int which) {
    static char piece[PIECE];
    int from = which + 1;
    if (outputs[which] < 0) outputs[which] = memfd_create("output", CLOSED_ON_EXEC);
    if (outputs[which] < 0 || ftruncate(outputs[which], 0) || lseek(outputs[which], 0, FROM_BEGINNING)) _exit(BROKEN);
    long length = lseek(from, 0, FROM_HERE);
    for (long at = 0, got; at < length; at += got) {
        got = pread(from, piece, PIECE, at);
        if (got <= 0 || write(outputs[which], piece, (size)got) != got) _exit(BROKEN);
    }
}

static int is_without_memory(int status, const long lengths[2]) {
    static const char SAID[] = "no memory\n";
    char bytes[sizeof SAID];
    return status == 3 << 8 && !lengths[0] && lengths[1] == sizeof SAID - 1 && pread(outputs[1], bytes, sizeof SAID, 0) == sizeof SAID - 1
        && !memcmp(bytes, SAID, sizeof SAID - 1);
}

static void tell_outcome(unsigned long nth, unsigned long way, int status) {
    static char piece[PIECE];
    long lengths[2];
    for (int which = 0; which < 2; which++) lengths[which] = lseek(outputs[which], 0, FROM_END);
    if (is_without_memory(status, lengths)) return;
    struct outcome outcome = {1, (unsigned long)status, nth, way, {(unsigned long)lengths[0], (unsigned long)lengths[1]}};
    tell(&outcome, sizeof outcome);
    for (int which = 0; which < 2; which++)
        for (long at = 0, got; at < lengths[which]; at += got) {
            got = pread(outputs[which], piece, PIECE, at);
            if (got <= 0) _exit(BROKEN);
            tell(piece, (size)got);
        }
}

/* Goes on in a child where this growth is refused, and tells how it ended; whether this is that child. */
static int goes_on_without(unsigned long nth, unsigned long way) {
    long offsets[DESCRIPTORS];
    int status = 0;
    for (int each = 0; each < DESCRIPTORS; each++) offsets[each] = lseek(each, 0, FROM_HERE);
    copy_output(0);
    copy_output(1);
    int child = fork();
    if (child == 0) {
        own_counts = *counts;
        counts = &own_counts;
        order = (struct order){nth, way, 0, 0};
        dup2(outputs[0], 1);
        dup2(outputs[1], 2);
        close(reports);
        alarm((unsigned)number("SECONDS"));
        return 1;
    }
    if (child < 0 || waitpid(child, &status, 0) != child) _exit(BROKEN);
    for (int each = 0; each < DESCRIPTORS; each++)
        if (offsets[each] >= 0) lseek(each, offsets[each], FROM_BEGINNING);
    tell_outcome(nth, way, status);
    return 0;
}

/* Tries each way of the row to refuse this growth, if it is in it; whether this is a child where it is refused. */
static int is_refused_here(unsigned long nth) {
    if (nth > order.last) _exit(0);
    if (nth < order.number || (nth - order.number) % order.step) return 0;
    if (!__libc_single_threaded || counts->first_left) {
        if (!counts->first_left) counts->first_left = nth;
        return 0;
    }
    alarm(0);
    for (unsigned long way = 0; way < WAYS; way++)
        if (order.way >> way & 1 && goes_on_without(nth, way)) return 1;
    alarm((unsigned)number("SECONDS"));
    return 0;
}

static int is_refused(void) {
    if (!counts) return 0;
    int error = *__errno_location();
    unsigned long nth = __atomic_add_fetch(&counts->asked, 1, __ATOMIC_SEQ_CST);
    int now = order.step ? is_refused_here(nth) : nth == order.number || (order.number && order.way == WITH_ALL && nth > order.number);
    *__errno_location() = now ? OUT_OF_MEMORY : error;
    return now;
}

static void raise_to(unsigned long *most, unsigned long value) {
    unsigned long before = __atomic_load_n(most, __ATOMIC_SEQ_CST);
    while (before < value && !__atomic_compare_exchange_n(most, &before, value, 0, __ATOMIC_SEQ_CST, __ATOMIC_SEQ_CST)) continue;
}

/* Counts a block that is given for so many bytes, in place of one that had so many. */
static void *given(void *block, size bytes, size before) {
    if (!counts || !block) return block;
    long held = __atomic_add_fetch(&counts->held, (long)malloc_usable_size(block) - (long)before, __ATOMIC_SEQ_CST);
    raise_to(&counts->largest, bytes);
    if (held > 0) raise_to(&counts->most, (unsigned long)held);
    return block;
}

void *malloc(size bytes) { return is_refused() ? 0 : given(__libc_malloc(bytes), bytes, 0); }
void *calloc(size count, size bytes) { return is_refused() ? 0 : given(__libc_calloc(count, bytes), count * bytes, 0); }
void *aligned_alloc(size alignment, size bytes) { return is_refused() ? 0 : given(__libc_memalign(alignment, bytes), bytes, 0); }

void *realloc(void *block, size bytes) {
    size before = block ? malloc_usable_size(block) : 0;
    return is_refused() ? 0 : given(__libc_realloc(block, bytes), bytes, before);
}

void free(void *block) {
    if (counts && block) __atomic_sub_fetch(&counts->held, (long)malloc_usable_size(block), __ATOMIC_SEQ_CST);
    __libc_free(block);
}

int posix_memalign(void **block, size alignment, size bytes) {
    void *found = is_refused() ? 0 : given(__libc_memalign(alignment, bytes), bytes, 0);
    if (!found) return OUT_OF_MEMORY;
    *block = found;
    return 0;
}
