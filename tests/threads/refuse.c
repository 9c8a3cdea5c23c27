/* Refuses the starts of threads in a program that is started with this library before all others: the one whose number, counted
   from 1, REFUSE names, or all where REFUSE is 0. Where COUNT names a descriptor, the number of starts so far stands in its file. */
typedef unsigned long size;

extern void *dlsym(void *library, const char *name);
extern char *getenv(const char *name);
extern long pwrite(int descriptor, const void *bytes, size count, long offset);

typedef int starter(void *thread, const void *attributes, void *(*run)(void *), void *argument);

enum { TRY_AGAIN = 11, LONGEST = 20, NEXT_LIBRARY = -1 };

static unsigned long asked;

/* The number that a variable of the environment has, or one that no start has. */
static unsigned long number(const char *name) {
    const char *text = getenv(name);
    unsigned long value = 0;
    if (!text) return ~0ul;
    while (*text >= '0' && *text <= '9') value = 10 * value + (unsigned long)(*text++ - '0');
    return value;
}

static void write_number(unsigned long descriptor, unsigned long value) {
    char text[LONGEST + 1];
    int at = LONGEST;
    text[at] = '\n';
    do text[--at] = (char)('0' + value % 10);
    while (value /= 10);
    (void)!pwrite((int)descriptor, text + at, (size)(LONGEST + 1 - at), 0);
}

/* Threads are started by several at once: who wrote a number that isn't the last by then writes again. */
static void tell(unsigned long descriptor) {
    unsigned long told;
    do {
        told = __atomic_load_n(&asked, __ATOMIC_SEQ_CST);
        write_number(descriptor, told);
    } while (told != __atomic_load_n(&asked, __ATOMIC_SEQ_CST));
}

int pthread_create(void *thread, const void *attributes, void *(*run)(void *), void *argument) {
    unsigned long nth = __atomic_add_fetch(&asked, 1, __ATOMIC_SEQ_CST);
    unsigned long refused = number("REFUSE"), count = number("COUNT");
    if (count != ~0ul) tell(count);
    if (refused == 0 || refused == nth) return TRY_AGAIN;
    starter *start = (starter *)dlsym((void *)NEXT_LIBRARY, "pthread_create");
    return start(thread, attributes, run, argument);
}
