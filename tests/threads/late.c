/* Makes a thread late in a program that is started with this library before all others: the first that it starts, where LATE is 1, or
   the one that starts that, where it is 2. Others give their processor up meanwhile, by sched_yield or by waiting for a word of
   memory to change. Once one has, or after a long while, the late one goes on; how often they had stands in the file that the
   descriptor WAITS names. */
typedef unsigned long size;

extern void *dlsym(void *library, const char *name);
extern char *getenv(const char *name);
extern long pwrite(int descriptor, const void *bytes, size count, long offset);
extern int usleep(unsigned int microseconds);

typedef int starter(void *thread, const void *attributes, void *(*run)(void *), void *argument);
typedef int yielder(void);
typedef long caller(long number, long first, long second, long third, long fourth, long fifth, long sixth);

enum { LONGEST = 20, NEXT_LIBRARY = -1, TURN = 100000, MOST_TURNS = 100, FUTEX = 202, FUTEX_COMMAND = 127, WAIT = 0, WAIT_BITSET = 9 };

static unsigned long started, given_up;
static int is_late;
static void *(*late_run)(void *);
static void *late_argument;

/* The number that a variable of the environment has, or 0. */
static unsigned long number(const char *name) {
    const char *text = getenv(name);
    unsigned long value = 0;
    while (text && *text >= '0' && *text <= '9') value = 10 * value + (unsigned long)(*text++ - '0');
    return value;
}

static void come_late(void) {
    char text[LONGEST + 1];
    int at = LONGEST;
    for (int turn = 0; turn < MOST_TURNS && !__atomic_load_n(&given_up, __ATOMIC_SEQ_CST); turn++) usleep(TURN);
    __atomic_store_n(&is_late, 0, __ATOMIC_SEQ_CST);
    unsigned long count = __atomic_load_n(&given_up, __ATOMIC_SEQ_CST);
    text[at] = '\n';
    do text[--at] = (char)('0' + count % 10);
    while (count /= 10);
    (void)!pwrite((int)number("WAITS"), text + at, (size)(LONGEST + 1 - at), 0);
}

static void *run_late(void *nothing) {
    (void)nothing;
    come_late();
    return late_run(late_argument);
}

static void count(void) {
    if (__atomic_load_n(&is_late, __ATOMIC_SEQ_CST)) __atomic_add_fetch(&given_up, 1, __ATOMIC_SEQ_CST);
}

int pthread_create(void *thread, const void *attributes, void *(*run)(void *), void *argument) {
    starter *start = (starter *)dlsym((void *)NEXT_LIBRARY, "pthread_create");
    if (__atomic_add_fetch(&started, 1, __ATOMIC_SEQ_CST) != 1) return start(thread, attributes, run, argument);
    late_run = run;
    late_argument = argument;
    __atomic_store_n(&is_late, 1, __ATOMIC_SEQ_CST);
    if (number("LATE") == 1) return start(thread, attributes, run_late, 0);
    int status = start(thread, attributes, run, argument);
    come_late();
    return status;
}

int sched_yield(void) {
    count();
    return ((yielder *)dlsym((void *)NEXT_LIBRARY, "sched_yield"))();
}

long syscall(long which, long first, long second, long third, long fourth, long fifth, long sixth) {
    long command = second & FUTEX_COMMAND;
    if (which == FUTEX && (command == WAIT || command == WAIT_BITSET)) count();
    return ((caller *)dlsym((void *)NEXT_LIBRARY, "syscall"))(which, first, second, third, fourth, fifth, sixth);
}
