/* Calls the library with what a careless or an unlucky program hands in: together COMMAND FILE.. reads each file as a job or a question, and looks, of each,
   that eight threads at once, each with the stack that the header names, get what one gets, that each buffer of too few bytes is told of and
   stays as it is, that no byte beyond the text is written, that each growth that is refused, alone or with all that follow it, is told of or changes
   nothing, and that a call frees just what it has taken. Then come bytes made by chance, whole and torn from the files. With `bytes` before COMMAND
   there are more of these, and nothing else. Linked with --wrap for malloc, realloc and free. It ends with 0, or says what isn't so and ends
   with 1. */
#include <aamediate.h>
#include <pthread.h>
#include <stdio.h>
#include <stdlib.h>
#include <string.h>

/* (what a thread's own frames and the C library take is beside the stack of a call) */
enum { THREADS = 8, TIMES = 4, STACK = AAMEDIATE_STACK + (32 << 10), GUARD = 64, MARK = 0xa5, MOST_GROWTHS = 400 };
enum { NEAR = 32, FEW_CHANGES = 8, MANY_CHANGES = 64, LONG = 1024, SAID = 65536 };

typedef uint32_t call(const uint8_t *, size_t, uint8_t *, size_t, uint8_t *, size_t, struct aamediate_sizes *);

static const struct { const char *name; call *does; } calls[] = {
    {"check", aamediate_check}, {"run", aamediate_run}, {"replay", aamediate_replay},
    {"policy-check", aapolicy_check}, {"policy-ask", aapolicy_ask}, {"policy-diff", aapolicy_diff},
};

struct bytes { uint8_t *at; size_t size; };
struct answer { uint32_t status; struct aamediate_sizes sizes; uint8_t *text, *fault; };

/* Growths are counted, and refused from the first of that number on, or it alone. 0: none is. How many blocks are held is counted too. */
static __thread unsigned long asked, first_refused, refuses_all;
static __thread long held;

void *__real_malloc(size_t size);
void *__real_realloc(void *at, size_t size);
void __real_free(void *at);

static int is_refused(void) {
    asked++;
    return first_refused && (asked == first_refused || (refuses_all && asked > first_refused));
}

void *__wrap_malloc(size_t size) {
    void *at = is_refused() ? NULL : __real_malloc(size);
    held += at != NULL;
    return at;
}

void *__wrap_realloc(void *at, size_t size) {
    void *to = is_refused() ? NULL : __real_realloc(at, size);
    held += !at && to;
    return to;
}

void __wrap_free(void *at) {
    held -= at != NULL;
    __real_free(at);
}

static __thread const char *about;

static void expect(int holds, const char *what) {
    if (holds) return;
    printf("%s: %s\n", about, what);
    exit(1);
}

static uint8_t *room(size_t size) {
    uint8_t *at = __real_malloc(size + GUARD);
    if (!at) abort();
    memset(at, MARK, size + GUARD);
    return at;
}

static int is_marked(const uint8_t *at, size_t size) {
    for (size_t n = 0; n < size; n++)
        if (at[n] != MARK) return 0;
    return 1;
}

/* One call with a text of that many bytes, and a guard behind it. */
static struct answer asked_for(call *does, struct bytes job, size_t size) {
    struct answer it = {.text = room(size), .fault = room(SAID), .sizes = {MARK, MARK}};
    long before = held;
    it.status = does(job.at, job.size, it.text, size, it.fault, SAID, &it.sizes);
    expect(held == before, "a block is kept, or one is freed that the call hasn't taken");
    expect(is_marked(it.text + size, GUARD), "bytes beyond the buffer are written");
    int is_written = it.status != AAMEDIATE_TOO_SMALL;
    size_t beyond = is_written ? it.sizes.text : 0, said = is_written && it.sizes.fault < SAID ? it.sizes.fault : is_written ? SAID : 0;
    expect(!is_written || it.sizes.text <= size, "a text that has no room is called whole");
    expect(is_marked(it.text + beyond, size - beyond), "bytes that are no text are written");
    expect(is_marked(it.fault + said, SAID + GUARD - said), "bytes beyond the line are written");
    return it;
}

static void let_go(struct answer it) {
    __real_free(it.text);
    __real_free(it.fault);
}

static struct answer whole(call *does, struct bytes job) {
    struct answer it = asked_for(does, job, 0);
    if (it.status == AAMEDIATE_TOO_SMALL || it.sizes.text) {
        size_t size = it.sizes.text;
        let_go(it);
        it = asked_for(does, job, size);
        expect(it.status != AAMEDIATE_TOO_SMALL, "the size that was told is too small");
        expect(it.sizes.text == size, "another size is told");
    }
    return it;
}

static int is_same(struct answer one, struct answer other) {
    return one.status == other.status && one.sizes.text == other.sizes.text && one.sizes.fault == other.sizes.fault
        && (one.status == AAMEDIATE_TOO_SMALL || !memcmp(one.text, other.text, one.sizes.text)) && !memcmp(one.fault, other.fault, SAID);
}

struct share { const char *path; call *does; struct bytes job; struct answer wanted; };

/* All jobs, and the one with which a thread begins. */
struct turn { const struct share *shares; size_t count, first; };

static void *call_all(void *given) {
    const struct turn *turn = given;
    for (size_t n = 0; n < TIMES * turn->count; n++) {
        const struct share *it = &turn->shares[(turn->first + n) % turn->count];
        about = it->path;
        struct answer got = whole(it->does, it->job);
        expect(is_same(got, it->wanted), "a thread beside others gets another answer");
        let_go(got);
    }
    return NULL;
}

/* Threads that answer other jobs at the same time, and each of them again and again. */
static void side_by_side(const struct share *shares, size_t count) {
    pthread_t threads[THREADS];
    struct turn turns[THREADS];
    pthread_attr_t how;
    pthread_attr_init(&how);
    pthread_attr_setstacksize(&how, STACK);
    for (size_t n = 0; n < THREADS; n++) {
        turns[n] = (struct turn){shares, count, n * count / THREADS};
        if (pthread_create(&threads[n], &how, call_all, &turns[n])) abort();
    }
    for (int n = 0; n < THREADS; n++) pthread_join(threads[n], NULL);
    pthread_attr_destroy(&how);
}

/* Each room below the text's is told of, of long texts some. */
static void too_small(struct share it) {
    size_t size = it.wanted.sizes.text;
    for (size_t less = 1; less <= size; less += size < LONG || less < 16 ? 1 : less) {
        struct answer got = asked_for(it.does, it.job, size - less);
        expect(got.status == AAMEDIATE_TOO_SMALL && got.sizes.text == size, "a buffer that is too small isn't told of");
        let_go(got);
    }
}

/* With more room than the text takes, the rest stays as it is. */
static void more_room(struct share it) {
    struct answer got = asked_for(it.does, it.job, it.wanted.sizes.text + LONG);
    expect(is_same(got, it.wanted), "with more room there is another answer");
    let_go(got);
}

/* Of a line that has too little room its front is written, and its size is told. */
static void short_lines(struct share it) {
    /* (beside an answer it is told as well, and its buffer is looked at there) */
    size_t most = it.wanted.sizes.text ? 0 : it.wanted.sizes.fault < LONG ? it.wanted.sizes.fault : LONG;
    for (size_t size = 0; size < most; size++) {
        uint8_t text[GUARD], fault[LONG];
        struct aamediate_sizes sizes = {MARK, MARK};
        memset(text, MARK, sizeof text);
        memset(fault, MARK, sizeof fault);
        uint32_t status = it.does(it.job.at, it.job.size, text, sizeof text, fault, size, &sizes);
        expect(status == it.wanted.status && sizes.fault == it.wanted.sizes.fault && !sizes.text, "a line that has no room changes what is told");
        expect(!memcmp(fault, it.wanted.fault, size) && is_marked(fault + size, sizeof fault - size), "another part of a line is written");
        expect(is_marked(text, sizeof text), "a refused job leaves bytes in the buffer");
    }
}

/* How many growths a call asks for. */
static unsigned long growths_of(struct share it) {
    asked = first_refused = 0;
    struct answer got = asked_for(it.does, it.job, it.wanted.sizes.text);
    expect(is_same(got, it.wanted), "the same bytes have another answer");
    let_go(got);
    return asked;
}

/* Refuses each growth, of many those at both ends and some between. */
static void refused_growths(struct share it) {
    unsigned long growths = growths_of(it), step = growths / MOST_GROWTHS + 1, told = 0;
    for (refuses_all = 0; refuses_all < 2; refuses_all++)
        for (unsigned long n = 1; n <= growths; n += n < NEAR || n + NEAR > growths ? 1 : step) {
            asked = 0;
            first_refused = n;
            struct answer got = asked_for(it.does, it.job, it.wanted.sizes.text);
            first_refused = 0;
            int is_told = got.status == AAMEDIATE_FAILED && got.sizes.text == 0 && got.sizes.fault - 9 < 2 && !memcmp(got.fault, "no memory\n", got.sizes.fault);
            expect(is_told || is_same(got, it.wanted), "a growth that is refused changes the answer");
            expect(is_told || !refuses_all, "all growths are refused, and there is an answer");
            told += is_told;
            let_go(got);
        }
    refuses_all = 0;
    expect(told || !growths, "no growth that is refused is told of");
}

static struct bytes bytes_of(const char *path) {
    FILE *file = fopen(path, "rb");
    if (!file) abort();
    struct bytes it = {__real_malloc((16 << 20) + 1), 0};
    it.size = fread(it.at, 1, (16 << 20) + 1, file);
    fclose(file);
    return it;
}

static uint64_t state = 88172645463325252u;

static uint64_t by_chance(void) {
    state ^= state << 13, state ^= state >> 7;
    return state ^= state << 17;
}

/* A copy of bytes in a block of just their number, so that what is read behind them is found by a tool that looks. */
static struct bytes copied(const uint8_t *from, size_t size) {
    struct bytes it = {__real_malloc(size), size};
    if (size && !it.at) abort();
    /* (an empty block may have no place) */
    if (!it.at) it.at = __real_malloc(1);
    memcpy(it.at, from, size);
    return it;
}

/* Changes a byte, sets a sign of JSON or of a policy, leaves bytes out, or says them twice. The buffer has so many bytes. */
static size_t changed(uint8_t *at, size_t size, size_t most) {
    static const char signs[] = "{}[]\",:\\\0\xff/@*?^-09 \n";
    size_t place = by_chance() % size, many = by_chance() % 16 + 1;
    if (many > size - place) many = size - place;
    switch (by_chance() % 4) {
    case 0: at[place] = (uint8_t)by_chance(); return size;
    case 1: at[place] = (uint8_t)signs[by_chance() % (sizeof signs - 1)]; return size;
    case 2: memmove(at + place, at + place + many, size - place - many); return size - many;
    }
    if (size + many > most) return size;
    memmove(at + place + many, at + place, size - place);
    return size + many;
}

/* Whatever the bytes are, they are answered or refused by a line. */
static void any_answer(call *does, const uint8_t *at, size_t size) {
    struct bytes given = copied(at, size);
    struct answer got = whole(does, given);
    int is_said = got.status == AAMEDIATE_ANSWERED || got.sizes.text || got.sizes.fault;
    int is_of_job = got.status == AAMEDIATE_ANSWERED || got.status == AAMEDIATE_REFUSED, is_asked = does == aapolicy_check || does == aapolicy_ask || does == aapolicy_diff;
    expect(is_said && got.status <= AAMEDIATE_DENIED && (is_of_job || is_asked), "bytes that are no job have another status");
    let_go(got);
    __real_free(given.at);
}

/* Bytes by chance, and a job cut off or with some changes. */
static void any_bytes(call *does, struct bytes job, int times) {
    size_t most = job.size + LONG;
    uint8_t *at = room(most);
    for (int n = 0; n < times; n++) {
        size_t size = n % 2 ? by_chance() % (job.size + 1) : job.size;
        memcpy(at, job.at, size);
        for (int k = n % FEW_CHANGES; k > 0 && size; k--) size = changed(at, size, most);
        any_answer(does, at, size);
        size = by_chance() % 64;
        for (size_t k = 0; k < size; k++) at[k] = (uint8_t)by_chance();
        any_answer(does, at, size);
    }
    __real_free(at);
}

static void look(struct share it) {
    too_small(it);
    more_room(it);
    short_lines(it);
    refused_growths(it);
    any_bytes(it.does, it.job, FEW_CHANGES);
}

int main(int count, char **words) {
    int has_bytes = count > 1 && !strcmp(words[1], "bytes"), first = has_bytes ? 3 : 2;
    call *does = NULL;
    for (size_t n = 0; n < sizeof calls / sizeof *calls; n++)
        if (count > first && !strcmp(words[first - 1], calls[n].name)) does = calls[n].does;
    if (!does) return 2;
    size_t jobs = (size_t)(count - first);
    struct share *shares = __real_malloc(jobs * sizeof *shares);
    if (!shares) abort();
    for (size_t n = 0; n < jobs; n++) {
        about = words[(size_t)first + n];
        struct bytes job = bytes_of(about);
        shares[n] = (struct share){about, does, job, whole(does, job)};
        if (has_bytes) any_bytes(does, job, MANY_CHANGES);
        else look(shares[n]);
    }
    if (!has_bytes) side_by_side(shares, jobs);
    for (size_t n = 0; n < jobs; n++) {
        let_go(shares[n].wanted);
        __real_free(shares[n].job.at);
    }
    __real_free(shares);
    return 0;
}
