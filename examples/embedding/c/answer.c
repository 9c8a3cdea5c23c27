/* Answers the job or the question on standard input: answer check|run|replay|policy-check|policy-ask|policy-diff < input.json. Build it by:
   cc answer.c -laamediate -o answer */
#include <aamediate.h>
#include <stdio.h>
#include <stdlib.h>
#include <string.h>

/* An input of more bytes is refused. */
enum { MOST = 64 << 20 };

typedef uint32_t call(const uint8_t *, size_t, uint8_t *, size_t, uint8_t *, size_t, struct aamediate_sizes *);

/* What is said of a job is a line without its end. */
static const struct { const char *name; call *does; const char *end; } calls[] = {
    {"check", aamediate_check, "\n"}, {"run", aamediate_run, "\n"}, {"replay", aamediate_replay, "\n"},
    {"policy-check", aapolicy_check, ""}, {"policy-ask", aapolicy_ask, ""}, {"policy-diff", aapolicy_diff, ""},
};

static uint8_t *room_for(size_t size) {
    uint8_t *at = malloc(size + 1);
    if (!at) fputs("no memory\n", stderr), exit(AAMEDIATE_FAILED);
    return at;
}

int main(int count, char **words) {
    size_t n = 0, many = sizeof calls / sizeof *calls;
    while (n < many && (count != 2 || strcmp(words[1], calls[n].name))) n++;
    if (n == many) return fputs("usage: answer check|run|replay|policy-check|policy-ask|policy-diff\n", stderr), 2;

    uint8_t *input = room_for(MOST), *text = NULL, *fault = NULL;
    size_t size = fread(input, 1, MOST + 1, stdin);
    if (ferror(stdin)) return fputs("read failed\n", stderr), AAMEDIATE_FAILED;
    /* (a guess, mostly enough: where it is too little, all is done again) */
    struct aamediate_sizes room, sizes = {.text = 4096 + 16 * size, .fault = 4096};
    uint32_t status;
    do {
        room = sizes;
        free(text);
        free(fault);
        text = room_for(room.text);
        fault = room_for(room.fault);
        status = calls[n].does(input, size, text, room.text, fault, room.fault, &sizes);
    } while (sizes.text > room.text || sizes.fault > room.fault);

    if (sizes.fault) fprintf(stderr, "%.*s%s", (int)sizes.fault, (const char *)fault, calls[n].end);
    if (fwrite(text, 1, sizes.text, stdout) != sizes.text) status = AAMEDIATE_FAILED;
    return (int)status;
}
