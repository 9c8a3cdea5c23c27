/* AppArmor policies, checked and decided inside your program: link libaamediate.a. Each call does what a command of the program
   aamediate does with a job, or one of aapolicy with policy files in memory, and gives that command's text byte for byte. EMBEDDING.md
   says more.

   Each call takes an input and two buffers, as a pointer and a number of bytes:
     text    is for the answer. It is written whole, or where it has too few bytes not at all.
     fault   is for what the command says on standard error: of a job a line on why there is no answer, without its end; of a question
             all lines, also of warnings beside an answer. As many bytes of it are written as there is room for.
   Afterwards `sizes` says how many bytes the whole text takes, and what is said: 0 where there is none. Where the status is
   AAMEDIATE_TOO_SMALL, call again with a text of sizes->text bytes. Neither ends with a zero byte.

   What the caller owns stays its own: nothing of it is kept when a call returns, and nothing has to be freed. The memory that a call
   takes from malloc it gives back. Calls may run side by side, in any threads, over buffers of their own.

   The caller guarantees, and no call checks:
     - no pointer is null, also where its number of bytes is 0, and no number of bytes is 2^63 or more;
     - the two buffers, the sizes and the input don't overlap, and nothing else writes or reads the buffers and the sizes, or writes
       the input, while the call runs;
     - malloc, realloc and free come from one allocator, which aligns a block to each power of two up to 16 that divides its size;
     - no call is made in a signal handler, or in the child of a fork of a process with threads;
     - a thread that calls has AAMEDIATE_STACK bytes of stack left: glibc's threads and Rust's have by themselves, those of musl and macOS don't. */
#ifndef AAMEDIATE_H
#define AAMEDIATE_H

#include <stddef.h>
#include <stdint.h>

#ifdef __cplusplus
extern "C" {
#endif

/* What a call returns. All but the last are exit statuses of the programs. */
enum aamediate_status {
    AAMEDIATE_ANSWERED = 0,
    AAMEDIATE_REFUSED = 1,     /* the job or a policy is at fault */
    AAMEDIATE_NO_QUESTION = 2, /* of the calls of aapolicy: the question isn't understood */
    AAMEDIATE_FAILED = 3,      /* memory ran out, or a text of a question has over 1,048,576 bytes */
    AAMEDIATE_DENIED = 4,      /* answered, and of aapolicy_ask a request is denied, of aapolicy_diff the policies differ */
    AAMEDIATE_TOO_SMALL = 5    /* the text has too few bytes: nothing was written */
};

/* In bytes. */
struct aamediate_sizes {
    size_t text;
    size_t fault;
};

/* As many bytes as a line on a job's fault takes at most. What is said of a question may be longer. */
#define AAMEDIATE_FAULT_SIZE 128

/* As many bytes of stack as a call takes at most. */
#define AAMEDIATE_STACK 1835008

/* What `aamediate check` writes for a job: how many profiles and rules each of its policies has. */
uint32_t aamediate_check(const uint8_t *job, size_t job_size, uint8_t *text, size_t text_size, uint8_t *fault, size_t fault_size,
                         struct aamediate_sizes *sizes);

/* What `aamediate run` writes: a verdict on each request of its tasks, and the audit lines. One task is answered after the other. */
uint32_t aamediate_run(const uint8_t *job, size_t job_size, uint8_t *text, size_t text_size, uint8_t *fault, size_t fault_size,
                       struct aamediate_sizes *sizes);

/* What `aamediate replay` writes: a line for each event of the job. */
uint32_t aamediate_replay(const uint8_t *job, size_t job_size, uint8_t *text, size_t text_size, uint8_t *fault, size_t fault_size,
                          struct aamediate_sizes *sizes);

/* What `aapolicy check --json` prints of a question's files, also where one is refused. A question is a JSON object, as EMBEDDING.md has it. */
uint32_t aapolicy_check(const uint8_t *question, size_t question_size, uint8_t *text, size_t text_size, uint8_t *fault, size_t fault_size,
                        struct aamediate_sizes *sizes);

/* What `aapolicy ask --json` prints to a question's words: a verdict on each, and the rules that decide. */
uint32_t aapolicy_ask(const uint8_t *question, size_t question_size, uint8_t *text, size_t text_size, uint8_t *fault, size_t fault_size,
                      struct aamediate_sizes *sizes);

/* What `aapolicy diff --json` prints of a question's two sides: the requests that they answer differently, and the rules that account for it. */
uint32_t aapolicy_diff(const uint8_t *question, size_t question_size, uint8_t *text, size_t text_size, uint8_t *fault, size_t fault_size,
                       struct aamediate_sizes *sizes);

#ifdef __cplusplus
}
#endif

#endif
