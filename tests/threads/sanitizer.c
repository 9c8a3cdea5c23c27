/* What newer compilers ask of ThreadSanitizer and older runtimes lack. The plain functions are the runtime's own, which look at
   the bytes. */
typedef unsigned long size;

extern void *memset(void *to, int byte, size count);
extern void *memmove(void *to, const void *from, size count);
extern void *memcpy(void *to, const void *from, size count);

__attribute__((weak)) void *__tsan_memset(void *to, int byte, size count) { return memset(to, byte, count); }

__attribute__((weak)) void *__tsan_memmove(void *to, const void *from, size count) { return memmove(to, from, count); }

__attribute__((weak)) void *__tsan_memcpy(void *to, const void *from, size count) { return memcpy(to, from, count); }
