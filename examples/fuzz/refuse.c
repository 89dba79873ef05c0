/* Loaded before a program (LD_PRELOAD), it refuses the growth of memory whose number is REFUSE: calls of malloc,
 * calloc and realloc that ask for some bytes, counted from 1; with REFUSE_ON all from this one on. Each time it writes a
 * byte to the file whose number is REFUSE_TELL, so that whoever started the program knows that one was refused. */
#include <errno.h>
#include <stddef.h>
#include <stdlib.h>
#include <unistd.h>

extern void *__libc_malloc(size_t size);
extern void *__libc_calloc(size_t count, size_t size);
extern void *__libc_realloc(void *old, size_t size);

static unsigned long number(const char *name) {
    const char *text = getenv(name);
    return text ? strtoul(text, NULL, 10) : 0;
}

static int is_refused(void) {
    static unsigned long calls;
    unsigned long first = number("REFUSE");
    calls += 1;
    if (first == 0 || calls < first || (calls > first && !number("REFUSE_ON"))) {
        return 0;
    }
    if (write((int)number("REFUSE_TELL"), "r", 1) != 1) {
        _exit(125);
    }
    errno = ENOMEM;
    return 1;
}

void *malloc(size_t size) {
    return is_refused() ? NULL : __libc_malloc(size);
}

void *calloc(size_t count, size_t size) {
    return is_refused() ? NULL : __libc_calloc(count, size);
}

void *realloc(void *old, size_t size) {
    return size != 0 && is_refused() ? NULL : __libc_realloc(old, size);
}
