/* Preloaded into a program, this makes one of its allocations fail: the one with the number REFUSED_ALLOCATION, counted
   from 1. It reports that in a line on standard error. When the program exits, it reports the most bytes that were in use
   at one time. */
#include <malloc.h>
#include <stddef.h>
#include <stdio.h>
#include <stdlib.h>
#include <unistd.h>

extern void *__libc_calloc(size_t, size_t);
extern void *__libc_malloc(size_t);
extern void *__libc_realloc(void *, size_t);
extern void __libc_free(void *);

static size_t in_use, most_in_use;

static int must_fail(void) {
    static const char report[] = "allocation refused\n";
    static long made;
    const char *number = getenv("REFUSED_ALLOCATION");
    if (number == NULL || ++made != atol(number)) return 0;
    return write(STDERR_FILENO, report, sizeof report - 1) > 0;
}

/* Counts an allocation that replaces `old_size` bytes. */
static void *counted(void *made, size_t old_size) {
    if (made == NULL) return NULL;
    in_use += malloc_usable_size(made) - old_size;
    if (in_use > most_in_use) most_in_use = in_use;
    return made;
}

void *malloc(size_t size) { return must_fail() ? NULL : counted(__libc_malloc(size), 0); }

/* None of these fails, since the program's own allocations are by malloc and realloc. */
void *calloc(size_t count, size_t size) { return counted(__libc_calloc(count, size), 0); }

void *realloc(void *old, size_t size) {
    size_t old_size = malloc_usable_size(old);
    return must_fail() ? NULL : counted(__libc_realloc(old, size), old_size);
}

void free(void *old) {
    in_use -= malloc_usable_size(old);
    __libc_free(old);
}

__attribute__((destructor)) static void report(void) {
    char line[64];
    int length = snprintf(line, sizeof line, "bytes in use: %zu\n", most_in_use);
    if (write(STDERR_FILENO, line, length) < 0) return; /* where standard error is closed, there is no report */
}
