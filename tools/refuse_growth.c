/* Refuses growths of the program into which it is loaded: the one with the number in REFUSED_GROWTH, counted from 1, or all from
 * that number on where two dots follow it. At the end it writes to standard error how many there were, and how many bytes the
 * greatest of them requested. */
#include <stddef.h>
#include <stdio.h>
#include <stdlib.h>

extern void *__libc_malloc(size_t size);
extern void *__libc_realloc(void *old, size_t size);

static long refused = -1;
static int with_rest;
static long growths;
static size_t greatest;

static int is_refused(size_t size) {
    if (refused < 0) {
        const char *number = getenv("REFUSED_GROWTH");
        char *end = NULL;
        refused = number ? strtol(number, &end, 10) : 0;
        with_rest = end && *end == '.';
    }
    if (size > greatest) greatest = size;
    growths++;
    return growths == refused || (with_rest && growths > refused);
}

void *malloc(size_t size) { return is_refused(size) ? NULL : __libc_malloc(size); }

void *realloc(void *old, size_t size) { return is_refused(size) ? NULL : __libc_realloc(old, size); }

__attribute__((destructor)) static void report(void) {
    dprintf(2, "growths: %ld, the greatest of %zu bytes\n", growths, greatest);
}
