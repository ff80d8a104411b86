/* Refuses one request for memory of a program, the REFUSE_AT-th: a library to be loaded before the others (LD_PRELOAD).
 *
 * The program's status is NEVER_CAME where it ends without having asked so often. */
#include <errno.h>
#include <stdlib.h>
#include <unistd.h>

#define NEVER_CAME 77

extern void *__libc_malloc(size_t size);
extern void *__libc_realloc(void *memory, size_t size);

static long refused, asked;

__attribute__((constructor)) static void begin(void) {
    const char *text = getenv("REFUSE_AT");
    refused = text ? atol(text) : 0;
    asked = 0;
}

__attribute__((destructor)) static void end(void) {
    if (asked < refused)
        _exit(NEVER_CAME);
}

static int is_refused(void) {
    if (++asked != refused)
        return 0;
    errno = ENOMEM;
    return 1;
}

void *malloc(size_t size) {
    return is_refused() ? NULL : __libc_malloc(size);
}

void *realloc(void *memory, size_t size) {
    return is_refused() ? NULL : __libc_realloc(memory, size);
}
