#include "memory.h"

#include <stdbool.h>

void *__real_malloc(size_t octets);
void *__real_realloc(void *old, size_t octets);
void __real_free(void *old);
void *__wrap_malloc(size_t octets);
void *__wrap_realloc(void *old, size_t octets);
void __wrap_free(void *old);

struct memory memory;

void watch(size_t refused)
{
    memory.asked = 0;
    memory.refused = refused;
    memory.held = 0;
}

static bool is_refused(void)
{
    return ++memory.asked == memory.refused;
}

void *__wrap_malloc(size_t octets)
{
    void *taken = is_refused() ? NULL : __real_malloc(octets);

    memory.held += taken != NULL;
    return taken;
}

void *__wrap_realloc(void *old, size_t octets)
{
    void *taken = is_refused() ? NULL : __real_realloc(old, octets);

    memory.held += old == NULL && taken != NULL;
    return taken;
}

void __wrap_free(void *old)
{
    memory.held -= old != NULL;
    __real_free(old);
}
