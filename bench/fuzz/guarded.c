#define _GNU_SOURCE
#include "guarded.h"

#include <stdio.h>
#include <stdlib.h>
#include <string.h>
#include <sys/mman.h>
#include <unistd.h>

static void fail(const char *what)
{
    fprintf(stderr, "fuzz: %s\n", what);
    exit(2);
}

/* The file's pages with one before and one behind that may not be touched. */
static uint8_t *map_between_guards(int file, size_t size, size_t page, int protection)
{
    uint8_t *at = mmap(NULL, size + 2 * page, PROT_NONE, MAP_PRIVATE | MAP_ANONYMOUS, -1, 0);

    if (at == MAP_FAILED || mmap(at + page, size, protection, MAP_SHARED | MAP_FIXED, file, 0) == MAP_FAILED)
        fail("no memory can be mapped");
    return at + page;
}

struct guarded make_guarded(size_t octets)
{
    size_t page = (size_t)sysconf(_SC_PAGESIZE);
    size_t size = (octets + page - 1) / page * page;
    int file = memfd_create("text", 0);
    struct guarded memory;

    if (file < 0 || ftruncate(file, (off_t)size) != 0)
        fail("no file in memory can be made");
    memory.writable = map_between_guards(file, size, page, PROT_READ | PROT_WRITE);
    memory.readable = map_between_guards(file, size, page, PROT_READ);
    memory.size = size;
    close(file);
    return memory;
}

const uint8_t *at_the_begin(const struct guarded *memory, const uint8_t *octets, size_t length)
{
    memcpy(memory->writable, octets, length);
    return memory->readable;
}

const uint8_t *at_the_end(const struct guarded *memory, const uint8_t *octets, size_t length)
{
    size_t at = memory->size - length;

    memcpy(memory->writable + at, octets, length);
    return memory->readable + at;
}
