/* What the compiled code of the library and of the program calls beside libc: memory, and for the program also its words, errno and locks.
 *
 *     cc -O2 -fPIC -c bindings/c/rattle.c                 for the library (.ci/bindings adds it to libx509check.a)
 *     cc -O2 -DX509CHECK_PROGRAM x509check.o bindings/c/rattle.c     for the program on AArch64 (.ci/where)
 *
 * Nothing proves this file: the proofs assume of each function what the comment beside it says. The linked program of dist/ for x86-64 has
 * the kit's own functions in their place.
 */
#define _GNU_SOURCE
#include <errno.h>
#include <fcntl.h>
#include <stddef.h>
#include <stdint.h>
#include <stdlib.h>
#include <string.h>
#include <sys/types.h>

/* Whether there is memory, 0 or 1, and where: two registers on both processors, as a bool and a pointer. */
struct tried {
    uint64_t is_given;
    void *block;
};

/* What an answer without memory points to: the pointer may not be null, and nobody reads or frees what is there. */
static char nothing;

static struct tried answer(void *block)
{
    return (struct tried){block != NULL, block ? block : &nothing};
}

/* Tries to get a block of size octets, aligned to align, which divides 16, as malloc's blocks are on both processors. A block of no octets
 * is one too, at an address of its own. The caller has an answer to both outcomes. */
struct tried rattle_alloc(size_t size, size_t align)
{
    return answer(malloc(size ? size : align));
}

/* Tries to make a block one of size octets, perhaps elsewhere. Its first kept octets stay as they are, which are no more than either block
 * has. If it fails, the block stays as it was. */
struct tried rattle_realloc(void *block, size_t kept, size_t size, size_t align)
{
    (void)kept;
    return answer(realloc(block, size ? size : align));
}

/* Frees a block that one of the two gave. */
void rattle_dealloc(void *block)
{
    free(block);
}

#ifdef X509CHECK_PROGRAM
static int word_count;
static char **words;

/* (glibc hands the words of main to constructors too) */
__attribute__((constructor)) static void keep_words(int count, char **given)
{
    word_count = count;
    words = given;
}

/* Puts word number place, without its ending 0, at the start of the room and returns its length; -1 if there is no such word; -2 if it does
 * not fit, and then the room is full of its first octets. */
ssize_t rattle_arg(size_t place, uint8_t *to, size_t room)
{
    if (place >= (size_t)word_count || words[place] == NULL)
        return -1;
    size_t length = strlen(words[place]);
    memcpy(to, words[place], length < room ? length : room);
    return length <= room ? (ssize_t)length : -2;
}

/* The number of the error of the last call of libc on this thread, and a way to set it. */
int rattle_errno(void)
{
    return errno;
}

void rattle_set_errno(int error)
{
    errno = error;
}

/* Asks for a lock of an open file on length octets from start, counted from the begin of the file, or gives it back, by type (F_RDLCK,
 * F_WRLCK, F_UNLCK), and does not wait: F_OFD_SETLK of Linux. Returns 0, or -1 with errno. */
int rattle_lock_range(int file, int16_t type, int64_t start, int64_t length)
{
    struct flock range = {.l_type = type, .l_whence = SEEK_SET, .l_start = start, .l_len = length, .l_pid = 0};
    return fcntl(file, F_OFD_SETLK, &range);
}
#endif
