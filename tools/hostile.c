/* A hostile outside for one run of a program, by LD_PRELOAD. For tools/sweep and .ci/checks alone; no part of mcb.
 *
 * HOSTILE_COUNT=FILE   writes to the file how many requests for memory, reads and writes there were
 * HOSTILE_MEMORY=N     refuses the request for memory of this number, counted from 1
 * HOSTILE_READ=N       the read of this number fails
 * HOSTILE_WRITE=N      the write of this number fails
 * HOSTILE_PIECE=N      a read or a write moves at most so many bytes
 */
#define _GNU_SOURCE
#include <dlfcn.h>
#include <errno.h>
#include <stdio.h>
#include <stdlib.h>
#include <unistd.h>

struct calls {
    long made;   /* so far */
    long fails;  /* the number of the call that fails, 0 for none */
};

static struct calls memory, reads, writes;
static long piece;
static const char *count;

static long number(const char *name)
{
    const char *text = getenv(name);
    return text ? atol(text) : 0;
}

__attribute__((constructor)) static void begin(void)
{
    count = getenv("HOSTILE_COUNT");
    memory.fails = number("HOSTILE_MEMORY");
    reads.fails = number("HOSTILE_READ");
    writes.fails = number("HOSTILE_WRITE");
    piece = number("HOSTILE_PIECE");
    memory.made = 0;
}

__attribute__((destructor)) static void end(void)
{
    struct calls m = memory, r = reads, w = writes;
    FILE *file = count ? fopen(count, "w") : NULL;
    if (file) {
        fprintf(file, "%ld %ld %ld\n", m.made, r.made, w.made);
        fclose(file);
    }
}

static int fails(struct calls *calls, int error)
{
    if (++calls->made != calls->fails)
        return 0;
    errno = error;
    return 1;
}

static size_t at_most(size_t size)
{
    return piece > 0 && size > (size_t)piece ? (size_t)piece : size;
}

void *malloc(size_t size)
{
    void *(*next)(size_t) = (void *(*)(size_t))dlsym(RTLD_NEXT, "malloc");
    return fails(&memory, ENOMEM) ? NULL : next(size);
}

void *realloc(void *old, size_t size)
{
    void *(*next)(void *, size_t) = (void *(*)(void *, size_t))dlsym(RTLD_NEXT, "realloc");
    return fails(&memory, ENOMEM) ? NULL : next(old, size);
}

ssize_t read(int file, void *bytes, size_t size)
{
    ssize_t (*next)(int, void *, size_t) = (ssize_t(*)(int, void *, size_t))dlsym(RTLD_NEXT, "read");
    return fails(&reads, EIO) ? -1 : next(file, bytes, at_most(size));
}

ssize_t write(int file, const void *bytes, size_t size)
{
    ssize_t (*next)(int, const void *, size_t) = (ssize_t(*)(int, const void *, size_t))dlsym(RTLD_NEXT, "write");
    return fails(&writes, EIO) ? -1 : next(file, bytes, at_most(size));
}
