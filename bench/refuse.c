/* A library for LD_PRELOAD that refuses chosen allocations, for bench/starve.
 *
 * It counts the calls of malloc, calloc and realloc from 1, and refuses the one whose number is in REFUSE_AT, or, where
 * REFUSE_ON is set too, that one and all later ones. For each refusal it writes a byte to the file descriptor REFUSE_FD.
 */
#define _GNU_SOURCE
#include <dlfcn.h>
#include <errno.h>
#include <stdatomic.h>
#include <stdlib.h>
#include <unistd.h>

static void *(*real_malloc)(size_t);
static void *(*real_calloc)(size_t, size_t);
static void *(*real_realloc)(void *, size_t);

static long refuse_at;
static int refuse_on, refuse_fd;
static atomic_long calls;
static int is_ready;

__attribute__((constructor)) static void start(void)
{
    const char *at = getenv("REFUSE_AT"), *fd = getenv("REFUSE_FD");
    real_malloc = (void *(*)(size_t))dlsym(RTLD_NEXT, "malloc");
    real_calloc = (void *(*)(size_t, size_t))dlsym(RTLD_NEXT, "calloc");
    real_realloc = (void *(*)(void *, size_t))dlsym(RTLD_NEXT, "realloc");
    refuse_at = at ? atol(at) : 0;
    refuse_fd = fd ? atoi(fd) : -1;
    refuse_on = getenv("REFUSE_ON") != NULL;
    is_ready = 1;
}

static int refuses(void)
{
    long call;
    if (!is_ready || refuse_at <= 0)
        return 0;
    call = atomic_fetch_add(&calls, 1) + 1;
    if (call != refuse_at && !(refuse_on && call > refuse_at))
        return 0;
    if (write(refuse_fd, "x", 1) != 1)
        _exit(99);
    errno = ENOMEM;
    return 1;
}

/* Before the constructor has run, the C library's loader may allocate: it is given what is never handed back. */
static void *early(size_t size)
{
    static char room[65536];
    static size_t used;
    void *at = room + used;
    if (size > sizeof room - used - 16)
        return NULL;
    used += (size + 15) / 16 * 16;
    return at;
}

void *malloc(size_t size)
{
    if (!real_malloc)
        return early(size);
    return refuses() ? NULL : real_malloc(size);
}

void *calloc(size_t count, size_t size)
{
    if (!real_calloc)
        return size && count > 65536 / size ? NULL : early(count * size);
    return refuses() ? NULL : real_calloc(count, size);
}

void *realloc(void *old, size_t size)
{
    if (!real_realloc)
        return NULL;
    return refuses() ? NULL : real_realloc(old, size);
}
