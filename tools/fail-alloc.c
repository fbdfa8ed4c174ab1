/* Preloaded into a program, it finds no memory for allocation number FAIL_ALLOC, counted from 1 over all threads, and says
   so on standard error. It counts malloc and realloc, which are all that the programs here call. */
#define _GNU_SOURCE
#include <dlfcn.h>
#include <errno.h>
#include <stdlib.h>
#include <unistd.h>

static int fails(void)
{
    static long asked;
    if (__atomic_add_fetch(&asked, 1, __ATOMIC_SEQ_CST) != atol(getenv("FAIL_ALLOC")))
        return 0;
    (void)!write(2, "fail-alloc\n", 11);
    errno = ENOMEM;
    return 1;
}

void *malloc(size_t size)
{
    static void *(*real)(size_t);
    if (!real)
        real = (void *(*)(size_t))dlsym(RTLD_NEXT, "malloc");
    return fails() ? NULL : real(size);
}

void *realloc(void *old, size_t size)
{
    static void *(*real)(void *, size_t);
    if (!real)
        real = (void *(*)(void *, size_t))dlsym(RTLD_NEXT, "realloc");
    return fails() ? NULL : real(old, size);
}
