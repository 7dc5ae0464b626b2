// Refuses one allocation of a program: the one whose number, counted from 1, the variable REFUSE has, and says so on
// standard error. It is loaded before the C library.
#define _GNU_SOURCE
#include <dlfcn.h>
#include <errno.h>
#include <stdatomic.h>
#include <stdlib.h>
#include <unistd.h>

static atomic_ulong asked;

static unsigned long refused(void) {
    const char *number = getenv("REFUSE");
    return number ? strtoul(number, NULL, 10) : 0;
}

// Whether this allocation is the one.
static int is_refused(void) {
    static const char said[] = "refused\n";
    if (atomic_fetch_add(&asked, 1) + 1 != refused()) return 0;
    if (write(STDERR_FILENO, said, sizeof said - 1) < 0) _exit(3);
    errno = ENOMEM;
    return 1;
}

void *malloc(size_t size) {
    static void *(*real)(size_t);
    if (!real) real = (void *(*)(size_t))dlsym(RTLD_NEXT, "malloc");
    return is_refused() ? NULL : real(size);
}

void *realloc(void *old, size_t size) {
    static void *(*real)(void *, size_t);
    if (!real) real = (void *(*)(void *, size_t))dlsym(RTLD_NEXT, "realloc");
    return is_refused() ? NULL : real(old, size);
}
