/* Refuses memory to a program, if it is loaded before the program. README.md in this directory
 * describes it.
 *
 * REFUSE_FROM and REFUSE_TO: the first and the last growth that is refused, counted from 1.
 * REFUSE_COUNT: a file to which a byte is appended for each growth. Both `malloc` and `realloc`
 * count as growths.
 */
#define _GNU_SOURCE
#include <dlfcn.h>
#include <errno.h>
#include <fcntl.h>
#include <stdlib.h>
#include <unistd.h>

static long number_in(const char *name) {
    const char *text = getenv(name);
    return text ? atol(text) : 0;
}

/* Counts a growth, and returns whether it is refused. */
static int is_refused(void) {
    static long made;
    const char *count = getenv("REFUSE_COUNT");
    made++;
    if (count) {
        int file = open(count, O_WRONLY | O_APPEND | O_CREAT, 0600);
        if (file >= 0) {
            if (write(file, ".", 1) != 1) abort();
            close(file);
        }
    }
    return made >= number_in("REFUSE_FROM") && made <= number_in("REFUSE_TO");
}

static void *nothing(void) {
    errno = ENOMEM;
    return NULL;
}

void *malloc(size_t size) {
    static void *(*next)(size_t);
    if (!next) next = (void *(*)(size_t))dlsym(RTLD_NEXT, "malloc");
    return is_refused() ? nothing() : next(size);
}

void *realloc(void *old, size_t size) {
    static void *(*next)(void *, size_t);
    if (!next) next = (void *(*)(void *, size_t))dlsym(RTLD_NEXT, "realloc");
    return is_refused() ? nothing() : next(old, size);
}
