// Loaded before the C library (LD_PRELOAD): counts the calls of malloc and realloc, and refuses the one whose number is in REFUSE, counted
// from 1. At that call it makes the file that REFUSED names, so that bench/refuse sees whether there was one.
#include <errno.h>
#include <fcntl.h>
#include <stdlib.h>
#include <unistd.h>

void *__libc_malloc(size_t size);
void *__libc_realloc(void *old, size_t size);

static int is_refused(void) {
    static long count, refused = -1;
    if (refused < 0) {
        const char *wanted = getenv("REFUSE");
        refused = wanted ? atol(wanted) : 0;
    }
    if (__sync_add_and_fetch(&count, 1) != refused) return 0;
    const char *mark = getenv("REFUSED");
    int file = mark ? open(mark, O_WRONLY | O_CREAT, 0600) : -1;
    if (file >= 0) close(file);
    errno = ENOMEM;
    return 1;
}

void *malloc(size_t size) { return is_refused() ? 0 : __libc_malloc(size); }

void *realloc(void *old, size_t size) { return is_refused() ? 0 : __libc_realloc(old, size); }
