/* Preloaded into the program: refuses the growth of memory whose number, from 1, is in REFUSE_GROWTH, and then makes the
   file that REFUSED names. */
#define _GNU_SOURCE
#include <errno.h>
#include <fcntl.h>
#include <stdatomic.h>
#include <stddef.h>
#include <stdlib.h>
#include <unistd.h>

extern void *__libc_malloc(size_t);
extern void *__libc_calloc(size_t, size_t);
extern void *__libc_realloc(void *, size_t);

static atomic_long made;
static long refused = -1;

static int is_refused(void) {
    if (refused < 0) {
        const char *text = getenv("REFUSE_GROWTH");
        refused = text ? atol(text) : 0;
    }
    if (atomic_fetch_add(&made, 1) + 1 != refused) return 0;
    const char *name = getenv("REFUSED");
    int mark = name ? open(name, O_CREAT | O_WRONLY, 0600) : -1;
    if (mark >= 0) close(mark);
    errno = ENOMEM;
    return 1;
}

void *malloc(size_t size) { return is_refused() ? NULL : __libc_malloc(size); }
void *calloc(size_t count, size_t size) { return is_refused() ? NULL : __libc_calloc(count, size); }
void *realloc(void *old, size_t size) { return is_refused() ? NULL : __libc_realloc(old, size); }
