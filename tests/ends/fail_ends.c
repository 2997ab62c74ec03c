/* Preloaded into the program: reads of standard input that fail, fall short or are interrupted, and writes that do. The read whose
   number, from 1, is in FAIL_READ gives an error; so does the one at the byte FAIL_AT, before which reads stop. The write to standard
   output whose number is in FAIL_WRITE gives one too, and writes behind it pass again. No read gives more than SHORT_READ bytes, and no
   write takes more than SHORT_WRITE. Each read or write that moves bytes comes after as many interrupted ones as INTERRUPTS says. Each
   read, of any file, takes SLOW_READ microseconds more. */
#define _GNU_SOURCE
#include <errno.h>
#include <stdatomic.h>
#include <stdlib.h>
#include <sys/syscall.h>
#include <sys/types.h>
#include <unistd.h>

static atomic_long made, given, written, interrupted;

static ssize_t fail(int error) {
    errno = error;
    return -1;
}

static size_t at_most(size_t size, const char *most) { return most && size > (size_t)atol(most) ? (size_t)atol(most) : size; }

static int is_interrupted(void) {
    const char *each = getenv("INTERRUPTS");
    return each && atomic_fetch_add(&interrupted, 1) % (atol(each) + 1) < atol(each);
}

ssize_t read(int file, void *buffer, size_t size) {
    const char *slow = getenv("SLOW_READ");
    if (slow) usleep(atol(slow));
    if (file != 0) return syscall(SYS_read, file, buffer, size);
    if (is_interrupted()) return fail(EINTR);
    const char *failing = getenv("FAIL_READ"), *at = getenv("FAIL_AT");
    if (failing && atomic_fetch_add(&made, 1) + 1 == atol(failing)) return fail(EIO);
    if (at) {
        size_t left = atol(at) - atomic_load(&given);
        if (left == 0) return fail(EIO);
        if (size > left) size = left;
    }
    ssize_t got = syscall(SYS_read, file, buffer, at_most(size, getenv("SHORT_READ")));
    if (got > 0) atomic_fetch_add(&given, got);
    return got;
}

ssize_t write(int file, const void *bytes, size_t size) {
    if (file != 1 && file != 2) return syscall(SYS_write, file, bytes, size);
    if (is_interrupted()) return fail(EINTR);
    const char *failing = getenv("FAIL_WRITE");
    if (file == 1 && failing && atomic_fetch_add(&written, 1) + 1 == atol(failing)) return fail(EIO);
    return syscall(SYS_write, file, bytes, at_most(size, getenv("SHORT_WRITE")));
}
