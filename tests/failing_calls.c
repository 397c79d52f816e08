// Loaded before the C library by tests/faults: reads of standard input and writes of standard output go as the environment says.
// Calls are counted from 1.
//     READ_FAILS_AT=n        the n-th read fails, and no other
//     READ_INTERRUPTED_AT=n  the n-th read is interrupted by a signal, and no other
//     READ_GIVES_AT_MOST=n   no read gives more than n bytes
//     WRITE_FAILS_AT=n       the n-th write fails, and no other
//     WRITES_FAIL_FROM=n     the n-th write fails, and every later one
//     WRITE_TAKES_AT_MOST=n  no write takes more than n bytes
#include <errno.h>
#include <stdlib.h>
#include <sys/syscall.h>
#include <unistd.h>

static long said(const char *name) { // 0 where the environment has no such name
    const char *value = getenv(name);
    return value ? atol(value) : 0;
}

static size_t cut(size_t count, const char *most) {
    size_t limit = (size_t)said(most);
    return limit && limit < count ? limit : count;
}

static ssize_t fail(int reason) {
    errno = reason;
    return -1;
}

ssize_t read(int from, void *space, size_t count) {
    static long call = 0;
    if (from == STDIN_FILENO) {
        call++;
        if (call == said("READ_FAILS_AT")) return fail(EIO);
        if (call == said("READ_INTERRUPTED_AT")) return fail(EINTR);
        count = cut(count, "READ_GIVES_AT_MOST");
    }
    return syscall(SYS_read, from, space, count);
}

ssize_t write(int to, const void *bytes, size_t count) {
    static long call = 0;
    if (to == STDOUT_FILENO) {
        long from = said("WRITES_FAIL_FROM");
        call++;
        if (call == said("WRITE_FAILS_AT") || (from && call >= from)) return fail(EIO);
        count = cut(count, "WRITE_TAKES_AT_MOST");
    }
    return syscall(SYS_write, to, bytes, count);
}
