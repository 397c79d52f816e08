// Loaded by tests/faults --self-test before failing_calls.c: makes a wrong console out of a right one, in the one way that WRONG names.
#define _GNU_SOURCE
#include <dlfcn.h>
#include <stdlib.h>
#include <string.h>
#include <unistd.h>

typedef ssize_t reading(int, void *, size_t);
typedef ssize_t writing(int, const void *, size_t);

static int lost = 0;

static int wrong(const char *way) {
    const char *named = getenv("WRONG");
    return named && strcmp(named, way) == 0;
}

ssize_t read(int from, void *space, size_t count) {
    static int calls = 0;
    reading *next = (reading *)dlsym(RTLD_NEXT, "read");
    if (from != STDIN_FILENO) return next(from, space, count);
    if (calls++ && wrong("takes a short read for the last")) return 0;
    ssize_t got = next(from, space, count);
    if (got < 0 && wrong("serves what came before a failed read")) return 0;
    if (got < 0 && wrong("reads again after a failed read")) return next(from, space, count);
    return got;
}

ssize_t write(int to, const void *bytes, size_t count) {
    writing *next = (writing *)dlsym(RTLD_NEXT, "write");
    if (to == STDERR_FILENO && wrong("says nothing on standard error")) return (ssize_t)count;
    if (to == STDERR_FILENO && wrong("tells a fault on standard output")) return next(STDOUT_FILENO, bytes, count);
    if (to != STDOUT_FILENO) return next(to, bytes, count);
    if (wrong("writes to standard error instead")) return next(STDERR_FILENO, bytes, count);
    ssize_t put = next(to, bytes, count);
    if (put >= 0) return wrong("takes a short write for a whole one") ? (ssize_t)count : put;
    if (wrong("writes a lost piece again")) return next(to, bytes, count);
    if (wrong("goes on after a failed write")) return (ssize_t)count;
    if (!wrong("goes on after a failed write, and tells it at the end")) return put;
    lost = 1;
    return (ssize_t)count;
}

__attribute__((destructor)) static void end(void) {
    static const char line[] = "console: standard output could not be written\n";
    if (lost && write(STDERR_FILENO, line, sizeof line - 1) < 0) return;
}
