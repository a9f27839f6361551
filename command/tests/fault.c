/* Faults of the system, preloaded: FAULT names a call, which fails on files whose path has PLACE in it.
   `read` fails after 20 bytes. */
#define _GNU_SOURCE
#include <errno.h>
#include <stdio.h>
#include <stdlib.h>
#include <string.h>
#include <sys/syscall.h>
#include <unistd.h>

static int asked(const char *call, const char *path) {
    const char *fault = getenv("FAULT"), *place = getenv("PLACE");
    return fault && place && !strcmp(fault, call) && strstr(path, place);
}

static int asked_of(const char *call, int file) {
    char link[64], path[4096] = "";
    snprintf(link, sizeof link, "/proc/self/fd/%d", file);
    return readlink(link, path, sizeof path - 1) > 0 && asked(call, path);
}

static int fail(int error) {
    errno = error;
    return -1;
}

ssize_t read(int file, void *bytes, size_t count) {
    static int reads;
    if (asked_of("read", file)) {
        if (reads++)
            return fail(EIO);
        count = count < 20 ? count : 20;
    }
    return syscall(SYS_read, file, bytes, count);
}

ssize_t write(int file, const void *bytes, size_t count) {
    if (asked_of("write", file))
        return fail(ENOSPC);
    return syscall(SYS_write, file, bytes, count);
}

int fsync(int file) {
    return asked_of("fsync", file) ? fail(EIO) : (int)syscall(SYS_fsync, file);
}

int rename(const char *from, const char *to) {
    return asked("rename", to) ? fail(EDQUOT) : (int)syscall(SYS_rename, from, to);
}
