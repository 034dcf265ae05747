/*
 * Preloaded into a program by test-edges.sh: reads of standard input and writes to standard output that fail as the variable FAULT says.
 *   read-interrupted      every other read is interrupted
 *   read-never            every read is interrupted
 *   read-breaks-off       the first read gives what there is, and the second fails
 *   write-interrupted     every other write is interrupted
 *   write-short           a write takes 7 bytes at most
 *   write-breaks-off      the first write takes 7 bytes, and the second fails
 */
#define _GNU_SOURCE
#include <errno.h>
#include <stdlib.h>
#include <string.h>
#include <sys/syscall.h>
#include <unistd.h>

static int fault(const char *kind) {
    const char *given = getenv("FAULT");
    return given != NULL && strcmp(given, kind) == 0;
}

static ssize_t fail(int error) {
    errno = error;
    return -1;
}

ssize_t read(int file, void *bytes, size_t length) {
    static unsigned long reads = 0;
    if (file == STDIN_FILENO) {
        reads++;
        if (fault("read-never") || (fault("read-interrupted") && reads % 2 == 1)) {
            return fail(EINTR);
        }
        if (fault("read-breaks-off") && reads > 1) {
            return fail(EIO);
        }
    }
    return syscall(SYS_read, file, bytes, length);
}

ssize_t write(int file, const void *bytes, size_t length) {
    static unsigned long writes = 0;
    if (file == STDOUT_FILENO) {
        writes++;
        if (fault("write-interrupted") && writes % 2 == 1) {
            return fail(EINTR);
        }
        if (fault("write-breaks-off") && writes > 1) {
            return fail(EIO);
        }
        if (length > 7 && (fault("write-short") || fault("write-breaks-off"))) {
            length = 7;
        }
    }
    return syscall(SYS_write, file, bytes, length);
}
