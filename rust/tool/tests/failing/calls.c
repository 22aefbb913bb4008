// Makes a call of a program fail; to be loaded before the C library. FAILING names the call,
// FAILING_ERRNO the error, FAILING_AFTER how many such calls succeed first.
#include <errno.h>
#include <fcntl.h>
#include <stdlib.h>
#include <string.h>
#include <sys/syscall.h>
#include <sys/types.h>
#include <unistd.h>

static int number(const char *name) {
    const char *text = getenv(name);
    return text ? atoi(text) : 0;
}

static int fails(const char *call) {
    static int made = 0;
    const char *failing = getenv("FAILING");
    if (!failing || strcmp(failing, call) != 0 || made++ < number("FAILING_AFTER"))
        return 0;
    errno = number("FAILING_ERRNO");
    return 1;
}

ssize_t write(int file, const void *bytes, size_t length) {
    // The standard streams stay as they are.
    return file > 2 && fails("write") ? -1 : syscall(SYS_write, file, bytes, length);
}

int fsync(int file) { return fails("fsync") ? -1 : (int)syscall(SYS_fsync, file); }

int fchmod(int file, mode_t mode) { return fails("fchmod") ? -1 : (int)syscall(SYS_fchmod, file, mode); }

int rename(const char *from, const char *to) {
    return fails("rename") ? -1 : (int)syscall(SYS_renameat2, AT_FDCWD, from, AT_FDCWD, to, 0);
}

int linkat(int from_folder, const char *from, int to_folder, const char *to, int flags) {
    return fails("linkat") ? -1 : (int)syscall(SYS_linkat, from_folder, from, to_folder, to, flags);
}

int flock(int file, int operation) { return fails("flock") ? -1 : (int)syscall(SYS_flock, file, operation); }
