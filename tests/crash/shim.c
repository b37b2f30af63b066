// Preloaded by tests/crash/run: at one of a program's calls of the system it ends the program, or has
// the call fail or move less than it was asked.
//
//   SHIM_LOG   a file: the name of each call is added to it, one to a line
//   SHIM_AT    the number of the call, from 1; 0 is every call
//   SHIM_CALL  only calls of this name are hindered
//   SHIM_HOW   before, after: the program ends there
//              half: a write moves half of its bytes, and then the program ends
//              fail: the call fails, with ENOSPC for a write and EIO for any other
//              interrupted: the call fails with EINTR
//              short: a read or a write moves one byte
//              zero: a write moves none
//
// A program that ends so loses what a power failure may take: what was written to a file and not
// synced since. A line on standard output is held to come after all of that is synced, the folder's
// entry too; where it does not, the program ends with status 97.
#define _GNU_SOURCE
#include <dlfcn.h>
#include <errno.h>
#include <fcntl.h>
#include <stdarg.h>
#include <stdbool.h>
#include <stdio.h>
#include <stdlib.h>
#include <string.h>
#include <sys/stat.h>
#include <unistd.h>

enum { ENDED = 42, CLAIMED = 97, FILES = 64, FIRST_KEPT = 500 };

// A file that the program opened for writing: its descriptor while it is open, one of our own, and
// whether something in it is not synced.
static struct {
    int fd, kept;
    bool unsynced;
} files[FILES];
static int file_count;

// A name was changed, and the folder is not synced since.
static bool folder_unsynced;

static int calls;

#define REAL(name) ((__typeof__(&name))dlsym(RTLD_NEXT, #name))

static bool is(const char *variable, const char *value) {
    const char *text = getenv(variable);
    return text && !strcmp(text, value);
}

// Ends the program as a power failure would.
static void end(void) {
    for (int i = 0; i < file_count; i++)
        if (files[i].unsynced && ftruncate(files[i].kept, 0) != 0)
            _exit(1);
    _exit(ENDED);
}

// Counts the call and answers whether it is to be hindered.
static bool hindered(const char *name) {
    calls++;
    const char *log = getenv("SHIM_LOG");
    if (log) {
        int fd = REAL(open)(log, O_WRONLY | O_CREAT | O_APPEND, 0644);
        char line[64];
        int n = snprintf(line, sizeof line, "%s\n", name);
        if (fd < 0 || REAL(write)(fd, line, n) != n)
            _exit(1);
        REAL(close)(fd);
    }
    const char *at = getenv("SHIM_AT");
    const char *only = getenv("SHIM_CALL");
    if (!at || (only && strcmp(only, name)))
        return false;
    int number = atoi(at);
    return number == 0 || number == calls;
}

// Before the call: ends the program, or answers whether the call fails, with errno set.
static bool fails(bool here, int cause) {
    if (here && is("SHIM_HOW", "before"))
        end();
    if (here && is("SHIM_HOW", "fail")) {
        errno = cause;
        return true;
    }
    if (here && is("SHIM_HOW", "interrupted")) {
        errno = EINTR;
        return true;
    }
    return false;
}

// After the call.
static void after(bool here) {
    int cause = errno;
    if (here && is("SHIM_HOW", "after"))
        end();
    errno = cause;
}

int open(const char *path, int flags, ...) {
    va_list rest;
    va_start(rest, flags);
    mode_t mode = flags & O_CREAT ? va_arg(rest, mode_t) : 0;
    va_end(rest);
    bool here = hindered("open");
    if (fails(here, EIO))
        return -1;
    int fd = REAL(open)(path, flags, mode);
    if (fd >= 0 && (flags & O_ACCMODE) != O_RDONLY && file_count < FILES) {
        files[file_count].fd = fd;
        files[file_count].kept = fcntl(fd, F_DUPFD_CLOEXEC, FIRST_KEPT);
        files[file_count].unsynced = true;
        file_count++;
    }
    after(here);
    return fd;
}

ssize_t read(int fd, void *bytes, size_t n) {
    bool here = hindered("read");
    if (fails(here, EIO))
        return -1;
    ssize_t got = REAL(read)(fd, bytes, here && is("SHIM_HOW", "short") && n > 1 ? 1 : n);
    after(here);
    return got;
}

ssize_t write(int fd, const void *bytes, size_t n) {
    bool here = hindered(fd == STDOUT_FILENO ? "print" : fd == STDERR_FILENO ? "say" : "write");
    if (fd == STDOUT_FILENO) {
        bool claimed = folder_unsynced;
        for (int i = 0; i < file_count; i++)
            claimed = claimed || files[i].unsynced;
        if (claimed)
            _exit(CLAIMED);
    }
    if (fails(here, ENOSPC))
        return -1;
    if (here && is("SHIM_HOW", "zero"))
        return 0;
    bool half = here && is("SHIM_HOW", "half");
    ssize_t put = REAL(write)(fd, bytes, half ? n / 2 : here && is("SHIM_HOW", "short") && n > 1 ? 1 : n);
    for (int i = 0; i < file_count; i++)
        if (files[i].fd == fd)
            files[i].unsynced = true;
    if (half)
        end();
    after(here);
    return put;
}

int fsync(int fd) {
    bool here = hindered("fsync");
    if (fails(here, EIO))
        return -1;
    int status = REAL(fsync)(fd);
    struct stat about;
    if (status == 0 && fstat(fd, &about) == 0 && S_ISDIR(about.st_mode))
        folder_unsynced = false;
    for (int i = 0; status == 0 && i < file_count; i++)
        if (files[i].fd == fd)
            files[i].unsynced = false;
    after(here);
    return status;
}

int close(int fd) {
    bool here = hindered("close");
    if (fails(here, EIO))
        return -1;
    for (int i = 0; i < file_count; i++)
        if (files[i].fd == fd)
            files[i].fd = -1;
    int status = REAL(close)(fd);
    after(here);
    return status;
}

int rename(const char *from, const char *to) {
    bool here = hindered("rename");
    if (fails(here, EIO))
        return -1;
    int status = REAL(rename)(from, to);
    folder_unsynced = folder_unsynced || status == 0;
    after(here);
    return status;
}

int unlink(const char *path) {
    bool here = hindered("unlink");
    if (fails(here, EIO))
        return -1;
    int status = REAL(unlink)(path);
    after(here);
    return status;
}

int statx(int from, const char *restrict path, int flags, unsigned mask, struct statx *restrict about) {
    bool here = hindered("stat");
    if (fails(here, EIO))
        return -1;
    int status = REAL(statx)(from, path, flags, mask, about);
    after(here);
    return status;
}

int getentropy(void *bytes, size_t n) {
    bool here = hindered("getentropy");
    if (fails(here, EIO))
        return -1;
    int status = REAL(getentropy)(bytes, n);
    after(here);
    return status;
}
