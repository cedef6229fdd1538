/* A library that is loaded before the system's (LD_PRELOAD), by which one call of the outside fails, or reads and writes are cut short.
 *
 * In the environment: DESK_AT is the number of the call that fails, counted from 1, and DESK_ERROR its error; DESK_MOST is how many bytes a
 * read or a write takes at most; DESK_LOG names the file that gets a line for each call: its name, descriptor and result, and the path. */
#define _GNU_SOURCE
#include <dlfcn.h>
#include <errno.h>
#include <fcntl.h>
#include <stdarg.h>
#include <stdio.h>
#include <stdlib.h>
#include <string.h>
#include <sys/file.h>
#include <sys/stat.h>
#include <sys/syscall.h>
#include <unistd.h>

static unsigned long at, count, most;
static int error, log_to = -1;

__attribute__((constructor)) static void begin(void) {
    const char *name = getenv("DESK_LOG"), *found;
    at = (found = getenv("DESK_AT")) ? strtoul(found, NULL, 10) : 0;
    error = (found = getenv("DESK_ERROR")) ? atoi(found) : 0;
    most = (found = getenv("DESK_MOST")) ? strtoul(found, NULL, 10) : 0;
    if (!name) return;
    /* (above the descriptors that the program is given) */
    int low = (int)syscall(SYS_openat, AT_FDCWD, name, O_WRONLY | O_CREAT | O_APPEND | O_CLOEXEC, 0644);
    log_to = (int)syscall(SYS_fcntl, low, F_DUPFD_CLOEXEC, 400);
    syscall(SYS_close, low);
}

static int fails(void) {
    if (++count != at) return 0;
    errno = error;
    return 1;
}

static long told(const char *call, int descriptor, const char *path, long result) {
    char line[512];
    int kept = errno, len = snprintf(line, sizeof line, "%s %d %ld %s\n", call, descriptor, result, path ? path : "");
    if (log_to >= 0) syscall(SYS_write, log_to, line, len < (int)sizeof line ? len : (int)sizeof line - 1);
    errno = kept;
    return result;
}

#define REAL(name) ((__typeof__(&name))dlsym(RTLD_NEXT, #name))

int open(const char *path, int flags, ...) {
    va_list rest;
    va_start(rest, flags);
    unsigned mode = flags & O_CREAT ? va_arg(rest, unsigned) : 0;
    va_end(rest);
    return (int)told(flags & O_CREAT ? "create" : "open", -1, path, fails() ? -1 : REAL(open)(path, flags, mode));
}

ssize_t read(int from, void *to, size_t len) {
    if (most && len > most) len = most;
    return told("read", from, NULL, fails() ? -1 : REAL(read)(from, to, len));
}

ssize_t write(int to, const void *from, size_t len) {
    if (most && len > most) len = most;
    return told("write", to, NULL, fails() ? -1 : REAL(write)(to, from, len));
}

ssize_t __write(int to, const void *from, size_t len);
ssize_t __write(int to, const void *from, size_t len) {
    return write(to, from, len);
}

int close(int it) { return (int)told("close", it, NULL, fails() ? (REAL(close)(it), -1) : REAL(close)(it)); }
int fsync(int it) { return (int)told("fsync", it, NULL, fails() ? -1 : REAL(fsync)(it)); }
int fdatasync(int it) { return (int)told("fdatasync", it, NULL, fails() ? -1 : REAL(fdatasync)(it)); }
int ftruncate(int it, off_t len) { return (int)told("ftruncate", it, NULL, fails() ? -1 : REAL(ftruncate)(it, len)); }
int fchmod(int it, mode_t mode) { return (int)told("fchmod", it, NULL, fails() ? -1 : REAL(fchmod)(it, mode)); }
int flock(int it, int how) { return (int)told("flock", it, NULL, fails() ? -1 : REAL(flock)(it, how)); }
int rename(const char *from, const char *to) { return (int)told("rename", -1, to, fails() ? -1 : REAL(rename)(from, to)); }
int link(const char *from, const char *to) { return (int)told("link", -1, to, fails() ? -1 : REAL(link)(from, to)); }
int unlink(const char *path) { return (int)told("unlink", -1, path, fails() ? -1 : REAL(unlink)(path)); }

int statx(int folder, const char *restrict path, int flags, unsigned mask, struct statx *restrict to) {
    return (int)told("statx", folder, path, fails() ? -1 : REAL(statx)(folder, path, flags, mask, to));
}
