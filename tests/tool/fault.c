/* Loaded before the C library, it counts the calls with which a program changes or reads files, and lets call number FAULT_AT go wrong:
 *   FAULT=kill   the process is killed just before the call
 *   FAULT=half   the same, but of a write the first half is done
 *   FAULT=fail   the call fails with 'no space left on device'
 *   FAULT=run    before the call the shell runs FAULT_RUN, and the call goes on as if nothing were
 * FAULT_LOG names a file that gets a line for each call. So a test can stop the tool at every point without the tool having a hook for it. */
#define _GNU_SOURCE
#include <dlfcn.h>
#include <errno.h>
#include <fcntl.h>
#include <signal.h>
#include <spawn.h>
#include <stdarg.h>
#include <stdio.h>
#include <stdlib.h>
#include <string.h>
#include <sys/file.h>
#include <sys/stat.h>
#include <sys/syscall.h>
#include <sys/wait.h>
#include <unistd.h>

static int calls;

static void note(const char *name, const char *about) {
    const char *path = getenv("FAULT_LOG");
    char line[600];
    int length, fd;
    if (!path) return;
    length = snprintf(line, sizeof line, "%s %s\n", name, about);
    fd = syscall(SYS_openat, AT_FDCWD, path, O_WRONLY | O_CREAT | O_APPEND, 0644);
    if (fd < 0) return;
    if (syscall(SYS_write, fd, line, length) != length) abort();
    syscall(SYS_close, fd);
}

static const char *of(int fd) {
    static __thread char path[500];
    char link[40];
    ssize_t n;
    snprintf(link, sizeof link, "/proc/self/fd/%d", fd);
    n = readlink(link, path, sizeof path - 1);
    path[n < 0 ? 0 : n] = 0;
    return path;
}

/* Runs a command without any of this. */
static void run(const char *command) {
    extern char **environ;
    char *words[] = {"sh", "-c", (char *)command, 0}, *plain[1000];
    int n = 0, status;
    pid_t child;
    for (char **one = environ; *one && n < 999; one++) {
        if (strncmp(*one, "LD_PRELOAD=", 11) != 0 && strncmp(*one, "FAULT", 5) != 0) plain[n++] = *one;
    }
    plain[n] = 0;
    if (posix_spawn(&child, "/bin/sh", 0, 0, words, plain) != 0 || waitpid(child, &status, 0) < 0 || status != 0) abort();
}

/* Whether this call is to fail; a call that is to kill doesn't come back. */
static int wrong(const char *name, const char *about, int fd, const void *bytes, size_t count) {
    const char *at = getenv("FAULT_AT"), *kind = getenv("FAULT");
    /* Each call has a number of its own, whichever thread makes it. */
    int call = __atomic_add_fetch(&calls, 1, __ATOMIC_SEQ_CST);
    if (!at || !kind || call != atoi(at)) {
        note(name, about);
        return 0;
    }
    if (strcmp(kind, "fail") == 0) {
        note(name, "fails");
        errno = ENOSPC;
        return 1;
    }
    if (strcmp(kind, "run") == 0) {
        note(name, about);
        run(getenv("FAULT_RUN"));
        return 0;
    }
    if (strcmp(kind, "half") == 0 && bytes && count > 1 && syscall(SYS_write, fd, bytes, count / 2) < 0) abort();
    raise(SIGKILL);
    return 1;
}

#define REAL(name) ((__typeof__(&name))dlsym(RTLD_NEXT, #name))

static int opened(const char *name, const char *path, int flags, mode_t mode) {
    if (strncmp(path, "/proc/", 6) != 0 && strncmp(path, "/sys/", 5) != 0 && wrong(name, path, -1, 0, 0)) return -1;
    return syscall(SYS_openat, AT_FDCWD, path, flags, mode);
}

int open(const char *path, int flags, ...) {
    va_list rest;
    mode_t mode;
    va_start(rest, flags);
    mode = (flags & O_CREAT) ? va_arg(rest, mode_t) : 0;
    va_end(rest);
    return opened("open", path, flags, mode);
}

int open64(const char *path, int flags, ...) {
    va_list rest;
    mode_t mode;
    va_start(rest, flags);
    mode = (flags & O_CREAT) ? va_arg(rest, mode_t) : 0;
    va_end(rest);
    return opened("open", path, flags, mode);
}

ssize_t read(int fd, void *to, size_t count) {
    return wrong("read", of(fd), -1, 0, 0) ? -1 : REAL(read)(fd, to, count);
}

ssize_t write(int fd, const void *bytes, size_t count) {
    return wrong("write", of(fd), fd, bytes, count) ? -1 : REAL(write)(fd, bytes, count);
}

int fsync(int fd) {
    return wrong("fsync", of(fd), -1, 0, 0) ? -1 : REAL(fsync)(fd);
}

int flock(int fd, int operation) {
    return wrong("flock", of(fd), -1, 0, 0) ? -1 : REAL(flock)(fd, operation);
}

int ftruncate(int fd, off_t length) {
    return wrong("truncate", of(fd), -1, 0, 0) ? -1 : REAL(ftruncate)(fd, length);
}

int ftruncate64(int fd, off64_t length) {
    return wrong("truncate", of(fd), -1, 0, 0) ? -1 : REAL(ftruncate64)(fd, length);
}

int fchmod(int fd, mode_t mode) {
    return wrong("chmod", of(fd), -1, 0, 0) ? -1 : REAL(fchmod)(fd, mode);
}

int fchown(int fd, uid_t user, gid_t group) {
    return wrong("chown", of(fd), -1, 0, 0) ? -1 : REAL(fchown)(fd, user, group);
}

int rename(const char *from, const char *to) {
    return wrong("rename", from, -1, 0, 0) ? -1 : REAL(rename)(from, to);
}

int unlink(const char *path) {
    return wrong("unlink", path, -1, 0, 0) ? -1 : REAL(unlink)(path);
}

int linkat(int from_folder, const char *from, int to_folder, const char *to, int flags) {
    return wrong("link", from, -1, 0, 0) ? -1 : REAL(linkat)(from_folder, from, to_folder, to, flags);
}
