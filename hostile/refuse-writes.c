// Calls of the C library about files, of which one goes wrong: of the calls that FAULT_CALL names, the one with the number FAULT_NUMBER,
// from 1. FAULT_HOW is an error number; or `short`, to write half of the bytes; `before` or `after`, to end the process there by SIGKILL.
// All calls that FAULT_ALSO names fail too. Each call is a line in the file FAULT_LOG: its name, what it answered, and the file or its
// number. Loaded before a program by LD_PRELOAD; hostile/refuse-writes builds it.
#define _GNU_SOURCE
#include <errno.h>
#include <fcntl.h>
#include <signal.h>
#include <stdarg.h>
#include <stdio.h>
#include <stdlib.h>
#include <string.h>
#include <sys/stat.h>
#include <sys/syscall.h>
#include <unistd.h>

static const char *call, *how, *also;
static long number;
static int log_file = -1;

__attribute__((constructor)) static void begin(void) {
    const char *log = getenv("FAULT_LOG"), *count = getenv("FAULT_NUMBER");
    call = getenv("FAULT_CALL");
    how = getenv("FAULT_HOW");
    also = getenv("FAULT_ALSO");
    number = count ? atol(count) : 0;
    if (log)
        log_file = syscall(SYS_openat, AT_FDCWD, log, O_WRONLY | O_CREAT | O_APPEND | O_CLOEXEC, 0600);
}

static void end_here(void) { syscall(SYS_kill, syscall(SYS_getpid), SIGKILL); }

// Whether this call is the one that goes wrong.
static int is_chosen(const char *name) { return call && how && !strcmp(name, call) && number > 0 && --number == 0; }

// The answer of a call, which is written to the log.
static long told(const char *name, const char *of, long answer) {
    int error = errno;
    char line[4200];
    int length = snprintf(line, sizeof line, "%s %ld %s\n", name, answer, of);
    if (log_file >= 0 && length > 0)
        syscall(SYS_write, log_file, line, length);
    errno = error;
    return answer;
}

static long told_of(const char *name, int file, long answer) {
    char of[16];
    snprintf(of, sizeof of, "%d", file);
    return told(name, of, answer);
}

// Whether a call is refused; the chosen one may end the process here.
static int is_refused(const char *name, int chosen) {
    if (!chosen && also && !strcmp(name, also)) {
        errno = EIO;
        return 1;
    }
    if (!chosen || !strcmp(how, "short") || !strcmp(how, "after"))
        return 0;
    if (!strcmp(how, "before"))
        end_here();
    errno = atoi(how);
    return 1;
}

static void end_after(int chosen) {
    if (chosen && !strcmp(how, "after"))
        end_here();
}

#define RUN(name, of, told_by, made)                                                                                                    \
    int chosen = is_chosen(name);                                                                                                       \
    long answer = is_refused(name, chosen) ? -1 : (made);                                                                               \
    end_after(chosen);                                                                                                                  \
    return told_by(name, of, answer)

int open(const char *path, int flags, ...) {
    va_list more;
    va_start(more, flags);
    int mode = va_arg(more, int);
    va_end(more);
    RUN("open", path, told, syscall(SYS_openat, AT_FDCWD, path, flags, mode));
}

int open64(const char *path, int flags, ...) __attribute__((alias("open")));

ssize_t read(int file, void *into, size_t size) { RUN("read", file, told_of, syscall(SYS_read, file, into, size)); }

ssize_t write(int file, const void *from, size_t size) {
    int chosen = is_chosen("write");
    int cut = chosen && !strcmp(how, "short") && size > 1;
    long answer = is_refused("write", chosen) ? -1 : syscall(SYS_write, file, from, cut ? size / 2 : size);
    end_after(chosen);
    return told_of("write", file, answer);
}

int fsync(int file) { RUN("fsync", file, told_of, syscall(SYS_fsync, file)); }

int close(int file) { RUN("close", file, told_of, syscall(SYS_close, file)); }

int fchmod(int file, mode_t mode) { RUN("fchmod", file, told_of, syscall(SYS_fchmod, file, mode)); }

int fchown(int file, uid_t owner, gid_t group) { RUN("fchown", file, told_of, syscall(SYS_fchown, file, owner, group)); }

int rename(const char *from, const char *to) { RUN("rename", from, told, syscall(SYS_renameat2, AT_FDCWD, from, AT_FDCWD, to, 0)); }

int unlink(const char *path) { RUN("unlink", path, told, syscall(SYS_unlinkat, AT_FDCWD, path, 0)); }

int unlinkat(int folder, const char *path, int flags) { RUN("unlink", path, told, syscall(SYS_unlinkat, folder, path, flags)); }

int statx(int folder, const char *restrict path, int flags, unsigned mask, struct statx *restrict into) {
    RUN("statx", path, told, syscall(SYS_statx, folder, path, flags, mask, into));
}
