/* What the proved program asks of Linux, and of macOS, beside the C library: its arguments and the numbers of errors. No header of the
   system is read, so this needs none, and every compiler makes the same of it. */
#include "words.h"

#ifdef __APPLE__
/* macOS has other numbers of flags and errors than Linux, whose numbers the program speaks. */
int *__error(void);
int open(const char *path, int flags, ...);
void (*signal(int number, void (*how)(int)))(int);

static int linux_error(int error)
{
    switch (error) {
    case 35: return 11; /* EAGAIN */
    case 62: return 40; /* ELOOP */
    case 63: return 36; /* ENAMETOOLONG */
    case 66: return 39; /* ENOTEMPTY */
    case 92: return 84; /* EILSEQ */
    default: return error;
    }
}

int rattle_errno(void) { return linux_error(*__error()); }
void rattle_set_errno(int error) { *__error() = error; }

int ppdb_open(const char *path, int flags, ...)
{
    int here = flags & 3;
    here |= flags & 0100 ? 0x200 : 0;         /* O_CREAT */
    here |= flags & 0200 ? 0x800 : 0;         /* O_EXCL */
    here |= flags & 01000 ? 0x400 : 0;        /* O_TRUNC */
    here |= flags & 02000 ? 0x8 : 0;          /* O_APPEND */
    here |= flags & 02000000 ? 0x1000000 : 0; /* O_CLOEXEC */
    __builtin_va_list rest;
    __builtin_va_start(rest, flags);
    unsigned mode = flags & 0100 ? __builtin_va_arg(rest, unsigned) : 0;
    __builtin_va_end(rest);
    return open(path, here, mode);
}

long long __sysv_signal(int number, long long how) { return (long long)signal(number, (void (*)(int))how); }

/* macOS's struct stat and Linux's struct statx, of which the program reads the kind, the owner, the group and the length. */
struct stat { int device; unsigned short mode, links; size64 node; unsigned owner, group; long long others[9], size, rest[6]; };
struct statx { unsigned mask, block; size64 attributes; unsigned links, owner, group; unsigned short mode, spare; size64 node, size, others[26]; };
#ifdef __x86_64__
#define OF_64_BITS "$INODE64"
#else
#define OF_64_BITS ""
#endif
int stat(const char *path, struct stat *found) __asm__("_stat" OF_64_BITS);
int lstat(const char *path, struct stat *found) __asm__("_lstat" OF_64_BITS);
int fstat(int file, struct stat *found) __asm__("_fstat" OF_64_BITS);

int ppdb_statx(int folder, const char *path, int flags, unsigned mask, struct statx *to)
{
    struct stat found;
    int failed = !*path ? fstat(folder, &found) : flags & 0x100 ? lstat(path, &found) : stat(path, &found);
    if (!failed)
        *to = (struct statx){.mask = mask & 0x7ff, .owner = found.owner, .group = found.group, .mode = found.mode, .node = found.node, .size = (size64)found.size};
    return failed;
}
#else
int *__errno_location(void);
long syscall(long number, ...);

int rattle_errno(void) { return *__errno_location(); }
void rattle_set_errno(int error) { *__errno_location() = error; }

/* musl 1.2.3 has no function for this call of the kernel. */
int statx(int folder, const char *path, int flags, unsigned mask, void *found)
{
#ifdef __x86_64__
    return (int)syscall(332, folder, path, flags, mask, found);
#else
    return (int)syscall(291, folder, path, flags, mask, found);
#endif
}
#endif

int main(int count, char **words) { return ppdb_program(count, words); }
