/* Loaded before the C library, this fails one call or two on a file or folder below a folder: of the calls that open, read,
   write, cut or settle such a file, the one whose number, counted from 1, the environment variable FAILED_CALL gives, and
   the one so many calls behind it as FAILED_BEHIND gives. The folder is FAILED_BELOW. With FAILED_NAMES, of any text, the
   calls that list a folder, look at a file, give it a name or remove it count too. FAILED_AS says how a call fails:
   `unmade`, with EIO and nothing done; `denied`, with EACCES and nothing done; `gone`, with ENOENT and nothing done; `half`,
   with ENOSPC and, of a write, its first half written; `made`, with EIO and all done; `killed`, the program is, and of a write
   the first half is written; `short`, none fails, and each read and each write there is of a byte at most. It says
   `failed NAME` on standard error when it does. With no such variable, or 0, it fails nothing; with no FAILED_BEHIND, or 0,
   one call. */
#include "preload.h"
#include <dirent.h>
#include <errno.h>
#include <fcntl.h>
#include <signal.h>
#include <stdarg.h>
#include <stdio.h>
#include <sys/stat.h>

enum how { WELL, UNMADE, DENIED, GONE, HALF, MADE, KILLED, SHORT };

static const char *const names[] = {"", "unmade", "denied", "gone", "half", "made", "killed", "short"};

static const char *below;
static enum how chosen;
static int counts_names;

/* the calls to come before the one that fails, and that one; 0 once there is none */
static unsigned long left;

/* how many calls behind that one a second one fails; 0 for none */
static unsigned long behind;

__attribute__((constructor)) static void begin(void)
{
    const char *as = getenv("FAILED_AS");
    below = getenv("FAILED_BELOW");
    if (as == NULL || below == NULL)
        return;
    left = number_in("FAILED_CALL");
    behind = number_in("FAILED_BEHIND");
    counts_names = getenv("FAILED_NAMES") != NULL;
    for (chosen = SHORT; chosen > UNMADE && strcmp(as, names[chosen]) != 0;)
        chosen -= 1;
}

/* How the call of this name on a file of this path ends. */
static enum how met_at(const char *path, const char *name)
{
    char told[64];
    if (left == 0 || strncmp(path, below, strlen(below)) != 0)
        return WELL;
    if (chosen == SHORT)
        return SHORT;
    left -= 1;
    if (left != 0)
        return WELL;
    left = behind;
    behind = 0;
    snprintf(told, sizeof told, "failed %s\n", name);
    tell(told);
    return chosen;
}

/* How the call of this name on an open file ends. */
static enum how met(int file, const char *name)
{
    char link[64], path[4096];
    if (left == 0)
        return WELL;
    snprintf(link, sizeof link, "/proc/self/fd/%d", file);
    long length = syscall(SYS_readlinkat, AT_FDCWD, link, path, sizeof path - 1);
    if (length < 0)
        return WELL;
    path[length] = '\0';
    return met_at(path, name);
}

/* A call that failed: what it would have given is dropped. */
static long ends(enum how how)
{
    if (how == KILLED)
        syscall(SYS_kill, getpid(), SIGKILL);
    errno = how == HALF ? ENOSPC : how == DENIED ? EACCES : how == GONE ? ENOENT : EIO;
    return -1;
}

/* Whether a call is done all the same, and so many bytes of a write. */
static int is_done(enum how how)
{
    return how == WELL || how == MADE || how == SHORT;
}

static size_t part_of(size_t length, enum how how)
{
    if (how == SHORT)
        return length > 1 ? 1 : length;
    return is_done(how) ? length : how == HALF || how == KILLED ? length / 2 : 0;
}

static long given(long value, enum how how)
{
    return how == WELL || how == SHORT ? value : ends(how);
}

static ssize_t write_at(int file, const void *from, size_t length, off_t place)
{
    enum how how = met(file, "pwrite");
    size_t part = part_of(length, how);
    long wrote = part > 0 || is_done(how) ? syscall(SYS_pwrite64, file, from, part, place) : 0;
    return given(wrote, how);
}

static ssize_t read_at(int file, void *to, size_t length, off_t place)
{
    enum how how = met(file, "pread");
    return how == WELL || how == SHORT ? syscall(SYS_pread64, file, to, part_of(length, how), place) : ends(how);
}

/* A call with a file alone, and one with a length too. */
static int settle(int file, long length, long call, const char *name)
{
    enum how how = met(file, name);
    return (int)given(is_done(how) ? syscall(call, file, length) : 0, how);
}

static int open_at(int folder, const char *path, int flags, mode_t mode)
{
    enum how how = met_at(path, "open");
    long opened = -1;
    if (is_done(how))
        opened = syscall(SYS_openat, folder, path, flags, mode);
    if (how == MADE && opened >= 0)
        syscall(SYS_close, opened);
    return (int)given(opened, how);
}

ssize_t pwrite(int file, const void *from, size_t length, off_t place)
{
    return write_at(file, from, length, place);
}

ssize_t pwrite64(int file, const void *from, size_t length, off64_t place)
{
    return write_at(file, from, length, place);
}

ssize_t pread(int file, void *to, size_t length, off_t place)
{
    return read_at(file, to, length, place);
}

ssize_t pread64(int file, void *to, size_t length, off64_t place)
{
    return read_at(file, to, length, place);
}

ssize_t write(int file, const void *from, size_t length)
{
    enum how how = met(file, "write");
    size_t part = part_of(length, how);
    long wrote = part > 0 || is_done(how) ? syscall(SYS_write, file, from, part) : 0;
    return given(wrote, how);
}

ssize_t read(int file, void *to, size_t length)
{
    enum how how = met(file, "read");
    return how == WELL || how == SHORT ? syscall(SYS_read, file, to, part_of(length, how)) : ends(how);
}

int fsync(int file)
{
    return settle(file, 0, SYS_fsync, "fsync");
}

int fdatasync(int file)
{
    return settle(file, 0, SYS_fdatasync, "fdatasync");
}

int ftruncate(int file, off_t length)
{
    return settle(file, length, SYS_ftruncate, "ftruncate");
}

int ftruncate64(int file, off64_t length)
{
    return settle(file, length, SYS_ftruncate, "ftruncate");
}

static mode_t mode_of(int flags, va_list rest)
{
    return flags & (O_CREAT | __O_TMPFILE) ? va_arg(rest, mode_t) : 0;
}

int open(const char *path, int flags, ...)
{
    va_list rest;
    va_start(rest, flags);
    mode_t mode = mode_of(flags, rest);
    va_end(rest);
    return open_at(AT_FDCWD, path, flags, mode);
}

int open64(const char *path, int flags, ...)
{
    va_list rest;
    va_start(rest, flags);
    mode_t mode = mode_of(flags, rest);
    va_end(rest);
    return open_at(AT_FDCWD, path, flags, mode);
}

int openat(int folder, const char *path, int flags, ...)
{
    va_list rest;
    va_start(rest, flags);
    mode_t mode = mode_of(flags, rest);
    va_end(rest);
    return open_at(folder, path, flags, mode);
}

ssize_t getdents64(int folder, void *to, size_t length)
{
    /* the list of a folder that is gone is at its end, and no failure */
    enum how how = counts_names && chosen != GONE ? met(folder, "list") : WELL;
    return given(is_done(how) ? syscall(SYS_getdents64, folder, to, length) : 0, how);
}

int statx(int folder, const char *path, int flags, unsigned mask, struct statx *to)
{
    enum how how = !counts_names ? WELL : path[0] == '\0' ? met(folder, "look") : met_at(path, "look");
    return (int)given(is_done(how) ? syscall(SYS_statx, folder, path, flags, mask, to) : 0, how);
}

int rename(const char *from, const char *to)
{
    enum how how = counts_names ? met_at(from, "rename") : WELL;
    return (int)given(is_done(how) ? syscall(SYS_rename, from, to) : 0, how);
}

int unlink(const char *path)
{
    enum how how = counts_names ? met_at(path, "remove") : WELL;
    return (int)given(is_done(how) ? syscall(SYS_unlink, path) : 0, how);
}
