/* Kills the program before its Nth call that may change a disk, or open what it changes. Or changes a file there, as another program does.
 *
 * It is preloaded. KILL_AT is N, from 1. Without it no call kills. With CHANGE_AT a line is appended to the file CHANGE_FILE before the
 * call with this number.
 */
#define _GNU_SOURCE
#include <fcntl.h>
#include <signal.h>
#include <stdarg.h>
#include <stdlib.h>
#include <sys/syscall.h>
#include <sys/types.h>
#include <unistd.h>

static long calls;

static void change(const char *name)
{
    static const char line[] = "# a colleague\n";
    long file = name ? syscall(SYS_openat, AT_FDCWD, name, O_WRONLY | O_APPEND, 0) : -1;

    if (file >= 0) {
        syscall(SYS_write, file, line, sizeof line - 1);
        syscall(SYS_close, file);
    }
}

static void step(void)
{
    const char *kill_at = getenv("KILL_AT"), *change_at = getenv("CHANGE_AT");

    calls++;
    if (kill_at && calls == atol(kill_at))
        kill(getpid(), SIGKILL);
    if (change_at && calls == atol(change_at))
        change(getenv("CHANGE_FILE"));
}

int open(const char *path, int flags, ...)
{
    va_list rest;
    mode_t mode;

    va_start(rest, flags);
    mode = flags & O_CREAT ? va_arg(rest, mode_t) : 0;
    va_end(rest);
    step();
    return (int)syscall(SYS_openat, AT_FDCWD, path, flags, mode);
}

ssize_t write(int file, const void *bytes, size_t size)
{
    step();
    return syscall(SYS_write, file, bytes, size);
}

int fsync(int file)
{
    step();
    return (int)syscall(SYS_fsync, file);
}

int rename(const char *from, const char *to)
{
    step();
    return (int)syscall(SYS_rename, from, to);
}

int unlink(const char *path)
{
    step();
    return (int)syscall(SYS_unlink, path);
}

int fchmod(int file, mode_t mode)
{
    step();
    return (int)syscall(SYS_fchmod, file, mode);
}

int lchown(const char *path, uid_t owner, gid_t group)
{
    step();
    return (int)syscall(SYS_lchown, path, owner, group);
}

int flock(int file, int how)
{
    step();
    return (int)syscall(SYS_flock, file, how);
}
