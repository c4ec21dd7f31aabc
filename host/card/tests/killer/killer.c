/*
 * Loaded before a program's other libraries, this kills the program at the call with
 * the number KILL_AT of those that change files: before the call, or, of a write, in
 * the middle of it. Nothing of the program itself has to know.
 */
#define _GNU_SOURCE
#include <dlfcn.h>
#include <fcntl.h>
#include <signal.h>
#include <stdarg.h>
#include <stdlib.h>
#include <sys/types.h>
#include <unistd.h>

static long calls;

static int is_the_one(void)
{
    const char *at = getenv("KILL_AT");

    return at && ++calls == atol(at);
}

static void step(void)
{
    if (is_the_one())
        kill(getpid(), SIGKILL);
}

#define NEXT(function) ((__typeof__(&function))dlsym(RTLD_NEXT, #function))

static int create(__typeof__(&open) next, const char *path, int flags, mode_t mode)
{
    if (flags & (O_CREAT | O_TRUNC))
        step();
    return next(path, flags, mode);
}

int open(const char *path, int flags, ...)
{
    va_list rest;
    mode_t mode;

    va_start(rest, flags);
    mode = flags & O_CREAT ? va_arg(rest, mode_t) : 0;
    va_end(rest);
    return create(NEXT(open), path, flags, mode);
}

int open64(const char *path, int flags, ...)
{
    va_list rest;
    mode_t mode;

    va_start(rest, flags);
    mode = flags & O_CREAT ? va_arg(rest, mode_t) : 0;
    va_end(rest);
    return create(NEXT(open64), path, flags, mode);
}

ssize_t write(int file, const void *bytes, size_t count)
{
    step();
    if (is_the_one()) {
        NEXT(write)(file, bytes, count / 2);
        kill(getpid(), SIGKILL);
    }
    return NEXT(write)(file, bytes, count);
}

int rename(const char *from, const char *to)
{
    step();
    return NEXT(rename)(from, to);
}

int linkat(int from_folder, const char *from, int to_folder, const char *to, int flags)
{
    step();
    return NEXT(linkat)(from_folder, from, to_folder, to, flags);
}

int unlink(const char *path)
{
    step();
    return NEXT(unlink)(path);
}

int fchmod(int file, mode_t mode)
{
    step();
    return NEXT(fchmod)(file, mode);
}

int fchown(int file, uid_t owner, gid_t group)
{
    step();
    return NEXT(fchown)(file, owner, group);
}

int fsync(int file)
{
    step();
    return NEXT(fsync)(file);
}
