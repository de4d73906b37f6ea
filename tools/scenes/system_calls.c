// Notes the calls that open, read, write, look at, name, remove and sync files, and makes them fail. The scene of calls loads
// this library before the C library.
//
//   CALLS=N         writes the name of each call to the descriptor N
//   AT=N            the Nth of these calls fails, and "here" is written after its name
//   KILLS=1         kills the program at that call in place of that
//   NO_MEMORY=N     the Nth allocation fails, and "here" is written
//   NAME=ERROR      each call of this name fails with the error of this number
//   BEFORE=NAME     each call of this name comes after the command RUNS
//   BLIND=1         after RUNS each look at a file fails

#define _GNU_SOURCE
#include <errno.h>
#include <fcntl.h>
#include <signal.h>
#include <stdarg.h>
#include <stdio.h>
#include <stdlib.h>
#include <string.h>
#include <sys/stat.h>
#include <sys/syscall.h>
#include <unistd.h>

// Writes a line, without memory.
static void note(const char *line)
{
    const char *file = getenv("CALLS");
    char text[32];
    int length = snprintf(text, sizeof text, "%s\n", line);
    if (file && syscall(SYS_write, atoi(file), text, length) != length)
        abort();
}

// Counts a call, and returns whether its number is that of the variable.
static int is_turn(const char *variable, int *count)
{
    const char *number = getenv(variable);
    if (!number || ++*count != atoi(number))
        return 0;
    note("here");
    return 1;
}

static int is_blind;

// Returns whether a call has to fail, with this error unless the variable of its name has another.
static int fails(const char *call, int error)
{
    static int count;
    const char *before = getenv("BEFORE");
    note(call);
    if (before && strcmp(before, call) == 0) {
        unsetenv("LD_PRELOAD");
        if (system(getenv("RUNS")))
            abort();
        is_blind = getenv("BLIND") != NULL;
    }
    const char *own = getenv(call);
    if (!own && !(is_blind && strcmp(call, "statx") == 0)) {
        if (!is_turn("AT", &count))
            return 0;
        if (getenv("KILLS"))
            kill(getpid(), SIGKILL);
    }
    errno = own ? atoi(own) : error;
    return 1;
}

extern void *__libc_malloc(size_t size);
extern void *__libc_realloc(void *old, size_t size);
static int allocations;

void *malloc(size_t size)
{
    return is_turn("NO_MEMORY", &allocations) ? NULL : __libc_malloc(size);
}

void *realloc(void *old, size_t size)
{
    return is_turn("NO_MEMORY", &allocations) ? NULL : __libc_realloc(old, size);
}

// Messages, on the first three files, do not count.
ssize_t write(int file, const void *bytes, size_t count)
{
    return file > 2 && fails("write", ENOSPC) ? -1 : syscall(SYS_write, file, bytes, count);
}

ssize_t read(int file, void *bytes, size_t count)
{
    return fails("read", EIO) ? -1 : syscall(SYS_read, file, bytes, count);
}

int open(const char *name, int flags, ...)
{
    va_list rest;
    va_start(rest, flags);
    unsigned mode = flags & O_CREAT ? va_arg(rest, unsigned) : 0;
    va_end(rest);
    return fails("open", EMFILE) ? -1 : (int)syscall(SYS_open, name, flags, mode);
}

// The program calls it for a descriptor of an open file alone.
int fcntl(int file, int command, ...)
{
    va_list rest;
    va_start(rest, command);
    long argument = va_arg(rest, long);
    va_end(rest);
    return fails("fcntl", EMFILE) ? -1 : (int)syscall(SYS_fcntl, file, command, argument);
}

int getentropy(void *bytes, size_t count)
{
    return fails("getentropy", ENOSYS) || syscall(SYS_getrandom, bytes, count, 0) != (long)count ? -1 : 0;
}

int statx(int folder, const char *name, int flags, unsigned mask, struct statx *found)
{
    return fails("statx", EIO) ? -1 : (int)syscall(SYS_statx, folder, name, flags, mask, found);
}

int link(const char *from, const char *to)
{
    return fails("link", ENOSPC) ? -1 : (int)syscall(SYS_link, from, to);
}

int rename(const char *from, const char *to)
{
    return fails("rename", ENOSPC) ? -1 : (int)syscall(SYS_rename, from, to);
}

int unlink(const char *name)
{
    return fails("unlink", ENOSPC) ? -1 : (int)syscall(SYS_unlink, name);
}

int fsync(int file)
{
    struct stat found;
    int is_folder = fstat(file, &found) == 0 && S_ISDIR(found.st_mode);
    return fails(is_folder ? "fsync_folder" : "fsync_file", ENOSPC) ? -1 : (int)syscall(SYS_fsync, file);
}
