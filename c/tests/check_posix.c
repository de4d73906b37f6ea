/*
 * Random-access files of the system: what other programs do to one while it is created, a sync that fails, signals, and the
 * calls of a creation, of a commit and of a recovery, in order; and random bytes. The program is linked with --wrap for the
 * calls below; otherwise it does nothing. What a loss of power leaves is tested in testkit/disk.
 */
#ifndef _GNU_SOURCE
#define _GNU_SOURCE
#endif
#include "../library/journal.h"
#include "check.h"
#include "hunkravy_file.h"

#include <errno.h>
#include <fcntl.h>
#include <stdarg.h>
#include <sys/file.h>
#include <sys/stat.h>
#include <sys/syscall.h>
#include <unistd.h>

enum { ALL = 1 << 30 };

static const uint8_t key[HUNKRAVY_AEGIS256_KEY_BYTES] = {1};
static char path[100];
static int syncs_left = ALL;
/* What another program does before a file is locked or synced. A result that is not 0 is an error number. */
static int (*meanwhile)(void);

static int is_let(void)
{
    int (*now)(void) = meanwhile;
    meanwhile = NULL;
    errno = now == NULL ? 0 : now();
    return errno == 0;
}

/* The calls that change something, each with what it changes. */
static char calls[1000];
static int writes_left = ALL;
static int interruptions, takes_none, is_full;

static void note(const char *call, int fd)
{
    struct stat found, file;
    int is_file = stat(path, &file) == 0 && fstat(fd, &found) == 0 && file.st_ino == found.st_ino;
    HOLDS(fstat(fd, &found) == 0);
    strcat(calls, call);
    strcat(calls, is_file ? " file, " : S_ISDIR(found.st_mode) ? " folder, " : " journal, ");
}

/* Defines a call that is noted, and then made if `condition` holds. */
#define WRAPPED(type, name, parameters, arguments, shown, condition) \
    type __real_##name parameters __attribute__((weak)); \
    type __wrap_##name parameters; \
    type __wrap_##name parameters \
    { \
        shown; \
        return (condition) ? __real_##name arguments : (errno = errno == 0 ? EIO : errno, -1); \
    }

WRAPPED(int, flock, (int fd, int operation), (fd, operation), , is_let())
WRAPPED(int, fsync, (int fd), (fd), note("sync", fd), is_let() && syncs_left-- != 0)
WRAPPED(ssize_t, pwrite, (int fd, const void *bytes, size_t length, off_t place),
    (fd, bytes, takes_none ? 0 : length, place), note("write", fd), writes_left-- != 0)
WRAPPED(int, ftruncate, (int fd, off_t length), (fd, length), note("resize", fd), 1)
WRAPPED(int, fallocate, (int fd, int mode, off_t place, off_t length), (fd, mode, place, length), note("reserve", fd),
    (errno = is_full            ? ENOSPC
            : interruptions > 0 ? EINTR
                                : 0,
        !is_full && interruptions-- <= 0))
WRAPPED(int, posix_fadvise, (int fd, off_t place, off_t length, int advice), (fd, place, length, advice),
    note("forget", fd), 1)
WRAPPED(int, rename, (const char *from, const char *to), (from, to), strcat(calls, "rename, "), 1)

static const char precious[] = "precious";

static int has_precious(const char *path)
{
    char found[sizeof precious] = {0};
    int fd = open(path, O_RDONLY), is_there = fd >= 0 && read(fd, found, sizeof found) == sizeof precious;
    return is_there && close(fd) == 0 && memcmp(found, precious, sizeof precious) == 0;
}

static int write_precious_to(const char *name)
{
    int fd = open(name, O_WRONLY | O_CREAT, 0600);
    HOLDS(fd >= 0 && write(fd, precious, sizeof precious) == sizeof precious && close(fd) == 0);
    return 0;
}

static int write_precious(void)
{
    return write_precious_to(path);
}

/* The path of a file beside the file. */
static const char *beside(const char *extension)
{
    static char name[sizeof path + 8];
    snprintf(name, sizeof name, "%s%s", path, extension);
    return name;
}

static const char *journal_path(void)
{
    return beside(".journal");
}

static int write_journal(void)
{
    return write_precious_to(journal_path());
}

static int write_journal_later(void)
{
    meanwhile = write_journal;
    return 0;
}

static int waits;
static const char *exchanged;

/* Another program puts its own file there, after so many calls. */
static int exchange(void)
{
    if (waits-- > 0) {
        meanwhile = exchange;
        return 0;
    }
    HOLDS(unlink(beside(exchanged)) == 0);
    return write_precious_to(beside(exchanged));
}

static void exchange_later(const char *extension, int calls_before)
{
    exchanged = extension;
    waits = calls_before;
    meanwhile = exchange;
}

static int replace_file(void)
{
    HOLDS(unlink(path) == 0);
    return write_precious();
}

static int replace_and_fail(void)
{
    replace_file();
    return EIO;
}

static int lock_file(void)
{
    /* It stays open. */
    HOLDS(__real_flock(open(path, O_RDWR), LOCK_EX) == 0);
    return 0;
}

/* A creation removes its own file after an error, and no other one. */
static void check_creations(void)
{
    static const struct {
        int (*meanwhile)(void);
        int code;
    } cases[] = {
        {write_precious, EEXIST},
        {replace_file, HUNKRAVY_FILE_MOVED},
        {replace_and_fail, EIO},
        {lock_file, HUNKRAVY_FILE_LOCKED},
    };
    hunkravy_file *file;
    for (size_t i = 0; i < COUNT(cases); i++) {
        meanwhile = cases[i].meanwhile;
        HOLDS(hunkravy_file_create(&file, path, HUNKRAVY_AEGIS256, key, sizeof key, 0) == cases[i].code);
        HOLDS(has_precious(path) || meanwhile != NULL || cases[i].meanwhile == lock_file);
        HOLDS(access(path, F_OK) == 0 && unlink(path) == 0);
    }
    /* The same at its sync, and a sync that fails: then there is no file. */
    for (syncs_left = 0; syncs_left < 2; syncs_left++) {
        int left = syncs_left;
        HOLDS(hunkravy_file_create(&file, path, HUNKRAVY_AEGIS256, key, sizeof key, 0) == EIO);
        HOLDS(access(path, F_OK) != 0);
        syncs_left = left;
    }
    syncs_left = ALL;
}

/* Opening empties no journal that it has not read: here one that appears at its first sync. */
static void check_openings(void)
{
    hunkravy_file *file;
    HOLDS(hunkravy_file_create(&file, path, HUNKRAVY_AEGIS256, key, sizeof key, 0) == 0);
    HOLDS(hunkravy_file_close(file) == 0);
    meanwhile = write_journal_later;
    HOLDS(hunkravy_file_open(&file, path, HUNKRAVY_AEGIS256, key, sizeof key) == HUNKRAVY_WRONG_JOURNAL);
    HOLDS(meanwhile == NULL && has_precious(journal_path()));
    HOLDS(unlink(journal_path()) == 0 && unlink(path) == 0);
    calls[0] = '\0';
}

static void has_contents(const char *expected)
{
    hunkravy_file *file;
    char found[6];
    size_t length;
    HOLDS(hunkravy_file_open(&file, path, HUNKRAVY_AEGIS256, key, sizeof key) == 0);
    HOLDS(hunkravy_file_read(file, 0, found, sizeof found, &length) == 0);
    HOLDS(length == sizeof found && memcmp(found, expected, sizeof found) == 0);
    HOLDS(hunkravy_file_close(file) == 0);
}

/* Recovery goes on with no other journal or copy of it than its own: here one that appears while the copy is synced. */
static void check_exchanged(void)
{
    hunkravy_file *file;
    for (int is_copy = 0; is_copy < 2; is_copy++) {
        HOLDS(hunkravy_file_create(&file, path, HUNKRAVY_AEGIS256, key, sizeof key, 0) == 0);
        HOLDS(hunkravy_file_write(file, 0, "after!", 6) == 0);
        writes_left = 2;
        HOLDS(hunkravy_file_commit(file) == EIO && hunkravy_file_close(file) == HUNKRAVY_FILE_BROKEN);
        writes_left = ALL;
        exchange_later(is_copy ? ".jrncopy" : ".journal", 4);
        HOLDS(hunkravy_file_open(&file, path, HUNKRAVY_AEGIS256, key, sizeof key) == HUNKRAVY_WRONG_JOURNAL);
        HOLDS(meanwhile == NULL && has_precious(journal_path()) == !is_copy);
        HOLDS(is_copy || unlink(journal_path()) == 0);
        if (is_copy) {
            has_contents("after!");
        }
        HOLDS(unlink(path) == 0);
    }
    calls[0] = '\0';
}

/* A commit writes nothing to its file unless the journal that it has synced has its name: here another one appears at each of the
 * three syncs before. */
static void check_exchanged_in_commits(void)
{
    hunkravy_file *file;
    for (int syncs = 0; syncs < 3; syncs++) {
        HOLDS(hunkravy_file_create(&file, path, HUNKRAVY_AEGIS256, key, sizeof key, 0) == 0);
        HOLDS(hunkravy_file_write(file, 0, "before", 6) == 0 && hunkravy_file_commit(file) == 0);
        HOLDS(hunkravy_file_write(file, 0, "after!", 6) == 0);
        exchange_later(".journal", syncs);
        HOLDS(hunkravy_file_commit(file) == HUNKRAVY_WRONG_JOURNAL && meanwhile == NULL);
        HOLDS(hunkravy_file_close(file) == HUNKRAVY_WRONG_JOURNAL && has_precious(journal_path()));
        HOLDS(unlink(journal_path()) == 0);
        has_contents("before");
        HOLDS(unlink(path) == 0);
    }
    calls[0] = '\0';
}

static void expect_calls(const char *expected)
{
    snprintf(row, sizeof row, "%.200s", calls);
    HOLDS(strcmp(calls, expected) == 0);
    row[0] = calls[0] = '\0';
}

/* Each step of a commit, and of a recovery that completes it, ends with a sync. So does a creation. */
static void check_order(void)
{
    static const char journal[] =
        "reserve file, write journal, sync journal, sync folder, write journal, sync journal, ",
                      file[] = "write file, write file, write file, sync file, resize journal, sync journal, ";
    static const char recovery[] = "sync file, forget file, sync journal, forget journal, sync file, ";
    char expected[sizeof journal + sizeof file + sizeof recovery];
    hunkravy_file *opened;

    calls[0] = '\0';
    HOLDS(hunkravy_file_create(&opened, path, HUNKRAVY_AEGIS256, key, sizeof key, 0) == 0);
    expect_calls("write file, sync file, sync folder, ");
    HOLDS(hunkravy_file_write(opened, 0, "before", 6) == 0 && hunkravy_file_commit(opened) == 0);
    snprintf(expected, sizeof expected, "%s%s", journal, file);
    expect_calls(expected);
    HOLDS(hunkravy_file_write(opened, 0, "after!", 6) == 0);
    writes_left = 2;
    HOLDS(hunkravy_file_commit(opened) == EIO && hunkravy_file_close(opened) == HUNKRAVY_FILE_BROKEN);
    writes_left = ALL;
    calls[0] = '\0';
    HOLDS(hunkravy_file_open(&opened, path, HUNKRAVY_AEGIS256, key, sizeof key) == 0);
    snprintf(expected, sizeof expected, "%swrite journal, sync journal, rename, sync folder, %s", recovery, file);
    expect_calls(expected);
    HOLDS(hunkravy_file_close(opened) == 0 && unlink(path) == 0);
}

/* A commit ends although signals interrupt each try to reserve room. */
static void check_signals(void)
{
    hunkravy_file *opened;
    HOLDS(hunkravy_file_create(&opened, path, HUNKRAVY_AEGIS256, key, sizeof key, 0) == 0);
    HOLDS(hunkravy_file_write(opened, 0, "before", 6) == 0);
    calls[0] = '\0';
    interruptions = 5;
    HOLDS(hunkravy_file_commit(opened) == 0);
    interruptions = 0;
    expect_calls("reserve file, write file, sync file, write journal, sync journal, sync folder, write journal, "
                 "sync journal, write file, write file, write file, sync file, resize journal, sync journal, ");
    HOLDS(hunkravy_file_close(opened) == 0 && unlink(path) == 0);
}

/* A commit fails if the disk is full, and if a write takes no byte and has no error. */
static void check_commits_that_fail(void)
{
    hunkravy_file *opened;
    HOLDS(hunkravy_file_create(&opened, path, HUNKRAVY_AEGIS256, key, sizeof key, 0) == 0);
    HOLDS(hunkravy_file_write(opened, 0, "before", 6) == 0);
    is_full = 1;
    HOLDS(hunkravy_file_commit(opened) == ENOSPC && hunkravy_file_check(opened) == 0);
    is_full = 0;
    takes_none = 1;
    HOLDS(hunkravy_file_commit(opened) == EIO && hunkravy_file_check(opened) == 0);
    takes_none = 0;
    HOLDS(hunkravy_file_commit(opened) == 0 && hunkravy_file_close(opened) == 0 && unlink(path) == 0);
}

/* Of the system's calls getrandom gives at most 7 bytes, and every other time it is interrupted. */
long __real_syscall(long number, ...) __attribute__((weak));
long __wrap_syscall(long number, ...);
long __wrap_syscall(long number, ...)
{
    static int draws;
    long given[4];
    va_list rest;
    va_start(rest, number);
    for (size_t i = 0; i < COUNT(given); i++) {
        given[i] = va_arg(rest, long);
    }
    va_end(rest);
    if (number == SYS_getrandom) {
        /* With no flag it waits until the system has seeded its source. */
        HOLDS((int)given[2] == 0);
        given[1] = given[1] < 7 ? given[1] : 7;
        if (draws++ % 2 == 0) {
            errno = EINTR;
            return -1;
        }
    }
    return __real_syscall(number, given[0], given[1], given[2], given[3]);
}

/* What another thread does before a path is resolved. */
static const char *next_folder;
char *__real_realpath(const char *name, char *resolved) __attribute__((weak));
char *__wrap_realpath(const char *name, char *resolved);
char *__wrap_realpath(const char *name, char *resolved)
{
    HOLDS(next_folder == NULL || chdir(next_folder) == 0);
    next_folder = NULL;
    return __real_realpath(name, resolved);
}

/* A path stays that of the folder in which it was given. */
static void check_folders(const char *folder)
{
    hunkravy_file *opened;
    HOLDS(chdir(folder) == 0);
    next_folder = "/";
    HOLDS(hunkravy_file_create(&opened, "file", HUNKRAVY_AEGIS256, key, sizeof key, 0) == 0);
    HOLDS(hunkravy_file_close(opened) == 0 && unlink(path) == 0);
}

/* A program without a standard output writes its messages into no file, and finds it closed as before. */
static void check_descriptors(void)
{
    hunkravy_file *opened;
    int kept = dup(STDOUT_FILENO);
    HOLDS(kept > STDERR_FILENO && close(STDOUT_FILENO) == 0);
    HOLDS(hunkravy_file_create(&opened, path, HUNKRAVY_AEGIS256, key, sizeof key, 0) == 0);
    HOLDS(hunkravy_file_write(opened, 0, "before", 6) == 0 && hunkravy_file_commit(opened) == 0);
    HOLDS(write(STDOUT_FILENO, "x", 1) == -1 && errno == EBADF);
    HOLDS(hunkravy_file_close(opened) == 0 && unlink(path) == 0);
    HOLDS(dup2(kept, STDOUT_FILENO) == STDOUT_FILENO && close(kept) == 0);
}

/* Each byte is drawn: the chance that one is 0 each time is below 2^-100. */
static void check_random(void)
{
    uint8_t drawn[100], seen[sizeof drawn] = {0};
    for (int turn = 0; turn < 16; turn++) {
        HOLDS(hunkravy_fill_random(drawn, sizeof drawn) == 0);
        for (size_t i = 0; i < sizeof drawn; i++) {
            seen[i] |= drawn[i];
        }
    }
    HOLDS(memchr(seen, 0, sizeof seen) == NULL);
}

int main(void)
{
    char folder[] = "/tmp/check_posix-XXXXXX";
    if (__real_flock == NULL) {
        return EXIT_SUCCESS;
    }
    HOLDS(mkdtemp(folder) != NULL);
    snprintf(path, sizeof path, "%s/file", folder);
    check_creations();
    check_openings();
    check_exchanged();
    check_exchanged_in_commits();
    check_order();
    check_signals();
    check_commits_that_fail();
    check_folders(folder);
    check_descriptors();
    check_random();
    printf("random-access files of the system: %lu checks\n", checks);
    return rmdir(folder) == 0 ? EXIT_SUCCESS : EXIT_FAILURE;
}
