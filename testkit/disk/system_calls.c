/*
 * The disk below any program: a library that is loaded before the C library (LD_PRELOAD), for glibc on x86-64. Calls on
 * files in the disk's folder are made on these files and on the disk, whose path is in DISK.
 *
 * The files have what can be read, so calls that only read are not replaced. disk_check, which the driver calls,
 * notices writes in other ways, such as through a memory map.
 */
#ifndef _GNU_SOURCE
#define _GNU_SOURCE
#endif
#include "disk.h"

#include <errno.h>
#include <fcntl.h>
#include <stdarg.h>
#include <stdio.h>
#include <stdlib.h>
#include <string.h>
#include <sys/stat.h>
#include <sys/syscall.h>
#include <sys/uio.h>
#include <unistd.h>

static struct disk *disk;

__attribute__((constructor)) static void begin(void)
{
    const char *path = getenv("DISK");
    disk = path == NULL ? NULL : disk_map(path);
}

/* The number of an open file on the disk's device, or 0. */
static uint64_t number_of(int fd)
{
    struct stat found;
    int is_there = disk != NULL && syscall(SYS_newfstatat, fd, "", &found, AT_EMPTY_PATH) == 0;
    return is_there && found.st_dev == disk->device ? found.st_ino : 0;
}

/* The node of an open file, or a null pointer if it is not on the disk, or has no name there any more. */
static struct node *node_of(int fd)
{
    int error = errno;
    uint64_t number = number_of(fd);
    errno = error;
    return number == 0 ? NULL : disk_find(disk, number);
}

/* The name of a path in the disk's folder, or a null pointer if it is elsewhere. */
static const char *name_in(int folder, const char *path)
{
    size_t length = disk == NULL ? 0 : strlen(disk->folder);
    if (disk == NULL) {
        return NULL;
    }
    if (strncmp(path, disk->folder, length) == 0 && path[length] == '/') {
        return path + length + 1;
    }
    return path[0] != '/' && folder != AT_FDCWD && number_of(folder) == disk->folder_number ? path : NULL;
}

static int fail(void)
{
    errno = EIO;
    return -1;
}

/* ---- Files */

static int open_at(int folder, const char *path, int flags, mode_t mode)
{
    const char *name = name_in(folder, path);
    int makes = name != NULL && (flags & O_CREAT) != 0 && disk_at(disk, name) == NULL;
    int empties = name != NULL && !makes && (flags & O_TRUNC) != 0;
    if ((makes || empties) && disk_fails(disk)) {
        return fail();
    }
    int fd = (int)syscall(SYS_openat, folder, path, flags, mode);
    if (fd >= 0 && makes) {
        disk_create(disk, name, number_of(fd));
    } else if (fd >= 0 && empties) {
        disk_resize(disk_at(disk, name), 0);
    }
    return fd;
}

static mode_t mode_of(int flags, va_list rest)
{
    return (flags & O_CREAT) != 0 || (flags & O_TMPFILE) == O_TMPFILE ? va_arg(rest, mode_t) : 0;
}

int open(const char *path, int flags, ...)
{
    va_list rest;
    va_start(rest, flags);
    mode_t mode = mode_of(flags, rest);
    va_end(rest);
    return open_at(AT_FDCWD, path, flags, mode);
}

int openat(int folder, const char *path, int flags, ...)
{
    va_list rest;
    va_start(rest, flags);
    mode_t mode = mode_of(flags, rest);
    va_end(rest);
    return open_at(folder, path, flags, mode);
}

int creat(const char *path, mode_t mode)
{
    return open_at(AT_FDCWD, path, O_WRONLY | O_CREAT | O_TRUNC, mode);
}

/* ---- Bytes */

static ssize_t write_at(int fd, const void *bytes, size_t length, off_t place)
{
    struct node *node = node_of(fd);
    if (node == NULL) {
        return syscall(SYS_pwrite64, fd, bytes, length, place);
    }
    int is_made = disk_write(disk, node, (size_t)place, bytes, &length);
    disk_must(syscall(SYS_pwrite64, fd, bytes, length, place) == (long)length, "a write of the system");
    return is_made ? (ssize_t)length : fail();
}

ssize_t pwrite(int fd, const void *bytes, size_t length, off_t place)
{
    return write_at(fd, bytes, length, place);
}

ssize_t write(int fd, const void *bytes, size_t length)
{
    const struct node *node = node_of(fd);
    if (node == NULL) {
        return syscall(SYS_write, fd, bytes, length);
    }
    int appends = (fcntl(fd, F_GETFL) & O_APPEND) != 0;
    off_t place = appends ? (off_t)node->length : syscall(SYS_lseek, fd, 0, SEEK_CUR);
    ssize_t count = write_at(fd, bytes, length, place);
    if (count >= 0) {
        (void)syscall(SYS_lseek, fd, place + count, SEEK_SET);
    }
    return count;
}

ssize_t writev(int fd, const struct iovec *parts, int count)
{
    ssize_t all = 0;
    if (node_of(fd) == NULL) {
        return syscall(SYS_writev, fd, parts, count);
    }
    for (int i = 0; i < count; i++) {
        ssize_t done = write(fd, parts[i].iov_base, parts[i].iov_len);
        if (done < 0) {
            return all == 0 ? done : all;
        }
        all += done;
    }
    return all;
}

int ftruncate(int fd, off_t size)
{
    struct node *node = node_of(fd);
    if (node != NULL && disk_fails(disk)) {
        return fail();
    }
    int code = (int)syscall(SYS_ftruncate, fd, size);
    if (code == 0 && node != NULL) {
        disk_resize(node, (size_t)size);
    }
    return code;
}

int fallocate(int fd, int mode, off_t place, off_t length)
{
    struct node *node = node_of(fd);
    disk_must(node == NULL || mode == 0 || mode == FALLOC_FL_KEEP_SIZE, "a kind of fallocate");
    if (node != NULL && disk_fails(disk)) {
        return fail();
    }
    int code = (int)syscall(SYS_fallocate, fd, mode, place, length);
    if (code == 0 && node != NULL && mode == 0 && (size_t)(place + length) > node->length) {
        disk_resize(node, (size_t)(place + length));
    }
    return code;
}

int fsync(int fd)
{
    struct node *node = node_of(fd);
    if (node != NULL) {
        return disk_sync(disk, node) ? 0 : fail();
    }
    if (disk != NULL && number_of(fd) == disk->folder_number) {
        return disk_sync_names(disk) ? 0 : fail();
    }
    return (int)syscall(SYS_fsync, fd);
}

/* Makes an open file show what can be read. */
static void show(int fd, const struct node *node)
{
    long is_empty = syscall(SYS_ftruncate, fd, 0), count = syscall(SYS_pwrite64, fd, node->now, node->length, 0);
    disk_must(is_empty == 0 && count == (long)node->length, "a file of the system");
}

int posix_fadvise(int fd, off_t place, off_t length, int advice)
{
    struct node *node = node_of(fd);
    if (node != NULL && advice == POSIX_FADV_DONTNEED) {
        disk_forget(disk, node);
        show(fd, node);
    }
    return (int)syscall(SYS_fadvise64, fd, place, length, advice);
}

/* ---- Names */

int unlinkat(int folder, const char *path, int flags)
{
    const char *name = name_in(folder, path);
    int is_there = name != NULL && disk_at(disk, name) != NULL;
    if (is_there && disk_fails(disk)) {
        return fail();
    }
    int code = (int)syscall(SYS_unlinkat, folder, path, flags);
    if (code == 0 && is_there) {
        disk_remove(disk, name);
    }
    return code;
}

int unlink(const char *path)
{
    return unlinkat(AT_FDCWD, path, 0);
}

/* Gives a file another name, or one more. */
static int name(long call, int folder, const char *path, int to, const char *to_path, int flags)
{
    const char *from = name_in(folder, path), *new = name_in(to, to_path);
    struct node *node = from == NULL ? NULL : disk_at(disk, from);
    disk_must((from == NULL) == (new == NULL) && flags == 0, "a name in another folder");
    if (node != NULL && disk_fails(disk)) {
        return fail();
    }
    int code = (int)syscall(call, folder, path, to, to_path, flags);
    if (code == 0 && node != NULL) {
        disk_rename(disk, call == SYS_linkat ? NULL : from, new, node);
    }
    return code;
}

int renameat2(int folder, const char *path, int to, const char *to_path, unsigned flags)
{
    return name(SYS_renameat2, folder, path, to, to_path, (int)flags);
}

int renameat(int folder, const char *path, int to, const char *to_path)
{
    return name(SYS_renameat2, folder, path, to, to_path, 0);
}

int rename(const char *path, const char *to_path)
{
    return name(SYS_renameat2, AT_FDCWD, path, AT_FDCWD, to_path, 0);
}

int linkat(int folder, const char *path, int to, const char *to_path, int flags)
{
    return name(SYS_linkat, folder, path, to, to_path, flags);
}

int link(const char *path, const char *to_path)
{
    return name(SYS_linkat, AT_FDCWD, path, AT_FDCWD, to_path, 0);
}

/* The other names of these calls. Their offsets have 64 bits too. */
#define ALSO(type, alias_name, parameters, of) type alias_name parameters __attribute__((alias(#of)));
ALSO(int, open64, (const char *path, int flags, ...), open)
ALSO(int, openat64, (int folder, const char *path, int flags, ...), openat)
ALSO(int, creat64, (const char *path, mode_t mode), creat)
ALSO(ssize_t, pwrite64, (int fd, const void *bytes, size_t length, off_t place), pwrite)
ALSO(int, ftruncate64, (int fd, off_t size), ftruncate)
ALSO(int, fallocate64, (int fd, int mode, off_t place, off_t length), fallocate)
ALSO(int, fdatasync, (int fd), fsync)
ALSO(int, posix_fadvise64, (int fd, off_t place, off_t length, int advice), posix_fadvise)

/* ---- For the driver */

static void in_folder(const struct disk *of, const char *name, char *path)
{
    snprintf(path, sizeof of->folder + NAME_BYTES, "%s/%s", of->folder, name);
}

/* Makes the file of a name, or one more name of the file that has another. */
static void show_name(struct disk *of, int name)
{
    char path[sizeof of->folder + NAME_BYTES], other[sizeof path];
    struct node *node = &of->nodes[of->names[name].now];
    struct stat found;
    in_folder(of, of->names[name].text, path);
    for (int i = 0; i < name; i++) {
        if (of->names[i].now == of->names[name].now) {
            in_folder(of, of->names[i].text, other);
            disk_must(syscall(SYS_linkat, AT_FDCWD, other, AT_FDCWD, path, 0) == 0, "no link");
            return;
        }
    }
    int fd = (int)syscall(SYS_openat, AT_FDCWD, path, O_RDWR | O_CREAT | O_EXCL, 0600);
    show(fd, node);
    disk_must(syscall(SYS_newfstatat, fd, "", &found, AT_EMPTY_PATH) == 0, "no file");
    node->number = found.st_ino;
    syscall(SYS_close, fd);
}

/* Makes the files in the folder those that can be read. `of` gets their numbers. */
void disk_show(struct disk *of)
{
    char path[sizeof of->folder + NAME_BYTES];
    struct stat found;
    disk_must(stat(of->folder, &found) == 0, "no folder");
    of->device = found.st_dev;
    of->folder_number = found.st_ino;
    for (int i = 0; i < NAMES && of->names[i].text[0] != 0; i++) {
        in_folder(of, of->names[i].text, path);
        (void)syscall(SYS_unlink, path);
    }
    for (int i = 0; i < NAMES && of->names[i].text[0] != 0; i++) {
        if (of->names[i].now != NOTHING) {
            show_name(of, i);
        }
    }
}

/* Checks that the files in the folder are what can be read, so that no call was made in another way. */
void disk_check(const struct disk *of)
{
    static uint8_t bytes[MOST_BYTES];
    char path[sizeof of->folder + NAME_BYTES];
    for (int i = 0; i < NAMES && of->names[i].text[0] != 0; i++) {
        const struct node *node = of->names[i].now == NOTHING ? NULL : &of->nodes[of->names[i].now];
        in_folder(of, of->names[i].text, path);
        int fd = (int)syscall(SYS_openat, AT_FDCWD, path, O_RDONLY, 0);
        disk_must((fd >= 0) == (node != NULL), "a name was changed in another way");
        if (fd >= 0) {
            long count = syscall(SYS_pread64, fd, bytes, sizeof bytes, 0);
            syscall(SYS_close, fd);
            disk_must(count == (long)node->length && memcmp(bytes, node->now, node->length) == 0,
                "a file was written in another way");
        }
    }
}
