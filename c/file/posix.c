/* The storage that is a file of the system, and a journal beside it. */
#ifndef _GNU_SOURCE
#define _GNU_SOURCE
#endif
#include "engine.h"
#include "journal.h"

#include <errno.h>
#include <fcntl.h>
#include <pthread.h>
#include <stdio.h>
#include <stdlib.h>
#include <string.h>
#include <sys/file.h>
#include <sys/stat.h>
#include <sys/syscall.h>
#include <unistd.h>

/* ---- Processes */

static unsigned forks;

static void count_fork(void)
{
    forks++;
}

/* Two threads may both begin to count: then a fork counts twice. */
int hunkravy_file_this_process(struct process *process)
{
    static int is_counted;
    if (!__atomic_load_n(&is_counted, __ATOMIC_ACQUIRE)) {
        TRY(pthread_atfork(NULL, NULL, count_fork));
        __atomic_store_n(&is_counted, 1, __ATOMIC_RELEASE);
    }
    *process = (struct process){getpid(), forks};
    return 0;
}

/* The system is not asked, so a process that was made without `fork` of the C library counts as the one that made it. */
int hunkravy_file_seems_this(const struct process *process)
{
    return process->forks == forks;
}

int hunkravy_file_is_this(const struct process *process)
{
    return hunkravy_file_seems_this(process) && process->id == getpid();
}

/* ---- Calls of the system. Each returns 0, or the error number. Those that a new glibc has under new names are made directly. */

int hunkravy_hold_descriptors(void)
{
    for (int fd = STDIN_FILENO; fd <= STDERR_FILENO; fd++) {
        int held = fcntl(fd, F_GETFD) == -1 ? open("/", O_PATH | O_CLOEXEC) : fd;
        if (held < 0) {
            return errno;
        }
        if (held > STDERR_FILENO) {
            /* Another thread has taken it meanwhile. */
            close(held);
        }
    }
    return 0;
}

static int open_above(const char *path, int flags, mode_t mode)
{
    int fd = -1;
    if (hunkravy_hold_descriptors() == 0) {
        do {
            fd = open(path, flags | O_CLOEXEC, mode);
        } while (fd < 0 && errno == EINTR);
    }
    return fd;
}

/* Fills `in` from a file, or writes `out` to it if `in` is null: all of the bytes. */
static int transfer(int fd, uint8_t *in, const uint8_t *out, size_t length, uint64_t place)
{
    for (size_t done = 0; done < length;) {
        off_t at = (off_t)(place + done);
        ssize_t count =
            in != NULL ? pread(fd, in + done, length - done, at) : pwrite(fd, out + done, length - done, at);
        if (count == 0) {
            return in != NULL ? HUNKRAVY_DAMAGED_PAGE : EIO;
        }
        if (count < 0 && errno != EINTR) {
            return errno;
        }
        done += count > 0 ? (size_t)count : 0;
    }
    return 0;
}

static int put(int fd, const uint8_t *bytes, size_t length, uint64_t place)
{
    return transfer(fd, NULL, bytes, length, place);
}

static int cut(int fd, uint64_t size)
{
    while (ftruncate(fd, (off_t)size) != 0) {
        if (errno != EINTR) {
            return errno;
        }
    }
    return 0;
}

static int sync_fd(int fd)
{
    while (fsync(fd) != 0) {
        if (errno != EINTR) {
            return errno;
        }
    }
    return 0;
}

static int look(int fd, struct stat *found)
{
    return syscall(SYS_newfstatat, fd, "", found, AT_EMPTY_PATH) == 0 ? 0 : errno;
}

/* Finds what is at a path, without following a link. `*is_there` becomes whether there is anything. */
static int find(const char *path, struct stat *found, int *is_there)
{
    *is_there = syscall(SYS_newfstatat, AT_FDCWD, path, found, AT_SYMLINK_NOFOLLOW) == 0;
    return *is_there || errno == ENOENT ? 0 : errno;
}

static int is_same(const struct stat *one, const struct stat *other)
{
    return one->st_dev == other->st_dev && one->st_ino == other->st_ino;
}

/* Whether it is a file that has this name alone. */
static int is_file(const struct stat *found)
{
    return S_ISREG(found->st_mode) && found->st_nlink == 1;
}

/* ---- The file */

/* The descriptors are -1 if they are not open. */
struct posix {
    struct process owner;
    int file, journal;
    int is_locked, is_name_synced, is_journal_name_synced;
    /* A new file is removed if it is closed before it is complete, unless another program has written it. */
    enum { COMPLETE, NEW, BEGUN } stage;
    /* The paths, with no links in them: of the file, its journal, the copy of that, and the folder. */
    char *path, *journal_path, *copy_path, *folder_path;
    char paths[];
};

/* Another thread may get the number of what is closed, and a process that is forked then must not close that. */
static void change_journal(struct posix *posix, int fd)
{
    int old = posix->journal;
    posix->journal = fd;
    if (old >= 0) {
        close(old);
    }
}

/* Checks that the file is the one at its path, and has no other name: its journal would not be found. */
static int check_name(const struct posix *posix)
{
    struct stat own, found;
    int is_there;
    TRY(look(posix->file, &own));
    TRY(find(posix->path, &found, &is_there));
    return is_there && own.st_nlink == 1 && is_same(&own, &found) ? 0 : HUNKRAVY_FILE_MOVED;
}

static int has_path(int fd, const char *path)
{
    struct stat own, found;
    int is_there;
    TRY(look(fd, &own));
    TRY(find(path, &found, &is_there));
    return is_there && is_same(&own, &found) ? 0 : HUNKRAVY_WRONG_JOURNAL;
}

/* Checks that the file and its journal, which is open, still have their names: writing and syncing take a while, and another
 * program may have put its own there. */
static int check_names(const struct posix *posix)
{
    TRY(check_name(posix));
    return has_path(posix->journal, posix->journal_path);
}

/* Syncs the names in the folder. If the user may not read the folder, they cannot be. */
static int sync_folder(const struct posix *posix)
{
    int folder, code;
    do {
        folder = open(posix->folder_path, O_RDONLY | O_DIRECTORY | O_CLOEXEC);
    } while (folder < 0 && errno == EINTR);
    code = folder < 0 ? errno : sync_fd(folder);
    if (folder >= 0) {
        close(folder);
    }
    return code;
}

static int is_empty(int fd)
{
    struct stat found;
    return look(fd, &found) == 0 && is_file(&found) && found.st_size == 0;
}

static int system_lock(void *context)
{
    struct posix *posix = context;
    if (flock(posix->file, LOCK_EX | LOCK_NB) != 0) {
        if (errno != EWOULDBLOCK) {
            return errno;
        }
        /* If another program has it, it is no new file. */
        posix->stage = COMPLETE;
        return HUNKRAVY_FILE_LOCKED;
    }
    posix->is_locked = 1;
    return check_name(posix);
}

static int system_check(void *context)
{
    struct posix *posix = context;
    TRY(check_name(posix));
    if (!posix->is_name_synced) {
        TRY(sync_folder(posix));
    }
    posix->is_name_synced = 1;
    posix->stage = COMPLETE;
    return 0;
}

/* Writes zeros where the file system cannot make room in another way. Until they are synced it may put that off. */
static int write_zeros(int fd, uint64_t from, uint64_t end)
{
    static const uint8_t zeros[4096];
    while (from < end) {
        size_t length = end - from < sizeof zeros ? (size_t)(end - from) : sizeof zeros;
        TRY(put(fd, zeros, length, from));
        from += length;
    }
    return sync_fd(fd);
}

static int make_room(int fd, uint64_t from, uint64_t end)
{
    struct stat found;
    int code;
    TRY(look(fd, &found));
    code = fallocate(fd, 0, (off_t)from, (off_t)(end - from)) == 0 ? 0 : errno;
    /* An older tmpfs undoes what a signal interrupts, so with signals at regular times it might never be done. */
    if (code == EOPNOTSUPP || code == EINTR) {
        code = write_zeros(fd, from, end);
    }
    if (code != 0) {
        (void)!ftruncate(fd, found.st_size);
    }
    return code;
}

/* ---- The journal */

/* The permissions of all others, as far as the group has them too: who is in the group is not one of the others. */
static mode_t others(mode_t mode)
{
    return mode & mode >> 3 & 06;
}

/* Whether each user who may write a journal may write its file too. The owner of a file counts as a member of its group. */
static int is_as_safe(const struct stat *journal, const struct stat *of)
{
    int all_may = (others(of->st_mode) & 02) != 0;
    int group_may = all_may || (journal->st_gid == of->st_gid && (of->st_mode & 020) != 0);
    return (journal->st_uid == of->st_uid || journal->st_uid == 0 || group_may) &&
        ((journal->st_mode & 020) == 0 || group_may) && ((journal->st_mode & 02) == 0 || all_may);
}

/*
 * Finds the journal, if it has any bytes: an error if it is no file, has other names too, or someone may write it who may
 * not write the file. A crash may have left an empty one before it got its owner and its mode, so that counts as none.
 */
static int find_journal(const struct posix *posix, struct stat *found, int *is_there)
{
    struct stat of;
    TRY(find(posix->journal_path, found, is_there));
    *is_there = *is_there && !(is_file(found) && found->st_size == 0);
    if (!*is_there) {
        return 0;
    }
    TRY(look(posix->file, &of));
    return is_file(found) && is_as_safe(found, &of) ? 0 : EINVAL;
}

/* Opens the journal that was found. */
static int open_found(struct posix *posix, const struct stat *found)
{
    struct stat own;
    posix->journal = open_above(posix->journal_path, O_RDWR | O_NOFOLLOW | O_NONBLOCK, 0);
    if (posix->journal < 0) {
        return errno;
    }
    if (look(posix->journal, &own) != 0 || !is_same(&own, found)) {
        change_journal(posix, -1);
        return EINVAL;
    }
    return 0;
}

/* Opens the journal if it has any bytes. */
static int open_journal(struct posix *posix)
{
    struct stat found;
    int is_there = 0;
    if (posix->journal < 0) {
        TRY(find_journal(posix, &found, &is_there));
    }
    return is_there ? open_found(posix, &found) : 0;
}

/* Finds an empty journal. */
static int find_empty(const struct posix *posix, struct stat *found, int *is_there)
{
    TRY(find(posix->journal_path, found, is_there));
    *is_there = *is_there && is_file(found) && found->st_size == 0;
    return 0;
}

/* Removes an empty journal, if there is one. */
static int remove_empty(const struct posix *posix)
{
    struct stat found;
    int is_there;
    TRY(find_empty(posix, &found, &is_there));
    return is_there && unlink(posix->journal_path) != 0 ? errno : 0;
}

/*
 * Makes a file with the owner, the group and the permissions of the file, as far as the system allows, so that each user
 * who may write the file may complete its commit. It may be as unsafe as the file, and not more.
 */
static int make_beside(const struct posix *posix, const char *path, int *made)
{
    struct stat of, own;
    int fd, code;
    TRY(look(posix->file, &of));
    fd = open_above(path, O_RDWR | O_CREAT | O_EXCL, 0600);
    if (fd < 0) {
        return errno;
    }
    if (fchown(fd, of.st_uid, of.st_gid) != 0) {
        (void)!fchown(fd, (uid_t)-1, of.st_gid);
    }
    code = look(fd, &own);
    if (code == 0) {
        mode_t group = own.st_gid == of.st_gid ? of.st_mode & 060 : others(of.st_mode) << 3;
        (void)!fchmod(fd, 0600 | group | others(of.st_mode));
        code = look(fd, &own);
    }
    if (code != 0 || !is_as_safe(&own, &of)) {
        code = code == 0 ? EINVAL : code;
        unlink(path);
        close(fd);
        return code;
    }
    *made = fd;
    return 0;
}

static int system_reserve(void *context, uint64_t from, uint64_t end)
{
    struct posix *posix = context;
    /* What an earlier try has opened may have been another file, which is gone. */
    change_journal(posix, -1);
    posix->is_journal_name_synced = 0;
    if (end > from) {
        TRY(make_room(posix->file, from, end));
    }
    TRY(remove_empty(posix));
    TRY(open_journal(posix));
    return posix->journal < 0 ? make_beside(posix, posix->journal_path, &posix->journal) : 0;
}

static int system_replace(void *context, const uint8_t *bytes, size_t length)
{
    struct posix *posix = context;
    int made = -1, code;
    unlink(posix->copy_path);
    TRY(make_beside(posix, posix->copy_path, &made));
    code = put(made, bytes, length, 0);
    if (code == 0) {
        code = sync_fd(made);
    }
    if (code == 0) {
        code = has_path(made, posix->copy_path);
    }
    if (code == 0) {
        code = check_names(posix);
    }
    if (code == 0) {
        code = rename(posix->copy_path, posix->journal_path) == 0 ? 0 : errno;
    }
    if (code != 0) {
        /* In a sticky folder it would keep out the user who may replace the journal. */
        unlink(posix->copy_path);
        close(made);
        return code;
    }
    change_journal(posix, made);
    return sync_folder(posix);
}

/* Empties an empty journal once more: if an earlier sync of it has failed, the disk may have all of its bytes. */
static int empty_again(struct posix *posix)
{
    struct stat found;
    int is_there;
    TRY(find_empty(posix, &found, &is_there));
    if (!is_there) {
        return 0;
    }
    if (open_found(posix, &found) != 0) {
        TRY(remove_empty(posix));
        return sync_folder(posix);
    }
    return cut(posix->journal, 0);
}

/* Syncs the journal and its name. If it is empty it is then removed, if it can be. */
static int sync_journal(struct posix *posix)
{
    struct stat own, found;
    int is_there;
    if (posix->journal < 0) {
        TRY(empty_again(posix));
    }
    if (posix->journal < 0) {
        return 0;
    }
    TRY(sync_fd(posix->journal));
    TRY(look(posix->journal, &own));
    if (own.st_size != 0) {
        if (!posix->is_journal_name_synced) {
            TRY(sync_folder(posix));
        }
        posix->is_journal_name_synced = 1;
        return check_names(posix);
    }
    if (find(posix->journal_path, &found, &is_there) == 0 && is_there && is_same(&own, &found)) {
        unlink(posix->journal_path);
    }
    change_journal(posix, -1);
    return 0;
}

/* ---- The functions of the storage for both */

static int fd_of(struct posix *posix, enum hunkravy_part part, int *fd)
{
    if (part == HUNKRAVY_PART_JOURNAL) {
        TRY(open_journal(posix));
    }
    *fd = part == HUNKRAVY_PART_JOURNAL ? posix->journal : posix->file;
    return 0;
}

static int system_read(void *context, enum hunkravy_part part, uint64_t place, uint8_t *bytes, size_t length)
{
    int fd;
    TRY(fd_of(context, part, &fd));
    return fd < 0 ? HUNKRAVY_DAMAGED_PAGE : transfer(fd, bytes, NULL, length, place);
}

static int system_write(void *context, enum hunkravy_part part, uint64_t place, const uint8_t *bytes, size_t length)
{
    struct posix *posix = context;
    int fd;
    TRY(fd_of(posix, part, &fd));
    if (part == HUNKRAVY_PART_FILE && posix->stage == NEW) {
        posix->stage = BEGUN;
    }
    return fd < 0 ? EBADF : put(fd, bytes, length, place);
}

static int system_size(void *context, enum hunkravy_part part, uint64_t *size)
{
    struct posix *posix = context;
    struct stat found;
    int fd = part == HUNKRAVY_PART_FILE ? posix->file : posix->journal, is_there = 1;
    if (fd < 0) {
        /* It is not opened: the file may not be locked yet. */
        TRY(find_journal(posix, &found, &is_there));
    } else {
        TRY(look(fd, &found));
    }
    *size = is_there ? (uint64_t)found.st_size : 0;
    return 0;
}

/* Opens no journal: one that was not read may have the only copy of a commit. */
static int system_resize(void *context, enum hunkravy_part part, uint64_t size)
{
    const struct posix *posix = context;
    int fd = part == HUNKRAVY_PART_FILE ? posix->file : posix->journal;
    return fd < 0 ? 0 : cut(fd, size);
}

static int system_sync(void *context, enum hunkravy_part part)
{
    struct posix *posix = context;
    return part == HUNKRAVY_PART_FILE ? sync_fd(posix->file) : sync_journal(posix);
}

/* After a sync that failed, Linux keeps bytes that the disk does not have, and ext4 may not keep what is written over them. */
static int system_forget(void *context, enum hunkravy_part part)
{
    int fd;
    TRY(fd_of(context, part, &fd));
    if (fd >= 0) {
        TRY(sync_fd(fd));
        /* It is advice: a file system that takes none has another memory, or none. */
        (void)posix_fadvise(fd, 0, 0, POSIX_FADV_DONTNEED);
    }
    return 0;
}

int hunkravy_fill_random(uint8_t *bytes, size_t length)
{
    for (size_t done = 0; done < length;) {
        long count = syscall(SYS_getrandom, bytes + done, length - done, 0);
        if (count < 0 && errno != EINTR) {
            return errno;
        }
        done += count > 0 ? (size_t)count : 0;
    }
    return 0;
}

static int system_random(void *context, uint8_t *bytes, size_t length)
{
    (void)context;
    return hunkravy_fill_random(bytes, length);
}

static void system_close(void *context)
{
    struct posix *posix = context;
    /* A process that was forked shares the lock, and may keep another descriptor of the file. */
    if (hunkravy_file_is_this(&posix->owner)) {
        int is_own = posix->stage == BEGUN || (posix->stage == NEW && is_empty(posix->file));
        if (is_own && check_name(posix) == 0) {
            unlink(posix->path);
        }
        if (posix->is_locked) {
            flock(posix->file, LOCK_UN);
        }
    }
    change_journal(posix, -1);
    close(posix->file);
    free(posix);
}

/* Makes the paths of a file that is open. */
static struct posix *with_paths(const char *path)
{
    char *real = realpath(path, NULL);
    size_t length = real == NULL ? 0 : strlen(real);
    struct posix *posix = real == NULL ? NULL : calloc(1, sizeof *posix + 4 * length + 3 + 2 * sizeof ".journal");
    if (posix != NULL) {
        char *at = posix->paths;
        posix->path = at;
        at = stpcpy(at, real) + 1;
        posix->journal_path = at;
        at = stpcpy(stpcpy(at, real), ".journal") + 1;
        posix->copy_path = at;
        /* As long as the name of the journal, so that there is room for it too. */
        at = stpcpy(stpcpy(at, real), ".jrncopy") + 1;
        posix->folder_path = at;
        strcpy(at, real);
        at = strrchr(at, '/');
        at[at == posix->folder_path] = 0;
    }
    free(real);
    return posix;
}

/* Makes a path that leads to the same place if another thread changes the working folder. */
static char *absolute(const char *path)
{
    char *folder = *path == '/' || *path == 0 ? strdup("") : getcwd(NULL, 0);
    char *whole = folder == NULL ? NULL : malloc(strlen(folder) + strlen(path) + 2);
    if (whole != NULL) {
        strcpy(stpcpy(stpcpy(whole, folder), *folder != 0 ? "/" : ""), path);
    }
    free(folder);
    return whole;
}

/* Removes a new file, if it is empty and still has its name. */
static void remove_new(const char *path, int file)
{
    struct stat own, found;
    int is_there;
    if (is_empty(file) && look(file, &own) == 0 && find(path, &found, &is_there) == 0 && is_there &&
        is_same(&own, &found)) {
        unlink(path);
    }
}

/* Opens a file at an absolute path, or makes one, with its paths. */
static int open_with_paths(struct posix **posix, const char *path, int is_new)
{
    int code = 0, file = open_above(path, O_RDWR | (is_new ? O_CREAT | O_EXCL : 0), 0666);
    if (file < 0) {
        return errno;
    }
    *posix = with_paths(path);
    if (*posix != NULL) {
        (*posix)->file = file;
        return 0;
    }
    code = errno;
    if (is_new) {
        remove_new(path, file);
    }
    close(file);
    return code;
}

/* Opens a file at a path for this process, or makes one. */
int hunkravy_file_posix(struct hunkravy_storage *storage, const char *path, int is_new, const struct process *owner)
{
    struct posix *posix = NULL;
    char *whole = absolute(path);
    int code = whole == NULL ? errno : open_with_paths(&posix, whole, is_new);
    free(whole);
    TRY(code);
    posix->journal = -1;
    posix->stage = is_new ? NEW : COMPLETE;
    posix->owner = *owner;
    *storage = (struct hunkravy_storage){
        .context = posix,
        .read = system_read,
        .write = system_write,
        .size = system_size,
        .resize = system_resize,
        .sync = system_sync,
        .replace = system_replace,
        .forget = system_forget,
        .lock = system_lock,
        .check = system_check,
        .reserve = system_reserve,
        .random = system_random,
        .close = system_close,
    };
    return 0;
}
