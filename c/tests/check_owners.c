/*
 * The owners, the names and the locks of random-access files, as testkit/owners.txt has them, and a folder that cannot be
 * read. Unless root runs the program, it leaves out the rows that need other users.
 */
#ifndef _GNU_SOURCE
#define _GNU_SOURCE
#endif
#include "check.h"
#include "hunkravy_file.h"

#include <errno.h>
#include <fcntl.h>
#include <grp.h>
#include <signal.h>
#include <sys/file.h>
#include <sys/resource.h>
#include <sys/stat.h>
#include <sys/wait.h>
#include <unistd.h>

enum { LENGTH = 200000, LIMIT = 65536 };

static const uint8_t key[HUNKRAVY_AEGIS256_KEY_BYTES] = {3};
static char folder[] = "/tmp/check_owners-XXXXXX";
/* The paths of the file, of its journal, of the copy of that, of another name, and of the journal beside that. */
static char path[80], journal[80], copy[80], other[80], beside[80];
static char *const paths[] = {path, journal, copy, other, beside};

static int open_at(const char *at, hunkravy_file **file)
{
    return hunkravy_file_open(file, at, HUNKRAVY_AEGIS256, key, sizeof key);
}

static void remove_all(void)
{
    for (size_t i = 0; i < COUNT(paths); i++) {
        (void)!(rmdir(paths[i]) == 0 || unlink(paths[i]) == 0);
    }
}

static void make_file(void)
{
    hunkravy_file *file;
    remove_all();
    HOLDS(hunkravy_file_create(&file, path, HUNKRAVY_AEGIS256, key, sizeof key, 0) == 0);
    HOLDS(hunkravy_file_write(file, 0, "contents", 8) == 0 && hunkravy_file_close(file) == 0);
}

/* Writes bytes to a new file: as a journal it is torn. */
static void write_bytes(const char *at, size_t length)
{
    int fd = open(at, O_WRONLY | O_CREAT | O_EXCL, 0600);
    HOLDS(fd >= 0 && write(fd, "twenty torn bytes...", length) == (ssize_t)length && close(fd) == 0);
}

/* The sum of the bytes of an open file, and the size of what is at each path: -1 for a folder or a link, -2 for nothing. */
struct state {
    uint64_t sum;
    long sizes[COUNT(paths)];
};

static struct state state_of(int fd)
{
    static uint8_t bytes[1 << 18];
    struct state state = {0};
    struct stat found;
    ssize_t length = pread(fd, bytes, sizeof bytes, 0);
    HOLDS(length >= 0);
    for (ssize_t i = 0; i < length; i++) {
        state.sum = state.sum * 31 + bytes[i] + 1;
    }
    for (size_t i = 0; i < COUNT(paths); i++) {
        state.sizes[i] = lstat(paths[i], &found) != 0 ? -2 : S_ISREG(found.st_mode) ? (long)found.st_size : -1;
    }
    return state;
}

/* Whether nothing has changed, if a call has failed; otherwise the journal and its copy are used, and nothing else. */
static int is_kept(int code, int fd, const struct state *before)
{
    struct state now = state_of(fd), expected = *before;
    if (code == 0) {
        expected.sum = now.sum;
        expected.sizes[0] = now.sizes[0];
        expected.sizes[1] = expected.sizes[2] = -2;
    }
    return now.sum == expected.sum && memcmp(now.sizes, expected.sizes, sizeof now.sizes) == 0;
}

/* ---- Other processes */

static int in_child(int (*run)(char **), char **words)
{
    int status;
    pid_t child = fork();
    HOLDS(child >= 0);
    if (child == 0) {
        _exit(run(words));
    }
    HOLDS(waitpid(child, &status, 0) == child && WIFEXITED(status));
    return WEXITSTATUS(status);
}

/* ---- Owners */

static mode_t mode_of(const char *word)
{
    return (mode_t)strtoul(word, NULL, 8);
}

static int is_root(void)
{
    return geteuid() == 0;
}

/* Gives a file away. Not as root it stays with its user, who counts as user 1000 and group 100. */
static void set_owner(const char *at, char **words)
{
    HOLDS(!is_root() || chown(at, (uid_t)atoi(words[1]), (gid_t)atoi(words[2])) == 0);
    HOLDS(chmod(at, mode_of(words[0])) == 0);
}

static void check_owner(char **words)
{
    struct state before;
    hunkravy_file *file;
    int code, fd;
    make_file();
    write_bytes(journal, 20);
    fd = open(path, O_RDONLY);
    before = state_of(fd);
    set_owner(path, words + 1);
    set_owner(journal, words + 4);
    code = open_at(path, &file);
    HOLDS(has_result(code, words[7]) && is_kept(code, fd, &before) && state_of(fd).sum == before.sum);
    HOLDS(close(fd) == 0 && hunkravy_file_close(file) == 0);
}

/* Becomes a user who may not give the journal the group of the file. */
static void become_other(void)
{
    HOLDS(chown(path, 1000, 101) == 0 && setgroups(0, NULL) == 0 && setresgid(100, 100, 100) == 0);
    HOLDS(setresuid(1000, 1000, 1000) == 0);
}

/* Leaves a whole journal: the limit stops the commit when it writes to the end of the file. */
static int leave_journal(char **words)
{
    struct rlimit limit;
    hunkravy_file *file;
    if (words != NULL && strcmp(words[2], "other") == 0) {
        become_other();
    }
    HOLDS(open_at(path, &file) == 0 && hunkravy_file_truncate(file, LENGTH) == 0);
    HOLDS(hunkravy_file_commit(file) == 0 && hunkravy_file_write(file, LENGTH - 5, "after", 5) == 0);
    HOLDS(words == NULL || chmod(path, mode_of(words[1])) == 0);
    signal(SIGXFSZ, SIG_IGN);
    HOLDS(getrlimit(RLIMIT_FSIZE, &limit) == 0);
    limit.rlim_cur = LIMIT;
    HOLDS(setrlimit(RLIMIT_FSIZE, &limit) == 0);
    HOLDS(hunkravy_file_commit(file) == EFBIG && hunkravy_file_close(file) == HUNKRAVY_FILE_BROKEN);
    return 0;
}

static void check_made(char **words)
{
    struct stat found;
    make_file();
    HOLDS(in_child(leave_journal, words) == 0);
    HOLDS(stat(journal, &found) == 0 && (found.st_mode & 07777) == mode_of(words[3]));
}

/* ---- Names */

/* Makes what a case has in the place of the journal, of its copy, or of the file, and returns the path to open. */
static const char *make_case(const char *name)
{
    const char *place = strncmp(name, "copy", 4) == 0 ? copy : journal;
    if (strncmp(name, "link", 4) == 0) {
        write_bytes(strcmp(name, "link") == 0 ? journal : beside, 20);
        HOLDS(symlink(path, other) == 0);
        return other;
    }
    if (place == copy) {
        HOLDS(in_child(leave_journal, NULL) == 0);
    }
    if (strcmp(name, "hard-link") == 0 || strcmp(name, "open-hard-link") == 0) {
        HOLDS(link(path, other) == 0);
    } else if (strcmp(name, "open-renamed") == 0) {
        HOLDS(rename(path, other) == 0);
    } else if (strcmp(name, "open-removed") == 0 || strcmp(name, "open-replaced") == 0) {
        HOLDS(unlink(path) == 0);
        if (name[7] == 'p') {
            write_bytes(path, 20);
        }
    } else if (strstr(name, "folder") != NULL) {
        HOLDS(mkdir(place, 0700) == 0);
    } else if (strstr(name, "fifo") != NULL) {
        HOLDS(mkfifo(place, 0600) == 0);
    } else if (strstr(name, "-link") != NULL && strstr(name, "hard") == NULL) {
        HOLDS(symlink(other, place) == 0);
        if (strstr(name, "nothing") == NULL) {
            write_bytes(other, 20);
        }
    } else {
        write_bytes(place, strstr(name, "empty") != NULL ? 0 : 20);
        HOLDS(strstr(name, "mode-666") == NULL || chmod(place, 0666) == 0);
        HOLDS(strstr(name, "hard-link") == NULL || link(place, other) == 0);
    }
    return path;
}

static void check_name(char **words)
{
    int is_open = strncmp(words[1], "open-", 5) == 0, code, fd;
    hunkravy_file *file = NULL;
    const char *opened;
    struct state before;
    make_file();
    HOLDS(!is_open || (open_at(path, &file) == 0 && hunkravy_file_write(file, 0, "x", 1) == 0));
    fd = open(path, O_RDONLY);
    opened = make_case(words[1]);
    before = state_of(fd);
    code = is_open ? hunkravy_file_commit(file) : open_at(opened, &file);
    HOLDS(has_result(code, words[2]) && is_kept(code, fd, &before));
    if (file != NULL) {
        hunkravy_file_discard(file);
        HOLDS(hunkravy_file_close(file) == 0);
    }
    HOLDS(close(fd) == 0);
}

/* ---- Locks */

static hunkravy_file *held;

/* The lock is that of the system's `flock`, which `raf` of the Rust package takes too. */
static int opens(char **words)
{
    hunkravy_file *file;
    int fd = open(path, O_RDWR), is_free = flock(fd, LOCK_EX | LOCK_NB) == 0, code;
    HOLDS(is_free == (strcmp(words[2], "ok") == 0) && (!is_free || open_at(path, &file) == HUNKRAVY_FILE_LOCKED));
    HOLDS(close(fd) == 0);
    code = open_at(strstr(words[1], "link") != NULL ? other : path, &file);
    return has_result(code, words[2]) && hunkravy_file_close(file) == 0 ? 0 : 1;
}

static int uses_and_closes(char **words)
{
    size_t length;
    uint8_t byte;
    uint64_t size = hunkravy_file_size(held);
    hunkravy_file_discard(held);
    int is_right = hunkravy_file_size(held) == size &&
        has_result(hunkravy_file_read(held, 0, &byte, 1, &length), words[2]) &&
        has_result(hunkravy_file_write(held, 0, "x", 1), words[2]) &&
        has_result(hunkravy_file_commit(held), words[2]) && hunkravy_file_close(held) == 0;
    return is_right ? 0 : 1;
}

/* Holds the file, or has closed it, while another process uses it, which is older, a child, or this one. */
static void check_lock(char **words)
{
    const char *name = words[1];
    char *locked[] = {words[0], words[1], (char *)"locked"};
    int status = 0;
    pid_t older;
    make_file();
    HOLDS(symlink(path, other) == 0 && (older = fork()) >= 0);
    if (older == 0) {
        raise(SIGSTOP);
        _exit(strstr(name, "other-process") != NULL ? opens(words) : 0);
    }
    HOLDS(waitpid(older, &status, WUNTRACED) == older && WIFSTOPPED(status) && open_at(path, &held) == 0);
    if (strncmp(name, "closed", 6) == 0) {
        HOLDS(hunkravy_file_close(held) == 0);
        held = NULL;
    }
    HOLDS(kill(older, SIGCONT) == 0 && waitpid(older, &status, 0) == older && status == 0);
    if (strcmp(name, "forked-child-opens") == 0) {
        HOLDS(in_child(opens, words) == 0);
    } else if (strcmp(name, "forked-child-uses") == 0) {
        HOLDS(hunkravy_file_truncate(held, hunkravy_file_size(held) + 1) == 0);
        HOLDS(in_child(uses_and_closes, words) == 0);
    } else if (strcmp(name, "parent-after-child") == 0) {
        HOLDS(in_child(uses_and_closes, locked) == 0 && in_child(opens, locked) == 0);
        HOLDS(hunkravy_file_write(held, 0, "x", 1) == 0 && has_result(hunkravy_file_commit(held), words[2]));
    } else {
        HOLDS(opens(words) == 0);
    }
    HOLDS(hunkravy_file_close(held) == 0);
    held = NULL;
}

/* ---- A folder that its user may write and not read */

/* The names in it cannot be synced, so a commit fails, and changes nothing. */
static int commits_unread(char **words)
{
    hunkravy_file *file;
    (void)words;
    if (is_root()) {
        HOLDS(setresgid(100, 100, 100) == 0 && setresuid(1000, 1000, 1000) == 0);
    }
    HOLDS(open_at(path, &file) == 0 && hunkravy_file_write(file, 0, "x", 1) == 0);
    HOLDS(hunkravy_file_commit(file) == EACCES && hunkravy_file_check(file) == HUNKRAVY_OK);
    HOLDS(hunkravy_file_create(&file, other, HUNKRAVY_AEGIS256, key, sizeof key, 0) == EACCES);
    return access(other, F_OK) != 0 && access(journal, F_OK) != 0 ? 0 : 1;
}

static void check_unread_folder(void)
{
    make_file();
    HOLDS(!is_root() || (chown(path, 1000, 100) == 0 && chown(folder, 1000, 100) == 0));
    HOLDS(chmod(folder, 0300) == 0 && in_child(commits_unread, NULL) == 0 && chmod(folder, 0700) == 0);
}

/* ---- The table */

/* Whether only root can try a row. */
static int needs_root(char **words)
{
    int is_own = 1;
    for (int i = 2; strcmp(words[0], "owner") == 0 && i < 7; i += 3) {
        is_own = is_own && strcmp(words[i], "1000") == 0 && strcmp(words[i + 1], "100") == 0;
    }
    return !is_own || (strcmp(words[0], "made") == 0 && strcmp(words[2], "other") == 0);
}

static void check_row(char **words, unsigned *left_out)
{
    if (!is_root() && needs_root(words)) {
        ++*left_out;
    } else if (strcmp(words[0], "folder") == 0) {
        HOLDS(chmod(folder, mode_of(words[1])) == 0);
    } else if (strcmp(words[0], "owner") == 0) {
        check_owner(words);
    } else if (strcmp(words[0], "made") == 0) {
        HOLDS(chmod(folder, 0777) == 0);
        check_made(words);
    } else if (strcmp(words[0], "name") == 0) {
        check_name(words);
    } else {
        HOLDS(strcmp(words[0], "lock") == 0);
        check_lock(words);
    }
}

int main(void)
{
    FILE *table = fopen("testkit/owners.txt", "r");
    char line[200], *words[MOST_FIELDS];
    unsigned number = 0, rows = 0, left_out = 0;

    HOLDS(table != NULL && mkdtemp(folder) != NULL);
    for (size_t i = 0; i < COUNT(paths); i++) {
        static const char *const names[] = {"file", "file.journal", "file.jrncopy", "other", "other.journal"};
        snprintf(paths[i], sizeof path, "%s/%s", folder, names[i]);
    }
    check_unread_folder();
    while (fgets(line, sizeof line, table) != NULL) {
        snprintf(row, sizeof row, "testkit/owners.txt:%u", ++number);
        if (line[0] != '#' && split(line, words) > 0) {
            rows++;
            check_row(words, &left_out);
        }
    }
    remove_all();
    HOLDS(fclose(table) == 0 && rmdir(folder) == 0 && rows > 100);
    if (left_out != 0) {
        printf("left out: %u rows on other users, since only root can give files away\n", left_out);
    }
    printf("owners, names and locks: %u rows, %lu checks\n", rows, checks);
    return EXIT_SUCCESS;
}
