// Is preloaded by tests/campaigns/faults and tests/daemon/run: lets one operation of the program on a file or a socket
// fail, or ends the process there.
//
//   FAULT_FOLDER   the folder whose files are meant, with a `/` at its end
//   FAULT_LOG      a file in which each operation gets a line, `OPERATION NAME`, with a `!` before the one that is chosen
//   FAULT          `OPERATION NAME COUNT ACTION`: the so manieth operation of this kind on this name is chosen; and after
//                  it, as the next four words, the same of a second one
//   FAULT_SYNCED   a folder, with a `/` at its end, that gets what outlasts the end of the machine: the octets of each
//                  file as they were synced, by the number of its inode, and in `names` and `names-archive` the name and
//                  inode of each file of a folder when that was synced
//
// NAME is the path below the folder, `.` for the folder itself, `archive/page` for each page that has its place there,
// `socket`, and `new` of a `thread`, the making of one. ACTION is the number of an error; `before` or `after`, the end of
// the process before the operation or after it; of a write `half`, the end after half of its octets, and `short`, which
// writes half of them; or `full`: half of the octets are written, and from then on the disk has no space, until the
// folder has a file `emptied`; or `read-only`: from that operation on the disk of the state and the archive can't be
// written, until then.
#define _GNU_SOURCE
#include <dirent.h>
#include <dlfcn.h>
#include <errno.h>
#include <fcntl.h>
#include <pthread.h>
#include <signal.h>
#include <stdarg.h>
#include <stdatomic.h>
#include <stdio.h>
#include <stdlib.h>
#include <string.h>
#include <sys/socket.h>
#include <sys/sendfile.h>
#include <sys/stat.h>
#include <sys/syscall.h>
#include <unistd.h>

enum { NAMES = 4096 };

// An operation that is chosen, and what becomes of it.
struct fault {
    char chosen[NAMES], action[64];
    long count;
    _Atomic long met;
};

static char folder[NAMES], synced[NAMES];
static struct fault faults[2];
static int trace = -1;
static _Atomic int is_full, is_read_only;

__attribute__((constructor)) static void begin(void) {
    const char *path = getenv("FAULT_LOG"), *top = getenv("FAULT_FOLDER"), *text = getenv("FAULT");
    char kind[64] = "", name[1024] = "";
    int len = 0;
    if (path == NULL || top == NULL || strlen(top) >= sizeof folder)
        return;
    strcpy(folder, top);
    snprintf(synced, sizeof synced, "%s", getenv("FAULT_SYNCED") ? getenv("FAULT_SYNCED") : "");
    for (struct fault *it = faults; text != NULL && it < faults + 2; it++, text += len)
        if (sscanf(text, "%63s %1023s %ld %63s%n", kind, name, &it->count, it->action, &len) == 4)
            snprintf(it->chosen, sizeof it->chosen, "%s %s\n", kind, name);
    int file = open(path, O_WRONLY | O_CREAT | O_APPEND | O_CLOEXEC, 0666);
    // (a number that leaves the small ones to the program)
    trace = file < 0 ? -1 : fcntl(file, F_DUPFD_CLOEXEC, 500);
    close(file);
}

static void end(void) {
    for (;;)
        syscall(SYS_kill, getpid(), SIGKILL);
}

static const char *name_of(const char *path) {
    size_t len = strlen(folder);
    if (trace < 0)
        return NULL;
    if (strncmp(path, "socket:", 7) == 0)
        return "socket";
    if (strncmp(path, folder, len - 1) != 0 || (path[len - 1] != '/' && path[len - 1] != 0))
        return NULL;
    if (path[len - 1] == 0 || path[len] == 0)
        return ".";
    // (pages have the number of their run and of their first event)
    return strncmp(path + len, "archive/0", 9) == 0 ? "archive/page" : path + len;
}

// What becomes of an operation where it is chosen, else NULL; it has its line.
static const char *action_of(const char *kind, const char *name) {
    char line[NAMES];
    const char *action = NULL;
    if (name == NULL)
        return NULL;
    int len = snprintf(line + 1, sizeof line - 1, "%s %s\n", kind, name);
    for (struct fault *it = faults; it < faults + 2; it++)
        if (strcmp(line + 1, it->chosen) == 0 && atomic_fetch_add(&it->met, 1) + 1 == it->count)
            action = it->action;
    line[0] = '!';
    syscall(SYS_write, trace, action ? line : line + 1, action ? len + 1 : len);
    return action;
}

static int is_action(const char *action, const char *word) {
    return action != NULL && strcmp(action, word) == 0;
}

// Whether an operation fails, and before that the end of the process, if that is to be.
static int fails(const char *action) {
    if (action == NULL)
        return 0;
    if (is_action(action, "before"))
        end();
    if (is_action(action, "read-only"))
        atomic_store(&is_read_only, 1);
    errno = is_action(action, "read-only") ? EROFS : atoi(action);
    return errno != 0;
}

static long done(const char *action, long result) {
    if (is_action(action, "after"))
        end();
    return result;
}

static const char *path_of(int file, char path[NAMES]) {
    char link[64];
    if (trace < 0 || file <= STDERR_FILENO)
        return NULL;
    snprintf(link, sizeof link, "/proc/self/fd/%d", file);
    long len = syscall(SYS_readlinkat, AT_FDCWD, link, path, NAMES - 1);
    path[len < 0 ? 0 : len] = 0;
    return name_of(path);
}

static int is_emptied(void) {
    char path[NAMES + 8];
    struct stat found;
    snprintf(path, sizeof path, "%semptied", folder);
    return stat(path, &found) == 0;
}

// Whether a disk that can't be written has the file of a name, as that of a socket has not.
static int is_kept(const char *name) {
    int is_own = name != NULL && (strncmp(name, "state", 5) == 0 || strncmp(name, "archive", 7) == 0);
    if (!is_own || !atomic_load(&is_read_only) || is_emptied())
        return 0;
    errno = EROFS;
    return 1;
}

#define ON_FILE(kind, file, call) \
    char path[NAMES]; \
    const char *action = action_of(kind, path_of(file, path)); \
    return fails(action) ? -1 : done(action, call)
#define ON_PATH(kind, path, call) \
    const char *action = action_of(kind, name_of(path)); \
    return fails(action) ? -1 : done(action, call)
// (of what changes the disk)
#define ON_DISK(kind, path, call) \
    const char *action = action_of(kind, name_of(path)); \
    return fails(action) || is_kept(name_of(path)) ? -1 : done(action, call)

static int open_path(const char *path, int flags, mode_t mode) {
    if ((flags & (O_WRONLY | O_RDWR | O_CREAT | O_TRUNC)) == 0) {
        ON_PATH("open", path, syscall(SYS_openat, AT_FDCWD, path, flags, mode));
    }
    ON_DISK("open", path, syscall(SYS_openat, AT_FDCWD, path, flags, mode));
}

int open(const char *path, int flags, ...) {
    va_list rest;
    va_start(rest, flags);
    mode_t mode = (flags & O_CREAT) != 0 ? va_arg(rest, mode_t) : 0;
    va_end(rest);
    return open_path(path, flags, mode);
}

int openat(int at, const char *path, int flags, ...) {
    va_list rest;
    va_start(rest, flags);
    mode_t mode = (flags & O_CREAT) != 0 ? va_arg(rest, mode_t) : 0;
    va_end(rest);
    return at == AT_FDCWD ? open_path(path, flags, mode) : syscall(SYS_openat, at, path, flags, mode);
}

static ssize_t write_half(int file, const void *octets, size_t size) {
    return syscall(SYS_write, file, octets, size / 2);
}

ssize_t write(int file, const void *octets, size_t size) {
    char path[NAMES];
    const char *name = path_of(file, path), *action = action_of("write", name);
    if (fails(action))
        return -1;
    if (is_action(action, "half")) {
        write_half(file, octets, size);
        end();
    }
    if (is_action(action, "full"))
        atomic_store(&is_full, 1);
    if (is_action(action, "short") || is_action(action, "full"))
        return write_half(file, octets, size);
    if (name != NULL && strcmp(name, "socket") != 0 && atomic_load(&is_full) && !is_emptied()) {
        errno = ENOSPC;
        return -1;
    }
    if (is_kept(name))
        return -1;
    return done(action, syscall(SYS_write, file, octets, size));
}

ssize_t read(int file, void *octets, size_t size) {
    ON_FILE("read", file, syscall(SYS_read, file, octets, size));
}

// Keeps the octets of a file that are synced.
static void keep_octets(int file, const char *to) {
    char from[64];
    snprintf(from, sizeof from, "/proc/self/fd/%d", file);
    int source = syscall(SYS_openat, AT_FDCWD, from, O_RDONLY | O_CLOEXEC);
    int copy = syscall(SYS_openat, AT_FDCWD, to, O_WRONLY | O_CREAT | O_TRUNC | O_CLOEXEC, 0600);
    while (source >= 0 && sendfile(copy, source, NULL, 1 << 30) > 0)
        ;
    close(source);
    close(copy);
}

// Keeps the names in a folder that is synced.
static void keep_names(const char *path, const char *to) {
    DIR *found = opendir(path);
    FILE *names = fopen(to, "we");
    for (struct dirent *it; found != NULL && names != NULL && (it = readdir(found)) != NULL;)
        if (it->d_type == DT_REG)
            fprintf(names, "%s %lu\n", it->d_name, (unsigned long)it->d_ino);
    if (found != NULL)
        closedir(found);
    if (names != NULL)
        fclose(names);
}

static int keep_synced(int result, int file, const char *path, const char *name) {
    char to[NAMES + 64], next[NAMES + 128];
    struct stat found;
    if (result != 0 || *synced == 0 || name == NULL || fstat(file, &found) != 0)
        return result;
    if (S_ISREG(found.st_mode))
        snprintf(to, sizeof to, "%s%lu", synced, (unsigned long)found.st_ino);
    else
        snprintf(to, sizeof to, "%snames%s", synced, strcmp(name, "archive") == 0 ? "-archive" : "");
    // (the process may end meanwhile)
    snprintf(next, sizeof next, "%s.%d", to, gettid());
    if (S_ISREG(found.st_mode))
        keep_octets(file, next);
    else
        keep_names(path, next);
    syscall(SYS_rename, next, to);
    return result;
}

static int sync_by(long call, const char *kind, int file) {
    char path[NAMES];
    const char *name = path_of(file, path), *action = action_of(kind, name);
    return fails(action) ? -1 : done(action, keep_synced(syscall(call, file), file, path, name));
}

int fsync(int file) {
    return sync_by(SYS_fsync, "fsync", file);
}

int fdatasync(int file) {
    return sync_by(SYS_fdatasync, "fdatasync", file);
}

int ftruncate(int file, off_t size) {
    char path[NAMES];
    const char *name = path_of(file, path), *action = action_of("ftruncate", name);
    return fails(action) || is_kept(name) ? -1 : done(action, syscall(SYS_ftruncate, file, size));
}

int fallocate(int file, int mode, off_t place, off_t size) {
    ON_FILE("fallocate", file, syscall(SYS_fallocate, file, mode, place, size));
}

int flock(int file, int kind) {
    ON_FILE("flock", file, syscall(SYS_flock, file, kind));
}

ssize_t getdents64(int file, void *octets, size_t size) {
    ON_FILE("list", file, syscall(SYS_getdents64, file, octets, size));
}

int rename(const char *from, const char *to) {
    ON_DISK("rename", to, syscall(SYS_rename, from, to));
}

int unlink(const char *path) {
    ON_DISK("unlink", path, syscall(SYS_unlink, path));
}

int rmdir(const char *path) {
    ON_PATH("rmdir", path, syscall(SYS_rmdir, path));
}

int mkdir(const char *path, mode_t mode) {
    ON_PATH("mkdir", path, syscall(SYS_mkdir, path, mode));
}

int chmod(const char *path, mode_t mode) {
    ON_PATH("chmod", path, syscall(SYS_chmod, path, mode));
}

static int stat_file(int file, const char *none, int flags, unsigned mask, struct statx *found) {
    ON_FILE("fstat", file, syscall(SYS_statx, file, none, flags, mask, found));
}

int statx(int at, const char *path, int flags, unsigned mask, struct statx *found) {
    if (path[0] == 0)
        return stat_file(at, path, flags, mask, found);
    ON_PATH("stat", path, syscall(SYS_statx, at, path, flags, mask, found));
}

int accept4(int file, struct sockaddr *address, socklen_t *size, int flags) {
    ON_FILE("accept", file, syscall(SYS_accept4, file, address, size, flags));
}

ssize_t recv(int file, void *octets, size_t size, int flags) {
    ON_FILE("recv", file, syscall(SYS_recvfrom, file, octets, size, flags, NULL, NULL));
}

ssize_t send(int file, const void *octets, size_t size, int flags) {
    ON_FILE("send", file, syscall(SYS_sendto, file, octets, size, flags, NULL, 0));
}

int pthread_create(pthread_t *thread, const pthread_attr_t *with, void *(*run)(void *), void *of) {
    int (*next)(pthread_t *, const pthread_attr_t *, void *(*)(void *), void *) = dlsym(RTLD_NEXT, "pthread_create");
    return fails(action_of("thread", trace < 0 ? NULL : "new")) ? errno : next(thread, with, run, of);
}
