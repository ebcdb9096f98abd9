// Is preloaded by tests/daemon/run: makes the program's syncs of files wait, and makes them, its writes into files, or
// its openings of files to append to fail.
//
// SLOW_SYNC is the path of a file of numbers, which is shared with the tool:
//   0  whether each sync waits, until it is 0 again
//   1  with which error each sync fails, or 0; 2 each write into a file; 3 each opening of a file to append to
//   4  how many syncs have begun
//   5  how many syncs of folders there are, from now on, up to one that is watched; it is 0 from then on
//   6  whether that one waits, until it is 0 again; 7 whether it has begun; 8 with which error it fails, or 0
// Standard output and standard error are as they are.
#include <errno.h>
#include <fcntl.h>
#include <stdarg.h>
#include <stdatomic.h>
#include <stdlib.h>
#include <sys/mman.h>
#include <sys/stat.h>
#include <sys/syscall.h>
#include <unistd.h>

static struct {
    _Atomic long waits, sync_error, write_error, open_error, begun;
    _Atomic long folders, folder_waits, folder_begun, folder_error;
} *shared;

__attribute__((constructor)) static void begin(void) {
    const char *path = getenv("SLOW_SYNC");
    int file = path == NULL ? -1 : open(path, O_RDWR | O_CLOEXEC);
    if (file < 0)
        return;
    void *page = mmap(NULL, sizeof *shared, PROT_READ | PROT_WRITE, MAP_SHARED, file, 0);
    close(file);
    if (page != MAP_FAILED)
        shared = page;
}

static int sync_by(long call, int file) {
    if (shared != NULL) {
        atomic_fetch_add(&shared->begun, 1);
        while (atomic_load(&shared->waits))
            usleep(1000);
        if (atomic_load(&shared->sync_error)) {
            errno = atomic_load(&shared->sync_error);
            return -1;
        }
    }
    return syscall(call, file);
}

static int is_of_kind(int file, mode_t kind) {
    struct stat found;
    return file > STDERR_FILENO && fstat(file, &found) == 0 && (found.st_mode & S_IFMT) == kind;
}

int fsync(int file) {
    if (shared != NULL && is_of_kind(file, S_IFDIR) && atomic_load(&shared->folders) > 0 &&
        atomic_fetch_sub(&shared->folders, 1) == 1) {
        atomic_store(&shared->folder_begun, 1);
        while (atomic_load(&shared->folder_waits))
            usleep(1000);
        if (atomic_load(&shared->folder_error)) {
            errno = atomic_load(&shared->folder_error);
            return -1;
        }
    }
    return sync_by(SYS_fsync, file);
}

int fdatasync(int file) {
    return sync_by(SYS_fdatasync, file);
}

ssize_t write(int file, const void *octets, size_t size) {
    if (shared != NULL && atomic_load(&shared->write_error) && is_of_kind(file, S_IFREG)) {
        errno = atomic_load(&shared->write_error);
        return -1;
    }
    return syscall(SYS_write, file, octets, size);
}

int open(const char *path, int flags, ...) {
    va_list rest;
    va_start(rest, flags);
    mode_t mode = (flags & O_CREAT) != 0 ? va_arg(rest, mode_t) : 0;
    va_end(rest);
    if (shared != NULL && atomic_load(&shared->open_error) && (flags & O_APPEND) != 0) {
        errno = atomic_load(&shared->open_error);
        return -1;
    }
    return syscall(SYS_openat, AT_FDCWD, path, flags, mode);
}
