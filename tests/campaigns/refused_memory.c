// Is preloaded by tests/campaigns/refused-memory, and by tests/daemon/run: lets one allocation of the program fail,
// and stops the program before each read of its standard input until an order comes.
//
// REFUSED_MEMORY is `FILE ORDERS REPORTS`. The file has a count, which is shared with the tool: of how many
// allocations from now on the last one fails, or 0. The other two are descriptors; without them (-1) the
// program isn't stopped. At a stop it reports its process and -1. The orders: g to go on, e to go on at the
// end of the input, c to make a copy of the process, which is stopped too: the process waits for its
// copy to end, and then reports itself and the status of the copy.
#include <errno.h>
#include <fcntl.h>
#include <malloc.h>
#include <stdatomic.h>
#include <stdio.h>
#include <stdlib.h>
#include <sys/mman.h>
#include <sys/syscall.h>
#include <sys/wait.h>
#include <unistd.h>

extern void *__libc_malloc(size_t);
extern void *__libc_calloc(size_t, size_t);
extern void *__libc_realloc(void *, size_t);
extern void *__libc_memalign(size_t, size_t);

static _Atomic long *left;
static int orders = -1, reports = -1;

__attribute__((constructor)) static void begin(void) {
    char path[4096];
    const char *words = getenv("REFUSED_MEMORY");
    if (words == NULL || sscanf(words, "%4095s %d %d", path, &orders, &reports) != 3)
        return;
    int file = open(path, O_RDWR | O_CLOEXEC);
    void *page = mmap(NULL, sizeof *left, PROT_READ | PROT_WRITE, MAP_SHARED, file, 0);
    close(file);
    if (page != MAP_FAILED)
        left = page;
}

static int fails(void) {
    if (left == NULL || atomic_load(left) == 0 || atomic_fetch_sub(left, 1) != 1)
        return 0;
    errno = ENOMEM;
    return 1;
}

void *malloc(size_t size) {
    return fails() ? NULL : __libc_malloc(size);
}

void *calloc(size_t count, size_t size) {
    return fails() ? NULL : __libc_calloc(count, size);
}

void *realloc(void *block, size_t size) {
    return fails() ? NULL : __libc_realloc(block, size);
}

void *memalign(size_t align, size_t size) {
    return fails() ? NULL : __libc_memalign(align, size);
}

void *aligned_alloc(size_t align, size_t size) {
    return memalign(align, size);
}

int posix_memalign(void **block, size_t align, size_t size) {
    if (fails())
        return ENOMEM;
    *block = __libc_memalign(align, size);
    return *block == NULL ? ENOMEM : 0;
}

static void report(int status) {
    int words[2] = {getpid(), status};
    if (write(reports, words, sizeof words) != sizeof words)
        _exit(99);
}

// Whether the program may read on, and not the input has ended.
static int may_read(void) {
    for (int status = -1;;) {
        char order;
        report(status);
        if (syscall(SYS_read, orders, &order, 1) != 1)
            _exit(99);
        if (order != 'c')
            return order == 'g';
        pid_t copy = fork();
        status = -1;
        if (copy != 0 && (copy < 0 || waitpid(copy, &status, 0) != copy))
            _exit(99);
    }
}

ssize_t read(int file, void *block, size_t size) {
    if (file == STDIN_FILENO && reports >= 0 && !may_read())
        return 0;
    return syscall(SYS_read, file, block, size);
}
