/* Tries siploc_embedded.h. tests/embedded/run compiles it and handles.c, with --wrap of the calls that take and give
 * memory.
 *
 *     driver run SETTINGS      a session on standard input, as a whole
 *     driver serve SETTINGS    the same on a socket, served by another thread
 *     driver refuse SETTINGS   the same as a whole, with each allocation failing in turn, and again without
 *     driver threads SETTINGS  the same as a whole, 64 times in 8 threads
 *     driver put SETTINGS      the same through a handle, as a whole, by octets, and, if it is short, cut in two
 *     driver retry SETTINGS    through a handle by commands: with each allocation failing in turn, and then put again
 *     driver handles SETTINGS  through 64 handles in 8 threads, side by side, and one that goes from thread to thread
 *     driver nulls             null addresses, and lengths of 0
 *
 * What a session replies is written on standard output, once. The status is that of the call, or 100 where something
 * is not as it should be, which is told on standard error.
 */
#include "driver.h"

#include <errno.h>
#include <pthread.h>
#include <stdio.h>
#include <stdlib.h>
#include <string.h>
#include <sys/socket.h>
#include <unistd.h>

void *__wrap_malloc(size_t size);
void *__wrap_realloc(void *block, size_t size);
void __wrap_free(void *block);

_Thread_local long left, held;

static int fails(void) {
    return left > 0 && --left == 0;
}

void *__wrap_malloc(size_t size) {
    void *block = fails() ? NULL : __real_malloc(size);
    held += block != NULL;
    return block;
}

void *__wrap_realloc(void *block, size_t size) {
    if (fails())
        return NULL;
    void *moved = __real_realloc(block, size);
    held += block == NULL && moved != NULL;
    return moved;
}

void __wrap_free(void *block) {
    held -= block != NULL;
    __real_free(block);
}

_Noreturn void stop(const char *why) {
    fprintf(stderr, "driver: %s\n", why);
    exit(WRONG);
}

static text read_all(int descriptor) {
    text all = {NULL, 0};
    size_t room = 0;
    for (;;) {
        if (all.len == room && (all.octets = __real_realloc(all.octets, room = 2 * room + 4096)) == NULL)
            stop("out of memory");
        ssize_t count = read(descriptor, all.octets + all.len, room - all.len);
        /* The other end may be closed before it has read all: where settings are refused, or after `quit`. */
        if (count == 0 || (count < 0 && errno == ECONNRESET))
            return all;
        if (count < 0)
            stop("a read failed");
        all.len += (size_t)count;
    }
}

/* The replies to a whole session, in room for as many as there are. */
static int run(const char *settings, text lines, text *replies) {
    size_t room = replies->len, count = 12345;
    int status = siploc_embedded_run(settings, strlen(settings), lines.octets, lines.len, replies->octets, room, &count);
    if (status == SIPLOC_EMBEDDED_ROOM) {
        if (count <= room)
            stop("replies that fit are said not to");
        if ((replies->octets = __real_realloc(replies->octets, count)) == NULL)
            stop("out of memory");
        replies->len = count;
        return run(settings, lines, replies);
    }
    if (count > room)
        stop("more replies than fit");
    replies->len = count;
    return status;
}

static int run_once(const char *settings, text lines) {
    text replies = {NULL, 0};
    int status = run(settings, lines, &replies);
    fwrite(replies.octets, 1, replies.len, stdout);
    __real_free(replies.octets);
    if (held != 0)
        stop("memory is left");
    return status;
}

typedef struct served {
    int descriptor, status;
    const char *settings;
} served;

static void *serve_end(void *argument) {
    served *it = argument;
    it->status = siploc_embedded_serve(it->descriptor, it->settings, strlen(it->settings));
    if (held != 0)
        stop("memory is left");
    return NULL;
}

static void *write_lines(void *argument) {
    const text *lines = ((void **)argument)[0];
    int end = *(int *)((void **)argument)[1];
    for (size_t at = 0; at < lines->len;) {
        ssize_t count = send(end, lines->octets + at, lines->len - at, MSG_NOSIGNAL);
        if (count < 0)
            break;
        at += (size_t)count;
    }
    shutdown(end, SHUT_WR);
    return NULL;
}

static int serve(const char *settings, text lines) {
    int ends[2];
    if (socketpair(AF_UNIX, SOCK_STREAM, 0, ends) != 0)
        stop("no socket pair");
    served it = {ends[1], WRONG, settings};
    void *argument[] = {&lines, &ends[0]};
    pthread_t server, writer;
    if (pthread_create(&server, NULL, serve_end, &it) != 0 || pthread_create(&writer, NULL, write_lines, argument) != 0)
        stop("no thread");
    text replies = read_all(ends[0]);
    pthread_join(server, NULL);
    pthread_join(writer, NULL);
    close(ends[0]);
    fwrite(replies.octets, 1, replies.len, stdout);
    __real_free(replies.octets);
    return it.status;
}

/* With each allocation failing in turn there is a status, no memory is left, and the next call is as it was. */
static int refuse(const char *settings, text lines) {
    text wanted = {NULL, 0};
    int status = run(settings, lines, &wanted);
    char *room = __real_malloc(wanted.len + (1 << 16));
    if (room == NULL)
        stop("out of memory");
    for (long number = 1;; number++) {
        size_t count = 0;
        left = number;
        int refused = siploc_embedded_run(settings, strlen(settings), lines.octets, lines.len, room,
                                          wanted.len + (1 << 16), &count);
        long rest = left;
        left = 0;
        if (held != 0)
            stop("memory is left after a call in which an allocation failed");
        if (rest > 0)
            break;
        int is_as_wanted = refused == status && count == wanted.len && memcmp(room, wanted.octets, count) == 0;
        int is_told = refused == SIPLOC_EMBEDDED_MEMORY || refused == SIPLOC_EMBEDDED_WRITE ||
                      memmem(room, count, "err Memory\n", 11) != NULL;
        if (!is_as_wanted && !is_told)
            stop("an allocation failed, and nothing says so");
        text again = {room, wanted.len + (1 << 16)};
        if (run(settings, lines, &again) != status || again.len != wanted.len ||
            memcmp(room, wanted.octets, again.len) != 0)
            stop("the call after one in which an allocation failed is another");
    }
    fwrite(wanted.octets, 1, wanted.len, stdout);
    __real_free(wanted.octets);
    __real_free(room);
    return status;
}

static int nulls(void) {
    char room[16];
    size_t count = 1;
    if (siploc_embedded_run(NULL, 0, NULL, 0, NULL, 0, &count) != SIPLOC_EMBEDDED_OK || count != 0)
        stop("no lines");
    if (siploc_embedded_run(NULL, 0, "quit", 4, room, sizeof room, &count) != SIPLOC_EMBEDDED_OK || count != 8 ||
        memcmp(room, "ok quit\n", 8) != 0)
        stop("no settings");
    if (siploc_embedded_run("", 0, "quit", 4, NULL, 0, &count) != SIPLOC_EMBEDDED_ROOM || count != 8)
        stop("no room");
    memset(room, 7, sizeof room);
    if (siploc_embedded_run("", 0, "quit", 4, room, 7, &count) != SIPLOC_EMBEDDED_ROOM || count != 8 || room[0] != 7)
        stop("too little room");
    if (siploc_embedded_run(NULL, 1, "", 0, room, 1, &count) != SIPLOC_EMBEDDED_NULL || count != 0 ||
        siploc_embedded_run("", 0, NULL, 1, room, 1, &count) != SIPLOC_EMBEDDED_NULL ||
        siploc_embedded_run("", 0, "", 0, NULL, 1, &count) != SIPLOC_EMBEDDED_NULL ||
        siploc_embedded_run("", 0, "", 0, room, 1, NULL) != SIPLOC_EMBEDDED_NULL)
        stop("a null address");
    if (siploc_embedded_run("x", 1, "quit", 4, room, 16, &count) != SIPLOC_EMBEDDED_SETTINGS || count != 0 ||
        siploc_embedded_run("\xff", 1, "quit", 4, room, 16, &count) != SIPLOC_EMBEDDED_SETTINGS)
        stop("settings that are none");
    if (siploc_embedded_serve(-1, NULL, 0) != SIPLOC_EMBEDDED_READ ||
        siploc_embedded_serve(0, NULL, 1) != SIPLOC_EMBEDDED_NULL)
        stop("a descriptor that is none");
    int ends[2];
    if (socketpair(AF_UNIX, SOCK_STREAM, 0, ends) != 0 || write(ends[0], "page\n", 5) != 5)
        stop("no socket pair");
    close(ends[0]);
    if (siploc_embedded_serve(ends[1], NULL, 0) != SIPLOC_EMBEDDED_WRITE)
        stop("a socket that nobody reads");
    null_handles();
    if (held != 0)
        stop("memory is left");
    return 0;
}

typedef struct work {
    const char *settings;
    text lines, wanted;
    int status;
} work;

static void *work_on(void *argument) {
    const work *it = argument;
    for (int count = 0; count < 8; count++) {
        text replies = {NULL, 0};
        if (run(it->settings, it->lines, &replies) != it->status || replies.len != it->wanted.len ||
            memcmp(replies.octets, it->wanted.octets, replies.len) != 0)
            stop("a session in a thread is another");
        __real_free(replies.octets);
        if (held != 0)
            stop("memory is left");
    }
    return NULL;
}

static int threads(const char *settings, text lines) {
    work it = {settings, lines, {NULL, 0}, 0};
    pthread_t made[8];
    it.status = run(settings, lines, &it.wanted);
    for (int at = 0; at < 8; at++)
        if (pthread_create(&made[at], NULL, work_on, &it) != 0)
            stop("no thread");
    for (int at = 0; at < 8; at++)
        pthread_join(made[at], NULL);
    fwrite(it.wanted.octets, 1, it.wanted.len, stdout);
    __real_free(it.wanted.octets);
    return it.status;
}

int main(int count, char **words) {
    if (count == 2 && strcmp(words[1], "nulls") == 0)
        return nulls();
    if (count != 3)
        stop("wrong arguments");
    text lines = read_all(0);
    int (*play)(const char *, text) = strcmp(words[1], "run") == 0       ? run_once
                                      : strcmp(words[1], "serve") == 0   ? serve
                                      : strcmp(words[1], "refuse") == 0  ? refuse
                                      : strcmp(words[1], "threads") == 0 ? threads
                                      : strcmp(words[1], "put") == 0     ? put_in_pieces
                                      : strcmp(words[1], "retry") == 0   ? retry
                                      : strcmp(words[1], "handles") == 0 ? handles
                                                                         : NULL;
    if (play == NULL)
        stop("wrong arguments");
    int status = play(words[2], lines);
    __real_free(lines.octets);
    return status;
}
