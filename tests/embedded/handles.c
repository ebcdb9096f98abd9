/* The parts of the driver that try handles: siploc_embedded_open, put, take, has_ended and close. */
#include "driver.h"

#include <pthread.h>
#include <stdbool.h>
#include <stdint.h>
#include <stdio.h>
#include <stdlib.h>
#include <string.h>

/* How long a session is at most that is cut in two anywhere, and put as a whole with each allocation failing. */
#define SHORT 600
#define THREADS 8
#define HANDLES 8

static void append(text *all, const char *octets, size_t len) {
    if (len == 0)
        return;
    if ((all->octets = __real_realloc(all->octets, all->len + len)) == NULL)
        stop("out of memory");
    memcpy(all->octets + all->len, octets, len);
    all->len += len;
}

static void forget(text *all) {
    __real_free(all->octets);
    *all = (text){NULL, 0};
}

static bool is_same(text one, text other) {
    return one.len == other.len && (one.len == 0 || memcmp(one.octets, other.octets, one.len) == 0);
}

static int open_session(const char *settings, siploc_embedded_session *session) {
    session->at = session;
    int status = siploc_embedded_open(settings, strlen(settings), session);
    if ((status == SIPLOC_EMBEDDED_OK) != (session->at != NULL))
        stop("a session is open that is refused, or the other way about");
    return status;
}

static void put(siploc_embedded_session *session, const char *octets, size_t len) {
    size_t taken = len + 1;
    if (siploc_embedded_put(session, octets, len, &taken) != SIPLOC_EMBEDDED_OK || taken != len)
        stop("not all octets were taken");
}

/* Takes all replies, in so much room at a time. */
static void take(siploc_embedded_session *session, size_t room, text *replies) {
    char octets[4096];
    for (;;) {
        size_t count = siploc_embedded_take(session, octets, room);
        if (count > room)
            stop("more replies than there is room for");
        append(replies, octets, count);
        if (count < room && siploc_embedded_take(session, octets, room) == 0)
            return;
        if (count < room)
            stop("replies are left where there is room");
    }
}

/* The replies to a session that is cut into pieces of this length, the first of another. */
static text in_pieces(const char *settings, text lines, size_t first, size_t piece, size_t room) {
    siploc_embedded_session session;
    text replies = {NULL, 0};
    if (open_session(settings, &session) != SIPLOC_EMBEDDED_OK)
        stop("a session is not opened again");
    for (size_t at = 0, len = first; at < lines.len; at += len, len = piece) {
        len = len < lines.len - at ? len : lines.len - at;
        put(&session, lines.octets + at, len);
        take(&session, room, &replies);
    }
    siploc_embedded_close(&session);
    if (session.at != NULL || held != 0)
        stop("a session that is closed is open, or memory is left");
    return replies;
}

/* The status of opening a session, and its replies where it is put as a whole. */
static int put_whole(const char *settings, text lines, text *replies) {
    siploc_embedded_session session;
    int status = open_session(settings, &session);
    if (status != SIPLOC_EMBEDDED_OK)
        return status;
    if (siploc_embedded_has_ended(&session))
        stop("a session has ended that begins");
    put(&session, lines.octets, lines.len);
    take(&session, 4096, replies);
    bool has_quit = replies->len >= 8 && memcmp(replies->octets + replies->len - 8, "ok quit\n", 8) == 0;
    if (siploc_embedded_has_ended(&session) != has_quit)
        stop("a session has ended without `quit`, or not with it");
    siploc_embedded_close(&session);
    if (held != 0)
        stop("memory is left");
    return status;
}

int put_in_pieces(const char *settings, text lines) {
    text wanted = {NULL, 0};
    int status = put_whole(settings, lines, &wanted);
    size_t last = status != SIPLOC_EMBEDDED_OK ? 0 : lines.len <= SHORT ? lines.len : 1;
    for (size_t first = 0; first < last; first++) {
        text cut = first == 0 ? in_pieces(settings, lines, 1, 1, 1)
                              : in_pieces(settings, lines, first, lines.len, 4096);
        if (!is_same(cut, wanted))
            stop("a session that is cut into pieces has other replies");
        forget(&cut);
    }
    fwrite(wanted.octets, 1, wanted.len, stdout);
    forget(&wanted);
    return status;
}

/* How many lines a command has by its first one: of a zone as many as it says, and itself. */
static size_t count_lines(const char *line, size_t len) {
    char text[1200], apex[1024], more;
    unsigned long count;
    if (len >= sizeof text)
        return 1;
    memcpy(text, line, len);
    text[len] = 0;
    return sscanf(text, " zone %1023s %lu %c", apex, &count, &more) == 2 && count <= 1048576 ? count + 1 : 1;
}

/* The length of the next command. */
static size_t command_len(text lines, size_t at) {
    size_t len = 0, count = 1;
    for (size_t number = 0; number < count && at + len < lines.len; number++) {
        const char *line = lines.octets + at + len, *end = memchr(line, '\n', lines.len - at - len);
        size_t line_len = end == NULL ? lines.len - at - len : (size_t)(end - line) + 1;
        if (number == 0)
            count = count_lines(line, line_len);
        len += line_len;
    }
    return len;
}

static bool is(text reply, const char *wanted) {
    return reply.len == strlen(wanted) && memcmp(reply.octets, wanted, reply.len) == 0;
}

/* Whether a reply has the steps that are wanted, and then `err Memory`. Their holds, which that refused, are put. */
static bool has_steps(siploc_embedded_session *session, text reply, text wanted) {
    const char memory[] = "err Memory\n";
    size_t steps = reply.len - (sizeof memory - 1);
    if (reply.len < sizeof memory || memcmp(reply.octets + steps, memory, sizeof memory - 1) != 0 ||
        steps > wanted.len || memcmp(reply.octets, wanted.octets, steps) != 0)
        return false;
    for (size_t at = 0, len; at < steps; at += len) {
        len = (size_t)((char *)memchr(reply.octets + at, '\n', steps - at) - reply.octets) + 1 - at;
        if (memcmp(reply.octets + at, "hold ", 5) != 0)
            continue;
        text held_again = {NULL, 0};
        put(session, reply.octets + at, len);
        take(session, 64, &held_again);
        if (!is(held_again, "ok hold\n"))
            return false;
        forget(&held_again);
    }
    return true;
}

/* A command, and how often it was tried: the allocation that fails next, and whether a later one may still. */
typedef struct trial {
    text command, wanted;
    long number;
    bool goes_on;
} trial;

/* Puts a command, with its allocation of this number failing. Returns whether it is done, with the wanted reply. */
static bool is_done(siploc_embedded_session *session, trial *it) {
    text reply = {NULL, 0};
    size_t taken = 12345;
    left = it->goes_on ? it->number++ : 0;
    int status = siploc_embedded_put(session, it->command.octets, it->command.len, &taken);
    it->goes_on = it->goes_on && left == 0;
    left = 0;
    take(session, 1, &reply);
    if (status == SIPLOC_EMBEDDED_MEMORY) {
        if (!it->goes_on || taken >= it->command.len || reply.len > 0)
            stop("memory ran out, and yet there is a reply, or all was taken");
        if (taken == 0)
            return false;
        put(session, it->command.octets + taken, it->command.len - taken);
        take(session, 1, &reply);
    } else if (status != SIPLOC_EMBEDDED_OK || taken != it->command.len) {
        stop("not all octets were taken");
    }
    /* A `find` whose reply there was no space for has been an event of the page. */
    bool is_page = it->wanted.len > 8 && memcmp(it->wanted.octets, "ok page ", 8) == 0 && reply.len > 8 &&
                   memcmp(reply.octets, "ok page ", 8) == 0;
    bool is_refused = it->goes_on && is(reply, "err Memory\n");
    if (!is_refused && !is_page && !is_same(reply, it->wanted) &&
        !(it->goes_on && has_steps(session, reply, it->wanted)))
        stop("a command that was put again has another reply");
    forget(&reply);
    return !is_refused;
}

/* Plays a session by its commands, each as often as its next allocation fails. Returns whether some may still fail. */
static bool retries(const char *settings, trial *trials, size_t count) {
    siploc_embedded_session session;
    bool goes_on = false;
    if (open_session(settings, &session) != SIPLOC_EMBEDDED_OK)
        stop("a session is not opened again");
    for (size_t at = 0; at < count; at++) {
        while (!is_done(&session, &trials[at]))
            continue;
        goes_on = goes_on || trials[at].goes_on;
    }
    siploc_embedded_close(&session);
    if (held != 0)
        stop("memory is left");
    return goes_on;
}

/* Opens a session with each allocation failing in turn. */
static void retry_open(const char *settings, int status) {
    siploc_embedded_session session;
    for (long number = 1;; number++) {
        left = number;
        int refused = open_session(settings, &session);
        bool has_come = left == 0;
        left = 0;
        siploc_embedded_close(&session);
        if (held != 0)
            stop("memory is left");
        if (refused != (has_come ? SIPLOC_EMBEDDED_MEMORY : status) && refused != status)
            stop("opening a session has another status");
        if (!has_come)
            return;
    }
}

/* Puts a session as a whole with an allocation failing, and the rest again where memory runs out. Whether it failed. */
static bool retry_whole(const char *settings, text lines, text wanted, long number) {
    siploc_embedded_session session;
    text replies = {NULL, 0};
    size_t taken = 0;
    if (open_session(settings, &session) != SIPLOC_EMBEDDED_OK)
        stop("a session is not opened again");
    left = number;
    int status = siploc_embedded_put(&session, lines.octets, lines.len, &taken);
    bool has_come = left == 0;
    left = 0;
    if (status == SIPLOC_EMBEDDED_MEMORY) {
        if (!has_come || taken >= lines.len || (taken > 0 && lines.octets[taken - 1] != '\n'))
            stop("memory ran out, and other octets were taken than those of the lines before");
        put(&session, lines.octets + taken, lines.len - taken);
    } else if (status != SIPLOC_EMBEDDED_OK || taken != lines.len) {
        stop("not all octets were taken");
    }
    take(&session, 4096, &replies);
    siploc_embedded_close(&session);
    bool is_refused = status == SIPLOC_EMBEDDED_OK && has_come && replies.len > 0 &&
                      memmem(replies.octets, replies.len, "err Memory\n", 11) != NULL;
    if (!is_same(replies, wanted) && !is_refused)
        stop("a session whose rest was put again has other replies");
    forget(&replies);
    if (held != 0)
        stop("memory is left");
    return has_come;
}

int retry(const char *settings, text lines) {
    text all = {NULL, 0};
    siploc_embedded_session session;
    trial *trials = __real_malloc((lines.len + 1) * sizeof *trials);
    size_t count = 0;
    int status = open_session(settings, &session);
    if (trials == NULL)
        stop("out of memory");
    for (size_t at = 0; status == SIPLOC_EMBEDDED_OK && at < lines.len; at += trials[count++].command.len) {
        trials[count] = (trial){{lines.octets + at, command_len(lines, at)}, {NULL, 0}, 1, true};
        put(&session, lines.octets + at, trials[count].command.len);
        take(&session, 4096, &trials[count].wanted);
        append(&all, trials[count].wanted.octets, trials[count].wanted.len);
    }
    siploc_embedded_close(&session);
    retry_open(settings, status);
    while (status == SIPLOC_EMBEDDED_OK && retries(settings, trials, count))
        continue;
    for (long number = 1; status == SIPLOC_EMBEDDED_OK && lines.len <= SHORT; number++)
        if (!retry_whole(settings, lines, all, number))
            break;
    fwrite(all.octets, 1, all.len, stdout);
    for (size_t at = 0; at < count; at++)
        forget(&trials[at].wanted);
    forget(&all);
    __real_free(trials);
    return status;
}

typedef struct work {
    const char *settings;
    text lines, wanted;
} work;

/* Sessions side by side, each of which has its turn after every octet. */
static void *play_side_by_side(void *argument) {
    const work *it = argument;
    siploc_embedded_session sessions[HANDLES];
    text replies[HANDLES] = {{NULL, 0}};
    for (int number = 0; number < HANDLES; number++)
        if (open_session(it->settings, &sessions[number]) != SIPLOC_EMBEDDED_OK)
            stop("a session is not opened again");
    for (size_t at = 0; at < it->lines.len; at++)
        for (int number = 0; number < HANDLES; number++) {
            put(&sessions[number], it->lines.octets + at, 1);
            take(&sessions[number], 64, &replies[number]);
        }
    for (int number = 0; number < HANDLES; number++) {
        siploc_embedded_close(&sessions[number]);
        if (!is_same(replies[number], it->wanted))
            stop("a session beside others has other replies");
        forget(&replies[number]);
    }
    if (held != 0)
        stop("memory is left");
    return NULL;
}

/* A part of a session's lines, in a thread of its own. */
typedef struct part {
    siploc_embedded_session *session;
    text lines, *replies;
} part;

static void *play_part(void *argument) {
    const part *it = argument;
    put(it->session, it->lines.octets, it->lines.len);
    take(it->session, 64, it->replies);
    return NULL;
}

static void in_thread(void *(*play)(void *), void *argument) {
    pthread_t thread;
    if (pthread_create(&thread, NULL, play, argument) != 0)
        stop("no thread");
    pthread_join(thread, NULL);
}

int handles(const char *settings, text lines) {
    work it = {settings, lines, {NULL, 0}};
    pthread_t made[THREADS];
    siploc_embedded_session session;
    text replies = {NULL, 0};
    int status = put_whole(settings, lines, &it.wanted);
    if (status != SIPLOC_EMBEDDED_OK)
        return status;
    for (int at = 0; at < THREADS; at++)
        if (pthread_create(&made[at], NULL, play_side_by_side, &it) != 0)
            stop("no thread");
    for (int at = 0; at < THREADS; at++)
        pthread_join(made[at], NULL);
    if (open_session(settings, &session) != SIPLOC_EMBEDDED_OK)
        stop("a session is not opened again");
    in_thread(play_part, &(part){&session, {lines.octets, lines.len / 2}, &replies});
    in_thread(play_part, &(part){&session, {lines.octets + lines.len / 2, lines.len - lines.len / 2}, &replies});
    siploc_embedded_close(&session);
    if (!is_same(replies, it.wanted))
        stop("a session that goes from thread to thread has other replies");
    fwrite(replies.octets, 1, replies.len, stdout);
    forget(&replies);
    forget(&it.wanted);
    return status;
}

void null_handles(void) {
    char room[16];
    size_t taken = 1;
    siploc_embedded_session session = {NULL};
    if (siploc_embedded_open(NULL, 1, &session) != SIPLOC_EMBEDDED_NULL || session.at != NULL ||
        siploc_embedded_open("", 0, NULL) != SIPLOC_EMBEDDED_NULL)
        stop("a null address to open");
    if (siploc_embedded_open("x", 1, &session) != SIPLOC_EMBEDDED_SETTINGS || session.at != NULL ||
        siploc_embedded_open("\xff", 1, &session) != SIPLOC_EMBEDDED_SETTINGS || session.at != NULL)
        stop("settings that are none");
    if (siploc_embedded_put(&session, "quit\n", 5, &taken) != SIPLOC_EMBEDDED_NULL || taken != 0 ||
        siploc_embedded_take(&session, room, sizeof room) != 0 || !siploc_embedded_has_ended(&session))
        stop("a session that is closed");
    siploc_embedded_close(&session);
    siploc_embedded_close(NULL);
    if (siploc_embedded_open(NULL, 0, &session) != SIPLOC_EMBEDDED_OK)
        stop("no settings");
    if (siploc_embedded_put(NULL, "", 0, &taken) != SIPLOC_EMBEDDED_NULL || siploc_embedded_take(NULL, room, 1) != 0 ||
        !siploc_embedded_has_ended(NULL))
        stop("a null session");
    if (siploc_embedded_put(&session, NULL, 1, &taken) != SIPLOC_EMBEDDED_NULL || taken != 0 ||
        siploc_embedded_put(&session, "", 0, NULL) != SIPLOC_EMBEDDED_NULL ||
        siploc_embedded_take(&session, NULL, 1) != 0)
        stop("a null address to put or take");
    if (siploc_embedded_put(&session, NULL, 0, &taken) != SIPLOC_EMBEDDED_OK || taken != 0 ||
        siploc_embedded_put(&session, "quit", 4, &taken) != SIPLOC_EMBEDDED_OK || taken != 4 ||
        siploc_embedded_take(&session, NULL, 0) != 0 || siploc_embedded_take(&session, room, 0) != 0 ||
        siploc_embedded_take(&session, room, sizeof room) != 0 || siploc_embedded_has_ended(&session))
        stop("half a line, and lengths of 0");
    put(&session, "\npage\n", 6);
    memset(room, 7, sizeof room);
    if (!siploc_embedded_has_ended(&session) || siploc_embedded_take(&session, room, 3) != 3 ||
        memcmp(room, "ok \7", 4) != 0 || siploc_embedded_take(&session, room, sizeof room) != 5 ||
        memcmp(room, "quit\n\7", 6) != 0 || siploc_embedded_take(&session, room, sizeof room) != 0)
        stop("a session that has ended");
    siploc_embedded_close(&session);
    siploc_embedded_close(&session);
    if (session.at != NULL)
        stop("a session that is closed twice");
}
