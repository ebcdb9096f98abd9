/*
 * siploc in the process of its caller: sessions of siploc, the SIP next-hop locator (RFC 3263, section 4), with the
 * lines and the replies of docs/use/FORMATS.md, and the settings of `siploc run`.
 *
 *     siploc_embedded_session session;
 *     const char lines[] = "zone example.com. 1\nbob A 192.0.2.1\nfind sip:bob.example.com:5070\n";
 *     char replies[512];
 *     size_t taken, count;
 *     if (siploc_embedded_open(NULL, 0, &session) != SIPLOC_EMBEDDED_OK)
 *         return 1;
 *     if (siploc_embedded_put(&session, lines, sizeof lines - 1, &taken) == SIPLOC_EMBEDDED_OK)
 *         while ((count = siploc_embedded_take(&session, replies, sizeof replies)) > 0)
 *             fwrite(replies, 1, count, stdout);
 *     siploc_embedded_close(&session);
 *
 * Calls may run in any threads at the same time, but those of one session one after another. None may be made in a
 * signal handler, nor in the child of a fork of a process with threads. Memory is taken from `malloc`, `realloc` and
 * `free`, which have to come from one allocator, and align blocks as those of the C library do.
 *
 * An address may be null where the length beside it is 0. No two texts of a call overlap, nor does a count lie in one.
 */
#ifndef SIPLOC_EMBEDDED_H
#define SIPLOC_EMBEDDED_H

#include <stdbool.h>
#include <stddef.h>

#ifdef __cplusplus
extern "C" {
#endif

/* How a call ends. */
typedef enum siploc_embedded_status {
    SIPLOC_EMBEDDED_OK = 0,
    SIPLOC_EMBEDDED_READ = 1,     /* a read of the socket failed, or the descriptor is negative */
    SIPLOC_EMBEDDED_WRITE = 2,    /* a write to the socket failed */
    SIPLOC_EMBEDDED_TURNS = 3,    /* the session took 4,294,967,296 reads */
    SIPLOC_EMBEDDED_MEMORY = 4,   /* an allocation failed; the next call may succeed */
    SIPLOC_EMBEDDED_SETTINGS = 5, /* the settings are refused: G1 to G3, or they are not UTF-8 */
    SIPLOC_EMBEDDED_ROOM = 6,     /* the replies do not fit */
    SIPLOC_EMBEDDED_NULL = 7      /* an address is null that may not be: nothing was done */
} siploc_embedded_status;

/* A session that its caller puts octets into. It has a book of its own: zones, holds and a time that no other has. */
typedef struct siploc_embedded_session {
    void *at; /* null where it is closed; else the library's alone */
} siploc_embedded_session;

/*
 * Opens a session. With another status than OK it is closed: MEMORY, SETTINGS, or NULL.
 *
 * A session is the caller's to close. It is used by one thread at a time: where another goes on with it, a lock, or the
 * start or the end of a thread, orders their calls. A copy of the struct is the same session: after it is closed, no
 * copy may be used, or closed.
 */
siploc_embedded_status siploc_embedded_open(const void *settings, size_t settings_len,
                                            siploc_embedded_session *session);

/*
 * Puts octets into a session: lines, in any pieces. Each line that ends in them is carried out, and its reply is kept
 * until it is taken. A line without its end waits for more: at most 65,538 octets of it are kept, with which it is K2.
 * After `quit` lines have no reply. Settings and time are as of `siploc run`: holds end by `clock` lines alone, and a
 * `page` line drops the journal, which else is full after 1,048,576 events (B3).
 *
 * `*taken` is how many of the octets were taken: with OK all. With MEMORY these are the lines before the one for whose
 * reply there was no space: nothing of that was done, its reply did not come, and the rest can be put again. Mostly a
 * line for which an allocation fails is taken, and is refused by the reply `err Memory`. With NULL nothing was taken:
 * an address is null, or the session is closed.
 */
siploc_embedded_status siploc_embedded_put(siploc_embedded_session *session, const void *octets, size_t len,
                                           size_t *taken);

/*
 * Takes the next octets of the replies: so many as there are, and as there is room for. Returns how many; the rest
 * stays for the next call, which moves it: so take the replies before there are megabytes of them. It returns 0 where no
 * reply waits, and where an address is null or the session is closed.
 */
size_t siploc_embedded_take(siploc_embedded_session *session, void *replies, size_t room);

/* Whether a session has ended by `quit`, or is closed. Replies may still wait. */
bool siploc_embedded_has_ended(siploc_embedded_session *session);

/* Closes a session, and frees all that it has. One that is closed, or null, stays so. */
void siploc_embedded_close(siploc_embedded_session *session);

/*
 * Runs a whole session on octets, at a book of its own: its lines, and at their end the end of the input. The replies
 * are written where they fit. Their length is stored in `*count`, also where they do not (`SIPLOC_EMBEDDED_ROOM`, and
 * nothing is written). With another status than OK and ROOM the replies are those before the fault.
 */
siploc_embedded_status siploc_embedded_run(const void *settings, size_t settings_len, const void *lines,
                                           size_t lines_len, void *replies, size_t room, size_t *count);

/*
 * Serves a session on a stream socket, such as an end of a socketpair, at a book of its own, in the caller's thread,
 * until `quit` or the end of the input, and closes the socket: also where the settings are refused. The socket has to
 * wait: one with O_NONBLOCK ends it with READ or WRITE as soon as it would. So may a signal with a handler, unless that
 * has SA_RESTART: block such in that thread. To the other end it is as a connection to `siploc serve` is: `siploc_new`
 * of siploc.h takes that, for calls in place of lines.
 */
siploc_embedded_status siploc_embedded_serve(int descriptor, const void *settings, size_t settings_len);

#ifdef __cplusplus
}
#endif
#endif
