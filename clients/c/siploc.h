/*
 * A client of siploc, the SIP next-hop locator (RFC 3263, section 4).
 *
 *     siploc *session;
 *     const siploc_reply *reply;
 *     if (siploc_connect("127.0.0.1:5099", 1000, &session) == SIPLOC_OK) {
 *         if (siploc_find(session, "sip:bob@example.com", NULL, &reply) == SIPLOC_OK)
 *             for (size_t i = 0; i < reply->target_count; i++)
 *                 puts(reply->targets[i].address);
 *         siploc_close(session);
 *     }
 *
 * A session is one connection, and is used by one thread at a time. The child of a fork can't use it, and connects
 * anew; siploc_close frees it there, and ends nothing. Each call sends one command; siploc_batch sends many. All texts
 * end with NUL. A reply, and what it points to, is the session's, until the next call: so copy the targets to hold one
 * while others are still to be tried, as example.c does.
 *
 * Two files, C11 and POSIX.1-2008, no other dependency.
 */
#ifndef SIPLOC_H
#define SIPLOC_H

#include <stdbool.h>
#include <stddef.h>
#include <stdint.h>

#ifdef __cplusplus
extern "C" {
#endif

typedef struct siploc siploc;

/* How a call ends. */
typedef enum siploc_status {
    SIPLOC_OK,
    SIPLOC_REFUSED,       /* the reply is `err CODE`: see its code; the session goes on, but after Busy */
    SIPLOC_INVALID,       /* the command would break the protocol: it was not sent, and the session goes on; of
                             siploc_connect, the address is none of those below */
    SIPLOC_NO_MEMORY,     /* an allocation failed before anything was sent; the session goes on */
    SIPLOC_NOT_CONNECTED, /* nobody listens at the address (see errno; of localhost, why 127.0.0.1 failed), or the
                             session has ended before, or is another process's */
    /* With these the session has ended; siploc_broken says what may have been done. */
    SIPLOC_LOST,          /* the server has closed the connection between two replies, or the connection failed;
                             or there was no memory for a reply (the cause is ENOMEM) */
    SIPLOC_TIMED_OUT,     /* no complete reply, and no octet taken by the server, in the time that is set */
    SIPLOC_BAD_REPLY,     /* the reply is none that the protocol has */
    SIPLOC_HALF_REPLY     /* the connection ended within a reply */
} siploc_status;

/* Where to send a request. */
typedef struct siploc_target {
    char transport[5]; /* udp, tcp, tls or sctp */
    char address[40];  /* an IPv4 address, or an IPv6 address of eight groups */
    uint16_t port;
} siploc_target;

/* A record set that the targets of a URI depend on. */
typedef struct siploc_dependency {
    char name[1024];
    char kind[7];     /* A, AAAA, CNAME, SRV, NAPTR or EXISTS */
    uint64_t records; /* of EXISTS it is 1 where the name exists, else 0 */
} siploc_dependency;

typedef enum siploc_step_kind {
    SIPLOC_SEND,     /* send the request of `attempt` to `target`, with `branch`; attempts count from 1 */
    SIPLOC_RESEND,   /* send the request of `attempt` again */
    SIPLOC_ACK,      /* send an ACK for the response to `attempt` */
    SIPLOC_HOLD,     /* nothing to do: `target` is held from now on for so many `milliseconds` */
    SIPLOC_DELIVER,  /* pass a response with the status `code` to the user */
    SIPLOC_EXHAUSTED /* all targets have failed */
} siploc_step_kind;

/* A step of a call: what is to be done. Fields that its kind does not name are zero. */
typedef struct siploc_step {
    siploc_step_kind kind;
    uint32_t attempt;
    uint16_t code;
    uint64_t milliseconds;
    siploc_target target;
    char branch[36];
} siploc_step;

/* A complete reply. What it does not have is zero. */
typedef struct siploc_reply {
    const char *const *lines; /* its lines, without their ends */
    size_t line_count;
    const siploc_target *targets; /* of `find`, in the order in which they are tried */
    size_t target_count;
    const siploc_dependency *dependencies; /* of `deps`, in the order in which they are read */
    size_t dependency_count;
    const siploc_step *steps; /* of `call`, `got`, `broke` and `clock`, of a refused one too */
    size_t step_count;
    uint64_t counts[4];  /* the numbers after `ok`: of `zone` records, outside, repeated, changed; of an edit changed;
                            of `page` the number of its first event, and how many it has */
    const char *reason;  /* of `none`: NoAddress, NotAvailable, NoTransport or AllHeld */
    const char *code;    /* of `err`: such as S3 */
    const char *meaning; /* and what it means */
    uint64_t fault_line; /* of a zone that is refused: the line of its text, counted from 1 */
    const char *name;    /* of L1: the record set that was changed */
    const char *kind;
} siploc_reply;

/* Of a session that has ended, what is known of the commands of the last call. */
typedef struct siploc_doubt {
    size_t replied;     /* so many have replies */
    size_t sent;        /* so many were sent, the last one maybe in part: those from `replied` on may have been done */
    bool may_be_done;   /* whether sent is more than replied */
    int cause;          /* errno, or 0 */
    const char *detail; /* the line that is no reply, or what else there is to say */
} siploc_doubt;

/* The random words by which servers of equal priority are ordered: a seed, or at most 32 words. */
typedef struct siploc_draws {
    bool has_seed;
    uint64_t seed;
    const uint32_t *words;
    size_t word_count;
} siploc_draws;

/*
 * A session with the server at an address: `127.0.0.1:5099`, `[::1]:5099`, `localhost:5099`, which is one of these,
 * or `unix:/run/siplocd.sock`. The timeout is that of the connection, and later how many milliseconds a call waits
 * without progress: without a complete reply, and without the server taking further octets. With 0 or less it does not
 * wait, and INT_MAX are 24 days.
 */
siploc_status siploc_connect(const char *address, int timeout, siploc **session);

/* The same over a stream socket that is connected, such as an end of a socketpair. With SIPLOC_OK it is the session's,
 * does not block, and is reset at its end where it is of TCP; else it is the caller's, as before. */
siploc_status siploc_new(int stream, int timeout, siploc **session);

/* Ends the session by `quit`, closes the connection and frees the memory. NULL is allowed. */
void siploc_close(siploc *session);

void siploc_set_timeout(siploc *session, int timeout);

/* Whether the session has not ended, as far as is known. */
bool siploc_is_open(const siploc *session);

/* What is known after SIPLOC_LOST, SIPLOC_TIMED_OUT, SIPLOC_BAD_REPLY and SIPLOC_HALF_REPLY. */
siploc_doubt siploc_broken(const siploc *session);

/* What a status, and a code, means. */
const char *siploc_status_text(siploc_status status);
const char *siploc_meaning(const char *code);

/*
 * Of each call `reply` may be NULL; after SIPLOC_OK and SIPLOC_REFUSED it is set to the reply. `draws` is NULL for
 * words of 0.
 */
siploc_status siploc_find(siploc *session, const char *uri, const siploc_draws *draws, const siploc_reply **reply);
siploc_status siploc_deps(siploc *session, const char *uri, const siploc_reply **reply);

/* `text` is a master file, whose lines end with LF or CR LF. */
siploc_status siploc_load(siploc *session, const char *apex, const char *text, const siploc_reply **reply);
siploc_status siploc_drop(siploc *session, const char *apex, const siploc_reply **reply);
/* A record is such as `a.example.com. A 192.0.2.1`. */
siploc_status siploc_add(siploc *session, const char *record, const siploc_reply **reply);
siploc_status siploc_remove(siploc *session, const char *record, const siploc_reply **reply);
siploc_status siploc_repair(siploc *session, const siploc_reply **reply);
/* Returns the journal as a page, which the server keeps, and begins an empty one: no longer B3. */
siploc_status siploc_page(siploc *session, const siploc_reply **reply);

siploc_status siploc_hold(siploc *session, const siploc_target *target, uint64_t milliseconds,
                          const siploc_reply **reply);
siploc_status siploc_release(siploc *session, const siploc_target *target, const siploc_reply **reply);
/* Sets the time, which begins at 0. */
siploc_status siploc_clock(siploc *session, uint64_t milliseconds, const siploc_reply **reply);

/* `kind` is `invite` or `other`; no other request may have the number `base`. */
siploc_status siploc_call(siploc *session, const char *kind, uint64_t base, const char *uri,
                          const siploc_draws *draws, const siploc_reply **reply);
/* `retry` is NULL, or the seconds of the response's Retry-After field. */
siploc_status siploc_got(siploc *session, uint32_t attempt, uint16_t code, const uint32_t *retry,
                         const siploc_reply **reply);
siploc_status siploc_broke(siploc *session, const siploc_reply **reply);

/*
 * Commands for siploc_batch, which the caller frees by `free`: a line of these fields, such as `hold`, `udp`,
 * `192.0.2.1`, `5060` and `30000`; and a zone with its lines, of a text as siploc_load takes it. SIPLOC_INVALID: a
 * field is empty, or has a blank or a line end, or there are too many lines. With another status than OK it is NULL.
 */
siploc_status siploc_line(const char *const *fields, size_t count, char **command);
siploc_status siploc_zone(const char *apex, const char *text, char **command);

/* What siploc_batch calls with the reply to the command at a place, which lasts until it returns. It must not call into
 * the session. */
typedef void siploc_each(void *context, size_t place, const siploc_reply *reply);

/*
 * Sends many commands at once, and reads their replies as they come, while commands are sent; a refusal is a reply
 * as any other. A command is a line of the protocol without its end, or a `zone` line and its lines, joined by LF.
 * All are checked before the first is sent. SIPLOC_REFUSED: the server has refused the session, with `err CODE` as the
 * first reply; it has ended, and no command was carried out.
 */
siploc_status siploc_batch(siploc *session, const char *const *commands, size_t count, siploc_each *each,
                           void *context);

/* After SIPLOC_INVALID of siploc_batch: the place of the first command that is invalid. */
size_t siploc_invalid_place(const siploc *session);

#ifdef __cplusplus
}
#endif

#endif
