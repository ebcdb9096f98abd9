/* Asks for targets, and holds each as if it had failed: example ADDRESS, such as 127.0.0.1:5099.
 * cc -o example example.c siploc.c */
#include <errno.h>
#include <stdio.h>
#include <string.h>

#include "siploc.h"

enum { MAX_TRIES = 8 };

/* Tries the targets of a URI, one after another. */
static siploc_status try_each(siploc *session, const char *uri)
{
    siploc_target targets[MAX_TRIES];
    const siploc_reply *reply;
    siploc_status status = siploc_find(session, uri, NULL, &reply);
    if (status != SIPLOC_OK)
        return status;
    size_t count = reply->target_count < MAX_TRIES ? reply->target_count : MAX_TRIES;
    if (count > 0) /* (a copy, since the reply to the next call takes the place of this one) */
        memcpy(targets, reply->targets, count * sizeof *targets);
    for (size_t i = 0; i < count && status == SIPLOC_OK; i++) {
        printf("try %s %s %u\n", targets[i].transport, targets[i].address, targets[i].port);
        status = siploc_hold(session, &targets[i], 5000, NULL);
    }
    if (status == SIPLOC_OK)
        status = siploc_find(session, uri, NULL, &reply);
    if (status == SIPLOC_OK)
        printf("then %s\n", reply->reason != NULL ? reply->reason : "others");
    return status;
}

int main(int count, char **words)
{
    siploc *session;
    siploc_status status = siploc_connect(count == 2 ? words[1] : "", 1000, &session);
    if (status != SIPLOC_OK) {
        const char *cause = status == SIPLOC_NOT_CONNECTED ? strerror(errno) : "such as 127.0.0.1:5099";
        fprintf(stderr, "%s: %s\n", siploc_status_text(status), cause);
        return (int)status;
    }
    status = siploc_load(session, "example.com.", "server1 A 192.0.2.1\nserver1 A 192.0.2.2", NULL);
    if (status == SIPLOC_OK)
        status = try_each(session, "sip:server1.example.com:5070");
    if (status != SIPLOC_OK)
        fprintf(stderr, "%s\n", siploc_status_text(status));
    siploc_close(session);
    return (int)status;
}
