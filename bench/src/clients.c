/* The part of bench/rows/clients in C: clients ADDRESS SINGLE BATCHED prints the seconds of so many finds one at a time,
 * the client's processor microseconds for each, and the same of finds in batches of 1,000. */
#define _POSIX_C_SOURCE 200809L

#include <stdio.h>
#include <stdlib.h>
#include <time.h>

#include "siploc.h"

enum { QUESTIONS = 5000, BATCH = 1000 };

static char questions[QUESTIONS][64], lines[QUESTIONS][80];
static const char *commands[QUESTIONS];

static double seconds_of(clockid_t clock)
{
    struct timespec time;
    clock_gettime(clock, &time);
    return (double)time.tv_sec + (double)time.tv_nsec / 1e9;
}

static void fail(const char *cause)
{
    fprintf(stderr, "bench/src/clients.c: %s\n", cause);
    exit(1);
}

static void count_targets(void *context, size_t place, const siploc_reply *reply)
{
    (void)place;
    *(size_t *)context += reply->target_count;
}

int main(int count, char **words)
{
    siploc *session;
    const siploc_reply *reply;
    size_t targets = 0, single, batched;
    siploc_status status = SIPLOC_NOT_CONNECTED;
    if (count != 4)
        fail("ADDRESS SINGLE BATCHED");
    single = strtoul(words[2], NULL, 10);
    batched = strtoul(words[3], NULL, 10);
    for (int tries = 0; tries < 400 && status == SIPLOC_NOT_CONNECTED; tries++) {
        struct timespec pause = {0, 25000000};
        status = siploc_connect(words[1], 30000, &session);
        if (status == SIPLOC_NOT_CONNECTED)
            nanosleep(&pause, NULL);
    }
    if (status != SIPLOC_OK || siploc_load(session, "example.com.", "server1 A 192.0.2.1", NULL) != SIPLOC_OK)
        fail(siploc_status_text(status));
    for (int place = 0; place < QUESTIONS; place++) {
        snprintf(questions[place], sizeof questions[place], "sip:server1.example.com:%d", 1 + place * 7919 % QUESTIONS);
        snprintf(lines[place], sizeof lines[place], "find %s", questions[place]);
        commands[place] = lines[place];
    }
    if (siploc_batch(session, commands, QUESTIONS, NULL, NULL) != SIPLOC_OK)
        fail("a batch");
    double begin = seconds_of(CLOCK_MONOTONIC), used = seconds_of(CLOCK_PROCESS_CPUTIME_ID);
    for (size_t place = 0; place < single; place++)
        if (siploc_find(session, questions[place % QUESTIONS], NULL, &reply) != SIPLOC_OK || reply->target_count != 1)
            fail("no target");
    printf("%f ", seconds_of(CLOCK_MONOTONIC) - begin);
    printf("%f ", (seconds_of(CLOCK_PROCESS_CPUTIME_ID) - used) / (double)single * 1e6);
    begin = seconds_of(CLOCK_MONOTONIC);
    used = seconds_of(CLOCK_PROCESS_CPUTIME_ID);
    for (size_t start = 0; start < batched; start += BATCH)
        if (siploc_batch(session, commands + start % QUESTIONS, BATCH, count_targets, &targets) != SIPLOC_OK)
            fail("a batch");
    if (targets != batched)
        fail("no target");
    printf("%f ", seconds_of(CLOCK_MONOTONIC) - begin);
    printf("%f\n", (seconds_of(CLOCK_PROCESS_CPUTIME_ID) - used) / (double)batched * 1e6);
    siploc_close(session);
    return 0;
}
