/* The part of bench/rows/c in C: handle SOCKET COUNT prints the nanoseconds of a kept find through a handle, through
 * siplocd at SOCKET, and of what Sofia's resolver looks up in its cache for the same, where SOFIA is defined. */
#define _POSIX_C_SOURCE 200809L

#include <siploc_embedded.h>
#include <stdio.h>
#include <stdlib.h>
#include <string.h>
#include <sys/socket.h>
#include <sys/un.h>
#include <time.h>
#include <unistd.h>

enum { QUESTIONS = 5000 };

static const char zone[] = "zone example.com. 5\n@ NAPTR 10 10 \"s\" \"SIP+D2U\" \"\" _sip._udp\n"
                           "_sip._udp SRV 10 0 5060 server1\n_sip._udp SRV 20 0 5060 server2\n"
                           "server1 A 192.0.2.1\nserver2 A 192.0.2.2\n";
static const char service[] = "find sip:bob@example.com\n";
static char addresses[QUESTIONS][64];

static void fail(const char *cause)
{
    fprintf(stderr, "bench/src/handle.c: %s\n", cause);
    exit(1);
}

static double now(void)
{
    struct timespec time;
    clock_gettime(CLOCK_MONOTONIC, &time);
    return (double)time.tv_sec * 1e9 + (double)time.tv_nsec;
}

/* Prints the nanoseconds of each of so many calls. */
static void report(const char *what, double begin, size_t count)
{
    printf("%s: %.0f ns\n", what, (now() - begin) / (double)count);
}

/* A session: through a handle, or at a socket. */
typedef struct session {
    siploc_embedded_session handle;
    int end;
} session;

/* Whether a reply is complete that ends in these octets, and is no refusal. */
static int is_reply(const char *replies, size_t len, const char *last)
{
    size_t size = strlen(last);
    return len >= size && memcmp(replies + len - size, last, size) == 0;
}

static void put_handle(session *it, const char *line, const char *last)
{
    char replies[256];
    size_t taken;
    if (siploc_embedded_put(&it->handle, line, strlen(line), &taken) != SIPLOC_EMBEDDED_OK ||
        !is_reply(replies, siploc_embedded_take(&it->handle, replies, sizeof replies), last))
        fail("a handle has another reply");
}

static void put_socket(session *it, const char *line, const char *last)
{
    char replies[256];
    size_t len = 0;
    if (write(it->end, line, strlen(line)) != (ssize_t)strlen(line))
        fail("a write");
    while (!is_reply(replies, len, last)) {
        ssize_t count = read(it->end, replies + len, sizeof replies - len);
        if (count <= 0)
            fail("a socket has another reply");
        len += (size_t)count;
    }
}

typedef void put_line(session *it, const char *line, const char *last);

/* Finds whose answers are kept, one at a time. */
static void measure(const char *name, put_line *put, session *it, size_t count)
{
    char what[64];
    put(it, zone, "ok zone 5 0 0 4\n");
    put(it, service, "ok find 2\n");
    for (int place = 0; place < QUESTIONS; place++)
        put(it, addresses[place], "ok find 1\n");
    double begin = now();
    for (size_t place = 0; place < count; place++)
        put(it, addresses[place % QUESTIONS], "ok find 1\n");
    snprintf(what, sizeof what, "%s, one set", name);
    report(what, begin, count);
    begin = now();
    for (size_t place = 0; place < count; place++)
        put(it, service, "ok find 2\n");
    snprintf(what, sizeof what, "%s, four sets", name);
    report(what, begin, count);
}

/* What of it is the calls: nothing is put, and no reply waits; and a line without a reply. */
static void measure_calls(session *it, size_t count)
{
    char replies[256];
    size_t taken;
    double begin = now();
    for (size_t place = 0; place < count; place++)
        if (siploc_embedded_put(&it->handle, NULL, 0, &taken) != SIPLOC_EMBEDDED_OK ||
            siploc_embedded_take(&it->handle, replies, sizeof replies) != 0)
            fail("nothing has a reply");
    report("handle, the calls alone", begin, count);
    begin = now();
    for (size_t place = 0; place < count; place++)
        if (siploc_embedded_put(&it->handle, "# sip:server1.example.com:5060\n", 31, &taken) != SIPLOC_EMBEDDED_OK ||
            siploc_embedded_take(&it->handle, replies, sizeof replies) != 0)
            fail("a comment has a reply");
    report("handle, a comment", begin, count);
}

static int connect_to(const char *path)
{
    struct sockaddr_un place = {.sun_family = AF_UNIX};
    int end = socket(AF_UNIX, SOCK_STREAM, 0);
    if (strlen(path) >= sizeof place.sun_path)
        fail("the socket's path is too long");
    strcpy(place.sun_path, path);
    for (int tries = 0; connect(end, (struct sockaddr *)&place, sizeof place) != 0; tries++) {
        struct timespec pause = {0, 25000000};
        if (tries == 400)
            fail("nobody listens at the socket");
        nanosleep(&pause, NULL);
    }
    return end;
}

#ifdef SOFIA
#include <netinet/in.h>
#include <sofia-resolv/sres.h>
#include <sofia-resolv/sres_cache.h>
#include <sofia-resolv/sres_record.h>

static void store(sres_cache_t *cache, sres_record_t *record, size_t size, char *name, uint16_t type)
{
    record->sr_record->r_name = name;
    record->sr_record->r_size = (uint16_t)size;
    record->sr_record->r_type = type;
    record->sr_record->r_class = sres_class_in;
    record->sr_record->r_ttl = 1 << 20;
    record->sr_record->r_parsed = 1;
    sres_record_t *copy = sres_cache_alloc_record(cache, record, 0);
    if (copy == NULL)
        fail("no memory");
    sres_cache_store(cache, copy, time(NULL));
}

static void store_all(sres_cache_t *cache)
{
    char *servers[] = {"server1.example.com.", "server2.example.com."};
    sres_record_t naptr = {.sr_naptr = {{.na_order = 10, .na_prefer = 10, .na_flags = "s", .na_services = "SIP+D2U",
                                         .na_regexp = "", .na_replace = "_sip._udp.example.com."}}};
    store(cache, &naptr, sizeof(sres_naptr_record_t), "example.com.", sres_type_naptr);
    for (int place = 0; place < 2; place++) {
        sres_record_t srv = {.sr_srv = {{.srv_priority = (uint16_t)(10 + 10 * place), .srv_port = 5060,
                                         .srv_target = servers[place]}}};
        sres_record_t a = {.sr_a = {{.a_addr = {htonl(0xc0000201u + (uint32_t)place)}}}};
        store(cache, &srv, sizeof(sres_srv_record_t), "_sip._udp.example.com.", sres_type_srv);
        store(cache, &a, sizeof(sres_a_record_t), servers[place], sres_type_a);
    }
}

/* Looks a set up in the cache, and returns the number of its records. */
static int look_up(sres_resolver_t *resolver, uint16_t type, const char *name)
{
    sres_record_t **found = sres_cached_answers(resolver, type, name);
    int count = 0;
    if (found == NULL)
        return 0;
    sres_sort_answers(resolver, found);
    while (found[count] != NULL)
        count++;
    sres_free_answers(resolver, found);
    return count;
}

static void measure_sofia(size_t count)
{
    sres_cache_t *cache = sres_cache_new(64);
    sres_resolver_t *resolver = sres_resolver_new_with_cache("/dev/null", cache, NULL);
    if (resolver == NULL)
        fail("no resolver");
    store_all(cache);
    double begin = now();
    for (size_t place = 0; place < count; place++)
        if (look_up(resolver, sres_type_a, "server1.example.com.") != 1)
            fail("Sofia's cache has no address");
    report("sofia, one set", begin, count);
    begin = now();
    for (size_t place = 0; place < count; place++)
        if (look_up(resolver, sres_type_naptr, "example.com.") != 1 ||
            look_up(resolver, sres_type_srv, "_sip._udp.example.com.") != 2 ||
            look_up(resolver, sres_type_a, "server1.example.com.") != 1 ||
            look_up(resolver, sres_type_a, "server2.example.com.") != 1)
            fail("Sofia's cache has not got all sets");
    report("sofia, four sets", begin, count);
}
#endif

int main(int count, char **words)
{
    session it;
    if (count != 3)
        fail("SOCKET COUNT");
    size_t finds = strtoul(words[2], NULL, 10);
    for (int place = 0; place < QUESTIONS; place++)
        snprintf(addresses[place], sizeof addresses[place], "find sip:server1.example.com:%d\n",
                 1 + place * 7919 % QUESTIONS);
    if (siploc_embedded_open(NULL, 0, &it.handle) != SIPLOC_EMBEDDED_OK)
        fail("no handle");
    measure("handle", put_handle, &it, finds);
    measure_calls(&it, finds);
    siploc_embedded_close(&it.handle);
    it.end = connect_to(words[1]);
    measure("socket", put_socket, &it, finds / 10);
    close(it.end);
#ifdef SOFIA
    measure_sofia(finds);
#endif
    return 0;
}
