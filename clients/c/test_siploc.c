/*
 * Tests of the client against servers that they start: the program that the environment names in SIPLOC, and some that
 * do what no server should. Replies are those of docs/use/FORMATS.md, and of the README's session.
 *
 *     cc -std=c11 -Wl,--wrap=malloc -Wl,--wrap=calloc -Wl,--wrap=realloc -Wl,--wrap=fcntl -Wl,--wrap=connect \
 *         -Wl,--wrap=send -o test_siploc test_siploc.c siploc.c &&
 *         SIPLOC=PROGRAM ./test_siploc TOP EXAMPLE
 *
 * TOP is the repository's folder, EXAMPLE the built example. The last line is `N passed, M failed`.
 */
#define _POSIX_C_SOURCE 200809L

#include <arpa/inet.h>
#include <errno.h>
#include <fcntl.h>
#include <signal.h>
#include <stdarg.h>
#include <stdio.h>
#include <stdlib.h>
#include <string.h>
#include <sys/socket.h>
#include <sys/un.h>
#include <sys/wait.h>
#include <time.h>
#include <unistd.h>

#include "siploc.h"

static const char *top, *program, *example;
static bool has_failed;

/* A check that fails ends its test, not the others: what a test has started is ended after it. */
#define CHECK(condition)                                                                                              \
    do {                                                                                                              \
        if (!(condition)) {                                                                                           \
            printf("%s:%d: %s\n", __FILE__, __LINE__, #condition);                                                    \
            has_failed = true;                                                                                        \
            return;                                                                                                   \
        }                                                                                                             \
    } while (0)

/* How many allocations succeed before one fails; less than 0 where none does. */
static int allocations = -1;

static bool does_fail(void)
{
    return allocations >= 0 && allocations-- == 0;
}

void *__real_malloc(size_t size);
void *__real_calloc(size_t count, size_t size);
void *__real_realloc(void *at, size_t size);

void *__wrap_malloc(size_t size)
{
    return does_fail() ? NULL : __real_malloc(size);
}

void *__wrap_calloc(size_t count, size_t size)
{
    return does_fail() ? NULL : __real_calloc(count, size);
}

void *__wrap_realloc(void *at, size_t size)
{
    return does_fail() ? NULL : __real_realloc(at, size);
}

/* Whether a descriptor was looked at that a program has which another thread starts meanwhile. */
static bool was_inherited;

int __real_fcntl(int descriptor, int command, ...);

int __wrap_fcntl(int descriptor, int command, ...)
{
    va_list values;
    va_start(values, command);
    int value = command == F_GETFL || command == F_GETFD ? 0 : va_arg(values, int);
    va_end(values);
    was_inherited |= (__real_fcntl(descriptor, F_GETFD) & FD_CLOEXEC) == 0;
    return __real_fcntl(descriptor, command, value);
}

/* Whether sockets connect from the port to which they connect. */
static bool is_bound;

int __real_connect(int stream, const struct sockaddr *place, socklen_t size);

int __wrap_connect(int stream, const struct sockaddr *place, socklen_t size)
{
    if (is_bound && bind(stream, place, size) < 0)
        return -1;
    return __real_connect(stream, place, size);
}

/* How many octets a connection takes before it fails to send; less than 0 where it does not fail. */
static int octets_taken = -1;

/* What is replied at another end of a connection, once something was sent, and after which it ends. */
static struct {
    int stream;
    const char *octets;
    size_t size;
} answer = {.stream = -1};

ssize_t __real_send(int stream, const void *octets, size_t size, int flags);

ssize_t __wrap_send(int stream, const void *octets, size_t size, int flags)
{
    if (octets_taken == 0)
        errno = ENOBUFS;
    if (octets_taken == 0)
        return -1;
    if (octets_taken > 0 && size > (size_t)octets_taken)
        size = (size_t)octets_taken;
    ssize_t count = __real_send(stream, octets, size, flags);
    octets_taken -= octets_taken > 0 && count > 0 ? (int)count : 0;
    if (answer.stream >= 0 && write(answer.stream, answer.octets, answer.size) == (ssize_t)answer.size)
        shutdown(answer.stream, SHUT_WR);
    return count;
}

static void pause_for(int milliseconds)
{
    struct timespec time = {milliseconds / 1000, (long)(milliseconds % 1000) * 1000000};
    nanosleep(&time, NULL);
}

/* ---- Servers ---- */

enum { MAX_CHILDREN = 8 };
static pid_t children[MAX_CHILDREN];
static int child_count;

static pid_t start_child(void)
{
    fflush(stdout);
    pid_t child = fork();
    if (child < 0 || child_count == MAX_CHILDREN)
        abort();
    if (child > 0)
        children[child_count++] = child;
    else
        alarm(120);
    return child;
}

/* Waits for a process that was started; its status. */
static int wait_for_child(pid_t child)
{
    int status = -1;
    for (int i = 0; i < child_count; i++) {
        if (children[i] == child) {
            children[i] = children[--child_count];
            waitpid(child, &status, 0);
        }
    }
    return status;
}

static void end_children(void)
{
    while (child_count > 0) {
        pid_t child = children[child_count - 1];
        kill(child, SIGKILL);
        wait_for_child(child);
    }
}

/* A listening socket on a free port of 127.0.0.1 or ::1. */
static int listen_somewhere(bool is_v6, int *port)
{
    struct sockaddr_in6 v6 = {.sin6_family = AF_INET6, .sin6_addr = IN6ADDR_LOOPBACK_INIT};
    struct sockaddr_in v4 = {.sin_family = AF_INET, .sin_addr = {htonl(INADDR_LOOPBACK)}};
    int listener = socket(is_v6 ? AF_INET6 : AF_INET, SOCK_STREAM, 0);
    struct sockaddr *address = is_v6 ? (struct sockaddr *)&v6 : (struct sockaddr *)&v4;
    socklen_t size = is_v6 ? sizeof v6 : sizeof v4;
    if (bind(listener, address, size) < 0 || listen(listener, 8) < 0 || getsockname(listener, address, &size) < 0)
        abort();
    *port = ntohs(is_v6 ? v6.sin6_port : v4.sin_port);
    return listener;
}

static int free_port(bool is_v6)
{
    int port;
    close(listen_somewhere(is_v6, &port));
    return port;
}

typedef struct server {
    pid_t process;
    int port, output;
    char address[32];
} server;

/* `siploc serve` on a free port. */
static server start_server(int sessions, const char *settings)
{
    server server = {.port = free_port(false)};
    int ends[2];
    char text[1024];
    snprintf(server.address, sizeof server.address, "127.0.0.1:%d", server.port);
    snprintf(text, sizeof text, "%s\nlisten = \"%s\"\nsessions = %d\n", settings, server.address, sessions);
    if (pipe(ends) < 0)
        abort();
    server.process = start_child();
    if (server.process == 0) {
        dup2(ends[1], 1);
        close(ends[0]);
        close(ends[1]);
        execl(program, program, "serve", text, (char *)NULL);
        _exit(127);
    }
    close(ends[1]);
    server.output = ends[0];
    return server;
}

/* What the program prints at its end, after its last session, is `closed EVENTS`, and its status is 0. */
static bool closes(server *server, int events)
{
    char text[64] = "", want[64];
    size_t size = 0;
    for (ssize_t count; (count = read(server->output, text + size, sizeof text - 1 - size)) > 0; size += (size_t)count)
        ;
    close(server->output);
    snprintf(want, sizeof want, "closed %d\n", events);
    if (strcmp(text, want) != 0)
        printf("got %s, wanted %s", text, want);
    return wait_for_child(server->process) == 0 && strcmp(text, want) == 0;
}

/* A session, as soon as the server listens; NULL where it does not. */
static siploc *connect_to(const char *address, int timeout)
{
    siploc *session;
    for (int tries = 0; tries < 400; tries++) {
        siploc_status status = siploc_connect(address, timeout, &session);
        if (status == SIPLOC_OK)
            return session;
        if (status != SIPLOC_NOT_CONNECTED)
            return NULL;
        pause_for(25);
    }
    return NULL;
}

/* What a server does with its only connection. */
typedef void serve(int stream, const void *context);

static siploc *connect_to_fake(serve *serve, const void *context, int timeout)
{
    int port, listener = listen_somewhere(false, &port);
    char address[32];
    if (start_child() == 0) {
        int stream = accept(listener, NULL, NULL);
        close(listener);
        signal(SIGPIPE, SIG_IGN);
        serve(stream, context);
        _exit(0);
    }
    close(listener);
    snprintf(address, sizeof address, "127.0.0.1:%d", port);
    return connect_to(address, timeout);
}

static void take_lines(int stream, size_t count)
{
    char octet;
    while (count > 0 && read(stream, &octet, 1) == 1)
        count -= octet == '\n';
}

static void take_all(int stream)
{
    char octets[4096];
    while (read(stream, octets, sizeof octets) > 0)
        ;
}

static void put(int stream, const char *octets, size_t size)
{
    for (ssize_t count; size > 0 && (count = write(stream, octets, size)) > 0; size -= (size_t)count)
        octets += count;
}

/* ---- Texts ---- */

static char *read_file(const char *path)
{
    char name[1024], *text = calloc(1, 1 << 17);
    snprintf(name, sizeof name, "%s/%s", top, path);
    FILE *file = fopen(name, "r");
    if (file == NULL || text == NULL || fread(text, 1, (1 << 17) - 1, file) == 0)
        abort();
    fclose(file);
    return text;
}

/* Appends a formatted text. */
static void print_to(char **end, const char *format, ...)
{
    va_list values;
    va_start(values, format);
    *end += vsprintf(*end, format, values);
    va_end(values);
}

/* Cuts a session's text into its commands, each a line or a `zone` line with its text; how many there are. */
static size_t cut_commands(char *text, const char **commands)
{
    size_t count = 0;
    while (*text != '\0') {
        size_t lines = 1;
        char *end = text;
        sscanf(text, "zone %*s %zu", &lines);
        lines += strncmp(text, "zone ", 5) == 0;
        for (; lines > 0; lines--) {
            end = strchr(end, '\n');
            if (lines > 1)
                end++;
        }
        *end = '\0';
        if (*text != '\0' && *text != '#')
            commands[count++] = text;
        text = end + 1;
    }
    return count;
}

/* Appends the lines of each reply to a text. */
static void keep_lines(void *context, size_t place, const siploc_reply *reply)
{
    (void)place;
    for (size_t i = 0; i < reply->line_count; i++)
        print_to(context, "%s\n", reply->lines[i]);
}

/* ---- Against the program ---- */

static const char *const zone = "@ NAPTR 50 50 \"s\" \"SIPS+D2T\" \"\" _sips._tcp\n"
                                "@ NAPTR 90 50 \"s\" \"SIP+D2T\" \"\" _sip._tcp\n"
                                "@ NAPTR 100 50 \"s\" \"SIP+D2U\" \"\" _sip._udp\n"
                                "_sip._tcp SRV 0 1 5060 server1\n_sip._tcp SRV 0 2 5060 server2\n"
                                "server1 A 192.0.2.1\nserver2 A 192.0.2.2\n";
static const char *const tcp_first = "transports = [\"tcp\", \"udp\"]";

static void readme_session_in_a_batch(void)
{
    static const char *commands[256];
    static char replies[1 << 16];
    char *input = read_file("crates/siploc/stdin"), *want = read_file("crates/siploc/stdout"), *end = replies;
    size_t count = cut_commands(input, commands);
    CHECK(strcmp(commands[count - 1], "quit") == 0);
    server server = start_server(1, tcp_first);
    siploc *session = connect_to(server.address, 30000);
    CHECK(session != NULL);
    siploc_status status = siploc_batch(session, commands, count - 1, keep_lines, &end);
    siploc_close(session);
    print_to(&end, "ok quit\n");
    bool is_same = strcmp(replies, want) == 0;
    free(input);
    free(want);
    CHECK(status == SIPLOC_OK && is_same);
    CHECK(closes(&server, 20));
}

/* Whether a question has these targets: each by the last digit of its address. */
static bool finds(siploc *session, const char *uri, const siploc_draws *draws, const char *want)
{
    const siploc_reply *reply;
    char got[33] = "";
    if (siploc_find(session, uri, draws, &reply) != SIPLOC_OK || reply->target_count > 32)
        return false;
    for (size_t i = 0; i < reply->target_count; i++)
        got[i] = reply->targets[i].address[strlen(reply->targets[i].address) - 1];
    return strcmp(got, want) == 0 && (*want == '\0') == (reply->reason != NULL);
}

static bool is_target(const siploc_target *target, const char *transport, const char *address, uint16_t port)
{
    return strcmp(target->transport, transport) == 0 && strcmp(target->address, address) == 0 && target->port == port;
}

static bool is_dependency(const siploc_dependency *it, const char *name, const char *kind, uint64_t records)
{
    return strcmp(it->name, name) == 0 && strcmp(it->kind, kind) == 0 && it->records == records;
}

static void readme_session_by_calls(void)
{
    const char *uri = "sip:bob@example.com";
    const uint32_t words[] = {2, 0}, ten = 10;
    const siploc_draws draws = {.words = words, .word_count = 2};
    const siploc_target second = {"tcp", "192.0.2.2", 5060};
    const siploc_reply *reply;
    server server = start_server(1, tcp_first);
    siploc *s = connect_to(server.address, 30000);
    CHECK(s != NULL);
    CHECK(siploc_load(s, "example.com.", zone, &reply) == SIPLOC_OK);
    CHECK(reply->counts[0] == 7 && reply->counts[1] == 0 && reply->counts[2] == 0 && reply->counts[3] == 4);
    CHECK(finds(s, uri, &draws, "21"));
    CHECK(siploc_hold(s, &second, 5000, NULL) == SIPLOC_OK);
    CHECK(finds(s, uri, &draws, "1"));
    CHECK(siploc_clock(s, 5000, &reply) == SIPLOC_OK && reply->counts[0] == 5000 && reply->step_count == 0);
    CHECK(finds(s, uri, &draws, "21"));
    CHECK(siploc_add(s, "_sip._tcp.example.com. SRV 1 0 5060 server3.example.com.", &reply) == SIPLOC_OK);
    CHECK(reply->counts[0] == 1);
    CHECK(siploc_add(s, "server3.example.com. A 192.0.2.3", &reply) == SIPLOC_OK && reply->counts[0] == 1);
    CHECK(finds(s, uri, &draws, "213"));
    CHECK(siploc_find(s, "sip:server1.example.com:5070", NULL, &reply) == SIPLOC_OK);
    CHECK(reply->target_count == 1 && is_target(reply->targets, "udp", "192.0.2.1", 5070));
    CHECK(siploc_remove(s, "server1.example.com. A 192.0.2.1", &reply) == SIPLOC_OK && reply->counts[0] == 1);
    CHECK(siploc_repair(s, NULL) == SIPLOC_OK);
    CHECK(siploc_deps(s, "sip:server1.example.com:5070", &reply) == SIPLOC_OK && reply->dependency_count == 6);
    CHECK(is_dependency(&reply->dependencies[0], "server1.example.com.", "A", 0));
    CHECK(is_dependency(&reply->dependencies[3], "example.com.", "EXISTS", 1));
    CHECK(is_dependency(&reply->dependencies[5], "*.example.com.", "CNAME", 0));
    CHECK(finds(s, uri, &draws, "23"));
    CHECK(siploc_add(s, "server1.example.com. A 192.0.2.1", NULL) == SIPLOC_OK);
    CHECK(finds(s, "sip:192.0.2.9", NULL, "9"));
    CHECK(siploc_find(s, "sip:x.example.com", NULL, &reply) == SIPLOC_OK);
    CHECK(reply->target_count == 0 && strcmp(reply->reason, "NoAddress") == 0);
    CHECK(siploc_add(s, "SERVER1.example.com. A 192.0.2.1", &reply) == SIPLOC_REFUSED);
    CHECK(strcmp(reply->code, "S3") == 0 && strcmp(reply->meaning, "the record is in the zone already") == 0);
    CHECK(siploc_call(s, "invite", 1, uri, &draws, &reply) == SIPLOC_OK && reply->step_count == 1);
    CHECK(reply->steps[0].kind == SIPLOC_SEND && reply->steps[0].attempt == 1);
    CHECK(is_target(&reply->steps[0].target, "tcp", "192.0.2.2", 5060));
    CHECK(strcmp(reply->steps[0].branch, "z9hG4bK0000000000000001.1") == 0);
    CHECK(siploc_got(s, 1, 503, &ten, &reply) == SIPLOC_OK && reply->step_count == 3);
    CHECK(reply->steps[0].kind == SIPLOC_ACK && reply->steps[0].attempt == 1);
    CHECK(reply->steps[1].kind == SIPLOC_HOLD && reply->steps[1].milliseconds == 10000);
    CHECK(is_target(&reply->steps[1].target, "tcp", "192.0.2.2", 5060));
    CHECK(reply->steps[2].kind == SIPLOC_SEND && reply->steps[2].attempt == 2);
    CHECK(siploc_got(s, 2, 200, NULL, &reply) == SIPLOC_OK && reply->step_count == 1);
    CHECK(reply->steps[0].kind == SIPLOC_DELIVER && reply->steps[0].code == 200);
    CHECK(finds(s, uri, &draws, "13"));
    CHECK(siploc_clock(s, 15000, NULL) == SIPLOC_OK);
    CHECK(finds(s, uri, &draws, "213"));
    siploc_close(s);
    CHECK(closes(&server, 20));
}

/* What the README's session has not: tests/sessions/holds.txt, calls.txt, edits.txt and draws.txt. */
static void other_calls(void)
{
    const uint32_t words[] = {3795398737, 17903413, 3545275701, 194195274, 2326030198};
    const siploc_draws given = {.words = words, .word_count = 5}, zero = {.has_seed = true};
    const siploc_draws last = {.has_seed = true, .seed = UINT64_MAX}, both = {.has_seed = true, .word_count = 1};
    const siploc_target target = {"udp", "192.0.2.9", 5060}, v6 = {"sctp", "::1", 5060};
    const siploc_reply *reply;
    server server = start_server(1, "");
    siploc *s = connect_to(server.address, 30000);
    CHECK(s != NULL);
    CHECK(siploc_load(s, "e.", "a A 192.0.2.1\r\na A 192.0.2.2\nb.f. A 192.0.2.1", &reply) == SIPLOC_OK);
    CHECK(reply->counts[0] == 2 && reply->counts[1] == 1 && reply->counts[2] == 0 && reply->counts[3] == 1);
    CHECK(siploc_load(s, "example.com.", "", &reply) == SIPLOC_OK && reply->counts[0] == 0);
    CHECK(siploc_drop(s, "e.", &reply) == SIPLOC_OK && reply->counts[0] == 1);
    CHECK(siploc_hold(s, &v6, 0, NULL) == SIPLOC_OK && siploc_hold(s, &target, 1, NULL) == SIPLOC_OK);
    CHECK(siploc_find(s, "sip:192.0.2.9", &zero, &reply) == SIPLOC_OK && strcmp(reply->reason, "AllHeld") == 0);
    CHECK(siploc_call(s, "invite", 7, "sip:192.0.2.9", NULL, &reply) == SIPLOC_OK && reply->step_count == 0);
    CHECK(strcmp(reply->reason, "AllHeld") == 0);
    CHECK(siploc_release(s, &target, NULL) == SIPLOC_OK);
    CHECK(siploc_call(s, "other", UINT64_MAX, "sip:192.0.2.9", &zero, &reply) == SIPLOC_OK);
    CHECK(strcmp(reply->steps[0].branch, "z9hG4bKffffffffffffffff.1") == 0);
    CHECK(siploc_clock(s, 500, &reply) == SIPLOC_OK && reply->steps[0].kind == SIPLOC_RESEND);
    CHECK(siploc_broke(s, &reply) == SIPLOC_OK && reply->step_count == 3);
    CHECK(reply->steps[0].milliseconds == 30000 && reply->steps[1].code == 500);
    CHECK(reply->steps[2].kind == SIPLOC_EXHAUSTED);
    CHECK(siploc_load(s, "example.com.",
                      "_sip._tcp SRV 0 1 5060 a\n_sip._tcp SRV 0 2 5060 b\n_sip._tcp SRV 0 3 5060 c\n"
                      "_sip._tcp SRV 0 4 5060 d\n_sip._tcp SRV 1 0 5060 e\na A 192.0.2.1\nb A 192.0.2.2\n"
                      "c A 192.0.2.3\nd A 192.0.2.4\ne A 192.0.2.5\n",
                      NULL) == SIPLOC_OK);
    CHECK(finds(s, "sip:example.com;transport=tcp", NULL, "12345"));
    CHECK(finds(s, "sip:example.com;transport=tcp", &given, "42135"));
    CHECK(finds(s, "sip:example.com;transport=tcp", &zero, "24315"));
    CHECK(finds(s, "sip:example.com;transport=tcp", &last, "14325"));
    CHECK(siploc_find(s, "sip:example.com", &both, NULL) == SIPLOC_INVALID);
    siploc_close(s);
}

/* tests/sessions/serve.txt: a full journal, and room again; `closed` counts all pages. */
static void pages(void)
{
    const char *uri = "sip:server1.example.com:5060";
    const siploc_reply *reply;
    server server = start_server(1, "journal = 2");
    siploc *s = connect_to(server.address, 30000);
    CHECK(s != NULL);
    CHECK(siploc_load(s, "example.com.", "", NULL) == SIPLOC_OK);
    CHECK(siploc_add(s, "server1.example.com. A 192.0.2.1", NULL) == SIPLOC_OK);
    CHECK(siploc_find(s, uri, NULL, &reply) == SIPLOC_REFUSED && strcmp(reply->code, "B3") == 0);
    CHECK(siploc_page(s, &reply) == SIPLOC_OK && reply->counts[0] == 0 && reply->counts[1] == 2);
    CHECK(finds(s, uri, NULL, "1"));
    CHECK(siploc_page(s, &reply) == SIPLOC_OK && reply->counts[0] == 2 && reply->counts[1] == 1);
    CHECK(siploc_page(s, &reply) == SIPLOC_OK && reply->counts[0] == 3 && reply->counts[1] == 0);
    siploc_close(s);
    CHECK(closes(&server, 3));
}

/* Commands of a batch that are made of their fields, and of a zone's text. */
static void commands_that_are_made(void)
{
    const char *const find[] = {"find", "sip:a.e:5070", "seed", "7"};
    const char *const hold[] = {"hold", "udp", "192.0.2.1", "5070", "9"};
    const char *const wrong[] = {"", "sip:a seed 1", "sip:a\tb", "sip:a\n", "sip:a\r"};
    char *made[3], *none, replies[256] = "", *end = replies;
    CHECK(siploc_zone("e.", "a A 192.0.2.1\r\n\nb A 192.0.2.2", &made[0]) == SIPLOC_OK);
    CHECK(strcmp(made[0], "zone e. 3\na A 192.0.2.1\n\nb A 192.0.2.2") == 0);
    CHECK(siploc_line(find, 4, &made[1]) == SIPLOC_OK && strcmp(made[1], "find sip:a.e:5070 seed 7") == 0);
    CHECK(siploc_line(hold, 5, &made[2]) == SIPLOC_OK);
    CHECK(siploc_zone("e.", "", &none) == SIPLOC_OK && strcmp(none, "zone e. 0") == 0);
    free(none);
    for (size_t i = 0; i < sizeof wrong / sizeof wrong[0]; i++) {
        const char *const fields[] = {"find", wrong[i]};
        CHECK(siploc_line(fields, 2, &none) == SIPLOC_INVALID && none == NULL);
        CHECK(siploc_zone(wrong[i], "", &none) == SIPLOC_INVALID && none == NULL);
    }
    CHECK(siploc_line(find, 0, &none) == SIPLOC_INVALID && none == NULL);
    allocations = 0;
    CHECK(siploc_line(find, 4, &none) == SIPLOC_NO_MEMORY && none == NULL);
    allocations = 0;
    CHECK(siploc_zone("e.", "", &none) == SIPLOC_NO_MEMORY && none == NULL);
    server server = start_server(1, "");
    siploc *s = connect_to(server.address, 30000);
    CHECK(s != NULL && siploc_batch(s, (const char *const *)made, 3, keep_lines, &end) == SIPLOC_OK);
    siploc_close(s);
    for (int i = 0; i < 3; i++)
        free(made[i]);
    CHECK(strcmp(replies, "ok zone 2 0 0 2\ntarget 1 udp 192.0.2.1 5070\nok find 1\nok hold\n") == 0);
    CHECK(closes(&server, 3));
}

/* What a batch of refusals has shown. */
typedef struct refusals {
    char *end;
    size_t count;
    bool is_right;
} refusals;

static void keep_refusal(void *context, size_t place, const siploc_reply *reply)
{
    refusals *refusals = context;
    keep_lines(&refusals->end, place, reply);
    if (reply->code != NULL) {
        uint64_t line = strcmp(reply->code, "Z12") == 0 || strcmp(reply->code, "Z14") == 0 ? 2
                        : strcmp(reply->code, "Z15") == 0                                  ? 33
                                                                                           : 0;
        refusals->count++;
        refusals->is_right &= reply->fault_line == line && reply->meaning == siploc_meaning(reply->code) &&
                              strncmp(reply->meaning, "a code that", 11) != 0;
    }
}

/* Each code once, by a batch: 47 of the 58 of a session (clients/lists.json). The others are named at the file's head. */
static void each_refusal(void)
{
    static char input[1 << 16], want[1 << 16], replies[1 << 16], settings[512];
    static const char *commands[256];
    char *text = read_file("clients/tests/refusals.txt"), *inputs = input, *wanted = want;
    char *begin = strstr(text, "$ siploc serve '") + strlen("$ siploc serve '"), *end = strstr(begin, "listen");
    memcpy(settings, begin, (size_t)(end - begin));
    for (char *line = strtok(strstr(end, "'\n") + 2, "\n"); line != NULL; line = strtok(NULL, "\n")) {
        if (strncmp(line, "> ", 2) == 0)
            print_to(&inputs, "%s\n", line + 2);
        else if (strncmp(line, "closed", 6) != 0)
            print_to(&wanted, "%s\n", line);
    }
    free(text);
    server server = start_server(1, settings);
    siploc *session = connect_to(server.address, 30000);
    CHECK(session != NULL);
    refusals refusals = {replies, 0, true};
    size_t count = cut_commands(input, commands);
    CHECK(siploc_batch(session, commands, count, keep_refusal, &refusals) == SIPLOC_OK);
    CHECK(strcmp(replies, want) == 0 && refusals.is_right);
    CHECK(refusals.count == 47);
    siploc_close(session);
    CHECK(closes(&server, 6));
}

/* A refusal leaves the session open; a line may have 65,536 octets; a hold that is refused has its step all the same. */
static void refusals_by_calls(void)
{
    static char uri[65536];
    const uint32_t ten = 10;
    const siploc_target target = {"udp", "192.0.2.1", 5060};
    const siploc_reply *reply;
    server server = start_server(1, "holds = 0");
    siploc *s = connect_to(server.address, 30000);
    CHECK(s != NULL);
    CHECK(siploc_load(s, "e.", "; x\na A x", &reply) == SIPLOC_REFUSED && strcmp(reply->code, "Z4") == 0);
    CHECK(reply->fault_line == 2);
    CHECK(siploc_drop(s, "e.", &reply) == SIPLOC_REFUSED && strcmp(reply->code, "S2") == 0);
    CHECK(siploc_remove(s, "a", &reply) == SIPLOC_REFUSED && strcmp(reply->code, "Z2") == 0);
    CHECK(siploc_deps(s, "sip:-", &reply) == SIPLOC_REFUSED && strcmp(reply->code, "U2") == 0);
    CHECK(siploc_hold(s, &target, 1, &reply) == SIPLOC_REFUSED && strcmp(reply->code, "O4") == 0);
    CHECK(siploc_release(s, &target, &reply) == SIPLOC_REFUSED && strcmp(reply->code, "O3") == 0);
    CHECK(siploc_broke(s, &reply) == SIPLOC_REFUSED && strcmp(reply->code, "K3") == 0);
    CHECK(siploc_call(s, "x", 1, "sip:a", NULL, &reply) == SIPLOC_REFUSED && strcmp(reply->code, "K1") == 0);
    CHECK(siploc_clock(s, (UINT64_C(1) << 52) + 1, &reply) == SIPLOC_REFUSED && strcmp(reply->code, "O2") == 0);
    memset(uri, 'a', sizeof uri - 1);
    memcpy(uri, "sip:", 4);
    uri[65532] = '\0'; /* With `find ` the line has 65,537 octets, and then one less. */
    CHECK(siploc_find(s, uri, NULL, &reply) == SIPLOC_REFUSED && strcmp(reply->code, "K2") == 0);
    memset(uri + 4, ';', 65527);
    uri[65531] = '\0';
    CHECK(siploc_find(s, uri, NULL, &reply) == SIPLOC_REFUSED && *reply->code == 'U');
    CHECK(siploc_load(s, "example.com.", "a A 192.0.2.1\na A 192.0.2.2", NULL) == SIPLOC_OK);
    CHECK(siploc_call(s, "invite", 1, "sip:a.example.com:5060", NULL, NULL) == SIPLOC_OK);
    CHECK(siploc_got(s, 1, 503, &ten, &reply) == SIPLOC_REFUSED && strcmp(reply->code, "O4") == 0);
    CHECK(reply->step_count == 3 && reply->steps[1].kind == SIPLOC_HOLD && reply->steps[2].kind == SIPLOC_SEND);
    siploc_close(s);
}

enum { FINDS = 20000, HOSTS = 1000 };

/* Which find of how many is due, and whether all replies were their own. */
typedef struct counted {
    size_t begin, count;
    bool is_right;
} counted;

static void check_find(void *context, size_t place, const siploc_reply *reply)
{
    counted *counted = context;
    size_t n = counted->begin + place;
    char address[32];
    snprintf(address, sizeof address, "10.0.%zu.%zu", n % HOSTS / 256, n % HOSTS % 256);
    counted->is_right &= reply->target_count == 1 && strcmp(reply->lines[1], "ok find 1") == 0 &&
                         is_target(reply->targets, "udp", address, (uint16_t)(n % 65535 + 1));
    counted->count++;
}

static void finds_in_batches(void)
{
    static char text[1 << 16], lines[10000][64];
    static const char *commands[10000];
    char *end = text;
    for (int n = 0; n < HOSTS; n++)
        print_to(&end, "s%d A 10.0.%d.%d\n", n, n / 256, n % 256);
    server server = start_server(1, "");
    siploc *session = connect_to(server.address, 30000);
    CHECK(session != NULL && siploc_load(session, "example.com.", text, NULL) == SIPLOC_OK);
    counted counted = {0, 0, true};
    for (; counted.begin < FINDS; counted.begin += 10000) {
        for (size_t i = 0; i < 10000; i++) {
            size_t n = counted.begin + i;
            snprintf(lines[i], sizeof lines[i], "find sip:s%zu.example.com:%zu", n % HOSTS, n % 65535 + 1);
            commands[i] = lines[i];
        }
        CHECK(siploc_batch(session, commands, 10000, check_find, &counted) == SIPLOC_OK);
    }
    CHECK(counted.count == FINDS && counted.is_right);
    siploc_close(session);
    CHECK(closes(&server, FINDS + 1));
}

static void count_targets(void *context, size_t place, const siploc_reply *reply)
{
    (void)place;
    *(size_t *)context += reply->target_count == 32 && reply->line_count == 33;
}

/* 20,000 finds of 32 targets each, sent at once: more than both sockets hold. Over each kind of address. */
static void batch_of_more_than_the_sockets_hold(void)
{
    static char zone_text[1024], line[512], address[3][128];
    static const char *commands[20000];
    char *end = zone_text, relay[1024], port[16];
    for (int n = 0; n < 32; n++)
        print_to(&end, "a A 192.0.2.%d\n", n);
    snprintf(line, sizeof line, "find sip:%0400d@a.e:5060", 0);
    for (size_t i = 0; i < 20000; i++)
        commands[i] = line;
    server server = start_server(3, "");
    snprintf(port, sizeof port, "%d", server.port);
    snprintf(relay, sizeof relay, "%s/clients/tests/relay.py", top);
    snprintf(address[0], sizeof address[0], "%s", server.address);
    snprintf(address[1], sizeof address[1], "[::1]:%d", free_port(true));
    snprintf(address[2], sizeof address[2], "unix:/tmp/siploc-test-%ld", (long)getpid());
    for (int i = 0; i < 3; i++) {
        int input[2];
        pid_t child = -1;
        if (pipe(input) < 0)
            abort();
        if (i > 0 && (child = start_child()) == 0) {
            dup2(input[0], 0);
            close(input[0]);
            close(input[1]);
            close(1);
            execlp("python3", "python3", relay, port, address[i], (char *)NULL);
            _exit(127);
        }
        close(input[0]);
        siploc *session = connect_to(address[i], 30000);
        CHECK(session != NULL && siploc_load(session, "e.", zone_text, NULL) == SIPLOC_OK);
        size_t count = 0;
        siploc_status status = siploc_batch(session, commands, 20000, count_targets, &count);
        siploc_close(session);
        close(input[1]);
        if (i > 0)
            wait_for_child(child);
        unlink(address[2] + 5);
        CHECK(status == SIPLOC_OK && count == 20000);
    }
    CHECK(closes(&server, 60003));
}

static void check_same(void *context, size_t place, const siploc_reply *reply)
{
    (void)place;
    counted *counted = context;
    counted->count++;
    counted->is_right &= reply->target_count == 1 && is_target(reply->targets, "udp", "192.0.2.1", 5070);
}

static void server_that_ends_in_the_midst(void)
{
    static const char *commands[1000000];
    const int pauses[] = {5, 50, 150};
    for (size_t i = 0; i < 1000000; i++)
        commands[i] = "find sip:a.e:5070";
    for (int turn = 0; turn < 3; turn++) {
        server server = start_server(1, "");
        siploc *session = connect_to(server.address, 30000);
        CHECK(session != NULL && siploc_load(session, "e.", "a A 192.0.2.1", NULL) == SIPLOC_OK);
        if (start_child() == 0) {
            pause_for(pauses[turn]);
            kill(server.process, SIGKILL);
            _exit(0);
        }
        counted counted = {0, 0, true};
        siploc_status status = siploc_batch(session, commands, 1000000, check_same, &counted);
        siploc_doubt doubt = siploc_broken(session);
        siploc_status after = siploc_find(session, "sip:a.e", NULL, NULL);
        siploc_close(session);
        close(server.output);
        wait_for_child(server.process);
        CHECK(status == SIPLOC_LOST || status == SIPLOC_HALF_REPLY);
        CHECK(counted.is_right && counted.count == doubt.replied && doubt.replied < 1000000);
        CHECK(doubt.replied <= doubt.sent && doubt.may_be_done == (doubt.sent > doubt.replied));
        CHECK(after == SIPLOC_NOT_CONNECTED);
        CHECK(siploc_connect(server.address, 1000, &session) == SIPLOC_NOT_CONNECTED && errno == ECONNREFUSED);
        CHECK(session == NULL);
    }
}

/* A client is killed within a zone, and within a line: the zone is as it was. */
static void client_that_is_killed_in_a_zone(void)
{
    const char *const halves[] = {"zone e. 1000000\nb A 192.0.2.1\nc A 192.0.2.1\n", "del e. A 192.0.2.1"};
    server server = start_server(3, "");
    siploc *session = connect_to(server.address, 30000);
    CHECK(session != NULL && siploc_load(session, "e.", "@ A 192.0.2.1", NULL) == SIPLOC_OK);
    for (int turn = 0; turn < 2; turn++) {
        pid_t child = start_child();
        if (child == 0) {
            /* The client's socket takes the first descriptor that is free. */
            int stream = dup(0);
            close(stream);
            if (connect_to(server.address, 30000) != NULL)
                put(stream, halves[turn], strlen(halves[turn]));
            pause_for(100);
            raise(SIGKILL);
        }
        CHECK(WIFSIGNALED(wait_for_child(child)));
    }
    pause_for(200);
    CHECK(finds(session, "sip:e:5060", NULL, "1"));
    siploc_close(session);
    /* An edit by another than the first session would be an event more. */
    CHECK(closes(&server, 2));
}

static void example_program(void)
{
    char command[1024], output[256] = "";
    server server = start_server(2, "");
    siploc_close(connect_to(server.address, 1000));
    snprintf(command, sizeof command, "%s %s", example, server.address);
    FILE *pipe = popen(command, "r");
    CHECK(pipe != NULL);
    size_t size = fread(output, 1, sizeof output - 1, pipe);
    CHECK(pclose(pipe) == 0 && size > 0);
    CHECK(strcmp(output, "try udp 192.0.2.1 5070\ntry udp 192.0.2.2 5070\nthen AllHeld\n") == 0);
    CHECK(closes(&server, 5));
    /* What it says where nobody listens, and of what is no address. */
    const char *const words[] = {server.address, "192.0.2.1:5099"};
    const char *const said[] = {"not connected: Connection refused\n", "no address"};
    for (int i = 0; i < 2; i++) {
        snprintf(command, sizeof command, "%s %s 2>&1", example, words[i]);
        CHECK((pipe = popen(command, "r")) != NULL);
        output[fread(output, 1, sizeof output - 1, pipe)] = '\0';
        CHECK(pclose(pipe) != 0 && strstr(output, said[i]) != NULL);
    }
}

/* ---- Against servers that do what they should not ---- */

/* Replaces the escapes of a field of replies.txt; how many octets it has then. */
static size_t unescape(char *text)
{
    char *begin = text, *to = text;
    for (; *text != '\0'; text++) {
        unsigned octet;
        if (*text != '\\') {
            *to++ = *text;
        } else if (*++text == 'x') {
            sscanf(text + 1, "%2x", &octet);
            *to++ = (char)octet;
            text += 2;
        } else {
            *to++ = *text == 'n' ? '\n' : *text == 'r' ? '\r' : *text;
        }
    }
    *to = '\0';
    return (size_t)(to - begin);
}

/* A row of replies.txt. */
typedef struct row {
    size_t lines, size;
    const char *reply;
    char kept[4096], code[40], *end;
} row;

static void serve_row(int stream, const void *context)
{
    const row *row = context;
    take_lines(stream, row->lines);
    put(stream, row->reply, row->size);
    shutdown(stream, SHUT_WR);
    take_all(stream);
}

static void keep_reply(void *context, size_t place, const siploc_reply *reply)
{
    row *row = context;
    keep_lines(&row->end, place, reply);
    if (reply->code != NULL)
        snprintf(row->code, sizeof row->code, "%s", reply->code);
}

/* How a call has ended, as replies.txt has it. */
static const char *name_of(siploc_status status, const row *row)
{
    return status == SIPLOC_OK           ? row->code
           : status == SIPLOC_LOST       ? "lost"
           : status == SIPLOC_HALF_REPLY ? "half"
           : status == SIPLOC_BAD_REPLY  ? "bad"
                                         : siploc_status_text(status);
}

/* What is a reply of the protocol, and what is not. */
static void replies(void)
{
    char *text = read_file("clients/tests/replies.txt"), *rest = text;
    int rows = 0;
    for (char *line; (line = strtok_r(rest, "\n", &rest)) != NULL;) {
        if (*line == '#')
            continue;
        char *kind = line, *command = strchr(line, '\t') + 1, *reply = strchr(command, '\t') + 1;
        command[-1] = reply[-1] = '\0';
        row row = {.lines = 1, .reply = reply, .code = "good", .end = row.kept};
        unescape(command);
        row.size = unescape(reply);
        for (const char *at = command; (at = strchr(at, '\n')) != NULL; at++)
            row.lines++;
        siploc *session = connect_to_fake(serve_row, &row, 10000);
        CHECK(session != NULL);
        const char *const commands[] = {command};
        siploc_status status = siploc_batch(session, commands, 1, keep_reply, &row);
        const char *seen = name_of(status, &row);
        siploc_doubt doubt = siploc_broken(session);
        bool is_right = strcmp(seen, kind) == 0;
        if (status == SIPLOC_OK)
            is_right &= strcmp(row.kept, reply) == 0;
        else
            is_right &= (doubt.may_be_done || doubt.replied == 1) &&
                        siploc_repair(session, NULL) == SIPLOC_NOT_CONNECTED;
        if (!is_right)
            printf("%s: %s: got %s, wanted %s\n", command, reply, seen, kind);
        siploc_close(session);
        CHECK(is_right);
        wait_for_child(children[0]);
        rows++;
    }
    free(text);
    CHECK(rows == 135);
}

/* Whether a row of changed.py is as it says, over a socketpair. */
static bool is_as_said(char *line)
{
    char *kind = line, *command = strchr(line, '\t') + 1, *reply = strchr(command, '\t') + 1;
    int ends[2];
    siploc *s;
    command[-1] = reply[-1] = '\0';
    row row = {.code = "good", .end = row.kept};
    unescape(command);
    answer.size = unescape(reply);
    answer.octets = reply;
    if (socketpair(AF_UNIX, SOCK_STREAM, 0, ends) < 0 || siploc_new(ends[0], 10000, &s) != SIPLOC_OK)
        abort();
    answer.stream = ends[1];
    const char *const commands[] = {command};
    siploc_status status = siploc_batch(s, commands, 1, keep_reply, &row);
    answer.stream = -1;
    const char *seen = name_of(status, &row);
    bool is_right = strcmp(seen, kind) == 0 && siploc_is_open(s) == (status == SIPLOC_OK) &&
                    (status != SIPLOC_OK || strcmp(row.kept, reply) == 0);
    if (!is_right)
        printf("%s: %s: got %s, wanted %s\n", command, reply, seen, kind);
    siploc_set_timeout(s, 0);
    siploc_close(s);
    close(ends[1]);
    return is_right;
}

/* changed.py: each octet of each reply changed in turn. What is none is not taken, and ends the session. */
static void changed_replies(void)
{
    char path[1024], line[8192];
    int rows = 0, wrong = 0;
    snprintf(path, sizeof path, "python3 '%s/clients/tests/changed.py'", top);
    FILE *pipe = popen(path, "r");
    CHECK(pipe != NULL);
    for (; fgets(line, sizeof line, pipe) != NULL; rows++) {
        line[strcspn(line, "\n")] = '\0';
        wrong += !is_as_said(line);
    }
    CHECK(pclose(pipe) == 0 && rows > 5000 && wrong == 0);
}

/* A reply to some lines, and where it is cut in how many connections: at each octet of it, in their order. */
typedef struct cut {
    const char *reply;
    size_t lines, size;
    bool is_reset, is_silent;
} cut;

static siploc *connect_to_cuts(const cut *cut, int *port)
{
    char address[32];
    if (*port == 0) {
        int listener = listen_somewhere(false, port);
        if (start_child() == 0) {
            signal(SIGPIPE, SIG_IGN);
            for (size_t at = 0; at < cut->size; at++) {
                int stream = accept(listener, NULL, NULL);
                struct linger linger = {.l_onoff = cut->is_reset, .l_linger = 0};
                setsockopt(stream, SOL_SOCKET, SO_LINGER, &linger, sizeof linger);
                take_lines(stream, cut->lines);
                put(stream, cut->reply, at);
                if (!cut->is_silent)
                    close(stream);
            }
            pause_for(cut->is_silent ? 20000 : 0);
            _exit(0);
        }
        close(listener);
    }
    snprintf(address, sizeof address, "127.0.0.1:%d", *port);
    return connect_to(address, cut->is_silent ? 20 : 10000);
}

/* Whether a reply that is cut at any octet is told as half a reply, or as none; where no more comes the time runs out. */
static bool is_told(const char *command, const cut *cut)
{
    const char *const commands[] = {command};
    int port = 0;
    for (size_t at = 0; at < cut->size; at++) {
        siploc *session = connect_to_cuts(cut, &port);
        if (session == NULL)
            return false;
        siploc_status status = siploc_batch(session, commands, 1, NULL, NULL);
        bool is_right = siploc_broken(session).may_be_done && siploc_repair(session, NULL) == SIPLOC_NOT_CONNECTED;
        siploc_close(session);
        if (cut->is_silent)
            is_right &= status == SIPLOC_TIMED_OUT;
        else if (at == 0)
            is_right &= status == SIPLOC_LOST;
        else /* What came before a reset may be lost with it. */
            is_right &= status == SIPLOC_HALF_REPLY || (cut->is_reset && status == SIPLOC_LOST);
        if (!is_right)
            printf("%s, cut at %zu: %s\n", cut->reply, at, siploc_status_text(status));
        if (!is_right)
            return false;
    }
    return true;
}

/* Each good row of replies.txt, cut at each octet as the connection ends, is reset, or stays silent. */
static void cut_at_each_octet(void)
{
    char *text = read_file("clients/tests/replies.txt"), *rest = text;
    for (char *line; (line = strtok_r(rest, "\n", &rest)) != NULL;) {
        if (strncmp(line, "good\t", 5) != 0)
            continue;
        char *command = line + 5, *reply = strchr(command, '\t') + 1;
        reply[-1] = '\0';
        unescape(command);
        cut cut = {.reply = reply, .lines = 1, .size = unescape(reply)};
        for (const char *at = command; (at = strchr(at, '\n')) != NULL; at++)
            cut.lines++;
        for (int turn = 0; turn < 3; turn++) {
            cut.is_reset = turn == 1;
            cut.is_silent = turn == 2;
            if (cut.is_silent && strncmp(reply, "target 1 udp", 12) != 0)
                continue;
            CHECK(is_told(command, &cut));
            end_children();
        }
    }
    free(text);
}

static void keep_set(void *context, size_t place, const siploc_reply *reply)
{
    if (place == 0)
        snprintf(context, 64, "%s %s %s", reply->code, reply->name, reply->kind);
    else
        strcat(context, strstr(reply->meaning, "does not know") != NULL ? " and unknown" : "");
}

static void serve_refusals(int stream, const void *context)
{
    (void)context;
    take_lines(stream, 2);
    put(stream, "err L1 a.example.com. EXISTS\nerr Q9\n", 36);
    take_all(stream);
}

/* L1 names the set that changed; a code that is not known is a refusal all the same. */
static void what_a_refused_find_names(void)
{
    const char *const commands[] = {"find sip:a", "find sip:a"};
    char seen[128] = "";
    siploc *session = connect_to_fake(serve_refusals, NULL, 10000);
    CHECK(session != NULL && siploc_batch(session, commands, 2, keep_set, seen) == SIPLOC_OK);
    siploc_close(session);
    CHECK(strcmp(seen, "L1 a.example.com. EXISTS and unknown") == 0);
}

static void serve_garbage(int stream, const void *context)
{
    take_lines(stream, 1);
    for (int i = 0; i < 100000; i++)
        put(stream, context, strlen(context));
    take_all(stream);
}

/* A line, and a reply, that never end. */
static void garbage_without_end(void)
{
    const char *const texts[] = {"xxxxxxxxxx", "dep a. A 1\n", "dep a. A 1"};
    for (int i = 0; i < 3; i++) {
        siploc *session = connect_to_fake(serve_garbage, texts[i], 20000);
        CHECK(session != NULL);
        siploc_status status = siploc_deps(session, "sip:a", NULL);
        siploc_close(session);
        CHECK(status == SIPLOC_BAD_REPLY);
    }
}

static void serve_at_once(int stream, const void *context)
{
    char octet;
    if (read(stream, &octet, 1) == 1)
        put(stream, context, strlen(context));
    pause_for(20000);
}

/* A reply to a zone of which lines are still to be sent: what was sent next would be taken for them. */
static void reply_before_its_command(void)
{
    static char text[60000000];
    memset(text, 'x', sizeof text - 1);
    for (size_t i = 59999; i < sizeof text; i += 60000)
        text[i] = '\n';
    text[sizeof text - 1] = '\0';
    siploc *session = connect_to_fake(serve_at_once, "ok zone 1 0 0 1\n", 10000);
    CHECK(session != NULL && siploc_load(session, "e.", text, NULL) == SIPLOC_BAD_REPLY);
    CHECK(siploc_broken(session).sent == 1 && !siploc_is_open(session));
    siploc_close(session);
}

static void serve_one_line(int stream, const void *context)
{
    char octets[64];
    ssize_t count = read(stream, octets, sizeof octets);
    (void)context;
    if (count == 7 && memcmp(octets, "repair\n", 7) == 0)
        put(stream, "ok repair\n", 10);
    take_all(stream);
}

/* What would break the protocol is refused before it is sent, and the session goes on. */
static void invalid_commands_are_not_sent(void)
{
    static char name[65600] = "zone ";
    memset(name + 5, 'a', 65536);
    strcpy(name + 5 + 65536, " 1\na");
    const char *const texts[] = {"", " ", "\t", "#", "# find sip:a", "quit", " quit\t", "find sip:a\n", "find sip:a\nquit",
                                 "find sip:a\r", "add a.e. A 192.0.2.1\rx", "zone e. 1", "zone e. 0\nfind sip:a",
                                 "zone e. 2\na A 192.0.2.1", "zone e. 1048577\na", "zone e.\na", "zone e. 1\na\r",
                                 "zone e. 99999999999999999999\na", "zone e. 0000000000000000000000001", name};
    const siploc_target blank = {"udp", "a b", 1}, empty = {"udp", "", 1};
    siploc *s = connect_to_fake(serve_one_line, NULL, 10000);
    CHECK(s != NULL);
    for (size_t i = 0; i < sizeof texts / sizeof texts[0]; i++) {
        const char *const commands[] = {"find sip:a", texts[i]};
        CHECK(siploc_batch(s, commands, 2, NULL, NULL) == SIPLOC_INVALID && siploc_invalid_place(s) == 1);
    }
    CHECK(siploc_batch(s, texts, 1, NULL, NULL) == SIPLOC_INVALID && siploc_invalid_place(s) == 0);
    CHECK(siploc_find(s, "sip:a seed 1", NULL, NULL) == SIPLOC_INVALID);
    CHECK(siploc_find(s, "", NULL, NULL) == SIPLOC_INVALID && siploc_deps(s, "sip:a\n", NULL) == SIPLOC_INVALID);
    CHECK(siploc_add(s, "a.e. A 192.0.2.1\ndel a.e. A 192.0.2.1", NULL) == SIPLOC_INVALID);
    CHECK(siploc_remove(s, "a.e. A 192.0.2.1\r", NULL) == SIPLOC_INVALID);
    CHECK(siploc_drop(s, "e. f.", NULL) == SIPLOC_INVALID && siploc_load(s, "e. 0", "", NULL) == SIPLOC_INVALID);
    CHECK(siploc_load(s, "e.", "a A\r192.0.2.1", NULL) == SIPLOC_INVALID);
    CHECK(siploc_hold(s, &blank, 1, NULL) == SIPLOC_INVALID && siploc_release(s, &empty, NULL) == SIPLOC_INVALID);
    CHECK(siploc_call(s, "invite x", 1, "sip:a", NULL, NULL) == SIPLOC_INVALID);
    /* The first line that the server receives is this one. */
    CHECK(siploc_repair(s, NULL) == SIPLOC_OK);
    siploc_close(s);
}

static void serve_text(int stream, const void *context)
{
    put(stream, context, strlen(context));
}

static void serve_octet(int stream, const void *context)
{
    char octet;
    if (read(stream, &octet, 1) == 1)
        put(stream, context, strlen(context));
}

static void keep_code(void *context, size_t place, const siploc_reply *reply)
{
    snprintf(context, 128, "%zu %s", place, reply->code);
}

/* A session that the server has closed or refused: a command that is sent later was not done; one that was read may
 * be. */
static void lost_before_and_after(void)
{
    const siploc_reply *reply;
    siploc *s = connect_to_fake(serve_text, "", 10000);
    wait_for_child(children[child_count - 1]); /* (the server has closed the connection) */
    CHECK(s != NULL && siploc_add(s, "a.e. A 192.0.2.1", NULL) == SIPLOC_LOST);
    CHECK(!siploc_broken(s).may_be_done && siploc_broken(s).sent == 0);
    siploc_close(s);
    s = connect_to_fake(serve_octet, "", 10000);
    CHECK(s != NULL && siploc_add(s, "a.e. A 192.0.2.1", NULL) == SIPLOC_LOST);
    CHECK(siploc_broken(s).may_be_done && siploc_broken(s).replied == 0);
    siploc_close(s);
    s = connect_to_fake(serve_text, "err Busy\n", 10000);
    wait_for_child(children[child_count - 1]);
    CHECK(s != NULL && siploc_add(s, "a.e. A 192.0.2.1", &reply) == SIPLOC_REFUSED);
    CHECK(strcmp(reply->code, "Busy") == 0 && siploc_repair(s, NULL) == SIPLOC_NOT_CONNECTED);
    siploc_close(s);
}

/* A session that is refused as commands are on their way: none was carried out. */
static void refused_as_commands_come(void)
{
    const char *const commands[] = {"repair", "repair", "repair"};
    const siploc_reply *reply;
    char seen[128] = "";
    siploc *s = connect_to_fake(serve_octet, "err Busy\n", 10000);
    CHECK(s != NULL && siploc_is_open(s) && siploc_add(s, "a.e. A 192.0.2.1", &reply) == SIPLOC_REFUSED);
    CHECK(strcmp(reply->code, "Busy") == 0 && !siploc_is_open(s));
    CHECK(siploc_repair(s, NULL) == SIPLOC_NOT_CONNECTED);
    siploc_close(s);
    s = connect_to_fake(serve_octet, "err Busy\n", 10000);
    CHECK(s != NULL && siploc_batch(s, commands, 3, keep_code, seen) == SIPLOC_REFUSED);
    CHECK(strcmp(seen, "0 Busy") == 0 && !siploc_broken(s).may_be_done);
    CHECK(siploc_repair(s, NULL) == SIPLOC_NOT_CONNECTED);
    siploc_close(s);
}

static void serve_finds(int stream, const void *context)
{
    (void)context;
    for (int i = 0; i < 2; i++) {
        take_lines(stream, 1);
        put(stream, "target 1 udp 192.0.2.1 5060\nok find 1\n", 38);
    }
    take_all(stream);
}

/* Each allocation fails in turn: before anything is sent the session goes on, after that it has ended. */
static void allocations_that_fail(void)
{
    int lost = 0, unsent = 0;
    for (bool has_failed_one = true; has_failed_one; end_children()) {
        int port, listener = listen_somewhere(false, &port);
        char address[32];
        siploc *s;
        snprintf(address, sizeof address, "127.0.0.1:%d", port);
        if (start_child() == 0) {
            serve_finds(accept(listener, NULL, NULL), NULL);
            _exit(0);
        }
        close(listener);
        allocations = lost + unsent;
        siploc_status status = siploc_connect(address, 10000, &s);
        CHECK(s != NULL ? status == SIPLOC_OK : status == SIPLOC_NO_MEMORY && allocations < 0);
        if (s == NULL) {
            unsent++;
            continue;
        }
        const siploc_reply *reply;
        status = siploc_find(s, "sip:a", NULL, &reply);
        has_failed_one = allocations < 0;
        allocations = -1;
        if (status == SIPLOC_LOST) {
            lost++;
            CHECK(siploc_broken(s).cause == ENOMEM && siploc_broken(s).may_be_done);
            CHECK(siploc_find(s, "sip:a", NULL, &reply) == SIPLOC_NOT_CONNECTED);
        } else {
            unsent += has_failed_one;
            CHECK(status == (has_failed_one ? SIPLOC_NO_MEMORY : SIPLOC_OK));
            CHECK(siploc_find(s, "sip:a", NULL, &reply) == SIPLOC_OK && reply->target_count == 1);
        }
        siploc_close(s);
    }
    CHECK(unsent > 3 && lost > 3);
}

static void serve_repair_and_quit(int stream, const void *context)
{
    char lines[32] = "";
    (void)context;
    for (size_t size = 0; size < 7; size += (size_t)(read(stream, lines + size, 7 - size)))
        ;
    put(stream, "ok repair\n", 10);
    for (size_t size = 7; size < 12; size += (size_t)(read(stream, lines + size, 12 - size)))
        ;
    put(stream, "ok quit\n", 8);
    if (strcmp(lines, "repair\nquit\n") != 0)
        _exit(1);
}

/* The child of a fork sends nothing in its parent's session, nor ends it. */
static void forks(void)
{
    siploc *s = connect_to_fake(serve_repair_and_quit, NULL, 10000);
    CHECK(s != NULL);
    pid_t server = children[0], child = start_child();
    if (child == 0) {
        bool is_right = siploc_find(s, "sip:a", NULL, NULL) == SIPLOC_NOT_CONNECTED && !siploc_is_open(s);
        siploc_close(s);
        _exit(!is_right);
    }
    CHECK(wait_for_child(child) == 0);
    CHECK(siploc_repair(s, NULL) == SIPLOC_OK && siploc_is_open(s));
    siploc_close(s);
    CHECK(wait_for_child(server) == 0);
}

/* A session over a socket that is there; over none, and where there is no memory, it stays the caller's. */
static void session_over_a_socketpair(void)
{
    int ends[2];
    siploc *s;
    CHECK(siploc_new(-1, 1000, &s) == SIPLOC_NOT_CONNECTED && s == NULL && errno == EBADF);
    CHECK(socketpair(AF_UNIX, SOCK_STREAM, 0, ends) == 0);
    for (allocations = 0; allocations < 2;) {
        int count = allocations;
        CHECK(siploc_new(ends[0], 1000, &s) == SIPLOC_NO_MEMORY && s == NULL);
        allocations = count + 1;
    }
    allocations = -1;
    CHECK(siploc_new(ends[0], 10000, &s) == SIPLOC_OK);
    CHECK((fcntl(ends[0], F_GETFL) & O_NONBLOCK) != 0 && (fcntl(ends[0], F_GETFD) & FD_CLOEXEC) != 0);
    pid_t server = start_child();
    if (server == 0) {
        close(ends[0]);
        serve_repair_and_quit(ends[1], NULL);
        _exit(0);
    }
    close(ends[1]);
    CHECK(siploc_is_open(s) && siploc_repair(s, NULL) == SIPLOC_OK);
    siploc_close(s);
    CHECK(fcntl(ends[0], F_GETFD) < 0 && wait_for_child(server) == 0);
}

static void serve_repairs(int stream, const void *context)
{
    int count = *(const int *)context;
    take_lines(stream, (size_t)count);
    for (int i = 0; i < count; i++)
        put(stream, "ok repair\n", 10);
    take_all(stream);
}

/* A connection that takes no more, as for want of buffers: what is due is still read, and then the cause told. */
static void send_that_fails(void)
{
    const char *const commands[] = {"repair", "repair", "repair"};
    const int sizes[] = {0, 7, 10, 14}, replied[] = {0, 1, 1, 2}, sent[] = {0, 1, 2, 2};
    for (int i = 0; i < 4; i++) {
        struct timespec begin, end;
        siploc *s = connect_to_fake(serve_repairs, &replied[i], 20000);
        CHECK(s != NULL);
        clock_gettime(CLOCK_MONOTONIC, &begin);
        octets_taken = sizes[i];
        siploc_status status = siploc_batch(s, commands, 3, NULL, NULL);
        octets_taken = -1;
        clock_gettime(CLOCK_MONOTONIC, &end);
        siploc_doubt doubt = siploc_broken(s);
        bool is_right = status == SIPLOC_LOST && doubt.cause == ENOBUFS && *doubt.detail != '\0' && !siploc_is_open(s);
        siploc_close(s);
        CHECK(is_right && doubt.replied == (size_t)replied[i] && doubt.sent == (size_t)sent[i]);
        CHECK(end.tv_sec - begin.tv_sec < 10);
    }
}

/* A TCP connection that was there is reset too: of a zone that is cut the server would take a part. What is no stream
 * socket is none. */
static void connection_that_is_given(void)
{
    int port, listener = listen_somewhere(false, &port), ends[2];
    struct sockaddr_in place = {.sin_family = AF_INET, .sin_addr = {htonl(INADDR_LOOPBACK)}};
    place.sin_port = htons((uint16_t)port);
    char octets[64];
    siploc *s;
    int stream = socket(AF_INET, SOCK_STREAM, 0);
    CHECK(connect(stream, (struct sockaddr *)&place, sizeof place) == 0);
    int server = accept(listener, NULL, NULL);
    CHECK(siploc_new(stream, 50, &s) == SIPLOC_OK);
    siploc_status status = siploc_load(s, "e.", "a A 192.0.2.1", NULL);
    siploc_close(s);
    ssize_t count = read(server, octets, sizeof octets);
    count = count > 0 ? read(server, octets, sizeof octets) : count;
    bool is_reset = count < 0 && errno == ECONNRESET;
    close(server);
    close(listener);
    CHECK(status == SIPLOC_TIMED_OUT && is_reset);
    CHECK(pipe(ends) == 0);
    CHECK(siploc_new(ends[1], 50, &s) == SIPLOC_NOT_CONNECTED && s == NULL && errno == ENOTSOCK);
    CHECK((fcntl(ends[1], F_GETFL) & O_NONBLOCK) == 0);
    close(ends[0]);
    close(ends[1]);
}

static void serve_nothing(int stream, const void *context)
{
    (void)stream;
    (void)context;
    pause_for(20000);
}

static void serve_slowly(int stream, const void *context)
{
    (void)context;
    char octet;
    if (read(stream, &octet, 1) == 1)
        while (write(stream, "t", 1) == 1)
            pause_for(50);
}

/* No reply, one that comes too slowly, and a server that takes nothing. */
static void timeouts(void)
{
    static char line[60000] = "find sip:";
    static const char *commands[1000];
    memset(line + 9, 'a', sizeof line - 10);
    for (int i = 0; i < 1000; i++)
        commands[i] = line;
    for (int turn = 0; turn < 4; turn++) {
        struct timespec begin, end;
        siploc *s = connect_to_fake(turn % 2 == 0 ? serve_nothing : serve_slowly, NULL, 400);
        CHECK(s != NULL);
        clock_gettime(CLOCK_MONOTONIC, &begin);
        siploc_status status = siploc_batch(s, commands, turn < 2 ? 1 : 1000, NULL, NULL);
        clock_gettime(CLOCK_MONOTONIC, &end);
        siploc_doubt doubt = siploc_broken(s);
        siploc_close(s);
        double seconds = (double)(end.tv_sec - begin.tv_sec) + (double)(end.tv_nsec - begin.tv_nsec) / 1e9;
        CHECK(status == SIPLOC_TIMED_OUT && seconds > 0.39 && seconds < 15);
        CHECK(doubt.may_be_done && doubt.replied == 0 && doubt.sent < 1000);
    }
}

static void addresses(void)
{
    char path[128] = "unix:", address[64];
    siploc *session;
    memset(path + 5, 'x', 108);
    const char *const wrong[] = {"", "127.0.0.1", "localhost:0", "localhost:999999", "192.0.2.1:5099", "[2001:db8::1]:5099", "127.0.0.1:0",
                                 "127.0.0.1:65536", "127.0.0.1:x", "::1:5099", "unix:", path, "[127.0.0.1]:5099",
                                 "300.0.0.1:1", ":1", "[]:1", "[::1:5099", "[::ffff:127.0.0.1]:5099", "[::1%lo]:5099"};
    for (size_t i = 0; i < sizeof wrong / sizeof wrong[0]; i++)
        CHECK(siploc_connect(wrong[i], 1000, &session) == SIPLOC_INVALID);
    snprintf(address, sizeof address, "127.0.0.1:%d", free_port(false));
    CHECK(siploc_connect(address, 1000, &session) == SIPLOC_NOT_CONNECTED && errno == ECONNREFUSED);
    snprintf(address, sizeof address, "[::1]:%d", free_port(true));
    CHECK(siploc_connect(address, 1000, &session) == SIPLOC_NOT_CONNECTED);
    CHECK(siploc_connect("unix:/nonexistent/socket", 1000, &session) == SIPLOC_NOT_CONNECTED && errno == ENOENT);
    siploc_close(NULL);
    for (int turn = 0; turn < 2; turn++) {
        struct sockaddr_in6 v6 = {.sin6_family = AF_INET6, .sin6_addr = IN6ADDR_LOOPBACK_INIT};
        struct sockaddr_in v4 = {.sin_family = AF_INET, .sin_addr.s_addr = htonl(INADDR_LOOPBACK)};
        struct sockaddr *place = turn ? (struct sockaddr *)&v6 : (struct sockaddr *)&v4;
        socklen_t size = turn ? sizeof v6 : sizeof v4;
        int listener = socket(place->sa_family, SOCK_STREAM, 0);
        CHECK(bind(listener, place, size) == 0 && listen(listener, 1) == 0 && getsockname(listener, place, &size) == 0);
        snprintf(address, sizeof address, "localhost:%d", ntohs(turn ? v6.sin6_port : v4.sin_port));
        CHECK(siploc_connect(address, 200, &session) == SIPLOC_OK);
        siploc_close(session);
        close(listener);
        CHECK(siploc_connect(address, 200, &session) == SIPLOC_NOT_CONNECTED && errno == ECONNREFUSED);
    }
    /* Of localhost the cause is that of 127.0.0.1, where so many clients wait that no more can. */
    int port, full = listen_somewhere(false, &port), clients[2];
    struct sockaddr_in v4 = {.sin_family = AF_INET, .sin_addr.s_addr = htonl(INADDR_LOOPBACK), .sin_port = htons((uint16_t)port)};
    CHECK(listen(full, 0) == 0);
    for (int i = 0; i < 2; i++) {
        clients[i] = socket(AF_INET, SOCK_STREAM, 0);
        fcntl(clients[i], F_SETFL, O_NONBLOCK);
        connect(clients[i], (struct sockaddr *)&v4, sizeof v4);
    }
    snprintf(address, sizeof address, "localhost:%d", port);
    CHECK(siploc_connect(address, 200, &session) == SIPLOC_NOT_CONNECTED && errno == ETIMEDOUT);
    close(clients[0]);
    close(clients[1]);
    close(full);
}

/* A port is a number, which may have leading zeros. */
static void ports_with_leading_zeros(void)
{
    const char *const hosts[] = {"127.0.0.1", "localhost", "[::1]"};
    const char *const wrong[] = {"000000000000", "00000000000065536", "", "+5099", "5 099"};
    char address[64];
    siploc *s;
    for (int i = 0; i < 3; i++) {
        int port, listener = listen_somewhere(i == 2, &port);
        snprintf(address, sizeof address, "%s:%012d", hosts[i], port);
        CHECK(siploc_connect(address, 5, &s) == SIPLOC_OK);
        siploc_close(s);
        close(listener);
        snprintf(address, sizeof address, "%s:%012d", hosts[i], 65536);
        CHECK(siploc_connect(address, 5, &s) == SIPLOC_INVALID);
    }
    for (size_t i = 0; i < sizeof wrong / sizeof wrong[0]; i++) {
        snprintf(address, sizeof address, "127.0.0.1:%s", wrong[i]);
        CHECK(siploc_connect(address, 5, &s) == SIPLOC_INVALID);
        snprintf(address, sizeof address, "localhost:%s", wrong[i]);
        CHECK(siploc_connect(address, 5, &s) == SIPLOC_INVALID);
    }
}

/* Where nobody listens, the system may choose the port itself for the client, which is then its own server. */
static void connection_with_itself(void)
{
    const char *const kinds[] = {"127.0.0.1:%d", "[::1]:%d"};
    for (int i = 0; i < 2; i++) {
        char address[32];
        siploc *session;
        snprintf(address, sizeof address, kinds[i], free_port(i == 1));
        is_bound = true;
        siploc_status status = siploc_connect(address, 1000, &session);
        int cause = errno;
        is_bound = false;
        CHECK(status == SIPLOC_NOT_CONNECTED && session == NULL && cause == ECONNREFUSED);
    }
}

/* A program that is started at any moment has no descriptor of a session. */
static void programs_that_are_started(void)
{
    const char *const kinds[] = {"127.0.0.1:%d", "[::1]:%d"};
    for (int i = 0; i < 2; i++) {
        int port, listener = listen_somewhere(i == 1, &port);
        char address[32];
        siploc *session;
        snprintf(address, sizeof address, kinds[i], port);
        was_inherited = false;
        CHECK(siploc_connect(address, 1000, &session) == SIPLOC_OK);
        CHECK(!was_inherited);
        siploc_set_timeout(session, 1);
        siploc_close(session);
        close(listener);
    }
}

enum { ZONE_LINES = 1000000 };

static void serve_zone(int stream, const void *context)
{
    static char octets[1 << 20];
    (void)context;
    for (size_t lines = 0; lines < ZONE_LINES + 1;) {
        ssize_t count = read(stream, octets, sizeof octets);
        for (ssize_t i = 0; i < count; i++)
            lines += octets[i] == '\n';
        if (count <= 0)
            return;
    }
    put(stream, "ok zone 0 0 0 0\n", 16);
    take_all(stream);
}

/* How many octets of memory this process has, used or not. */
static size_t memory(void)
{
    char text[128] = "";
    FILE *file = fopen("/proc/self/statm", "r");
    size_t pages = 0;
    if (file == NULL || fread(text, 1, sizeof text - 1, file) == 0 || sscanf(text, "%zu", &pages) != 1)
        abort();
    fclose(file);
    return pages * (size_t)sysconf(_SC_PAGESIZE);
}

/* A session that has loaded a large zone does not keep its memory. */
static void memory_of_a_large_zone(void)
{
    static char text[ZONE_LINES * 41 + 1];
    for (size_t i = 0; i < ZONE_LINES; i++)
        memcpy(text + i * 41, "a A 192.0.2.1 ; 456789012345678901234567\n", 41);
    siploc *session = connect_to_fake(serve_zone, NULL, 60000);
    CHECK(session != NULL);
    size_t before = memory();
    CHECK(siploc_load(session, "e.", text, NULL) == SIPLOC_OK);
    size_t after = memory();
    siploc_close(session);
#ifndef __SANITIZE_ADDRESS__ /* (which keeps for a while what was freed) */
    CHECK(after < before + (1 << 24));
#endif
    (void)before, (void)after;
}

/* A Unix socket that has as many clients waiting as it takes is waited for, as long as is given. */
static void full_queue(void)
{
    struct sockaddr_un place = {.sun_family = AF_UNIX};
    char folder[] = "/tmp/siploc-test-XXXXXX", address[128];
    int clients[8], count = 0, listener = socket(AF_UNIX, SOCK_STREAM, 0);
    siploc *session;
    CHECK(mkdtemp(folder) != NULL);
    snprintf(place.sun_path, sizeof place.sun_path, "%s/s", folder);
    snprintf(address, sizeof address, "unix:%s", place.sun_path);
    CHECK(bind(listener, (struct sockaddr *)&place, sizeof place) == 0 && listen(listener, 0) == 0);
    do {
        clients[count] = socket(AF_UNIX, SOCK_STREAM, 0);
        fcntl(clients[count], F_SETFL, O_NONBLOCK);
    } while (connect(clients[count++], (struct sockaddr *)&place, sizeof place) == 0 && count < 8);
    CHECK(errno == EAGAIN);
    CHECK(siploc_connect(address, 300, &session) == SIPLOC_NOT_CONNECTED && errno == ETIMEDOUT);
    if (start_child() == 0) {
        pause_for(300);
        accept(listener, NULL, NULL);
        pause_for(20000);
        _exit(0);
    }
    CHECK(siploc_connect(address, 20000, &session) == SIPLOC_OK);
    siploc_set_timeout(session, 1);
    siploc_close(session);
    while (count > 0)
        close(clients[--count]);
    close(listener);
    unlink(place.sun_path);
    rmdir(folder);
}

int main(int count, char **words)
{
    static const struct {
        const char *name;
        void (*run)(void);
    } tests[] = {
#define TEST(name) {#name, name}
        TEST(readme_session_in_a_batch), TEST(readme_session_by_calls), TEST(other_calls), TEST(pages),
        TEST(commands_that_are_made), TEST(each_refusal),
        TEST(refusals_by_calls), TEST(finds_in_batches), TEST(batch_of_more_than_the_sockets_hold),
        TEST(server_that_ends_in_the_midst), TEST(client_that_is_killed_in_a_zone), TEST(example_program), TEST(replies),
        TEST(changed_replies),
        TEST(cut_at_each_octet), TEST(what_a_refused_find_names), TEST(garbage_without_end), TEST(reply_before_its_command), TEST(invalid_commands_are_not_sent), TEST(lost_before_and_after), TEST(refused_as_commands_come), TEST(allocations_that_fail), TEST(forks), TEST(session_over_a_socketpair), TEST(timeouts),
        TEST(send_that_fails), TEST(connection_that_is_given),
        TEST(addresses), TEST(ports_with_leading_zeros),
        TEST(connection_with_itself), TEST(programs_that_are_started), TEST(memory_of_a_large_zone), TEST(full_queue)};
    int passed = 0, failed = 0;
    program = getenv("SIPLOC");
    if (count < 3 || program == NULL)
        return 2;
    top = words[1];
    example = words[2];
    for (size_t i = 0; i < sizeof tests / sizeof tests[0]; i++) {
        if (count > 3 && strcmp(words[3], tests[i].name) != 0)
            continue;
        has_failed = false;
        tests[i].run();
        end_children();
        if (has_failed)
            printf("FAIL %s\n", tests[i].name);
        *(has_failed ? &failed : &passed) += 1;
    }
    printf("%d passed, %d failed\n", passed, failed);
    return failed > 0;
}
