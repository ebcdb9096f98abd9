#define _POSIX_C_SOURCE 200809L

#include "siploc.h"

#include <arpa/inet.h>
#include <errno.h>
#include <fcntl.h>
#include <netinet/in.h>
#include <netinet/tcp.h>
#include <poll.h>
#include <stdio.h>
#include <stdlib.h>
#include <string.h>
#include <sys/socket.h>
#include <sys/un.h>
#include <time.h>
#include <unistd.h>

/* A program that another thread starts meanwhile does not have the socket, where the system has that. */
#ifdef SOCK_CLOEXEC
#define CLOEXEC SOCK_CLOEXEC
#else
#define CLOEXEC 0
#endif

enum {
    MAX_LINE = 65536,
    MAX_ZONE_LINES = 1048576,
    MAX_REPLY_LINE = 4096,
    MAX_REPLY_LINES = 65536,
    MAX_FIELDS = 7,
    MAX_KEPT = 1 << 17,
    INPUT = 1 << 18
};

/* The commands that have replies of their own forms. */
typedef enum word {
    ZONE,
    DROP,
    ADD,
    DEL,
    FIND,
    DEPS,
    REPAIR,
    PAGE,
    HOLD,
    RELEASE,
    CLOCK,
    CALL,
    GOT,
    BROKE,
    QUIT,
    OTHER
} word;

/* The word of each, and how many numbers come after `ok` and it. */
static const struct {
    const char *text;
    size_t count;
} words[OTHER] = {{"zone", 4}, {"drop", 1}, {"add", 1},     {"del", 1},   {"find", 1},
                  {"deps", 1}, {"repair", 0}, {"page", 2},  {"hold", 0},  {"release", 0},
                  {"clock", 1}, {"call", 0}, {"got", 0},    {"broke", 0}, {"quit", 0}};

static const struct {
    const char *code;
    const char *meaning;
} meanings[] = {
    {"N1", "a name has an empty label"},
    {"N2", "a label has more than 63 octets"},
    {"N3", "a name has more than 255 octets"},
    {"N4", "a name has an invalid escape"},
    {"Z1", "a name of the record is invalid, or a string has an invalid escape"},
    {"Z2", "a field of the record is missing, its type is invalid, or a directive is unknown"},
    {"Z3", "a number or a TTL is invalid or too large"},
    {"Z4", "an address of the record is invalid"},
    {"Z5", "a parenthesis closes none, or is not closed"},
    {"Z6", "a quoted field is not closed before the end of its line"},
    {"Z7", "the class is not IN"},
    {"Z8", "$INCLUDE is refused"},
    {"Z9", "$GENERATE is refused"},
    {"Z10", "the generic form of a type that is read is refused"},
    {"Z11", "a string has more than 255 octets"},
    {"Z12", "the record has no owner"},
    {"Z13", "the record has a field too many"},
    {"Z14", "an alias is beside other data"},
    {"Z15", "a set has more than 32 records"},
    {"U1", "the scheme of the URI is neither sip nor sips"},
    {"U2", "a host of the URI is invalid"},
    {"U3", "the port of the URI is not a number from 1 to 65,535"},
    {"U4", "the transport of the URI is unknown or absent"},
    {"U5", "a parameter of the URI is repeated"},
    {"U6", "sips excludes the transport of the URI"},
    {"U7", "the URI has an octet that is not allowed, or an empty parameter"},
    {"A1", "the address is invalid"},
    {"V1", "there are more than 32 random words"},
    {"K1", "there is no such command, or its fields do not fit"},
    {"K2", "a line has more than 65,536 octets, or the lines of a zone more than `zone_octets`"},
    {"K3", "there is no call"},
    {"K4", "a call has not ended"},
    {"X1", "the time is before that of the call's last clock"},
    {"X2", "the status code is not within 100 to 699"},
    {"F1", "the call would have no target"},
    {"F2", "the call has ended"},
    {"F3", "the call has sent no such attempt"},
    {"S1", "a loaded zone is above or below this one"},
    {"S2", "no such zone is loaded, or the owner is in no loaded zone"},
    {"S3", "the record is in the zone already"},
    {"S4", "there is no such record"},
    {"S5", "an alias would be beside other data of its owner"},
    {"S6", "the set has 32 records"},
    {"S7", "there would be more records than the settings allow"},
    {"S8", "the numbers that changed sets take are used up"},
    {"S9", "the first label of the apex is a wildcard"},
    {"O1", "the time would go back"},
    {"O2", "a time would be after 2^52"},
    {"O3", "the endpoint is not held"},
    {"O4", "as many endpoints are held as the settings allow"},
    {"B3", "the journal is full: a page makes room"},
    {"B6", "no number is left for another page"},
    {"L1", "a record set changed in each of the tries: ask again"},
    {"Memory", "an allocation failed"},
    {"D1", "the time is the host's: holds end by themselves"},
    {"D2", "changes can't be kept at present: the daemon can't write to its state"},
    {"D3", "the address is for questions only"},
    {"Busy", "there are as many clients as the settings allow"}};

/* A growable array. */
typedef struct array {
    char *items;
    size_t size; /* in octets */
    size_t capacity;
} array;

struct siploc {
    int stream; /* -1 when the session has ended */
    pid_t process;
    int timeout;
    bool is_busy; /* within a call, such as in the function that siploc_batch calls */
    array line;   /* the command of a call */
    /* What was read, and is not yet taken: input[begin..end]. */
    char *input;
    size_t begin, end;
    /* The reply that is coming: its text, where its lines begin in it, and what they say. */
    array text, starts, lines, targets, dependencies, steps;
    size_t line_count;
    siploc_reply reply;
    size_t invalid_place; /* of the last batch that was refused here */
    char code[33], name[1024], kind[7];
    siploc_doubt doubt;
    char detail[256];
};

/* A command that is ready to be sent. */
typedef struct command {
    const char *text;
    size_t length;
    word word;
} command;

const char *siploc_meaning(const char *code)
{
    for (size_t i = 0; i < sizeof meanings / sizeof meanings[0]; i++)
        if (strcmp(code, meanings[i].code) == 0)
            return meanings[i].meaning;
    return "a code that this client does not know";
}

const char *siploc_status_text(siploc_status status)
{
    switch (status) {
    case SIPLOC_OK: return "done";
    case SIPLOC_REFUSED: return "refused";
    case SIPLOC_INVALID: return "no address, or a command that would break the protocol and was not sent";
    case SIPLOC_NO_MEMORY: return "out of memory";
    case SIPLOC_NOT_CONNECTED: return "not connected";
    case SIPLOC_LOST: return "the connection was lost";
    case SIPLOC_TIMED_OUT: return "there was no progress in the time that is set";
    case SIPLOC_BAD_REPLY: return "the reply is none that the protocol has";
    case SIPLOC_HALF_REPLY: return "the connection ended within a reply";
    }
    return "unknown status";
}

/* Space for further octets at the end of an array; NULL where there is no memory. */
static void *grow(array *array, size_t size)
{
    if (array->capacity - array->size < size) {
        size_t capacity = array->capacity < 256 ? 256 : array->capacity;
        while (capacity - array->size < size) {
            if (capacity > SIZE_MAX / 2)
                return NULL;
            capacity *= 2;
        }
        char *items = realloc(array->items, capacity);
        if (items == NULL)
            return NULL;
        array->items = items;
        array->capacity = capacity;
    }
    void *place = array->items + array->size;
    array->size += size;
    return place;
}

/* Appends octets; whether there was memory. */
static bool append(array *array, const void *octets, size_t size)
{
    void *place = grow(array, size);
    if (place != NULL)
        memcpy(place, octets, size);
    return place != NULL;
}

/* ---- What is read ---- */

/* A number as replies have them: decimal digits without leading zeros, up to a maximum. */
static bool read_number(const char *text, uint64_t max, uint64_t *value)
{
    *value = 0;
    if (*text == '\0' || (*text == '0' && text[1] != '\0'))
        return false;
    for (; *text != '\0'; text++) {
        if (*text < '0' || *text > '9')
            return false;
        uint64_t digit = (uint64_t)(*text - '0');
        if (*value > (max - digit) / 10)
            return false;
        *value = *value * 10 + digit;
    }
    return true;
}

/* Whether a text is one of a list that ends with NULL. */
static bool is_one_of(const char *text, const char *const *list)
{
    for (; *list != NULL; list++)
        if (strcmp(text, *list) == 0)
            return true;
    return false;
}

static bool is_kind(const char *text)
{
    static const char *const kinds[] = {"A", "AAAA", "CNAME", "SRV", "NAPTR", "EXISTS", NULL};
    return is_one_of(text, kinds);
}

/* The reason of `none`, as a text that stays; NULL where it is none. */
static const char *reason_of(const char *text)
{
    static const char *const reasons[] = {"NoAddress", "NotAvailable", "NoTransport", "AllHeld", NULL};
    for (const char *const *reason = reasons; *reason != NULL; reason++)
        if (strcmp(text, *reason) == 0)
            return *reason;
    return NULL;
}

/* Whether a text is a printed name, as far as replies need it. */
static bool is_name(const char *text)
{
    size_t length = strlen(text);
    for (size_t i = 0; i < length; i++)
        if (text[i] < '!' || text[i] > '~')
            return false;
    return 0 < length && length < sizeof((siploc_dependency *)0)->name;
}

/* Whether a text has the form of a refusal's code. */
static bool is_code(const char *text)
{
    size_t length = strlen(text);
    for (size_t i = 0; i < length; i++) {
        bool is_upper = 'A' <= text[i] && text[i] <= 'Z';
        bool is_other = ('a' <= text[i] && text[i] <= 'z') || ('0' <= text[i] && text[i] <= '9');
        if (!is_upper && (i == 0 || !is_other))
            return false;
    }
    return 0 < length && length < sizeof((siploc *)0)->code;
}

static bool is_hex(char letter)
{
    return ('0' <= letter && letter <= '9') || ('a' <= letter && letter <= 'f');
}

/* Whether an address is printed as the protocol has it. */
static bool is_address(const char *text)
{
    struct in_addr address;
    if (strchr(text, ':') == NULL)
        return inet_pton(AF_INET, text, &address) == 1;
    for (int groups = 1;; groups++) {
        int digits = 0;
        while (is_hex(text[digits]))
            digits++;
        if (digits < 1 || digits > 4 || groups > 8 || (*text == '0' && digits > 1))
            return false;
        text += digits;
        if (*text == '\0')
            return groups == 8;
        if (*text++ != ':')
            return false;
    }
}

/* A transport, an address and a port. */
static bool read_target(char **fields, siploc_target *target)
{
    static const char *const transports[] = {"udp", "tcp", "tls", "sctp", NULL};
    uint64_t port;
    if (!is_one_of(fields[0], transports) || !is_address(fields[1]) || !read_number(fields[2], UINT16_MAX, &port))
        return false;
    strcpy(target->transport, fields[0]);
    strcpy(target->address, fields[1]);
    target->port = (uint16_t)port;
    return true;
}

/* Reads the number of an attempt, which count from 1. */
static bool read_attempt(const char *text, uint32_t *attempt)
{
    uint64_t value;
    bool is_number = read_number(text, UINT32_MAX, &value);
    *attempt = (uint32_t)value;
    return is_number && value > 0;
}

/* Whether a text is the branch of an attempt. */
static bool is_branch(const char *text, uint32_t attempt)
{
    uint32_t other;
    size_t digits = 0;
    if (strncmp(text, "z9hG4bK", 7) != 0)
        return false;
    while (is_hex(text[7 + digits]))
        digits++;
    return digits == 16 && text[7 + 16] == '.' && read_attempt(text + 7 + 17, &other) && other == attempt;
}

static bool read_step(char **fields, size_t count, siploc_step *step)
{
    uint64_t value;
    memset(step, 0, sizeof *step);
    if (strcmp(fields[0], "send") == 0 && count == 6) {
        if (!read_attempt(fields[1], &step->attempt) || !read_target(fields + 2, &step->target) ||
            !is_branch(fields[5], step->attempt))
            return false;
        strcpy(step->branch, fields[5]);
        step->kind = SIPLOC_SEND;
        return true;
    }
    if ((strcmp(fields[0], "resend") == 0 || strcmp(fields[0], "ack") == 0) && count == 2) {
        step->kind = *fields[0] == 'r' ? SIPLOC_RESEND : SIPLOC_ACK;
        return read_attempt(fields[1], &step->attempt);
    }
    if (strcmp(fields[0], "hold") == 0 && count == 5) {
        step->kind = SIPLOC_HOLD;
        return read_target(fields + 1, &step->target) && read_number(fields[4], UINT64_MAX, &step->milliseconds);
    }
    if (strcmp(fields[0], "deliver") == 0 && count == 2) {
        step->kind = SIPLOC_DELIVER;
        bool is_number = read_number(fields[1], 699, &value);
        step->code = (uint16_t)value;
        return is_number && value >= 100;
    }
    step->kind = SIPLOC_EXHAUSTED;
    return strcmp(fields[0], "exhausted") == 0 && count == 1;
}

static bool has_steps(word word)
{
    return word == CLOCK || word == CALL || word == GOT || word == BROKE;
}

/* How a line of a reply was taken. */
typedef enum taken { MORE, DONE, BAD, NO_MEMORY } taken;

/* Takes a line of the reply to a command, before its last one. */
static taken take_body(siploc *s, word word, char **fields, size_t count)
{
    uint64_t value;
    if (s->line_count > MAX_REPLY_LINES)
        return BAD;
    if (word == FIND) {
        siploc_target *target = grow(&s->targets, sizeof *target);
        if (target == NULL)
            return NO_MEMORY;
        bool is_target = count == 5 && strcmp(fields[0], "target") == 0 && read_number(fields[1], UINT32_MAX, &value) &&
                         value == s->line_count && read_target(fields + 2, target);
        return is_target ? MORE : BAD;
    }
    if (word == DEPS) {
        if (count != 4 || strcmp(fields[0], "dep") != 0 || !is_name(fields[1]) || !is_kind(fields[2]) ||
            !read_number(fields[3], UINT64_MAX, &value))
            return BAD;
        siploc_dependency *dependency = grow(&s->dependencies, sizeof *dependency);
        if (dependency == NULL)
            return NO_MEMORY;
        strcpy(dependency->name, fields[1]);
        strcpy(dependency->kind, fields[2]);
        dependency->records = value;
        return MORE;
    }
    if (has_steps(word)) {
        siploc_step *step = grow(&s->steps, sizeof *step);
        if (step == NULL)
            return NO_MEMORY;
        return read_step(fields, count, step) ? MORE : BAD;
    }
    return BAD;
}

/* Takes the last line of the reply to a command. */
static taken take_last(siploc *s, word word, char **fields, size_t count)
{
    siploc_reply *reply = &s->reply;
    size_t before = s->line_count - 1;
    bool has_targets = word == FIND || word == CALL;
    if (strcmp(fields[0], "ok") == 0) {
        if (word == OTHER || count < 2 || strcmp(fields[1], words[word].text) != 0 || count - 2 != words[word].count)
            return BAD;
        for (size_t i = 2; i < count; i++)
            if (!read_number(fields[i], UINT64_MAX, &reply->counts[i - 2]))
                return BAD;
        if ((word == FIND || word == DEPS) && (reply->counts[0] != before || (word == FIND && before == 0)))
            return BAD;
        return DONE;
    }
    if (strcmp(fields[0], "none") == 0) {
        reply->reason = count == 2 ? reason_of(fields[1]) : NULL;
        return has_targets && before == 0 && reply->reason != NULL ? DONE : BAD;
    }
    if (strcmp(fields[0], "err") != 0 || count < 2 || (before > 0 && (word == CALL || !has_steps(word))))
        return BAD;
    const char *code = fields[1];
    if (count == 4 && has_targets && strcmp(code, "L1") == 0 && is_name(fields[2]) && is_kind(fields[3])) {
        strcpy(s->name, fields[2]);
        strcpy(s->kind, fields[3]);
        reply->name = s->name;
        reply->kind = s->kind;
    } else if (count == 4 && word == ZONE && strcmp(code, "zone") == 0) {
        if (!read_number(fields[2], UINT64_MAX, &reply->fault_line) || reply->fault_line == 0)
            return BAD;
        code = fields[3];
    } else if (count != 2 || (has_targets && strcmp(code, "L1") == 0)) {
        return BAD;
    }
    if (!is_code(code))
        return BAD;
    strcpy(s->code, code);
    reply->code = s->code;
    reply->meaning = siploc_meaning(s->code);
    return DONE;
}

/* Takes a line of the reply to a command, of so many octets without its end. */
static taken take_line(siploc *s, word word, const char *line, size_t length)
{
    char copy[MAX_REPLY_LINE + 1], *fields[MAX_FIELDS + 1];
    size_t count = 0, start = s->text.size;
    if (length > MAX_REPLY_LINE || memchr(line, '\0', length) != NULL)
        return BAD;
    memcpy(copy, line, length);
    copy[length] = '\0';
    if (!append(&s->text, copy, length + 1) || !append(&s->starts, &start, sizeof start))
        return NO_MEMORY;
    s->line_count++;
    bool is_last = strncmp(copy, "ok", 2) == 0 || strncmp(copy, "none", 4) == 0 || strncmp(copy, "err", 3) == 0;
    for (char *field = copy; field != NULL && count <= MAX_FIELDS;) {
        char *blank = strchr(field, ' ');
        if (blank != NULL)
            *blank++ = '\0';
        fields[count++] = field;
        field = blank;
    }
    if (count > MAX_FIELDS)
        return BAD;
    return is_last ? take_last(s, word, fields, count) : take_body(s, word, fields, count);
}

/* Makes the reply of the lines that were taken; whether there was memory. */
static bool finish_reply(siploc *s)
{
    for (size_t i = 0; i < s->line_count; i++) {
        size_t start;
        memcpy(&start, s->starts.items + i * sizeof start, sizeof start);
        const char *line = s->text.items + start;
        if (!append(&s->lines, &line, sizeof line))
            return false;
    }
    s->reply.lines = (const char *const *)(void *)s->lines.items;
    s->reply.line_count = s->line_count;
    s->reply.targets = (const siploc_target *)(void *)s->targets.items;
    s->reply.target_count = s->targets.size / sizeof(siploc_target);
    s->reply.dependencies = (const siploc_dependency *)(void *)s->dependencies.items;
    s->reply.dependency_count = s->dependencies.size / sizeof(siploc_dependency);
    s->reply.steps = (const siploc_step *)(void *)s->steps.items;
    s->reply.step_count = s->steps.size / sizeof(siploc_step);
    return true;
}

static void begin_reply(siploc *s)
{
    s->text.size = s->starts.size = s->lines.size = s->targets.size = s->dependencies.size = s->steps.size = 0;
    s->line_count = 0;
    memset(&s->reply, 0, sizeof s->reply);
}

/* ---- The connection ---- */

static void end_session(siploc *s)
{
    if (s->stream >= 0)
        close(s->stream);
    s->stream = -1;
}

/* Ends the session, and keeps what is known. */
static siploc_status broken(siploc *s, siploc_status status, int cause, const char *detail, size_t length)
{
    end_session(s);
    s->doubt.cause = cause;
    if (length >= sizeof s->detail)
        length = sizeof s->detail - 1;
    memcpy(s->detail, detail, length);
    s->detail[length] = '\0';
    s->doubt.detail = s->detail;
    return status;
}

static siploc_status lost(siploc *s, int cause)
{
    const char *detail = cause != 0 ? strerror(cause) : "the server has closed the connection";
    bool is_half = s->line_count > 0 || s->begin < s->end;
    return broken(s, is_half ? SIPLOC_HALF_REPLY : SIPLOC_LOST, cause, detail, strlen(detail));
}

static siploc_status no_memory(siploc *s)
{
    const char *detail = strerror(ENOMEM);
    return broken(s, SIPLOC_LOST, ENOMEM, detail, strlen(detail));
}

static siploc_status bad(siploc *s, const char *line, size_t length)
{
    return broken(s, SIPLOC_BAD_REPLY, 0, line, length);
}

/* The monotonic clock in milliseconds. */
static int64_t now(void)
{
    struct timespec time;
    clock_gettime(CLOCK_MONOTONIC, &time);
    return (int64_t)time.tv_sec * 1000 + time.tv_nsec / 1000000;
}

/* Waits for events until a time; 0 where none came, and -1 after an error. */
static int wait_for(int stream, short events, int64_t end)
{
    for (;;) {
        struct pollfd entry = {.fd = stream, .events = events};
        int64_t left = end - now();
        int count = poll(&entry, 1, left < 0 ? 0 : left > INT32_MAX ? INT32_MAX : (int)left);
        if (count > 0)
            return entry.revents;
        if (count == 0 || errno != EINTR)
            return count;
    }
}

static bool is_again(int cause)
{
    return cause == EAGAIN || cause == EWOULDBLOCK || cause == EINTR;
}

/* Looks, without waiting, for what came before any command was sent: the end of the connection, or a refusal of the
 * session. */
static siploc_status read_before(siploc *s)
{
    ssize_t count = recv(s->stream, s->input, INPUT, 0);
    if (count < 0)
        return is_again(errno) ? SIPLOC_OK : lost(s, errno);
    if (count == 0)
        return lost(s, 0);
    const char *end = memchr(s->input, '\n', (size_t)count);
    bool is_line = end != NULL && end + 1 == s->input + count;
    taken taken = is_line ? take_line(s, OTHER, s->input, (size_t)count - 1) : BAD;
    if (taken == NO_MEMORY || (taken == DONE && !finish_reply(s)))
        return no_memory(s);
    if (taken != DONE)
        return bad(s, s->input, (size_t)count);
    end_session(s);
    return SIPLOC_REFUSED;
}

/* Takes the replies that have come. `*replied` is how many there are of the commands. */
static siploc_status take_replies(siploc *s, const command *commands, size_t count, size_t *replied, siploc_each *each,
                                  void *context)
{
    char *end;
    while (s->begin < s->end && (end = memchr(s->input + s->begin, '\n', s->end - s->begin)) != NULL) {
        char *line = s->input + s->begin;
        size_t length = (size_t)(end - line);
        taken taken = *replied < count ? take_line(s, commands[*replied].word, line, length) : BAD;
        if (taken == BAD)
            return bad(s, line, length);
        s->begin += length + 1;
        if (taken == NO_MEMORY || (taken == DONE && !finish_reply(s)))
            return no_memory(s);
        if (taken == DONE && *replied == 0 && s->reply.code != NULL && strcmp(s->reply.code, "Busy") == 0) {
            end_session(s);
            return SIPLOC_REFUSED;
        }
        if (taken == DONE) {
            each(context, (*replied)++, &s->reply);
            if (*replied < count)
                begin_reply(s);
            else
                s->line_count = 0;
        }
    }
    size_t rest = s->end - s->begin;
    if (rest > MAX_REPLY_LINE || (rest > 0 && *replied == count))
        return bad(s, s->input + s->begin, rest);
    memmove(s->input, s->input + s->begin, rest);
    s->begin = 0;
    s->end = rest;
    return SIPLOC_OK;
}

/* How many commands are whole in the first octets of them all. */
static size_t count_whole(const command *commands, size_t count, size_t size)
{
    size_t whole = 0;
    for (; whole < count && commands[whole].length < size; whole++)
        size -= commands[whole].length + 1;
    return whole;
}

/* Sends octets, and reads the replies to commands. `*sent` is how many octets were sent. */
static siploc_status transfer(siploc *s, const char *output, size_t size, const command *commands, size_t count,
                              size_t *sent, size_t *replied, siploc_each *each, void *context)
{
    int cut = 0; /* why the connection takes no more */
    size_t due = count;
    int64_t end = now() + s->timeout;
    while (*replied < count) {
        if (*sent < size && cut == 0) {
            ssize_t taken = send(s->stream, output + *sent, size - *sent, MSG_NOSIGNAL);
            if (taken >= 0) {
                *sent += (size_t)taken;
                end = now() + s->timeout;
            } else if (!is_again(errno)) {
                cut = errno; /* What was replied before the connection failed is still read. */
                due = count_whole(commands, count, *sent);
            }
        }
        bool has_output = *sent < size && cut == 0, is_over = *replied >= due;
        int events = wait_for(s->stream, has_output ? POLLIN | POLLOUT : POLLIN, is_over ? now() : end);
        if (events < 0)
            return lost(s, errno);
        if (events == 0)
            return is_over ? lost(s, cut) : broken(s, SIPLOC_TIMED_OUT, 0, "", 0);
        if ((events & ~POLLOUT) == 0)
            continue;
        ssize_t read = recv(s->stream, s->input + s->end, INPUT - s->end, 0);
        if (read == 0)
            return lost(s, 0);
        if (read < 0 && !is_again(errno))
            return lost(s, errno);
        if (read > 0) {
            size_t before = *replied;
            s->end += (size_t)read;
            siploc_status status = take_replies(s, commands, count, replied, each, context);
            if (status != SIPLOC_OK)
                return status;
            if (*replied > before)
                end = now() + s->timeout;
        }
    }
    return SIPLOC_OK;
}

/* Sends commands and reads their replies. */
static siploc_status exchange(siploc *s, const command *commands, size_t count, siploc_each *each, void *context)
{
    if (!siploc_is_open(s))
        return SIPLOC_NOT_CONNECTED;
    if (count == 0)
        return SIPLOC_OK;
    static const char early[] = "a reply before its command was sent";
    array output = {NULL, 0, 0};
    for (size_t i = 0; i < count; i++) {
        if (!append(&output, commands[i].text, commands[i].length) || !append(&output, "\n", 1)) {
            free(output.items);
            return SIPLOC_NO_MEMORY;
        }
    }
    memset(&s->doubt, 0, sizeof s->doubt);
    s->begin = s->end = 0;
    begin_reply(s);
    size_t sent = 0, replied = 0, start = 0;
    siploc_status status = read_before(s);
    if (status == SIPLOC_OK)
        status = transfer(s, output.items, output.size, commands, count, &sent, &replied, each, context);
    free(output.items);
    if (status == SIPLOC_OK && sent < output.size) /* What is sent next would be taken for the rest. */
        status = bad(s, early, sizeof early - 1);
    if (status == SIPLOC_REFUSED) {
        each(context, 0, &s->reply);
        sent = 0; /* None of what was on its way was carried out. */
    }
    s->doubt.replied = replied;
    for (size_t i = 0; i < count && start < sent; i++) {
        s->doubt.sent++;
        start += commands[i].length + 1;
    }
    s->doubt.may_be_done = s->doubt.sent > replied;
    return status;
}

/* ---- Commands ---- */

static bool is_blank(char letter)
{
    return letter == ' ' || letter == '\t';
}

/* How many lines the server takes after a `zone` line with this count. */
static size_t zone_lines(const char *digits, size_t length)
{
    size_t count = 0;
    for (size_t i = 0; i < length; i++) {
        if (digits[i] < '0' || digits[i] > '9')
            return 0;
        count = count * 10 + (size_t)(digits[i] - '0');
        if (count > MAX_ZONE_LINES)
            count = MAX_ZONE_LINES + 1;
    }
    return count > MAX_ZONE_LINES ? 0 : count;
}

/* Whether a text is a command that breaks no protocol: one line, or a `zone` line and as many as it says, that has a
 * reply. */
static bool prepare(const char *text, command *command)
{
    const char *end = strchr(text, '\n'), *fields[3] = {NULL, NULL, NULL};
    size_t length = end != NULL ? (size_t)(end - text) : strlen(text), count = 0, lines = 0, sizes[3] = {0, 0, 0};
    for (size_t i = 0; i < length;) {
        size_t begin = i;
        while (i < length && !is_blank(text[i]))
            i++;
        if (i > begin) {
            if (count < 3) {
                fields[count] = text + begin;
                sizes[count] = i - begin;
            }
            count++;
        }
        while (i < length && is_blank(text[i]))
            i++;
    }
    if (count == 0 || *text == '#' || strchr(text, '\r') != NULL)
        return false;
    command->word = OTHER;
    for (int i = 0; i < OTHER; i++)
        if (strlen(words[i].text) == sizes[0] && memcmp(words[i].text, fields[0], sizes[0]) == 0)
            command->word = (word)i;
    for (const char *at = end; at != NULL; at = strchr(at + 1, '\n'))
        lines++;
    if (lines != (command->word == ZONE && count == 3 ? zone_lines(fields[2], sizes[2]) : 0))
        return false;
    if ((lines > 0 && length > MAX_LINE) || (command->word == QUIT && count == 1))
        return false;
    command->text = text;
    command->length = strlen(text);
    return true;
}

static void ignore(void *context, size_t place, const siploc_reply *reply)
{
    (void)context;
    (void)place;
    (void)reply;
}

siploc_status siploc_batch(siploc *s, const char *const *texts, size_t count, siploc_each *each, void *context)
{
    if (s->is_busy)
        return SIPLOC_INVALID;
    command *commands = malloc((count > 0 ? count : 1) * sizeof *commands);
    if (commands == NULL || count > SIZE_MAX / sizeof *commands) {
        free(commands);
        return SIPLOC_NO_MEMORY;
    }
    for (size_t i = 0; i < count; i++) {
        if (!prepare(texts[i], &commands[i])) {
            s->invalid_place = i;
            free(commands);
            return SIPLOC_INVALID;
        }
    }
    s->is_busy = true;
    siploc_status status = exchange(s, commands, count, each != NULL ? each : ignore, context);
    s->is_busy = false;
    free(commands);
    return status;
}

size_t siploc_invalid_place(const siploc *s)
{
    return s->invalid_place;
}

/* Sends the command that `line` has; its reply, or its refusal. */
static siploc_status ask(siploc *s, const siploc_reply **reply)
{
    command command;
    if (!append(&s->line, "", 1))
        return SIPLOC_NO_MEMORY;
    if (!prepare(s->line.items, &command))
        return SIPLOC_INVALID;
    siploc_status status = exchange(s, &command, 1, ignore, NULL);
    if (status == SIPLOC_OK && s->reply.code != NULL)
        status = SIPLOC_REFUSED;
    if (reply != NULL && (status == SIPLOC_OK || status == SIPLOC_REFUSED))
        *reply = &s->reply;
    return status;
}

/* Begins `line` with a word. Nothing can be asked within a batch. */
static siploc_status begin(siploc *s, const char *word)
{
    if (s->is_busy)
        return SIPLOC_INVALID;
    s->line.size = 0;
    return append(&s->line, word, strlen(word)) ? SIPLOC_OK : SIPLOC_NO_MEMORY;
}

/* Adds a field that has to be one to a line, after a blank. */
static siploc_status add_field(array *line, siploc_status status, const char *field)
{
    if (status != SIPLOC_OK)
        return status;
    if (*field == '\0' || strpbrk(field, " \t\r\n") != NULL)
        return SIPLOC_INVALID;
    return append(line, " ", 1) && append(line, field, strlen(field)) ? SIPLOC_OK : SIPLOC_NO_MEMORY;
}

static siploc_status add_number(array *line, siploc_status status, uint64_t value)
{
    char digits[21];
    snprintf(digits, sizeof digits, "%llu", (unsigned long long)value);
    return add_field(line, status, digits);
}

static siploc_status add_target(array *line, siploc_status status, const siploc_target *target)
{
    status = add_field(line, add_field(line, status, target->transport), target->address);
    return add_number(line, status, target->port);
}

static siploc_status add_draws(array *line, siploc_status status, const siploc_draws *draws)
{
    if (draws == NULL || status != SIPLOC_OK)
        return status;
    if (draws->has_seed && draws->word_count > 0)
        return SIPLOC_INVALID;
    if (draws->has_seed)
        return add_number(line, add_field(line, status, "seed"), draws->seed);
    for (size_t i = 0; i < draws->word_count; i++) {
        char digits[20];
        snprintf(digits, sizeof digits, "%s%lu", i == 0 ? " words " : ",", (unsigned long)draws->words[i]);
        if (!append(line, digits, strlen(digits)))
            return SIPLOC_NO_MEMORY;
    }
    return SIPLOC_OK;
}

/* Adds the rest of a `zone` line, and the lines of a text. */
static siploc_status add_zone(array *line, siploc_status status, const char *apex, const char *text)
{
    size_t count = 0;
    for (const char *at = text; *at != '\0'; at++)
        count += *at == '\n' || at[1] == '\0';
    if (count > MAX_ZONE_LINES)
        return SIPLOC_INVALID;
    status = add_number(line, add_field(line, status, apex), count);
    while (status == SIPLOC_OK && *text != '\0') {
        size_t length = strcspn(text, "\n"), kept = length;
        if (kept > 0 && text[kept - 1] == '\r')
            kept--;
        if (!append(line, "\n", 1) || !append(line, text, kept))
            status = SIPLOC_NO_MEMORY;
        text += text[length] == '\n' ? length + 1 : length;
    }
    return status;
}

/* Gives a line that was made to the caller, or frees it. */
static siploc_status give(array *line, siploc_status status, char **command)
{
    if (status == SIPLOC_OK && !append(line, "", 1))
        status = SIPLOC_NO_MEMORY;
    if (status != SIPLOC_OK) {
        free(line->items);
        line->items = NULL;
    }
    *command = line->items;
    return status;
}

siploc_status siploc_line(const char *const *fields, size_t count, char **command)
{
    array line = {NULL, 0, 0};
    siploc_status status = count > 0 ? SIPLOC_OK : SIPLOC_INVALID;
    for (size_t i = 0; i < count; i++)
        status = add_field(&line, status, fields[i]);
    status = give(&line, status, command);
    if (status == SIPLOC_OK) /* (without the first blank) */
        memmove(*command, *command + 1, line.size - 1);
    return status;
}

siploc_status siploc_zone(const char *apex, const char *text, char **command)
{
    array line = {NULL, 0, 0};
    siploc_status status = append(&line, "zone", 4) ? SIPLOC_OK : SIPLOC_NO_MEMORY;
    return give(&line, add_zone(&line, status, apex, text), command);
}

/* Asks, if the command could be made. What a long one has taken is given back. */
static siploc_status ask_if(siploc *s, siploc_status status, const siploc_reply **reply)
{
    if (status == SIPLOC_OK)
        status = ask(s, reply);
    if (s->line.capacity > MAX_KEPT) {
        free(s->line.items);
        s->line = (array){NULL, 0, 0};
    }
    return status;
}

siploc_status siploc_find(siploc *s, const char *uri, const siploc_draws *draws, const siploc_reply **reply)
{
    return ask_if(s, add_draws(&s->line, add_field(&s->line, begin(s, "find"), uri), draws), reply);
}

siploc_status siploc_deps(siploc *s, const char *uri, const siploc_reply **reply)
{
    return ask_if(s, add_field(&s->line, begin(s, "deps"), uri), reply);
}

siploc_status siploc_load(siploc *s, const char *apex, const char *text, const siploc_reply **reply)
{
    return ask_if(s, add_zone(&s->line, begin(s, "zone"), apex, text), reply);
}

siploc_status siploc_drop(siploc *s, const char *apex, const siploc_reply **reply)
{
    return ask_if(s, add_field(&s->line, begin(s, "drop"), apex), reply);
}

/* An edit: a word, and the rest of the line. */
static siploc_status edit(siploc *s, const char *word, const char *record, const siploc_reply **reply)
{
    siploc_status status = begin(s, word);
    if (status == SIPLOC_OK && strpbrk(record, "\r\n") != NULL)
        status = SIPLOC_INVALID;
    if (status == SIPLOC_OK && !append(&s->line, record, strlen(record)))
        status = SIPLOC_NO_MEMORY;
    return ask_if(s, status, reply);
}

siploc_status siploc_add(siploc *s, const char *record, const siploc_reply **reply)
{
    return edit(s, "add ", record, reply);
}

siploc_status siploc_remove(siploc *s, const char *record, const siploc_reply **reply)
{
    return edit(s, "del ", record, reply);
}

siploc_status siploc_repair(siploc *s, const siploc_reply **reply)
{
    return ask_if(s, begin(s, "repair"), reply);
}

siploc_status siploc_page(siploc *s, const siploc_reply **reply)
{
    return ask_if(s, begin(s, "page"), reply);
}

siploc_status siploc_hold(siploc *s, const siploc_target *target, uint64_t milliseconds, const siploc_reply **reply)
{
    return ask_if(s, add_number(&s->line, add_target(&s->line, begin(s, "hold"), target), milliseconds), reply);
}

siploc_status siploc_release(siploc *s, const siploc_target *target, const siploc_reply **reply)
{
    return ask_if(s, add_target(&s->line, begin(s, "release"), target), reply);
}

siploc_status siploc_clock(siploc *s, uint64_t milliseconds, const siploc_reply **reply)
{
    return ask_if(s, add_number(&s->line, begin(s, "clock"), milliseconds), reply);
}

siploc_status siploc_call(siploc *s, const char *kind, uint64_t base, const char *uri, const siploc_draws *draws,
                          const siploc_reply **reply)
{
    siploc_status status = add_number(&s->line, add_field(&s->line, begin(s, "call"), kind), base);
    return ask_if(s, add_draws(&s->line, add_field(&s->line, status, uri), draws), reply);
}

siploc_status siploc_got(siploc *s, uint32_t attempt, uint16_t code, const uint32_t *retry, const siploc_reply **reply)
{
    siploc_status status = add_number(&s->line, add_number(&s->line, begin(s, "got"), attempt), code);
    if (retry != NULL)
        status = add_number(&s->line, add_field(&s->line, status, "retry"), *retry);
    return ask_if(s, status, reply);
}

siploc_status siploc_broke(siploc *s, const siploc_reply **reply)
{
    return ask_if(s, begin(s, "broke"), reply);
}

/* ---- Sessions ---- */

/* The port after an address's colon: a number, which may have leading zeros. */
static bool read_port(const char *text, uint64_t *port)
{
    while (*text == '0')
        text++;
    return read_number(text, UINT16_MAX, port);
}

/* A place to connect to. */
typedef union place {
    struct sockaddr any;
    struct sockaddr_in v4;
    struct sockaddr_in6 v6;
    struct sockaddr_un path;
} place;

/* Reads an address; its size, or 0 where it is none. */
static socklen_t read_place(const char *address, place *place)
{
    memset(place, 0, sizeof *place);
    if (strncmp(address, "unix:", 5) == 0) {
        const char *path = address + 5;
        if (*path == '\0' || strlen(path) >= sizeof place->path.sun_path)
            return 0;
        place->path.sun_family = AF_UNIX;
        strcpy(place->path.sun_path, path);
        return sizeof place->path;
    }
    char host[64];
    const char *colon = strrchr(address, ':');
    bool has_brackets = *address == '[';
    size_t length = colon != NULL ? (size_t)(colon - address) : 0;
    uint64_t port;
    if (length < 3 || length >= sizeof host || !read_port(colon + 1, &port))
        return 0;
    memcpy(host, address, length);
    host[length] = '\0';
    if (!has_brackets) {
        place->v4.sin_family = AF_INET;
        place->v4.sin_port = htons((uint16_t)port);
        bool is_loopback = inet_pton(AF_INET, host, &place->v4.sin_addr) == 1 &&
                           ntohl(place->v4.sin_addr.s_addr) >> 24 == 127;
        return is_loopback ? sizeof place->v4 : 0;
    }
    if (host[length - 1] != ']')
        return 0;
    host[length - 1] = '\0';
    place->v6.sin6_family = AF_INET6;
    place->v6.sin6_port = htons((uint16_t)port);
    bool is_loopback = inet_pton(AF_INET6, host + 1, &place->v6.sin6_addr) == 1 &&
                       IN6_IS_ADDR_LOOPBACK(&place->v6.sin6_addr);
    return is_loopback ? sizeof place->v6 : 0;
}

/* Whether a TCP socket is connected with itself: where nobody listens, the system may choose the very port for it. */
static bool is_own(int stream, const place *other)
{
    place own;
    socklen_t size = sizeof own;
    if (getsockname(stream, &own.any, &size) < 0)
        return false;
    if (other->any.sa_family == AF_INET)
        return own.v4.sin_port == other->v4.sin_port && own.v4.sin_addr.s_addr == other->v4.sin_addr.s_addr;
    return own.v6.sin6_port == other->v6.sin6_port; /* (both are of ::1) */
}

/* A TCP connection that ends before its time is reset, also where this process is killed. Else the server would see
 * the end of the input, and take half a line as a line, and half a zone as a zone. */
static bool set_reset(int stream)
{
    int yes = 1;
    struct linger linger = {.l_onoff = 1, .l_linger = 0};
    place own;
    socklen_t size = sizeof own;
    if (getsockname(stream, &own.any, &size) < 0)
        return false;
    return (own.any.sa_family != AF_INET && own.any.sa_family != AF_INET6) ||
           (setsockopt(stream, IPPROTO_TCP, TCP_NODELAY, &yes, sizeof yes) == 0 &&
            setsockopt(stream, SOL_SOCKET, SO_LINGER, &linger, sizeof linger) == 0);
}

/* Makes a socket one that does not block, and that no program has which is started. */
static bool set_flags(int stream)
{
    int flags = fcntl(stream, F_GETFL);
    return flags >= 0 && fcntl(stream, F_SETFL, flags | O_NONBLOCK) >= 0 && fcntl(stream, F_SETFD, FD_CLOEXEC) >= 0;
}

/* Connects a socket within a time. */
static bool connect_within(int stream, const place *place, socklen_t size, int timeout)
{
    int cause = 0;
    int64_t end = now() + timeout;
    socklen_t cause_size = sizeof cause;
    if (!set_flags(stream))
        return false;
    int status;
    /* As many clients wait at a Unix socket as it takes: none waits for that by itself. */
    while ((status = connect(stream, &place->any, size)) < 0 && errno == EAGAIN && place->any.sa_family == AF_UNIX) {
        if (now() >= end) {
            errno = ETIMEDOUT;
            return false;
        }
        poll(NULL, 0, 10);
    }
    if (status < 0) {
        if (errno != EINPROGRESS && errno != EINTR)
            return false;
        int events = wait_for(stream, POLLOUT, end);
        if (events == 0)
            errno = ETIMEDOUT;
        if (events <= 0 || getsockopt(stream, SOL_SOCKET, SO_ERROR, &cause, &cause_size) < 0)
            return false;
        if (cause != 0) {
            errno = cause;
            return false;
        }
    }
    if (place->any.sa_family != AF_UNIX && is_own(stream, place)) {
        errno = ECONNREFUSED;
        return false;
    }
    return set_reset(stream);
}

static void free_session(siploc *s)
{
    end_session(s);
    array *arrays[] = {&s->line, &s->text, &s->starts, &s->lines, &s->targets, &s->dependencies, &s->steps};
    for (size_t i = 0; i < sizeof arrays / sizeof arrays[0]; i++)
        free(arrays[i]->items);
    free(s->input);
    free(s);
}

/* A session that has no connection yet; NULL where there is no memory. */
static siploc *new_session(int timeout)
{
    siploc *s = calloc(1, sizeof *s);
    if (s == NULL)
        return NULL;
    s->timeout = timeout;
    s->stream = -1;
    s->process = getpid();
    s->input = malloc(INPUT);
    if (s->input != NULL)
        return s;
    free_session(s);
    return NULL;
}

siploc_status siploc_new(int stream, int timeout, siploc **session)
{
    *session = NULL;
    siploc *s = new_session(timeout);
    if (s == NULL)
        return SIPLOC_NO_MEMORY;
    if (!set_reset(stream) || !set_flags(stream)) {
        int cause = errno;
        free_session(s);
        errno = cause;
        return SIPLOC_NOT_CONNECTED;
    }
    s->stream = stream;
    *session = s;
    return SIPLOC_OK;
}

/* Connects to one address, which may be localhost by its IPv4 or IPv6 address. */
static siploc_status connect_to(const char *address, int timeout, siploc **session)
{
    place place;
    socklen_t size = read_place(address, &place);
    if (size == 0)
        return SIPLOC_INVALID;
    siploc *s = new_session(timeout);
    if (s == NULL)
        return SIPLOC_NO_MEMORY;
    s->stream = socket(place.any.sa_family, SOCK_STREAM | CLOEXEC, 0);
    if (s->stream < 0 || !connect_within(s->stream, &place, size, timeout)) {
        int cause = errno;
        free_session(s);
        errno = cause;
        return SIPLOC_NOT_CONNECTED;
    }
    *session = s;
    return SIPLOC_OK;
}

siploc_status siploc_connect(const char *address, int timeout, siploc **session)
{
    static const char name[] = "localhost:";
    char text[32];
    size_t length = sizeof name - 1;
    uint64_t port;
    *session = NULL;
    if (strncmp(address, name, length) != 0)
        return connect_to(address, timeout, session);
    if (!read_port(address + length, &port))
        return SIPLOC_INVALID;
    snprintf(text, sizeof text, "127.0.0.1:%u", (unsigned)port);
    siploc_status status = connect_to(text, timeout, session);
    if (status != SIPLOC_NOT_CONNECTED)
        return status;
    int cause = errno;
    snprintf(text, sizeof text, "[::1]:%u", (unsigned)port);
    status = connect_to(text, timeout, session);
    if (status == SIPLOC_NOT_CONNECTED)
        errno = cause;
    return status;
}

void siploc_close(siploc *s)
{
    if (s == NULL)
        return;
    if (s->timeout > 1000)
        s->timeout = 1000;
    command quit = {"quit", 4, QUIT};
    exchange(s, &quit, 1, ignore, NULL);
    free_session(s);
}

void siploc_set_timeout(siploc *s, int timeout)
{
    s->timeout = timeout;
}

bool siploc_is_open(const siploc *s)
{
    return s->stream >= 0 && s->process == getpid();
}

siploc_doubt siploc_broken(const siploc *s)
{
    siploc_doubt doubt = s->doubt;
    if (doubt.detail == NULL)
        doubt.detail = "";
    return doubt;
}
