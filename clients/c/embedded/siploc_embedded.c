/* What siploc_embedded.h has, over the functions that crates/siploc_c exports: it keeps null addresses from them. */
#include "siploc_embedded.h"

#include <stdint.h>

uint32_t siploc_c_run(const uint8_t *settings, size_t settings_len, const uint8_t *lines, size_t lines_len,
                      uint8_t *replies, size_t room, size_t *count);
uint32_t siploc_c_serve(int32_t descriptor, const uint8_t *settings, size_t settings_len);

/* The address of a session, as crates/siploc_c has it. */
struct handle {
    uint8_t *at;
};

uint32_t siploc_c_open(const uint8_t *settings, size_t settings_len, struct handle *room);
uint32_t siploc_c_put(struct handle *session, const uint8_t *octets, size_t len, size_t *taken);
size_t siploc_c_take(struct handle *session, uint8_t *room, size_t room_len);
bool siploc_c_has_ended(struct handle *session);
void siploc_c_close(struct handle session);

/* The address of no octets. */
static uint8_t none;

/* Whether there are octets at an address, or none are asked for. */
static int is_given(const void *octets, size_t len) {
    return octets != NULL || len == 0;
}

/* An address that is not null. */
static const uint8_t *at(const void *octets) {
    return octets != NULL ? octets : &none;
}

siploc_embedded_status siploc_embedded_run(const void *settings, size_t settings_len, const void *lines,
                                           size_t lines_len, void *replies, size_t room, size_t *count) {
    if (count == NULL)
        return SIPLOC_EMBEDDED_NULL;
    *count = 0;
    if (!is_given(settings, settings_len) || !is_given(lines, lines_len) || !is_given(replies, room))
        return SIPLOC_EMBEDDED_NULL;
    uint8_t *written = replies != NULL ? replies : &none;
    return (siploc_embedded_status)siploc_c_run(at(settings), settings_len, at(lines), lines_len, written, room, count);
}

siploc_embedded_status siploc_embedded_serve(int descriptor, const void *settings, size_t settings_len) {
    if (!is_given(settings, settings_len))
        return SIPLOC_EMBEDDED_NULL;
    return (siploc_embedded_status)siploc_c_serve(descriptor, at(settings), settings_len);
}

/* Whether a session is open. */
static bool is_open(const siploc_embedded_session *session) {
    return session != NULL && session->at != NULL;
}

siploc_embedded_status siploc_embedded_open(const void *settings, size_t settings_len,
                                            siploc_embedded_session *session) {
    if (session == NULL)
        return SIPLOC_EMBEDDED_NULL;
    session->at = NULL;
    if (!is_given(settings, settings_len))
        return SIPLOC_EMBEDDED_NULL;
    struct handle handle = {NULL};
    uint32_t status = siploc_c_open(at(settings), settings_len, &handle);
    session->at = handle.at;
    return (siploc_embedded_status)status;
}

siploc_embedded_status siploc_embedded_put(siploc_embedded_session *session, const void *octets, size_t len,
                                           size_t *taken) {
    if (taken == NULL)
        return SIPLOC_EMBEDDED_NULL;
    *taken = 0;
    if (!is_open(session) || !is_given(octets, len))
        return SIPLOC_EMBEDDED_NULL;
    struct handle handle = {session->at};
    return (siploc_embedded_status)siploc_c_put(&handle, at(octets), len, taken);
}

size_t siploc_embedded_take(siploc_embedded_session *session, void *replies, size_t room) {
    if (!is_open(session) || replies == NULL || room == 0)
        return 0;
    struct handle handle = {session->at};
    return siploc_c_take(&handle, replies, room);
}

bool siploc_embedded_has_ended(siploc_embedded_session *session) {
    if (!is_open(session))
        return true;
    struct handle handle = {session->at};
    return siploc_c_has_ended(&handle);
}

void siploc_embedded_close(siploc_embedded_session *session) {
    if (!is_open(session))
        return;
    struct handle handle = {session->at};
    session->at = NULL;
    siploc_c_close(handle);
}
