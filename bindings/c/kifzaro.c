/* What stands in front of the functions of crates/kifzaro_c. It tests what none of them can: that no pointer is NULL, that a length is one
 * that bytes may have, and that a handle is of its kind. It writes for the caller where the comment of a function says so, and keeps
 * nothing. */
#include "kifzaro.h"

#define VERSION "0.1"
#ifndef KF_BUILD
#define KF_BUILD "unknown"
#endif

/* The kinds of handles: what stands in `kind` of one that is alive. */
static const uint64_t CLIENT = 0x6b66636c69656e74u, SERVER = 0x6b66736572766572u;

/* A slice of no bytes has to point somewhere. */
static uint8_t nothing[1];

/* The functions of crates/kifzaro_c. A handle is passed by its address, which is that of the pointer in it. */
typedef struct { void *at; } raw;
uint32_t kfr_client_new(const uint8_t *, size_t, uint64_t, const uint8_t *, size_t, void **);
uint32_t kfr_client_new_temp(const uint8_t *, size_t, uint64_t, uint64_t, uint64_t, const uint8_t *, size_t, void **);
void kfr_client_free(raw);
uint32_t kfr_client_submit(raw *, const uint8_t *, size_t, uint64_t, uint64_t *);
uint32_t kfr_client_attach(raw *);
uint32_t kfr_client_handle_packet(raw *, uint64_t, const uint8_t *, size_t);
uint32_t kfr_client_poll_transmit(raw *, uint64_t, uint8_t *, size_t, uint64_t *);
uint32_t kfr_client_renew(raw *);
uint32_t kfr_client_end(raw *);
uint32_t kfr_client_tick(raw *);
uint32_t kfr_client_ping(raw *, uint64_t);
uint32_t kfr_client_ask_salts(raw *, uint32_t);
uint32_t kfr_client_drop_answer(raw *, uint64_t);
uint32_t kfr_client_state(raw *, uint64_t, uint32_t *, uint32_t *);
uint32_t kfr_client_take_reply(raw *, uint64_t, uint8_t *, size_t, uint64_t *);
uint32_t kfr_client_counts(raw *, uint64_t *, uint32_t *, uint32_t *);
uint32_t kfr_server_new(const uint8_t *, size_t, const uint8_t *, size_t, void **);
void kfr_server_free(raw);
uint32_t kfr_server_handle_packet(raw *, uint64_t, const uint8_t *, size_t, uint64_t *, uint64_t *);
uint32_t kfr_server_tick(raw *, uint64_t);
uint32_t kfr_server_attach(raw *, uint64_t, uint64_t, uint64_t);
uint32_t kfr_server_restart(raw *);
uint32_t kfr_server_ready(raw *, uint64_t *);
uint32_t kfr_server_next_request(raw *, uint32_t *, uint8_t *, size_t, uint64_t *);
uint32_t kfr_server_answer(raw *, uint64_t, const uint8_t *, size_t);
uint32_t kfr_server_poll_transmit(raw *, uint64_t *, uint64_t *, uint8_t *, size_t, uint64_t *);

/* Leaves the function where a handle isn't one of this kind, or a pointer is NULL. */
#define NEEDS(handle, its) do { if (!(handle)) return KF_NULL; if ((handle)->kind != (its) || !(handle)->at) return KF_NO_HANDLE; } while (0)
#define THERE(pointer) do { if (!(pointer)) return KF_NULL; } while (0)
#define BYTES(pointer, len) do { if (!(pointer) && (len)) return KF_NULL; if ((len) > PTRDIFF_MAX) return KF_BAD_LENGTH; if (!(pointer)) (pointer) = nothing; } while (0)
#define RAW(handle) ((raw *)&(handle)->at)

const char *kf_version(void) { return VERSION; }
const char *kf_build(void) { return KF_BUILD; }

const char *kf_status_text(kf_status status)
{
    static const char *const texts[] = {
        "done", "out of memory", "a pointer is NULL", "no handle of this kind", "the room is too short", "the text isn't a key file",
        "the key file hasn't that key of that kind", "a seed has 32 bytes", "a body is whole words of 4 bytes, at most 262144, and no item of the session layer", "there is no such call", "the client has too many calls",
        "the client has ended", "the client isn't open", "the call isn't sent", "the call has no reply", "there may be too few numbers left",
        "a request waits for its answer", "no request was handed out", "a reply is whole words of 4 bytes, at most 262144",
        "the packet is refused: its size", "the packet is refused: no good key has its identifier",
        "the packet is refused: its message key", "the packet is refused: the length of its body", "the packet is refused: its padding",
        "no bytes have such a length",
    };
    return (size_t)status < sizeof texts / sizeof *texts ? texts[status] : "no status";
}

/* ---- a client ---- */

static kf_status made_client(kf_client *client, uint32_t told, void *at)
{
    if (told == KF_OK) { client->at = at; client->kind = CLIENT; }
    return (kf_status)told;
}

kf_status kf_client_new(kf_client *client, const uint8_t *keys, size_t keys_len, uint64_t key, const uint8_t seed[32])
{
    void *at = 0;
    THERE(client); THERE(seed); BYTES(keys, keys_len);
    if (client->kind || client->at) return KF_NO_HANDLE;
    uint32_t told = kfr_client_new(keys, keys_len, key, seed, 32, &at);
    return made_client(client, told, at);
}

kf_status kf_client_new_temp(kf_client *client, const uint8_t *keys, size_t keys_len, uint64_t temp, uint64_t perm, uint64_t expires, const uint8_t seed[32])
{
    void *at = 0;
    THERE(client); THERE(seed); BYTES(keys, keys_len);
    if (client->kind || client->at) return KF_NO_HANDLE;
    uint32_t told = kfr_client_new_temp(keys, keys_len, temp, perm, expires, seed, 32, &at);
    return made_client(client, told, at);
}

void kf_client_free(kf_client *client)
{
    if (!client || client->kind != CLIENT || !client->at) return;
    kfr_client_free(*RAW(client));
    client->at = 0; client->kind = 0;
}

kf_status kf_client_submit(kf_client *client, const uint8_t *body, size_t len, uint64_t after, uint64_t *call)
{
    uint64_t number = 0;
    NEEDS(client, CLIENT); THERE(call); BYTES(body, len);
    uint32_t told = kfr_client_submit(RAW(client), body, len, after, &number);
    if (told == KF_OK) *call = number;
    return (kf_status)told;
}

kf_status kf_client_attach(kf_client *client) { NEEDS(client, CLIENT); return (kf_status)kfr_client_attach(RAW(client)); }

kf_status kf_client_handle_packet(kf_client *client, uint64_t now, const uint8_t *packet, size_t len)
{
    NEEDS(client, CLIENT); BYTES(packet, len);
    return (kf_status)kfr_client_handle_packet(RAW(client), now, packet, len);
}

kf_status kf_client_poll_transmit(kf_client *client, uint64_t now, uint8_t *room, size_t room_len, size_t *len)
{
    uint64_t count = 0;
    NEEDS(client, CLIENT); THERE(len); BYTES(room, room_len);
    uint32_t told = kfr_client_poll_transmit(RAW(client), now, room, room_len, &count);
    if (told == KF_OK || told == KF_TOO_SHORT) *len = (size_t)count;
    return (kf_status)told;
}

kf_status kf_client_renew(kf_client *client) { NEEDS(client, CLIENT); return (kf_status)kfr_client_renew(RAW(client)); }
kf_status kf_client_end(kf_client *client) { NEEDS(client, CLIENT); return (kf_status)kfr_client_end(RAW(client)); }
kf_status kf_client_tick(kf_client *client) { NEEDS(client, CLIENT); return (kf_status)kfr_client_tick(RAW(client)); }
kf_status kf_client_ping(kf_client *client, uint64_t id) { NEEDS(client, CLIENT); return (kf_status)kfr_client_ping(RAW(client), id); }
kf_status kf_client_ask_salts(kf_client *client, uint32_t count) { NEEDS(client, CLIENT); return (kf_status)kfr_client_ask_salts(RAW(client), count); }
kf_status kf_client_drop_answer(kf_client *client, uint64_t call) { NEEDS(client, CLIENT); return (kf_status)kfr_client_drop_answer(RAW(client), call); }

kf_status kf_client_state(kf_client *client, uint64_t call, uint32_t *state, uint32_t *code)
{
    uint32_t found = 0, its = 0;
    NEEDS(client, CLIENT); THERE(state); THERE(code);
    uint32_t told = kfr_client_state(RAW(client), call, &found, &its);
    if (told == KF_OK) { *state = found; *code = its; }
    return (kf_status)told;
}

kf_status kf_client_take_reply(kf_client *client, uint64_t call, uint8_t *room, size_t room_len, size_t *len)
{
    uint64_t count = 0;
    NEEDS(client, CLIENT); THERE(len); BYTES(room, room_len);
    uint32_t told = kfr_client_take_reply(RAW(client), call, room, room_len, &count);
    if (told == KF_OK || told == KF_TOO_SHORT) *len = (size_t)count;
    return (kf_status)told;
}

kf_status kf_client_calls_decided(kf_client *client, int *decided)
{
    uint64_t session = 0; uint32_t calls = 0, all = 0;
    NEEDS(client, CLIENT); THERE(decided);
    uint32_t told = kfr_client_counts(RAW(client), &session, &calls, &all);
    if (told == KF_OK) *decided = (int)all;
    return (kf_status)told;
}

kf_status kf_client_session(kf_client *client, uint64_t *session)
{
    uint64_t number = 0; uint32_t calls = 0, all = 0;
    NEEDS(client, CLIENT); THERE(session);
    uint32_t told = kfr_client_counts(RAW(client), &number, &calls, &all);
    if (told == KF_OK) *session = number;
    return (kf_status)told;
}

/* ---- a server ---- */

kf_status kf_server_new(kf_server *server, const uint8_t *keys, size_t keys_len, const uint8_t seed[32])
{
    void *at = 0;
    THERE(server); THERE(seed); BYTES(keys, keys_len);
    if (server->kind || server->at) return KF_NO_HANDLE;
    uint32_t told = kfr_server_new(keys, keys_len, seed, 32, &at);
    if (told == KF_OK) { server->at = at; server->kind = SERVER; }
    return (kf_status)told;
}

void kf_server_free(kf_server *server)
{
    if (!server || server->kind != SERVER || !server->at) return;
    kfr_server_free(*RAW(server));
    server->at = 0; server->kind = 0;
}

kf_status kf_server_handle_packet(kf_server *server, uint64_t now, const uint8_t *packet, size_t len, uint64_t *key, uint64_t *session)
{
    uint64_t its_key = 0, its_session = 0;
    NEEDS(server, SERVER); THERE(key); THERE(session); BYTES(packet, len);
    uint32_t told = kfr_server_handle_packet(RAW(server), now, packet, len, &its_key, &its_session);
    if (told == KF_OK) { *key = its_key; *session = its_session; }
    return (kf_status)told;
}

kf_status kf_server_tick(kf_server *server, uint64_t now) { NEEDS(server, SERVER); return (kf_status)kfr_server_tick(RAW(server), now); }

kf_status kf_server_attach(kf_server *server, uint64_t key, uint64_t session, uint64_t now)
{
    NEEDS(server, SERVER);
    return (kf_status)kfr_server_attach(RAW(server), key, session, now);
}

kf_status kf_server_restart(kf_server *server) { NEEDS(server, SERVER); return (kf_status)kfr_server_restart(RAW(server)); }

kf_status kf_server_ready(kf_server *server, uint64_t *ready)
{
    uint64_t count = 0;
    NEEDS(server, SERVER); THERE(ready);
    uint32_t told = kfr_server_ready(RAW(server), &count);
    if (told == KF_OK) *ready = count;
    return (kf_status)told;
}

kf_status kf_server_next_request(kf_server *server, int *there, uint8_t *room, size_t room_len, size_t *len)
{
    uint32_t found = 0; uint64_t count = 0;
    NEEDS(server, SERVER); THERE(there); THERE(len); BYTES(room, room_len);
    uint32_t told = kfr_server_next_request(RAW(server), &found, room, room_len, &count);
    if (told == KF_OK || told == KF_TOO_SHORT) { *there = (int)found; *len = (size_t)count; }
    return (kf_status)told;
}

kf_status kf_server_answer(kf_server *server, uint64_t now, const uint8_t *reply, size_t len)
{
    NEEDS(server, SERVER); BYTES(reply, len);
    return (kf_status)kfr_server_answer(RAW(server), now, reply, len);
}

kf_status kf_server_poll_transmit(kf_server *server, uint64_t *key, uint64_t *session, uint8_t *room, size_t room_len, size_t *len)
{
    uint64_t count = 0, its_key = 0, its_session = 0;
    NEEDS(server, SERVER); THERE(key); THERE(session); THERE(len); BYTES(room, room_len);
    uint32_t told = kfr_server_poll_transmit(RAW(server), &its_key, &its_session, room, room_len, &count);
    if (told == KF_OK || told == KF_TOO_SHORT) *len = (size_t)count;
    if (told == KF_OK && count) { *key = its_key; *session = its_session; }
    return (kf_status)told;
}
