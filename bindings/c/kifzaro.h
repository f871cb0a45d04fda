/* Both ends of a session of MTProto 2.0, without sockets and clocks: bytes and moments come in, bytes go out. Each packet, request and reply
 * that comes out fits into
 *
 *     static uint8_t room[KF_PACKET_BYTES_MAX], reply[KF_BODY_BYTES_MAX]; size_t len;
 *
 * A client under a key of a key file, and a call:
 *
 *     kf_client client = KF_INIT; uint64_t call; uint32_t state, code; int decided = 0;
 *     kf_client_new(&client, keys, keys_len, key, seed);
 *     kf_client_submit(&client, body, body_len, 0, &call);
 *     for (;;) {
 *         while (kf_client_poll_transmit(&client, time(0), room, sizeof room, &len) == KF_OK && len) send_packet(room, len);
 *         if (kf_client_calls_decided(&client, &decided) != KF_OK || decided) break;
 *         len = receive_packet(room, sizeof room);
 *         kf_client_handle_packet(&client, time(0), room, len);
 *         if (kf_client_state(&client, call, &state, &code) == KF_OK && state == KF_HELD) kf_client_renew(&client);
 *     }
 *     kf_client_take_reply(&client, call, room, sizeof room, &len);
 *     kf_client_free(&client);
 *
 * A server over many connections, which has to know which of them a session's packets came over last:
 *
 *     kf_server server = KF_INIT; uint64_t key, session; int there;
 *     kf_server_new(&server, keys, keys_len, seed);
 *     for (;;) {
 *         int from = receive_packet_of_any(room, sizeof room, &len);
 *         if (kf_server_handle_packet(&server, time(0), room, len, &key, &session) == KF_OK && is_new_for(key, session, from))
 *             kf_server_attach(&server, key, session, time(0));
 *         kf_server_tick(&server, time(0));
 *         while (kf_server_next_request(&server, &there, room, sizeof room, &len) == KF_OK && there)
 *             kf_server_answer(&server, time(0), reply, run(room, len, reply));
 *         while (kf_server_poll_transmit(&server, &key, &session, room, sizeof room, &len) == KF_OK && len)
 *             send_packet_over(connection_of(key, session), room, len);
 *     }
 *
 * How packets are told apart in a stream is the caller's: in the intermediate form a client sends the bytes ee ee ee ee once, and each side
 * sends each packet behind its length in 4 bytes, the lowest first.
 *
 * Replies. A call is done once it has a reply, which may be an error: one that begins with the bytes 19 ca 44 21 (rpc_error), a code in 4
 * bytes, the lowest first, and a text, which is its length in a byte, its bytes, and zeros up to whole words. A server's program answers so
 * where it can't run a request: each that was handed out has to be answered. The library answers so in its place where it hands out none:
 * 400 BAD_BODY, PACKED_BODY_REFUSED, MSG_WAIT_FAILED (the call was to follow one that failed), MSG_WAIT_TIMEOUT (that one had no reply in
 * 30 seconds), 401 AUTH_KEY_PERM_EMPTY (a temporary key isn't bound), 420 JOBS_FULL. A call that follows one whose reply is an error never
 * runs.
 *
 * Statuses. Each function answers a kf_status. Where it isn't KF_OK, nothing of the caller's is written and the client or server goes
 * on as if it hadn't been called, unless the comment of the function says otherwise. So a packet is never lost by want of memory or
 * of room: the call may be done again. KF_NULL, KF_NO_HANDLE and KF_MEMORY may come of each function, KF_BAD_LENGTH of each that takes
 * bytes or room; they are not named again.
 *
 * Handles. A client or a server is a kf_client or a kf_server of the caller's, all zero at first (KF_INIT). kf_client_new and
 * kf_server_new make it a handle, kf_client_free and kf_server_free give back all that it has and make it all zero again. It isn't
 * copied; of a process that forks, one side alone goes on with it, since both would draw the same numbers. One thread at a time calls with
 * it, and what hands it from thread to thread orders their calls, as a lock does. Different handles have nothing to do with one another:
 * each may have a thread. No function is called from a signal handler, or in the child of a process with threads that forked.
 *
 * Bytes. Those that go in are read within the call and stay the caller's. Those that come out go into `room` of the caller's, which
 * has room_len bytes: *len becomes how many were put there. By KF_TOO_SHORT it becomes how many are needed, the room is as it was, and
 * the same call with more room gives the same bytes. The library keeps no pointer of the caller's and lends none of its own, but for
 * static texts. No pointer may be NULL, but for bytes and room of length 0.
 *
 * A moment `now` is Unix time in seconds. A key is named by its identifier: bytes 12 to 19 of the SHA-1 of its 256 bytes, as a number
 * whose lowest byte comes first. What examples/make_keys and `mtp` write as 32d1586ea457dfc8 is 0xc8df57a46e58d132 here.
 */
#ifndef KIFZARO_H
#define KIFZARO_H
#include <stddef.h>
#include <stdint.h>
#ifdef __cplusplus
extern "C" {
#endif

typedef struct kf_client { void *at; uint64_t kind; } kf_client;
typedef struct kf_server { void *at; uint64_t kind; } kf_server;
#define KF_INIT { 0, 0 }

#define KF_BODY_BYTES_MAX 262144    /* of a call's body and of a reply */
#define KF_PACKET_BYTES_MAX 1048576 /* a packet that came and has more doesn't open */

typedef enum kf_status {
    KF_OK = 0,
    KF_MEMORY = 1,               /* memory ran out */
    KF_NULL = 2,                 /* a pointer is NULL */
    KF_NO_HANDLE = 3,            /* it is no handle, or none of this kind; by kf_*_new, it is not all zero */
    KF_TOO_SHORT = 4,            /* the room is too short */
    KF_BAD_KEYS = 5,             /* the text isn't a key file */
    KF_NO_KEY = 6,               /* it hasn't that key, or not of the kind that is due */
    KF_BAD_SEED = 7,             /* a seed hasn't 32 bytes (no function of this header answers it) */
    KF_BAD_BODY = 8,             /* a body isn't whole words of 4 bytes, is too long, or begins with a constructor of the session layer */
    KF_NO_CALL = 9,              /* there is no such call */
    KF_TOO_MANY = 10,            /* the client has 65536 calls */
    KF_ENDED = 11,               /* the client has ended */
    KF_NOT_OPEN = 12,            /* the client has learnt nothing of its session, or has ended */
    KF_NOT_SENT = 13,            /* the call isn't sent */
    KF_NO_REPLY = 14,            /* the call has no reply, or not yet */
    KF_SPENT = 15,               /* there may be too few numbers left in this session: kf_client_renew */
    KF_BUSY = 16,                /* a request that was handed out waits for its answer */
    KF_NOT_ASKED = 17,           /* no request was handed out */
    KF_BAD_REPLY = 18,           /* a reply isn't whole words of 4 bytes, or is too long */
    KF_REFUSED_SIZE = 19,        /* the packet doesn't open: it has fewer than 72 or more than 1048576 bytes, or no whole blocks */
    KF_REFUSED_KEY = 20,         /* ..: no key that is good has its identifier */
    KF_REFUSED_MESSAGE_KEY = 21, /* ..: its message key isn't that of its text */
    KF_REFUSED_LENGTH = 22,      /* ..: its body has no such length */
    KF_REFUSED_PADDING = 23,     /* ..: its padding has fewer than 12 or more than 1024 bytes */
    KF_BAD_LENGTH = 24           /* a length that no bytes have, as a failed read's -1 */
} kf_status;

typedef enum kf_call_state {
    KF_QUEUED = 0,  /* it waits to be sent */
    KF_SENT = 1,    /* it was sent, and isn't answered */
    KF_HELD = 2,    /* the client's clock is ahead of the server's, and it waits for another session: kf_client_renew, once none is sent */
    KF_DONE = 3,    /* it has a reply, which may be an error: kf_client_take_reply */
    KF_REFUSED = 4, /* it never executes; the code is the server's, 0 where the client gave it up */
    KF_UNKNOWN = 5  /* it isn't known whether it executed; the code is 1 the server lost the session, 2 renewed, 3 ended, 4 forgotten */
} kf_call_state;

/* The version of this header and library, as in "0.1". The text is static, and never freed. */
const char *kf_version(void);

/* Of what the library was built: "proved", or "checked, not proved". The text is static, and never freed. */
const char *kf_build(void);

/* What a status says, in English; of a number that is none "no status". The text is static, and never freed. */
const char *kf_status_text(kf_status status);

/* ---- a client ---- */

/* Makes `client`, all zero, a client under the permanent key `key` of the text of a key file, which has a line "perm DIGITS" a key, 512
 * hexadecimal digits. `seed` is 32 bytes from the system's random source, used once and told nobody. Text and seed are copied.
 * KF_NO_HANDLE, KF_BAD_KEYS, KF_NO_KEY: `client` is as it was. */
kf_status kf_client_new(kf_client *client, const uint8_t *keys, size_t keys_len, uint64_t key, const uint8_t seed[32]);

/* The same under the temporary key `temp`, a line "temp EXPIRES DIGITS", which the server is to bind to the permanent key `perm` up to the
 * moment `expires`. The text has both keys. */
kf_status kf_client_new_temp(kf_client *client, const uint8_t *keys, size_t keys_len, uint64_t temp, uint64_t perm, uint64_t expires, const uint8_t seed[32]);

/* Frees a client. Of one that is all zero, of a server's handle and of NULL it does nothing. */
void kf_client_free(kf_client *client);

/* Submits a call with this body, whole words of 4 bytes, that is to execute after the call `after`, or after none where it is 0. *call
 * becomes its number, from 1 on. The body is copied. KF_ENDED, KF_BAD_BODY, KF_NO_CALL (there is no call `after`), KF_TOO_MANY. */
kf_status kf_client_submit(kf_client *client, const uint8_t *body, size_t len, uint64_t after, uint64_t *call);

/* A connection was opened after an earlier one: what was sent and isn't answered is sent again. KF_ENDED. */
kf_status kf_client_attach(kf_client *client);

/* A packet came. A status KF_REFUSED_..: it doesn't open, and only the moment counts. So it is, by KF_OK, with one that opens and isn't of
 * this session, or isn't lawful, and a client that has ended takes none. */
kf_status kf_client_handle_packet(kf_client *client, uint64_t now, const uint8_t *packet, size_t len);

/* The packet that is to be sent next goes into the room; *len becomes 0 where there is none. Each is handed out once: call it until there
 * is none. KF_TOO_SHORT: *len becomes what it needs, and it waits. KF_SPENT. */
kf_status kf_client_poll_transmit(kf_client *client, uint64_t now, uint8_t *room, size_t room_len, size_t *len);

/* It goes on in another session: of calls that are sent it isn't known what became, and those that are held wait to be sent. A packet that
 * waits is still handed out. KF_NOT_OPEN. */
kf_status kf_client_renew(kf_client *client);

/* It ends: of calls that are sent it isn't known what became, and others that aren't decided are refused with code 0. A packet that waits
 * is still handed out. KF_NOT_OPEN. */
kf_status kf_client_end(kf_client *client);

/* The server is to be asked how the calls that are sent fared. KF_NOT_OPEN. */
kf_status kf_client_tick(kf_client *client);

/* The server is to answer a ping of this number, in the place of a ping that still waits. KF_NOT_OPEN. */
kf_status kf_client_ping(kf_client *client, uint64_t id);

/* The server is to tell so many of its next salts, in the place of such a wish that still waits. KF_NOT_OPEN. */
kf_status kf_client_ask_salts(kf_client *client, uint32_t count);

/* The server is to drop the answer to a call that is sent. KF_NOT_OPEN; KF_NOT_SENT, also where there is no such call. */
kf_status kf_client_drop_answer(kf_client *client, uint64_t call);

/* What became of a call: *state becomes a kf_call_state, and *code its code or 0. KF_NO_CALL. */
kf_status kf_client_state(kf_client *client, uint64_t call, uint32_t *state, uint32_t *code);

/* The reply to a call goes into the room. The client keeps it, and gives it again. KF_NO_CALL, KF_NO_REPLY (it isn't done).
 * KF_TOO_SHORT: *len becomes what it needs. */
kf_status kf_client_take_reply(kf_client *client, uint64_t call, uint8_t *room, size_t room_len, size_t *len);

/* *decided becomes 1 where each call is done, refused or unknown, else 0. */
kf_status kf_client_calls_decided(kf_client *client, int *decided);

/* *session becomes the number of its session; once it ended, of its last one. */
kf_status kf_client_session(kf_client *client, uint64_t *session);

/* ---- a server ---- */

/* Makes `server`, all zero, a server without sessions, with the keys of the text of a key file; `seed` as of kf_client_new.
 * KF_NO_HANDLE, KF_BAD_KEYS: `server` is as it was. */
kf_status kf_server_new(kf_server *server, const uint8_t *keys, size_t keys_len, const uint8_t seed[32]);

/* Frees a server. Of one that is all zero, of a client's handle and of NULL it does nothing. */
void kf_server_free(kf_server *server);

/* A packet came: *key and *session become the name of its session, whose packets go where this one came from. KF_BUSY. A status
 * KF_REFUSED_..: the packet doesn't open, and only the moment has changed. */
kf_status kf_server_handle_packet(kf_server *server, uint64_t now, const uint8_t *packet, size_t len, uint64_t *key, uint64_t *session);

/* Time passed: calls that have waited too long for others are answered. KF_BUSY. */
kf_status kf_server_tick(kf_server *server, uint64_t now);

/* A packet came for a session, the first one over this connection: what the server keeps for it is said again. KF_BUSY. */
kf_status kf_server_attach(kf_server *server, uint64_t key, uint64_t session, uint64_t now);

/* It starts again, and no session is left. Packets that wait are still handed out. KF_BUSY. */
kf_status kf_server_restart(kf_server *server);

/* *ready becomes how many requests are ready to be handed out. */
kf_status kf_server_ready(kf_server *server, uint64_t *ready);

/* Hands out the next ready request: *there becomes 1 and its bytes go into the room, or *there becomes 0 and *len too. Until it is
 * answered the server takes no packet, tick, attach or restart (KF_BUSY), and this call gives the same request again.
 * KF_TOO_SHORT: *there becomes 1, *len what it needs, and it is handed out. */
kf_status kf_server_next_request(kf_server *server, int *there, uint8_t *room, size_t room_len, size_t *len);

/* The request that was handed out has run, and this is its reply, whole words of 4 bytes. The reply is copied. KF_NOT_ASKED.
 * KF_BAD_REPLY, KF_MEMORY: the request waits on, and kf_server_next_request gives it again. */
kf_status kf_server_answer(kf_server *server, uint64_t now, const uint8_t *reply, size_t len);

/* The packet that is to be sent next goes into the room, and *key and *session become the name of the session that it is for; *len
 * becomes 0 where there is none. Each is handed out once: call it until there is none. KF_TOO_SHORT: *len becomes what it needs, and it
 * waits. */
kf_status kf_server_poll_transmit(kf_server *server, uint64_t *key, uint64_t *session, uint8_t *room, size_t room_len, size_t *len);

#ifdef __cplusplus
}
#endif
#endif
