/* Both ends in one program, by the header alone: a call from its submission to its reply; what is refused; what an open client is asked for;
 * limits; a call during which one allocation after another is refused; and `try N`, N calls whose packets come twice, among others that don't open. It ends with
 * status 0 where all is as it should be. Linked with -Wl,--wrap=malloc,--wrap=realloc. */
#include "kifzaro.h"
#include <stdio.h>
#include <stdlib.h>
#include <string.h>

static long left = -1; /* so many allocations are given before one is refused; below 0 all are */

static int is_given(void) { return left < 0 || left-- > 0; }

void *__real_malloc(size_t size);
void *__real_realloc(void *at, size_t size);
void *__wrap_malloc(size_t size);
void *__wrap_realloc(void *at, size_t size);
void *__wrap_malloc(size_t size) { return is_given() ? __real_malloc(size) : NULL; }
void *__wrap_realloc(void *at, size_t size) { return is_given() ? __real_realloc(at, size) : NULL; }

#define MUST(what) do { if (!(what)) { left = -1; fprintf(stderr, "try.c, line %d: not so: %s\n", __LINE__, #what); exit(1); } } while (0)
#define BYTES(text) ((const uint8_t *)(text))
#define KEY_ID 0xc8df57a46e58d132u  /* of the key of the bytes 00 to ff */
#define TEMP_ID 0x134a728f0eb1d196u /* of the key of the bytes ff to 00 */
#define NOW 1000000u

static char keys[5 + 512 + 1], both_keys[2000];
static uint8_t seed[32], room[1 << 16], copy[1 << 16];

/* ---- turns ---- */

/* Answers what is ready; memory may run out. How many requests there were. */
static kf_status answer_all(kf_server *server, int *asked)
{
    size_t len; int there = 1; kf_status told;
    while ((told = kf_server_next_request(server, &there, room, sizeof room, &len)) == KF_OK && there) {
        MUST(len == 8 && !memcmp(room, "ask me!!", 8));
        if ((told = kf_server_answer(server, NOW, BYTES("answered"), 8)) != KF_OK) break;
        *asked += 1;
    }
    MUST(told == KF_OK || told == KF_MEMORY);
    return told;
}

/* Each end's packets reach the other. Whether memory ran out. */
static int turn(kf_client *client, kf_server *server)
{
    size_t len; uint64_t key, session; kf_status told; int asked = 0;
    do {
        if ((told = kf_client_poll_transmit(client, NOW, room, sizeof room, &len)) == KF_MEMORY) return 1;
        MUST(told == KF_OK);
        if (!len) break;
        while ((told = kf_server_handle_packet(server, NOW, room, len, &key, &session)) == KF_MEMORY) left = -1;
        MUST(told == KF_OK && key == KEY_ID);
    } while (len);
    if (answer_all(server, &asked)) return 1;
    do {
        if ((told = kf_server_poll_transmit(server, &key, &session, room, sizeof room, &len)) == KF_MEMORY) return 1;
        MUST(told == KF_OK);
        if (!len) break;
        while ((told = kf_client_handle_packet(client, NOW, room, len)) == KF_MEMORY) left = -1;
        MUST(told == KF_OK);
    } while (len);
    return 0;
}

/* ---- an allocation is refused ---- */

#define AGAIN(call) while ((told = (call)) == KF_MEMORY) { again++; left = -1; } MUST(told == KF_OK)

/* A call runs through, where one allocation is refused after so many. No packet is lost by it, so no connection is opened anew. How often
 * memory ran out. */
static int talk(long refused)
{
    kf_client client = KF_INIT; kf_server server = KF_INIT; uint64_t call; uint32_t state = 0, code; size_t len; kf_status told;
    int again = 0;
    memset(seed, 1, 32);
    left = refused;
    AGAIN(kf_client_new(&client, BYTES(keys), strlen(keys), KEY_ID, seed));
    memset(seed, 2, 32);
    AGAIN(kf_server_new(&server, BYTES(keys), strlen(keys), seed));
    AGAIN(kf_client_submit(&client, BYTES("ask me!!"), 8, 0, &call));
    MUST(call == 1);
    for (int k = 0; k < 20 && state != KF_DONE; k++) {
        if (turn(&client, &server)) { again++; left = -1; }
        AGAIN(kf_client_state(&client, call, &state, &code));
    }
    MUST(state == KF_DONE);
    AGAIN(kf_client_take_reply(&client, call, room, sizeof room, &len));
    MUST(len == 8 && !memcmp(room, "answered", 8));
    again += refused >= 0 && left < 0; /* it was refused, if to a call that could do without */
    left = -1;
    kf_client_free(&client);
    kf_server_free(&server);
    return again;
}

/* ---- what is refused ---- */

static void refused_handles(void)
{
    kf_client client = KF_INIT, other = KF_INIT; kf_server server = KF_INIT; uint64_t call = 7;
    MUST(kf_client_new(NULL, BYTES(keys), strlen(keys), KEY_ID, seed) == KF_NULL);
    MUST(kf_client_new(&client, NULL, 3, KEY_ID, seed) == KF_NULL && kf_client_new(&client, BYTES(keys), strlen(keys), KEY_ID, NULL) == KF_NULL);
    MUST(kf_client_new(&client, BYTES(keys), (size_t)-1, KEY_ID, seed) == KF_BAD_LENGTH);
    MUST(kf_client_new(&client, BYTES("nothing"), 7, KEY_ID, seed) == KF_BAD_KEYS);
    MUST(kf_client_new(&client, BYTES(keys), strlen(keys), 1, seed) == KF_NO_KEY && kf_client_new(&client, NULL, 0, KEY_ID, seed) == KF_NO_KEY);
    MUST(kf_client_attach(&client) == KF_NO_HANDLE && !client.at && !client.kind);
    MUST(kf_client_new(&client, BYTES(keys), strlen(keys), KEY_ID, seed) == KF_OK);
    MUST(kf_client_new(&client, BYTES(keys), strlen(keys), KEY_ID, seed) == KF_NO_HANDLE);
    MUST(kf_server_new(&server, BYTES(keys), strlen(keys), seed) == KF_OK);
    MUST(kf_client_submit((kf_client *)&server, BYTES("even"), 4, 0, &call) == KF_NO_HANDLE && call == 7);
    MUST(kf_server_tick((kf_server *)&client, NOW) == KF_NO_HANDLE);
    kf_client_free((kf_client *)&server); kf_server_free((kf_server *)&client);
    MUST(kf_server_tick(&server, NOW) == KF_OK && kf_client_submit(&client, BYTES("even"), 4, 0, &call) == KF_OK && call == 1);
    kf_client_free(&client); kf_client_free(&client); kf_client_free(&other); kf_client_free(NULL);
    kf_server_free(&server); kf_server_free(&server); kf_server_free(NULL);
    MUST(!client.at && !client.kind && !server.at && !server.kind && kf_client_attach(&client) == KF_NO_HANDLE);
}

static void refused_calls(kf_client *client)
{
    static const uint8_t long_body[KF_BODY_BYTES_MAX + 4];
    uint64_t call = 7; uint32_t state = 7, code = 7; size_t len = 7; int decided;
    MUST(kf_client_submit(client, BYTES("odd"), 3, 0, &call) == KF_BAD_BODY);
    MUST(kf_client_submit(client, long_body, sizeof long_body, 0, &call) == KF_BAD_BODY && call == 7);
    MUST(kf_client_submit(client, BYTES("even"), 4, 9, &call) == KF_NO_CALL);
    MUST(kf_client_submit(client, BYTES("even"), 4, 0, NULL) == KF_NULL && kf_client_submit(client, NULL, 4, 0, &call) == KF_NULL);
    MUST(kf_client_state(client, 2, &state, &code) == KF_NO_CALL && kf_client_take_reply(client, 2, room, sizeof room, &len) == KF_NO_CALL);
    MUST(kf_client_state(client, 1, NULL, &code) == KF_NULL && kf_client_take_reply(client, 1, room, sizeof room, NULL) == KF_NULL);
    MUST(state == 7 && code == 7 && len == 7);
    MUST(kf_client_tick(client) == KF_NOT_OPEN && kf_client_renew(client) == KF_NOT_OPEN && kf_client_end(client) == KF_NOT_OPEN);
    MUST(kf_client_ping(client, 1) == KF_NOT_OPEN && kf_client_ask_salts(client, 1) == KF_NOT_OPEN && kf_client_drop_answer(client, 1) == KF_NOT_OPEN);
    MUST(kf_client_calls_decided(client, NULL) == KF_NULL && kf_client_session(client, NULL) == KF_NULL);
    MUST(kf_client_calls_decided(client, &decided) == KF_OK);
}

static void refused_packets(kf_client *client, kf_server *server)
{
    uint64_t call, key = 7, session = 7; size_t len, needed; uint8_t short_room[3] = { 7, 7, 7 };
    MUST(kf_client_submit(client, BYTES("even"), 4, 0, &call) == KF_OK);
    MUST(kf_client_take_reply(client, call, room, sizeof room, &len) == KF_NO_REPLY);
    MUST(kf_client_poll_transmit(client, NOW, short_room, 3, &needed) == KF_TOO_SHORT && needed >= 72 && short_room[0] == 7);
    MUST(kf_client_poll_transmit(client, NOW, NULL, 0, &len) == KF_TOO_SHORT && len == needed);
    MUST(kf_client_poll_transmit(client, NOW, NULL, 4, &len) == KF_NULL && kf_client_poll_transmit(client, NOW, room, sizeof room, NULL) == KF_NULL);
    MUST(kf_client_poll_transmit(client, NOW, room, needed, &len) == KF_OK && len == needed);
    MUST(kf_server_handle_packet(server, NOW, room, 50, &key, &session) == KF_REFUSED_SIZE);
    MUST(kf_server_handle_packet(server, NOW, room, (size_t)-1, &key, &session) == KF_BAD_LENGTH);
    room[0] ^= 1;
    MUST(kf_server_handle_packet(server, NOW, room, len, &key, &session) == KF_REFUSED_KEY);
    room[0] ^= 1; room[40] ^= 1;
    MUST(kf_server_handle_packet(server, NOW, room, len, &key, &session) == KF_REFUSED_MESSAGE_KEY && key == 7 && session == 7);
    room[40] ^= 1;
    MUST(kf_server_answer(server, NOW, room, 4) == KF_NOT_ASKED);
    MUST(kf_server_handle_packet(server, NOW, room, len, &key, &session) == KF_OK && key == KEY_ID);
    MUST(kf_server_poll_transmit(server, &key, &session, short_room, 3, &needed) == KF_TOO_SHORT && needed >= 72 && short_room[0] == 7);
    MUST(kf_server_poll_transmit(server, &key, &session, room, sizeof room, &len) == KF_OK && len == needed);
}

/* A server that handed out a request takes nothing else, and gives it again until it is answered. */
static void busy(void)
{
    kf_client client = KF_INIT; kf_server server = KF_INIT; uint64_t call, key, session, ready = 0; size_t len; int there = 0;
    MUST(kf_client_new(&client, BYTES(keys), strlen(keys), KEY_ID, seed) == KF_OK && kf_server_new(&server, BYTES(keys), strlen(keys), seed) == KF_OK);
    MUST(kf_client_submit(&client, BYTES("ask me!!"), 8, 0, &call) == KF_OK);
    for (int k = 0; k < 9 && !ready; k++) {
        MUST(kf_client_poll_transmit(&client, NOW, room, sizeof room, &len) == KF_OK);
        if (len) MUST(kf_server_handle_packet(&server, NOW, room, len, &key, &session) == KF_OK);
        MUST(kf_server_ready(&server, &ready) == KF_OK && kf_server_poll_transmit(&server, &key, &session, copy, sizeof copy, &len) == KF_OK);
        if (len) MUST(kf_client_handle_packet(&client, NOW, copy, len) == KF_OK);
    }
    MUST(ready == 1 && kf_server_next_request(&server, &there, room, 7, &len) == KF_TOO_SHORT && there == 1 && len == 8);
    MUST(kf_server_handle_packet(&server, NOW, copy, 100, &key, &session) == KF_BUSY && kf_server_tick(&server, NOW) == KF_BUSY);
    MUST(kf_server_attach(&server, key, session, NOW) == KF_BUSY && kf_server_restart(&server) == KF_BUSY);
    for (int k = 0; k < 2; k++) MUST(kf_server_next_request(&server, &there, room, 8, &len) == KF_OK && there == 1 && len == 8 && !memcmp(room, "ask me!!", 8));
    MUST(kf_server_answer(&server, NOW, BYTES("odd"), 3) == KF_BAD_REPLY && kf_server_answer(&server, NOW, NULL, 4) == KF_NULL);
    MUST(kf_server_answer(&server, NOW, BYTES("answered"), 8) == KF_OK && kf_server_answer(&server, NOW, BYTES("answered"), 8) == KF_NOT_ASKED);
    MUST(kf_server_next_request(&server, &there, room, 8, &len) == KF_OK && there == 0 && len == 0);
    MUST(kf_server_attach(&server, KEY_ID, session, NOW) == KF_OK && kf_server_restart(&server) == KF_OK && kf_server_tick(&server, NOW) == KF_OK);
    kf_client_free(&client);
    kf_server_free(&server);
}

/* What both ends have to send reaches the other, until there is nothing. How many bytes the server sent. */
static size_t settle(kf_client *client, kf_server *server)
{
    uint64_t key, session; size_t len, sent = 0; int more = 1;
    while (more) {
        more = 0;
        for (;; more = 1) {
            MUST(kf_client_poll_transmit(client, NOW, room, sizeof room, &len) == KF_OK);
            if (!len) break;
            MUST(kf_server_handle_packet(server, NOW, room, len, &key, &session) == KF_OK);
        }
        for (;; more = 1, sent += len) {
            MUST(kf_server_poll_transmit(server, &key, &session, room, sizeof room, &len) == KF_OK);
            if (!len) break;
            MUST(kf_client_handle_packet(client, NOW, room, len) == KF_OK);
        }
    }
    return sent;
}

/* An open client with a call that is sent and not answered, and its server. */
static void open_ends(kf_client *client, kf_server *server)
{
    uint64_t call, ready;
    MUST(kf_client_new(client, BYTES(keys), strlen(keys), KEY_ID, seed) == KF_OK && kf_server_new(server, BYTES(keys), strlen(keys), seed) == KF_OK);
    MUST(kf_client_submit(client, BYTES("ask me!!"), 8, 0, &call) == KF_OK && call == 1 && settle(client, server) && !settle(client, server));
    MUST(kf_server_ready(server, &ready) == KF_OK && ready == 1);
}

#define STATE(call, its, why) MUST(kf_client_state(&client, call, &state, &code) == KF_OK && state == (its) && code == (why))
#define READY(count) MUST(kf_server_ready(&server, &ready) == KF_OK && ready == (count))

/* What an open client is asked for: each does what no other one does. */
static void wishes(void)
{
    kf_client client = KF_INIT; kf_server server = KF_INIT; uint64_t ready; uint32_t state, code; size_t len, one, pong;
    open_ends(&client, &server);
    /* A tick asks of a call that is sent, and changes nothing; an answer that is dropped leaves the server no request. */
    MUST(kf_client_tick(&client) == KF_OK && settle(&client, &server) > 0 && settle(&client, &server) == 0);
    STATE(1, KF_SENT, 0); READY(1);
    MUST(kf_client_drop_answer(&client, 2) == KF_NOT_SENT && kf_client_drop_answer(&client, 1) == KF_OK && settle(&client, &server) > 0);
    STATE(1, KF_DONE, 0); READY(0);
    MUST(kf_client_take_reply(&client, 1, room, sizeof room, &len) == KF_OK && len == 4 && !memcmp(room, "\x86\xe5\x78\xcd", 4));
    MUST(kf_client_drop_answer(&client, 1) == KF_NOT_SENT);
    /* No call is sent: a tick asks nothing, a ping and a wish for salts do. Salts have 16 bytes each, and the last wish of a kind counts. */
    MUST(kf_client_tick(&client) == KF_OK && settle(&client, &server) == 0);
    MUST(kf_client_ping(&client, 7) == KF_OK && (pong = settle(&client, &server)) > 0 && settle(&client, &server) == 0);
    MUST(kf_client_ping(&client, 7) == KF_OK && kf_client_ping(&client, 8) == KF_OK && settle(&client, &server) == pong);
    MUST(kf_client_ask_salts(&client, 1) == KF_OK && (one = settle(&client, &server)) > 0);
    MUST(kf_client_ask_salts(&client, 5) == KF_OK && settle(&client, &server) == one + 4 * 16);
    MUST(kf_client_ask_salts(&client, 5) == KF_OK && kf_client_ask_salts(&client, 1) == KF_OK && settle(&client, &server) == one);
    kf_client_free(&client);
    kf_server_free(&server);
}

/* A client that goes on in another session, and one that ends, of which a packet still waits. */
static void leavings(void)
{
    kf_client client = KF_INIT; kf_server server = KF_INIT; uint64_t call, ready, before, after; uint32_t state, code; size_t len, waits; int decided, asked = 0;
    open_ends(&client, &server);
    MUST(kf_client_session(&client, &before) == KF_OK && kf_client_renew(&client) == KF_OK && kf_client_session(&client, &after) == KF_OK && before != after);
    STATE(1, KF_UNKNOWN, 2);
    MUST(kf_client_tick(&client) == KF_NOT_OPEN && kf_client_end(&client) == KF_NOT_OPEN);
    MUST(kf_client_submit(&client, BYTES("ask me!!"), 8, 0, &call) == KF_OK && call == 2 && settle(&client, &server) > 0);
    MUST(answer_all(&server, &asked) == KF_OK && settle(&client, &server) > 0);
    STATE(1, KF_UNKNOWN, 2); STATE(2, KF_DONE, 0);
    kf_client_free(&client);
    kf_server_free(&server);
    open_ends(&client, &server);
    MUST(kf_client_ping(&client, 7) == KF_OK && kf_client_poll_transmit(&client, NOW, room, 0, &waits) == KF_TOO_SHORT);
    MUST(kf_client_submit(&client, BYTES("too late"), 8, 0, &call) == KF_OK);
    MUST(kf_client_session(&client, &before) == KF_OK && kf_client_end(&client) == KF_OK && kf_client_session(&client, &after) == KF_OK && before == after);
    STATE(1, KF_UNKNOWN, 3); STATE(2, KF_REFUSED, 0); READY(1);
    MUST(kf_client_calls_decided(&client, &decided) == KF_OK && decided == 1);
    MUST(kf_client_poll_transmit(&client, NOW, room, sizeof room, &len) == KF_OK && len == waits && settle(&client, &server) == 0);
    MUST(kf_client_attach(&client) == KF_ENDED && kf_client_submit(&client, BYTES("even"), 4, 0, &call) == KF_ENDED && kf_client_renew(&client) == KF_NOT_OPEN);
    MUST(kf_client_handle_packet(&client, NOW, room, 50) == KF_OK);
    kf_client_free(&client);
    kf_server_free(&server);
}

/* A client whose clock is a minute ahead of the server's: its call is held, until it goes on in another session. */
static void ahead(void)
{
    kf_client client = KF_INIT; kf_server server = KF_INIT; uint64_t call, key, session; uint32_t state = KF_QUEUED, code; size_t len; int renewed = 0, asked = 0;
    MUST(kf_client_new(&client, BYTES(keys), strlen(keys), KEY_ID, seed) == KF_OK && kf_server_new(&server, BYTES(keys), strlen(keys), seed) == KF_OK);
    MUST(kf_client_submit(&client, BYTES("ask me!!"), 8, 0, &call) == KF_OK);
    for (int k = 0; k < 9 && state != KF_DONE; k++) {
        while (kf_client_poll_transmit(&client, NOW + 60, room, sizeof room, &len) == KF_OK && len) MUST(kf_server_handle_packet(&server, NOW, room, len, &key, &session) == KF_OK);
        MUST(answer_all(&server, &asked) == KF_OK);
        while (kf_server_poll_transmit(&server, &key, &session, room, sizeof room, &len) == KF_OK && len) MUST(kf_client_handle_packet(&client, NOW + 60, room, len) == KF_OK);
        MUST(kf_client_state(&client, call, &state, &code) == KF_OK);
        if (state == KF_HELD) { renewed++; MUST(kf_client_renew(&client) == KF_OK); }
    }
    MUST(state == KF_DONE && renewed == 1 && asked == 1);
    kf_client_free(&client);
    kf_server_free(&server);
}

/* The limits of the header: what is as long as it may be, and longer. */
static void limits(void)
{
    static const uint8_t most[KF_PACKET_BYTES_MAX + 8];
    kf_client client = KF_INIT; kf_server server = KF_INIT; uint64_t call, key, session;
    MUST(kf_client_new(&client, BYTES(keys), strlen(keys), KEY_ID, seed) == KF_OK && kf_server_new(&server, BYTES(keys), strlen(keys), seed) == KF_OK);
    MUST(kf_client_submit(&client, most, KF_BODY_BYTES_MAX, 0, &call) == KF_OK && kf_client_submit(&client, most, KF_BODY_BYTES_MAX + 4, 0, &call) == KF_BAD_BODY);
    MUST(kf_server_handle_packet(&server, NOW, most, KF_PACKET_BYTES_MAX - 8, &key, &session) == KF_REFUSED_KEY);
    MUST(kf_server_handle_packet(&server, NOW, most, KF_PACKET_BYTES_MAX + 8, &key, &session) == KF_REFUSED_SIZE);
    for (int k = 1; k < 65536; k++) MUST(kf_client_submit(&client, most, 0, 0, &call) == KF_OK);
    MUST(call == 65536 && kf_client_submit(&client, most, 0, 0, &call) == KF_TOO_MANY);
    kf_client_free(&client);
    kf_server_free(&server);
}

/* What became of a call that is sent, where so many other sessions begin behind its own. */
static uint32_t state_behind(int sessions, uint32_t *code)
{
    kf_client client = KF_INIT, other = KF_INIT; kf_server server = KF_INIT; uint64_t call; uint32_t state;
    memset(seed, 2, 32);
    open_ends(&client, &server);
    for (int k = 0; k < sessions; k++) {
        seed[0] = (uint8_t)k; seed[1] = 3;
        MUST(kf_client_new(&other, BYTES(keys), strlen(keys), KEY_ID, seed) == KF_OK && kf_client_submit(&other, BYTES("even"), 4, 0, &call) == KF_OK);
        settle(&other, &server);
        kf_client_free(&other);
    }
    MUST(kf_client_tick(&client) == KF_OK && settle(&client, &server) > 0);
    MUST(kf_client_state(&client, 1, &state, code) == KF_OK);
    kf_client_free(&client);
    kf_server_free(&server);
    return state;
}

/* A server keeps 256 sessions. */
static void sessions(void)
{
    uint32_t code;
    MUST(state_behind(255, &code) == KF_SENT && state_behind(256, &code) == KF_UNKNOWN && code == 1);
}

/* A client under a temporary key, which the server binds first; behind its moment no packet of it opens. */
static void temporary(void)
{
    kf_client client = KF_INIT; kf_server server = KF_INIT; uint64_t call, key, session; uint32_t state = 0, code; size_t len;
    MUST(kf_client_new_temp(&client, BYTES(keys), strlen(keys), TEMP_ID, KEY_ID, NOW + 9, seed) == KF_NO_KEY);
    MUST(kf_client_new_temp(&client, BYTES(both_keys), strlen(both_keys), TEMP_ID, KEY_ID, NOW + 9, seed) == KF_OK);
    MUST(kf_server_new(&server, BYTES(both_keys), strlen(both_keys), seed) == KF_OK);
    MUST(kf_client_submit(&client, BYTES("ask me!!"), 8, 0, &call) == KF_OK);
    for (int k = 0; k < 9 && state != KF_DONE; k++) {
        int asked = 0;
        while (kf_client_poll_transmit(&client, NOW, room, sizeof room, &len) == KF_OK && len) MUST(kf_server_handle_packet(&server, NOW, room, len, &key, &session) == KF_OK && key == TEMP_ID);
        MUST(answer_all(&server, &asked) == KF_OK);
        while (kf_server_poll_transmit(&server, &key, &session, room, sizeof room, &len) == KF_OK && len) MUST(kf_client_handle_packet(&client, NOW, room, len) == KF_OK);
        MUST(kf_client_state(&client, call, &state, &code) == KF_OK);
    }
    MUST(state == KF_DONE && kf_client_submit(&client, BYTES("too late"), 8, 0, &call) == KF_OK);
    MUST(kf_client_poll_transmit(&client, NOW, room, sizeof room, &len) == KF_OK && len);
    MUST(kf_server_handle_packet(&server, NOW + 9, room, len, &key, &session) == KF_REFUSED_KEY);
    kf_client_free(&client);
    kf_server_free(&server);
}

/* ---- many calls ---- */

/* A client's packet reaches the server twice, and once with a byte changed. */
static void goes_up(kf_server *server, size_t len, int *asked)
{
    uint64_t key, session;
    memcpy(copy, room, len);
    copy[len - 1] ^= 1;
    MUST(kf_server_handle_packet(server, NOW, copy, len, &key, &session) == KF_REFUSED_MESSAGE_KEY);
    copy[len - 1] ^= 1;
    for (int k = 0; k < 2; k++) {
        MUST(kf_server_handle_packet(server, NOW, copy, len, &key, &session) == KF_OK);
        MUST(answer_all(server, asked) == KF_OK);
    }
}

static void many(int calls)
{
    kf_client client = KF_INIT; kf_server server = KF_INIT; uint64_t call, key, session; uint32_t state, code; size_t len; int asked = 0;
    MUST(kf_client_new(&client, BYTES(keys), strlen(keys), KEY_ID, seed) == KF_OK && kf_server_new(&server, BYTES(keys), strlen(keys), seed) == KF_OK);
    for (int done = 0; done < calls; done++) {
        MUST(kf_client_submit(&client, BYTES("ask me!!"), 8, 0, &call) == KF_OK && kf_client_submit(&client, BYTES("odd"), 3, 0, &call) == KF_BAD_BODY);
        for (int k = 0; k < 9; k++) {
            while (kf_client_poll_transmit(&client, NOW, room, sizeof room, &len) == KF_OK && len) goes_up(&server, len, &asked);
            while (kf_server_poll_transmit(&server, &key, &session, room, sizeof room, &len) == KF_OK && len)
                for (int times = 0; times < 2; times++) MUST(kf_client_handle_packet(&client, NOW, room, len) == KF_OK);
            MUST(kf_client_state(&client, call, &state, &code) == KF_OK);
            if (state == KF_DONE) break;
        }
        MUST(state == KF_DONE && kf_client_take_reply(&client, call, room, sizeof room, &len) == KF_OK && len == 8 && !memcmp(room, "answered", 8));
    }
    MUST(asked == calls);
    kf_client_free(&client);
    kf_server_free(&server);
    printf("%d calls ran once each\n", calls);
}

int main(int count, char **words)
{
    kf_client client = KF_INIT; kf_server server = KF_INIT; long n = 0; size_t len;
    strcpy(keys, "perm ");
    for (int byte = 0; byte < 256; byte++) sprintf(keys + 5 + 2 * byte, "%02x", (unsigned)byte);
    len = (size_t)sprintf(both_keys, "%s\ntemp %u ", keys, NOW + 9);
    for (int byte = 0; byte < 256; byte++) sprintf(both_keys + len + 2 * byte, "%02x", 255u - (unsigned)byte);
    MUST(!strcmp(kf_status_text(KF_BUSY), "a request waits for its answer") && !strcmp(kf_status_text(KF_BAD_LENGTH), "no bytes have such a length"));
    MUST(!strcmp(kf_status_text((kf_status)25), "no status"));
    refused_handles();
    MUST(kf_client_new(&client, BYTES(keys), strlen(keys), KEY_ID, seed) == KF_OK && kf_server_new(&server, BYTES(keys), strlen(keys), seed) == KF_OK);
    refused_calls(&client);
    refused_packets(&client, &server);
    kf_client_free(&client);
    kf_server_free(&server);
    busy();
    temporary();
    wishes();
    leavings();
    ahead();
    if (count > 1) { many(atoi(words[1])); return 0; }
    limits();
    sessions();
    MUST(talk(-1) == 0);
    while (talk(n)) n++;
    printf("kifzaro %s (%s): a call came to its reply, and with each of its %ld allocations refused\n", kf_version(), kf_build(), n);
    return 0;
}
