/* A test server over TCP, of many connections at once, that answers each call with its own body: server PORT KEY_FILE. Each connection has a
 * thread, and one thread at a time has the server. */
#include "stream.h"
#include <pthread.h>

/* Which connection each session has: as many as the library's server keeps. */
#define ENDS 256
static struct end { uint64_t key, session; int to; } ends[ENDS];
static unsigned known;
static kf_server server = KF_INIT;
static uint8_t out[KF_PACKET_BYTES_MAX];
static pthread_mutex_t turn = PTHREAD_MUTEX_INITIALIZER;

static struct end *end_of(uint64_t key, uint64_t session)
{
    for (unsigned k = 0; k < known && k < ENDS; k++) if (ends[k].key == key && ends[k].session == session) return &ends[k];
    struct end *end = &ends[known++ % ENDS];
    *end = (struct end){ key, session, -1 };
    return end;
}

/* A packet came over a connection: what is ready is answered, and what is due is sent. */
static void take(int from, const uint8_t *packet, size_t len)
{
    uint64_t key, session; int there = 1;
    kf_status told = kf_server_handle_packet(&server, moment(), packet, len, &key, &session);
    if (told >= KF_REFUSED_SIZE && told <= KF_REFUSED_PADDING) { fprintf(stderr, "%s\n", kf_status_text(told)); return; }
    done(told);
    struct end *end = end_of(key, session);
    if (end->to != from) { end->to = from; done(kf_server_attach(&server, key, session, moment())); }
    done(kf_server_tick(&server, moment()));
    for (;;) {
        done(kf_server_next_request(&server, &there, out, sizeof out, &len));
        if (!there) break;
        done(kf_server_answer(&server, moment(), out, len));
    }
    for (;;) {
        done(kf_server_poll_transmit(&server, &key, &session, out, sizeof out, &len));
        if (!len) break;
        send_packet(end_of(key, session)->to, out, len);
    }
}

static void *serve(void *given)
{
    int from = (int)(intptr_t)given; uint8_t *packet = malloc(KF_PACKET_BYTES_MAX), start[4]; size_t len;
    if (packet && receive_all(from, start, 4) && !memcmp(start, "\xee\xee\xee\xee", 4))
        while (receive_packet(from, packet, KF_PACKET_BYTES_MAX, &len)) {
            pthread_mutex_lock(&turn);
            take(from, packet, len);
            pthread_mutex_unlock(&turn);
        }
    pthread_mutex_lock(&turn);
    for (unsigned k = 0; k < ENDS; k++) if (ends[k].to == from) ends[k].to = -1;
    pthread_mutex_unlock(&turn);
    close(from);
    free(packet);
    return NULL;
}

int main(int count, char **words)
{
    uint8_t seed[32]; size_t len; pthread_t thread;
    struct sockaddr_in at = { .sin_family = AF_INET, .sin_addr.s_addr = htonl(INADDR_LOOPBACK) };
    socklen_t at_len = sizeof at;
    must(count == 3, "server PORT KEY_FILE");
    uint8_t *keys = read_file(words[2], &len);
    must(getrandom(seed, sizeof seed, 0) == sizeof seed, "there is no random source");
    done(kf_server_new(&server, keys, len, seed));
    free(keys);
    int listening = socket(AF_INET, SOCK_STREAM, 0), again = 1;
    setsockopt(listening, SOL_SOCKET, SO_REUSEADDR, &again, sizeof again);
    at.sin_port = htons((uint16_t)atoi(words[1]));
    must(bind(listening, (struct sockaddr *)&at, sizeof at) == 0 && listen(listening, 128) == 0, "the port is taken");
    must(getsockname(listening, (struct sockaddr *)&at, &at_len) == 0, "the port has no number");
    printf("listening %d\n", ntohs(at.sin_port));
    fflush(stdout);
    for (;;) {
        int from = accept(listening, NULL, NULL);
        if (from >= 0 && pthread_create(&thread, NULL, serve, (void *)(intptr_t)from) == 0) pthread_detach(thread);
        else if (from >= 0) close(from);
    }
}
