/* Times calls through both ends in one program: talk N. It writes the microseconds of a call. */
#include "kifzaro.h"
#include <stdio.h>
#include <stdlib.h>
#include <string.h>
#include <time.h>

static uint8_t room[1 << 16];

static double now(void)
{
    struct timespec at;
    clock_gettime(CLOCK_PROCESS_CPUTIME_ID, &at);
    return (double)at.tv_sec * 1e6 + (double)at.tv_nsec / 1e3;
}

static void call_once(kf_client *client, kf_server *server)
{
    uint64_t call = 0, key, session; uint32_t state = 0, code; size_t len = 0; int there = 0;
    kf_client_submit(client, (const uint8_t *)"ask me!!", 8, 0, &call);
    while (state != KF_DONE) {
        while (kf_client_poll_transmit(client, 1000000, room, sizeof room, &len) == KF_OK && len) kf_server_handle_packet(server, 1000000, room, len, &key, &session);
        while (kf_server_next_request(server, &there, room, sizeof room, &len) == KF_OK && there) kf_server_answer(server, 1000000, room, len);
        while (kf_server_poll_transmit(server, &key, &session, room, sizeof room, &len) == KF_OK && len) kf_client_handle_packet(client, 1000000, room, len);
        if (kf_client_state(client, call, &state, &code) != KF_OK) exit(1);
    }
    kf_client_take_reply(client, call, room, sizeof room, &len);
}

int main(int count, char **words)
{
    static char keys[5 + 512 + 1] = "perm ";
    uint8_t seed[32] = { 1 };
    kf_client client = KF_INIT; kf_server server = KF_INIT;
    int calls = count > 1 ? atoi(words[1]) : 1000;
    for (int byte = 0; byte < 256; byte++) sprintf(keys + 5 + 2 * byte, "%02x", (unsigned)byte);
    if (kf_client_new(&client, (uint8_t *)keys, strlen(keys), 0xc8df57a46e58d132u, seed) || kf_server_new(&server, (uint8_t *)keys, strlen(keys), seed)) return 1;
    double began = now();
    for (int k = 0; k < calls; k++) call_once(&client, &server);
    printf("%.2f\n", (now() - began) / calls);
    kf_client_free(&client);
    kf_server_free(&server);
    return 0;
}
