/* Calls over TCP: client PORT KEY_FILE KEY BODY.. */
#include "stream.h"

static uint8_t room[KF_PACKET_BYTES_MAX], seed[32];

/* The identifier of a key, whose 16 digits have the lowest byte first. */
static uint64_t key_id(const char *digits) { return __builtin_bswap64(strtoull(digits, NULL, 16)); }

int main(int count, char **words)
{
    kf_client client = KF_INIT; size_t len; uint64_t call; int decided = 0; uint32_t state, code, held, sent;
    struct sockaddr_in at = { .sin_family = AF_INET, .sin_addr.s_addr = htonl(INADDR_LOOPBACK) };
    must(count > 3, "client PORT KEY_FILE KEY BODY..");
    uint8_t *keys = read_file(words[2], &len);
    must(getrandom(seed, sizeof seed, 0) == sizeof seed, "there is no random source");
    done(kf_client_new(&client, keys, len, key_id(words[3]), seed));
    for (int k = 4; k < count; k++) done(kf_client_submit(&client, (uint8_t *)words[k], strlen(words[k]), 0, &call));
    int server = socket(AF_INET, SOCK_STREAM, 0);
    at.sin_port = htons((uint16_t)atoi(words[1]));
    must(connect(server, (struct sockaddr *)&at, sizeof at) == 0 && send_all(server, (uint8_t *)"\xee\xee\xee\xee", 4), "there is no server");
    for (;;) {
        while (kf_client_poll_transmit(&client, moment(), room, sizeof room, &len) == KF_OK && len) must(send_packet(server, room, len), "the connection has ended");
        done(kf_client_calls_decided(&client, &decided));
        if (decided) break;
        must(receive_packet(server, room, sizeof room, &len), "the connection has ended");
        done(kf_client_handle_packet(&client, moment(), room, len));
        held = sent = 0;
        for (call = 1; kf_client_state(&client, call, &state, &code) == KF_OK; call++) { held += state == KF_HELD; sent += state == KF_SENT; }
        if (held && !sent) kf_client_renew(&client);
    }
    for (call = 1; call + 3 < (uint64_t)count; call++) {
        done(kf_client_take_reply(&client, call, room, sizeof room, &len));
        printf("%.*s\n", (int)len, (char *)room);
    }
    kf_client_free(&client);
    free(keys);
    close(server);
    return 0;
}
