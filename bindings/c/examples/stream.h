/* Packets over a stream socket, in the intermediate form, for the two examples. What fails ends the program, or is answered as 0. */
#include "kifzaro.h"
#include <arpa/inet.h>
#include <stdio.h>
#include <stdlib.h>
#include <string.h>
#include <sys/random.h>
#include <sys/socket.h>
#include <time.h>
#include <unistd.h>

static void must(int holds, const char *else_what)
{
    if (!holds) { fprintf(stderr, "%s\n", else_what); exit(1); }
}

static void done(kf_status status)
{
    if (status != KF_OK) { fprintf(stderr, "%s\n", kf_status_text(status)); exit(1); }
}

static uint64_t moment(void) { return (uint64_t)time(NULL); }

/* The bytes of a file, which the caller frees. */
static uint8_t *read_file(const char *name, size_t *len)
{
    FILE *file = fopen(name, "rb");
    uint8_t *bytes = malloc(1 << 20);
    must(file && bytes, "the key file can't be read");
    *len = fread(bytes, 1, 1 << 20, file);
    fclose(file);
    return bytes;
}

static int send_all(int to, const uint8_t *bytes, size_t len)
{
    for (ssize_t n; len; bytes += n, len -= (size_t)n) if ((n = send(to, bytes, len, MSG_NOSIGNAL)) <= 0) return 0;
    return 1;
}

static int receive_all(int from, uint8_t *bytes, size_t len)
{
    for (ssize_t n; len; bytes += n, len -= (size_t)n) if ((n = recv(from, bytes, len, 0)) <= 0) return 0;
    return 1;
}

/* Each packet stands behind its length in 4 bytes, the lowest first. */
static int send_packet(int to, const uint8_t *packet, size_t len)
{
    const uint8_t head[4] = { (uint8_t)len, (uint8_t)(len >> 8), (uint8_t)(len >> 16), (uint8_t)(len >> 24) };
    return send_all(to, head, 4) && send_all(to, packet, len);
}

static int receive_packet(int from, uint8_t *room, size_t room_len, size_t *len)
{
    uint8_t head[4];
    if (!receive_all(from, head, 4)) return 0;
    *len = head[0] | (size_t)head[1] << 8 | (size_t)head[2] << 16 | (size_t)head[3] << 24;
    return *len <= room_len && receive_all(from, room, *len);
}
