/* The work of mtp_bench's cipher words over OpenSSL's portable AES, with the same line as output:
 * AES_ige_encrypt, and AES_encrypt in a loop; and that of its word crc32 over zlib's crc32. A text, a key and a
 * checksum as mtp_bench has them. */
#define OPENSSL_SUPPRESS_DEPRECATED
#include <inttypes.h>
#include <openssl/aes.h>
#include <stdint.h>
#include <stdio.h>
#include <stdlib.h>
#include <string.h>
#include <zlib.h>

static void ige(unsigned char *text, size_t bytes, uint64_t times, const unsigned char *key_bytes, int encrypt)
{
    AES_KEY key;
    if (encrypt)
        AES_set_encrypt_key(key_bytes, 256, &key);
    else
        AES_set_decrypt_key(key_bytes, 256, &key);
    for (uint64_t time = 0; time < times; time++) {
        unsigned char iv[32];
        for (int i = 0; i < 32; i++)
            iv[i] = 0x20 + i;
        AES_ige_encrypt(text, text, bytes, &key, iv, encrypt);
    }
}

/* A stream from block to block; the text's bytes are whole blocks. */
static void ctr(unsigned char *text, size_t bytes, uint64_t times, const unsigned char *key_bytes)
{
    AES_KEY key;
    unsigned char counter[16], stream[16];
    AES_set_encrypt_key(key_bytes, 256, &key);
    for (int i = 0; i < 16; i++)
        counter[i] = 0xf0 + i;
    for (uint64_t time = 0; time < times; time++)
        for (size_t at = 0; at < bytes; at += 16) {
            uint64_t words[2], of_stream[2];
            AES_encrypt(counter, stream, &key);
            memcpy(words, text + at, 16);
            memcpy(of_stream, stream, 16);
            words[0] ^= of_stream[0];
            words[1] ^= of_stream[1];
            memcpy(text + at, words, 16);
            for (int i = 15; i >= 0 && ++counter[i] == 0; i--)
                ;
        }
}

/* Fresh keys, each of which enciphers the blocks one by one. */
static void fresh_keys(unsigned char *text, size_t bytes, uint64_t times, const unsigned char *key_bytes)
{
    for (uint64_t time = 0; time < times; time++) {
        AES_KEY key;
        unsigned char fresh[32];
        memcpy(fresh, key_bytes, 32);
        for (int i = 0; i < 8; i++)
            fresh[i] = time >> (8 * i);
        AES_set_encrypt_key(fresh, 256, &key);
        for (size_t at = 0; at < bytes; at += 16)
            AES_encrypt(text + at, text + at, &key);
    }
}

/* The check of the text so many times, one behind the other; its 4 bytes stand where the text stood. */
static void check(unsigned char *text, size_t bytes, uint64_t times)
{
    uLong check = crc32(0, Z_NULL, 0);
    for (uint64_t time = 0; time < times; time++)
        check = crc32(check, text, bytes);
    for (int i = 0; i < 4; i++)
        text[i] = check >> (8 * i);
}

int main(int count, char **words)
{
    if (count != 4) {
        fprintf(stderr, "usage: openssl_aes ige-encrypt|ige-decrypt|ctr|key|crc32 BYTES TIMES\n");
        return 2;
    }
    size_t bytes = strtoull(words[2], NULL, 10);
    uint64_t times = strtoull(words[3], NULL, 10), sum = 0;
    size_t output = bytes;
    unsigned char key[32], *text = malloc(bytes + 4);
    int checks = !strcmp(words[1], "crc32");
    if (!text || (bytes % 16 && !checks))
        return 2;
    for (int i = 0; i < 32; i++)
        key[i] = i;
    for (size_t i = 0; i < bytes; i++)
        text[i] = 7 * i + 3;
    if (checks) {
        check(text, bytes, times);
        output = 4;
    } else if (!strcmp(words[1], "ige-encrypt"))
        ige(text, bytes, times, key, AES_ENCRYPT);
    else if (!strcmp(words[1], "ige-decrypt"))
        ige(text, bytes, times, key, AES_DECRYPT);
    else if (!strcmp(words[1], "ctr"))
        ctr(text, bytes, times, key);
    else if (!strcmp(words[1], "key"))
        fresh_keys(text, bytes, times, key);
    else
        return 2;
    for (size_t i = 0; i < output; i++)
        sum = sum * 31 + text[i];
    printf("%s %zu %" PRIu64 " %016" PRIx64 "\n", words[1], bytes, times, sum);
    free(text);
    return 0;
}
