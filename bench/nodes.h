/* The nodes that every program of the bench seals and opens, and its checksum. */
#include <stdint.h>
#include <stdio.h>
#include <stdlib.h>
#include <string.h>

enum { NODE_LEN = 4096, TAG_LEN = 16, KEY_LEN = 16, IV_LEN = 12, SEALED_NODES = 2 };

static const uint8_t ZERO_IV[IV_LEN];

/* Both end the program where the library fails. */
void seal(const uint8_t key[KEY_LEN], uint8_t text[NODE_LEN], uint8_t tag[TAG_LEN]);
int open_sealed(const uint8_t key[KEY_LEN], uint8_t text[NODE_LEN], const uint8_t tag[TAG_LEN]);

static void check(int ok)
{
    if (!ok) {
        fputs("the library failed\n", stderr);
        exit(1);
    }
}

static void node_key(uint8_t key[KEY_LEN], uint64_t node)
{
    memset(key, 0, KEY_LEN);
    for (int i = 0; i < 8; i++)
        key[KEY_LEN - 1 - i] = (uint8_t)(node >> (8 * i));
}

static void plain_node(uint8_t text[NODE_LEN])
{
    for (int i = 0; i < NODE_LEN; i++)
        text[i] = (uint8_t)(i % 251);
}

static unsigned __int128 number(const uint8_t tag[TAG_LEN])
{
    unsigned __int128 n = 0;
    for (int i = 0; i < TAG_LEN; i++)
        n = n << 8 | tag[i];
    return n;
}

static unsigned __int128 seal_nodes(uint64_t count)
{
    uint8_t plain[NODE_LEN], text[NODE_LEN], tag[TAG_LEN], key[KEY_LEN];
    unsigned __int128 sum = 0;
    plain_node(plain);
    for (uint64_t node = 0; node < count; node++) {
        memcpy(text, plain, NODE_LEN);
        node_key(key, node);
        seal(key, text, tag);
        sum ^= number(tag);
    }
    return sum;
}

static unsigned __int128 open_nodes(uint64_t count)
{
    static uint8_t texts[SEALED_NODES][NODE_LEN], tags[SEALED_NODES][TAG_LEN];
    uint8_t text[NODE_LEN], key[KEY_LEN];
    unsigned __int128 sum = 0;
    for (uint64_t node = 0; node < SEALED_NODES; node++) {
        plain_node(texts[node]);
        node_key(key, node);
        seal(key, texts[node], tags[node]);
    }
    for (uint64_t i = 0; i < count; i++) {
        uint64_t node = i % SEALED_NODES;
        memcpy(text, texts[node], NODE_LEN);
        node_key(key, node);
        if (open_sealed(key, text, tags[node]))
            sum += text[i % NODE_LEN];
    }
    return sum;
}

static void print(unsigned __int128 n)
{
    char digits[40];
    int at = sizeof digits;
    do {
        digits[--at] = (char)('0' + (int)(n % 10));
        n /= 10;
    } while (n != 0);
    printf("%.*s\n", (int)sizeof digits - at, digits + at);
}

int main(int argc, char **argv)
{
    if (argc != 3) {
        printf("usage: %s seal|open NODES\n", argv[0]);
        return 1;
    }
    uint64_t count = strtoull(argv[2], NULL, 10);
    print(strcmp(argv[1], "open") == 0 ? open_nodes(count) : seal_nodes(count));
    return 0;
}
