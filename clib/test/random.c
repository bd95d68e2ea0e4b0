// random ROLE MODE WIDTH SEED COUNT SCRIPT ANSWERS: COUNT random events at a node, most of their frames nearly right. They are written to SCRIPT as
// `seamless replay` reads them, and what the library answers to ANSWERS as it prints it (why a frame is not read is Unread there).
#include "seamless.h"

#include <stdio.h>
#include <stdlib.h>
#include <string.h>

static uint64_t state;

static uint32_t random_number(uint32_t below) {
    state ^= state << 13;
    state ^= state >> 7;
    state ^= state << 17;
    return (uint32_t)(state >> 33) % below;
}

// Fills octets with a frame that a node may take, as often as not.
static void fill(uint8_t *octets, size_t size, uint32_t number) {
    static const uint8_t TYPES[4][2] = {{0x89, 0x2f}, {0x08, 0}, {0x88, 0xfb}, {0x81, 0}};
    for (size_t at = 0; at < size; at++)
        octets[at] = (uint8_t)(at < 12 ? 0 : random_number(256));
    if (size < 24)
        return;
    octets[0] = octets[6] = 2;
    octets[5] = (uint8_t)random_number(4);
    octets[11] = (uint8_t)(1 + random_number(40));
    if (random_number(16) == 0)
        memset(octets, 255, 6);
    memcpy(octets + 12, TYPES[random_number(4)], 2);
    size_t payload = size - 14;
    uint8_t tag[6] = {(uint8_t)(random_number(4) << 4 | (payload >> 8 & 15)), (uint8_t)payload, (uint8_t)(number >> 10), (uint8_t)(number >> 2), 8, 0};
    memcpy(octets + 14, tag, 6);
    if (random_number(2)) {
        uint8_t lan = random_number(2) ? 0xa0 : 0xb0;
        uint8_t trailer[6] = {tag[2], tag[3], (uint8_t)(lan | (payload >> 8 & 15)), (uint8_t)payload, 0x88, 0xfb};
        memcpy(octets + size - 6, trailer, 6);
    }
}

static void print_hex(FILE *file, const uint8_t *octets, size_t count) {
    for (size_t at = 0; at < count; at++)
        fprintf(file, "%02x", octets[at]);
    fputc('\n', file);
}

static const char *name_of(uint32_t answer) {
    switch (answer) {
    case SEAMLESS_UNREAD:
        return "Unread";
    case SEAMLESS_UNTAGGED:
        return "Untagged";
    case SEAMLESS_TABLE_FULL:
        return "TableFull";
    case SEAMLESS_OUTBOX_FULL:
        return "OutboxFull";
    default:
        return "?";
    }
}

// One event: its line, and what the library answers.
static uint32_t event(seamless_node *node, uint32_t ports, uint32_t number, uint64_t now, FILE *script) {
    uint32_t kind = random_number(16);
    if (kind == 0) {
        fprintf(script, "tick %llu\n", (unsigned long long)now);
        return seamless_tick(node, now);
    }
    // A list of its very size, so that a sanitizer sees a read behind it.
    size_t size = random_number(8) ? 60 + random_number(20) : 1 + random_number(1560);
    uint8_t *octets = malloc(size);
    if (!octets)
        exit(1);
    fill(octets, size, number);
    uint32_t port = 1 + random_number(ports), answer;
    if (kind < 3) {
        fprintf(script, "send %llu ", (unsigned long long)now);
        answer = seamless_send(node, octets, size, now);
    } else {
        fprintf(script, "in %c %llu ", "HABC"[port], (unsigned long long)now);
        answer = seamless_receive(node, port, octets, size, now);
    }
    print_hex(script, octets, size);
    free(octets);
    return answer;
}

int main(int count, char **words) {
    if (count != 8)
        return 2;
    uint8_t role = (uint8_t)atoi(words[1]), mode = (uint8_t)atoi(words[2]), width = (uint8_t)atoi(words[3]);
    seamless_setup setup = {.mac = {2, 0, 0, 0, 0, 1}, .role = role, .mode = mode, .width = width, .net = 1, .fixed_key = 1};
    seamless_node node = SEAMLESS_CLOSED_NODE;
    state = strtoull(words[4], NULL, 10);
    FILE *script = fopen(words[6], "w"), *answers = fopen(words[7], "w");
    if (!script || !answers || seamless_open(&setup, &node))
        return 1;
    uint32_t events = (uint32_t)atoi(words[5]), ports = role < SEAMLESS_REDBOX_SAN ? 2 : 3;
    uint64_t now = 0;
    for (uint32_t number = 1; number <= events; number++) {
        now += random_number(3);
        uint32_t answer = event(&node, ports, number, now, script);
        if (SEAMLESS_FAILED(answer))
            fprintf(answers, "refused %u %s\n", number, name_of(answer));
        for (uint32_t port = SEAMLESS_H; port <= SEAMLESS_C; port++) {
            uint8_t buffer[SEAMLESS_MAX_FRAME];
            size_t length;
            while ((length = seamless_take(&node, port, buffer, sizeof buffer))) {
                fprintf(answers, "%c ", "HABC"[port]);
                print_hex(answers, buffer, length);
            }
        }
    }
    return fclose(script) || fclose(answers) || seamless_close(&node);
}
