// replay MAC ROLE MODE WIDTH LAN NET: takes a script of `seamless replay` from standard input, and answers it as that does (why a frame is not read
// is Unread here).
#include "seamless.h"

#include <stdio.h>
#include <stdlib.h>
#include <string.h>

static size_t octets_of(const char *digits, uint8_t *octets, size_t most) {
    size_t count = 0;
    unsigned octet;
    for (; count < most && sscanf(digits, "%2x", &octet) == 1; digits += 2)
        octets[count++] = (uint8_t)octet;
    return count;
}

static const char *name_of(uint32_t answer) {
    return answer == SEAMLESS_UNREAD        ? "Unread"
           : answer == SEAMLESS_UNTAGGED    ? "Untagged"
           : answer == SEAMLESS_TABLE_FULL  ? "TableFull"
           : answer == SEAMLESS_OUTBOX_FULL ? "OutboxFull"
                                            : "?";
}

// The answer to a line; 0 to one that is no event.
static uint32_t answer_to(seamless_node *node, const char *line) {
    static char digits[8192];
    static uint8_t octets[4096];
    unsigned long long now;
    char port;
    *digits = 0;
    if (sscanf(line, "in %c %llu %8191s", &port, &now, digits) >= 2)
        return seamless_receive(node, (uint32_t)(port - 'A' + 1), octets, octets_of(digits, octets, sizeof octets), now);
    if (sscanf(line, "send %llu %8191s", &now, digits) >= 1)
        return seamless_send(node, octets, octets_of(digits, octets, sizeof octets), now);
    if (sscanf(line, "tick %llu", &now) == 1)
        return seamless_tick(node, now);
    return 0;
}

static void print_all(seamless_node *node) {
    uint8_t buffer[SEAMLESS_MAX_FRAME];
    for (uint32_t port = SEAMLESS_H; port <= SEAMLESS_C; port++) {
        size_t count;
        while ((count = seamless_take(node, port, buffer, sizeof buffer))) {
            printf("%c ", "HABC"[port]);
            for (size_t at = 0; at < count; at++)
                printf("%02x", buffer[at]);
            putchar('\n');
        }
    }
}

int main(int count, char **words) {
    static char line[16384];
    seamless_setup setup = {.fixed_key = 1};
    seamless_node node = SEAMLESS_CLOSED_NODE;
    if (count != 7 || octets_of(words[1], setup.mac, 6) != 6)
        return 2;
    setup.role = (uint8_t)atoi(words[2]);
    setup.mode = (uint8_t)atoi(words[3]);
    setup.width = (uint8_t)atoi(words[4]);
    setup.lan = (uint8_t)atoi(words[5]);
    setup.net = (uint8_t)atoi(words[6]);
    if (seamless_open(&setup, &node))
        return 1;
    for (unsigned number = 1; fgets(line, sizeof line, stdin); number++) {
        uint32_t answer = answer_to(&node, line);
        if (SEAMLESS_FAILED(answer))
            printf("refused %u %s\n", number, name_of(answer));
        print_all(&node);
    }
    return seamless_close(&node) != 0;
}
