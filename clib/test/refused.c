// Each allocation fails in turn, in a program that is linked with --wrap=malloc,--wrap=realloc: a call that tells of it is made again, and all
// answers and octets are those of a run in which none failed. At the end as much is freed as was allocated.
#include "seamless.h"

#include <stdio.h>
#include <stdlib.h>
#include <string.h>

void *__real_malloc(size_t size);
void *__real_realloc(void *block, size_t size);
void __real_free(void *block);

// Which allocation fails, counted down; how many failed; how many blocks there are.
static long countdown, refused, blocks;

static int is_refused(void) {
    if (countdown == 0 || --countdown > 0)
        return 0;
    refused++;
    return 1;
}

void *__wrap_malloc(size_t size) {
    void *block = is_refused() ? NULL : __real_malloc(size);
    blocks += block != NULL;
    return block;
}

void *__wrap_realloc(void *block, size_t size) {
    return is_refused() ? NULL : __real_realloc(block, size);
}

void __wrap_free(void *block) {
    blocks -= block != NULL;
    __real_free(block);
}

static uint64_t digest;

static uint32_t note(uint32_t answer) {
    digest = (digest ^ answer) * 1099511628211u;
    return answer;
}

// A call that tells that an allocation failed is made again.
#define AGAIN(call)                                                                                                                        \
    do {                                                                                                                                   \
        uint32_t answer;                                                                                                                   \
        while ((answer = (call)) == SEAMLESS_NO_MEMORY) {                                                                                  \
        }                                                                                                                                  \
        note(answer);                                                                                                                      \
    } while (0)

static void take_all(seamless_node *node) {
    uint8_t buffer[SEAMLESS_MAX_FRAME];
    for (uint32_t port = SEAMLESS_H; port <= SEAMLESS_C; port++)
        while (seamless_waiting(node, port)) {
            size_t count = seamless_take(node, port, buffer, sizeof buffer);
            for (size_t at = 0; at < count; at++)
                note(buffer[at]);
        }
}

static void run(uint8_t role) {
    seamless_setup setup = {.mac = {2, 0, 0, 0, 0, 1}, .role = role, .net = 1, .fixed_key = 1};
    seamless_node node = SEAMLESS_CLOSED_NODE;
    AGAIN(seamless_open(&setup, &node));
    uint8_t tagged[70] = {255, 255, 255, 255, 255, 255, 2, 0, 0, 0, 0, 2, 0x89, 0x2f, 0, 0x38, 0, 0, 8, 0};
    uint8_t trailed[66] = {255, 255, 255, 255, 255, 255, 2, 0, 0, 0, 0, 2, 8, 0}, plain[60];
    memcpy(trailed + 60, (uint8_t[]){0, 0, 0xa0, 0x34, 0x88, 0xfb}, 6);
    for (uint8_t i = 0; i < 40; i++) {
        tagged[11] = trailed[11] = (uint8_t)(2 + i % 20);
        tagged[17] = trailed[61] = i;
        uint32_t port = i % 2 ? SEAMLESS_B : SEAMLESS_A;
        AGAIN(role == SEAMLESS_DANP ? seamless_receive(&node, port, trailed, 66, i) : seamless_receive(&node, port, tagged, 70, i));
        memcpy(plain, trailed, 60);
        plain[11] = 1;
        AGAIN(seamless_send(&node, plain, sizeof plain, i));
        plain[11] = (uint8_t)(60 + i);
        AGAIN(seamless_receive(&node, SEAMLESS_C, plain, sizeof plain, i));
        take_all(&node);
    }
    AGAIN(seamless_tick(&node, 5000));
    take_all(&node);
    seamless_node_entry entry = {0};
    seamless_alarm_entry alarm = {0};
    for (size_t index = 0; index < 21; index++) {
        AGAIN(seamless_node_at(&node, index, &entry));
        note(entry.age_a);
        AGAIN(seamless_alarm_at(&node, index, &alarm));
        note((uint32_t)alarm.at);
    }
    seamless_node_entry entries[30];
    seamless_alarm_entry alarms[70];
    seamless_proxied_entry proxied[60];
    seamless_cursor cursor = {0, 0, 0};
    static uint8_t octets[SEAMLESS_MAX_SNAPSHOT];
    size_t count = 0;
    AGAIN(seamless_nodes(&node, entries, 30, &count));
    note((uint32_t)count);
    AGAIN(seamless_alarms(&node, alarms, 70, &count));
    note((uint32_t)count);
    AGAIN(seamless_alarms_since(&node, &cursor, alarms, 70));
    note((uint32_t)cursor.number);
    AGAIN(seamless_proxied(&node, proxied, 60, &count));
    note((uint32_t)count);
    AGAIN(seamless_proxied_at(&node, 0, proxied));
    AGAIN(seamless_snapshot(&node, octets, sizeof octets, &count));
    for (size_t at = 0; at < count; at++)
        note(octets[at]);
    AGAIN(seamless_absorb(&node, octets, count));
    note(seamless_close(&node));
    AGAIN(seamless_resume(&setup, octets, count, &node));
    note((uint32_t)seamless_time(&node));
    note(seamless_close(&node));
}

int main(void) {
    for (uint8_t role = 0; role < 5; role++) {
        uint64_t wanted = 0;
        for (long failing = 0;; failing++) {
            digest = 14695981039346656037u;
            blocks = refused = 0;
            countdown = failing;
            run(role);
            if (blocks || (failing && digest != wanted)) {
                printf("role %d: allocation %ld fails: %ld blocks are left, the answers are %s\n", role, failing, blocks, digest == wanted ? "the same" : "others");
                return 1;
            }
            wanted = digest;
            if (failing && !refused) {
                printf("role %d: each of %ld allocations failed\n", role, failing - 1);
                break;
            }
        }
    }
    return 0;
}
