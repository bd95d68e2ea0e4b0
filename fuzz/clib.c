// libFuzzer at the C interface: the first octets are the setup of a node, and each of the events behind them begins with a length.
//
//     clang -O1 -g -fsanitize=fuzzer,address,undefined -Iclib/include -o fuzz-clib fuzz/clib.c clib/out/libseamless.a
#include "seamless.h"

#include <stdlib.h>
#include <string.h>

// What has to hold whatever comes in.
static void hold(int holds) {
    if (!holds)
        abort();
}

// Takes all that waits, in a buffer of some capacity: what is too short for a frame leaves it.
static void take_all(seamless_node *node, size_t capacity) {
    uint8_t *buffer = malloc(capacity + 1);
    for (uint32_t port = SEAMLESS_H; buffer && port <= SEAMLESS_C + 1; port++) {
        size_t waits, count;
        while ((waits = seamless_waiting(node, port)) && (count = seamless_take(node, port, buffer, capacity)))
            hold(count <= capacity && count >= 14 && seamless_waiting(node, port) == waits - 1);
        hold(seamless_waiting(node, port) == 0 || capacity < SEAMLESS_MAX_FRAME);
    }
    free(buffer);
}

// What the node has noted is read again, and taken over by the node itself.
static void keep(seamless_node *node, const seamless_setup *setup) {
    size_t count = 0, again = 0;
    seamless_node other = SEAMLESS_CLOSED_NODE;
    hold(seamless_snapshot(node, (uint8_t *)&count, 0, &again) == 0 && again <= SEAMLESS_MAX_SNAPSHOT);
    uint8_t *octets = malloc(again), *others = malloc(again);
    if (octets && others) {
        hold(seamless_snapshot(node, octets, again, &count) == 0 && count == again);
        hold(seamless_resume(setup, octets, count, &other) == 0 && seamless_time(&other) <= seamless_time(node));
        hold(seamless_snapshot(&other, others, count, &again) == 0 && again <= count);
        hold(seamless_absorb(&other, octets, count) == 0 && seamless_absorb(node, octets, count) == 0);
        hold(seamless_close(&other) == 0);
    }
    free(octets);
    free(others);
}

static void tell_all(seamless_node *node) {
    seamless_node_entry entry, of;
    seamless_alarm_entry alarm;
    seamless_counters_entry counted;
    for (size_t index = 0; seamless_node_at(node, index, &entry) == 0; index++)
        hold(seamless_node_of(node, entry.mac, &of) == 0 && of.age_a == entry.age_a);
    for (size_t index = 0; seamless_alarm_at(node, index, &alarm) == 0; index++)
        hold(alarm.kind == 1 || alarm.kind == 2);
    static seamless_node_entry entries[SEAMLESS_MAX_NODES];
    static seamless_alarm_entry alarms[SEAMLESS_MAX_ALARMS];
    static seamless_proxied_entry proxied[SEAMLESS_MAX_PROXIED];
    seamless_cursor cursor = {0, 0, 0};
    size_t count = 0;
    hold(seamless_nodes(node, entries, SEAMLESS_MAX_NODES, &count) == 0 && count <= SEAMLESS_MAX_NODES);
    hold(seamless_node_at(node, count, &entry) == SEAMLESS_ARGUMENT);
    hold(seamless_alarms(node, alarms, SEAMLESS_MAX_ALARMS, &count) == 0 && count <= SEAMLESS_MAX_ALARMS);
    hold(seamless_alarms_since(node, &cursor, alarms, SEAMLESS_MAX_ALARMS) == 0 && cursor.count == count && cursor.number == cursor.missed + count);
    hold(seamless_alarms_since(node, &cursor, alarms, SEAMLESS_MAX_ALARMS) == 0 && !cursor.count && !cursor.missed);
    hold(seamless_proxied(node, proxied, SEAMLESS_MAX_PROXIED, &count) == 0 && count <= SEAMLESS_MAX_PROXIED);
    for (uint32_t port = SEAMLESS_H; port <= SEAMLESS_C; port++)
        hold(seamless_counters(node, port, &counted) == 0 && counted.unread + counted.untagged <= counted.received);
}

int LLVMFuzzerTestOneInput(const uint8_t *octets, size_t size) {
    seamless_setup setup = {.fixed_key = 1};
    seamless_node node = SEAMLESS_CLOSED_NODE;
    if (size < 12)
        return 0;
    memcpy(&setup, octets, 12);
    uint32_t opened = seamless_open(&setup, &node);
    hold(opened == 0 ? node.at != NULL : !node.at && (opened == SEAMLESS_ARGUMENT || opened == SEAMLESS_NO_MEMORY));
    uint64_t now = 0;
    for (size_t at = 12; at + 4 <= size;) {
        size_t count = octets[at] + (octets[at + 1] % 8) * 256u, rest = size - at - 4;
        count = count < rest ? count : rest;
        // A list of its very size, so that the sanitizer sees a read behind it.
        uint8_t *list = malloc(count + 1);
        if (!list)
            break;
        memcpy(list, octets + at + 4, count);
        uint32_t kind = octets[at + 2] % 8, answer;
        now += octets[at + 3] * octets[at + 3];
        if (kind == 0)
            answer = seamless_tick(&node, now);
        else if (kind == 1)
            answer = seamless_send(&node, list, count, now);
        else
            answer = seamless_receive(&node, kind - 2, list, count, now);
        hold(opened ? answer == SEAMLESS_CLOSED : answer <= 16 || (answer >= 257 && answer <= 262));
        free(list);
        take_all(&node, octets[at + 2] < 240 ? SEAMLESS_MAX_FRAME : octets[at + 3]);
        at += 4 + count;
    }
    if (!opened) {
        tell_all(&node);
        keep(&node, &setup);
    } else {
        // The octets as a snapshot: hardly ever are they one.
        uint32_t resumed = seamless_resume(&setup, octets, size, &node);
        hold(resumed == SEAMLESS_ARGUMENT && !node.at);
    }
    setup = (seamless_setup){.fixed_key = 1};
    seamless_node read = SEAMLESS_CLOSED_NODE;
    uint32_t resumed = seamless_resume(&setup, octets, size, &read);
    hold(resumed == 0 || resumed == SEAMLESS_SNAPSHOT);
    hold(seamless_close(&read) == (resumed ? SEAMLESS_CLOSED : 0));
    hold(seamless_close(&node) == (opened ? SEAMLESS_CLOSED : 0) && !node.at);
    return 0;
}
