// Worked frames, and each wrong use that the header speaks of. Prints a line for each, and answers 1 where one fails.
#include "seamless.h"

#include <stdio.h>
#include <stdlib.h>
#include <string.h>

static int passed, failed;

static void expect(const char *name, int holds) {
    printf("clib: %s ... %s\n", name, holds ? "ok" : "FAILED");
    passed += holds;
    failed += !holds;
}

static const uint8_t M1[6] = {2, 0, 0, 0, 0, 1}, M2[6] = {2, 0, 0, 0, 0, 2};

static seamless_setup setup_of(uint8_t role, const uint8_t mac[6]) {
    seamless_setup setup = {.role = role, .fixed_key = 1, .net = 1};
    memcpy(setup.mac, mac, 6);
    return setup;
}

static seamless_node open_node(uint8_t role, const uint8_t mac[6]) {
    seamless_setup setup = setup_of(role, mac);
    seamless_node node = SEAMLESS_CLOSED_NODE;
    if (seamless_open(&setup, &node)) {
        puts("clib: a node can not be opened");
        exit(1);
    }
    return node;
}

// Octets written as hexadecimal digits, with a count of zero octets as Z46.
static size_t octets_of(const char *text, uint8_t *octets) {
    size_t count = 0;
    while (*text) {
        if (*text == ' ') {
            text++;
        } else if (*text == 'Z') {
            char *end;
            size_t zeros = strtoul(text + 1, &end, 10);
            memset(octets + count, 0, zeros);
            count += zeros;
            text = end;
        } else {
            unsigned octet = 0;
            sscanf(text, "%2x", &octet);
            octets[count++] = (uint8_t)octet;
            text += 2;
        }
    }
    return count;
}

static uint32_t in(seamless_node *node, uint32_t port, uint64_t now, const char *text) {
    uint8_t octets[2000];
    size_t count = octets_of(text, octets);
    return seamless_receive(node, port, octets, count, now);
}

static uint32_t host_sends(seamless_node *node, const char *text) {
    uint8_t octets[2000];
    size_t count = octets_of(text, octets);
    return seamless_send(node, octets, count, 0);
}

// Whether exactly this frame is taken at a port.
static int out(seamless_node *node, uint32_t port, const char *text) {
    uint8_t want[2000], got[SEAMLESS_MAX_FRAME];
    size_t count = octets_of(text, want);
    return seamless_take(node, port, got, sizeof got) == count && !memcmp(want, got, count);
}

static int is_empty(seamless_node *node) {
    uint8_t got[SEAMLESS_MAX_FRAME];
    for (uint32_t port = SEAMLESS_H; port <= SEAMLESS_C; port++)
        if (seamless_waiting(node, port) || seamless_take(node, port, got, sizeof got))
            return 0;
    return 1;
}

#define PLAIN "020000000001 020000000002 0800 Z46"
#define FRAME(seq, lan) PLAIN " " seq lan "88fb"

static void prp_node(void) {
    seamless_node node = open_node(SEAMLESS_DANP, M1);
    expect("the first copy goes to the host", in(&node, SEAMLESS_A, 0, FRAME("0000", "a034")) == 1 << SEAMLESS_H);
    expect("the second copy goes nowhere", in(&node, SEAMLESS_B, 0, FRAME("0000", "b034")) == 0);
    expect("the host has the frame without its trailer", out(&node, SEAMLESS_H, PLAIN) && is_empty(&node));
    for (int i = 0; i < 2; i++) {
        in(&node, SEAMLESS_A, 0, FRAME("0000", "a035"));
        expect("a frame whose trailer has a wrong size goes up whole", out(&node, SEAMLESS_H, FRAME("0000", "a035")));
    }
    expect("the host's frame is taken", host_sends(&node, "020000000002 020000000001 0800 Z46") == 0);
    expect("it has a trailer at A", out(&node, SEAMLESS_A, "020000000002 020000000001 0800 Z46 fbff a034 88fb"));
    expect("it has a trailer at B", out(&node, SEAMLESS_B, "020000000002 020000000001 0800 Z46 fbff b034 88fb") && is_empty(&node));
    expect("it is closed", seamless_close(&node) == 0 && !node.at);
}

static void ring_nodes(void) {
    seamless_node one = open_node(SEAMLESS_DANH, M1), two = open_node(SEAMLESS_DANH, M2);
    uint8_t a[SEAMLESS_MAX_FRAME], b[SEAMLESS_MAX_FRAME], want[100];
    expect("a ring's frame is sent", host_sends(&one, "ffffffffffff 020000000001 0800 Z46") == 0);
    size_t at_a = seamless_take(&one, SEAMLESS_A, a, sizeof a), at_b = seamless_take(&one, SEAMLESS_B, b, sizeof b);
    size_t wanted = octets_of("ffffffffffff 020000000001 892f 0034 fbff 0800 Z46", want);
    expect("it has a tag at A", at_a == wanted && !memcmp(a, want, wanted));
    wanted = octets_of("ffffffffffff 020000000001 892f 1034 fbff 0800 Z46", want);
    expect("it has a tag at B", at_b == wanted && !memcmp(b, want, wanted));
    expect("it comes in at A", seamless_receive(&two, SEAMLESS_A, a, at_a, 0) == (1 << SEAMLESS_H | 1 << SEAMLESS_B));
    expect("it is handed up without its tag", out(&two, SEAMLESS_H, "ffffffffffff 020000000001 0800 Z46"));
    expect("it goes on as it came", out(&two, SEAMLESS_B, "ffffffffffff 020000000001 892f 0034 fbff 0800 Z46"));
    expect("it comes in at B", seamless_receive(&two, SEAMLESS_B, b, at_b, 0) == 1 << SEAMLESS_A);
    expect("it goes on the other way", out(&two, SEAMLESS_A, "ffffffffffff 020000000001 892f 1034 fbff 0800 Z46") && is_empty(&two));
    expect("it comes home", seamless_receive(&one, SEAMLESS_B, a, at_a, 0) == SEAMLESS_OWN && is_empty(&one));
    seamless_close(&one);
    seamless_close(&two);
}

static void supervision(void) {
    seamless_node node = open_node(SEAMLESS_DANP, M1);
    seamless_tick(&node, 0);
    expect("a supervision frame goes out at A",
           out(&node, SEAMLESS_A, "01154e000100 020000000001 88fb 0001 7dff 14 06 020000000001 0000 Z32 fbff a034 88fb"));
    expect("and at B", out(&node, SEAMLESS_B, "01154e000100 020000000001 88fb 0001 7dff 14 06 020000000001 0000 Z32 fbff b034 88fb"));
    seamless_tick(&node, 1999);
    expect("none at 1999 ms", is_empty(&node));
    seamless_tick(&node, 2000);
    expect("the next at 2000 ms", seamless_waiting(&node, SEAMLESS_A) == 1 && seamless_time(&node) == 2000);
    seamless_close(&node);
}

static void others(void) {
    seamless_node node = open_node(SEAMLESS_DANP, M1);
    seamless_node_entry entry, of;
    seamless_alarm_entry alarm;
    in(&node, SEAMLESS_A, 0, FRAME("0005", "a034"));
    in(&node, SEAMLESS_B, 0, FRAME("0005", "b034"));
    in(&node, SEAMLESS_B, 3000, FRAME("0006", "b034"));
    seamless_tick(&node, 3000);
    in(&node, SEAMLESS_B, 3001, FRAME("0007", "b034"));
    seamless_tick(&node, 3001);
    expect("a node is known", seamless_node_at(&node, 0, &entry) == 0);
    expect("what is known of it", !memcmp(entry.mac, M2, 6) && entry.age_a == 3001 && entry.age_b == 0 && entry.seq_a == 5 && entry.seq_b == 7 && !entry.has_redbox);
    expect("it is known by its address", seamless_node_of(&node, M2, &of) == 0 && of.age_a == 3001 && of.seq_b == 7 && !memcmp(of.mac, M2, 6));
    expect("no second one is known", seamless_node_at(&node, 1, &entry) == SEAMLESS_ARGUMENT && entry.seq_b == 7);
    expect("the node itself is not known", seamless_node_of(&node, M1, &of) == SEAMLESS_ARGUMENT && of.seq_b == 7);
    expect("there is an alarm", seamless_alarm_at(&node, 0, &alarm) == 0);
    expect("it is of port A", alarm.kind == 1 && alarm.port == SEAMLESS_A && alarm.at == 3001 && !memcmp(alarm.mac, M2, 6));
    expect("there is no second alarm", seamless_alarm_at(&node, 1, &alarm) == SEAMLESS_ARGUMENT && alarm.at == 3001);
    seamless_close(&node);
}

// A frame of another source, by the last octet of its address.
static uint32_t in_of(seamless_node *node, uint32_t port, uint64_t now, unsigned source, unsigned number) {
    char text[200];
    snprintf(text, sizeof text, "020000000001 0200000001%02x 0800 Z46 %04x %c034 88fb", source, number, port == SEAMLESS_A ? 'a' : 'b');
    return in(node, port, now, text);
}

static void lists(void) {
    seamless_node node = open_node(SEAMLESS_DANP, M1);
    seamless_node_entry entries[4], one;
    size_t count = 7;
    memset(entries, 7, sizeof entries);
    expect("nobody is known", seamless_nodes(&node, entries, 4, &count) == 0 && count == 0 && entries[0].mac[0] == 7);
    for (unsigned source = 1; source <= 3; source++)
        in_of(&node, SEAMLESS_A, source, source, source);
    expect("all nodes are told at once", seamless_nodes(&node, entries, 4, &count) == 0 && count == 3 && entries[3].mac[0] == 7);
    int same = 1;
    for (unsigned index = 0; index < 3; index++)
        same &= seamless_node_at(&node, index, &one) == 0 && !memcmp(one.mac, entries[index].mac, 6) && one.age_a == entries[index].age_a &&
                one.seq_a == index + 1 && entries[index].seq_a == index + 1 && entries[index].mac[5] == index + 1;
    expect("they are those that are told one by one", same);
    memset(entries, 7, sizeof entries);
    expect("as many as there is room for", seamless_nodes(&node, entries, 2, &count) == 0 && count == 3 && entries[1].seq_a == 2 && entries[2].mac[0] == 7);
    expect("how many there are", seamless_nodes(&node, entries, 0, &count) == 0 && count == 3);
    seamless_close(&node);
}

// Alarms of sources that are heard at B alone: one for each.
static void raise(seamless_node *node, unsigned from, unsigned to, uint64_t now) {
    for (unsigned source = from; source < to; source++)
        in_of(node, SEAMLESS_B, now, source, 0);
    seamless_tick(node, now);
    uint8_t buffer[SEAMLESS_MAX_FRAME];
    for (uint32_t port = SEAMLESS_H; port <= SEAMLESS_B; port++)
        while (seamless_take(node, port, buffer, sizeof buffer)) {
        }
}

static void alarms(void) {
    seamless_node node = open_node(SEAMLESS_DANP, M1);
    seamless_cursor cursor = {0, 0, 0}, late = {0, 0, 0};
    seamless_alarm_entry entries[100];
    size_t count = 7;
    memset(entries, 7, sizeof entries);
    expect("no alarm yet", seamless_alarms_since(&node, &cursor, entries, 100) == 0 && cursor.count == 0 && cursor.number == 0 && entries[0].kind == 7 &&
                               seamless_alarms(&node, entries, 100, &count) == 0 && count == 0);
    raise(&node, 0, 3, 0);
    expect("three alarms by two calls", seamless_alarms_since(&node, &cursor, entries, 2) == 0 && cursor.count == 2 && cursor.number == 2 &&
                                            entries[0].mac[5] == 0 && entries[1].mac[5] == 1 && entries[2].kind == 7 &&
                                            seamless_alarms_since(&node, &cursor, entries, 2) == 0 && cursor.count == 1 && cursor.number == 3 &&
                                            entries[0].mac[5] == 2 && entries[0].kind == 1 && entries[0].port == SEAMLESS_A && entries[1].mac[5] == 1);
    expect("none is told again", seamless_alarms_since(&node, &cursor, entries, 100) == 0 && cursor.count == 0 && cursor.number == 3 && cursor.missed == 0);
    raise(&node, 3, 40, 1);
    raise(&node, 40, 80, 2);
    expect("those that are kept", seamless_alarms(&node, entries, 100, &count) == 0 && count == SEAMLESS_MAX_ALARMS && entries[0].mac[5] == 16 && entries[63].mac[5] == 79);
    expect("what came in between was missed", seamless_alarms_since(&node, &cursor, entries, 100) == 0 && cursor.missed == 13 && cursor.count == 64 &&
                                                  cursor.number == 80 && entries[0].mac[5] == 16 && entries[63].mac[5] == 79);
    expect("one that begins late", seamless_alarms_since(&node, &late, entries, 1) == 0 && late.missed == 16 && late.count == 1 && late.number == 17);
    raise(&node, 80, 81, 3);
    expect("the next one alone", seamless_alarms_since(&node, &cursor, entries, 100) == 0 && cursor.missed == 0 && cursor.count == 1 && cursor.number == 81 &&
                                     entries[0].mac[5] == 80 && entries[0].at == 3);
    late.number = 1000;
    expect("one that wants what is to come", seamless_alarms_since(&node, &late, entries, 100) == 0 && late.count == 0 && late.missed == 0 && late.number == 1000);
    seamless_close(&node);
}

static void proxied(void) {
    seamless_node node = open_node(SEAMLESS_REDBOX_SAN, M1);
    seamless_proxied_entry entries[3] = {{.at = 7}, {.at = 7}, {.at = 7}}, one = {.at = 7};
    size_t count = 7;
    expect("nobody is proxied", seamless_proxied(&node, entries, 3, &count) == 0 && count == 0 && seamless_proxied_at(&node, 0, &one) == SEAMLESS_ARGUMENT && one.at == 7);
    in(&node, SEAMLESS_C, 5, "ffffffffffff 020000000031 0800 Z46");
    in(&node, SEAMLESS_C, 9, "ffffffffffff 020000000032 0800 Z46");
    expect("two addresses are proxied", seamless_proxied(&node, entries, 3, &count) == 0 && count == 2 && entries[0].mac[5] == 0x31 && entries[0].at == 5 &&
                                            entries[1].mac[5] == 0x32 && entries[1].at == 9 && entries[2].at == 7);
    expect("the second one", seamless_proxied_at(&node, 1, &one) == 0 && one.mac[5] == 0x32 && one.at == 9 && seamless_proxied_at(&node, 2, &one) == SEAMLESS_ARGUMENT);
    in(&node, SEAMLESS_A, 60006, "ffffffffffff 020000000002 892f 0034 0000 0800 Z46");
    expect("one that was silent for 60000 ms is not", seamless_proxied(&node, entries, 3, &count) == 0 && count == 1 && entries[0].mac[5] == 0x32 && entries[1].mac[5] == 0x32);
    seamless_close(&node);
    node = open_node(SEAMLESS_DANH, M1);
    expect("a node that is no RedBox proxies nobody", seamless_proxied(&node, entries, 3, &count) == 0 && count == 0);
    seamless_close(&node);
}

static uint8_t snapshot[SEAMLESS_MAX_SNAPSHOT];

static void snapshots(void) {
    static const uint8_t empty[7] = {0x53, 0x52, 0x44, 0x57, 1, 0, 0};
    seamless_node node = open_node(SEAMLESS_DANP, M1), standby = open_node(SEAMLESS_DANP, M1), again = SEAMLESS_CLOSED_NODE;
    size_t count = 0, size = 0;
    expect("the snapshot of a node that heard nobody", seamless_snapshot(&node, snapshot, sizeof snapshot, &count) == 0 && count == 7 && !memcmp(snapshot, empty, 7));
    in(&node, SEAMLESS_A, 100, FRAME("0005", "a034"));
    expect("how many octets it has", seamless_snapshot(&node, snapshot, 0, &size) == 0 && size == 7 + 784);
    memset(snapshot, 9, sizeof snapshot);
    expect("a buffer is too short for it", seamless_snapshot(&node, snapshot, size - 1, &count) == 0 && count == size && snapshot[0] == 9);
    expect("one is not", seamless_snapshot(&node, snapshot, size, &count) == 0 && count == size && snapshot[0] == 0x53 && snapshot[size] == 9);
    seamless_close(&node);

    seamless_setup setup = setup_of(SEAMLESS_DANP, M1);
    expect("a node goes on with it", seamless_resume(&setup, snapshot, size, &again) == 0 && seamless_time(&again) == 100);
    expect("it is refused where the handle is open", seamless_resume(&setup, snapshot, size, &again) == SEAMLESS_OPEN);
    expect("the second copy goes nowhere then", in(&again, SEAMLESS_B, 101, FRAME("0005", "b034")) == 0);
    expect("the next frame goes up", in(&again, SEAMLESS_B, 101, FRAME("0006", "b034")) == 1);
    expect("a standby takes it over", seamless_absorb(&standby, snapshot, size) == 0 && in(&standby, SEAMLESS_B, 101, FRAME("0005", "b034")) == 0);
    seamless_close(&again);

    setup.width = 1;
    expect("a node of the other width goes on with it", seamless_resume(&setup, snapshot, size, &again) == 0 && in(&again, SEAMLESS_B, 101, FRAME("0005", "b034")) == 0);
    expect("its snapshot is longer", seamless_snapshot(&again, snapshot, sizeof snapshot, &count) == 0 && count == 7 + 1552 && snapshot[4] == 2);
    expect("it is taken over at the other width", seamless_absorb(&standby, snapshot, count) == 0);
    seamless_close(&again);
    setup.width = 2;
    expect("no such width", seamless_resume(&setup, snapshot, count, &again) == SEAMLESS_ARGUMENT && !again.at);
    setup.width = 0;
    expect("octets that are no snapshot", seamless_resume(&setup, snapshot, count - 1, &again) == SEAMLESS_SNAPSHOT && !again.at);
    expect("a standby refuses them too", seamless_absorb(&standby, snapshot, 0) == SEAMLESS_SNAPSHOT);
    // The number 5 and the number 32773 of one source are half of all numbers apart.
    node = open_node(SEAMLESS_DANP, M1);
    in(&node, SEAMLESS_A, 102, FRAME("8006", "a034"));
    seamless_snapshot(&node, snapshot, sizeof snapshot, &count);
    seamless_close(&node);
    node = open_node(SEAMLESS_DANP, M1);
    in(&node, SEAMLESS_A, 102, FRAME("0006", "a034"));
    expect("two records that are apart", seamless_absorb(&node, snapshot, count) == SEAMLESS_APART && in(&node, SEAMLESS_B, 102, FRAME("0006", "b034")) == 0);
    seamless_close(&node);
    seamless_close(&standby);
}

// Two nodes of 600 sources each: together there are too many.
static void too_many(void) {
    seamless_node one = open_node(SEAMLESS_DANP, M1), other = open_node(SEAMLESS_DANP, M1);
    uint8_t octets[SEAMLESS_MAX_FRAME];
    for (unsigned source = 0; source < 1200; source++) {
        char text[200];
        snprintf(text, sizeof text, "020000000001 02000000%04x 0800 Z46 0000 a034 88fb", 256 + source);
        in(source < 600 ? &one : &other, SEAMLESS_A, 0, text);
        seamless_take(&one, SEAMLESS_H, octets, sizeof octets);
        seamless_take(&other, SEAMLESS_H, octets, sizeof octets);
    }
    size_t count;
    expect("the snapshot of 600 sources", seamless_snapshot(&other, snapshot, sizeof snapshot, &count) == 0 && count == 7 + 600 * 784);
    expect("there is no room for the sources of both", seamless_absorb(&one, snapshot, count) == SEAMLESS_TABLE_FULL);
    seamless_close(&one);
    seamless_close(&other);
}

static void counters(void) {
    seamless_node node = open_node(SEAMLESS_DANP, M1);
    seamless_counters_entry at_a, at_h;
    uint32_t answer = 0;
    for (unsigned i = 0; i < 257; i++) {
        char text[200];
        snprintf(text, sizeof text, "020000000001 020000000002 0800 Z46 %04x a034 88fb", i);
        answer = in(&node, SEAMLESS_A, 0, text);
    }
    uint8_t octets[SEAMLESS_MAX_FRAME] = {0};
    expect("an outbox is full", answer == SEAMLESS_OUTBOX_FULL && seamless_waiting(&node, SEAMLESS_H) == SEAMLESS_MAX_WAITING);
    memset(octets, 7, sizeof octets);
    expect("a buffer is too short", seamless_take(&node, SEAMLESS_H, octets, 59) == 0 && seamless_waiting(&node, SEAMLESS_H) == 256 && octets[0] == 7);
    expect("one is not", seamless_take(&node, SEAMLESS_H, octets, 60) == 60);
    in(&node, SEAMLESS_A, 0, FRAME("7777", "b034"));
    expect("its own frame comes back", in(&node, SEAMLESS_A, 0, "020000000003 020000000001 0800 Z46 0001 a034 88fb") == SEAMLESS_OWN);
    expect("a frame is too short", seamless_receive(&node, SEAMLESS_A, octets, 13, 0) == SEAMLESS_UNREAD);
    expect("the host sends from another address", host_sends(&node, "020000000002 020000000003 0800 Z46") == SEAMLESS_UNREAD);
    expect("what was counted at A", seamless_counters(&node, SEAMLESS_A, &at_a) == 0 && at_a.received == 260 && at_a.own == 1 && at_a.wrong_lan == 1 && at_a.outbox_full == 1 &&
                                        at_a.unread == 1 && at_a.untagged == 0 && at_a.table_full == 0 && at_a.no_memory == 0 && at_a.sent == 0);
    expect("what was counted of the host", seamless_counters(&node, SEAMLESS_H, &at_h) == 0 && at_h.received == 1 && at_h.own == 0 && at_h.unread == 1 && at_h.sent == 1);
    expect("nothing is counted at a port that there is not", seamless_counters(&node, 4, &at_h) == SEAMLESS_ARGUMENT && at_h.received == 1);
    seamless_close(&node);
}

static void wrong_setups(void) {
    seamless_node node = SEAMLESS_CLOSED_NODE;
    seamless_setup setup = setup_of(5, M1);
    expect("no such role", seamless_open(&setup, &node) == SEAMLESS_ARGUMENT && !node.at);
    setup = setup_of(SEAMLESS_REDBOX_PRP, M1);
    setup.net = 7;
    expect("no such network", seamless_open(&setup, &node) == SEAMLESS_ARGUMENT && !node.at);
    setup.net = 0;
    expect("no network", seamless_open(&setup, &node) == SEAMLESS_ARGUMENT);
    setup.net = 6;
    setup.lan = 2;
    expect("no such LAN", seamless_open(&setup, &node) == SEAMLESS_ARGUMENT);
    setup = setup_of(SEAMLESS_DANP, M1);
    setup.mode = 2;
    expect("no such mode", seamless_open(&setup, &node) == SEAMLESS_ARGUMENT);
    setup.mode = 0;
    setup.width = 2;
    expect("no such width", seamless_open(&setup, &node) == SEAMLESS_ARGUMENT);
    setup.width = 0;
    setup.fixed_key = 2;
    expect("no such key", seamless_open(&setup, &node) == SEAMLESS_ARGUMENT);
    setup.fixed_key = 0;
    expect("a key that was forgotten", seamless_open(&setup, &node) == SEAMLESS_ARGUMENT && !node.at);
    setup.key[31] = 1;
    expect("a key of the caller", seamless_open(&setup, &node) == 0 && node.at);
    void *at = node.at;
    expect("a handle that is open already", seamless_open(&setup, &node) == SEAMLESS_OPEN && node.at == at);
    expect("a node under that key takes a frame", in(&node, SEAMLESS_A, 0, FRAME("0000", "a034")) == 1 && out(&node, SEAMLESS_H, PLAIN));
    seamless_close(&node);
}

static void wrong_ports(void) {
    seamless_node node = open_node(SEAMLESS_DANH, M1);
    uint8_t octets[1600] = {0};
    expect("no octets", seamless_receive(&node, SEAMLESS_A, octets, 0, 0) == SEAMLESS_UNREAD);
    expect("too many octets", seamless_receive(&node, SEAMLESS_A, octets, 1525, 0) == SEAMLESS_UNREAD);
    expect("no tag", in(&node, SEAMLESS_A, 0, PLAIN) == SEAMLESS_UNTAGGED);
    expect("nothing comes in at the host's port", in(&node, SEAMLESS_H, 0, PLAIN) == SEAMLESS_UNTAGGED);
    expect("no such port", seamless_receive(&node, 4, octets, 60, 0) == SEAMLESS_ARGUMENT && !seamless_waiting(&node, 9) && !seamless_take(&node, 4, octets, 1600));
    seamless_close(&node);
    node = open_node(SEAMLESS_DANP, M1);
    expect("nothing of port C of a node without an interlink goes anywhere", in(&node, SEAMLESS_C, 0, PLAIN) == 0 && is_empty(&node));
    seamless_close(&node);
}

// Each call at a handle that is closed, or was never opened, says so and changes nothing.
static void closed(seamless_node *node, const char *name) {
    uint8_t octets[SEAMLESS_MAX_FRAME] = {7};
    seamless_node_entry entry = {.seq_a = 7};
    seamless_alarm_entry alarm = {.at = 7};
    seamless_counters_entry counted = {.sent = 7};
    seamless_proxied_entry proxied = {.at = 7};
    seamless_cursor cursor = {7, 7, 7};
    size_t count = 7;
    expect(name, seamless_receive(node, SEAMLESS_A, octets, 60, 0) == SEAMLESS_CLOSED && seamless_send(node, octets, 60, 0) == SEAMLESS_CLOSED &&
                     seamless_tick(node, 0) == SEAMLESS_CLOSED && seamless_take(node, SEAMLESS_A, octets, sizeof octets) == 0 && octets[0] == 7 &&
                     seamless_waiting(node, SEAMLESS_A) == 0 && seamless_time(node) == 0 &&
                     seamless_counters(node, SEAMLESS_A, &counted) == SEAMLESS_CLOSED && counted.sent == 7 &&
                     seamless_node_at(node, 0, &entry) == SEAMLESS_CLOSED && seamless_node_of(node, M1, &entry) == SEAMLESS_CLOSED && entry.seq_a == 7 &&
                     seamless_alarm_at(node, 0, &alarm) == SEAMLESS_CLOSED && seamless_proxied_at(node, 0, &proxied) == SEAMLESS_CLOSED &&
                     seamless_nodes(node, &entry, 1, &count) == SEAMLESS_CLOSED && seamless_alarms(node, &alarm, 1, &count) == SEAMLESS_CLOSED &&
                     seamless_alarms_since(node, &cursor, &alarm, 1) == SEAMLESS_CLOSED && seamless_proxied(node, &proxied, 1, &count) == SEAMLESS_CLOSED &&
                     seamless_snapshot(node, octets, sizeof octets, &count) == SEAMLESS_CLOSED && seamless_absorb(node, octets, 7) == SEAMLESS_CLOSED &&
                     entry.seq_a == 7 && alarm.at == 7 && proxied.at == 7 && cursor.number == 7 && cursor.missed == 7 && cursor.count == 7 && count == 7 &&
                     octets[0] == 7 && seamless_close(node) == SEAMLESS_CLOSED && !node->at);
}

static void closed_handles(void) {
    seamless_node node = SEAMLESS_CLOSED_NODE;
    closed(&node, "a handle that was never opened");
    node = open_node(SEAMLESS_REDBOX_SAN, M1);
    seamless_close(&node);
    closed(&node, "a handle that was closed");
    seamless_setup setup = setup_of(SEAMLESS_DANH, M1);
    expect("it is opened again", seamless_open(&setup, &node) == 0 && seamless_waiting(&node, SEAMLESS_A) == 0);
    seamless_close(&node);
}

int main(void) {
    expect("the library has this interface", seamless_abi() == SEAMLESS_ABI);
    expect("it has this version", seamless_version() == SEAMLESS_VERSION);
    prp_node();
    ring_nodes();
    supervision();
    others();
    lists();
    alarms();
    proxied();
    snapshots();
    too_many();
    counters();
    wrong_setups();
    wrong_ports();
    closed_handles();
    printf("%d passed, %d failed\n", passed, failed);
    return failed != 0;
}
