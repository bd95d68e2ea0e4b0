// The key of a setup is the key of each table of its node: addresses that meet under the fixed key (gate/c/meeting.c prints such ones) take
// longer than others at a node of the fixed key alone. At one that has a key of the system's random source they take no longer, opened anew
// and resumed. It reads the addresses, says what took longer, and ends with 1 then.
#include "seamless.h"

#include <inttypes.h>
#include <stdio.h>
#include <string.h>
#include <sys/random.h>
#include <time.h>

enum { ADDRESSES = 1000, ROUNDS = 100, TRIES = 7, SNAPSHOT = 1 << 20 };

static uint8_t snapshot[SNAPSHOT];

static double seconds(void) {
    struct timespec now;
    clock_gettime(CLOCK_PROCESS_CPUTIME_ID, &now);
    return (double)now.tv_sec + (double)now.tv_nsec / 1e9;
}

static void put_source(uint8_t *frame, uint64_t address) {
    for (int at = 5; at >= 0; at--, address >>= 8)
        frame[6 + at] = (uint8_t)address;
}

// One frame of each address, in each of some rounds: at LAN A of a DANP, at the interlink of a RedBox.
static int feed(seamless_node *node, uint8_t role, const uint64_t *addresses, int rounds) {
    uint8_t frame[66] = {2, 0, 0, 0, 0, 1, 0, 0, 0, 0, 0, 0, 8, 0}, taken[SEAMLESS_MAX_FRAME];
    memcpy(frame + 60, (uint8_t[]){0, 0, 0xa0, 0x34, 0x88, 0xfb}, 6);
    for (int round = 0; round < rounds; round++) {
        frame[61] = (uint8_t)round;
        for (int at = 0; at < ADDRESSES; at++) {
            put_source(frame, addresses[at]);
            int is_box = role == SEAMLESS_REDBOX_SAN;
            uint32_t answer = seamless_receive(node, is_box ? SEAMLESS_C : SEAMLESS_A, frame, is_box ? 60 : 66, 0);
            if (SEAMLESS_FAILED(answer))
                return 0;
            for (uint32_t port = SEAMLESS_H; port <= SEAMLESS_C; port++)
                if (answer & (1u << port))
                    seamless_take(node, port, taken, sizeof taken);
        }
    }
    return 1;
}

// The least time of some tries, or -1 where a call failed.
static double time_of(const seamless_setup *setup, const uint64_t *addresses, int is_resumed) {
    double least = -1;
    for (int try = 0; try < TRIES; try++) {
        seamless_node node = SEAMLESS_CLOSED_NODE;
        if (seamless_open(setup, &node))
            return -1;
        if (is_resumed) {
            size_t count = 0;
            int is_kept = feed(&node, setup->role, addresses, 1) && !seamless_snapshot(&node, snapshot, sizeof snapshot, &count);
            seamless_close(&node);
            if (!is_kept || seamless_resume(setup, snapshot, count, &node))
                return -1;
        }
        double begun = seconds();
        int is_fed = feed(&node, setup->role, addresses, ROUNDS);
        double took = seconds() - begun;
        seamless_close(&node);
        if (!is_fed)
            return -1;
        if (least < 0 || took < least)
            least = took;
    }
    return least;
}

static int is_longer(const seamless_setup *setup, const uint64_t *others, const uint64_t *meeting, int is_resumed) {
    double one = time_of(setup, others, is_resumed), other = time_of(setup, meeting, is_resumed);
    printf("role %u, %s key%s: %.4f s of addresses, %.4f s of as many that meet\n", setup->role, setup->fixed_key ? "fixed" : "drawn",
           is_resumed ? ", resumed" : "", one, other);
    return one < 0 || other < 0 ? -1 : other > 1.3 * one;
}

int main(void) {
    uint64_t meeting[ADDRESSES], others[ADDRESSES];
    for (int at = 0; at < ADDRESSES; at++) {
        if (scanf("%" SCNx64, &meeting[at]) != 1)
            return 2;
        others[at] = 0x020000100000 + (uint64_t)at;
    }
    int is_wrong = 0;
    for (int at = 0; at < 3; at++) {
        uint8_t role = at == 1 ? SEAMLESS_REDBOX_SAN : SEAMLESS_DANP;
        seamless_setup setup = {.mac = {2, 0, 0, 0, 0, 1}, .role = role};
        if (getrandom(setup.key, sizeof setup.key, 0) != sizeof setup.key)
            return 2;
        is_wrong |= is_longer(&setup, others, meeting, at == 2) != 0;
        setup.fixed_key = 1;
        is_wrong |= is_longer(&setup, others, meeting, at == 2) != 1;
    }
    return is_wrong;
}
