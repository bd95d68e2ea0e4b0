// What a frame costs through the C interface: speed WORK TIMES. Two runs, with two numbers of times, tell what one time costs.
//     pairs    a frame of 66 octets at A, its second copy at B, the host takes it (two frames in, one out): a DANP
//     ring     a frame of 66 octets to another at A, taken at B, and its copy at B, taken at A: a DANH
//     send     the host sends 60 octets, and they are taken at A and B: a DANP
//     empty    octets that are too short: what a call costs
#include "seamless.h"

#include <stdio.h>
#include <stdlib.h>
#include <string.h>
#include <time.h>

static uint8_t buffer[SEAMLESS_MAX_FRAME];

int main(int count, char **words) {
    if (count != 3)
        return 2;
    const char *work = words[1];
    unsigned long times = strtoul(words[2], NULL, 10), seen = 0;
    int ring = !strcmp(work, "ring");
    seamless_setup setup = {.mac = {2, 0, 0, 0, 0, 1}, .role = ring ? SEAMLESS_DANH : SEAMLESS_DANP, .fixed_key = 1};
    seamless_node node = SEAMLESS_CLOSED_NODE;
    if (seamless_open(&setup, &node))
        return 1;
    uint8_t a[66] = {2, 0, 0, 0, 0, 1, 2, 0, 0, 0, 0, 2, 8, 0}, b[66];
    if (ring) {
        memcpy(a, (uint8_t[]){2, 0, 0, 0, 0, 9, 2, 0, 0, 0, 0, 2, 0x89, 0x2f, 0, 0x34, 0, 0, 8, 0}, 20);
    } else {
        memcpy(a + 60, (uint8_t[]){0, 0, 0xa0, 0x34, 0x88, 0xfb}, 6);
    }
    memcpy(b, a, 66);
    if (ring)
        b[14] |= 0x10;
    else
        b[62] = 0xb0;
    uint8_t frame[60] = {2, 0, 0, 0, 0, 9, 2, 0, 0, 0, 0, 1, 8, 0};
    struct timespec begin, end;
    clock_gettime(CLOCK_MONOTONIC, &begin);
    for (unsigned long i = 0; i < times; i++) {
        uint8_t high = (uint8_t)(i >> 12), low = (uint8_t)(i >> 4);
        uint64_t now = i >> 10;
        if (!strcmp(work, "send")) {
            seen += !seamless_send(&node, frame, sizeof frame, now);
            seen += seamless_take(&node, SEAMLESS_A, buffer, sizeof buffer) != 0;
            seen += seamless_take(&node, SEAMLESS_B, buffer, sizeof buffer) != 0;
        } else if (!strcmp(work, "empty")) {
            seen += seamless_receive(&node, SEAMLESS_A, a, 13, now) == SEAMLESS_UNREAD;
        } else {
            a[11] = b[11] = (uint8_t)(16 + i % 16);
            size_t at = ring ? 16 : 60;
            a[at] = b[at] = high;
            a[at + 1] = b[at + 1] = low;
            seen += seamless_receive(&node, SEAMLESS_A, a, 66, now);
            seen += seamless_take(&node, ring ? SEAMLESS_B : SEAMLESS_H, buffer, sizeof buffer) != 0;
            seen += seamless_receive(&node, SEAMLESS_B, b, 66, now);
            if (ring)
                seen += seamless_take(&node, SEAMLESS_A, buffer, sizeof buffer) != 0;
        }
    }
    clock_gettime(CLOCK_MONOTONIC, &end);
    double ns = (double)(end.tv_sec - begin.tv_sec) * 1e9 + (double)(end.tv_nsec - begin.tv_nsec);
    printf("%s: %lu times, seen %lu, %.1f ns a time\n", work, times, seen, ns / (double)times);
    return seamless_close(&node) != 0;
}
